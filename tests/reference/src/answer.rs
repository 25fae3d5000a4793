//! Answers: one number for each call, packed as the C header says.

/// Taken; no further answer.
pub const DONE: u8 = 0;
/// A turn: an event fired.
pub const EVENT: u8 = 1;
/// A turn: none. The number 2 was a stray response and is not given again.
pub const NONE: u8 = 3;
/// A module bids.
pub const BIDS: u8 = 4;
/// A supervisor sends its permit.
pub const SENDS: u8 = 5;
/// A step that waits.
pub const WAITS: u8 = 6;
/// Every reachable joint state can reach one with all modules marked.
pub const FREE: u8 = 7;
/// Some cannot: a word that leads to one, and that state, were written.
pub const STUCK: u8 = 8;

/// A refusal: a number of the papers and a byte offset.
#[derive(Clone, Copy, Debug, PartialEq, Eq)]
pub struct Refusal {
    pub number: u8,
    pub offset: u32,
}

/// A refusal of a call itself: its offset is 0.
pub const fn refusal(number: u8) -> Refusal {
    Refusal { number, offset: 0 }
}

pub type Result<T> = core::result::Result<T, Refusal>;

/// The answer of an accepted call: what was done, of what, and how many bytes it has or wrote.
#[derive(Clone, Copy, Debug, PartialEq, Eq)]
pub struct Answer {
    pub did: u8,
    pub value: u8,
    pub length: u32,
}

impl Answer {
    pub const fn new(did: u8, value: u8, length: usize) -> Answer {
        Answer {
            did,
            value,
            length: length as u32,
        }
    }

    pub const fn done() -> Answer {
        Answer::new(DONE, 0, 0)
    }
}

/// Bits 0..7 the refusal's number with its offset in bits 32..63; or bits 8..15 did, 16..23 value, 32..63 length.
pub const fn pack(result: Result<Answer>) -> u64 {
    match result {
        Ok(answer) => (answer.did as u64) << 8 | (answer.value as u64) << 16 | (answer.length as u64) << 32,
        Err(refusal) => refusal.number as u64 | (refusal.offset as u64) << 32,
    }
}

/// The refusal's number of a packed answer, 0 if it was accepted.
pub const fn number(answer: u64) -> u8 {
    answer as u8
}

/// The byte offset of a refused call.
pub const fn offset(answer: u64) -> u32 {
    if number(answer) != 0 {
        (answer >> 32) as u32
    } else {
        0
    }
}

/// What an accepted call did.
pub const fn did(answer: u64) -> u8 {
    (answer >> 8) as u8
}

/// Of what an accepted call did it.
pub const fn value(answer: u64) -> u8 {
    (answer >> 16) as u8
}

/// How many bytes an accepted call wrote, or the record or message read has.
pub const fn length(answer: u64) -> u32 {
    if number(answer) == 0 {
        (answer >> 32) as u32
    } else {
        0
    }
}

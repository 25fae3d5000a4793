//! Images cut into pieces, and states of the check in pieces, most of which no call has left.

use super::damage::{damaged, KINDS, LIMITS};
use super::inputs::{case, start_buffer, Case, Ground};
use super::Rng;
use crate::calls::Call;
use crate::pieces::CHECK_BYTES;
use crate::plan::{body_length, EVENT, IMAGE_LIMIT, MODULE, STEP, SUPERVISOR};

/// Pieces for a forged state have at most so many bytes.
const PIECE_BYTES: usize = 600;
/// So many bytes of an image are handed over one by one.
const SINGLE_BYTES: usize = 128;

/// The pieces that offsets, ascending, cut an image into; equal ones make empty pieces.
pub fn pieces<'a>(image: &'a [u8], cuts: &'a [usize]) -> impl Iterator<Item = &'a [u8]> {
    let begins = [0].into_iter().chain(cuts.iter().copied());
    let ends = cuts.iter().copied().chain([image.len()]);
    begins.zip(ends).map(|(begin, end)| &image[begin..end])
}

/// Up to eight places to cut an image at, some of them at its ends or equal.
pub fn some_cuts(rng: &mut Rng, length: usize) -> Vec<usize> {
    let mut cuts: Vec<usize> = (0..rng.below(9))
        .map(|_| match rng.below(8) {
            0 => 0,
            1 => length,
            _ => rng.below(length + 1),
        })
        .collect();
    if let [first, second, ..] = &mut cuts[..] {
        if rng.chance(20) {
            *second = *first;
        }
    }
    cuts.sort_unstable();
    cuts
}

/// Cuts that hand an image over byte by byte; of a long one, a stretch somewhere.
pub fn single_bytes(rng: &mut Rng, length: usize) -> Vec<usize> {
    let begin = rng.below((length + 1).saturating_sub(SINGLE_BYTES));
    (begin.max(1)..length.min(begin + SINGLE_BYTES)).collect()
}

/// Draws calls on forged states; after an accepted piece, what the answer then is.
pub fn forged() -> impl FnMut(&mut Rng, &Ground) -> Case {
    let mut after = None;
    move |rng, ground| {
        if let Some(state) = after.take() {
            return Case {
                state,
                ..case(Call::CheckAnswer)
            };
        }
        let case = forged_case(rng, ground);
        let mut state = case.state.clone();
        if matches!(case.call, Call::CheckPiece) && crate::check_piece(&mut state, &case.image) == 0 {
            after = Some(state);
        }
        case
    }
}

fn forged_case(rng: &mut Rng, ground: &Ground) -> Case {
    if rng.chance(4) {
        let buffer = start_buffer(rng, CHECK_BYTES);
        return Case {
            buffer,
            ..case(Call::CheckStart)
        };
    }
    let (mut state, next) = match rng.below(10) {
        0 => (random_state(rng), Vec::new()),
        1..=5 => (loose_state(rng), Vec::new()),
        _ => left_state(rng, ground),
    };
    let piece = match rng.below(10) {
        0 => {
            let length = rng.below(PIECE_BYTES + 1);
            rng.bytes(length)
        }
        1 => Vec::new(),
        2..=5 if !next.is_empty() => next,
        _ => records(rng),
    };
    if rng.chance(12) {
        spoil(rng, &mut state);
    }
    Case {
        state,
        image: piece,
        ..case(if rng.chance(90) { Call::CheckPiece } else { Call::CheckAnswer })
    }
}

/// Makes bytes stand for no state, mostly.
fn spoil(rng: &mut Rng, state: &mut Vec<u8>) {
    match rng.below(7) {
        0 => state[0] = rng.between(3, 255) as u8,
        1 => state[23] = rng.between(2, 255) as u8,
        2 => {
            state[..6].fill(0);
            state[0] = rng.below(2) as u8;
            state[rng.between(1, 5)] = rng.between(1, 255) as u8;
        }
        3 => state[..2].copy_from_slice(&[2, rng.pick(&[0, 1, 9, 255])]),
        4 => state[..2].copy_from_slice(&[2, rng.pick(&[2, 8])]),
        5 => state.truncate(rng.pick(&[0, 1, 23, 494])),
        _ => state.push(rng.byte()),
    }
}

fn stage(rng: &mut Rng, state: &mut [u8]) {
    state[..6].fill(0);
    match rng.below(10) {
        0 => state[0] = 1,
        1 => {
            state[0] = 2;
            state[1] = rng.between(2, 8) as u8;
            state[2..6].copy_from_slice(&(rng.word() as u32).to_be_bytes());
        }
        _ => {}
    }
}

/// Bytes of no meaning but legal flags.
fn random_state(rng: &mut Rng) -> Vec<u8> {
    let mut state = rng.bytes(CHECK_BYTES);
    stage(rng, &mut state);
    state[23] &= 1;
    state
}

fn some_byte(rng: &mut Rng) -> u8 {
    if rng.chance(85) {
        rng.pick(&LIMITS)
    } else {
        rng.byte()
    }
}

fn some_mask(rng: &mut Rng) -> u64 {
    let all = rng.pick(&[u64::MAX, u64::MAX, 0xFFFF, 0xFFFF_FFFF, 0]);
    match rng.below(4) {
        0 => rng.word(),
        1 => all & rng.word(),
        2 => all & (rng.word() | rng.word() | rng.word()),
        _ => all,
    }
}

/// How many bytes were taken: few, about as many as may be, or more.
fn some_taken(rng: &mut Rng) -> u32 {
    match rng.below(8) {
        0 => rng.pick(&[IMAGE_LIMIT as u32, IMAGE_LIMIT as u32 + 1, u32::MAX, 1 << 31]),
        1 => (IMAGE_LIMIT - rng.below(PIECE_BYTES)) as u32,
        2 => rng.below(20) as u32,
        3 => rng.word() as u32,
        _ => rng.below(IMAGE_LIMIT) as u32,
    }
}

/// The bytes of a record that has begun, now and then of no kind, and how many they are, or how many they cannot be.
fn some_cut(rng: &mut Rng, state: &mut [u8]) {
    let mut record = record(rng);
    if rng.chance(10) {
        record[0] = rng.byte();
    }
    state[10] = match rng.below(8) {
        0..=3 => 0,
        4..=5 => rng.below(record.len()) as u8,
        6 => rng.pick(&[1, 11, 12, 13, 254, 255, 255]),
        _ => rng.byte(),
    };
    if rng.chance(70) {
        state[11..11 + record.len()].copy_from_slice(&record);
    }
}

/// What no call leaves, but what lets many records pass: much is declared, and little came before.
fn loose_state(rng: &mut Rng) -> Vec<u8> {
    let mut state = vec![0; CHECK_BYTES];
    stage(rng, &mut state);
    state[6..10].copy_from_slice(&some_taken(rng).to_be_bytes());
    some_cut(rng, &mut state);
    state[23] = u8::from(rng.chance(85));
    state[24] = if rng.chance(50) {
        rng.below(0x10) as u8
    } else {
        rng.between(0x10, 0x20) as u8
    };
    for byte in &mut state[25..31] {
        *byte = some_byte(rng);
    }
    if rng.chance(50) {
        state[28..31].fill(255);
    }
    for at in [31, 39, 175, 199] {
        state[at..at + 8].copy_from_slice(&some_mask(rng).to_be_bytes());
    }
    for table in [47..111, 111..175, 183..199, 207..239] {
        let (alike, byte) = (rng.chance(50), some_byte(rng));
        for entry in &mut state[table] {
            *entry = if alike { byte } else { some_byte(rng) };
        }
    }
    for at in (239..CHECK_BYTES).step_by(8) {
        state[at..at + 8].copy_from_slice(&some_mask(rng).to_be_bytes());
    }
    state
}

/// A state that is left after the beginning of an image, now and then with a few bytes changed, and what comes next.
fn left_state(rng: &mut Rng, ground: &Ground) -> (Vec<u8>, Vec<u8>) {
    let image = if rng.chance(60) {
        ground.image.to_vec()
    } else {
        damaged(rng, ground.records)
    };
    let (begin, next) = image.split_at(rng.below(image.len() + 1));
    let mut state = vec![0; CHECK_BYTES];
    crate::check_start(&mut state);
    crate::check_piece(&mut state, begin);
    for _ in 0..rng.pick(&[0, 0, 1, 3]) {
        let at = match rng.below(5) {
            0 => rng.between(6, 22),
            1 => rng.between(24, 30),
            2 => rng.between(31, 46),
            3 => rng.between(175, 206),
            _ => rng.between(47, CHECK_BYTES - 1),
        };
        state[at] = some_byte(rng);
    }
    let length = rng.below(PIECE_BYTES + 1).min(next.len());
    (state, next[..length].to_vec())
}

/// A whole record of some kind and fields, often in their ranges.
fn record(rng: &mut Rng) -> Vec<u8> {
    let kind = if rng.chance(97) { rng.pick(&KINDS) } else { rng.byte() };
    let body = body_length(kind).unwrap_or(0);
    let small = rng.chance(50);
    let fields = (0..body).map(|_| if small { rng.below(4) as u8 } else { some_byte(rng) });
    let mut record: Vec<u8> = [kind].into_iter().chain(fields).collect();
    if body > 4 {
        let word = some_word(rng);
        record[body - 7..].copy_from_slice(&word.to_be_bytes());
    }
    if rng.chance(70) {
        match kind {
            EVENT => record[3] &= 1,
            MODULE | SUPERVISOR => {
                record[2] = rng.between(1, 32) as u8;
                record[3] = rng.below(usize::from(record[2])) as u8;
            }
            STEP => record[3] = rng.between(1, 5) as u8,
            _ => {}
        }
    }
    record
}

/// A field of eight bytes: no bits, a small number, a mask, litres or anything.
fn some_word(rng: &mut Rng) -> u64 {
    match rng.below(6) {
        0 => 0,
        1 | 2 => rng.below(70) as u64,
        3 => some_mask(rng) & some_mask(rng),
        4 => rng.pick(&[0.125f64, 64.0, 131_072.0, 0.1]).to_bits(),
        _ => rng.word(),
    }
}

/// Records, mostly ascending; the last one may be cut.
fn records(rng: &mut Rng) -> Vec<u8> {
    let count = if rng.chance(60) { rng.between(1, 3) } else { rng.between(1, 30) };
    let mut records: Vec<Vec<u8>> = (0..count).map(|_| record(rng)).collect();
    if rng.chance(80) {
        records.sort();
    }
    if rng.chance(50) {
        records.retain(|record| record[0] < 0x1F);
    }
    let mut piece = records.concat();
    let length = if rng.chance(50) { piece.len() } else { rng.below(piece.len() + 1) };
    piece.truncate(length.min(PIECE_BYTES));
    piece
}

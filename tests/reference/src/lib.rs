//! The orchard supervisory engine, written a second time from document 01 and the change requests alone.
//!
//! It is the other side of a differential test of the proved engine and the yardstick of its benchmark, so nothing here was taken
//! from that engine: only the papers, the readings of their open places, and the C header's bytes. Every call of the header stands here
//! under its name, over slices. A refused call leaves every lent byte as it was.

#![forbid(unsafe_code)]

pub mod answer;
pub mod calls;
pub mod cases;
mod device;
mod joint;
pub mod message;
mod module;
pub mod pages;
pub mod pieces;
pub mod plan;
mod procedure;
pub mod state;
mod supervisor;
mod turn;

use answer::{pack, refusal, Answer, DONE};
use message::Message;
use procedure::Reading;

/// Checks a plan image.
pub fn check(image: &[u8]) -> u64 {
    pack(plan::check(image).map(|_| Answer::done()))
}

/// Writes the starting state of the check in pieces.
pub fn check_start(state: &mut [u8]) -> u64 {
    pack(pieces::start(state))
}

/// Takes the next piece of a plan image.
pub fn check_piece(state: &mut [u8], piece: &[u8]) -> u64 {
    pack(pieces::piece(state, piece))
}

/// The check's answer for the bytes handed over so far.
pub fn check_answer(state: &[u8]) -> u64 {
    pack(pieces::answer(state))
}

/// Whether the plan ever gets stuck: writes a word that leads to a stuck joint state, and that state.
pub fn find_stuck(image: &[u8], buffer: &mut [u8]) -> u64 {
    pack(joint::find_stuck(image, buffer))
}

/// Writes how many words of a length end in each reachable joint state, and their sum, one number a line.
pub fn count_words(image: &[u8], length: u64, buffer: &mut [u8]) -> u64 {
    pack(joint::count_words(image, length, buffer))
}

/// Writes a plan as text: a line for each record, in columns, and blank lines up to the end of the last page.
pub fn print_plan(image: &[u8], buffer: &mut [u8]) -> u64 {
    pack(pages::print_plan(image, buffer))
}

/// Reads the record at an offset by shape alone: the value is its kind, the length that of the whole record.
pub fn read_record(image: &[u8], offset: usize) -> u64 {
    pack(plan::read(image, offset).map(|(kind, body)| Answer::new(DONE, kind, 1 + body.len())))
}

/// Writes one record: the kind, its one-byte fields in the table's order, and its field of eight bytes.
pub fn write_record(kind: u8, first: u8, second: u8, third: u8, fourth: u8, word: u64, buffer: &mut [u8]) -> u64 {
    pack(plan::write(kind, [first, second, third, fourth], word, buffer).map(|length| Answer::new(DONE, 0, length)))
}

pub fn device_start(image: &[u8], buffer: &mut [u8]) -> u64 {
    pack(device::start(image, buffer))
}

pub fn device_turn(image: &[u8], state: &mut [u8], module: u8) -> u64 {
    pack(device::turn(image, state, module))
}

pub fn device_respond(image: &[u8], state: &mut [u8], module: u8, event: u8) -> u64 {
    pack(device::respond(image, state, module, event))
}

pub fn device_tick(image: &[u8], state: &mut [u8], module: u8, sensor: u8, litres: f64) -> u64 {
    pack(device::tick(image, state, module, Reading::new(sensor, litres)))
}

pub fn module_start(image: &[u8], module: u8, buffer: &mut [u8]) -> u64 {
    pack(module::start(image, module, buffer))
}

pub fn module_step(image: &[u8], state: &mut [u8], module: u8, buffer: &mut [u8]) -> u64 {
    pack(module::step(image, state, module, buffer))
}

pub fn module_deliver(image: &[u8], state: &mut [u8], module: u8, message: &[u8]) -> u64 {
    pack(module::deliver(image, state, module, message))
}

pub fn module_respond(image: &[u8], state: &mut [u8], module: u8, event: u8) -> u64 {
    pack(module::respond(image, state, module, event))
}

pub fn module_tick(image: &[u8], state: &mut [u8], module: u8, sensor: u8, litres: f64) -> u64 {
    pack(module::tick(image, state, module, Reading::new(sensor, litres)))
}

pub fn supervisor_start(image: &[u8], supervisor: u8, buffer: &mut [u8]) -> u64 {
    pack(supervisor::start(image, supervisor, buffer))
}

pub fn supervisor_step(image: &[u8], state: &mut [u8], supervisor: u8, buffer: &mut [u8]) -> u64 {
    pack(supervisor::step(image, state, supervisor, buffer))
}

pub fn supervisor_deliver(image: &[u8], state: &mut [u8], supervisor: u8, message: &[u8]) -> u64 {
    pack(supervisor::deliver(image, state, supervisor, message))
}

/// Reads a message by shape alone: the value is its kind, the length its bytes.
pub fn read_message(message: &[u8]) -> u64 {
    pack(Message::read(message).map(|message| Answer::new(DONE, message.kind(), message.length())))
}

/// Writes one message: the kind, its two parties in the message's order, a release's event and a permit's mask.
pub fn write_message(kind: u8, first: u8, second: u8, event: u8, mask: u64, buffer: &mut [u8]) -> u64 {
    let message = match kind {
        message::BID => Message::Bid {
            module: first,
            supervisor: second,
        },
        message::PERMIT => Message::Permit {
            supervisor: first,
            module: second,
            mask,
        },
        message::RELEASE => Message::Release {
            module: first,
            supervisor: second,
            event,
        },
        _ => return pack(Err(refusal(10))),
    };
    pack(message.write(buffer).map(|length| Answer::new(DONE, 0, length)))
}

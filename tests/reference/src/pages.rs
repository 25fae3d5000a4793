//! A plan on paper: a line of columns for each record, 60 lines to a page.

use crate::answer::{refusal, Answer, Result, DONE};
use crate::plan;

/// 72 characters and a line feed.
pub const LINE_BYTES: usize = 73;
pub const PAGE_LINES: usize = 60;

/// The columns: the name, four one-byte fields, and 32 characters of which the digits of the field of eight bytes are the last 16.
const NAME: usize = 16;
const FIELD: usize = 6;
const FIELDS_END: usize = NAME + 4 * FIELD;
const WORD: usize = 56;
const WORD_END: usize = 72;

type Line = [u8; LINE_BYTES];

const BLANK: Line = {
    let mut line = [b' '; LINE_BYTES];
    line[WORD_END] = b'\n';
    line
};

const DIGITS: &[u8; 16] = b"0123456789ABCDEF";

/// The name of a known kind, padded to its column.
const fn name(kind: u8) -> &'static [u8; NAME] {
    match kind {
        plan::HEAD => b"head            ",
        plan::EVENT => b"event           ",
        plan::MODULE => b"module          ",
        plan::MODULE_MOVE => b"module move     ",
        plan::SUPERVISOR => b"supervisor      ",
        plan::SUPERVISOR_MOVE => b"supervisor move ",
        plan::DISABLING => b"disabling       ",
        plan::STEP => b"procedure step  ",
        plan::MARKING => b"marking         ",
        _ => b"end             ",
    }
}

/// The records of an accepted plan, each as its kind and its body.
fn records(image: &[u8]) -> impl Iterator<Item = (u8, &[u8])> {
    let mut offset = 0;
    std::iter::from_fn(move || {
        let (kind, body) = plan::read(image, offset).ok()?;
        offset += 1 + body.len();
        Some((kind, body))
    })
}

/// Writes a number without leading zeros at the right of a blank column.
fn decimal(column: &mut [u8; FIELD], number: u8) {
    column[5] = b'0' + number % 10;
    if number >= 10 {
        column[4] = b'0' + number / 10 % 10;
    }
    if number >= 100 {
        column[3] = b'0' + number / 100;
    }
}

fn write_line(line: &mut Line, kind: u8, body: &[u8]) {
    *line = BLANK;
    line[..NAME].copy_from_slice(name(kind));
    let (fields, word) = body.split_at(plan::byte_fields(kind));
    for (column, &field) in line[NAME..FIELDS_END].as_chunks_mut().0.iter_mut().zip(fields) {
        decimal(column, field);
    }
    for (pair, byte) in line[WORD..WORD_END].as_chunks_mut().0.iter_mut().zip(word) {
        *pair = [DIGITS[usize::from(byte >> 4)], DIGITS[usize::from(byte & 15)]];
    }
}

/// Writes the page set of a plan: a line for each record in the image's order, then blank lines up to the end of the last page.
pub fn print_plan(image: &[u8], buffer: &mut [u8]) -> Result<Answer> {
    plan::check(image)?;
    let count = records(image).count();
    let length = count.div_ceil(PAGE_LINES) * PAGE_LINES * LINE_BYTES;
    let text = buffer.get_mut(..length).ok_or(refusal(15))?;
    let (lines, blank) = text.as_chunks_mut().0.split_at_mut(count);
    for (line, (kind, body)) in lines.iter_mut().zip(records(image)) {
        write_line(line, kind, body);
    }
    blank.fill(BLANK);
    Ok(Answer::new(DONE, 0, length))
}

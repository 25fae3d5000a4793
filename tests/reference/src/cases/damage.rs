//! Images that are damaged in every way the check can notice, and in some that it cannot.

use super::plans::{image_of, plan, Records};
use super::Rng;
use crate::plan::{self, IMAGE_LIMIT};

pub(super) const KINDS: [u8; 10] = [
    plan::HEAD,
    plan::EVENT,
    plan::MODULE,
    plan::MODULE_MOVE,
    plan::SUPERVISOR,
    plan::SUPERVISOR_MOVE,
    plan::DISABLING,
    plan::STEP,
    plan::MARKING,
    plan::END,
];

/// Limits of fields, and what lies just beyond.
pub(super) const LIMITS: [u8; 18] = [0, 1, 2, 3, 4, 5, 6, 15, 16, 17, 31, 32, 33, 63, 64, 65, 254, 255];

/// An image made from a plan's records by one or more damages.
pub fn damaged(rng: &mut Rng, records: &Records) -> Vec<u8> {
    let mut records = records.clone();
    for _ in 0..rng.pick(&[1, 1, 1, 2, 3]) {
        damage_record(rng, &mut records);
    }
    let mut image = image_of(&records);
    if rng.chance(30) {
        damage_bytes(rng, &mut image);
    }
    image
}

fn damage_bytes(rng: &mut Rng, image: &mut Vec<u8>) {
    match rng.below(7) {
        0 => image.truncate(rng.below(image.len() + 1)),
        1 if !image.is_empty() => {
            let at = rng.below(image.len());
            image[at] = rng.byte();
        }
        2 if !image.is_empty() => {
            let at = rng.below(image.len());
            image[at] ^= 1 << rng.below(8);
        }
        3 => {
            let count = rng.between(1, 12);
            image.extend(rng.bytes(count));
        }
        4 => image.resize(IMAGE_LIMIT + rng.below(3), 0),
        5 => image.clear(),
        _ => {
            let count = rng.below(40);
            *image = rng.bytes(count);
        }
    }
}

fn damage_record(rng: &mut Rng, records: &mut Records) {
    if records.is_empty() {
        return;
    }
    let at = some_record(rng, records);
    match rng.below(16) {
        0 => {
            records.remove(at);
        }
        1 => records.insert(at, records[at].clone()),
        2 => {
            let other = rng.below(records.len());
            records.swap(at, other);
        }
        3 if at + 1 < records.len() => records.swap(at, at + 1),
        4 => records[at][0] = rng.pick(&KINDS),
        5 => records[at][0] = rng.byte(),
        6 | 7 => {
            let field = rng.below(records[at].len());
            records[at][field] = rng.pick(&LIMITS);
        }
        8 => {
            let field = rng.below(records[at].len());
            let change = rng.pick(&[1, 255]);
            records[at][field] = records[at][field].wrapping_add(change);
        }
        9 => mask_bit(rng, &mut records[at]),
        10 => head_count(rng, &mut records[0]),
        11 => {
            let other = plan(rng);
            let foreign = rng.pick(&other);
            records.insert(at, foreign);
        }
        12 => long_procedure(rng, records),
        13 | 14 => new_mark(rng, records),
        _ => new_step(rng, records),
    }
}

/// A record, each kind present about as likely as another.
fn some_record(rng: &mut Rng, records: &Records) -> usize {
    if rng.chance(40) {
        return rng.below(records.len());
    }
    let kind = rng.pick(&KINDS);
    let of_kind: Vec<usize> = (0..records.len()).filter(|&at| records[at].first() == Some(&kind)).collect();
    if of_kind.is_empty() {
        rng.below(records.len())
    } else {
        rng.pick(&of_kind)
    }
}

/// Turns over a bit of the last eight bytes: a mask or an operand, where the record has one.
fn mask_bit(rng: &mut Rng, record: &mut [u8]) {
    if record.len() > 8 {
        let at = record.len() - 1 - rng.below(8);
        record[at] ^= 1 << rng.below(8);
    }
}

/// One more or one less than the head promised.
fn head_count(rng: &mut Rng, head: &mut [u8]) {
    if head.len() == 4 {
        let field = rng.between(1, 3);
        head[field] = head[field].wrapping_add(rng.pick(&[1, 255]));
    }
}

/// Goes on with an event's steps up to the last index, or to the one beyond.
fn long_procedure(rng: &mut Rng, records: &mut Records) {
    let is_step = |record: &Vec<u8>| record.len() == 12 && record[0] == plan::STEP;
    let ends: Vec<usize> = (1..records.len())
        .filter(|&next| is_step(&records[next - 1]) && (!is_step(&records[next]) || records[next][1] != records[next - 1][1]))
        .collect();
    if ends.is_empty() {
        return;
    }
    let at = rng.pick(&ends);
    let (event, index) = (records[at - 1][1], records[at - 1][2]);
    let last = rng.pick(&[63, 64]);
    let more = (index.saturating_add(1)..=last).map(|index| vec![plan::STEP, event, index, plan::OUTPUT_ON, 0, 0, 0, 0, 0, 0, 0, 9]);
    records.splice(at..at, more);
}

/// A step of any event before the end record, often breaking the rules of events or operands.
fn new_step(rng: &mut Rng, records: &mut Records) {
    let operand = match rng.below(4) {
        0 => rng.below(70) as u64,
        1 => rng.word(),
        2 => (rng.below(2_000_000) as f64 / 8.0).to_bits(),
        _ => rng.pick(&[
            0,
            31,
            32,
            65_535,
            65_536,
            0x4100_0000_0000_0000,
            0x3FC0_0000_0000_0000,
            0x7FF8_0000_0000_0000,
        ]),
    };
    let event = if rng.chance(60) { 63 } else { rng.below(66) as u8 };
    let mut step = vec![plan::STEP, event, rng.pick(&[0, 0, 0, 1, 63, 64]), rng.below(8) as u8];
    step.extend_from_slice(&operand.to_be_bytes());
    let at = records.len() - 1;
    records.insert(at, step);
}

/// A mark of some module and state before the end record, often undeclared or out of order; seldom before other kinds.
fn new_mark(rng: &mut Rng, records: &mut Records) {
    let last = records.len() - 1;
    let at = if rng.chance(80) { last } else { rng.below(records.len()) };
    let module = if rng.chance(60) { 15 } else { rng.below(18) as u8 };
    let state = if rng.chance(60) { rng.below(3) as u8 } else { rng.pick(&LIMITS) };
    records.insert(at, vec![plan::MARKING, module, state]);
}

//! Plans on paper: any image with a buffer about as long as its page set, and the plan with the most records.

use super::inputs::{case, Case};
use super::plans::{records_of, Records};
use super::Rng;
use crate::calls::Call;
use crate::pages::{LINE_BYTES, PAGE_LINES};
use crate::plan;

const PAGE_BYTES: usize = PAGE_LINES * LINE_BYTES;
/// Enough for every page set: 168 pages.
pub const PRINT_BYTES: usize = 168 * PAGE_BYTES;

/// How many bytes the page set of an image has, 0 where the check refuses it.
pub fn print_bytes(image: &[u8]) -> usize {
    plan::check(image).map_or(0, |_| records_of(image).len().div_ceil(PAGE_LINES) * PAGE_BYTES)
}

/// An image printed into a buffer about as long as its page set, which holds one byte throughout.
pub fn pages_case(rng: &mut Rng, image: &[u8]) -> Case {
    let length = print_bytes(image);
    let room = match rng.below(8) {
        0..=2 => length,
        3 => length.saturating_sub(1),
        4 => 0,
        5 => length + rng.between(1, 200),
        6 => rng.below(2 * length + 1),
        _ => rng.pick(&[LINE_BYTES, PAGE_BYTES - 1, PAGE_BYTES, length + PAGE_BYTES]),
    };
    Case {
        image: image.to_vec(),
        buffer: vec![rng.byte(); room],
        ..case(Call::PrintPlan)
    }
}

/// The most records that an accepted plan has, 10,049, in 49,150 bytes: of 16 modules with 32 states all moves and all marks, and of two
/// supervisors the moves for which there then is room.
///
/// # Panics
/// If the check does not accept the plan.
pub fn most_records() -> Records {
    let mut records = vec![vec![plan::HEAD, 16, 2, 64], vec![plan::END]];
    for event in 0..64 {
        let module = event % 16;
        records.push(vec![plan::EVENT, event, module, event / 16 % 2]);
        records.extend((0..32).map(|from| vec![plan::MODULE_MOVE, module, from, event, (from + event) % 32]));
    }
    for module in 0..16 {
        records.push(vec![plan::MODULE, module, 32, module]);
        records.extend((0..32).map(|state| vec![plan::MARKING, module, state]));
    }
    for supervisor in 0..2 {
        records.push([&[plan::SUPERVISOR, supervisor, 64, supervisor], &[0xFF; 8][..]].concat());
        let moves = (0..64).flat_map(|from| (0..64).map(move |event| vec![plan::SUPERVISOR_MOVE, supervisor, from, event, from ^ event]));
        records.extend(moves.take(if supervisor == 0 { 4_096 } else { 3_309 }));
    }
    // Keys stand first in a record, so that the order of bytes is that of records.
    records.sort();
    assert_eq!(crate::check(&records.concat()), 0, "a plan valid by construction");
    records
}

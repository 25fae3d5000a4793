//! Seeded inputs of every kind, for the differential test: plans good and damaged, whole, in pieces and on paper, states that fit and that
//! do not, messages, readings, buffers, and whole schedules. The same seed gives the same inputs.

mod damage;
mod inputs;
mod joint;
mod pages;
mod pieces;
mod plans;
mod schedule;
mod shrink;
mod states;

pub use damage::damaged;
pub use inputs::{
    buffer, device_case, image_case, message, message_case, module_case, reading, record_case, supervisor_case, unfit_case, Case, Ground,
};
pub use joint::{counter, counts_case, crowded, full_with_two_states, rounds, stuck_case, switches, COUNT_BYTES, STUCK_BYTES};
pub use pages::{most_records, pages_case, print_bytes, PRINT_BYTES};
pub use pieces::{forged, pieces, single_bytes, some_cuts};
pub use plans::{image_of, lively_plan, orchard, plan, records_of, sized, Records};
pub use schedule::{random_op, schedule, Applied, Op, World};
pub use shrink::{shrink_case, shrink_pages, shrink_pieces, shrink_schedule};
pub use states::{
    break_device, break_module, break_supervisor, fit_device, fit_module, fit_supervisor, DEVICE_CLAUSES, MODULE_CLAUSES,
    SUPERVISOR_CLAUSES,
};

/// Plan P of document 01.
pub const PLAN_P: &str = "10020104 11000001 11010000 11020101 11030100 12000200 12010200 1300000001 1300010100 \
    1301000201 1301010300 14000200000000000000000D 1500000201 1500010300 1600000000000000000001 1F";

/// Bytes from their hexadecimal digits; spaces are passed over.
///
/// # Panics
/// On anything that is not a pair of digits.
pub fn hex(text: &str) -> Vec<u8> {
    let digits: Vec<u32> = text
        .chars()
        .filter(|c| !c.is_whitespace())
        .map(|c| c.to_digit(16).expect("a hexadecimal digit"))
        .collect();
    assert!(digits.len().is_multiple_of(2), "an even number of digits");
    digits.chunks(2).map(|pair| (pair[0] * 16 + pair[1]) as u8).collect()
}

/// A small generator of numbers (splitmix64).
#[derive(Clone, Debug)]
pub struct Rng(u64);

impl Rng {
    pub fn new(seed: u64) -> Rng {
        Rng(seed)
    }

    pub fn word(&mut self) -> u64 {
        self.0 = self.0.wrapping_add(0x9E37_79B9_7F4A_7C15);
        let mut z = self.0;
        z = (z ^ z >> 30).wrapping_mul(0xBF58_476D_1CE4_E5B9);
        z = (z ^ z >> 27).wrapping_mul(0x94D0_49BB_1331_11EB);
        z ^ z >> 31
    }

    /// A number below `count`; 0 if that is 0.
    pub fn below(&mut self, count: usize) -> usize {
        ((u128::from(self.word()) * count as u128) >> 64) as usize
    }

    /// A number from `low` to `high`, both included.
    pub fn between(&mut self, low: usize, high: usize) -> usize {
        low + self.below(high - low + 1)
    }

    pub fn byte(&mut self) -> u8 {
        self.word() as u8
    }

    pub fn bytes(&mut self, count: usize) -> Vec<u8> {
        (0..count).map(|_| self.byte()).collect()
    }

    pub fn chance(&mut self, percent: usize) -> bool {
        self.below(100) < percent
    }

    pub fn pick<T: Clone>(&mut self, choices: &[T]) -> T {
        choices[self.below(choices.len())].clone()
    }

    /// One of the numbers in a mask, if it has any.
    pub fn bit(&mut self, mask: u64) -> Option<u8> {
        let nth = self.below(mask.count_ones() as usize);
        (0..64).filter(|&bit| mask >> bit & 1 == 1).nth(nth)
    }
}

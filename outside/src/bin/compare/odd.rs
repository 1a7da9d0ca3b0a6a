//! The numbers that are given: ranges, lists of odd values, and a fixed row of pseudo-random ones.

use std::ops::RangeInclusive;

pub const YEARS: RangeInclusive<i64> = -2_000..=2_000;
pub const DAYS: RangeInclusive<i64> = -4..=370;

/// Years that are refused: just outside, and where a narrower number or a sum would wrap round.
pub fn years_outside() -> Vec<i64> {
    let mut years = vec![i64::MIN, i64::MIN + 1, i64::MIN + 2_000, i64::MAX - 2_000, i64::MAX];
    for bits in [8, 16, 32, 48, 62] {
        years.extend([-(1_i64 << bits), 1_i64 << bits, (1_i64 << bits) + 1]);
    }
    years.extend([-4_001, -2_002, -2_001, 2_001, 2_002, 4_001]);
    years.retain(|year| !YEARS.contains(year));
    years
}

/// Days that are refused, chosen in the same way.
pub fn days_outside() -> Vec<i64> {
    let mut days = vec![i64::MIN, i64::MIN + 4, i64::MAX - 370, i64::MAX];
    for bits in [16, 32, 48, 62] {
        days.extend([-(1_i64 << bits), 1_i64 << bits, (1_i64 << bits) + 1]);
    }
    days.extend([-375, -7, -6, -5, 371, 372, 373, 374, 375, 65_532]);
    days
}

/// A limit, the number past it, and numbers that a narrower one would take for a lesser.
pub fn above(limit: u64) -> [u64; 8] {
    [limit, limit + 1, 255, 256, 65_536, 65_536 + limit, 1 << 32, u64::MAX]
}

/// A fixed sequence of pseudo-random numbers (splitmix64), the same in every run.
pub struct Sequence(pub u64);

impl Sequence {
    pub fn next(&mut self) -> u64 {
        self.0 = self.0.wrapping_add(0x9e37_79b9_7f4a_7c15);
        let mut mixed = self.0;
        mixed = (mixed ^ (mixed >> 30)).wrapping_mul(0xbf58_476d_1ce4_e5b9);
        mixed = (mixed ^ (mixed >> 27)).wrapping_mul(0x94d0_49bb_1331_11eb);
        mixed ^ (mixed >> 31)
    }

    pub fn below(&mut self, limit: usize) -> usize {
        (self.next() % limit as u64) as usize
    }

    pub fn one_of<T: Copy>(&mut self, choices: &[T]) -> T {
        choices[self.below(choices.len())]
    }

    pub fn year(&mut self) -> i64 {
        self.below(4_001) as i64 - 2_000
    }
}

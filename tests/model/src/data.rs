//! Chosen numbers: the same in every run.

use crate::calendar::{every, Date, Dates, WIDEST};
use crate::layout::Tag;

/// SplitMix64.
#[derive(Clone)]
pub struct Rng(pub u64);

impl Rng {
    pub fn next(&mut self) -> u64 {
        self.0 = self.0.wrapping_add(0x9E37_79B9_7F4A_7C15);
        let mut z = self.0;
        z = (z ^ (z >> 30)).wrapping_mul(0xBF58_476D_1CE4_E5B9);
        z = (z ^ (z >> 27)).wrapping_mul(0x94D0_49BB_1331_11EB);
        z ^ (z >> 31)
    }

    /// A number below n.
    pub fn below(&mut self, n: usize) -> usize {
        (self.next() % n as u64) as usize
    }

    pub fn range(&mut self, low: i64, high: i64) -> i64 {
        low + self.below((high - low + 1) as usize) as i64
    }

    pub fn one_in(&mut self, n: usize) -> bool {
        self.below(n) == 0
    }

    pub fn pick<T: Copy>(&mut self, of: &[T]) -> T {
        of[self.below(of.len())]
    }

    pub fn bytes(&mut self, n: usize) -> Vec<u8> {
        (0..n).map(|_| self.next() as u8).collect()
    }
}

#[derive(Clone, Copy, PartialEq, Eq, Debug)]
pub enum Kind {
    Uniform,
    Clustered,
    Tied,
    Edge,
}

pub const KINDS: [Kind; 4] = [Kind::Uniform, Kind::Clustered, Kind::Tied, Kind::Edge];

/// The stages that the epochs of an index have, as sets: all six, some, one.
pub const MIXES: [u8; 6] = [0b11_1111, 0b11_1111, 0b01_1110, 0b00_1100, 0b10_0001, 0b00_1000];

/// Stamps that many epochs share: such as differ in a bit or two, and both ends of the first recording day and of the last.
const STAMPS: [u32; 12] = [0, 1, 8, 16, 43_199, 43_200, 1 << 28, 1 << 31, 3_155_803_199, 3_155_803_200, u32::MAX - 1, u32::MAX];

/// An epoch of some stage of a mix, with any stamp or one of a few.
pub fn tag(rng: &mut Rng, id: u32, mix: u8) -> Tag {
    let stages: Vec<u8> = (0..6).filter(|stage| mix & (1 << stage) != 0).collect();
    let stamp = if rng.one_in(2) { rng.pick(&STAMPS) } else { rng.next() as u32 };
    Tag { id, stage: rng.pick(&stages), stamp }
}

/// Weights of up to 1,000: any, some of them 0, all 0, 1,000s, small ones, one that is not 0, ones but for one.
pub fn weights(rng: &mut Rng, d: usize) -> Vec<u16> {
    let (way, one) = (rng.below(9), rng.below(d));
    let mut weight = |m| match way {
        0..=2 => rng.below(1001) as u16,
        3 => rng.pick(&[0, 0, 1, 17, 400, 999, 1000]),
        4 => rng.below(3) as u16,
        5 => 1000,
        6 => 0,
        7 => (m == one) as u16 * rng.pick(&[1, 2, 1000]),
        _ => {
            if m == one {
                rng.below(1001) as u16
            } else {
                1
            }
        }
    };
    (0..d).map(&mut weight).collect()
}

/// A first and a last date that nothing refuses: all days, one, many, such as shared stamps lie in or miss by a day.
pub fn dates(rng: &mut Rng) -> Dates {
    let (way, every) = (rng.below(6), every());
    let shared = |rng: &mut Rng| Date::of(rng.pick(&STAMPS)).and_then(|date| every.binary_search(&date).ok()).unwrap_or(0);
    let (a, b) = match way {
        0 => return WIDEST,
        1 | 2 => (rng.below(every.len()), rng.below(every.len())),
        3 => (shared(rng), rng.below(every.len())),
        4 => (shared(rng), shared(rng)),
        _ => {
            let at = shared(rng) + rng.below(3);
            (at.saturating_sub(1), at.saturating_sub(1))
        }
    };
    let last = every.len() - 1;
    Dates { first: every[a.min(b).min(last)], last: every[a.max(b).min(last)] }
}

/// Dates that are refused, but for one day turned round: one of them does not exist or lies outside, or the last is before the first.
pub fn bad_dates(rng: &mut Rng) -> Dates {
    let wrong =
        [(2001, 2, 29), (2100, 2, 29), (2024, 4, 31), (2024, 0, 5), (2024, 13, 5), (1999, 12, 31), (2100, 1, 1), (2050, 7, 0), (0, 0, 0)];
    let Dates { first, last } = dates(rng);
    let (year, month, day) = rng.pick(&wrong);
    let other = Date { year, month, day };
    match rng.below(4) {
        0 => Dates { first: other, last },
        1 => Dates { first, last: other },
        2 => Dates { first: last, last: other },
        _ => Dates { first: last, last: first },
    }
}

/// A point in range.
pub fn point(rng: &mut Rng, kind: Kind, d: usize) -> Vec<i16> {
    let cluster = rng.below(5) as i64;
    let coordinate = |i: usize, rng: &mut Rng| match kind {
        Kind::Uniform => rng.range(-1000, 1000),
        Kind::Clustered => ((cluster * 389 + i as i64 * 157) % 1961 - 980 + rng.range(-20, 20)).clamp(-1000, 1000),
        Kind::Tied => rng.range(-1, 1),
        Kind::Edge => rng.pick(&[-1000, -999, -1, 0, 1, 999, 1000]),
    };
    (0..d).map(|i| coordinate(i, rng) as i16).collect()
}

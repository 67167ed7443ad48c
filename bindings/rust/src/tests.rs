//! The specification's examples, and every refusal that is quick to reach.
mod dates;
mod series;
mod stack;
mod stages;
mod tabled;
mod ties;
mod weights;

use super::*;
use std::cell::Cell;
use std::error::Error;
use std::mem::{align_of, offset_of, size_of};

fn bytes(pages: usize) -> Vec<u8> {
    vec![0xa5; pages * PAGE_BYTES]
}

/// The second byte of the first identifier in page 2, where that is a leaf (docs/LAYOUT.md).
const IN_IDENTIFIER: usize = 2 * PAGE_BYTES + 577;

/// The epoch of an identifier: stages in turn, and a stamp whose bytes differ.
fn epoch(id: u32) -> Epoch {
    Epoch { id, stage: Stage::ALL[id as usize % 6], stamp: id.wrapping_mul(0x9e37_79b9) }
}

/// d = 1, identifiers 1..=n at 1..=n, inserted upward, all stamps 0.
fn upward(pages: usize, n: u32) -> Index<Vec<u8>> {
    let mut index = Index::make(bytes(pages), 1).unwrap();
    for id in 1..=n {
        index.insert(Epoch { stamp: 0, ..epoch(id) }, &[id as i16]).unwrap();
    }
    index
}

fn ids(found: &Found) -> Vec<u32> {
    found.rows.iter().map(|row| row.id).collect()
}

/// All dates that may be asked for.
const WIDEST: Dates = Dates { first: Date::new(MIN_YEAR, 1, 1), last: Date::new(MAX_YEAR, 12, 31) };

/// The same, one after the other.
fn calendar() -> Vec<Date> {
    let days = |year: u16, month: u8| match month {
        2 => 28 + u8::from(year % 4 == 0),
        4 | 6 | 9 | 11 => 30,
        _ => 31,
    };
    let months = (MIN_YEAR..=MAX_YEAR).flat_map(|year| (1..=12).map(move |month| (year, month)));
    months.flat_map(|(year, month)| (1..=days(year, month)).map(move |day| Date::new(year, month, day))).collect()
}

/// The stamp of the noon of the n-th of these dates, from 0.
fn noon(n: u32) -> u32 {
    43_200 + 86_400 * n
}

struct Random(u64);

impl Random {
    fn below(&mut self, n: u64) -> u64 {
        self.0 = self.0.wrapping_mul(6_364_136_223_846_793_005).wrapping_add(1_442_695_040_888_963_407);
        (self.0 >> 33) % n
    }

    /// Any stamp, or one of a few, so that stamps are equal too.
    fn stamp(&mut self) -> u32 {
        let any = (self.below(1 << 16) << 16 | self.below(1 << 16)) as u32;
        [0, 1, 1 << 31, u32::MAX, any][self.below(5) as usize]
    }

    fn epoch(&mut self, id: u32) -> Epoch {
        Epoch { id, stage: Stage::ALL[self.below(6) as usize], stamp: self.stamp() }
    }

    fn stages(&mut self) -> StageSet {
        StageSet::from_bits(1 + self.below(63) as u8).unwrap()
    }

    /// Weights, or none: any, and some that are often equal.
    fn weights(&mut self, d: usize) -> Option<Vec<u16>> {
        let most = [0, 1, 2, 1000][self.below(4) as usize];
        let weights = (0..d).map(|_| self.below(most + 1) as u16).collect();
        (self.below(4) > 0).then_some(weights)
    }

    /// Some days, or none given: any, and often many.
    fn dates(&mut self, calendar: &[Date]) -> Option<Dates> {
        let mut draw = || calendar[self.below(calendar.len() as u64) as usize];
        let (a, b) = (draw(), draw());
        (self.below(3) > 0).then_some(Dates { first: a.min(b), last: a.max(b) })
    }

    fn point(&mut self, d: usize, reach: u64) -> Vec<i16> {
        (0..d).map(|_| self.below(2 * reach + 1) as i16 - reach as i16).collect()
    }
}

#[test]
fn layout_is_that_of_the_header() {
    assert_eq!((size_of::<Row>(), align_of::<Row>()), (24, 8));
    assert_eq!([offset_of!(Row, distance), offset_of!(Row, id), offset_of!(Row, stamp), offset_of!(Row, position)], [0, 8, 12, 16]);
    assert_eq!((size_of::<Tally>(), align_of::<Tally>()), (8, 4));
    assert_eq!((size_of::<sys::Answer>(), align_of::<sys::Answer>()), (24, 8));
    assert_eq!((size_of::<Date>(), align_of::<Date>()), (4, 2));
    assert_eq!([offset_of!(Date, year), offset_of!(Date, month), offset_of!(Date, day)], [0, 2, 3]);
    assert_eq!((size_of::<Dates>(), offset_of!(Dates, first), offset_of!(Dates, last)), (8, 0, 4));
    assert_eq!((size_of::<sys::Criteria>(), align_of::<sys::Criteria>()), (24, 8));
    assert_eq!([offset_of!(sys::Criteria, k), offset_of!(sys::Criteria, stages), offset_of!(sys::Criteria, weighted)], [0, 8, 9]);
    assert_eq!([offset_of!(sys::Criteria, dated), offset_of!(sys::Criteria, dates)], [10, 12]);
}

#[test]
fn refusals_have_their_numbers_and_words() {
    let codes: Vec<u32> = Refusal::ALL.iter().map(|refusal| refusal.code()).collect();
    assert_eq!(codes, [1, 2, 3, 4, 5, 6, 7, 8, 9, 10, 11, 13, 14, 15, 16, 17, 18], "12 is given to nothing");
    for refusal in Refusal::ALL {
        assert_eq!(Refusal::of(refusal.code()), Err(*refusal));
        assert!(!refusal.to_string().is_empty());
    }
    assert_eq!(Refusal::of(0), Ok(()));
    let fault = Fault { refusal: Refusal::Unsound, page: 3 };
    assert_eq!(fault.to_string(), "index isn't sound: page 3");
    assert_eq!(fault.source().unwrap().to_string(), "index isn't sound");
}

#[test]
fn lengths() {
    for length in [0, 1, 1024, 2047, 2049, 16_778_240] {
        assert_eq!(Index::make(vec![0; length], 1).unwrap_err(), Refusal::BadLength);
        assert_eq!(SoundIndex::open(vec![0; length]).unwrap_err(), Fault { refusal: Refusal::BadLength, page: 0 });
    }
    for length in [2048, 16_777_216] {
        SoundIndex::open(Index::make(vec![0; length], 1).unwrap().into_inner()).unwrap();
    }
    assert_eq!(Index::make(bytes(2), 0).unwrap_err(), Refusal::BadFeatures);
    assert_eq!(Index::make(bytes(2), 17).unwrap_err(), Refusal::BadFeatures);
}

#[test]
fn leaves_read() {
    let index = upward(4, 17);
    let mut tally = Tally::default();
    let cases: [(i16, usize, &[u32], u32); 3] = [(9, 1, &[9], 1), (9, 2, &[9, 8], 2), (1, 9, &[1, 2, 3, 4, 5, 6, 7, 8, 9], 1)];
    for (from, k, rows, leaves) in cases {
        let found = index.question(&[from], None, k, StageSet::ALL, None, &mut tally).unwrap();
        assert_eq!((ids(&found), found.leaves), (rows.to_vec(), leaves));
    }
    let all = index.question(&[1], None, 18, StageSet::ALL, None, &mut tally).unwrap();
    assert_eq!((all.rows.len(), all.leaves), (17, 2));
    assert_eq!(all.rows[16], Row { distance: 256, id: 17, position: 1, stamp: 0 });
    assert_eq!(tally, Tally { questions: 4, leaves: 6 });
}

#[test]
fn pages_run_out_and_come_back() {
    let mut index = upward(3, 16);
    assert_eq!(index.insert(epoch(17), &[17]), Err(Refusal::NoPages));
    let mut index = upward(4, 17);
    index.delete(17).unwrap();
    let all = index.question(&[1], None, 16, StageSet::ALL, None, &mut Tally::default()).unwrap();
    assert_eq!(all.rows.iter().filter(|row| row.position == 0).count(), 8);
    index.delete(16).unwrap();
    assert_eq!(index.question(&[1], None, 16, StageSet::ALL, None, &mut Tally::default()).unwrap().leaves, 1);
    for id in 16..=17 {
        index.insert(epoch(id), &[id as i16]).unwrap();
    }
    index.check().unwrap();
}

#[test]
fn refused_acts_change_nothing() {
    let mut index = upward(4, 17);
    let before = index.as_bytes().to_vec();
    let mut tally = Tally { questions: 5, leaves: 6 };
    let mark = Row { distance: 1, id: 2, position: 3, stamp: 4 };
    let mut rows = [mark; 2];
    assert_eq!(index.insert(epoch(18), &[1, 2]), Err(Refusal::BadFeatures));
    assert_eq!(index.insert(epoch(18), &[1001]), Err(Refusal::BadCoordinate));
    assert_eq!(index.insert(epoch(0), &[1]), Err(Refusal::ZeroIdentifier));
    assert_eq!(index.insert(epoch(17), &[1]), Err(Refusal::AlreadyLive));
    assert_eq!(index.delete(0), Err(Refusal::ZeroIdentifier));
    assert_eq!(index.delete(18), Err(Refusal::NotLive));
    for stages in [StageSet::ALL, StageSet::EMPTY] {
        assert_eq!(index.question_into(&[], None, 1, stages, None, &mut rows, &mut tally), Err(Refusal::BadFeatures));
        assert_eq!(index.question_into(&[-1001], None, 1, stages, None, &mut rows, &mut tally), Err(Refusal::BadCoordinate));
        assert_eq!(index.question_into(&[1], None, 0, stages, None, &mut rows, &mut tally), Err(Refusal::BadK));
        assert_eq!(index.question_into(&[1], None, 65, stages, None, &mut rows, &mut tally), Err(Refusal::BadK));
        assert_eq!(index.question_into(&[1], None, usize::MAX, stages, None, &mut [], &mut tally), Err(Refusal::BadK));
        assert_eq!(index.question_into(&[1], None, 3, stages, None, &mut rows, &mut tally), Err(Refusal::FewRows));
        assert_eq!(index.question(&[1], None, 65, stages, None, &mut tally), Err(Refusal::BadK));
    }
    assert_eq!(index.question_into(&[1], None, 2, StageSet::EMPTY, None, &mut rows, &mut tally), Err(Refusal::BadStageSet));
    assert_eq!(index.question(&[1], None, 2, StageSet::EMPTY, None, &mut tally), Err(Refusal::BadStageSet));
    assert_eq!(index.as_bytes(), before);
    assert_eq!(rows, [mark; 2]);
    assert_eq!(tally, Tally { questions: 5, leaves: 6 });
}

#[test]
fn rows_past_those_returned_keep_their_contents() {
    let mut index = Index::make(bytes(2), 1).unwrap();
    index.insert(epoch(1), &[1]).unwrap();
    let mark = Row { distance: 7, id: 8, position: 9, stamp: 10 };
    let mut rows = [mark; 3];
    let mut tally = Tally { questions: u32::MAX, leaves: u32::MAX - 1 };
    assert_eq!(index.question_into(&[4], None, 2, StageSet::ALL, None, &mut rows, &mut tally), Ok(Counts { rows: 1, leaves: 1 }));
    assert_eq!(rows, [Row { distance: 9, id: 1, position: 0, stamp: epoch(1).stamp }, mark, mark]);
    assert_eq!(tally, Tally { questions: u32::MAX, leaves: u32::MAX });
}

#[test]
fn a_damaged_index_is_refused() {
    let mut damaged = upward(4, 17).into_inner();
    damaged[IN_IDENTIFIER] ^= 0xff;
    let copy = damaged.clone();
    let mut index = Index::new(&mut damaged[..]);
    let fault = index.check().unwrap_err();
    assert_eq!(fault.refusal, Refusal::Unsound);
    assert!((1..4).contains(&fault.page));
    assert_eq!(index.insert(epoch(18), &[18]), Err(Refusal::Unsound));
    assert_eq!(index.delete(1), Err(Refusal::Unsound));
    assert_eq!(index.question(&[1], None, 1, StageSet::ALL, None, &mut Tally::default()), Err(Refusal::Unsound));
    assert_eq!(SoundIndex::open(&copy[..]).unwrap_err(), fault);
    assert_eq!(damaged, copy);
}

#[test]
fn a_sound_index_asks_borrowed_bytes() {
    let stored = upward(4, 17).into_inner();
    let sound = SoundIndex::open(&stored[..]).unwrap();
    let mut tally = Tally::default();
    assert_eq!(ids(&sound.question(&[9], None, 2, StageSet::ALL, None, &mut tally).unwrap()), [9, 8]);
    let mut rows = [Row::default(); 1];
    assert_eq!(sound.question_into(&[9], None, 2, StageSet::ALL, None, &mut rows, &mut tally), Err(Refusal::FewRows));
    assert_eq!(sound.question_into(&[9], None, 1, StageSet::ALL, None, &mut rows, &mut tally), Ok(Counts { rows: 1, leaves: 1 }));
    assert_eq!(tally, Tally { questions: 2, leaves: 3 });
}

/// The acts take any type that gives bytes, here one that gives damaged ones every other time: each answer is right about the bytes it got.
#[test]
fn acts_are_right_about_bytes_that_change() {
    struct Changing(Cell<usize>, [Vec<u8>; 2]);
    impl AsRef<[u8]> for Changing {
        fn as_ref(&self) -> &[u8] {
            self.0.set(1 - self.0.get());
            &self.1[self.0.get()]
        }
    }
    let whole = upward(4, 17).into_inner();
    let mut damaged = whole.clone();
    damaged[IN_IDENTIFIER] ^= 0xff;
    let index = Index::new(Changing(Cell::new(0), [whole, damaged]));
    let mut tally = Tally::default();
    for _ in 0..2 {
        assert_eq!(index.question(&[9], None, 2, StageSet::ALL, None, &mut tally), Err(Refusal::Unsound));
        assert_eq!(ids(&index.question(&[9], None, 2, StageSet::ALL, None, &mut tally).unwrap()), [9, 8]);
    }
}

#[test]
fn a_sound_index_changes_each_kind_of_bytes() {
    let made = upward(4, 17).into_inner();
    let mut boxed = SoundIndex::open(made.clone().into_boxed_slice()).unwrap().into_tabled();
    boxed.insert(epoch(18), &[18]).unwrap();
    let mut lent = made.clone();
    SoundIndex::open(&mut lent[..]).unwrap().insert(epoch(18), &[18]).unwrap();
    let mut owned = SoundIndex::open(made).unwrap();
    owned.insert(epoch(18), &[18]).unwrap();
    assert_eq!((boxed.sound().as_bytes(), &lent[..]), (owned.as_bytes(), owned.as_bytes()));
}

#[test]
fn a_wrong_word_for_a_delete_does_no_harm() {
    let mut index = upward(4, 17).into_inner();
    let before = index.clone();
    assert_eq!(acts::delete_point(&mut index, 9, &[8]), Err(Refusal::NotLive));
    assert_eq!(acts::delete_point(&mut index, 18, &[9]), Err(Refusal::NotLive));
    assert_eq!(acts::delete_point(&mut index, 0, &[9]), Err(Refusal::ZeroIdentifier));
    assert_eq!(acts::delete_point(&mut index, 9, &[9, 0]), Err(Refusal::BadFeatures));
    assert_eq!(index, before);
    acts::delete_point(&mut index, 9, &[9]).unwrap();
    SoundIndex::open(&index[..]).unwrap();
    // one for an insert is not noticed, but by the check
    acts::insert(sys::epoch_index_vouched_insert, &mut index, epoch(8), &[500]).unwrap();
    assert_eq!(SoundIndex::open(&index[..]).unwrap_err().refusal, Refusal::Unsound);
}

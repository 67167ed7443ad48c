//! The library's functions, called through the C interface.

use crate::calendar::{Date, Dates};
use crate::layout::Tag;
use crate::model::{Answer, Asked, Row, Tally};

/// As the C interface has a row.
#[repr(C)]
#[derive(Clone, Copy)]
struct CRow {
    distance: u64,
    id: u32,
    stamp: u32,
    position: u64,
}

#[repr(C)]
struct CTally {
    questions: u32,
    leaves: u32,
}

#[repr(C)]
struct CAnswer {
    code: u32,
    count: usize,
    leaves: u32,
}

#[repr(C)]
#[derive(Clone, Copy)]
struct CDate {
    year: u16,
    month: u8,
    day: u8,
}

#[repr(C)]
#[derive(Clone, Copy)]
struct CDates {
    first: CDate,
    last: CDate,
}

/// Handed over by value.
#[repr(C)]
#[derive(Clone, Copy)]
struct CCriteria {
    k: usize,
    stages: u8,
    weighted: bool,
    dated: bool,
    dates: CDates,
}

type Insert = unsafe extern "C" fn(*mut u8, usize, u32, u8, u32, *const i16, usize) -> u32;
type Delete = unsafe extern "C" fn(*mut u8, usize, u32) -> u32;
type Question =
    unsafe extern "C" fn(*const u8, usize, *const i16, usize, *const u16, usize, CCriteria, *mut CRow, usize, *mut CTally) -> CAnswer;

extern "C" {
    fn epoch_index_make(index: *mut u8, index_len: usize, features: u8) -> u32;
    fn epoch_index_insert(index: *mut u8, index_len: usize, id: u32, stage: u8, stamp: u32, point: *const i16, point_len: usize) -> u32;
    fn epoch_index_delete(index: *mut u8, index_len: usize, id: u32) -> u32;
    fn epoch_index_check(index: *const u8, index_len: usize, page: *mut u32) -> u32;
    fn epoch_index_ask(
        index: *const u8,
        index_len: usize,
        point: *const i16,
        point_len: usize,
        weights: *const u16,
        weights_len: usize,
        what: CCriteria,
        rows: *mut CRow,
        rows_len: usize,
        tally: *mut CTally,
    ) -> CAnswer;
    fn epoch_index_trusted_insert(
        index: *mut u8,
        index_len: usize,
        id: u32,
        stage: u8,
        stamp: u32,
        point: *const i16,
        point_len: usize,
    ) -> u32;
    fn epoch_index_trusted_delete(index: *mut u8, index_len: usize, id: u32) -> u32;
    fn epoch_index_vouched_insert(
        index: *mut u8,
        index_len: usize,
        id: u32,
        stage: u8,
        stamp: u32,
        point: *const i16,
        point_len: usize,
    ) -> u32;
    fn epoch_index_vouched_delete(index: *mut u8, index_len: usize, id: u32, point: *const i16, point_len: usize) -> u32;
    fn epoch_index_trusted_ask(
        index: *const u8,
        index_len: usize,
        point: *const i16,
        point_len: usize,
        weights: *const u16,
        weights_len: usize,
        what: CCriteria,
        rows: *mut CRow,
        rows_len: usize,
        tally: *mut CTally,
    ) -> CAnswer;
}

pub fn make(index: &mut [u8], features: u8) -> u32 {
    unsafe { epoch_index_make(index.as_mut_ptr(), index.len(), features) }
}

/// An insert, with the check or without.
pub fn insert(index: &mut [u8], tag: Tag, x: &[i16], trusted: bool) -> u32 {
    let f: Insert = if trusted { epoch_index_trusted_insert } else { epoch_index_insert };
    unsafe { f(index.as_mut_ptr(), index.len(), tag.id, tag.stage, tag.stamp, x.as_ptr(), x.len()) }
}

/// A delete, with the check or without.
pub fn delete(index: &mut [u8], id: u32, trusted: bool) -> u32 {
    let f: Delete = if trusted { epoch_index_trusted_delete } else { epoch_index_delete };
    unsafe { f(index.as_mut_ptr(), index.len(), id) }
}

/// An insert of an identifier that the caller knows not to be live.
pub fn vouched_insert(index: &mut [u8], tag: Tag, x: &[i16]) -> u32 {
    unsafe { epoch_index_vouched_insert(index.as_mut_ptr(), index.len(), tag.id, tag.stage, tag.stamp, x.as_ptr(), x.len()) }
}

/// A delete of an identifier whose point the caller knows.
pub fn vouched_delete(index: &mut [u8], id: u32, x: &[i16]) -> u32 {
    unsafe { epoch_index_vouched_delete(index.as_mut_ptr(), index.len(), id, x.as_ptr(), x.len()) }
}

/// The code and the page.
pub fn check(index: &[u8]) -> (u32, u32) {
    let mut page = 0xDEAD_BEEF;
    let code = unsafe { epoch_index_check(index.as_ptr(), index.len(), &mut page) };
    (code, page)
}

/// What a question hands over for weights and dates. Where it carries none, they are disregarded.
#[derive(Clone, Copy, PartialEq, Eq, Debug)]
pub struct Handed<'a> {
    pub weights: &'a [u16],
    pub dates: Dates,
}

impl<'a> Handed<'a> {
    /// In place of none: weights too heavy and too few or too many, and dates that do not exist, the last before the first.
    pub const IDLE: Handed<'static> =
        Handed { weights: &[u16::MAX, 1001, 0], dates: Dates { first: Date::new(2101, 13, 255), last: Date::new(1999, 2, 29) } };

    pub fn of(asked: &'a Asked) -> Handed<'a> {
        let Handed { weights, dates } = Handed::IDLE;
        Handed { weights: asked.weights.as_deref().unwrap_or(weights), dates: asked.dates.unwrap_or(dates) }
    }
}

fn in_c(Date { year, month, day }: Date) -> CDate {
    CDate { year, month, day }
}

fn criteria(asked: &Asked, dates: Dates) -> CCriteria {
    let dates = CDates { first: in_c(dates.first), last: in_c(dates.last) };
    CCriteria { k: asked.k, stages: asked.stages, weighted: asked.weights.is_some(), dated: asked.dates.is_some(), dates }
}

/// A question, with the check or without. Rows that are not lent stand behind those that are, in one array.
pub fn question(index: &[u8], asked: &Asked, rows: &mut [Row], lent: usize, tally: &mut Tally, trusted: bool) -> Answer {
    question_handed(index, asked, Handed::of(asked), rows, lent, tally, trusted)
}

/// The same with these weights and dates handed over, which count where any are asked by.
pub fn question_handed(
    index: &[u8],
    asked: &Asked,
    handed: Handed,
    rows: &mut [Row],
    lent: usize,
    tally: &mut Tally,
    trusted: bool,
) -> Answer {
    let (x, weights) = (&asked.x, handed.weights);
    let f: Question = if trusted { epoch_index_trusted_ask } else { epoch_index_ask };
    let mut run: Vec<CRow> = rows.iter().map(|&Row { distance, id, position, stamp }| CRow { distance, id, position, stamp }).collect();
    let mut counts = CTally { questions: tally.questions, leaves: tally.leaves };
    assert!(lent <= run.len());
    let answer = unsafe {
        f(
            index.as_ptr(),
            index.len(),
            x.as_ptr(),
            x.len(),
            weights.as_ptr(),
            weights.len(),
            criteria(asked, handed.dates),
            run.as_mut_ptr(),
            lent,
            &mut counts,
        )
    };
    for (row, CRow { distance, id, position, stamp }) in rows.iter_mut().zip(run) {
        *row = Row { id, distance, position, stamp };
    }
    *tally = Tally { questions: counts.questions, leaves: counts.leaves };
    Answer { code: answer.code, rows: answer.count, leaves: answer.leaves }
}

/// The search by itself, as the question without the check.
pub fn search(index: &[u8], asked: &Asked, rows: &mut [Row], lent: usize) -> Answer {
    question(index, asked, rows, lent, &mut Tally::default(), true)
}

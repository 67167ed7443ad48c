//! The functions of libepoch_index.a, as the headers in include/ declare them.
use crate::{Dates, Row, Tally};

/// What a question returns.
#[repr(C)]
#[derive(Clone, Copy)]
pub struct Answer {
    pub code: u32,
    pub count: usize,
    pub leaves: u32,
}

/// What is asked of a point. Where `dated` is false `dates` is disregarded.
#[repr(C)]
#[derive(Clone, Copy)]
pub struct Criteria {
    pub k: usize,
    pub stages: u8,
    pub weighted: bool,
    pub dated: bool,
    pub dates: Dates,
}

/// An insert: checked, trusted or vouched.
pub type Insert =
    unsafe extern "C" fn(index: *mut u8, index_len: usize, id: u32, stage: u8, stamp: u32, point: *const i16, point_len: usize) -> u32;

/// A delete: checked or trusted.
pub type Delete = unsafe extern "C" fn(index: *mut u8, index_len: usize, id: u32) -> u32;

/// A question: checked or trusted.
pub type Question = unsafe extern "C" fn(
    index: *const u8,
    index_len: usize,
    point: *const i16,
    point_len: usize,
    weights: *const u16,
    weights_len: usize,
    what: Criteria,
    rows: *mut Row,
    rows_len: usize,
    tally: *mut Tally,
) -> Answer;

extern "C" {
    pub fn epoch_index_make(index: *mut u8, index_len: usize, features: u8) -> u32;
    pub fn epoch_index_check(index: *const u8, index_len: usize, page: *mut u32) -> u32;
    pub fn epoch_index_insert(index: *mut u8, index_len: usize, id: u32, stage: u8, stamp: u32, point: *const i16, point_len: usize)
        -> u32;
    pub fn epoch_index_delete(index: *mut u8, index_len: usize, id: u32) -> u32;
    pub fn epoch_index_ask(
        index: *const u8,
        index_len: usize,
        point: *const i16,
        point_len: usize,
        weights: *const u16,
        weights_len: usize,
        what: Criteria,
        rows: *mut Row,
        rows_len: usize,
        tally: *mut Tally,
    ) -> Answer;
    pub fn epoch_index_trusted_insert(
        index: *mut u8,
        index_len: usize,
        id: u32,
        stage: u8,
        stamp: u32,
        point: *const i16,
        point_len: usize,
    ) -> u32;
    pub fn epoch_index_trusted_delete(index: *mut u8, index_len: usize, id: u32) -> u32;
    pub fn epoch_index_trusted_ask(
        index: *const u8,
        index_len: usize,
        point: *const i16,
        point_len: usize,
        weights: *const u16,
        weights_len: usize,
        what: Criteria,
        rows: *mut Row,
        rows_len: usize,
        tally: *mut Tally,
    ) -> Answer;
    pub fn epoch_index_vouched_insert(
        index: *mut u8,
        index_len: usize,
        id: u32,
        stage: u8,
        stamp: u32,
        point: *const i16,
        point_len: usize,
    ) -> u32;
    pub fn epoch_index_vouched_delete(index: *mut u8, index_len: usize, id: u32, point: *const i16, point_len: usize) -> u32;
}

//! The calls: slices in, results out. The only `unsafe` code of the crate.
use crate::sys;
use crate::{Counts, Dates, Epoch, Fault, Refusal, Row, StageSet, Tally};

pub fn make(index: &mut [u8], features: u8) -> Result<(), Refusal> {
    // SAFETY: pointer and length are those of one slice, lent for the call alone; any bytes and any number are allowed.
    Refusal::of(unsafe { sys::epoch_index_make(index.as_mut_ptr(), index.len(), features) })
}

pub fn check(index: &[u8]) -> Result<(), Fault> {
    let mut page = 0;
    // SAFETY: pointer and length are those of one slice, which is only read, and `page` is a local of its own.
    let code = unsafe { sys::epoch_index_check(index.as_ptr(), index.len(), &mut page) };
    Refusal::of(code).map_err(|refusal| Fault { refusal, page })
}

pub fn insert(act: sys::Insert, index: &mut [u8], epoch: Epoch, point: &[i16]) -> Result<(), Refusal> {
    let Epoch { id, stage, stamp } = epoch;
    // SAFETY: pointers and lengths are those of two slices that do not overlap, since `index` is borrowed alone. Each insert ends
    // within them whatever they hold.
    Refusal::of(unsafe { act(index.as_mut_ptr(), index.len(), id, stage.into(), stamp, point.as_ptr(), point.len()) })
}

pub fn delete(act: sys::Delete, index: &mut [u8], id: u32) -> Result<(), Refusal> {
    // SAFETY: pointer and length are those of one slice. Either delete ends within it whatever it holds.
    Refusal::of(unsafe { act(index.as_mut_ptr(), index.len(), id) })
}

pub fn delete_point(index: &mut [u8], id: u32, point: &[i16]) -> Result<(), Refusal> {
    // SAFETY: pointers and lengths are those of two slices that do not overlap, since `index` is borrowed alone. It ends within them
    // whatever they hold.
    Refusal::of(unsafe { sys::epoch_index_vouched_delete(index.as_mut_ptr(), index.len(), id, point.as_ptr(), point.len()) })
}

/// What is asked: a point, the weights of its coordinates, if any, how many rows, and the stages and days looked among, all days where no
/// dates are given.
#[derive(Clone, Copy)]
pub struct Asked<'a> {
    pub point: &'a [i16],
    pub weights: Option<&'a [u16]>,
    pub k: usize,
    pub stages: StageSet,
    pub dates: Option<Dates>,
}

pub fn question(act: sys::Question, index: &[u8], asked: Asked, rows: &mut [Row], tally: &mut Tally) -> Result<Counts, Refusal> {
    let Asked { point, weights, k, stages, dates } = asked;
    let (weighted, weights) = (weights.is_some(), weights.unwrap_or_default());
    let what = sys::Criteria { k, stages: stages.bits(), weighted, dated: dates.is_some(), dates: dates.unwrap_or(Dates::NONE) };
    // SAFETY: pointers and lengths are those of five borrows, none of them null; `rows` and `tally` are borrowed alone, so they overlap
    // nothing. `Row`, `Tally` and `Criteria` have C's layout. Either question ends within them whatever the index holds.
    let answer = unsafe {
        act(
            index.as_ptr(),
            index.len(),
            point.as_ptr(),
            point.len(),
            weights.as_ptr(),
            weights.len(),
            what,
            rows.as_mut_ptr(),
            rows.len(),
            tally,
        )
    };
    Refusal::of(answer.code).map(|()| Counts { rows: answer.count, leaves: answer.leaves })
}

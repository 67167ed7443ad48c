//! Sound indexes of several shapes, made by the library and the model alike.

use crate::acts::Act;
use crate::data::Kind;
use crate::run::Run;
use crate::series::{Ids, Series};

/// An index of `points` points, of which every `drop`-th is deleted again (0: none).
pub fn grown(run: &mut Run, pages: usize, d: usize, kind: Kind, points: usize, drop: usize) -> Series {
    let seed = (pages * 7 + d * 131 + points * 1009 + drop) as u64;
    let mut s = Series::new(run, pages, d, kind, Ids::Any, seed);
    let mut given = Vec::new();
    for _ in 0..points {
        let (tag, x) = (s.new_tag(), s.point());
        if s.act(run, &Act::Insert(tag, x)) == 0 {
            given.push(tag.id);
        }
    }
    if drop > 0 {
        for id in given.into_iter().step_by(drop) {
            s.act(run, &Act::Delete(id));
        }
    }
    s
}

/// As `grown`, but deleting by key order until `left` remain, so that pages join and are freed.
pub fn shrunk(run: &mut Run, pages: usize, d: usize, kind: Kind, points: usize, left: usize) -> Series {
    let mut s = grown(run, pages, d, kind, points, 0);
    while s.live.len() > left {
        let records = s.model.records();
        let id = records[records.len() / 3].tag.id;
        s.act(run, &Act::Delete(id));
    }
    s
}

//! Series of acts, refused ones among them, compared after each act.

use crate::acts::{Act, ROWS};
use crate::calendar::Dates;
use crate::data::{bad_dates, dates, point, tag, weights, Kind, Rng, KINDS, MIXES};
use crate::layout::*;
use crate::lent::Lent;
use crate::model::{Asked, Model, Tally};
use crate::run::Run;

/// How new identifiers are chosen.
#[derive(Clone, Copy, PartialEq, Eq, Debug)]
pub enum Ids {
    Upward,
    Any,
    SameLowBits,
    Few,
}

pub struct Series {
    pub lib: Lent,
    pub model: Model,
    pub rng: Rng,
    pub kind: Kind,
    pub ids: Ids,
    pub live: Vec<u32>,
    /// The stages of its epochs, as a set.
    mix: u8,
    next: u32,
}

impl Series {
    /// A newly made index in bytes of any content.
    pub fn new(run: &mut Run, pages: usize, d: usize, kind: Kind, ids: Ids, seed: u64) -> Series {
        let mut rng = Rng(seed);
        let bytes = rng.bytes(pages * PAGE);
        let mix = rng.pick(&MIXES);
        let mut series = Series { lib: Lent::new(&bytes), model: Model::over(bytes), rng, kind, ids, live: Vec::new(), mix, next: 0 };
        series.act(run, &Act::Make(d as u8));
        series
    }

    /// An index that is there.
    pub fn over(bytes: Vec<u8>, kind: Kind, ids: Ids, seed: u64) -> Series {
        let model = Model::over(bytes);
        let records = model.records();
        let live = records.iter().map(|r| r.tag.id).collect();
        let mix = records.iter().fold(0, |mix, r| mix | 1 << r.tag.stage);
        let mix = if mix == 0 { ALL_STAGES } else { mix };
        Series { lib: Lent::new(&model.b), model, rng: Rng(seed), kind, ids, live, mix, next: 0 }
    }

    pub fn act(&mut self, run: &mut Run, act: &Act) -> u32 {
        let code = run.act(&mut self.lib, &mut self.model, act, true);
        match act {
            Act::Insert(tag, _) if code == 0 => self.live.push(tag.id),
            Act::Delete(id) if code == 0 => self.live.retain(|live| live != id),
            _ => (),
        }
        code
    }

    /// A question, with the check and without; its code.
    pub fn ask(&mut self, run: &mut Run, asked: &Asked, lent: usize) -> u32 {
        let act = Act::Question(asked.clone(), lent, Tally { questions: 8, leaves: 9 });
        let codes = [false, true].map(|trusted| {
            run.trusted = trusted;
            self.act(run, &act)
        });
        run.trusted = false;
        codes[0]
    }

    pub fn new_id(&mut self) -> u32 {
        self.next += 1;
        match self.ids {
            Ids::Upward => self.next,
            Ids::Any => (self.rng.next() as u32).max(1),
            Ids::SameLowBits => self.next.wrapping_mul(1 << 16) | 1,
            Ids::Few => 1 + self.rng.below(40) as u32,
        }
    }

    pub fn tag(&mut self, id: u32) -> Tag {
        tag(&mut self.rng, id, self.mix)
    }

    pub fn new_tag(&mut self) -> Tag {
        let id = self.new_id();
        self.tag(id)
    }

    /// An epoch, sometimes of a stage that is refused.
    fn some_tag(&mut self, id: u32) -> Tag {
        let tag = self.tag(id);
        let stage = if self.rng.one_in(20) { self.rng.pick(&[6, 7, 8, 63, 64, 128, 255]) } else { tag.stage };
        Tag { stage, ..tag }
    }

    /// A set of stages: all, one, those that no epoch has, any.
    pub fn set(&mut self) -> u8 {
        match self.rng.below(8) {
            0 | 1 => ALL_STAGES,
            2 | 3 => 1 << self.rng.below(6),
            4 if self.mix != ALL_STAGES => ALL_STAGES & !self.mix,
            _ => 1 + self.rng.below(63) as u8,
        }
    }

    /// A set, sometimes one that is refused.
    fn some_set(&mut self) -> u8 {
        if self.rng.one_in(20) {
            self.rng.pick(&[0, 64, 65, 127, 128, 192, 255])
        } else {
            self.set()
        }
    }

    pub fn point(&mut self) -> Vec<i16> {
        let d = self.model.d();
        point(&mut self.rng, self.kind, d)
    }

    /// Weights, or none.
    pub fn weights(&mut self) -> Option<Vec<u16>> {
        let d = self.model.d();
        self.rng.one_in(2).then(|| weights(&mut self.rng, d))
    }

    /// Weights or none, sometimes such as are refused.
    fn some_weights(&mut self) -> Option<Vec<u16>> {
        let mut weights = self.weights()?;
        if self.rng.one_in(20) {
            let at = self.rng.below(weights.len());
            weights[at] = self.rng.pick(&[1001, 1023, 1024, 2000, 1 << 15, u16::MAX]);
        }
        if self.rng.one_in(20) {
            let n = self.rng.pick(&[0, weights.len() - 1, weights.len() + 1, 16, 17, 100]);
            weights.resize(n, 7);
        }
        Some(weights)
    }

    /// Dates, or none.
    pub fn dates(&mut self) -> Option<Dates> {
        self.rng.one_in(2).then(|| dates(&mut self.rng))
    }

    /// Dates or none, sometimes such as are refused.
    fn some_dates(&mut self) -> Option<Dates> {
        if self.rng.one_in(20) {
            Some(bad_dates(&mut self.rng))
        } else {
            self.dates()
        }
    }

    /// A point, sometimes one that is refused.
    fn some_point(&mut self) -> Vec<i16> {
        let mut x = self.point();
        if self.rng.one_in(20) {
            let at = self.rng.below(x.len());
            x[at] = self.rng.pick(&[1001, -1001, 1002, i16::MAX, i16::MIN]);
        }
        if self.rng.one_in(20) {
            let n = self.rng.pick(&[0, x.len() - 1, x.len() + 1, 16, 17, 40]);
            x.resize(n, 7);
        }
        x
    }

    fn some_k(&mut self) -> usize {
        match self.rng.below(12) {
            0 => self.rng.pick(&[0, 65, 66, 1 << 32, (1 << 32) + 1, usize::MAX]),
            1 => 64,
            2..=5 => 1 + self.rng.below(64),
            _ => 1 + self.rng.below(8),
        }
    }

    fn some_live(&mut self) -> u32 {
        if self.live.is_empty() {
            return self.new_id();
        }
        let at = self.rng.below(self.live.len());
        self.live[at]
    }

    pub fn some_act(&mut self, growing: bool) -> Act {
        let (insert, delete) = if growing { (75, 10) } else { (10, 75) };
        let draw = self.rng.below(100);
        if draw < insert {
            let id = match self.rng.below(40) {
                0 => 0,
                1 | 2 => self.some_live(),
                _ => self.new_id(),
            };
            Act::Insert(self.some_tag(id), self.some_point())
        } else if draw < insert + delete {
            let id = match self.rng.below(30) {
                0 => 0,
                1 => self.rng.next() as u32,
                _ => self.some_live(),
            };
            Act::Delete(id)
        } else if draw < 96 {
            let k = self.some_k();
            let most = k.min(ROWS);
            let lent = if self.rng.one_in(15) { self.rng.below(most.max(1)) } else { most + self.rng.below(ROWS - most + 1) };
            let start = self.rng.pick(&[0, 5, u32::MAX - 1, u32::MAX]);
            let leaves = self.rng.pick(&[0, 77, u32::MAX - 2, u32::MAX]);
            let (weights, dates) = (self.some_weights(), self.some_dates());
            let asked = Asked { x: self.some_point(), weights, k, stages: self.some_set(), dates };
            Act::Question(asked, lent, Tally { questions: start, leaves })
        } else {
            Act::Check
        }
    }

    /// An act on a copy that is damaged at one byte, or of another length.
    pub fn act_on_copy(&mut self, run: &mut Run, act: &Act) -> u32 {
        let mut bytes = self.lib.to_vec();
        if self.rng.one_in(2) {
            let used = u32_at(&bytes, FRESH) as usize * PAGE;
            let at = if self.rng.one_in(4) { self.rng.below(32) } else { self.rng.below(used) };
            bytes[at] = bytes[at].wrapping_add(1 + self.rng.below(255) as u8);
        } else {
            let n = self.rng.pick(&[0, 1, 1023, PAGE, 2047, bytes.len() - 1, bytes.len() - PAGE, bytes.len() + 1, bytes.len() + PAGE]);
            bytes.resize(n, 0);
        }
        let mut lib = Lent::new(&bytes);
        let code = run.act(&mut lib, &mut Model::over(bytes), act, false);
        run.expect(lib.intact(), || format!("{act:?}: bytes before the index changed"));
        code
    }
}

fn series(run: &mut Run, pages: usize, d: usize, kind: Kind, ids: Ids, steps: usize) {
    let seed = (pages * 1_000_003 + d * 1009 + kind as usize * 31 + ids as usize) as u64;
    let mut s = Series::new(run, pages, d, kind, ids, seed);
    let mut growing = true;
    let (mut full, mut target) = (0, 0);
    for step in 0..steps {
        let act = s.some_act(growing);
        run.trusted = s.rng.one_in(3);
        let code = if s.rng.one_in(12) { s.act_on_copy(run, &act) } else { s.act(run, &act) };
        full += (code == 9) as u32;
        if growing && (full == 6 || s.rng.one_in(pages * 40)) {
            (growing, full) = (false, 0);
            target = s.rng.below(s.live.len() + 1);
        } else if !growing && s.live.len() <= target {
            growing = true;
        }
        if step % 64 == 0 {
            run.expect(s.lib.intact(), || "bytes before the index changed".into());
            s.model.touch();
            let sound = s.model.sound();
            run.expect(sound, || "the model's index is not sound".into());
        }
    }
    run.trusted = false;
    while let Some(&id) = s.live.first() {
        s.act(run, &Act::Delete(id));
    }
    s.act(run, &Act::Delete(1));
    let asked = Asked { x: s.point(), weights: s.weights(), k: 1, stages: s.set(), dates: s.dates() };
    s.act(run, &Act::Question(asked, 1, Tally::default()));
}

/// A series for each kind of points, or for one of them where the index is large.
fn each_kind(run: &mut Run, pages: usize, d: usize, steps: usize) {
    let one = pages > 64 && !run.long;
    for (i, kind) in KINDS.into_iter().enumerate().filter(|(i, _)| !one || *i == d % 4) {
        let ids = [Ids::Upward, Ids::Any, Ids::SameLowBits, Ids::Few][(i + d) % 4];
        let ids = if pages > 16 && ids == Ids::Few { Ids::Any } else { ids };
        series(run, pages, d, kind, ids, if run.long { 3 * steps } else { steps });
    }
}

pub fn all(run: &mut Run) {
    for (pages, steps) in [(2, 400), (3, 600), (4, 700), (5, 800), (16, 1500), (64, 2500), (256, 6000)] {
        for d in [1, 2, 3, 8, 16] {
            run.case(&format!("series of acts, {pages} pages, d {d}"), |run| each_kind(run, pages, d, steps));
        }
    }
}

//! One act on the library and on the model, with everything that it leaves compared.

use crate::ffi::{self, Handed};
use crate::judge;
use crate::layout::*;
use crate::model::{Answer, Asked, Model, Row, Tally};
use crate::run::Run;

pub const ROWS: usize = 72;

#[derive(Clone, Debug)]
pub enum Act {
    Make(u8),
    Insert(Tag, Vec<i16>),
    Delete(u32),
    /// What is asked, rows lent, tally before.
    Question(Asked, usize, Tally),
    Check,
}

/// Rows as lent: each one recognisable.
pub fn lent_rows() -> [Row; ROWS] {
    std::array::from_fn(|i| Row {
        id: 0xABC0_0000 + i as u32,
        distance: 0xFEDC_BA98_0000_0000 + i as u64,
        position: 0x5A5A_5A5A_5A5A_0000 + i as u64,
        stamp: 0xC3C3_0000 + i as u32,
    })
}

/// What comes of a question: its answer, and the rows and the tally that it leaves.
pub type Outcome = (Answer, [Row; ROWS], Tally);

/// With the check and without, refused or not, with these weights and dates handed over.
pub fn outcomes(lib: &[u8], asked: &Asked, handed: Handed, lent: usize) -> [Outcome; 2] {
    [false, true].map(|trusted| {
        let (mut rows, mut tally) = (lent_rows(), Tally { questions: 3, leaves: 4 });
        let answer = ffi::question_handed(lib, asked, handed, &mut rows, lent, &mut tally, trusted);
        (answer, rows, tally)
    })
}

impl Run {
    /// Both carry out the act, the library without the check where `trusted` is set and the index is sound; codes, rows, tally and every
    /// byte are compared. With `exact` false, what no rule names is left out where the act was carried out, but for the pages that it
    /// changed: 0 there.
    pub fn act(&mut self, lib: &mut [u8], model: &mut Model, act: &Act, exact: bool) -> u32 {
        let trusted = self.trusted && (!permitted(model.b.len()) || matches!(act, Act::Make(_)) || model.sound());
        self.counts.trusted += trusted as u64;
        let before = if exact { None } else { Some(model.b.clone()) };
        let vouched = trusted && self.counts.trusted % 2 == 0;
        let (got, want) = match act {
            Act::Make(d) => (ffi::make(lib, *d), model.make(*d as u32)),
            Act::Insert(tag, x) if vouched => (self.vouched_insert(lib, model, *tag, x), model.insert(*tag, x)),
            Act::Insert(tag, x) => (ffi::insert(lib, *tag, x, trusted), model.insert(*tag, x)),
            Act::Delete(id) if vouched => (self.vouched_delete(lib, model, *id), model.delete(*id)),
            Act::Delete(id) => (ffi::delete(lib, *id, trusted), model.delete(*id)),
            Act::Question(..) => self.ask(lib, model, act, trusted),
            Act::Check => self.checked(lib, model),
        };
        self.counts.acts += 1;
        self.counts.codes[want as usize] += 1;
        self.expect(got == want, || format!("{act:?}: library {got}, model {want}"));
        match before {
            Some(before) if want == 0 && got == 0 && before != model.b => {
                let sound = judge::sound(lib);
                self.expect(sound, || format!("{act:?}: not sound afterwards"));
                if sound {
                    let tidy = canonical(lib);
                    self.equal(&format!("{act:?}"), &tidy, &canonical(&model.b));
                    let changed = |&p: &u32| page(lib, p) != page(&before, p);
                    let left = (1..(lib.len() / PAGE) as u32).filter(changed).find(|&p| page(lib, p) != page(&tidy, p));
                    self.expect(left.is_none(), || format!("{act:?}: unused bytes of a changed page are not 0: {left:?}"));
                }
            }
            _ => self.equal(&format!("{act:?}"), lib, &model.b),
        }
        want
    }

    /// An insert whose caller vouches that the identifier is not live, where that is so.
    fn vouched_insert(&mut self, lib: &mut [u8], model: &Model, tag: Tag, x: &[i16]) -> u32 {
        if permitted(lib.len()) && model.record(tag.id).is_some() {
            return ffi::insert(lib, tag, x, true);
        }
        self.counts.vouched += 1;
        ffi::vouched_insert(lib, tag, x)
    }

    /// A delete whose caller gives the point. With another point it is refused with 7 first; so is an identifier that is not live.
    fn vouched_delete(&mut self, lib: &mut [u8], model: &Model, id: u32) -> u32 {
        self.counts.vouched += 1;
        if !permitted(lib.len()) {
            return ffi::vouched_delete(lib, id, &[]);
        }
        let Some(record) = model.record(id) else { return ffi::vouched_delete(lib, id, &vec![0; model.d()]) };
        let mut x: Vec<i16> = record.point(model.d()).iter().map(|&c| c as i16).collect();
        let at = id as usize % x.len();
        let old = x[at];
        x[at] = if old < 1000 { old + 1 } else { -1000 };
        let code = ffi::vouched_delete(lib, id, &x);
        self.expect(code == 7, || format!("delete of {id} at {x:?}: {code}"));
        self.equal("delete at another point", lib, &model.b);
        x[at] = old;
        ffi::vouched_delete(lib, id, &x)
    }

    fn ask(&mut self, lib: &[u8], model: &mut Model, act: &Act, trusted: bool) -> (u32, u32) {
        let Act::Question(asked, lent, tally) = act else { unreachable!() };
        let (lent, tally) = (*lent, *tally);
        let (mut rows, mut wanted) = (lent_rows(), lent_rows());
        let (mut tally_got, mut tally_want) = (tally, tally);
        let got = ffi::question(lib, asked, &mut rows, lent, &mut tally_got, trusted);
        let want = model.question(asked, &mut wanted[..lent], &mut tally_want);
        self.counts.rows += want.rows as u64;
        self.expect(got == want, || format!("{asked:?}, lent {lent}: library {got:?}, model {want:?}"));
        self.expect(rows == wanted, || {
            let at = (0..ROWS).find(|&i| rows[i] != wanted[i]).unwrap();
            format!("{asked:?}: row {at}: library {:?}, model {:?}", rows[at], wanted[at])
        });
        self.expect(tally_got == tally_want, || format!("{asked:?}: tally: library {tally_got:?}, model {tally_want:?}"));
        (got.code, want.code)
    }

    fn checked(&mut self, lib: &[u8], model: &mut Model) -> (u32, u32) {
        let (code, page) = ffi::check(lib);
        if !permitted(model.b.len()) {
            self.expect(page == 0, || format!("check of a length that is not permitted: page {page}"));
            return (code, 1);
        }
        if model.sound() {
            self.expect(page == 0, || format!("check of a sound index: page {page}"));
            return (code, 0);
        }
        let fails = model.fails();
        self.expect(fails.contains(&page), || format!("check: page {page}, judge {fails:?}"));
        (code, 2)
    }

    /// The library's rows and the leaves that it read, with the check or without. Rows past those returned are as they were lent.
    pub fn answer(&mut self, lib: &[u8], asked: &Asked, trusted: bool) -> (Vec<Row>, u32) {
        let mut rows = lent_rows();
        let got = ffi::question(lib, asked, &mut rows, ROWS, &mut Tally::default(), trusted);
        self.counts.searches += trusted as u64;
        self.expect(got.code == 0, || format!("{asked:?}: {got:?}"));
        self.expect(rows[got.rows..] == lent_rows()[got.rows..], || format!("{asked:?}: rows past the {} returned", got.rows));
        (rows[..got.rows].to_vec(), got.leaves)
    }

    /// The search by itself against rows and leaves that it should give.
    pub fn search_gives(&mut self, what: &str, lib: &[u8], asked: &Asked, want_rows: &[Row], leaves: u32) {
        let mut rows = lent_rows();
        let mut wanted = lent_rows();
        wanted[..want_rows.len()].copy_from_slice(want_rows);
        let got = ffi::search(lib, asked, &mut rows, asked.k);
        self.counts.searches += 1;
        self.counts.rows += want_rows.len() as u64;
        let want = Answer { code: 0, rows: want_rows.len(), leaves };
        self.expect(got == want, || format!("{what}: {asked:?}: library {got:?}, model {want:?}"));
        self.expect(rows == wanted, || format!("{what}: {asked:?}: other rows"));
    }
}

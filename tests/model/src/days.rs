//! Recording days: which stamps lie in which, held against the C library's calendar, which records dates leave to be looked for, and the
//! refusals 17 and 18 in their places. Questions are asked with the check and without.

use crate::acts::{lent_rows, outcomes, Act, ROWS};
use crate::built::{built, Plan, Shape};
use crate::calendar::{every, Date, Dates, FIRST, LAST, WIDEST};
use crate::data::{Kind, Rng, KINDS};
use crate::faults::{refused, Fault, FAULTS};
use crate::ffi::{self, Handed};
use crate::geometry::distance;
use crate::layout::*;
use crate::lent::Lent;
use crate::model::{Asked, Model, Row, Tally};
use crate::platform;
use crate::run::Run;
use crate::series::{Ids, Series};
use crate::unread::{asked_point, each_way};
use std::cmp::Reverse;

const DAY: i64 = 86_400;

/// The days of 2000 to 2099.
const DAYS: i64 = 36_525;

fn on(year: u16, month: u8, day: u8) -> Date {
    Date::new(year, month, day)
}

fn to(first: Date, last: Date) -> Dates {
    Dates { first, last }
}

/// The n-th date from 1 January 2000, which is 0, by the C library.
fn nth(n: i64) -> Date {
    platform::date(n * DAY)
}

/// Whether a stamp lies in the days from the first date's noon to the noon after the last's, by the C library.
fn lies_in(stamp: u32, dates: Dates) -> bool {
    (platform::noon(dates.first)..platform::noon(dates.last) + DAY).contains(&stamp.into())
}

/// One leaf of up to 16 records, identifier n at n, whose stamps are set anew.
struct Leaf {
    bytes: Vec<u8>,
    stamps: Vec<u32>,
}

impl Leaf {
    fn new(n: usize) -> Leaf {
        let mut model = Model::over(vec![0; 2 * PAGE]);
        model.make(1);
        (1..=n).for_each(|id| assert_eq!(0, model.insert_new(Tag::of(id as u32), &[id as i16])));
        Leaf { bytes: model.b, stamps: vec![0; n] }
    }

    fn set(&mut self, stamps: impl IntoIterator<Item = i64>) {
        let old = self.stamps.len();
        self.stamps = stamps.into_iter().map(|stamp| stamp.try_into().unwrap()).collect();
        assert_eq!(old, self.stamps.len());
        for (i, &stamp) in self.stamps.iter().enumerate() {
            put_u32(page_mut(&mut self.bytes, 1), stamp_at(i), stamp);
        }
    }

    /// The code of a question for all records within dates, with the check or without, and the identifiers of its rows, nearest first.
    fn within(&self, dates: Option<Dates>, trusted: bool) -> (u32, Vec<u32>) {
        let mut rows = vec![Row::default(); self.stamps.len()];
        let (lent, asked) = (rows.len(), Asked { dates, ..Asked::new(&[0], rows.len(), ALL_STAGES) });
        let answer = ffi::question(&self.bytes, &asked, &mut rows, lent, &mut Tally::default(), trusted);
        (answer.code, rows[..answer.rows].iter().map(|row| row.id).collect())
    }

    /// Questions within dates give these records, with the check and without.
    fn gives(&self, run: &mut Run, dates: Option<Dates>, want: &[u32]) {
        for trusted in [false, true] {
            let got = self.within(dates, trusted);
            run.counts.searches += trusted as u64;
            run.expect(got.0 == 0 && got.1 == want, || format!("{dates:?} of {:?}: {got:?}, not {want:?}", self.stamps));
        }
    }

    /// As the C library's calendar has it: the records within, or 18.
    fn lies(&self, run: &mut Run, dates: Dates) {
        let within = |id: &u32| lies_in(self.stamps[*id as usize - 1], dates);
        let want: Vec<u32> = (1..=self.stamps.len() as u32).filter(within).collect();
        if platform::noon(dates.first) <= platform::noon(dates.last) {
            return self.gives(run, Some(dates), &want);
        }
        for trusted in [false, true] {
            let got = self.within(Some(dates), trusted);
            run.expect(got == (18, vec![]), || format!("{dates:?}: {got:?}, not 18"));
        }
    }

    /// The code of a question within dates, the same with the check and without.
    fn code(&self, run: &mut Run, dates: Dates, want: u32) {
        for trusted in [false, true] {
            let got = self.within(Some(dates), trusted).0;
            run.expect(got == want, || format!("{dates:?}: {got}, not {want}"));
        }
    }
}

/// Stamps and their days, worked out on paper.
fn by_hand(run: &mut Run) {
    let days = [
        (on(2000, 1, 1), vec![43_200, 129_599]),
        (on(2000, 1, 2), vec![129_600]),
        (on(2000, 2, 28), vec![5_140_799]),
        (on(2000, 2, 29), vec![5_140_800, 5_227_199]),
        (on(2000, 3, 1), vec![5_227_200]),
        // 22:00, and in the morning after
        (on(2025, 11, 16), vec![816_645_600, 816_674_400, 816_695_999]),
        (on(2025, 11, 17), vec![816_696_000]),
        (on(2099, 12, 30), vec![3_155_716_799]),
        (on(2099, 12, 31), vec![3_155_716_800, 3_155_803_199]),
    ];
    let stamps: Vec<i64> = days.iter().flat_map(|(_, stamps)| stamps.clone()).collect();
    let mut leaf = Leaf::new(stamps.len());
    leaf.set(stamps);
    let mut next = 1;
    for (date, stamps) in &days {
        let ids: Vec<u32> = (next..next + stamps.len() as u32).collect();
        leaf.gives(run, Some(Dates::one(*date)), &ids);
        leaf.gives(run, Some(to(FIRST, *date)), &(1..next + stamps.len() as u32).collect::<Vec<u32>>());
        leaf.gives(run, Some(to(*date, LAST)), &(next..=leaf.stamps.len() as u32).collect::<Vec<u32>>());
        next += stamps.len() as u32;
    }
    for date in [on(2000, 1, 3), on(2000, 2, 27), on(2000, 3, 2), on(2025, 11, 15), on(2025, 11, 18), on(2050, 7, 1)] {
        leaf.gives(run, Some(Dates::one(date)), &[]);
    }
}

/// Every day from 2000 to 2099: a second before its noon, its noon, a second before the next, the next noon.
fn each_day(run: &mut Run) {
    let mut leaf = Leaf::new(4);
    run.expect((nth(0), nth(DAYS - 1), nth(DAYS)) == (FIRST, LAST, on(2100, 1, 1)), || "the C library has other days".into());
    for n in 0..DAYS {
        let (date, noon) = (nth(n), 43_200 + n * DAY);
        leaf.set([noon - 1, noon, noon + DAY - 1, noon + DAY]);
        leaf.gives(run, Some(Dates::one(date)), &[2, 3]);
        leaf.gives(run, Some(to(FIRST, date)), if n == 0 { &[2, 3] } else { &[1, 2, 3] });
        leaf.gives(run, Some(to(date, LAST)), if n == DAYS - 1 { &[2, 3] } else { &[2, 3, 4] });
        let (own, of) = (every().get(n as usize), [noon - 1, noon, noon + DAY - 1, noon + DAY].map(|stamp| Date::of(stamp as u32)));
        run.expect(own == Some(&date), || format!("day {n} is {own:?} in the model, {date:?} in the C library"));
        run.expect(of == [(n > 0).then(|| nth(n - 1)), Some(date), Some(date), Some(nth(n + 1))], || {
            format!("{date:?}: the model has {of:?}")
        });
    }
}

/// Eight days in a row, the seconds at and before their noons: every first and last date of them, the last before the first too.
fn stretch(run: &mut Run, start: i64) {
    let mut leaf = Leaf::new(16);
    leaf.set((start..start + 8).flat_map(|n| [43_199 + n * DAY, 43_200 + n * DAY]));
    for (first, last) in (start..start + 8).flat_map(|first| (start..start + 8).map(move |last| (first, last))) {
        leaf.lies(run, to(nth(first), nth(last)));
    }
}

/// Around each change of year and each end of February.
fn turns(run: &mut Run) {
    for year in 2000..2100 {
        stretch(run, platform::stamp(year, 2, 26, 0) / DAY);
        stretch(run, platform::stamp(year, 12, if year == 2099 { 24 } else { 28 }, 0) / DAY);
    }
    stretch(run, 0);
}

/// From the first of each month to the last of another: the noons that begin and end it, and the seconds before.
fn months(run: &mut Run) {
    let mut leaf = Leaf::new(4);
    for (start, length) in (0..1200).flat_map(|start| [1, 2, 3, 6, 11, 12, 13, 24, 47, 48, 120, 600, 1200].map(|length| (start, length))) {
        let end = start + length;
        if end > 1200 {
            continue;
        }
        let [from, until] = [start, end].map(|month| platform::stamp(2000, 1 + month, 1, 12));
        leaf.set([from - 1, from, until - 1, until]);
        let dates = to(platform::date(from), platform::date(until - DAY));
        leaf.gives(run, Some(dates), &[2, 3]);
    }
}

/// The first stamps of all and the last, with the widest dates, the first day, the last, and none.
fn ends(run: &mut Run) {
    let mut leaf = Leaf::new(6);
    leaf.set([0, 43_199, 43_200, 3_155_803_199, 3_155_803_200, u32::MAX.into()]);
    leaf.gives(run, Some(WIDEST), &[3, 4]);
    leaf.gives(run, Some(Dates::one(FIRST)), &[3]);
    leaf.gives(run, Some(Dates::one(LAST)), &[4]);
    leaf.gives(run, Some(to(FIRST, on(2099, 12, 30))), &[3]);
    leaf.gives(run, Some(to(on(2000, 1, 2), LAST)), &[4]);
    leaf.gives(run, Some(to(on(2000, 1, 2), on(2099, 12, 30))), &[]);
    leaf.gives(run, None, &[1, 2, 3, 4, 5, 6]);
    let mut rng = Rng(45);
    for _ in 0..20_000 {
        leaf.set((0..6).map(|_| i64::from(rng.next() as u32)));
        leaf.lies(run, WIDEST);
        leaf.gives(run, None, &[1, 2, 3, 4, 5, 6]);
    }
}

/// A date as the first, as the last and as both: 17, or nothing, as the C library has it.
fn each_place(run: &mut Run, leaf: &Leaf, date: Date) {
    let permitted = platform::exists(date) && (2000..=2099).contains(&date.year);
    run.expect(date.permitted() == permitted, || format!("{date:?} is permitted in the model: {}", !permitted));
    for dates in [to(date, LAST), to(FIRST, date), Dates::one(date)] {
        leaf.code(run, dates, if permitted { 0 } else { 17 });
    }
    // the last before the first, but for the ends: a date that is wrong is told first
    for (dates, end) in [(to(LAST, date), LAST), (to(date, FIRST), FIRST)] {
        leaf.code(run, dates, [17, 18, 0][permitted as usize + (date == end) as usize]);
    }
}

/// All dates of a grid that reaches beyond every limit.
fn grid(run: &mut Run) {
    let leaf = Leaf::new(1);
    for (year, month) in (1998..=2102).flat_map(|year| (0..=14).map(move |month| (year, month))) {
        (0..=33).for_each(|day| each_place(run, &leaf, on(year, month, day)));
    }
}

/// Each number of 16 bits as a year, each two of 8 as a month and a day.
fn numbers(run: &mut Run) {
    let leaf = Leaf::new(1);
    for year in 0..=u16::MAX {
        [(1, 1), (2, 29), (12, 31)].into_iter().for_each(|(month, day)| each_place(run, &leaf, on(year, month, day)));
    }
    for (year, month) in [2000, 2023].into_iter().flat_map(|year| (0..=u8::MAX).map(move |month| (year, month))) {
        (0..=u8::MAX).for_each(|day| each_place(run, &leaf, on(year, month, day)));
    }
}

/// Dates and what they are refused with, 0 for those that are not.
fn tabled() -> Vec<(Dates, u32)> {
    let good = on(2024, 2, 29);
    let mut all = vec![
        (WIDEST, 0),
        (Dates::one(good), 0),
        (Dates::one(FIRST), 0),
        (Dates::one(LAST), 0),
        (to(LAST, FIRST), 18),
        (to(good, on(2024, 2, 28)), 18),
        (to(on(2024, 3, 1), good), 18),
        (to(on(2024, 3, 1), on(2023, 12, 31)), 18),
        (to(on(2025, 1, 1), on(2024, 12, 31)), 18),
    ];
    let wrong = [
        on(2001, 2, 29),
        on(2000, 2, 30),
        on(2100, 2, 29),
        on(2100, 1, 1),
        on(1999, 12, 31),
        on(2024, 4, 31),
        on(2024, 0, 1),
        on(2024, 13, 1),
        on(2024, 1, 0),
        on(2024, 1, 32),
        on(0, 1, 1),
        on(u16::MAX, 12, 31),
        on(0, 0, 0),
    ];
    for date in wrong {
        all.extend(
            [to(date, LAST), to(FIRST, date), to(date, FIRST), to(LAST, date), to(date, good), to(good, date)].map(|dates| (dates, 17)),
        );
        all.extend(wrong.map(|other| (to(date, other), 17)));
    }
    all
}

/// 17 and then 18, after every other refusal.
fn in_order(run: &mut Run, d: usize) {
    let faults: [Fault; 2] = [(3, |asked, _| asked.x.push(0)), (14, |asked, _| asked.weights.as_mut().unwrap()[0] = 1001)];
    let faults = [&FAULTS[..], &faults].concat();
    let mut s = some_index(d, Kind::Uniform, 20);
    for (dates, number) in tabled() {
        let good = Asked::new(&s.point(), 2, ALL_STAGES).by(&vec![1000; d]).within(dates);
        refused(run, &mut s, &good, number, &faults);
        if number > 0 {
            let plain = Asked { weights: None, ..good };
            for (answer, rows, tally) in outcomes(&s.lib, &plain, Handed::of(&plain), 2) {
                let left = rows == lent_rows() && tally == Tally { questions: 3, leaves: 4 };
                run.expect((answer.code, answer.rows, answer.leaves) == (number, 0, 0), || format!("{dates:?}: {answer:?}"));
                run.expect(left, || format!("{dates:?}: rows or tally changed by a refused question"));
            }
        }
    }
}

/// An index that is refused itself: 1 and 2 come before the dates.
fn refused_first(run: &mut Run) {
    let sound = some_index(3, Kind::Uniform, 20).model.b;
    let mut damaged = sound.clone();
    damaged[TOTAL] ^= 1;
    for (dates, _) in tabled() {
        let asked = Asked::new(&[1, 2, 3], 2, ALL_STAGES).within(dates);
        for (bytes, want) in [(&damaged[..], 2), (&sound[..sound.len() - 1], 1), (&sound[..PAGE], 1), (&[], 1)] {
            for trusted in [false, true] {
                run.trusted = trusted;
                let act = Act::Question(asked.clone(), ROWS, Tally::default());
                let code = run.act(&mut Lent::new(bytes), &mut Model::over(bytes.to_vec()), &act, true);
                run.expect(code == want, || format!("{dates:?} of {} bytes: {code}, not {want}", bytes.len()));
            }
        }
    }
    run.trusted = false;
}

fn some_index(d: usize, kind: Kind, points: usize) -> Series {
    let plan = Plan { pages: points / 7 + 4, d, kind, points, shape: Shape::Any, junk: false };
    let seed = (points * 19 + d) as u64;
    Series::over(built(&mut Rng(seed), plan), kind, Ids::Any, seed)
}

/// An index with stamps of some weeks from a day on, many of them at the ends of days; some lie in no day that can be asked for.
fn some_weeks(d: usize, kind: Kind, points: usize, start: i64) -> Series {
    let s = some_index(d, kind, points);
    let mut rng = Rng(start as u64);
    let edges = [0, 1, 43_199, DAY / 2, DAY - 1];
    let mut stamp = || match rng.below(20) {
        0 => rng.pick(&[0, 43_199, 3_155_803_200, u32::MAX]),
        _ => {
            let second = if rng.one_in(2) { rng.pick(&edges) } else { rng.below(DAY as usize) as i64 };
            (43_200 + (start + rng.below(40) as i64) * DAY + second) as u32
        }
    };
    Series::over(s.model.retagged(|tag| Tag { stamp: stamp(), ..tag }), kind, Ids::Any, start as u64)
}

/// Dates among these weeks, or a little before and behind them.
fn some_dates(rng: &mut Rng, start: i64) -> Dates {
    let mut day = || (start + rng.range(-3, 43)).clamp(0, DAYS - 1);
    let (a, b) = (day(), day());
    let b = if rng.one_in(4) { a } else { b };
    to(nth(a.min(b)), nth(a.max(b)))
}

/// A question's rows, but for their leaves, from the C library's calendar and a look at every record.
fn scanned(records: &[Record], asked: &Asked) -> Vec<(u64, Reverse<u32>, u32)> {
    let from: Vec<i64> = asked.x.iter().map(|&c| c.into()).collect();
    let sought = |r: &&Record| asked.stages >> r.tag.stage & 1 == 1 && asked.dates.is_none_or(|dates| lies_in(r.tag.stamp, dates));
    let far = |r: &Record| distance(asked.weights.as_deref(), &r.point(from.len()), &from);
    let mut rows: Vec<_> = records.iter().filter(sought).map(|r| (far(r), Reverse(r.tag.stamp), r.tag.id)).collect();
    rows.sort();
    rows.truncate(asked.k);
    rows
}

/// Days with stages and weights: rows by the C library's calendar, leaves by the model, those left unread overwritten and exchanged.
fn together(run: &mut Run, d: usize, points: usize, start: i64) {
    for kind in KINDS {
        let mut s = some_weeks(d, kind, points, start);
        let records = s.model.records();
        for _ in 0..if run.long { 300 } else { 30 } {
            let k = 1 + if s.rng.one_in(3) { s.rng.below(64) } else { s.rng.below(6) };
            let (stages, dates) = (if s.rng.one_in(2) { ALL_STAGES } else { s.set() }, some_dates(&mut s.rng, start));
            let asked = Asked { x: asked_point(&mut s), weights: s.weights(), k, stages, dates: Some(dates) };
            let want = scanned(&records, &asked);
            for trusted in [false, true] {
                let (rows, _) = run.answer(&s.lib, &asked, trusted);
                run.expect(rows.iter().map(Row::order).eq(want.iter().copied()), || format!("{asked:?}: {rows:?}, not {want:?}"));
            }
            s.ask(run, &asked, ROWS);
            each_way(run, &mut s, asked);
        }
    }
}

/// Days one by one: their rows, joined, are those of the days together.
fn joined(run: &mut Run, d: usize, points: usize, start: i64) {
    let mut s = some_weeks(d, Kind::Clustered, points, start);
    for _ in 0..if run.long { 60 } else { 6 } {
        let asked = Asked { weights: s.weights(), ..Asked::new(&s.point(), 1 + s.rng.below(64), s.set()) };
        let days: Vec<Vec<Row>> = (start..start + 40).map(|n| run.answer(&s.lib, &asked.within(Dates::one(nth(n))), true).0).collect();
        for (first, last) in [(0, 39), (0, 0), (3, 4), (7, 30), (20, 39), (39, 39)] {
            let mut rows = days[first..=last].concat();
            rows.sort_by_key(Row::order);
            rows.truncate(asked.k);
            let got = run.answer(&s.lib, &asked.within(to(nth(start + first as i64), nth(start + last as i64))), true).0;
            run.expect(got == rows, || format!("{asked:?}, days {first} to {last}: other rows than they have one by one"));
        }
    }
}

/// All stamps outside some days but for a few: with more rows asked for than these are, every leaf that holds records is read.
fn few(run: &mut Run, d: usize, points: usize, rare: usize) {
    for kind in KINDS {
        let s = some_index(d, kind, points);
        let mut rng = Rng((points + rare) as u64);
        let (from, until) = (platform::noon(on(2024, 2, 28)) as u32, platform::noon(on(2024, 3, 2)) as u32);
        let mut chosen = s.live.clone();
        while chosen.len() > rare {
            chosen.swap_remove(rng.below(chosen.len()));
        }
        let outside = [0, 1, 43_200, from - 1, until, until + 1, u32::MAX];
        let within = [from, from + 1, until - 1];
        let bytes = s.model.retagged(|tag| Tag { stamp: rng.pick(if chosen.contains(&tag.id) { &within } else { &outside }), ..tag });
        let mut s = Series::over(bytes, kind, Ids::Any, rare as u64);
        let holding = s.model.leaves().iter().filter(|&&p| count(&s.model.b, p) > 0).count() as u32;
        let dates = to(on(2024, 2, 28), on(2024, 3, 1));
        for k in [chosen.len() + 1, 64] {
            let asked = Asked { weights: s.weights(), ..Asked::new(&s.point(), k, ALL_STAGES).within(dates) };
            let (rows, read) = run.answer(&s.lib, &asked, true);
            let want = (chosen.len(), holding);
            run.expect((rows.len(), read) == want, || format!("{asked:?}: {} rows, {read} leaves of {holding}", rows.len()));
            s.ask(run, &asked, ROWS);
        }
        for k in 1..=chosen.len() {
            let asked = Asked { weights: s.weights(), ..Asked::new(&s.point(), k, ALL_STAGES).within(dates) };
            s.ask(run, &asked, ROWS);
        }
    }
}

/// Leaves worked out on paper: 1 to 17 at 1 to 17, each at the noon of its own day, 9 in the first leaf and 8 in the second.
fn leaves_by_hand(run: &mut Run) {
    let mut s = Series::new(run, 4, 1, Kind::Uniform, Ids::Upward, 1);
    for id in 1..=17 {
        s.act(run, &Act::Insert(Tag { id, stage: 2, stamp: (43_200 + i64::from(id) * DAY) as u32 }, vec![id as i16]));
    }
    for (x, k, (first, last), ids, leaves) in [
        (9, 1, (0, DAYS - 1), &[9][..], 1),
        (9, 1, (3, 8), &[8], 2),
        (1, 2, (3, 8), &[3, 4], 1),
        (1, 6, (3, 8), &[3, 4, 5, 6, 7, 8], 1),
        (1, 7, (3, 8), &[3, 4, 5, 6, 7, 8], 2),
        (17, 1, (17, 17), &[17], 1),
        (17, 2, (17, 17), &[17], 2),
        (17, 1, (1, 1), &[1], 2),
        (5, 1, (18, 99), &[], 2),
        (5, 1, (0, 0), &[], 2),
    ] {
        let asked = Asked::new(&[x], k, ALL_STAGES).within(to(nth(first), nth(last)));
        for trusted in [false, true] {
            let (rows, read) = run.answer(&s.lib, &asked, trusted);
            let got: Vec<u32> = rows.iter().map(|row| row.id).collect();
            run.expect((&got[..], read) == (ids, leaves), || format!("{asked:?}: {got:?}, {read} leaves, not {ids:?}, {leaves}"));
        }
        s.ask(run, &asked, ROWS);
    }
}

/// Dates of any years, on an index of any stamps.
fn any(run: &mut Run, d: usize, points: usize) {
    for kind in KINDS {
        let mut s = some_index(d, kind, points);
        let records = s.model.records();
        for _ in 0..if run.long { 200 } else { 20 } {
            let [a, b] = [0, 0].map(|_| s.rng.below(DAYS as usize) as i64);
            let asked = Asked::new(&asked_point(&mut s), 1 + s.rng.below(64), s.set()).within(to(nth(a.min(b)), nth(a.max(b))));
            let want = scanned(&records, &asked);
            let (rows, _) = run.answer(&s.lib, &asked, true);
            run.expect(rows.iter().map(Row::order).eq(want.iter().copied()), || format!("{asked:?}: {rows:?}, not {want:?}"));
            s.ask(run, &asked, ROWS);
        }
    }
}

/// Without dates what is handed over for them is disregarded.
fn idle(run: &mut Run, d: usize) {
    let mut s = some_index(d, Kind::Clustered, 60);
    let weights = vec![3; d];
    let plain = Asked::new(&asked_point(&mut s), 7, ALL_STAGES);
    for asked in [plain.by(&weights), plain, Asked::new(&s.point(), 64, 0), Asked::new(&vec![1001; d], 0, 0)] {
        let want = outcomes(&s.lib, &asked, Handed::of(&asked), ROWS);
        s.ask(run, &asked, ROWS);
        let ones = [WIDEST, to(LAST, FIRST), Dates::one(FIRST), Dates::one(on(2008, 7, 3)), Dates::one(on(u16::MAX, u8::MAX, u8::MAX))];
        for dates in ones.into_iter().chain(tabled().into_iter().map(|(dates, _)| dates)) {
            let got = outcomes(&s.lib, &asked, Handed { dates, ..Handed::of(&asked) }, ROWS);
            run.expect(got == want, || format!("{asked:?} beside {dates:?}: {:?}", got[0].0));
        }
    }
}

pub fn all(run: &mut Run) {
    run.case("days: by hand", by_hand);
    run.case("days: every day, by the C library's calendar", each_day);
    run.case("days: around each end of a year and of February", turns);
    run.case("days: months and years", months);
    run.case("days: the first and last stamps, the widest dates and none", ends);
    run.case("days: each date of a grid", grid);
    run.case("days: each number as a year, a month, a day", numbers);
    run.case("days: 17 and 18 in their places", |run| [1, 2, 16].into_iter().for_each(|d| in_order(run, d)));
    run.case("days: 1 and 2 before them", refused_first);
    run.case("days: none carried", |run| (1..=16).for_each(|d| idle(run, d)));
    run.case("days: leaves by hand", leaves_by_hand);
    run.case("days: fewer records than rows asked for", |run| {
        let sizes = [(1, 0), (1, 5), (2, 16), (2, 100), (3, 400), (16, 400)];
        sizes
            .into_iter()
            .flat_map(|(d, points)| [0, 1, 2, 5, 20].map(|rare| (d, points, rare)))
            .for_each(|(d, points, rare)| few(run, d, points, rare));
    });
    for (d, points) in [(1, 400), (2, 100), (3, 400), (8, 1800), (16, 400)] {
        run.case(&format!("days: with stages and weights, {points} points, d {d}"), |run| {
            [0, 40, 8_800, 36_480].into_iter().for_each(|start| together(run, d, points, start))
        });
    }
    run.case("days: one by one and together", |run| {
        [(1, 300, 0), (3, 300, 50), (16, 200, 36_485)].into_iter().for_each(|(d, points, start)| joined(run, d, points, start))
    });
    run.case("days: any years, every d", |run| (1..=16).for_each(|d| any(run, d, 150)));
    run.case("days: any years, 20,000 points", |run| [2, 8].into_iter().for_each(|d| any(run, d, 20_000)));
}

// The question of all stages, without weights and dates, with weights, and with dates that every stamp lies in, and the check beside those
// of the archive before, in one program (bench/run --before): both work on the same bytes and take turns. The archive before is of version
// 0.5, whose questions carry no dates; its names stand behind `before_`.
mod data;
mod index;
mod time;

use data::{Kind, Random, Source};
use epoch_index::{Date, Dates, SoundIndex, StageSet, Tally, MAX_WEIGHT};
use index::filled;
use std::hint::black_box;
use time::{quickest, spread};

const ROUNDS: usize = 31;
const FEATURES: [usize; 5] = [1, 2, 4, 8, 16];
const SIZES: [usize; 3] = [1_000, 10_000, 65_535];
const ROWS: [usize; 3] = [1, 10, 64];

#[repr(C)]
#[derive(Clone, Copy, Default)]
struct FoundRow {
    distance: u64,
    id: u32,
    stamp: u32,
    position: u64,
}

#[repr(C)]
struct Answer {
    code: u32,
    count: usize,
    leaves: u32,
}

/// What is asked of a point, now.
#[repr(C)]
#[derive(Clone, Copy)]
struct Criteria {
    k: usize,
    stages: u8,
    weighted: bool,
    dated: bool,
    dates: Dates,
}

extern "C" {
    fn epoch_index_check(index: *const u8, index_len: usize, page: *mut u32) -> u32;
    fn epoch_index_trusted_ask(
        index: *const u8,
        index_len: usize,
        point: *const i16,
        point_len: usize,
        weights: *const u16,
        weights_len: usize,
        what: Criteria,
        rows: *mut FoundRow,
        rows_len: usize,
        tally: *mut Tally,
    ) -> Answer;
    fn before_epoch_index_check(index: *const u8, index_len: usize, page: *mut u32) -> u32;
    fn before_epoch_index_trusted_weighted_question(
        index: *const u8,
        index_len: usize,
        point: *const i16,
        point_len: usize,
        weighted: bool,
        weights: *const u16,
        weights_len: usize,
        k: usize,
        stages: u8,
        rows: *mut FoundRow,
        rows_len: usize,
        tally: *mut Tally,
    ) -> Answer;
}

fn check(bytes: &[u8]) {
    let mut page = 0;
    assert_eq!(unsafe { epoch_index_check(bytes.as_ptr(), bytes.len(), &mut page) }, 0);
}

fn check_before(bytes: &[u8]) {
    let mut page = 0;
    assert_eq!(unsafe { before_epoch_index_check(bytes.as_ptr(), bytes.len(), &mut page) }, 0);
}

/// What a question carries. Its rows are those of the one before with the same weights: dates leave none out.
#[derive(Clone, Copy, PartialEq)]
enum Carried {
    Nothing,
    Weights,
    Dates,
}

impl Carried {
    const ALL: [Carried; 3] = [Carried::Nothing, Carried::Weights, Carried::Dates];

    fn name(self) -> &'static str {
        match self {
            Carried::Nothing => "nothing",
            Carried::Weights => "weights",
            Carried::Dates => "dates",
        }
    }

    fn dates(self) -> Option<Dates> {
        let all = Dates { first: Date::new(2000, 1, 1), last: Date::new(2099, 12, 31) };
        (self == Carried::Dates).then_some(all)
    }
}

/// An index, points to ask from, and a weight of 1 to 1,000 for each of their coordinates.
struct Case {
    d: usize,
    bytes: Vec<u8>,
    questions: Vec<i16>,
    weights: Vec<u16>,
}

impl Case {
    fn new(kind: Kind, d: usize, n: usize) -> Case {
        let (mut source, mut random) = (Source::new(kind, d), Random::default());
        let (bytes, questions) = (filled(&source.points(n), d), source.points(50));
        let weights = questions.iter().map(|_| random.within(1, MAX_WEIGHT.into()) as u16).collect();
        Case { d, bytes, questions, weights }
    }

    /// The points that are asked from, each with its weights.
    fn each(&self) -> impl Iterator<Item = (&[i16], &[u16])> {
        self.questions.chunks(self.d).zip(self.weights.chunks(self.d))
    }

    /// Rows and leaves of a question of all stages.
    fn ask(&self, (q, weights): (&[i16], &[u16]), carried: Carried, k: usize, rows: &mut [FoundRow], tally: &mut Tally) -> (usize, u32) {
        let (index, stages, lent) = (&self.bytes, StageSet::ALL.bits(), (rows.as_mut_ptr(), rows.len()));
        let (weighted, dates) = (carried == Carried::Weights, carried.dates());
        let none = Date::new(0, 0, 0).into();
        let what = Criteria { k, stages, weighted, dated: dates.is_some(), dates: dates.unwrap_or(none) };
        let (point, weights) = ((q.as_ptr(), q.len()), (weights.as_ptr(), if weighted { weights.len() } else { 0 }));
        let answer = unsafe {
            epoch_index_trusted_ask(index.as_ptr(), index.len(), point.0, point.1, weights.0, weights.1, what, lent.0, lent.1, tally)
        };
        assert_eq!(answer.code, 0);
        (answer.count, answer.leaves)
    }

    /// The same of the archive before, without dates.
    fn ask_before(
        &self,
        (q, weights): (&[i16], &[u16]),
        carried: Carried,
        k: usize,
        rows: &mut [FoundRow],
        tally: &mut Tally,
    ) -> (usize, u32) {
        let (index, all, weighted) = (&self.bytes, StageSet::ALL.bits(), carried == Carried::Weights);
        let (point, lent) = ((q.as_ptr(), q.len()), (rows.as_mut_ptr(), rows.len()));
        let (some, number) = (weights.as_ptr(), if weighted { weights.len() } else { 0 });
        let answer = unsafe {
            before_epoch_index_trusted_weighted_question(
                index.as_ptr(),
                index.len(),
                point.0,
                point.1,
                weighted,
                some,
                number,
                k,
                all,
                lent.0,
                lent.1,
                tally,
            )
        };
        assert_eq!(answer.code, 0);
        (answer.count, answer.leaves)
    }

    /// Holds the rows and leaves of all questions to those before.
    fn compare(&self, sound: &SoundIndex<&[u8]>, k: usize) {
        let mut rows = [FoundRow::default(); 64];
        for (asked, carried) in self.each().flat_map(|asked| Carried::ALL.map(|carried| (asked, carried))) {
            let weights = (carried == Carried::Weights).then_some(asked.1);
            let found = sound.question(asked.0, weights, k, StageSet::ALL, carried.dates(), &mut Tally::default()).unwrap();
            let (count, leaves) = self.ask_before(asked, carried, k, &mut rows, &mut Tally::default());
            assert_eq!((found.rows.len(), found.leaves), (count, leaves));
            for (now, before) in found.rows.iter().zip(&rows) {
                let before = (before.distance, before.id, before.stamp, before.position);
                assert_eq!((now.distance, now.id, now.stamp, now.position), before);
            }
        }
    }

    fn ask_all_before(&self, carried: Carried, k: usize) {
        let (mut rows, mut tally) = ([FoundRow::default(); 64], Tally::default());
        for asked in self.each() {
            black_box(self.ask_before(asked, carried, k, &mut rows, &mut tally));
        }
        black_box(rows);
    }

    fn ask_all(&self, carried: Carried, k: usize) {
        let (mut rows, mut tally) = ([FoundRow::default(); 64], Tally::default());
        for asked in self.each() {
            black_box(self.ask(asked, carried, k, &mut rows, &mut tally));
        }
        black_box(rows);
    }
}

/// What a line has measured: now over before, and before over itself.
struct Measured {
    what: String,
    d: usize,
    n: usize,
    ratio: f64,
    twice: f64,
}

/// Prints a line: the sum of two times now over that of two before, and the two before over each other. The two take turns, so that each begins
/// where the other has left the caches.
fn line(what: &str, name: &str, now: &dyn Fn(), before: &dyn Fn()) -> (f64, f64) {
    let times = quickest(ROUNDS, &mut [&mut || before(), &mut || now(), &mut || before(), &mut || now()]);
    let (ratio, twice) = ((times[1] + times[3]) / (times[0] + times[2]), times[2] / times[0]);
    println!("| {what} | {name} | {ratio:.3} | {twice:.3} |");
    (ratio, twice)
}

/// What a question is called in the tables.
fn named(k: usize, carried: Carried) -> String {
    format!("search, k = {k} | {}", carried.name())
}

const CHECK: &str = "check | ";

fn measure(kind: Kind, d: usize, n: usize) -> Vec<Measured> {
    let case = Case::new(kind, d, n);
    let name = format!("{} | {d} | {n}", kind.name());
    let sound = SoundIndex::open(&case.bytes[..]).unwrap();
    let mut all = Vec::new();
    let mut add = |what: String, (ratio, twice)| all.push(Measured { what, d, n, ratio, twice });
    for k in ROWS {
        case.compare(&sound, k);
        for carried in Carried::ALL {
            let what = named(k, carried);
            let ratios = line(&what, &name, &|| case.ask_all(carried, k), &|| case.ask_all_before(carried, k));
            add(what, ratios);
        }
    }
    add(CHECK.into(), line(CHECK, &name, &|| check(&case.bytes), &|| check_before(&case.bytes)));
    all
}

/// The median of now over before, over some of the lines.
fn median(all: &[Measured], some: impl Fn(&Measured) -> bool) -> String {
    let mut ratios: Vec<f64> = all.iter().filter(|m| some(m)).map(|m| m.ratio).collect();
    ratios.sort_by(f64::total_cmp);
    format!(" {:.2} |", ratios[ratios.len() / 2])
}

/// Prints the medians by n, over the kinds of points and d, and by d, over the kinds of points and n, and how well the time before agrees with
/// itself.
fn report(all: &[Measured]) {
    let mut whats: Vec<String> = ROWS.into_iter().flat_map(|k| Carried::ALL.map(|carried| named(k, carried))).collect();
    whats.push(CHECK.into());
    println!("\n| now / before | carried | 1,000 points | 10,000 points | 65,535 points |");
    println!("|---|---|---|---|---|");
    for what in &whats {
        println!("| {what} |{}", SIZES.map(|n| median(all, |m| m.what == *what && m.n == n)).concat());
    }
    println!("\n| now / before | carried | d = 1 | 2 | 4 | 8 | 16 |");
    println!("|---|---|---|---|---|---|---|");
    for what in &whats {
        println!("| {what} |{}", FEATURES.map(|d| median(all, |m| m.what == *what && m.d == d)).concat());
    }
    println!("\nThe code before timed twice in each line: {}.", spread(all.iter().map(|m| m.twice).collect()));
}

fn main() {
    println!("| what | carried | points | d | n | now / before | before, timed twice |");
    println!("|---|---|---|---|---|---|---|");
    let mut all = Vec::new();
    for kind in Kind::ALL {
        for d in FEATURES {
            SIZES.into_iter().for_each(|n| all.extend(measure(kind, d, n)));
        }
    }
    report(&all);
}

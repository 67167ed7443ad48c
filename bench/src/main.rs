// The benchmark: every figure is a ratio of two times taken in this run. docs/BENCHMARK.md has a run's output. Each kind of points, and the
// import, is measured for each number of features in a process of its own, so that its memory is that of a program which holds one index.
mod data;
mod import;
mod index;
#[cfg(others)]
mod others;
mod scan;
mod stages;
mod time;
mod weights;

use data::{Kind, Source};
use epoch_index::{Dates, Index, Row, SoundIndex, StageSet, Tally, PAGE_BYTES};
use index::{fill, filled, Keeps, Map};
use scan::Scan;
use std::env;
use std::hint::black_box;
use std::process::{Command, Stdio};
use time::{quickest, spread, timed};
use weights::Weights;

const FEATURES: [usize; 5] = [1, 2, 4, 8, 16];
const SIZES: [usize; 3] = [1_000, 10_000, 65_535];
const ROWS: [usize; 3] = [1, 10, 64];
const ROUNDS: usize = 15;

/// Some points in an index, and in what it is compared with.
struct Case {
    kind: Kind,
    d: usize,
    n: usize,
    points: Vec<i16>,
    questions: Vec<i16>,
    bytes: Vec<u8>,
    scan: Scan,
    #[cfg(others)]
    others: Vec<others::Other>,
}

impl Case {
    fn new(kind: Kind, d: usize, n: usize) -> Case {
        let mut source = Source::new(kind, d);
        let points = source.points(n);
        let questions = source.points(50);
        Case {
            kind,
            d,
            n,
            bytes: filled(&points, d),
            scan: Scan::new(&points, d),
            #[cfg(others)]
            others: others::Other::all(&points, d),
            points,
            questions,
        }
    }

    fn asked(&self) -> usize {
        self.questions.len() / self.d
    }

    /// The search by itself for every question, among some stages and days; the leaves read.
    fn search_all(&self, sound: &SoundIndex<&[u8]>, k: usize, stages: StageSet, dates: Option<Dates>) -> u64 {
        let (mut rows, mut tally) = ([Row::default(); 64], Tally::default());
        for q in self.questions.chunks(self.d) {
            black_box(sound.question_into(q, None, k, stages, dates, &mut rows, &mut tally).unwrap());
        }
        black_box(rows);
        u64::from(tally.leaves)
    }

    /// The whole act for some of the questions.
    fn act_some(&self, k: usize, some: usize) {
        let index = Index::new(&self.bytes[..]);
        let mut rows = [Row::default(); 64];
        for q in self.questions.chunks(self.d).take(some) {
            black_box(index.question_into(q, None, k, StageSet::ALL, None, &mut rows, &mut Tally::default()).unwrap());
        }
        black_box(rows);
    }

    fn scan_all(&self, k: usize) {
        let mut kept = Vec::with_capacity(65);
        for q in self.questions.chunks(self.d) {
            self.scan.ask(q, k, &mut kept);
            black_box(&kept);
        }
    }

    fn scan_all_avx2(&self, k: usize) {
        let mut kept = Vec::with_capacity(65);
        for q in self.questions.chunks(self.d) {
            unsafe { self.scan.ask_avx2(q, k, &mut kept) };
            black_box(&kept);
        }
    }

    #[cfg(others)]
    fn others_all(&self, k: usize) -> Vec<f64> {
        let ask = |other: &others::Other| {
            quickest(
                2,
                &mut [&mut || {
                    for q in self.questions.chunks(self.d) {
                        black_box(other.ask(q, k));
                    }
                }],
            )[0]
        };
        self.others.iter().map(ask).collect()
    }

    #[cfg(not(others))]
    fn others_all(&self, _k: usize) -> Vec<f64> {
        Vec::new()
    }

    /// Holds the search's rows to the scan's.
    fn compare(&self, k: usize) {
        let sound = SoundIndex::open(&self.bytes[..]).unwrap();
        let mut kept = Vec::new();
        for q in self.questions.chunks(self.d) {
            let found = sound.question(q, None, k, StageSet::ALL, None, &mut Tally::default()).unwrap();
            self.scan.ask(q, k, &mut kept);
            assert!(found.rows.iter().map(|r| (r.distance as u32, r.id)).eq(kept.iter().copied()));
        }
    }

    /// A line of the first table, and the ratio of the scan timed twice.
    fn line(&self, k: usize) -> (String, f64) {
        self.compare(k);
        let sound = SoundIndex::open(&self.bytes[..]).unwrap();
        let wide = is_x86_feature_detected!("avx2");
        let times = quickest(
            ROUNDS,
            &mut [
                &mut || self.scan_all(k),
                &mut || {
                    self.search_all(&sound, k, StageSet::ALL, None);
                },
                &mut || self.act_some(k, 5),
                &mut || {
                    if wide {
                        self.scan_all_avx2(k)
                    }
                },
                &mut || self.scan_all(k),
            ],
        );
        let (scan, asked) = (times[0], self.asked() as f64);
        let read = self.search_all(&sound, k, StageSet::ALL, None) as f64 / asked;
        let leaves = leaf_total(&self.bytes);
        let mut line = format!("| {} | {} | {} | {k} | {leaves} | {read:.1} ", self.kind.name(), self.d, self.n);
        let wide = if wide { times[3] } else { f64::NAN };
        for time in [times[1], times[2] * asked / 5.0, wide].into_iter().chain(self.others_all(k)) {
            line += &format!("| {:.2} ", time / scan);
        }
        (line + "|", times[4] / scan)
    }
}

/// The number of leaves: the pages of level 0 that hold records (docs/LAYOUT.md).
fn leaf_total(bytes: &[u8]) -> usize {
    bytes.chunks(PAGE_BYTES).skip(1).filter(|page| page[0] == 0 && page[1] > 0).count()
}

/// Touches every cache line of the index once.
fn touch(bytes: &[u8]) {
    black_box(bytes.iter().step_by(64).fold(0u8, |sum, b| sum ^ b));
}

/// Seconds for one insert, and for one delete, of the last `some` points.
fn upkeep(keeper: &mut impl Keeps, points: &[i16], d: usize, some: usize) -> (f64, f64) {
    let first = points.len() / d - some;
    let last = |keeper: &mut _, act: fn(&mut _, u32, &[i16])| {
        points.chunks(d).enumerate().skip(first).for_each(|(i, p)| act(keeper, i as u32 + 1, p))
    };
    let (mut put, mut taken) = (f64::MAX, f64::MAX);
    for _ in 0..ROUNDS {
        taken = taken.min(timed(|| last(keeper, Keeps::take)));
        put = put.min(timed(|| last(keeper, Keeps::put)));
    }
    (put / some as f64, taken / some as f64)
}

/// Seconds, for the second table and for the growth with n.
struct Times {
    kind: Kind,
    d: usize,
    n: usize,
    touch: f64,
    check: f64,
    search: f64,
    scan: f64,
    /// insert and delete without the check, with a table of identifiers too, as acts, and of the map
    trusted: (f64, f64),
    tabled: (f64, f64),
    acts: (f64, f64),
    map: (f64, f64),
}

impl Times {
    fn of(case: &mut Case) -> Times {
        let sound = SoundIndex::open(&case.bytes[..]).unwrap();
        let read = quickest(
            ROUNDS,
            &mut [
                &mut || touch(&case.bytes),
                &mut || Index::new(&case.bytes[..]).check().unwrap(),
                &mut || {
                    case.search_all(&sound, 10, StageSet::ALL, None);
                },
                &mut || case.scan_all(10),
            ],
        );
        let mut map = Map::default();
        fill(&mut map, &case.points, case.d);
        let (points, d) = (&case.points, case.d);
        Times {
            kind: case.kind,
            d,
            n: case.n,
            touch: read[0],
            check: read[1],
            search: read[2],
            scan: read[3],
            trusted: upkeep(&mut SoundIndex::open(&mut case.bytes[..]).unwrap(), points, d, 200),
            tabled: upkeep(&mut SoundIndex::open(&mut case.bytes[..]).unwrap().into_tabled(), points, d, 200),
            acts: upkeep(&mut Index::new(&mut case.bytes[..]), points, d, 5),
            map: upkeep(&mut map, points, d, 200),
        }
    }

    /// A line of the second table.
    fn line(&self) -> String {
        format!(
            "| {} | {} | {} | {:.1} | {:.0} | {:.0} | {:.1} | {:.1} | {:.2} | {:.2} |",
            self.kind.name(),
            self.d,
            self.n,
            self.check / self.touch,
            self.trusted.0 / self.map.0,
            self.trusted.1 / self.map.1,
            self.tabled.0 / self.map.0,
            self.tabled.1 / self.map.1,
            self.acts.0 / self.check,
            self.acts.1 / self.check
        )
    }

    /// A line of the third table: these times over those of fewer points.
    fn growth(&self, few: &Times) -> String {
        format!(
            "| {} | {} | {} | {:.1} | {:.1} | {:.1} | {:.1} | {:.1} |",
            self.kind.name(),
            self.d,
            self.n,
            self.search / few.search,
            self.scan / few.scan,
            self.check / few.check,
            self.trusted.0 / few.trusted.0,
            self.tabled.0 / few.tabled.0
        )
    }
}

/// Measures some points of d features. Each line stands behind the number of its table, the scan's ratios behind 0.
fn measure(kind: Kind, d: usize) {
    let mut times = Vec::new();
    for n in SIZES {
        let mut case = Case::new(kind, d, n);
        for (line, again) in ROWS.map(|k| case.line(k)) {
            println!("1{line}\n0{again}");
        }
        println!("5{}", stages::line(&case, 10));
        if weights::KINDS.contains(&kind) && weights::FEATURES.contains(&d) {
            Weights::ALL.into_iter().for_each(|weights| println!("6{}", weights::line(&case, weights, 10)));
        }
        times.push(Times::of(&mut case));
    }
    times.iter().for_each(|time| println!("2{}", time.line()));
    times[1..].iter().for_each(|more| println!("3{}", more.growth(&times[0])));
}

/// The lines of a process that measures.
fn measured(name: &str, d: usize) -> Vec<String> {
    let mut process = Command::new(env::current_exe().unwrap());
    let output = process.args([name, &d.to_string()]).stderr(Stdio::inherit()).output().unwrap();
    assert!(output.status.success());
    String::from_utf8(output.stdout).unwrap().lines().map(String::from).collect()
}

/// The lines behind a number.
fn of_table(lines: &[String], table: char) -> impl Iterator<Item = &str> {
    lines.iter().filter_map(move |line| line.strip_prefix(table))
}

fn report(lines: &[String]) {
    println!("## Questions, as multiples of the linear scan\n");
    print!("| points | d | n | k | leaves | leaves read | search | act | scan, AVX2 |");
    println!("{}", if cfg!(others) { " k-d tree | flat | R*-tree |" } else { "" });
    println!("|---|{}", "---|".repeat(if cfg!(others) { 11 } else { 8 }));
    of_table(lines, '1').for_each(|line| println!("{line}"));
    let again = of_table(lines, '0').map(|ratio| ratio.parse().unwrap()).collect();
    println!("\nThe scan timed twice in each line: {}.", spread(again));
    println!("\n## Check, insert and delete\n");
    print!("| points | d | n | check / touch | insert / map | delete / map | tabled insert / map | tabled delete / map ");
    println!("| insert act / check | delete act / check |");
    println!("|---|---|---|---|---|---|---|---|---|---|");
    of_table(lines, '2').for_each(|line| println!("{line}"));
    println!("\n## Growth with n: times over those of 1,000 points, k = 10\n");
    println!("| points | d | n | search | scan | check | insert | tabled insert |");
    println!("|---|---|---|---|---|---|---|---|");
    of_table(lines, '3').for_each(|line| println!("{line}"));
    println!("\n## Import and check of points around zero: times over those of the same magnitudes without their signs\n");
    println!("| what | d | n | both signs / positive | timed again | negative / positive |");
    println!("|---|---|---|---|---|---|");
    of_table(lines, '4').for_each(|line| println!("{line}"));
    println!(
        "\n## Questions of one stage of six, or of the day that its epochs are of, as multiples of the linear scan of all points, k = 10\n"
    );
    print!("| points | d | n | leaves read, all stages | leaves read, one | search, all stages | search, one | search, its day ");
    println!("| scan of its points |");
    println!("|---|---|---|---|---|---|---|---|---|");
    of_table(lines, '5').for_each(|line| println!("{line}"));
    println!("\n## Questions with weights, as multiples of the linear scan by the same weights, k = 10\n");
    print!("| points | d | n | weights | leaves read, none | leaves read | search | scan, AVX2 | scan, none | search / search, none ");
    println!("| search, ones / none | scan, timed twice |");
    println!("|---|---|---|---|---|---|---|---|---|---|---|---|");
    of_table(lines, '6').for_each(|line| println!("{line}"));
}

fn main() {
    let args: Vec<String> = env::args().skip(1).collect();
    if let [name, d] = &args[..] {
        let d = d.parse().unwrap();
        return match name.as_str() {
            "import" => import::measure(d),
            name => measure(Kind::ALL.into_iter().find(|kind| kind.name() == name).unwrap(), d),
        };
    }
    let names = Kind::ALL.map(Kind::name).into_iter().chain(["import"]);
    let lines: Vec<String> = names.flat_map(|name| FEATURES.into_iter().flat_map(move |d| measured(name, d))).collect();
    report(&lines);
}

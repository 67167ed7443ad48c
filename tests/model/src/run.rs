//! Cases, what they compared, and a watch over their time.

use std::sync::atomic::{AtomicU64, Ordering};
use std::time::{Duration, Instant};

static BEATS: AtomicU64 = AtomicU64::new(0);

#[derive(Default)]
pub struct Counts {
    pub acts: u64,
    /// Of the acts, those without the check.
    pub trusted: u64,
    /// Of these, the inserts and deletes whose caller vouches for the identifier.
    pub vouched: u64,
    pub codes: [u64; 19],
    pub rows: u64,
    pub bytes: u64,
    pub damaged: u64,
    pub unsound: u64,
    /// Of the unsound, those that fail at the header.
    pub header: u64,
    /// Damaged indexes of a level above 4, which the acts without the check refuse.
    pub high: u64,
    /// The longest time of the acts without the check on one damaged index.
    pub longest: Duration,
    pub searches: u64,
    pub unread: u64,
}

impl Counts {
    fn add(&mut self, other: &Counts) {
        self.acts += other.acts;
        self.trusted += other.trusted;
        self.vouched += other.vouched;
        self.codes.iter_mut().zip(other.codes).for_each(|(sum, n)| *sum += n);
        self.rows += other.rows;
        self.bytes += other.bytes;
        self.damaged += other.damaged;
        self.unsound += other.unsound;
        self.header += other.header;
        self.high += other.high;
        self.longest = self.longest.max(other.longest);
        self.searches += other.searches;
        self.unread += other.unread;
    }
}

pub struct Run {
    pub long: bool,
    /// Acts on sound indexes go without the check.
    pub trusted: bool,
    /// Only cases whose names contain this: the first argument.
    only: String,
    pub counts: Counts,
    passed: u32,
    failed: u32,
    failures: u32,
    name: String,
}

impl Run {
    pub fn new() -> Run {
        std::thread::spawn(watch);
        let long = std::env::var("LONG").is_ok_and(|v| !v.is_empty() && v != "0");
        Run {
            long,
            trusted: false,
            only: std::env::args().nth(1).unwrap_or_default(),
            counts: Counts::default(),
            passed: 0,
            failed: 0,
            failures: 0,
            name: String::new(),
        }
    }

    /// A run for a thread that shares in this case; `join` adds what it found.
    pub fn fork(&self) -> Run {
        Run {
            long: self.long,
            trusted: self.trusted,
            only: String::new(),
            counts: Counts::default(),
            passed: 0,
            failed: 0,
            failures: 0,
            name: self.name.clone(),
        }
    }

    pub fn join(&mut self, share: Run) {
        self.counts.add(&share.counts);
        self.failures += share.failures;
    }

    pub fn case(&mut self, name: &str, test: impl FnOnce(&mut Run)) {
        if !name.contains(&self.only) {
            return;
        }
        self.name = name.to_string();
        self.failures = 0;
        let start = Instant::now();
        test(self);
        let verdict = if self.failures == 0 { "ok" } else { "FAILED" };
        println!("{verdict:6} {name} ({:.2} s)", start.elapsed().as_secs_f64());
        if self.failures == 0 {
            self.passed += 1;
        } else {
            self.failed += 1;
        }
    }

    /// One comparison; the first few failures of a case are printed.
    pub fn expect(&mut self, holds: bool, what: impl FnOnce() -> String) {
        BEATS.fetch_add(1, Ordering::Relaxed);
        if !holds {
            self.failures += 1;
            if self.failures <= 5 {
                println!("  {}: {}", self.name, what());
            }
        }
    }

    pub fn equal(&mut self, what: &str, library: &[u8], model: &[u8]) {
        self.counts.bytes += model.len() as u64;
        self.expect(library == model, || {
            let at = library.iter().zip(model).position(|(a, b)| a != b);
            format!("{what}: bytes differ, page {:?}, byte {:?}", at.map(|a| a / 1024), at.map(|a| a % 1024))
        });
    }

    pub fn finish(self) -> bool {
        let c = &self.counts;
        println!(
            "acts compared: {} ({} without the check, {} of them vouched), codes 0 to 18: {:?}",
            c.acts, c.trusted, c.vouched, c.codes
        );
        println!("rows compared: {}, bytes compared: {}", c.rows, c.bytes);
        println!("damaged indexes: {} (not sound: {}, of these failing at the header: {})", c.damaged, c.unsound, c.header);
        println!("acts without the check on damaged indexes: at most {:?} each; {} of a level above 4, refused", c.longest, c.high);
        println!("searches by themselves: {}, with {} pages of unread leaves overwritten or exchanged", c.searches, c.unread);
        println!("model: {} passed, {} failed", self.passed, self.failed);
        self.failed == 0
    }
}

/// Ends the run where nothing was compared for a minute: an act that does not end is a failure.
fn watch() {
    let mut seen = 0;
    loop {
        std::thread::sleep(Duration::from_secs(60));
        let now = BEATS.load(Ordering::Relaxed);
        if now == seen {
            println!("model: an act does not end");
            std::process::abort();
        }
        seen = now;
    }
}

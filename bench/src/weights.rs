// Questions with weights, beside a linear scan by the same weights.
use crate::data::{Kind, Random};
use crate::time::quickest;
use crate::{Case, ROUNDS};
use epoch_index::{Row, SoundIndex, StageSet, Tally};
use std::hint::black_box;

/// The numbers of features that are measured.
pub const FEATURES: [usize; 3] = [2, 8, 16];

/// Tied points are not measured.
pub const KINDS: [Kind; 2] = [Kind::Uniform, Kind::Clustered];

/// The weights of the questions, drawn for each question anew.
#[derive(Clone, Copy)]
pub enum Weights {
    /// Each 1 to 1,000.
    Random,
    /// The same, but one in four is 0.
    SomeZero,
}

impl Weights {
    pub const ALL: [Weights; 2] = [Weights::Random, Weights::SomeZero];

    fn name(self) -> &'static str {
        match self {
            Weights::Random => "1 to 1,000",
            Weights::SomeZero => "one in four 0",
        }
    }

    /// For so many questions of d features, one after the other.
    fn of(self, asked: usize, d: usize) -> Vec<u16> {
        let mut random = Random::default();
        let mut weight = || {
            let (some, zero) = (random.within(1, 1000) as u16, random.within(1, 4) == 1);
            match self {
                Weights::SomeZero if zero => 0,
                _ => some,
            }
        };
        (0..asked * d).map(|_| weight()).collect()
    }
}

/// The search by itself for every question, by its weights or without; the leaves read.
fn search_all(case: &Case, sound: &SoundIndex<&[u8]>, weights: Option<&[u16]>, k: usize) -> u64 {
    let (mut rows, mut tally) = ([Row::default(); 64], Tally::default());
    for (i, q) in case.questions.chunks(case.d).enumerate() {
        let own = weights.map(|weights| &weights[i * case.d..][..case.d]);
        black_box(sound.question_into(q, own, k, StageSet::ALL, None, &mut rows, &mut tally).unwrap());
    }
    black_box(rows);
    u64::from(tally.leaves)
}

fn scan_all(case: &Case, weights: &[u16], k: usize) {
    let mut kept = Vec::with_capacity(65);
    for (q, own) in case.questions.chunks(case.d).zip(weights.chunks(case.d)) {
        case.scan.ask_weighted(q, own, k, &mut kept);
        black_box(&kept);
    }
}

fn scan_all_avx2(case: &Case, weights: &[u16], k: usize) {
    let mut kept = Vec::with_capacity(65);
    for (q, own) in case.questions.chunks(case.d).zip(weights.chunks(case.d)) {
        unsafe { case.scan.ask_weighted_avx2(q, own, k, &mut kept) };
        black_box(&kept);
    }
}

/// Holds the search's rows to the scan's, and those of ones to those without weights.
fn compare(case: &Case, sound: &SoundIndex<&[u8]>, weights: &[u16], k: usize) {
    let (mut kept, ones) = (Vec::new(), vec![1; case.d]);
    let ask = |q, weights| sound.question(q, weights, k, StageSet::ALL, None, &mut Tally::default()).unwrap();
    for (q, own) in case.questions.chunks(case.d).zip(weights.chunks(case.d)) {
        case.scan.ask_weighted(q, own, k, &mut kept);
        assert!(ask(q, Some(own)).rows.iter().map(|r| (r.distance, r.id)).eq(kept.iter().copied()));
        assert_eq!(ask(q, Some(&ones)), ask(q, None));
    }
}

/// A line of the sixth table: times over that of the scan by the same weights, then ones over none, and the scan timed twice.
pub fn line(case: &Case, kind: Weights, k: usize) -> String {
    let sound = SoundIndex::open(&case.bytes[..]).unwrap();
    let weights = kind.of(case.asked(), case.d);
    let ones = vec![1; weights.len()];
    compare(case, &sound, &weights, k);
    let wide = is_x86_feature_detected!("avx2");
    let search = |weights: Option<&[u16]>| {
        search_all(case, &sound, weights, k);
    };
    let times = quickest(
        ROUNDS,
        &mut [
            &mut || scan_all(case, &weights, k),
            &mut || search(Some(&weights)),
            &mut || {
                if wide {
                    scan_all_avx2(case, &weights, k)
                }
            },
            &mut || search(None),
            &mut || search(Some(&ones)),
            &mut || case.scan_all(k),
            &mut || scan_all(case, &weights, k),
        ],
    );
    let read = |weights: Option<&[u16]>| search_all(case, &sound, weights, k) as f64 / case.asked() as f64;
    let mut line = format!("| {} | {} | {} | {} ", case.kind.name(), case.d, case.n, kind.name());
    line += &format!("| {:.1} | {:.1} ", read(None), read(Some(&weights)));
    let avx2 = if wide { times[2] } else { f64::NAN };
    for (time, over) in
        [(times[1], times[0]), (avx2, times[0]), (times[5], times[0]), (times[1], times[3]), (times[4], times[3]), (times[6], times[0])]
    {
        line += &format!("| {:.2} ", time / over);
    }
    line + "|"
}

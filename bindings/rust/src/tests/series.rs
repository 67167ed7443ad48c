//! Series of acts: with the check and without it they give the same answers and bytes, and questions give a full scan's rows.
use super::{bytes, calendar, noon, Random};
use crate::*;
use std::cmp::Reverse;
use std::collections::BTreeMap;

/// Distance, stamp and identifier: rows ascend by them.
type Nearness = (u64, Reverse<u32>, u32);

/// An index in two ways, the live epochs with their points, and a tally for each.
struct Series {
    checked: Index<Vec<u8>>,
    sound: SoundIndex<Vec<u8>>,
    points: BTreeMap<u32, (Epoch, Vec<i16>)>,
    tallies: [Tally; 2],
    calendar: Vec<Date>,
}

impl Series {
    fn new(d: usize) -> Series {
        let checked = Index::make(bytes(40), d as u8).unwrap();
        let sound = SoundIndex::open(checked.as_bytes().to_vec()).unwrap();
        Series { checked, sound, points: BTreeMap::new(), tallies: [Tally::default(); 2], calendar: calendar() }
    }

    fn insert(&mut self, epoch: Epoch, point: Vec<i16>) {
        let id = epoch.id;
        let done = self.checked.insert(epoch, &point);
        assert_eq!(self.sound.insert(epoch, &point), done);
        match done {
            Err(Refusal::NoPages) => (),
            Err(refusal) if id == 0 => assert_eq!(refusal, Refusal::ZeroIdentifier),
            Err(refusal) => assert_eq!((refusal, self.points.contains_key(&id)), (Refusal::AlreadyLive, true)),
            Ok(()) => {
                assert_ne!(id, 0);
                assert_eq!(self.points.insert(id, (epoch, point)), None);
            }
        }
    }

    fn delete(&mut self, id: u32) {
        let done = self.checked.delete(id);
        assert_eq!(self.sound.delete(id), done);
        assert_eq!(done.is_ok(), self.points.remove(&id).is_some());
    }

    fn question(&mut self, asked: Asked) {
        let Asked { point, weights, k, stages, dates } = asked;
        let found = self.checked.question(point, weights, k, stages, dates, &mut self.tallies[0]).unwrap();
        let rows: Vec<Nearness> = found.rows.iter().map(|row| (row.distance, Reverse(row.stamp), row.id)).collect();
        assert_eq!(self.sound.question(point, weights, k, stages, dates, &mut self.tallies[1]), Ok(found));
        assert_eq!(rows, self.full_scan(asked));
    }

    /// Whether a stamp lies in some days.
    fn lies_in(&self, stamp: u32, dates: Dates) -> bool {
        let day = stamp.checked_sub(noon(0)).and_then(|since| self.calendar.get(since as usize / 86_400));
        day.is_some_and(|&day| dates.first <= day && day <= dates.last)
    }

    /// The nearest of some stages and days by a look at every point.
    fn full_scan(&self, asked: Asked) -> Vec<Nearness> {
        let weight = |m| asked.weights.map_or(1, |weights| u64::from(weights[m]));
        let squared = |(m, (a, b)): (usize, (&i16, &i16))| weight(m) * (i64::from(*a) - i64::from(*b)).pow(2) as u64;
        let distance = |p: &[i16]| p.iter().zip(asked.point).enumerate().map(squared).sum();
        let sought = |epoch: &Epoch| asked.stages.contains(epoch.stage) && asked.dates.is_none_or(|dates| self.lies_in(epoch.stamp, dates));
        let candidates = self.points.values().filter(|(epoch, _)| sought(epoch));
        let mut rows: Vec<Nearness> = candidates.map(|(epoch, p)| (distance(p), Reverse(epoch.stamp), epoch.id)).collect();
        rows.sort_unstable();
        rows.truncate(asked.k);
        rows
    }
}

fn series(d: usize, reach: u64, seed: u64) {
    let mut random = Random(seed);
    let mut series = Series::new(d);
    for _ in 0..600 {
        let id = random.below(400) as u32;
        let point = random.point(d, reach);
        match random.below(4) {
            0 | 1 => series.insert(random.epoch(id), point),
            2 => series.delete(id),
            _ => {
                let (weights, k, stages) = (random.weights(d), 1 + random.below(MAX_K as u64) as usize, random.stages());
                let dates = random.dates(&series.calendar);
                series.question(Asked { point: &point, weights: weights.as_deref(), k, stages, dates });
            }
        }
        assert_eq!(series.sound.as_bytes(), series.checked.as_bytes());
    }
    assert_eq!(series.tallies[0], series.tallies[1]);
    series.checked.check().unwrap();
}

#[test]
fn series_agree_with_a_full_scan() {
    for (d, reach) in [(1, 20), (2, 3), (2, 1000), (5, 1000), (16, 1000)] {
        series(d, reach, 1 + d as u64 * reach);
    }
}

//! An index with a table of its identifiers does what one without does.
use super::{bytes, epoch, ids, upward, Random};
use crate::*;
use std::collections::BTreeMap;

/// The live epochs with their points.
type Live = BTreeMap<u32, (Epoch, Vec<i16>)>;

/// An index without the table and with it, and what is live.
struct Pair {
    sound: SoundIndex<Vec<u8>>,
    tabled: TabledIndex<Vec<u8>>,
    live: Live,
}

impl Pair {
    fn new(pages: usize, d: usize) -> Pair {
        let sound = SoundIndex::open(Index::make(bytes(pages), d as u8).unwrap().into_inner()).unwrap();
        Pair { tabled: sound.clone().into_tabled(), sound, live: BTreeMap::new() }
    }

    fn insert(&mut self, epoch: Epoch, point: Vec<i16>) -> Result<(), Refusal> {
        let done = self.sound.insert(epoch, &point);
        assert_eq!(self.tabled.insert(epoch, &point), done);
        if done.is_ok() {
            self.live.insert(epoch.id, (epoch, point));
        }
        done
    }

    fn delete(&mut self, id: u32) -> Result<(), Refusal> {
        let done = self.sound.delete(id);
        assert_eq!(self.tabled.delete(id), done);
        assert_eq!(done.is_ok(), self.live.remove(&id).is_some());
        done
    }

    /// The table holds what is live, and one made afresh is the same.
    fn agrees(&self) {
        table_is(&self.tabled, &self.live);
        table_is(&SoundIndex::open(self.sound.as_bytes().to_vec()).unwrap().into_tabled(), &self.live);
    }
}

/// The table holds these epochs and points, and no others.
fn table_is(tabled: &TabledIndex<Vec<u8>>, live: &Live) {
    assert_eq!((tabled.len(), tabled.is_empty()), (live.len(), live.is_empty()));
    for (id, (epoch, point)) in live {
        assert_eq!((tabled.contains(*id), tabled.epoch(*id), tabled.point(*id)), (true, Some(*epoch), Some(&point[..])));
    }
}

/// A point, sometimes one that is refused.
fn some_point(random: &mut Random, d: usize, reach: u64) -> Vec<i16> {
    let mut point = random.point(d, reach);
    match random.below(16) {
        0 => point.push(0),
        1 => point[d - 1] = 1001,
        _ => (),
    }
    point
}

/// A series of inserts and deletes, of points right and wrong: with the table every refusal and every byte is that without it.
fn tabled_series(d: usize, reach: u64, pages: usize, acts: usize) {
    let mut random = Random(pages as u64 + d as u64 * reach);
    let mut pair = Pair::new(pages, d);
    let mut refusals = [0; 19];
    for act in 0..acts {
        let id = if random.below(64) == 0 { 0 } else { random.below(acts as u64 / 2) as u32 };
        let point = some_point(&mut random, d, reach);
        // first mostly inserts, later mostly deletes
        let done = if random.below(acts as u64) < act as u64 { pair.delete(id) } else { pair.insert(random.epoch(id), point) };
        refusals[done.map_or_else(|refusal| refusal.code() as usize, |()| 0)] += 1;
        assert!(pair.tabled.sound().as_bytes() == pair.sound.as_bytes());
        assert_eq!(pair.tabled.contains(id), pair.live.contains_key(&id));
        if act % 64 == 0 {
            pair.agrees();
        }
    }
    for code in [0, 3, 4, 5, 6, 7] {
        assert!(refusals[code] > 0, "{code} is not met");
    }
    assert_eq!(refusals[9] > 0, pages < 40);
    SoundIndex::open(pair.tabled.into_sound().into_inner()).unwrap();
}

#[test]
fn a_tabled_index_does_what_a_sound_one_does() {
    for (d, reach) in [(1, 20), (2, 3), (2, 1000), (5, 1000), (16, 1000)] {
        tabled_series(d, reach, 20, 1500);
        tabled_series(d, reach, 400, 4000);
    }
}

/// Bytes and bits of a leaf that docs/LAYOUT.md leaves unused do not come into the table.
#[test]
fn a_table_reads_nothing_unused() {
    let mut random = Random(3);
    let mut index = Index::make(bytes(20), 3).unwrap();
    let mut live = BTreeMap::new();
    for id in 1..=100 {
        let (epoch, point) = (random.epoch(id), random.point(3, 1000));
        index.insert(epoch, &point).unwrap();
        live.insert(id, (epoch, point));
    }
    let mut bytes = index.into_inner();
    let mut leaves = 0;
    for page in bytes.chunks_mut(PAGE_BYTES).skip(1).filter(|page| page[0] == 0 && page[1] <= 16) {
        let count = usize::from(page[1]);
        for column in page[32..544].chunks_mut(32).take(3) {
            column.chunks_mut(2).take(count).for_each(|stored| stored[1] |= 0xf8);
            column[2 * count..].fill(0xff);
        }
        for unused in [2..16, 16 + count..32, 32 + 3 * 32..576, 576 + 4 * count..640, 640 + 4 * count..PAGE_BYTES] {
            page[unused].fill(0xff);
        }
        leaves += 1;
    }
    assert!(leaves > 6);
    let mut tabled = SoundIndex::open(bytes).unwrap().into_tabled();
    table_is(&tabled, &live);
    for id in 1..=100 {
        tabled.delete(id).unwrap();
    }
    assert!(tabled.is_empty());
    SoundIndex::open(tabled.into_sound().into_inner()).unwrap();
}

#[test]
fn a_tabled_index_refuses_in_the_order_of_the_acts() {
    let mut tabled = SoundIndex::open(upward(3, 16).into_inner()).unwrap().into_tabled();
    let before = tabled.sound().as_bytes().to_vec();
    assert_eq!(tabled.insert(epoch(0), &[1, 1001]), Err(Refusal::BadFeatures));
    assert_eq!(tabled.insert(epoch(0), &[1001]), Err(Refusal::BadCoordinate));
    assert_eq!(tabled.insert(epoch(16), &[]), Err(Refusal::BadFeatures));
    assert_eq!(tabled.insert(epoch(16), &[-1001]), Err(Refusal::BadCoordinate));
    assert_eq!(tabled.insert(epoch(0), &[1]), Err(Refusal::ZeroIdentifier));
    assert_eq!(tabled.insert(epoch(16), &[1]), Err(Refusal::AlreadyLive));
    assert_eq!(tabled.insert(epoch(17), &[1]), Err(Refusal::NoPages));
    assert_eq!(tabled.delete(0), Err(Refusal::ZeroIdentifier));
    assert_eq!(tabled.delete(17), Err(Refusal::NotLive));
    assert_eq!((tabled.len(), tabled.sound().as_bytes()), (16, &before[..]));
    tabled.delete(16).unwrap();
    assert_eq!((tabled.contains(16), tabled.delete(16)), (false, Err(Refusal::NotLive)));
    assert_eq!((tabled.epoch(16), tabled.point(16)), (None, None));
    let other = Epoch { stage: Stage::Unscored, stamp: u32::MAX, ..epoch(16) };
    tabled.insert(other, &[-16]).unwrap();
    assert_eq!((tabled.epoch(16), tabled.point(16)), (Some(other), Some(&[-16][..])));
    let found = tabled.sound().question(&[-17], None, 1, StageSet::ALL, None, &mut Tally::default()).unwrap();
    let mut rows = [Row::default(); 1];
    assert_eq!(
        tabled.sound().question_into(&[-17], None, 1, StageSet::ALL, None, &mut rows, &mut Tally::default()),
        Ok(Counts { rows: 1, leaves: 1 })
    );
    assert_eq!((ids(&found), rows[0].distance), (vec![16], 1));
    assert_eq!(tabled.into_sound().insert(epoch(17), &[1]), Err(Refusal::NoPages));
}

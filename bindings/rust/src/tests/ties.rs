//! Rows at equal distance: the later stamp first, then the lower identifier.
use super::{bytes, epoch};
use crate::*;

/// d = 2, epochs of these identifiers and stamps, in turn at four points as far from (0, 0) as each other.
fn tied(epochs: &[(u32, u32)]) -> Index<Vec<u8>> {
    let mut index = Index::make(bytes(16), 2).unwrap();
    for (&(id, stamp), point) in epochs.iter().zip([[5, 0], [-5, 0], [0, 5], [0, -5]].iter().cycle()) {
        index.insert(Epoch { stamp, ..epoch(id) }, point).unwrap();
    }
    index
}

/// Identifiers and stamps of the rows nearest to (0, 0), the same with the check and without it.
fn nearest<B: StableBytes>(sound: &SoundIndex<B>, k: usize) -> Vec<(u32, u32)> {
    let found = sound.question(&[0, 0], None, k, StageSet::ALL, None, &mut Tally::default()).unwrap();
    assert_eq!(Index::new(sound.as_bytes()).question(&[0, 0], None, k, StageSet::ALL, None, &mut Tally::default()).as_ref(), Ok(&found));
    found.rows.iter().map(|row| (row.id, row.stamp)).collect()
}

#[test]
fn later_stamps_come_first() {
    let rows = [(3, u32::MAX), (7, u32::MAX), (5, 1 << 31), (8, 23), (u32::MAX, 8), (2, 7), (4, 7), (1 << 31, 7), (1, 0), (6, 0)];
    for turn in 0..rows.len() {
        let mut epochs = rows;
        epochs.rotate_left(turn);
        let sound = SoundIndex::open(tied(&epochs).into_inner()).unwrap();
        for k in 1..=11 {
            assert_eq!(nearest(&sound, k), rows[..k.min(10)]);
        }
    }
}

#[test]
fn equal_stamps_fall_to_the_identifier() {
    for stamp in [0, 1, 1 << 28, 1 << 31, u32::MAX] {
        let downward: Vec<(u32, u32)> = (1..=40).rev().map(|id| (id, stamp)).collect();
        let sound = SoundIndex::open(tied(&downward).into_inner()).unwrap();
        for k in [1, 2, 15, 40, 64] {
            assert_eq!(nearest(&sound, k), (1..=40).map(|id| (id, stamp)).take(k).collect::<Vec<_>>());
        }
    }
}

#[test]
fn a_shorter_distance_comes_before_a_later_stamp() {
    let mut index = tied(&[(1, u32::MAX), (2, u32::MAX)]);
    index.insert(Epoch { stamp: 0, ..epoch(9) }, &[3, 3]).unwrap();
    assert_eq!(nearest(&SoundIndex::open(index.into_inner()).unwrap(), 2), [(9, 0), (1, u32::MAX)]);
}

/// An epoch that is deleted and inserted again goes by its new stamp, which is that of the table.
#[test]
fn an_inserted_stamp_counts() {
    let mut tabled = SoundIndex::open(tied(&[(1, 5), (2, 6), (3, 7)]).into_inner()).unwrap().into_tabled();
    assert_eq!(nearest(tabled.sound(), 3), [(3, 7), (2, 6), (1, 5)]);
    for (id, stamp, rows) in [(3, 5, [(2, 6), (1, 5), (3, 5)]), (1, 6, [(1, 6), (2, 6), (3, 5)]), (2, 0, [(1, 6), (3, 5), (2, 0)])] {
        tabled.delete(id).unwrap();
        tabled.insert(Epoch { stamp, ..epoch(id) }, &[5, 0]).unwrap();
        assert_eq!(nearest(tabled.sound(), 3), rows);
        assert!(rows.iter().all(|&(id, stamp)| tabled.epoch(id) == Some(Epoch { stamp, ..epoch(id) })));
    }
}

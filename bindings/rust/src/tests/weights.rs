//! Questions with weights.
use super::{bytes, epoch, ids, upward, Random};
use crate::*;

/// Identifiers and distances of three rows.
type Three = [(u32, u64); 3];

/// Some random epochs with their points.
fn scattered(d: usize, n: u32, reach: u64) -> Index<Vec<u8>> {
    let mut random = Random(u64::from(n) + d as u64);
    let mut index = Index::make(bytes(n as usize / 7 + 4), d as u8).unwrap();
    for id in 1..=n {
        index.insert(random.epoch(id), &random.point(d, reach)).unwrap();
    }
    index
}

/// The answer of a question of all stages, the same with the check and without it, and in lent rows.
fn asked(index: &Index<Vec<u8>>, point: &[i16], weights: Option<&[u16]>, k: usize) -> Result<Found, Refusal> {
    let (mut tally, mut other) = (Tally::default(), Tally::default());
    let found = index.question(point, weights, k, StageSet::ALL, None, &mut tally);
    let sound = SoundIndex::open(index.as_bytes()).unwrap();
    assert_eq!((sound.question(point, weights, k, StageSet::ALL, None, &mut other), other), (found.clone(), tally));
    let mut rows = [Row::default(); MAX_K];
    let counts = sound.question_into(point, weights, k, StageSet::ALL, None, &mut rows, &mut other);
    assert_eq!(index.question_into(point, weights, k, StageSet::ALL, None, &mut [Row::default(); MAX_K], &mut other), counts);
    assert_eq!(counts.map(|counts| Found { rows: rows[..counts.rows].to_vec(), leaves: counts.leaves }), found);
    found
}

#[test]
fn distance_is_the_sum_of_weight_times_squared_difference() {
    let mut index = Index::make(bytes(4), 3).unwrap();
    index.insert(epoch(1), &[10, 0, 0]).unwrap();
    index.insert(epoch(2), &[0, -5, 0]).unwrap();
    index.insert(epoch(3), &[1, 2, -3]).unwrap();
    let cases: [(Option<&[u16]>, Three); 6] = [
        (None, [(3, 14), (2, 25), (1, 100)]),
        (Some(&[1, 1, 1]), [(3, 14), (2, 25), (1, 100)]),
        (Some(&[1, 10, 100]), [(1, 100), (2, 250), (3, 941)]),
        (Some(&[0, 1, 0]), [(1, 0), (3, 4), (2, 25)]),
        (Some(&[1000, 999, 998]), [(3, 13_978), (2, 24_975), (1, 100_000)]),
        (Some(&[0, 7, 1000]), [(1, 0), (2, 175), (3, 9_028)]),
    ];
    for (weights, want) in cases {
        let found = asked(&index, &[0, 0, 0], weights, 3).unwrap();
        assert_eq!(found.rows.iter().map(|row| (row.id, row.distance)).collect::<Vec<_>>(), want, "{weights:?}");
    }
}

#[test]
fn weights_of_ones_are_none() {
    let mut random = Random(1);
    for (d, reach) in [(1, 30), (2, 1000), (7, 2), (16, 1000)] {
        let index = scattered(d, 300, reach);
        for _ in 0..40 {
            let (point, k) = (random.point(d, reach), 1 + random.below(64) as usize);
            assert_eq!(asked(&index, &point, Some(&vec![1; d]), k), asked(&index, &point, None, k));
        }
    }
}

/// Every leaf is read, and stamps and identifiers alone decide.
#[test]
fn weights_of_zeros_leave_the_tie_rule() {
    let index = scattered(3, 200, 1000);
    let leaves = index.as_bytes().chunks(PAGE_BYTES).skip(1).filter(|page| page[0] == 0 && (1..=16).contains(&page[1])).count();
    let tabled = SoundIndex::open(index.as_bytes()).unwrap().into_tabled();
    let mut order: Vec<Epoch> = (1..=200).map(|id| tabled.epoch(id).unwrap()).collect();
    order.sort_by_key(|epoch| (std::cmp::Reverse(epoch.stamp), epoch.id));
    for k in [1, 2, 17, 64] {
        let found = asked(&index, &[5, -6, 7], Some(&[0, 0, 0]), k).unwrap();
        assert_eq!(ids(&found), order.iter().map(|epoch| epoch.id).take(k).collect::<Vec<_>>());
        assert!(found.rows.iter().all(|row| row.distance == 0));
        assert_eq!(found.leaves as usize, leaves);
    }
}

/// A thousand times the distances of a question without weights, from the same leaves; the greatest distance of all takes 36 bits.
#[test]
fn weights_of_the_greatest() {
    let mut random = Random(4);
    for d in [1, 2, 16] {
        let mut index = scattered(d, 100, 1000);
        index.insert(epoch(101), &vec![1000; d]).unwrap();
        for _ in 0..20 {
            let point = random.point(d, 1000);
            let (mut plain, found) = (asked(&index, &point, None, 9).unwrap(), asked(&index, &point, Some(&vec![MAX_WEIGHT; d]), 9));
            plain.rows.iter_mut().for_each(|row| row.distance *= u64::from(MAX_WEIGHT));
            assert_eq!(found, Ok(plain));
        }
        let mut corners = Index::make(bytes(2), d as u8).unwrap();
        corners.insert(epoch(1), &vec![1000; d]).unwrap();
        let farthest = asked(&corners, &vec![-1000; d], Some(&vec![MAX_WEIGHT; d]), 1).unwrap();
        assert_eq!(farthest.rows[0].distance, 4_000_000_000 * d as u64);
    }
}

#[test]
fn weights_narrow_no_stages() {
    let index = upward(4, 17);
    let found = index.question(&[9], Some(&[3]), 2, Stage::Wake.into(), None, &mut Tally::default()).unwrap();
    assert_eq!(found.rows.iter().map(|row| (row.id, row.distance)).collect::<Vec<_>>(), [(6, 27), (12, 27)]);
}

#[test]
fn a_wrong_number_of_weights_is_refused() {
    for d in [1, 2, 15, 16] {
        let index = scattered(d, 20, 50);
        for n in [0, d - 1, d + 1, 2 * d, 16, 17, 100].into_iter().filter(|&n| n != d) {
            for weight in [1, MAX_WEIGHT + 1] {
                assert_eq!(asked(&index, &vec![0; d], Some(&vec![weight; n]), 1), Err(Refusal::BadFeatures), "{n} weights of {d}");
                assert_eq!(asked(&index, &vec![1001; d], Some(&vec![weight; n]), 0), Err(Refusal::BadFeatures));
                assert_eq!(asked(&index, &vec![0; n], Some(&vec![weight; n]), 1), Err(Refusal::BadFeatures));
                assert_eq!(asked(&index, &vec![0; n], Some(&vec![weight; d]), 1), Err(Refusal::BadFeatures));
            }
        }
    }
}

#[test]
fn a_weight_above_the_greatest_is_refused() {
    for (d, weight) in [1, 2, 16].into_iter().flat_map(|d| [MAX_WEIGHT + 1, 1023, 1 << 15, u16::MAX].map(|weight| (d, weight))) {
        let index = scattered(d, 20, 50);
        for m in 0..d {
            let mut weights = vec![MAX_WEIGHT; d];
            assert!(asked(&index, &vec![0; d], Some(&weights), 1).is_ok());
            weights[m] = weight;
            assert_eq!(asked(&index, &vec![0; d], Some(&weights), 1), Err(Refusal::BadWeight));
        }
    }
}

/// 3, then 4, then 14, then 10, 11 and 16: with everything that comes later wrong as well.
#[test]
fn weights_are_refused_in_their_order() {
    let index = upward(4, 17);
    let sound = SoundIndex::open(index.as_bytes()).unwrap();
    let mark = Row { distance: 1, id: 2, position: 3, stamp: 4 };
    let (mut rows, mut tally) = ([mark; 2], Tally { questions: 5, leaves: 6 });
    let cases: [(i16, &[u16], usize, StageSet, Refusal); 6] = [
        (1001, &[1001, 1001], 0, StageSet::EMPTY, Refusal::BadFeatures),
        (1001, &[1001], 0, StageSet::EMPTY, Refusal::BadCoordinate),
        (1000, &[1001], 0, StageSet::EMPTY, Refusal::BadWeight),
        (1000, &[1000], 0, StageSet::EMPTY, Refusal::BadK),
        (1000, &[1000], 3, StageSet::EMPTY, Refusal::FewRows),
        (1000, &[1000], 2, StageSet::EMPTY, Refusal::BadStageSet),
    ];
    for (coordinate, weights, k, stages, refusal) in cases {
        assert_eq!(index.question_into(&[coordinate], Some(weights), k, stages, None, &mut rows, &mut tally), Err(refusal));
        assert_eq!(sound.question_into(&[coordinate], Some(weights), k, stages, None, &mut rows, &mut tally), Err(refusal));
    }
    assert_eq!((rows, tally), ([mark; 2], Tally { questions: 5, leaves: 6 }));
    let mut damaged = index.into_inner();
    damaged[super::IN_IDENTIFIER] ^= 0xff;
    assert_eq!(Index::new(damaged).question(&[1001], Some(&[]), 0, StageSet::EMPTY, None, &mut tally), Err(Refusal::Unsound));
}

//! Stages, stamps and sets of stages.
use super::{bytes, epoch, ids, upward};
use crate::*;

/// Where docs/LAYOUT.md has the stage and the stamp of the first record of page 1.
const FIRST_STAGE: usize = PAGE_BYTES + 16;
const FIRST_STAMP: usize = PAGE_BYTES + 640;

#[test]
fn stages_have_their_numbers() {
    for number in 0..=255 {
        match Stage::try_from(number) {
            Ok(stage) => assert_eq!((number <= 5, u8::from(stage)), (true, number)),
            Err(refusal) => assert_eq!((number > 5, refusal), (true, Refusal::BadStage)),
        }
    }
    assert_eq!(Stage::ALL.map(u8::from), [0, 1, 2, 3, 4, 5]);
    assert_eq!([Stage::Wake, Stage::N3, Stage::Rem, Stage::Unscored].map(u8::from), [0, 3, 4, 5]);
}

#[test]
fn sets_have_their_numbers() {
    for bits in 0..=63 {
        let set = StageSet::from_bits(bits).unwrap();
        let stages: Vec<Stage> = (0..6).filter(|s| bits & (1 << s) != 0).map(|s| Stage::try_from(s).unwrap()).collect();
        assert_eq!((set.bits(), set.is_empty()), (bits, stages.is_empty()));
        assert!(Stage::ALL.iter().all(|stage| set.contains(*stage) == stages.contains(stage)));
        assert_eq!((StageSet::of(&stages), stages.iter().copied().collect()), (set, set));
        assert_eq!(stages.iter().fold(StageSet::EMPTY, |some, stage| some | StageSet::from(*stage)), set);
    }
    assert!((64..=255).all(|bits| StageSet::from_bits(bits).is_none()));
    assert_eq!((StageSet::ALL.bits(), StageSet::EMPTY.bits()), (63, 0));
    assert_eq!(format!("{:?}", StageSet::of(&[Stage::Rem, Stage::Wake])), "{Wake, Rem}");
}

/// Each insert hands stage and stamp on as they are: they stand in the leaf's bytes.
#[test]
fn stages_and_stamps_are_stored() {
    let empty = Index::make(bytes(2), 1).unwrap().into_inner();
    for stage in Stage::ALL {
        let epoch = Epoch { id: 0x0102_0304, stage, stamp: 0xfedc_ba98 };
        let mut index = Index::new(empty.clone());
        index.insert(epoch, &[-7]).unwrap();
        let stored = index.into_inner();
        assert_eq!((stored[FIRST_STAGE], &stored[FIRST_STAMP..][..4]), (stage as u8, &[0x98, 0xba, 0xdc, 0xfe][..]));
        let mut sound = SoundIndex::open(empty.clone()).unwrap();
        sound.insert(epoch, &[-7]).unwrap();
        let mut tabled = SoundIndex::open(empty.clone()).unwrap().into_tabled();
        tabled.insert(epoch, &[-7]).unwrap();
        assert_eq!((sound.as_bytes(), tabled.sound().as_bytes()), (&stored[..], &stored[..]));
    }
}

/// Wake has identifiers 6 and 12 among 1 to 17, in two leaves.
#[test]
fn questions_look_among_their_stages() {
    let index = upward(4, 17);
    let mut tally = Tally::default();
    let wake = StageSet::from(Stage::Wake);
    let nearest = index.question(&[9], None, 1, wake, None, &mut tally).unwrap();
    assert_eq!((ids(&nearest), nearest.leaves), (vec![6], 2));
    let near = index.question(&[1], None, 1, wake, None, &mut tally).unwrap();
    assert_eq!((ids(&near), near.leaves), (vec![6], 1));
    let few = index.question(&[1], None, 3, wake, None, &mut tally).unwrap();
    assert_eq!((ids(&few), few.leaves), (vec![6, 12], 2));
    let two = index.question(&[16], None, 3, StageSet::of(&[Stage::Wake, Stage::Rem]), None, &mut tally).unwrap();
    assert_eq!((ids(&two), two.leaves), (vec![16, 12, 10], 1));
    assert_eq!(tally, Tally { questions: 4, leaves: 6 });
}

/// Of a stage that none has: no rows, and every leaf with records is read; an empty index has none.
#[test]
fn a_stage_that_none_has() {
    let mut index = Index::make(bytes(4), 1).unwrap();
    let rem = StageSet::from(Stage::Rem);
    assert_eq!(index.question(&[0], None, 1, rem, None, &mut Tally::default()), Ok(Found { rows: vec![], leaves: 0 }));
    for id in 1..=17 {
        index.insert(Epoch { stage: Stage::N2, ..epoch(id) }, &[id as i16]).unwrap();
        let leaves = if id < 17 { 1 } else { 2 };
        assert_eq!(index.question(&[0], None, 1, rem, None, &mut Tally::default()), Ok(Found { rows: vec![], leaves }));
    }
}

#[test]
fn a_stored_stage_above_5_is_refused() {
    let index = upward(2, 16).into_inner();
    for (record, stage) in (0..16).flat_map(|record| [6, 7, 64, 255].map(|stage| (record, stage))) {
        let mut damaged = index.clone();
        damaged[FIRST_STAGE + record] = stage;
        assert_eq!(SoundIndex::open(damaged).unwrap_err(), Fault { refusal: Refusal::Unsound, page: 1 });
    }
}

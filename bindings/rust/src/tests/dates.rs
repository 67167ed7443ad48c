//! Questions of some recording days.
use super::{bytes, calendar, epoch, ids, noon, upward, WIDEST};
use crate::*;

/// d = 1, identifiers from 1 with these stamps, in one leaf, all of them at 0.
fn stamped(stamps: &[u32]) -> SoundIndex<Vec<u8>> {
    let mut sound = SoundIndex::open(Index::make(bytes(2), 1).unwrap().into_inner()).unwrap();
    for (id, &stamp) in (1..).zip(stamps) {
        sound.insert(Epoch { stamp, ..epoch(id) }, &[0]).unwrap();
    }
    sound
}

/// The identifiers within some dates, upward, the same with the check and without it, and in lent rows.
fn within(sound: &SoundIndex<Vec<u8>>, dates: Option<Dates>) -> Result<Vec<u32>, Refusal> {
    let (checked, mut tally) = (Index::new(sound.as_bytes()), Tally::default());
    let found = sound.question(&[0], None, MAX_K, StageSet::ALL, dates, &mut tally);
    assert_eq!(checked.question(&[0], None, MAX_K, StageSet::ALL, dates, &mut tally), found);
    let mut rows = [Row::default(); MAX_K];
    let counts = checked.question_into(&[0], None, MAX_K, StageSet::ALL, dates, &mut rows, &mut tally);
    assert_eq!(sound.question_into(&[0], None, MAX_K, StageSet::ALL, dates, &mut rows, &mut tally), counts);
    assert_eq!(counts.map(|counts| Found { rows: rows[..counts.rows].to_vec(), leaves: counts.leaves }), found);
    let mut ids = ids(&found?);
    ids.sort_unstable();
    Ok(ids)
}

#[test]
fn dates_stand_in_their_order() {
    let calendar = calendar();
    assert_eq!((calendar.len(), calendar[59], calendar[36_524]), (36_525, Date::new(2000, 2, 29), WIDEST.last));
    assert!(calendar.windows(2).all(|pair| pair[0] < pair[1]));
    assert_eq!(Dates::from(calendar[7]), Dates { first: calendar[7], last: calendar[7] });
}

/// A second before its noon, its noon, a second before the next noon, the next noon: of each day the middle two.
#[test]
fn each_day_runs_from_noon_to_noon() {
    for (n, date) in (0..).zip(calendar()) {
        let sound = stamped(&[noon(n) - 1, noon(n), noon(n + 1) - 1, noon(n + 1)]);
        let found = sound.question(&[0], None, 4, StageSet::ALL, Some(date.into()), &mut Tally::default()).unwrap();
        assert_eq!(ids(&found), [3, 2], "{date:?}");
    }
}

#[test]
fn a_night_belongs_to_the_date_it_began() {
    // 16 November 2025 22:00, the morning after at 6:00, that day's noon, and 22:00 again
    let sound = stamped(&[816_645_600, 816_674_400, 816_696_000, 816_732_000]);
    let days = [15, 16, 17, 18].map(|day| Date::new(2025, 11, day));
    let want: [&[u32]; 4] = [&[], &[1, 2], &[3, 4], &[]];
    for (date, want) in days.into_iter().zip(want) {
        assert_eq!(within(&sound, Some(date.into())), Ok(want.to_vec()));
    }
    assert_eq!(within(&sound, Some(Dates { first: days[1], last: days[2] })), Ok(vec![1, 2, 3, 4]));
}

/// Sixteen days in turn across a leap day and across a turn of years: all ranges of them.
#[test]
fn ranges_have_both_their_ends() {
    let calendar = calendar();
    for start in [0, 50, 360, 8_810, 36_509] {
        let sound = stamped(&(start..start + 16).map(noon).collect::<Vec<u32>>());
        for (first, last) in (0..16).flat_map(|first| (0..16).map(move |last| (first, last))) {
            let dates = Dates { first: calendar[(start + first) as usize], last: calendar[(start + last) as usize] };
            let want = if first <= last { Ok((first + 1..=last + 1).collect()) } else { Err(Refusal::DatesReversed) };
            assert_eq!(within(&sound, Some(dates)), want, "{dates:?}");
        }
    }
}

#[test]
fn the_widest_dates_leave_stamps_out() {
    let sound = stamped(&[0, 43_199, 43_200, 3_155_803_199, 3_155_803_200, u32::MAX]);
    assert_eq!(within(&sound, Some(WIDEST)), Ok(vec![3, 4]));
    assert_eq!(within(&sound, None), Ok(vec![1, 2, 3, 4, 5, 6]));
}

/// What no calendar has, and what lies outside, as the first date, as the last and as both.
#[test]
fn dates_that_are_refused() {
    let sound = stamped(&[0, 50_000]);
    let wrong = [
        (2001, 2, 29),
        (2099, 2, 29),
        (2000, 2, 30),
        (2024, 4, 31),
        (2024, 1, 32),
        (2024, 1, 0),
        (2024, 0, 1),
        (2024, 13, 1),
        (1999, 12, 31),
        (2100, 1, 1),
        (2100, 2, 29),
        (0, 1, 1),
        (u16::MAX, 1, 1),
        (2024, u8::MAX, u8::MAX),
        (0, 0, 0),
    ];
    for date in wrong.map(|(year, month, day)| Date::new(year, month, day)) {
        for dates in [Dates { first: date, ..WIDEST }, Dates { last: date, ..WIDEST }, date.into()] {
            assert_eq!(within(&sound, Some(dates)), Err(Refusal::BadDate), "{dates:?}");
        }
        for other in [WIDEST.first, WIDEST.last] {
            // reversed besides, one way or the other
            assert_eq!(within(&sound, Some(Dates { first: other, last: date })), Err(Refusal::BadDate));
            assert_eq!(within(&sound, Some(Dates { first: date, last: other })), Err(Refusal::BadDate));
        }
    }
    for date in [(2000, 2, 29), (2024, 2, 29), (2096, 2, 29), (2024, 4, 30)].map(|(year, month, day)| Date::new(year, month, day)) {
        assert!(within(&sound, Some(date.into())).is_ok());
    }
}

/// 17, then 18, after all others: with everything that comes later wrong as well. Rows and tally stay.
#[test]
fn dates_are_refused_in_their_order() {
    let index = upward(4, 17);
    let sound = SoundIndex::open(index.as_bytes()).unwrap();
    let mark = Row { distance: 1, id: 2, position: 3, stamp: 4 };
    let (mut rows, mut tally) = ([mark; 2], Tally { questions: 5, leaves: 6 });
    let reversed = Dates { first: Date::new(2024, 3, 1), last: Date::new(2024, 2, 29) };
    let bad = Dates { last: Date::new(2023, 2, 29), ..reversed };
    let cases: [(i16, u16, usize, StageSet, Dates, Refusal); 7] = [
        (1001, 1001, 0, StageSet::EMPTY, bad, Refusal::BadCoordinate),
        (1000, 1001, 0, StageSet::EMPTY, bad, Refusal::BadWeight),
        (1000, 1000, 0, StageSet::EMPTY, bad, Refusal::BadK),
        (1000, 1000, 3, StageSet::EMPTY, bad, Refusal::FewRows),
        (1000, 1000, 2, StageSet::EMPTY, bad, Refusal::BadStageSet),
        (1000, 1000, 2, StageSet::ALL, bad, Refusal::BadDate),
        (1000, 1000, 2, StageSet::ALL, reversed, Refusal::DatesReversed),
    ];
    for (coordinate, weight, k, stages, dates, refusal) in cases {
        assert_eq!(index.question_into(&[coordinate], Some(&[weight]), k, stages, Some(dates), &mut rows, &mut tally), Err(refusal));
        assert_eq!(sound.question_into(&[coordinate], Some(&[weight]), k, stages, Some(dates), &mut rows, &mut tally), Err(refusal));
    }
    assert_eq!((rows, tally), ([mark; 2], Tally { questions: 5, leaves: 6 }));
    assert_eq!(sound.question(&[], None, 0, StageSet::EMPTY, Some(bad), &mut tally), Err(Refusal::BadFeatures));
    let mut damaged = index.into_inner();
    damaged[super::IN_IDENTIFIER] ^= 0xff;
    assert_eq!(Index::new(damaged).question(&[1], None, 1, StageSet::ALL, Some(bad), &mut tally), Err(Refusal::Unsound));
}

/// Identifiers 1 to 17 in two leaves, each with the noon of its own day: as a set of stages, the dates narrow what is looked for.
#[test]
fn questions_look_among_their_days() {
    let mut index = Index::make(bytes(4), 1).unwrap();
    for id in 1..=17 {
        index.insert(Epoch { stamp: noon(id), ..epoch(id) }, &[id as i16]).unwrap();
    }
    let (calendar, mut tally) = (calendar(), Tally::default());
    let dates = |first: usize, last: usize| Some(Dates { first: calendar[first], last: calendar[last] });
    let mut ask = |from, k, stages, dates| {
        let found = index.question(&[from], None, k, stages, dates, &mut tally).unwrap();
        (ids(&found), found.leaves)
    };
    assert_eq!(ask(9, 1, StageSet::ALL, None), (vec![9], 1));
    assert_eq!(ask(9, 1, StageSet::ALL, dates(3, 8)), (vec![8], 2));
    assert_eq!(ask(1, 2, StageSet::ALL, dates(3, 8)), (vec![3, 4], 1));
    // fewer than are asked for: every leaf is read, one that holds none of them too
    assert_eq!(ask(1, 7, StageSet::ALL, dates(3, 8)), (vec![3, 4, 5, 6, 7, 8], 2));
    assert_eq!(ask(1, 1, StageSet::ALL, dates(18, 36_524)), (vec![], 2));
    // wake has 6 and 12
    assert_eq!(ask(1, 2, Stage::Wake.into(), dates(3, 11)), (vec![6], 2));
    assert_eq!(tally, Tally { questions: 6, leaves: 10 });
}

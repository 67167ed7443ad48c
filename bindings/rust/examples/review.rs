//! A review: an index in 64 pages, checked acts, questions with weights and dates, then the bytes opened once for acts without the check.
use epoch_index::{Date, Dates, Epoch, Found, Index, Refusal, Row, SoundIndex, Stage, StageSet, Tally, PAGE_BYTES};

/// 16 November 2025 22:00 by the lab clock, in seconds since 1 January 2000.
const TEN_PM: u32 = 816_645_600;

fn print(asked: Result<Found, Refusal>) {
    match asked {
        Ok(found) => {
            println!("question: {} rows, {} leaves", found.rows.len(), found.leaves);
            for Row { id, distance, position, stamp, .. } in found.rows {
                println!("  id {id} at distance {distance}, leaf {position}, stamp {stamp}");
            }
        }
        Err(refusal) => println!("question refused: {} ({refusal})", refusal.code()),
    }
}

/// The first feature is trusted less than the second; none counts; a weight is missing; one is too great.
fn by_weights(index: &Index<Vec<u8>>, tally: &mut Tally) {
    for weights in [None, Some(&[3, 1_000][..]), Some(&[0, 0]), Some(&[3])] {
        print(index.question(&[-250, -250], weights, 2, StageSet::ALL, None, tally));
    }
    print(index.question(&[-250, -250], Some(&[3, 1_001]), 0, StageSet::ALL, None, tally));
}

/// The night of the 16th, noon to noon; the next; a date that does not exist; the last before the first.
fn by_dates(index: &Index<Vec<u8>>, tally: &mut Tally) {
    let (night, next) = (Date::new(2025, 11, 16), Date::new(2025, 11, 17));
    for dates in [night.into(), next.into(), Date::new(2025, 2, 29).into(), Dates { first: next, last: night }] {
        print(index.question(&[-100, -100], None, 2, StageSet::ALL, Some(dates), tally));
    }
}

fn main() -> Result<(), Box<dyn std::error::Error>> {
    let mut tally = Tally::default();
    let mut index = Index::make(vec![0; 64 * PAGE_BYTES], 2)?;
    // as far from the asked point as 4, and later: it comes first
    index.insert(Epoch { id: 7, stage: Stage::N3, stamp: TEN_PM + 30 }, &[-300, 100])?;
    let fourth = Epoch { id: 4, stage: Stage::Rem, stamp: TEN_PM };
    index.insert(fourth, &[100, -300])?;
    if let Err(refusal) = index.insert(fourth, &[5, 5]) {
        println!("insert 4 again refused: {} ({refusal})", refusal.code());
    }
    print(index.question(&[-100, -100], None, 2, StageSet::ALL, None, &mut tally));
    print(index.question(&[-100, -100], None, 2, StageSet::of(&[Stage::N2, Stage::N3]), None, &mut tally));
    print(index.question(&[-100, -100], None, 2, StageSet::EMPTY, None, &mut tally));
    by_weights(&index, &mut tally);
    by_dates(&index, &mut tally);

    let mut sound = SoundIndex::open(index.into_inner())?;
    sound.delete(7)?;
    print(sound.question(&[-100, -100], None, 2, StageSet::ALL, None, &mut tally));
    print(sound.question(&[-100, -100], Some(&[3, 1_000]), 2, StageSet::ALL, None, &mut tally));
    print(sound.question(&[-100, -100], None, 65, StageSet::ALL, None, &mut tally));
    println!("tally: {} questions, {} leaves", tally.questions, tally.leaves);

    let mut damaged = sound.into_inner();
    // page 1 then counts more records than a page can hold
    damaged[PAGE_BYTES + 1] = 0xff;
    if let Err(fault) = SoundIndex::open(damaged) {
        println!("open refused: {} ({fault})", fault.refusal.code());
    }
    Ok(())
}

// Questions of one stage of six, and of the day that its epochs are of, beside those of all stages.
use crate::data::{epoch, NIGHT};
use crate::scan::Scan;
use crate::time::quickest;
use crate::{Case, ROUNDS};
use epoch_index::{Date, SoundIndex, Stage, StageSet, Tally, PAGE_BYTES};
use std::hint::black_box;

const ONE: Stage = Stage::N3;

/// The day of its epochs, where those of all others are of the night after.
const DAY: Date = Date::new(2025, 11, 16);

/// The index with these days: the stamps stand in the leaves as docs/LAYOUT.md has them.
fn dated(bytes: &[u8]) -> Vec<u8> {
    let mut bytes = bytes.to_vec();
    for page in bytes.chunks_mut(PAGE_BYTES).skip(1).filter(|page| page[0] == 0) {
        for i in 0..usize::from(page[1]) {
            let id = u32::from_le_bytes(page[576 + 4 * i..][..4].try_into().unwrap());
            let stamp = if epoch(id).stage == ONE { NIGHT } else { NIGHT + 86_400 };
            page[640 + 4 * i..][..4].copy_from_slice(&stamp.to_le_bytes());
        }
    }
    bytes
}

/// The points of the stage, and their identifiers.
struct Part {
    scan: Scan,
    ids: Vec<u32>,
}

impl Part {
    fn of(case: &Case) -> Part {
        let ids: Vec<u32> = (1..=case.n as u32).filter(|&id| epoch(id).stage == ONE).collect();
        let point = |&id: &u32| &case.points[(id as usize - 1) * case.d..][..case.d];
        Part { scan: Scan::new(&ids.iter().flat_map(point).copied().collect::<Vec<i16>>(), case.d), ids }
    }

    /// Holds the search's rows to those of a scan of these points, and those of the day to those of the stage.
    fn compare(&self, case: &Case, sound: &SoundIndex<&[u8]>, dated: &SoundIndex<&[u8]>, k: usize) {
        let mut kept = Vec::new();
        for q in case.questions.chunks(case.d) {
            let found = sound.question(q, None, k, ONE.into(), None, &mut Tally::default()).unwrap();
            assert_eq!(dated.question(q, None, k, StageSet::ALL, Some(DAY.into()), &mut Tally::default()).as_ref(), Ok(&found));
            self.scan.ask(q, k, &mut kept);
            let rows = kept.iter().map(|&(distance, place)| (distance, self.ids[place as usize - 1]));
            assert!(found.rows.iter().map(|r| (r.distance as u32, r.id)).eq(rows));
        }
    }

    fn scan_all(&self, case: &Case, k: usize) {
        let mut kept = Vec::with_capacity(65);
        for q in case.questions.chunks(case.d) {
            self.scan.ask(q, k, &mut kept);
            black_box(&kept);
        }
    }
}

/// A line of the fifth table.
pub fn line(case: &Case, k: usize) -> String {
    let sound = SoundIndex::open(&case.bytes[..]).unwrap();
    let (part, bytes) = (Part::of(case), dated(&case.bytes));
    let days = SoundIndex::open(&bytes[..]).unwrap();
    part.compare(case, &sound, &days, k);
    let read = |stages| case.search_all(&sound, k, stages, None) as f64 / case.asked() as f64;
    let times = quickest(
        ROUNDS,
        &mut [
            &mut || case.scan_all(k),
            &mut || {
                case.search_all(&sound, k, StageSet::ALL, None);
            },
            &mut || {
                case.search_all(&sound, k, ONE.into(), None);
            },
            &mut || {
                case.search_all(&days, k, StageSet::ALL, Some(DAY.into()));
            },
            &mut || part.scan_all(case, k),
        ],
    );
    let mut line = format!("| {} | {} | {} ", case.kind.name(), case.d, case.n);
    line += &format!("| {:.1} | {:.1} ", read(StageSet::ALL), read(ONE.into()));
    times[1..].iter().for_each(|time| line += &format!("| {:.2} ", time / times[0]));
    line + "|"
}

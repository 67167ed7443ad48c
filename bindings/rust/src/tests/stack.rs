//! Acts in threads of the stack sizes that the headers state.
use super::{bytes, epoch, upward, WIDEST};
use crate::*;

/// A damaged index that leads 255 levels down, each page with some entries for the next: every recursion goes as deep as it can.
fn deepest(entries: usize) -> Vec<u8> {
    let mut index = upward(300, 1).into_inner();
    index[8..12].copy_from_slice(&1u32.to_le_bytes());
    index[12] = 255;
    index[24..28].copy_from_slice(&257u32.to_le_bytes());
    for page in 1..=256u32 {
        let at = page as usize * PAGE_BYTES;
        index[at..at + PAGE_BYTES].fill(0);
        index[at] = (256 - page) as u8;
        index[at + 1] = entries as u8;
        for entry in 0..entries * usize::from(page < 256) {
            index[at + 4 + 20 * entry..][..4].copy_from_slice(&(page + 1).to_le_bytes());
        }
    }
    index
}

/// More points than the check's smaller arrays take, with identifiers that share their low bits: it makes all the larger ones.
fn crowded() -> Vec<u8> {
    let mut index = SoundIndex::open(Index::make(bytes(2600), 1).unwrap().into_inner()).unwrap().into_tabled();
    for n in 1..=16_500u32 {
        index.insert(epoch(n << 16), &[(n % 2001) as i16 - 1000]).unwrap();
    }
    index.into_sound().into_inner()
}

fn on_stack<T: Send + 'static>(bytes: usize, run: impl FnOnce() -> T + Send + 'static) -> T {
    std::thread::Builder::new().stack_size(bytes).spawn(run).unwrap().join().unwrap()
}

#[test]
fn acts_keep_to_their_stack() {
    on_stack(1536 * 1024, || {
        let mut index = Index::new(deepest(8));
        assert_eq!(index.check().unwrap_err().refusal, Refusal::Unsound);
        assert_eq!(index.insert(epoch(2), &[2]), Err(Refusal::Unsound));
        assert_eq!(index.delete(1), Err(Refusal::Unsound));
        assert_eq!(index.question(&[1], None, 64, StageSet::ALL, None, &mut Tally::default()), Err(Refusal::Unsound));
        let mut sound = upward(4, 17);
        sound.insert(epoch(18), &[18]).unwrap();
        sound.delete(1).unwrap();
        sound.question(&[1], None, 64, StageSet::ALL, None, &mut Tally::default()).unwrap();
        let mut large = Index::new(crowded());
        large.insert(epoch(1), &[1]).unwrap();
        large.delete(1 << 16).unwrap();
        for weights in [None, Some(&[0][..]), Some(&[999][..])] {
            large.question(&[1], weights, 64, StageSet::ALL, None, &mut Tally::default()).unwrap();
            large.question(&[1], weights, 64, StageSet::ALL, Some(WIDEST), &mut Tally::default()).unwrap();
        }
    });
    on_stack(512 * 1024, || {
        let mut bytes = deepest(1);
        let asked = Asked { point: &[1], weights: Some(&[7]), k: 64, stages: StageSet::ALL, dates: Some(WIDEST) };
        assert_eq!(acts::insert(sys::epoch_index_trusted_insert, &mut bytes, epoch(2), &[2]), Err(Refusal::Unsound));
        assert_eq!(acts::delete(sys::epoch_index_trusted_delete, &mut bytes, 2), Err(Refusal::Unsound));
        assert_eq!(found(sys::epoch_index_trusted_ask, &bytes, asked, &mut Tally::default()), Err(Refusal::Unsound));
        assert_eq!(acts::insert(sys::epoch_index_vouched_insert, &mut bytes, epoch(2), &[2]), Err(Refusal::Unsound));
        assert_eq!(acts::delete_point(&mut bytes, 2, &[2]), Err(Refusal::Unsound));
        // level 4 is the highest that they follow; what they do to a damaged index means nothing, here they only have to end
        bytes[8..12].copy_from_slice(&252u32.to_le_bytes());
        bytes[12] = 4;
        let _ = acts::insert(sys::epoch_index_trusted_insert, &mut bytes, epoch(2), &[2]);
        let _ = acts::delete(sys::epoch_index_trusted_delete, &mut bytes, 2);
        let _ = acts::insert(sys::epoch_index_vouched_insert, &mut bytes, epoch(3), &[3]);
        let _ = acts::delete_point(&mut bytes, 2, &[2]);
        let _ = found(sys::epoch_index_trusted_ask, &bytes, asked, &mut Tally::default());
    });
}

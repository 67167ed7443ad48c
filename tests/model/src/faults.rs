//! What can be wrong with a question, and the order in which it is refused.

use crate::model::Asked;
use crate::run::Run;
use crate::series::Series;

/// A number, and what makes a question of two rows be refused with it: it spoils what is asked, or how many rows are lent.
pub type Fault = (u32, fn(&mut Asked, &mut usize));

/// A question's refusals in their order, behind those of the index.
const ORDER: [u32; 8] = [3, 4, 14, 10, 11, 16, 17, 18];

/// What is wrong but for weights and dates: a coordinate, k, the rows lent, the set.
pub const FAULTS: [Fault; 5] = [
    (4, |asked, _| *asked.x.last_mut().unwrap() = -1001),
    (10, |asked, _| asked.k = 0),
    (10, |asked, _| asked.k = 65),
    (11, |_, lent| *lent = 1),
    (16, |asked, _| asked.stages = 64),
];

/// A question of two rows that is refused with a number, or with none, 0: with any of these faults besides it is refused with the first.
pub fn refused(run: &mut Run, s: &mut Series, good: &Asked, number: u32, faults: &[Fault]) {
    let place = |code: u32| ORDER.iter().position(|&c| c == code).unwrap_or(ORDER.len());
    for some in 0..1 << faults.len() {
        let (mut asked, mut lent, mut want) = (good.clone(), 2, number);
        for &(code, spoil) in (0..).zip(faults).filter(|(i, _)| some >> i & 1 == 1).map(|(_, fault)| fault) {
            spoil(&mut asked, &mut lent);
            want = if place(code) < place(want) { code } else { want };
        }
        let got = s.ask(run, &asked, lent);
        run.expect(got == want, || format!("{asked:?}, lent {lent}: {got}, not {want}"));
    }
}

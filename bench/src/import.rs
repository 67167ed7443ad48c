// The import and the check of points whose features hover around zero, beside those of points of one sign and the same magnitudes.
use crate::data::Random;
use crate::index::{filled, import, import_by_acts, room};
use crate::{quickest, ROUNDS, SIZES};
use epoch_index::Index;
use std::cell::RefCell;

/// A way to make an index of d features in some bytes and put points in.
type Way = fn(&mut [u8], &[i16], usize);

/// Points around zero, as of features that are measured from their mean: with their signs, all positive and all negative.
fn signs(d: usize, n: usize) -> [Vec<i16>; 3] {
    let mut random = Random::default();
    let both: Vec<i16> = (0..n * d).map(|_| random.normal(80) as i16).collect();
    let positive: Vec<i16> = both.iter().map(|c| c.abs()).collect();
    let negative = positive.iter().map(|c| -c).collect();
    [both, positive, negative]
}

/// A line of the fourth table: the times of both signs, of both once more and of the negative over that of the positive.
fn line(name: &str, d: usize, n: usize, [both, again, negative, positive]: [&mut dyn FnMut(); 4]) -> String {
    let times = quickest(ROUNDS, &mut [both, positive, again, negative]);
    let [both, again, negative] = [times[0], times[2], times[3]].map(|time| time / times[1]);
    format!("| {name} | {d} | {n} | {both:.3} | {again:.3} | {negative:.3} |")
}

fn imported(name: &str, way: Way, d: usize, n: usize) -> String {
    let [both, positive, negative] = signs(d, n);
    let bytes = RefCell::new(room(n));
    let take_in = |points: &[i16]| way(&mut bytes.borrow_mut(), points, d);
    line(name, d, n, [&mut || take_in(&both), &mut || take_in(&both), &mut || take_in(&negative), &mut || take_in(&positive)])
}

fn checked(d: usize, n: usize) -> String {
    let [both, positive, negative] = signs(d, n).map(|points| filled(&points, d));
    let check = |bytes: &[u8]| Index::new(bytes).check().unwrap();
    line("check", d, n, [&mut || check(&both), &mut || check(&both), &mut || check(&negative), &mut || check(&positive)])
}

/// Measures imports of d features: with a table of the identifiers, of a night by the acts, each of which checks the whole index, and the check
/// by itself. Each line stands behind the number of its table.
pub fn measure(d: usize) {
    SIZES.iter().for_each(|&n| println!("4{}", imported("tabled", import, d, n)));
    println!("4{}", imported("by acts", import_by_acts, d, SIZES[0]));
    SIZES.iter().for_each(|&n| println!("4{}", checked(d, n)));
}

//! Pyramids, heights, keys and bounds, by plain enumeration.

use std::cell::RefCell;
use std::rc::Rc;

pub const REACH: i64 = 1000;

/// (pyramid, height, identifier), compared in that order.
#[derive(Clone, Copy, PartialEq, Eq, PartialOrd, Ord, Debug)]
pub struct Key {
    pub pyramid: u8,
    pub height: u16,
    pub id: u32,
}

/// The pair of a point: its pyramid and its height.
pub fn pair(x: &[i64]) -> (u8, u16) {
    let height = x.iter().map(|c| c.abs()).max().unwrap();
    let j = x.iter().position(|c| c.abs() == height).unwrap();
    let pyramid = if x[j] < 0 { j } else { j + x.len() };
    (pyramid as u8, height as u16)
}

pub fn squared(a: &[i64], b: &[i64]) -> u64 {
    a.iter().zip(b).map(|(x, y)| ((x - y) * (x - y)) as u64).sum()
}

/// The sum of weight times squared difference; without weights the squared distance.
pub fn distance(weights: Option<&[u16]>, a: &[i64], b: &[i64]) -> u64 {
    let Some(weights) = weights else { return squared(a, b) };
    assert!(weights.len() == a.len() && a.len() == b.len());
    (0..a.len()).map(|m| u64::from(weights[m]) * squared(&a[m..=m], &b[m..=m])).sum()
}

/// How far c is from -reach ..= reach, squared.
fn outside(c: i64, reach: i64) -> u64 {
    let gap = (c.abs() - reach).max(0);
    (gap * gap) as u64
}

/// A point with the weights of its coordinates, 1 each where none are given.
#[derive(Clone, PartialEq)]
struct Weighed {
    point: Vec<i64>,
    weights: Vec<u64>,
}

/// The least distance from the asked point to each pair, over every grid point that has the pair; none where no grid point has it.
pub struct Slices {
    d: usize,
    least: Vec<Option<u64>>,
}

thread_local! {
    /// The slices of what was asked last, with weights and without.
    static LAST: RefCell<[Option<(Weighed, Rc<Slices>)>; 2]> = const { RefCell::new([None, None]) };
}

impl Weighed {
    fn new(asked: &[i64], weights: Option<&[u16]>) -> Weighed {
        let weights = weights.map_or(vec![1; asked.len()], |weights| weights.iter().map(|&w| w.into()).collect());
        assert_eq!(weights.len(), asked.len());
        Weighed { point: asked.to_vec(), weights }
    }
}

impl Slices {
    pub fn new(asked: &[i64], weights: Option<&[u16]>) -> Slices {
        Slices::weighed(&Weighed::new(asked, weights))
    }

    fn weighed(asked: &Weighed) -> Slices {
        let d = asked.point.len();
        let mut least = Vec::with_capacity(2 * d * 1001);
        for pyramid in 0..2 * d {
            for height in 0..=REACH {
                least.push(Self::at(asked, pyramid, height));
            }
        }
        Slices { d, least }
    }

    /// As `new`, kept for the next question from the same point by the same weights.
    pub fn of(asked: &[i64], weights: Option<&[u16]>) -> Rc<Slices> {
        let (weighted, asked) = (weights.is_some(), Weighed::new(asked, weights));
        LAST.with_borrow_mut(|last| match &mut last[usize::from(weighted)] {
            Some((before, slices)) if *before == asked => slices.clone(),
            other => {
                let slices = Rc::new(Slices::weighed(&asked));
                *other = Some((asked, slices.clone()));
                slices
            }
        })
    }

    fn at(asked: &Weighed, pyramid: usize, height: i64) -> Option<u64> {
        let Weighed { point, weights } = asked;
        let d = point.len();
        if height == 0 && pyramid != d {
            return None;
        }
        let (j, top) = if pyramid < d { (pyramid, -height) } else { (pyramid - d, height) };
        let mut sum = weights[j] * ((point[j] - top) * (point[j] - top)) as u64;
        for (i, &c) in point.iter().enumerate() {
            if i < j {
                sum += weights[i] * outside(c, height - 1);
            } else if i > j {
                sum += weights[i] * outside(c, height);
            }
        }
        Some(sum)
    }

    pub fn pair(&self, pyramid: usize, height: usize) -> Option<u64> {
        self.least[pyramid * 1001 + height]
    }

    /// The bound of a span: the least over every pair from the first to the last, in order of pairs.
    pub fn bound(&self, first: (u8, u16), last: (u8, u16)) -> u64 {
        assert!((last.0 as usize) < 2 * self.d && first <= last);
        let from = first.0 as usize * 1001 + first.1 as usize;
        let to = last.0 as usize * 1001 + last.1 as usize;
        self.least[from..=to].iter().flatten().copied().min().unwrap()
    }
}

//! What an insert brings beside the point, and the stages that a question looks among.
use crate::Refusal;
use std::fmt;
use std::ops::BitOr;

/// A sleep stage.
#[derive(Clone, Copy, Debug, PartialEq, Eq, PartialOrd, Ord, Hash)]
#[repr(u8)]
pub enum Stage {
    /// Awake.
    Wake = 0,
    /// The first of the N stages.
    N1 = 1,
    /// The second.
    N2 = 2,
    /// The third, deep sleep.
    N3 = 3,
    /// REM sleep.
    Rem = 4,
    /// Not scored yet.
    Unscored = 5,
}

impl Stage {
    /// Every stage, in the order of their numbers.
    pub const ALL: [Stage; 6] = [Stage::Wake, Stage::N1, Stage::N2, Stage::N3, Stage::Rem, Stage::Unscored];
}

impl TryFrom<u8> for Stage {
    type Error = Refusal;

    /// The stage of a number, which is refused above 5.
    fn try_from(number: u8) -> Result<Stage, Refusal> {
        Stage::ALL.get(usize::from(number)).copied().ok_or(Refusal::BadStage)
    }
}

impl From<Stage> for u8 {
    fn from(stage: Stage) -> u8 {
        stage as u8
    }
}

/// A set of stages, which a question looks among.
///
/// ```
/// use epoch_index::{Stage, StageSet};
///
/// let two = StageSet::of(&[Stage::N2, Stage::N3]);
/// assert!(two.contains(Stage::N3) && !two.contains(Stage::Rem));
/// assert_eq!(StageSet::from(Stage::N2) | StageSet::from(Stage::N3), two);
/// assert_eq!(two.bits(), 0b1100);
/// ```
#[derive(Clone, Copy, PartialEq, Eq, Hash)]
pub struct StageSet(u8);

impl StageSet {
    /// All six: a question looks among all records.
    pub const ALL: StageSet = StageSet(63);
    /// None: a question is refused with [`Refusal::BadStageSet`].
    pub const EMPTY: StageSet = StageSet(0);

    /// The set of some stages.
    pub const fn of(stages: &[Stage]) -> StageSet {
        let mut bits = 0;
        let mut i = 0;
        while i < stages.len() {
            bits |= 1 << stages[i] as u8;
            i += 1;
        }
        StageSet(bits)
    }

    /// The set of a number with bit s for stage s; none above 63.
    pub const fn from_bits(bits: u8) -> Option<StageSet> {
        if bits > StageSet::ALL.0 {
            None
        } else {
            Some(StageSet(bits))
        }
    }

    /// Its number: bit s for stage s.
    pub const fn bits(self) -> u8 {
        self.0
    }

    /// Whether a stage is in the set.
    pub const fn contains(self, stage: Stage) -> bool {
        self.0 >> stage as u8 & 1 == 1
    }

    /// Whether no stage is.
    pub const fn is_empty(self) -> bool {
        self.0 == 0
    }
}

impl From<Stage> for StageSet {
    fn from(stage: Stage) -> StageSet {
        StageSet::of(&[stage])
    }
}

impl FromIterator<Stage> for StageSet {
    fn from_iter<I: IntoIterator<Item = Stage>>(stages: I) -> StageSet {
        stages.into_iter().fold(StageSet::EMPTY, |set, stage| set | stage.into())
    }
}

impl BitOr for StageSet {
    type Output = StageSet;

    fn bitor(self, other: StageSet) -> StageSet {
        StageSet(self.0 | other.0)
    }
}

impl fmt::Debug for StageSet {
    fn fmt(&self, f: &mut fmt::Formatter<'_>) -> fmt::Result {
        f.debug_set().entries(Stage::ALL.into_iter().filter(|stage| self.contains(*stage))).finish()
    }
}

/// An epoch but for its point.
#[derive(Clone, Copy, Debug, PartialEq, Eq, Hash)]
pub struct Epoch {
    /// Its identifier, 1 to 4,294,967,295.
    pub id: u32,
    /// Its stage.
    pub stage: Stage,
    /// Its stamp: seconds since 1 January 2000 00:00 by the lab clock.
    pub stamp: u32,
}

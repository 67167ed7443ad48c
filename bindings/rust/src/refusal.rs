//! The refusal table.
use std::error::Error;
use std::fmt;

/// Why an act was refused. A refusal changes nothing: index, rows and tally are as they were.
#[derive(Clone, Copy, Debug, PartialEq, Eq, Hash)]
#[non_exhaustive]
#[repr(u32)]
pub enum Refusal {
    /// Index length isn't a permitted number of whole pages.
    BadLength = 1,
    /// Index isn't sound.
    Unsound = 2,
    /// d, or the number of coordinates or weights, is wrong.
    BadFeatures = 3,
    /// A coordinate is out of range.
    BadCoordinate = 4,
    /// Identifier 0.
    ZeroIdentifier = 5,
    /// Identifier already live.
    AlreadyLive = 6,
    /// Identifier not live.
    NotLive = 7,
    /// 65,535 points live.
    Full = 8,
    /// Insert wants more pages than are unused or freed.
    NoPages = 9,
    /// k out of range.
    BadK = 10,
    /// Fewer than k rows lent.
    FewRows = 11,
    // 12 is given to nothing: evening out two leaves takes no page.
    /// Line not readable: the acts program alone gives it.
    UnreadableLine = 13,
    /// A weight above 1,000.
    BadWeight = 14,
    /// Stage above 5, which no [`Stage`](crate::Stage) has: given where one is made of a number.
    BadStage = 15,
    /// Stage set is 0 or above 63: [`StageSet::EMPTY`](crate::StageSet::EMPTY).
    BadStageSet = 16,
    /// A date doesn't exist or lies outside 1 January 2000 to 31 December 2099.
    BadDate = 17,
    /// Last date is before the first.
    DatesReversed = 18,
}

impl Refusal {
    /// Every refusal, in the order of their numbers.
    pub const ALL: &'static [Refusal] = &[
        Refusal::BadLength,
        Refusal::Unsound,
        Refusal::BadFeatures,
        Refusal::BadCoordinate,
        Refusal::ZeroIdentifier,
        Refusal::AlreadyLive,
        Refusal::NotLive,
        Refusal::Full,
        Refusal::NoPages,
        Refusal::BadK,
        Refusal::FewRows,
        Refusal::UnreadableLine,
        Refusal::BadWeight,
        Refusal::BadStage,
        Refusal::BadStageSet,
        Refusal::BadDate,
        Refusal::DatesReversed,
    ];

    /// The number in the table.
    pub fn code(self) -> u32 {
        self as u32
    }

    /// What an act's number says: 0 is success.
    pub(crate) fn of(code: u32) -> Result<(), Refusal> {
        if code == 0 {
            return Ok(());
        }
        let row = Refusal::ALL.iter().find(|refusal| refusal.code() == code);
        Err(*row.expect("an act returns 0 or a number of the table"))
    }

    fn words(self) -> &'static str {
        match self {
            Refusal::BadLength => "index length isn't a permitted number of whole pages",
            Refusal::Unsound => "index isn't sound",
            Refusal::BadFeatures => "d, or the number of coordinates or weights, is wrong",
            Refusal::BadCoordinate => "a coordinate is out of range",
            Refusal::ZeroIdentifier => "identifier 0",
            Refusal::AlreadyLive => "identifier already live",
            Refusal::NotLive => "identifier not live",
            Refusal::Full => "65,535 points live",
            Refusal::NoPages => "insert wants more pages than are unused or freed",
            Refusal::BadK => "k out of range",
            Refusal::FewRows => "fewer than k rows lent",
            Refusal::UnreadableLine => "line not readable",
            Refusal::BadWeight => "a weight above 1,000",
            Refusal::BadStage => "stage above 5",
            Refusal::BadStageSet => "stage set is 0 or above 63",
            Refusal::BadDate => "a date doesn't exist or lies outside 1 January 2000 to 31 December 2099",
            Refusal::DatesReversed => "last date is before the first",
        }
    }
}

impl fmt::Display for Refusal {
    fn fmt(&self, f: &mut fmt::Formatter<'_>) -> fmt::Result {
        f.write_str(self.words())
    }
}

impl Error for Refusal {}

/// What a check found: the refusal, and with [`Refusal::Unsound`] a page at which soundness fails.
#[derive(Clone, Copy, Debug, PartialEq, Eq, Hash)]
pub struct Fault {
    /// Its number.
    pub refusal: Refusal,
    /// The page; 0 with any other refusal.
    pub page: u32,
}

impl fmt::Display for Fault {
    fn fmt(&self, f: &mut fmt::Formatter<'_>) -> fmt::Result {
        match self.refusal {
            Refusal::Unsound => write!(f, "{}: page {}", self.refusal, self.page),
            other => other.fmt(f),
        }
    }
}

impl Error for Fault {
    fn source(&self) -> Option<&(dyn Error + 'static)> {
        Some(&self.refusal)
    }
}

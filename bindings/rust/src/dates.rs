//! The recording days that a question looks among.

/// A date of the Gregorian calendar.
///
/// It need not exist: a question refuses it then with [`Refusal::BadDate`](crate::Refusal::BadDate), as it does one outside 1 January 2000 to
/// 31 December 2099.
#[derive(Clone, Copy, Debug, PartialEq, Eq, PartialOrd, Ord, Hash)]
#[repr(C)]
pub struct Date {
    /// The year: [`MIN_YEAR`](crate::MIN_YEAR) to [`MAX_YEAR`](crate::MAX_YEAR).
    pub year: u16,
    /// The month, January being 1.
    pub month: u8,
    /// The day of the month, from 1.
    pub day: u8,
}

impl Date {
    /// The date of a year, a month and a day, whether or not it exists.
    pub const fn new(year: u16, month: u8, day: u8) -> Date {
        Date { year, month, day }
    }
}

/// Recording days, from the first to the last, both included.
///
/// A recording day runs from noon up to, not including, the next noon, and has the date on which it began: an epoch of three in the morning
/// belongs to the date of the evening before. Stamps from before noon of 1 January 2000 (below 43,200) lie in no day, and those from noon of
/// 1 January 2100 on (3,155,803,200) in none that has a date to ask for.
///
/// A last date before the first is refused with [`Refusal::DatesReversed`](crate::Refusal::DatesReversed); they may be the same.
///
/// ```
/// use epoch_index::{Date, Dates, Epoch, Index, Refusal, Stage, StageSet, Tally};
///
/// let mut index = Index::make(vec![0; 2048], 1)?;
/// // 16 November 2025 22:00, and 14 hours later
/// index.insert(Epoch { id: 1, stage: Stage::N2, stamp: 816_645_600 }, &[5])?;
/// index.insert(Epoch { id: 2, stage: Stage::N2, stamp: 816_696_000 }, &[6])?;
/// let of = |dates: Dates| index.question(&[0], None, 2, StageSet::ALL, Some(dates), &mut Tally::default());
/// let (night, next) = (Date::new(2025, 11, 16), Date::new(2025, 11, 17));
/// assert_eq!(of(night.into())?.rows[0].id, 1);
/// assert_eq!(of(next.into())?.rows[0].id, 2);
/// assert_eq!(of(Dates { first: night, last: next })?.rows.len(), 2);
/// assert_eq!(of(Dates { first: next, last: night }), Err(Refusal::DatesReversed));
/// assert_eq!(of(Date::new(2025, 2, 29).into()), Err(Refusal::BadDate));
/// # Ok::<(), Refusal>(())
/// ```
#[derive(Clone, Copy, Debug, PartialEq, Eq, Hash)]
#[repr(C)]
pub struct Dates {
    /// The first date.
    pub first: Date,
    /// The last date.
    pub last: Date,
}

impl Dates {
    /// What stands for dates where none are given.
    pub(crate) const NONE: Dates = Dates { first: Date::new(0, 0, 0), last: Date::new(0, 0, 0) };
}

impl From<Date> for Dates {
    /// One day.
    fn from(date: Date) -> Dates {
        Dates { first: date, last: date }
    }
}

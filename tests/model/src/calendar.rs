//! The model's calendar: dates one after the other, and the recording day of a stamp.

use std::sync::LazyLock;

/// Any numbers; they need not be a date.
#[derive(Clone, Copy, PartialEq, Eq, PartialOrd, Ord, Debug)]
pub struct Date {
    pub year: u16,
    pub month: u8,
    pub day: u8,
}

/// A first and a last date.
#[derive(Clone, Copy, PartialEq, Eq, Debug)]
pub struct Dates {
    pub first: Date,
    pub last: Date,
}

pub const FIRST: Date = Date::new(2000, 1, 1);
pub const LAST: Date = Date::new(2099, 12, 31);
pub const WIDEST: Dates = Dates { first: FIRST, last: LAST };

const NOON: u32 = 12 * 60 * 60;
const MIDNIGHT: u32 = 24 * 60 * 60;

/// The dates from 1 January 2000 on, as far as stamps go.
static DATES: LazyLock<Vec<Date>> = LazyLock::new(|| {
    let whole = (u32::MAX / MIDNIGHT) as usize;
    std::iter::successors(Some(FIRST), |date| Some(date.next())).take(whole + 1).collect()
});

impl Date {
    pub const fn new(year: u16, month: u8, day: u8) -> Date {
        Date { year, month, day }
    }

    /// The date after this one, which exists.
    fn next(&self) -> Date {
        let &Date { year, month, day } = self;
        let leap = year % 4 == 0 && year % 100 != 0 || year % 400 == 0;
        let ended = match month {
            4 | 6 | 9 | 11 => day == 30,
            2 => day == if leap { 29 } else { 28 },
            _ => day == 31,
        };
        match (ended, month) {
            (false, _) => Date { day: day + 1, ..*self },
            (true, 12) => Date::new(year + 1, 1, 1),
            (true, _) => Date::new(year, month + 1, 1),
        }
    }

    /// Whether a question may give it.
    pub fn permitted(&self) -> bool {
        every().binary_search(self).is_ok()
    }

    /// The recording day that a stamp lies in, if any: before noon it is that of the date before.
    pub fn of(stamp: u32) -> Option<Date> {
        let (date, second) = ((stamp / MIDNIGHT) as usize, stamp % MIDNIGHT);
        if second < NOON {
            date.checked_sub(1).map(|before| DATES[before])
        } else {
            Some(DATES[date])
        }
    }
}

/// The dates that a question may give, in order.
pub fn every() -> &'static [Date] {
    &DATES[..DATES.partition_point(|date| *date <= LAST)]
}

impl Dates {
    /// The one day.
    pub fn one(date: Date) -> Dates {
        Dates { first: date, last: date }
    }

    /// Whether a stamp lies in the days.
    pub fn hold(&self, stamp: u32) -> bool {
        Date::of(stamp).is_some_and(|date| self.first <= date && date <= self.last)
    }
}

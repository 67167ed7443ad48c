//! The calendar of the C library, to hold the library and the model against.

use crate::calendar::Date;

/// As x86-64 Linux has it.
#[repr(C)]
struct Tm {
    second: i32,
    minute: i32,
    hour: i32,
    day: i32,
    /// From 0.
    month: i32,
    /// From 1900.
    year: i32,
    weekday: i32,
    yearday: i32,
    summer: i32,
    offset: i64,
    zone: *const u8,
}

extern "C" {
    fn timegm(broken: *mut Tm) -> i64;
    fn gmtime_r(seconds: *const i64, broken: *mut Tm) -> *mut Tm;
}

fn broken(year: i32, month: i32, day: i32, hour: i32) -> Tm {
    let (year, month) = (year - 1900, month - 1);
    Tm { second: 0, minute: 0, hour, day, month, year, weekday: 0, yearday: 0, summer: 0, offset: 0, zone: std::ptr::null() }
}

/// The seconds from 1 January 2000 00:00 to an hour of a day; a month past the twelfth and a day past the month's end run on.
pub fn stamp(year: i32, month: i32, day: i32, hour: i32) -> i64 {
    unsafe { timegm(&mut broken(year, month, day, hour)) - timegm(&mut broken(2000, 1, 1, 0)) }
}

/// The noon of a date.
pub fn noon(date: Date) -> i64 {
    stamp(date.year.into(), date.month.into(), date.day.into(), 12)
}

/// The date on which a stamp was taken, by the clock: from midnight to midnight.
pub fn date(stamp: i64) -> Date {
    let mut got = broken(0, 0, 0, 0);
    let seconds = unsafe { stamp + timegm(&mut broken(2000, 1, 1, 0)) };
    assert!(!unsafe { gmtime_r(&seconds, &mut got) }.is_null());
    Date::new((got.year + 1900) as u16, (got.month + 1) as u8, got.day as u8)
}

/// Whether a date is one: its noon is its own.
pub fn exists(asked: Date) -> bool {
    date(noon(asked)) == asked
}

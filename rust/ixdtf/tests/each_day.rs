//! Compares the instant of each day, and its text, with a walk that counts day after day.

use ixdtf::Instant;
use ixdtf::encoding::Utf8;
use ixdtf::records::{DateRecord, IxdtfParseRecord, TimeRecord, UtcOffsetRecordOrZ};
use std::fmt::Write;

const DAY: i64 = 86_400;

/// The number of days of a month.
fn month_length(year: i32, month: u8) -> u8 {
    let leap = (year % 4 == 0 && year % 100 != 0) || year % 400 == 0;
    match (month, leap) {
        (2, true) => 29,
        (2, false) => 28,
        (4 | 6 | 9 | 11, _) => 30,
        _ => 31,
    }
}

/// The seconds of the instant at midnight in UTC.
fn midnight(year: i32, month: u8, day: u8) -> i64 {
    let mut record = IxdtfParseRecord::<Utf8>::default();
    record.date = Some(DateRecord { year, month, day });
    record.time = Some(TimeRecord::default());
    record.offset = Some(UtcOffsetRecordOrZ::Z);
    record.instant().unwrap().seconds
}

/// Writes midnight of a date in the form in which `Display` of an instant must write it.
fn write_midnight(text: &mut String, year: i32, month: u8, day: u8) {
    let written = match year {
        0..=9999 => write!(text, "{year:04}-{month:02}-{day:02}T00:00:00Z"),
        _ => write!(text, "{year:+07}-{month:02}-{day:02}T00:00:00Z"),
    };
    written.unwrap();
}

/// Walks from 1 January of the year `first` to 31 December of the year `last`. `seconds` are those of the first midnight. Returns the seconds
/// of the midnight after the last day, and the number of days.
fn walk(first: i32, last: i32, mut seconds: i64) -> (i64, u32) {
    let mut days = 0;
    let (mut found, mut wanted) = (String::new(), String::new());
    for year in first..=last {
        for month in 1..=12 {
            for day in 1..=month_length(year, month) {
                assert_eq!(midnight(year, month, day), seconds, "{year} {month} {day}");
                found.clear();
                wanted.clear();
                write!(found, "{}", Instant { seconds, nanoseconds: 0 }).unwrap();
                write_midnight(&mut wanted, year, month, day);
                assert_eq!(found, wanted);
                seconds += DAY;
                days += 1;
            }
        }
    }
    (seconds, days)
}

/// The seconds of 1 January of a year before 1970. They are counted from the days of the years between it and 1970.
fn first_of(year: i32) -> i64 {
    let days: i64 = (year..1970).map(|year| (1..=12).map(|month| i64::from(month_length(year, month))).sum::<i64>()).sum();
    -days * DAY
}

#[test]
fn days_from_1970_on() {
    assert_eq!(walk(1970, 4000, 0).1, 741_808);
}

#[test]
fn days_before_1970() {
    assert_eq!(walk(-2000, 1969, first_of(-2000)).0, 0);
}

/// The texts were computed with a count of years in Python. Other programs give the same text for the last second of 64 bits.
#[test]
fn texts_of_instants() {
    for (seconds, nanoseconds, text) in [
        (0, 0, "1970-01-01T00:00:00Z"),
        (-1, 999_999_999, "1969-12-31T23:59:59.999999999Z"),
        (1_709_369_280, 250_000_000, "2024-03-02T08:48:00.25Z"),
        (951_782_400, 100_000_000, "2000-02-29T00:00:00.1Z"),
        (253_402_300_800, 0, "+010000-01-01T00:00:00Z"),
        (-62_167_219_201, 0, "-000001-12-31T23:59:59Z"),
        (31_494_784_780_799, 0, "+999999-12-31T23:59:59Z"),
        (31_494_784_780_800, 0, "+000001000000-01-01T00:00:00Z"),
        (i64::MAX, 0, "+292277026596-12-04T15:30:07Z"),
        (i64::MIN, 0, "-292277022657-01-27T08:29:52Z"),
        (59, 1_250_000_000, "1970-01-01T00:01:00.25Z"),
    ] {
        assert_eq!(Instant { seconds, nanoseconds }.to_string(), text);
    }
}

/// Tests 730 million days, which takes minutes: `cargo test --release --test each_day -- --ignored`.
#[test]
#[ignore]
fn each_day_that_a_reader_returns() {
    let (here, before) = walk(-999_999, 1969, first_of(-999_999));
    assert_eq!(here, 0);
    let (_, after) = walk(1970, 999_999, 0);
    assert_eq!(before + after, 730_484_634);
}

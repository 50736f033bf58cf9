//! Sorts the lines of standard input by time. The time of a line is the text before its first space. It is a date and a time, with `Z` or an
//! offset. Lines with the same time keep their order, and lines without a time come last.
//!
//!     cargo run --example sort_log < service.log
use ixdtf::parsers::IxdtfParser;
use ixdtf::records::{DateRecord, Sign};
use std::io::Read;

/// Returns the number of days from 1970-01-01 to a date of the proleptic Gregorian calendar.
fn days(date: DateRecord) -> i64 {
    // Here, a year begins in March. So a leap day is the last day of its year.
    let (year, month) = match date.month {
        1 | 2 => (i64::from(date.year) - 1, i64::from(date.month) + 9),
        month => (i64::from(date.year), i64::from(month) - 3),
    };
    let leap_days = year.div_euclid(4) - year.div_euclid(100) + year.div_euclid(400);
    365 * year + leap_days + (153 * month + 2) / 5 + i64::from(date.day) - 719_469
}

/// Returns the seconds and nanoseconds from 1970-01-01T00:00:00Z to the time of a text. Returns `None` if the text has no such time.
fn instant(text: &str) -> Option<(i64, u32)> {
    let record = IxdtfParser::from_str(text).parse().ok()?;
    let time = record.time?;
    let offset = record.offset?.resolve_rfc_9557();
    let clock = |hour: u8, minute: u8, second: u8| i64::from(hour) * 3600 + i64::from(minute) * 60 + i64::from(second);
    let ahead = clock(offset.hour(), offset.minute(), offset.second().unwrap_or(0));
    let ahead = if offset.sign() == Sign::Negative { -ahead } else { ahead };
    let nanoseconds = time.fraction.map_or(0, |fraction| fraction.to_truncated_nanoseconds());
    Some((days(record.date?) * 86_400 + clock(time.hour, time.minute, time.second) - ahead, nanoseconds))
}

/// Returns the lines in the order of their times.
fn sorted(log: &str) -> Vec<&str> {
    let mut lines: Vec<&str> = log.lines().collect();
    // The lines without a time come after all others, because `false` is less than `true`.
    lines.sort_by_cached_key(|line| {
        let instant = instant(line.split(' ').next().unwrap_or(""));
        (instant.is_none(), instant)
    });
    lines
}

fn main() -> std::io::Result<()> {
    let mut log = String::new();
    std::io::stdin().read_to_string(&mut log)?;
    for line in sorted(&log) {
        println!("{line}");
    }
    Ok(())
}

#[test]
fn sorts() {
    let log = "2024-03-02T09:00:00+01:00 second\nno time\n2024-03-02T07:59:59.9Z first\n2024-03-02T04:30:00-05:00 third\n";
    assert_eq!(
        sorted(log),
        [
            "2024-03-02T07:59:59.9Z first",
            "2024-03-02T09:00:00+01:00 second",
            "2024-03-02T04:30:00-05:00 third",
            "no time",
        ]
    );
}

#[test]
fn knows_instants() {
    assert_eq!(instant("1970-01-01T00:00:00Z"), Some((0, 0)));
    // 2000-03-01 is the day 11017. The day before it is a leap day.
    assert_eq!(instant("2000-03-01T00:00:00.5Z"), Some((11_017 * 86_400, 500_000_000)));
    assert_eq!(instant("2000-02-29T23:59:59-00:00:01"), Some((11_017 * 86_400, 0)));
    assert_eq!(instant("1969-12-31T23:59:59Z"), Some((-1, 0)));
    assert_eq!(instant("2024-03-02T08:48:00"), None);
}

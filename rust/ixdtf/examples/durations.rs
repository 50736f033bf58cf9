//! Adds durations, and prints their sum in seconds and nanoseconds. The arguments are the durations. An argument is left out if it has years,
//! months, weeks or days.
//!
//!     cargo run --example durations -- PT1H30M -PT0.5S PT1.25M
use ixdtf::parsers::IsoDurationParser;
use ixdtf::records::{Fraction, Sign, TimeDurationRecord};

/// Returns the nanoseconds of a fraction of a duration unit. The duration unit has `unit` seconds.
///
/// Returns `None` if the number of nanoseconds is not a whole number. Also returns `None` if the fraction has more than 18 digits, because
/// a record keeps only the first 18.
fn nanoseconds_of(fraction: Option<Fraction>, unit: u128) -> Option<i128> {
    let Some(fraction) = fraction else {
        return Some(0);
    };
    if fraction.digit_count() > 18 {
        return None;
    }
    let parts = u128::from(fraction.leading_value()) * unit * 1_000_000_000;
    let whole = 10u128.pow(u32::from(fraction.digit_count()));
    (parts % whole == 0).then(|| (parts / whole) as i128)
}

/// Returns the nanoseconds of a duration.
///
/// Returns `None` if the text is not a duration, if it has years, months, weeks or days, or if the number of nanoseconds is not a whole number.
fn nanoseconds(text: &str) -> Option<i128> {
    let duration = IsoDurationParser::from_str(text).parse().ok()?;
    if duration.date.is_some() {
        return None;
    }
    let (hours, minutes, seconds, fraction, unit) = match duration.time? {
        TimeDurationRecord::Hours { hours, fraction } => (hours, 0, 0, fraction, 3600),
        TimeDurationRecord::Minutes { hours, minutes, fraction } => (hours, minutes, 0, fraction, 60),
        TimeDurationRecord::Seconds { hours, minutes, seconds, fraction } => (hours, minutes, seconds, fraction, 1),
    };
    let whole = i128::from(hours) * 3600 + i128::from(minutes) * 60 + i128::from(seconds);
    let sum = whole * 1_000_000_000 + nanoseconds_of(fraction, unit)?;
    Some(if duration.sign == Sign::Negative { -sum } else { sum })
}

fn main() {
    let mut sum = 0;
    for text in std::env::args().skip(1) {
        match nanoseconds(&text) {
            Some(it) => sum += it,
            None => println!("{text}: left out"),
        }
    }
    println!("{} seconds, {} nanoseconds", sum / 1_000_000_000, sum % 1_000_000_000);
}

#[test]
fn gives_nanoseconds() {
    assert_eq!(nanoseconds("PT1H30M"), Some(5_400_000_000_000));
    assert_eq!(nanoseconds("-PT0.5S"), Some(-500_000_000));
    assert_eq!(nanoseconds("PT1.25M"), Some(75_000_000_000));
    assert_eq!(nanoseconds("PT0.0000000000003H"), None);
    assert_eq!(nanoseconds("PT0.000000000025H"), Some(90));
    assert_eq!(nanoseconds("P1D"), None);
    assert_eq!(nanoseconds("one hour"), None);
}

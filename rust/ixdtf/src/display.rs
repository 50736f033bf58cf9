// Made by tools/to_rust.py of crates/ixdtf_instants/src/display.rt. Do not edit.

//! The text of an instant: a date and a time in UTC.

use crate::civil::{CivilDate, date_of};
use crate::instant::Instant;
use core::fmt;

// The number of seconds in a day.
const DAY: i64 = 86_400;

// The number of nanoseconds in a second.
const BILLION: u32 = 1_000_000_000;

// `Display` ignores width and fill.
impl fmt::Display for Instant {
    fn fmt(&self, f: &mut fmt::Formatter<'_>) -> fmt::Result {
        let moment = moment_of(*self);
        write_date(f, date_of(moment.day))?;
        f.write_str("T")?;
        write_clock(f, moment.second)?;
        write_fraction(f, moment.nanoseconds)?;
        f.write_str("Z")
    }
}

// A day, and a time on this day.
#[derive(Clone, Copy)]
struct Moment {
    // The day number: 0 is 1970-01-01.
    day: i64,
    // The number of complete seconds since midnight.
    second: u32,
    nanoseconds: u32,
}

// Returns the day and the time of an instant. If the nanoseconds are 1,000,000,000 or more, they are carried over to the
// seconds.
fn moment_of(instant: Instant) -> Moment {
    let second = instant.seconds.rem_euclid(DAY) as u32 + instant.nanoseconds / BILLION;
    Moment {
        day: instant.seconds.div_euclid(DAY) + i64::from(second / 86_400),
        second: second % 86_400,
        nanoseconds: instant.nanoseconds % BILLION,
    }
}

// Writes a date as `Year-Month-Day`.
fn write_date(f: &mut fmt::Formatter<'_>, date: CivilDate) -> fmt::Result {
    write_year(f, date.year)?;
    f.write_str("-")?;
    write_digits(f, 2, u64::from(date.month))?;
    f.write_str("-")?;
    write_digits(f, 2, u64::from(date.day))
}

// Writes a year: four digits if it is from 0 to 9999, and otherwise a sign and six or twelve digits.
fn write_year(f: &mut fmt::Formatter<'_>, year: i64) -> fmt::Result {
    let number = year.unsigned_abs();
    if year < 0 {
        f.write_str("-")?;
        write_long_year(f, number)
    } else if number <= 9999 {
        write_digits(f, 4, number)
    } else {
        f.write_str("+")?;
        write_long_year(f, number)
    }
}

// Writes the digits of a year after its sign: six digits, or twelve if six are too few.
fn write_long_year(f: &mut fmt::Formatter<'_>, number: u64) -> fmt::Result {
    if number <= 999_999 {
        write_digits(f, 6, number)
    } else {
        write_digits(f, 12, number)
    }
}

// Writes the time that is `seconds` seconds after midnight, as `Hour:Min:Sec`.
fn write_clock(f: &mut fmt::Formatter<'_>, seconds: u32) -> fmt::Result {
    write_digits(f, 2, u64::from(seconds / 3600))?;
    f.write_str(":")?;
    write_digits(f, 2, u64::from(seconds / 60 % 60))?;
    f.write_str(":")?;
    write_digits(f, 2, u64::from(seconds % 60))
}

// Writes `.` and the nine digits of the nanoseconds without the zeros at their end. Writes nothing if the nanoseconds are 0.
fn write_fraction(f: &mut fmt::Formatter<'_>, nanoseconds: u32) -> fmt::Result {
    if nanoseconds == 0 {
        return Ok(());
    }
    f.write_str(".")?;
    let (count, number) = trimmed(nanoseconds);
    write_digits(f, count, u64::from(number))
}

// Removes the zeros at the end of the nine digits of the nanoseconds. Returns the number of digits that are left, and the
// number that these digits stand for.
fn trimmed(nanoseconds: u32) -> (u32, u32) {
    let mut count = 9;
    let mut number = nanoseconds;
    while count > 0 && number % 10 == 0 {
        count -= 1;
        number /= 10;
    }
    (count, number)
}

// Writes the last `count` digits of a number, with leading zeros.
fn write_digits(f: &mut fmt::Formatter<'_>, count: u32, number: u64) -> fmt::Result {
    let mut left = count;
    while left > 0 {
        left -= 1;
        write_digit(f, (number / 10u64.pow(left) % 10) as u8)?;
    }
    Ok(())
}

// Writes one digit.
fn write_digit(f: &mut fmt::Formatter<'_>, digit: u8) -> fmt::Result {
    let mut bytes = [0; 4];
    f.write_str(char::from(b'0' + digit).encode_utf8(&mut bytes))
}

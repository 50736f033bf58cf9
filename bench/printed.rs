//! printed WHO COUNT TEXT: prints the canonical text of a duration COUNT times. bench/printed runs this program and counts
//! instructions. WHO is `library` for `print_duration`, or `core` for a `Display` of this file, which writes the same text with
//! `write!` of `core::fmt`. The program compares both texts, and prints one of them.
use ixdtf::parsers::IsoDurationParser;
use ixdtf::records::{DurationParseRecord, Fraction, Sign, TimeDurationRecord};
use ixdtf_print::print_duration;
use std::fmt::{self, Write};
use std::hint::black_box;

/// A text in an array.
struct Text {
    bytes: [u8; 600],
    count: usize,
}

impl fmt::Write for Text {
    #[inline]
    fn write_str(&mut self, text: &str) -> fmt::Result {
        let end = self.count + text.len();
        let room = self.bytes.get_mut(self.count..end).ok_or(fmt::Error)?;
        room.copy_from_slice(text.as_bytes());
        self.count = end;
        Ok(())
    }
}

/// A duration that is displayed with `core::fmt`.
struct ByCore<'a>(&'a DurationParseRecord);

/// Writes a number and its letter. Leaves them out if the number is zero.
fn write_unit(f: &mut fmt::Formatter, number: u64, letter: char) -> fmt::Result {
    match (number, letter) {
        (0, _) => Ok(()),
        (_, 'Y') => write!(f, "{number}Y"),
        (_, 'M') => write!(f, "{number}M"),
        (_, 'W') => write!(f, "{number}W"),
        (_, 'D') => write!(f, "{number}D"),
        _ => write!(f, "{number}H"),
    }
}

/// Writes the last number of a time, its fraction and its letter.
fn write_last(f: &mut fmt::Formatter, number: u64, fraction: Option<Fraction>, letter: char) -> fmt::Result {
    match fraction {
        None if letter == 'H' => write!(f, "{number}H"),
        None if letter == 'M' => write!(f, "{number}M"),
        None => write!(f, "{number}S"),
        Some(fraction) => {
            let count = usize::from(fraction.digit_count());
            let value = fraction.leading_value();
            if count <= 18 {
                write!(f, "{number}.{value:0count$}{letter}")
            } else {
                write!(f, "{number}.{value:018}{:0width$}{letter}", 0, width = count - 18)
            }
        }
    }
}

impl fmt::Display for ByCore<'_> {
    fn fmt(&self, f: &mut fmt::Formatter) -> fmt::Result {
        f.write_str(if matches!(self.0.sign, Sign::Negative) { "-P" } else { "P" })?;
        if let Some(date) = self.0.date {
            if (date.years, date.months, date.weeks, date.days) == (0, 0, 0, 0) {
                f.write_str("0D")?;
            }
            write_unit(f, date.years.into(), 'Y')?;
            write_unit(f, date.months.into(), 'M')?;
            write_unit(f, date.weeks.into(), 'W')?;
            write_unit(f, date.days, 'D')?;
        }
        let Some(time) = self.0.time else {
            return Ok(());
        };
        f.write_str("T")?;
        match time {
            TimeDurationRecord::Hours { hours, fraction } => write_last(f, hours, fraction, 'H'),
            TimeDurationRecord::Minutes { hours, minutes, fraction } => {
                write_unit(f, hours, 'H')?;
                write_last(f, minutes, fraction, 'M')
            }
            TimeDurationRecord::Seconds { hours, minutes, seconds, fraction } => {
                write_unit(f, hours, 'H')?;
                write_unit(f, minutes, 'M')?;
                write_last(f, seconds, fraction, 'S')
            }
        }
    }
}

#[inline(never)]
fn by_library(duration: &DurationParseRecord, text: &mut Text) {
    text.count = print_duration(duration, &mut text.bytes).unwrap_or(0);
}

#[inline(never)]
fn by_core(duration: &DurationParseRecord, text: &mut Text) {
    text.count = 0;
    let _ = write!(text, "{}", ByCore(duration));
}

fn main() {
    let words: Vec<String> = std::env::args().collect();
    let duration = IsoDurationParser::from_str(&words[3]).parse().unwrap();
    let count: usize = words[2].parse().unwrap();
    let mut first = Text { bytes: [0; 600], count: 0 };
    let mut second = Text { bytes: [0; 600], count: 0 };
    for _ in 0..count {
        if words[1] == "library" {
            by_library(black_box(&duration), black_box(&mut first));
        } else {
            by_core(black_box(&duration), black_box(&mut first));
        }
    }
    by_library(&duration, &mut first);
    by_core(&duration, &mut second);
    assert_eq!(first.bytes[..first.count], second.bytes[..second.count]);
    println!("{}", String::from_utf8_lossy(&first.bytes[..first.count]));
}

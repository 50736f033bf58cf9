// Made by tools/to_rust.py of crates/ixdtf_durations/src/time_groups.rt. Do not edit.

//! The time part of a duration: groups of hours, minutes and seconds. The last group can have a fraction.

use crate::parsers::group_numbers::{keep_number, parse_number};
use crate::Reason;
use crate::encoding::EncodingType;
use crate::parsers::profile::Profile;
use crate::records::{Fraction, TimeDurationRecord};
use crate::classes::is_decimal_separator;
use crate::cursor::Cursor;
use crate::parsers::time::parse_fraction;

// The rank of the time unit that a letter names: hours have 1, minutes 2 and seconds 3. Any other code unit has 0.
static TIME_RANKS: [u8; 256] = [
    0, 0, 0, 0, 0, 0, 0, 0, 0, 0, 0, 0, 0, 0, 0, 0,
    0, 0, 0, 0, 0, 0, 0, 0, 0, 0, 0, 0, 0, 0, 0, 0,
    0, 0, 0, 0, 0, 0, 0, 0, 0, 0, 0, 0, 0, 0, 0, 0,
    0, 0, 0, 0, 0, 0, 0, 0, 0, 0, 0, 0, 0, 0, 0, 0,
    0, 0, 0, 0, 0, 0, 0, 0, 1, 0, 0, 0, 0, 2, 0, 0, // @ to O
    0, 0, 0, 3, 0, 0, 0, 0, 0, 0, 0, 0, 0, 0, 0, 0, // P to _
    0, 0, 0, 0, 0, 0, 0, 0, 1, 0, 0, 0, 0, 2, 0, 0, // ` to o
    0, 0, 0, 3, 0, 0, 0, 0, 0, 0, 0, 0, 0, 0, 0, 0, // p to the last
    0, 0, 0, 0, 0, 0, 0, 0, 0, 0, 0, 0, 0, 0, 0, 0,
    0, 0, 0, 0, 0, 0, 0, 0, 0, 0, 0, 0, 0, 0, 0, 0,
    0, 0, 0, 0, 0, 0, 0, 0, 0, 0, 0, 0, 0, 0, 0, 0,
    0, 0, 0, 0, 0, 0, 0, 0, 0, 0, 0, 0, 0, 0, 0, 0,
    0, 0, 0, 0, 0, 0, 0, 0, 0, 0, 0, 0, 0, 0, 0, 0,
    0, 0, 0, 0, 0, 0, 0, 0, 0, 0, 0, 0, 0, 0, 0, 0,
    0, 0, 0, 0, 0, 0, 0, 0, 0, 0, 0, 0, 0, 0, 0, 0,
    0, 0, 0, 0, 0, 0, 0, 0, 0, 0, 0, 0, 0, 0, 0, 0,
];

/// Returns the rank of the time unit that the code unit names: 1 for hours, 2 for minutes and 3 for seconds. Returns 0
/// for any other code unit.
#[inline(always)]
fn time_rank(letter: u8) -> u8 {
    TIME_RANKS[letter as usize]
}

/// A time group: a number, its fraction, and the code unit after them, which has not been consumed.
#[derive(Clone, Copy)]
pub struct TimeGroup {
    pub value: u64,
    pub fraction: Option<Fraction>,
    pub letter: u8,
}

/// Consumes the letter of a time unit, and returns the rank of the unit.
///
/// Returns `digits` at any other code unit, which is not consumed. Returns `TimeUnitOrder` if the rank is less than
/// `least`.
#[inline(always)]
fn take_time_unit<'a, T: EncodingType>(
    cursor: &mut Cursor<'a, T>,
    letter: u8,
    least: u8,
    digits: Reason,
) -> Result<u8, Reason> {
    let rank = time_rank(letter);
    if rank < least {
        if rank == 0 {
            return Err(digits);
        }
        cursor.advance_by(1);
        return Err(Reason::TimeUnitOrder);
    }
    cursor.advance_by(1);
    Ok(rank)
}

/// Returns the record of the numbers of time groups. The index of a number is the rank of its unit. The rank of the
/// unit of the last group decides the variant.
#[inline(always)]
fn time_record(values: [u64; 4], rank: u8, fraction: Option<Fraction>) -> TimeDurationRecord {
    match rank {
        1 => TimeDurationRecord::Hours {
            hours: values[1],
            fraction,
        },
        2 => TimeDurationRecord::Minutes {
            hours: values[1],
            minutes: values[2],
            fraction,
        },
        _ => TimeDurationRecord::Seconds {
            hours: values[1],
            minutes: values[2],
            seconds: values[3],
            fraction,
        },
    }
}

/// Reads the digits of a fraction after its `.` or `,`. Returns the fraction, and the code unit after it, which is not
/// consumed.
#[inline(always)]
fn parse_fraction_group<'a, T: EncodingType>(
    cursor: &mut Cursor<'a, T>,
    value: u64,
) -> Result<TimeGroup, Reason> {
    let fraction = parse_fraction(
        cursor,
        Reason::GroupFractionStart,
        Reason::GroupFractionDigits,
    )?;
    match cursor.look(Reason::GroupFractionDigits)? {
        None => Err(Reason::GroupFractionDigits),
        Some(letter) => Ok(TimeGroup {
            value,
            fraction: Some(fraction),
            letter,
        }),
    }
}

/// Reads time groups after their first digit, and expects the end of the input.
///
/// No group can follow a group with a fraction. So only the last group can have a fraction. For a group without a
/// fraction, the function does not make a `TimeGroup`. So it does not have to copy the field for the fraction.
#[inline(always)]
pub fn parse_time_groups<'a, T: EncodingType>(
    cursor: &mut Cursor<'a, T>,
    first: u8,
    profile: Profile,
) -> Result<TimeDurationRecord, Reason> {
    let mut values = [0; 4];
    let mut least = 1;
    let mut digit = first;
    loop {
        let whole = parse_number(
            cursor,
            digit,
            Reason::TimeGroupDigits,
            Reason::TimeGroupRange,
        )?;
        if is_decimal_separator(whole.next) {
            cursor.advance_by(1);
            let group = parse_fraction_group(cursor, whole.value)?;
            let rank = take_time_unit(cursor, group.letter, least, Reason::GroupFractionDigits)?;
            keep_number(&mut values, rank, group.value);
            match cursor.look(Reason::AfterFractionGroup)? {
                None => return Ok(time_record(values, rank, group.fraction)),
                Some(_after_fraction) => return Err(Reason::AfterFractionGroup),
            }
        }
        let rank = take_time_unit(cursor, whole.next, least, Reason::TimeGroupDigits)?;
        keep_number(&mut values, rank, whole.value);
        least = rank + profile.least_step();
        match cursor.look(Reason::AfterTimeGroups)? {
            None => return Ok(time_record(values, rank, None)),
            Some(byte) if byte.is_ascii_digit() => {
                cursor.advance();
                digit = byte;
            }
            Some(_) => return Err(Reason::AfterTimeGroups),
        }
    }
}

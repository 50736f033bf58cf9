// Made by tools/to_rust.py of crates/ixdtf_c/src/duration_fractions.rt. Do not edit.

//! The fraction of a duration, in seconds and nanoseconds. It is a fraction of the last duration unit of the time.

use crate::duration_struct::Duration;

/// The number of nanoseconds in a second.
const BILLION: u64 = 1_000_000_000;

/// Returns the number of seconds in the last duration unit of a time, or 0 if `form` is not 1 to 3.
fn seconds_of_unit(form: u8) -> u64 {
    match form {
        1 => 3600,
        2 => 60,
        3 => 1,
        _ => 0,
    }
}

/// Divides `value * seconds` by `divisor`. Returns `None` if a remainder is left.
fn quotient(value: u64, divisor: u64, seconds: u64) -> Option<u64> {
    let rest = value % divisor * seconds;
    if rest % divisor != 0 {
        return None;
    }
    Some(value / divisor * seconds + rest / divisor)
}

/// Returns the nanoseconds of a fraction of a duration unit. The unit has `seconds` seconds.
///
/// Returns `None` if the nanoseconds are not a whole number, or if the fraction has more than 18 digits, because only the first
/// 18 are known. Also returns `None` if `value` has more digits than `digits` says.
fn exact_nanoseconds(value: u64, digits: u8, seconds: u64) -> Option<u64> {
    if digits > 18 || value >= 10u64.pow(u32::from(digits)) {
        return None;
    }
    if digits <= 9 {
        return Some(value * 10u64.pow(u32::from(9 - digits)) * seconds);
    }
    quotient(value, 10u64.pow(u32::from(digits - 9)), seconds)
}

/// Returns the nanoseconds of the fraction of a duration, or 0 if it has no fraction or no last duration unit.
///
/// Returns `None` like [`exact_nanoseconds`].
fn last_nanoseconds(given: &Duration<'_>) -> Option<u64> {
    let seconds = seconds_of_unit(given.time_form);
    if seconds == 0 || given.fraction_digits == 0 {
        return Some(0);
    }
    exact_nanoseconds(given.fraction, given.fraction_digits, seconds)
}

/// Writes the fraction of a duration in seconds and nanoseconds, such as 1800 and 0 for `PT1.5H`, and returns 0.
///
/// If `time_form` is not 1 to 3, there is no last duration unit of the time: then the function writes 0 and 0, and returns
/// 0. Otherwise, the function returns 104 and writes nothing in three cases: the fraction is not a whole number of
/// nanoseconds, it has more than 18 digits, or `fraction` has more digits than `fraction_digits` says. In the second case,
/// the digits after the 18th are not known. But if `fraction_digits` is 0, there is no fraction, and the value of `fraction`
/// does not matter.
#[unsafe(no_mangle)]
pub extern "C" fn ixdtf_duration_fraction(
    given: &Duration<'_>,
    seconds: &mut u32,
    nanoseconds: &mut u32,
) -> u32 {
    match last_nanoseconds(given) {
        None => 104,
        Some(found) => {
            *seconds = (found / BILLION) as u32;
            *nanoseconds = (found % BILLION) as u32;
            0
        }
    }
}

// Made by tools/to_rust.py of crates/ixdtf_durations/src/group_numbers.rt. Do not edit.

//! Functions that read the number of a group, and store it.

use crate::Reason;
use crate::encoding::EncodingType;
use crate::cursor::Cursor;

/// A number, and the code unit after it, which is not a digit and has not been consumed.
#[derive(Clone, Copy)]
pub struct Number {
    pub value: u64,
    pub next: u8,
}

/// Returns the number with one more digit, or `past` if it overflows.
#[inline(always)]
fn add_digit(value: u64, byte: u8, past: Reason) -> Result<u64, Reason> {
    match value.checked_mul(10) {
        None => Err(past),
        Some(tens) => match tens.checked_add(u64::from(byte - b'0')) {
            None => Err(past),
            Some(sum) => Ok(sum),
        },
    }
}

/// Consumes the digits of a number after the first one.
///
/// Returns the number, and the code unit after it, which is not consumed. Returns `digits` at the end of the input and at
/// a bad code unit, and `past` after the digit with which the number becomes 2^64 or more.
#[inline(always)]
pub fn parse_number<'a, T: EncodingType>(
    cursor: &mut Cursor<'a, T>,
    first: u8,
    digits: Reason,
    past: Reason,
) -> Result<Number, Reason> {
    let mut value = u64::from(first - b'0');
    while let Some(byte) = cursor.look(digits)? {
        if !byte.is_ascii_digit() {
            return Ok(Number { value, next: byte });
        }
        let grown = add_digit(value, byte, past);
        cursor.advance();
        value = grown?;
    }
    Err(digits)
}

/// Stores the number of a group in `values`. The index is the rank of the unit of the group.
#[inline(always)]
pub fn keep_number(values: &mut [u64], rank: u8, number: u64) {
    let place = usize::from(rank);
    // The index is always in range, as the proof shows. The compiler does not know the proof: because of this test, it
    // compiles no code for a panic.
    if place < values.len() {
        values[place] = number;
    }
}

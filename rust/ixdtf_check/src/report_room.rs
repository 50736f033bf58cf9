// Made by tools/to_rust.py of crates/ixdtf_checks/src/report_room.rt. Do not edit.

//! The array in which a report is made, and the digits of numbers of lines.

use crate::marked_text::ROOM;
use ixdtf_buffers::adding::{add_byte, add_bytes, add_number};

/// The number of digits of the greatest `u64`.
const MOST_DIGITS: usize = 20;

/// The array in which a report is made, and what is kept from one report to the next.
///
/// A new array for each report would first have to be filled with zeros, which takes as long as writing the report.
pub struct ReportRoom {
    /// The array.
    pub bytes: [u8; ROOM],
    /// The first digits of the number of a line.
    pub numbers: FirstDigits,
}

impl ReportRoom {
    /// Creates the array.
    pub fn new() -> ReportRoom {
        ReportRoom {
            bytes: [0; ROOM],
            numbers: FirstDigits::of(0),
        }
    }
}

/// The digits of a number, except its last digit.
///
/// Ten numbers that differ only in the last digit, such as 120 to 129, have the same first digits. So the first digits of the number of
/// a line are kept for the next lines, and only the first of ten lines needs divisions.
#[derive(Clone, Copy)]
pub struct FirstDigits {
    /// The least number that has these first digits. It is a multiple of ten.
    least: u64,
    /// The digits, and then other bytes.
    digits: [u8; MOST_DIGITS],
    /// The number of digits. It is 0 if `least` is 0.
    count: usize,
}

impl FirstDigits {
    /// Returns the first digits of the number.
    pub fn of(number: u64) -> FirstDigits {
        let tens = number / 10;
        let mut digits = [0; MOST_DIGITS];
        let count = if tens == 0 {
            0
        } else {
            add_number(&mut digits, 0, tens)
        };
        FirstDigits {
            least: tens * 10,
            digits,
            count,
        }
    }

    /// Writes the number in decimal digits from the index on, and returns the index after it. If the first digits in `self` are not
    /// those of `number`, the function first replaces them by those of `number`.
    #[inline(always)]
    pub fn add_number<const SIZE: usize>(
        &mut self,
        room: &mut [u8; SIZE],
        at: usize,
        number: u64,
    ) -> usize {
        if number < self.least || number - self.least >= 10 {
            *self = FirstDigits::of(number);
        }
        self.add_with_last(room, at, (number - self.least) as u8)
    }

    /// Writes the first digits and a last digit from the index on, and returns the index after them.
    ///
    /// The function copies the complete array, because the compiled code can copy a fixed number of bytes without a call of another
    /// function. The last digit and the bytes that are written later overwrite the bytes after the first digits.
    #[inline(always)]
    fn add_with_last<const SIZE: usize>(&self, room: &mut [u8; SIZE], at: usize, last: u8) -> usize {
        let _end = add_bytes(room, at, &self.digits);
        add_byte(room, at + self.count, b'0' + last)
    }
}

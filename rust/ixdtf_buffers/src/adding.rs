// Made by tools/to_rust.py of crates/ixdtf_buffers/src/adding.rt. Do not edit.

//! Functions that append bytes and numbers to a short text in an array.
//!
//! The program `ixdtf_lines` writes an *answer* for each line that it reads, and the program `ixdtf_check` writes a *report* for
//! each line that it refuses. The parts of an answer or a report are written into one array, one after the other. Then one call of
//! [`Output::put`](crate::output::Output::put) appends the bytes of the array to the output. Long parts do not go through the
//! array: for example, a name of a file is put into the output with a call of its own.
//!
//! Each function takes the index at which it begins to write, and returns the index after the last byte that it wrote. So the
//! compiler can keep the index in a register.

/// The size in bytes of the array in which `ixdtf_lines` makes an answer. Three parts of an answer are not written into this array:
/// the calendar, the name of the time zone, and the canonical text. All other parts together fit into it.
pub const ROOM: usize = 192;

/// The number of digits of the greatest `u64`.
const MOST_DIGITS: usize = 20;

/// Writes the byte at the index, and returns the index after it.
#[inline(always)]
pub fn add_byte<const SIZE: usize>(room: &mut [u8; SIZE], at: usize, byte: u8) -> usize {
    room[at] = byte;
    at + 1
}

/// Writes the bytes from the index on, and returns the index after them.
#[inline(always)]
pub fn add_bytes<const SIZE: usize>(room: &mut [u8; SIZE], at: usize, bytes: &[u8]) -> usize {
    let end = at + bytes.len();
    let whole = &mut room[..];
    whole[at..end].copy_from_slice(bytes);
    end
}

/// Writes the bytes of an array from the index on, and returns the index after them.
///
/// Many parts of an answer are constant words, such as ` date=`. The compiler knows the bytes of such a word, and writes several of them
/// in one instruction. `add_bytes` would take six instructions more: with Rattle's compiler, its code first tests whether the two
/// slices overlap.
#[inline(always)]
pub fn add_array<const SIZE: usize, const COUNT: usize>(
    room: &mut [u8; SIZE],
    at: usize,
    bytes: &[u8; COUNT],
) -> usize {
    let end = at + COUNT;
    let whole = &mut room[..];
    let part = &mut whole[at..end];
    let mut count = 0;
    while count < COUNT {
        part[count] = bytes[count];
        count += 1;
    }
    end
}

/// Writes a number below 256 in decimal digits from the index on, and returns the index after it.
#[inline(always)]
pub fn add_small<const SIZE: usize>(room: &mut [u8; SIZE], at: usize, number: u8) -> usize {
    if number < 100 {
        add_below_100(room, at, number)
    } else {
        add_long(room, at, u64::from(number))
    }
}

/// Writes the number in decimal digits from the index on, and returns the index after it.
#[inline(always)]
pub fn add_number<const SIZE: usize>(room: &mut [u8; SIZE], at: usize, number: u64) -> usize {
    if number < 100 {
        add_below_100(room, at, number as u8)
    } else if number < 100_000_000 {
        add_below_100_000_000(room, at, number as u32)
    } else {
        add_long(room, at, number)
    }
}

/// Writes a number below 100,000,000 from the index on, and returns the index after it.
#[inline(never)]
fn add_below_100_000_000<const SIZE: usize>(room: &mut [u8; SIZE], at: usize, number: u32) -> usize {
    if number < 10_000 {
        return add_below_10_000(room, at, number);
    }
    let third = add_below_10_000(room, at, number / 10_000);
    let last = add_two_digits(room, third, (number / 100 % 100) as u8);
    add_two_digits(room, last, (number % 100) as u8)
}

/// Writes a number below 10,000 from the index on, and returns the index after it.
#[inline(always)]
fn add_below_10_000<const SIZE: usize>(room: &mut [u8; SIZE], at: usize, number: u32) -> usize {
    if number < 100 {
        return add_below_100(room, at, number as u8);
    }
    let last = add_below_100(room, at, (number / 100) as u8);
    add_two_digits(room, last, (number % 100) as u8)
}

/// Writes a number below 100 as two digits from the index on, and returns the index after them.
#[inline(always)]
fn add_two_digits<const SIZE: usize>(room: &mut [u8; SIZE], at: usize, number: u8) -> usize {
    room[at] = b'0' + number / 10;
    room[at + 1] = b'0' + number % 10;
    at + 2
}

/// Writes a signed number, such as a year, from the index on, and returns the index after it.
///
/// The function first tests whether the number is between 1000 and 9999, because nearly all years are.
#[inline(always)]
pub fn add_signed<const SIZE: usize>(room: &mut [u8; SIZE], at: usize, number: i32) -> usize {
    if number >= 1000 && number <= 9999 {
        add_four_digits(room, at, number as u16)
    } else {
        add_other_signed(room, at, number)
    }
}

/// Writes a number that is negative, or that does not have exactly four digits, and returns the index after it.
#[cold]
#[inline(never)]
fn add_other_signed<const SIZE: usize>(room: &mut [u8; SIZE], at: usize, number: i32) -> usize {
    if number < 0 {
        let digits = add_byte(room, at, b'-');
        add_long(room, digits, u64::from(number.unsigned_abs()))
    } else {
        add_long(room, at, u64::from(number.unsigned_abs()))
    }
}

/// Writes a number below 100 from the index on, and returns the index after it.
///
/// The function always writes the tens digit first, and then the ones digit. For a number below 10, both have the same index, so
/// the ones digit overwrites the tens digit. So the code does not branch on the number.
#[inline(always)]
fn add_below_100<const SIZE: usize>(room: &mut [u8; SIZE], at: usize, number: u8) -> usize {
    let last = last_place(at, number);
    room[at] = b'0' + number / 10;
    room[last] = b'0' + number % 10;
    last + 1
}

/// Returns the index of the last digit of a number below 100 that is written from `at` on.
#[inline(always)]
fn last_place(at: usize, number: u8) -> usize {
    if number < 10 { at } else { at + 1 }
}

/// Writes a number of four digits from the index on, and returns the index after it.
#[inline(always)]
fn add_four_digits<const SIZE: usize>(room: &mut [u8; SIZE], at: usize, number: u16) -> usize {
    let front = number / 100;
    let back = number % 100;
    room[at] = b'0' + (front / 10) as u8;
    room[at + 1] = b'0' + (front % 10) as u8;
    room[at + 2] = b'0' + (back / 10) as u8;
    room[at + 3] = b'0' + (back % 10) as u8;
    at + 4
}

/// Writes a number of any length from the index on, and returns the index after it.
#[cold]
#[inline(never)]
fn add_long<const SIZE: usize>(room: &mut [u8; SIZE], at: usize, number: u64) -> usize {
    let mut digits = [0; MOST_DIGITS];
    let start = put_decimal(number, &mut digits);
    add_bytes(room, at, &digits[start..])
}

/// Writes the digits of the number into the end of the array, and returns the index of the first digit.
fn put_decimal(number: u64, digits: &mut [u8; MOST_DIGITS]) -> usize {
    let mut left = number;
    let mut start = MOST_DIGITS - 1;
    while left >= 10 {
        digits[start] = b'0' + (left % 10) as u8;
        left /= 10;
        start -= 1;
    }
    digits[start] = b'0' + left as u8;
    start
}

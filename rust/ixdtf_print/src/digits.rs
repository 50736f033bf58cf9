// Made by tools/to_rust.py of crates/ixdtf_print/src/digits.rt. Do not edit.

//! Functions that write digits into a slice.

use crate::put::{put, put_byte, set_byte};
use ixdtf::records::Fraction;

// For each number of 0 to 255, the digit of its tens and the digit of its ones. The two digits are neighbours in memory, so
// the compiler loads and stores both at once. A table look-up takes fewer instructions than the divisions.
static WRITTEN_DIGITS: [[u8; 2]; 256] = [
    *b"00", *b"01", *b"02", *b"03", *b"04", *b"05", *b"06", *b"07", *b"08", *b"09",
    *b"10", *b"11", *b"12", *b"13", *b"14", *b"15", *b"16", *b"17", *b"18", *b"19",
    *b"20", *b"21", *b"22", *b"23", *b"24", *b"25", *b"26", *b"27", *b"28", *b"29",
    *b"30", *b"31", *b"32", *b"33", *b"34", *b"35", *b"36", *b"37", *b"38", *b"39",
    *b"40", *b"41", *b"42", *b"43", *b"44", *b"45", *b"46", *b"47", *b"48", *b"49",
    *b"50", *b"51", *b"52", *b"53", *b"54", *b"55", *b"56", *b"57", *b"58", *b"59",
    *b"60", *b"61", *b"62", *b"63", *b"64", *b"65", *b"66", *b"67", *b"68", *b"69",
    *b"70", *b"71", *b"72", *b"73", *b"74", *b"75", *b"76", *b"77", *b"78", *b"79",
    *b"80", *b"81", *b"82", *b"83", *b"84", *b"85", *b"86", *b"87", *b"88", *b"89",
    *b"90", *b"91", *b"92", *b"93", *b"94", *b"95", *b"96", *b"97", *b"98", *b"99",
    *b"00", *b"01", *b"02", *b"03", *b"04", *b"05", *b"06", *b"07", *b"08", *b"09",
    *b"10", *b"11", *b"12", *b"13", *b"14", *b"15", *b"16", *b"17", *b"18", *b"19",
    *b"20", *b"21", *b"22", *b"23", *b"24", *b"25", *b"26", *b"27", *b"28", *b"29",
    *b"30", *b"31", *b"32", *b"33", *b"34", *b"35", *b"36", *b"37", *b"38", *b"39",
    *b"40", *b"41", *b"42", *b"43", *b"44", *b"45", *b"46", *b"47", *b"48", *b"49",
    *b"50", *b"51", *b"52", *b"53", *b"54", *b"55", *b"56", *b"57", *b"58", *b"59",
    *b"60", *b"61", *b"62", *b"63", *b"64", *b"65", *b"66", *b"67", *b"68", *b"69",
    *b"70", *b"71", *b"72", *b"73", *b"74", *b"75", *b"76", *b"77", *b"78", *b"79",
    *b"80", *b"81", *b"82", *b"83", *b"84", *b"85", *b"86", *b"87", *b"88", *b"89",
    *b"90", *b"91", *b"92", *b"93", *b"94", *b"95", *b"96", *b"97", *b"98", *b"99",
    *b"00", *b"01", *b"02", *b"03", *b"04", *b"05", *b"06", *b"07", *b"08", *b"09",
    *b"10", *b"11", *b"12", *b"13", *b"14", *b"15", *b"16", *b"17", *b"18", *b"19",
    *b"20", *b"21", *b"22", *b"23", *b"24", *b"25", *b"26", *b"27", *b"28", *b"29",
    *b"30", *b"31", *b"32", *b"33", *b"34", *b"35", *b"36", *b"37", *b"38", *b"39",
    *b"40", *b"41", *b"42", *b"43", *b"44", *b"45", *b"46", *b"47", *b"48", *b"49",
    *b"50", *b"51", *b"52", *b"53", *b"54", *b"55",
];

/// Returns the ASCII digit of the tens of the number.
#[inline(always)]
pub fn tens_digit(number: u8) -> u8 {
    WRITTEN_DIGITS[number as usize][0]
}

/// Returns the ASCII digit of the ones of the number.
#[inline(always)]
pub fn ones_digit(number: u8) -> u8 {
    WRITTEN_DIGITS[number as usize][1]
}

/// Writes the last two digits of the number at index `at`. Returns the index after them.
pub fn put_two(out: &mut [u8], at: usize, number: u8) -> usize {
    put(out, at, &[tens_digit(number), ones_digit(number)])
}

/// Returns the whole part of `scaled / 2^32`, and `2^32` times the other part times 100.
///
/// If `scaled / 2^32` is a number whose first two digits are before the decimal point, the whole part is these two digits.
/// With the other number that is returned, the next call gives the next two digits. So a call takes one multiplication instead
/// of two divisions.
#[inline(always)]
pub fn next_pair(scaled: u64) -> (u8, u64) {
    ((scaled / 4_294_967_296) as u8, scaled % 4_294_967_296 * 100)
}

/// Writes a number below 10,000 with four digits at index `at`. Returns the index after them.
///
/// The number is multiplied by `2^32 / 100`, rounded up.
pub fn put_four(out: &mut [u8], at: usize, number: u64) -> usize {
    let (hundreds, rest) = next_pair(number * 42_949_673);
    let (ones, _) = next_pair(rest);
    put(
        out,
        at,
        &[
            tens_digit(hundreds),
            ones_digit(hundreds),
            tens_digit(ones),
            ones_digit(ones),
        ],
    )
}

/// Writes the last `count` digits of the number at index `at`, with leading zeros. Returns the index after them.
///
/// The loop writes two digits at a time, and begins with the last two. The function is not inlined. In one of its
/// calls, the number is the constant 0. If this call were inlined, the compiler would turn the loop into a call of
/// `memset`. But the proved library for C must not call functions that it does not contain.
#[inline(never)]
pub fn put_digits(out: &mut [u8], at: usize, count: usize, number: u64) -> usize {
    let end = at + count;
    let mut place = end;
    let mut left = number;
    while place - at >= 2 {
        let pair = (left % 100) as u8;
        place -= 2;
        left /= 100;
        set_byte(out, place + 1, ones_digit(pair));
        set_byte(out, place, tens_digit(pair));
    }
    if place == at {
        return end;
    }
    set_byte(out, at, b'0' + (left % 10) as u8);
    end
}

/// Writes the fraction at index `at`, if there is one. Returns the index after it.
pub fn put_fraction(out: &mut [u8], at: usize, fraction: Option<Fraction>) -> usize {
    let Some(fraction) = fraction else {
        return at;
    };
    let count = usize::from(fraction.digit_count());
    let value = put_byte(out, at, b'.');
    let zeros = put_digits(out, value, count.min(18), fraction.leading_value());
    // Most fractions have at most 18 digits, so no zeros follow the value.
    if count <= 18 {
        return zeros;
    }
    put_digits(out, zeros, count - 18, 0)
}

// Made by tools/to_rust.py of crates/ixdtf_reading/src/cursor.rt. Do not edit.

//! A cursor: the remaining code units of a source.
//!
//! A cursor has no index. It keeps the remaining code units as one slice, so it cannot point past the end. If a function fails
//! after it has read a part of a text, the cursor that it works on is at the position of the error.
//!
//! A parser, such as `IxdtfParser`, keeps a cursor in a field. A reader of the parser works on a second cursor, which begins
//! at the same position. If the reader fails, the cursor of the parser is unchanged.

use crate::classes::two_digit_number;
use crate::codes::{Next, code_of};
use crate::stop::{FromStop, StopAt};
use crate::Reason;
use crate::encoding::EncodingType;
use core::fmt;

/// The remaining code units of a source, and the count of accesses to code units.
pub struct Cursor<'a, T: EncodingType> {
    rest: &'a [T::CodeUnit],
}

// `Debug` writes the remaining input in quotation marks. A `"` and a `\` have a `\` before them. Any other code unit
// that is not a printable ASCII character is written by its number, as `\x0a` or `\u{2212}`.
impl<'a, T: EncodingType> fmt::Debug for Cursor<'a, T> {
    fn fmt(&self, f: &mut fmt::Formatter<'_>) -> fmt::Result {
        f.write_str("\"")?;
        for unit in self.rest.iter() {
            write_unit(f, (*unit).into())?;
        }
        f.write_str("\"")
    }
}

/// Writes a code unit. A `"` and a `\` have a `\` before them. Any other printable ASCII character is written as it is,
/// and any other code unit by its number.
fn write_unit(f: &mut fmt::Formatter<'_>, number: u32) -> fmt::Result {
    match u8::try_from(number) {
        Err(_) => write!(f, "\\u{{{:x}}}", number),
        Ok(b'"') => f.write_str("\\\""),
        Ok(b'\\') => f.write_str("\\\\"),
        Ok(byte) if byte.is_ascii_graphic() || byte == b' ' => write!(f, "{}", char::from(byte)),
        Ok(byte) => write!(f, "\\x{:02x}", byte),
    }
}

impl<'a, T: EncodingType> Cursor<'a, T> {
    /// Creates a cursor at the beginning of a source.
    pub fn new(source: &'a [T::CodeUnit]) -> Self {
        Cursor {
            rest: source,
        }
    }

    /// Returns the remaining code units. They are borrowed from the source, so they can outlive the cursor.
    #[inline(always)]
    pub fn rest(&self) -> &'a [T::CodeUnit] {
        self.rest
    }

    /// Returns the number of remaining code units.
    #[inline(always)]
    pub fn remaining(&self) -> usize {
        self.rest.len()
    }

    /// Returns a second cursor at the same position. `self` keeps its remaining input.
    ///
    /// There are three uses of the second cursor:
    ///
    /// - A function that must consume nothing on failure works on the second cursor. It stores the second cursor in `self` only
    ///   if it succeeds.
    /// - Some functions with a loop, such as `pass_letters`, work on the second cursor, because the compiler can keep this local
    ///   variable in registers. After the loop, such a function always stores the second cursor in `self`.
    /// - Some functions call a function that the compiler does not inline, and pass the second cursor to it. The compiler can then
    ///   keep the first cursor in registers. After the call, such a function always stores the second cursor in `self`.
    #[inline(always)]
    pub fn fork(&mut self) -> Self {
        Cursor {
            rest: self.rest,
        }
    }

    /// Returns a second cursor whose remaining input is `rest`. `self` keeps its own remaining input.
    #[inline(always)]
    pub fn fork_at(&mut self, rest: &'a [T::CodeUnit]) -> Self {
        Cursor {
            rest,
        }
    }

    /// Does the last step of a function that worked on a second cursor. `here` is the second cursor.
    ///
    /// If `read` is `Ok`, `self` moves to the position of `here`. If `read` is a `Reason`, `self` keeps its remaining input,
    /// and `settle` returns the error of the `Reason`. The position of this error is the number of code units from `self`
    /// to `here`. `brackets` says whether the reader reads brackets.
    #[inline(always)]
    pub fn settle<R, E: FromStop>(
        &mut self,
        here: Self,
        brackets: bool,
        read: Result<R, Reason>,
    ) -> Result<R, E> {
        match read {
            Ok(found) => {
                *self = here;
                Ok(found)
            }
            Err(stop) => {
                let at = self.remaining().saturating_sub(here.remaining());
                let mut here = here;
                let error = error_at(&mut here, brackets, stop, at);
                Err(error)
            }
        }
    }

    /// Returns what is next: the end of the text, a bad code unit, or another code unit. It consumes nothing.
    ///
    /// One `Reason` can have several errors. The result of `next` decides between them.
    #[inline(always)]
    pub fn next(&mut self) -> Next {
        match self.look_at(0, Reason::YearStart) {
            Ok(None) => Next::End,
            Ok(Some(byte)) => Next::Byte(byte),
            Err(_) => Next::Bad,
        }
    }

    /// Returns the code unit at an index of the remaining input, as a byte.
    ///
    /// Returns `None` if the input is too short, and `stop` for a bad code unit. In the library, only this function calls
    /// `EncodingType::get_ascii`, the method that reads one code unit of a source.
    #[inline(always)]
    pub fn look_at(&mut self, index: usize, stop: Reason) -> Result<Option<u8>, Reason> {
        match T::get_ascii(self.rest, index) {
            Ok(found) => Ok(found),
            Err(_) => Err(stop),
        }
    }

    /// Returns the first code unit of the remaining input, as a byte, without consuming it.
    ///
    /// Returns `None` at the end of the input, and `stop` for a bad code unit.
    #[inline(always)]
    pub fn look(&mut self, stop: Reason) -> Result<Option<u8>, Reason> {
        self.look_at(0, stop)
    }

    /// Returns the remaining code units after the first one. Returns an empty slice if the remaining input is empty.
    #[inline(always)]
    pub fn rest_behind(&self) -> &'a [T::CodeUnit] {
        if let [_, rest @ ..] = self.rest {
            return rest;
        }
        self.rest
    }

    /// Consumes the first code unit, if there is one.
    #[inline(always)]
    pub fn advance(&mut self) {
        if let [_, rest @ ..] = self.rest {
            self.rest = rest;
        }
    }

    /// Consumes the first two code units. Returns `true`.
    ///
    /// The caller has looked at the second code unit, so there are two, as the proof shows. The compiler does not know the proof: it
    /// compiles a test. If the test fails, the function returns `false`, and the caller returns an error. So there is no code for a
    /// panic.
    #[inline(always)]
    pub fn advance_two(&mut self) -> bool {
        if let [_, _, rest @ ..] = self.rest {
            self.rest = rest;
            return true;
        }
        false
    }

    /// Consumes one digit, and returns it as an ASCII byte. If there is no digit, returns `stop` and consumes nothing.
    #[inline(always)]
    pub fn next_digit(&mut self, stop: Reason) -> Result<u8, Reason> {
        let byte = self.byte_at(0);
        if byte.is_ascii_digit() {
            self.advance();
            return Ok(byte);
        }
        Err(stop)
    }

    /// Consumes two digits, and returns the number that they form, 0 to 99.
    ///
    /// One test of the length finds whether two code units remain. One comparison finds whether both are digits. Returns
    /// `first` if the first digit is missing, and `second` if the second one is missing. The cursor is then at the missing
    /// digit.
    #[inline(always)]
    pub fn two_digits(&mut self, first: Reason, second: Reason) -> Result<u8, Reason> {
        if self.rest.len() < 2 {
            if !self.byte_at(0).is_ascii_digit() {
                return Err(first);
            }
            self.advance();
            return Err(second);
        }
        let tens = self.byte_at(0);
        let ones = self.byte_at(1);
        let number = two_digit_number(tens, ones);
        if number <= 99 {
            self.advance_by(2);
            return Ok(number);
        }
        if !tens.is_ascii_digit() {
            return Err(first);
        }
        self.advance();
        Err(second)
    }

    /// Consumes `count` code units.
    #[inline(always)]
    pub fn advance_by(&mut self, count: usize) {
        self.rest = &self.rest[count..];
    }

    /// Returns the code unit at `index` of the remaining input as a byte.
    ///
    /// Returns 0 if the input is too short, or if the code unit is bad. Callers need not test for this, because no class of
    /// characters contains 0.
    #[inline(always)]
    pub fn byte_at(&mut self, index: usize) -> u8 {
        match self.look_at(index, Reason::YearStart) {
            Ok(Some(byte)) => byte,
            _ => 0,
        }
    }

    /// Returns `letter` if it is the code unit at `index` of the remaining input, and otherwise `None`.
    #[inline(always)]
    pub fn fixed_letter(&mut self, index: usize, letter: u8) -> Option<u8> {
        match self.look_at(index, Reason::YearStart) {
            Ok(Some(byte)) if byte == letter => Some(byte),
            _ => None,
        }
    }

    /// Returns the number, 0 to 99, that two digits form. The tens digit is at `index` of the remaining input, and the ones digit is
    /// at the next index.
    ///
    /// Returns `None` if there is no digit at one of these two indexes. The function reads the code unit at the second index even if
    /// there is no digit at the first index.
    #[inline(always)]
    pub fn fixed_number(&mut self, index: usize) -> Option<u8> {
        let tens = self.byte_at(index);
        let ones = self.byte_at(index + 1);
        let number = two_digit_number(tens, ones);
        if number > 99 {
            return None;
        }
        Some(number)
    }

    /// Returns the number that the digit at `index` and the digit at the next index form. Returns `None` if one of these two code
    /// units is not a digit, or if the number is greater than `most`.
    #[inline(always)]
    pub fn fixed_number_up_to(&mut self, index: usize, most: u8) -> Option<u8> {
        let number = self.fixed_number(index)?;
        if number > most {
            return None;
        }
        Some(number)
    }

    /// Tests whether two slices have equal code units.
    ///
    /// In this crate and in the layers above it, only this function compares code units of texts with each other.
    #[inline(always)]
    pub fn has_same_units(&mut self, left: &[T::CodeUnit], right: &[T::CodeUnit]) -> bool {
        are_equal::<T>(left, right)
    }

    /// Returns whether a key is `u-ca`, the key of calendars.
    #[inline(always)]
    pub fn is_calendar_key(&mut self, key: &[T::CodeUnit]) -> bool {
        T::check_calendar_key(key)
    }

    /// Expects the end of the input. Returns `stop` at any code unit.
    #[inline(always)]
    pub fn close(&mut self, stop: Reason) -> Result<(), Reason> {
        match self.look(stop)? {
            None => Ok(()),
            Some(_) => Err(stop),
        }
    }
}

/// Tests whether two slices have equal code units. Only `has_same_units` calls this.
fn are_equal<T: EncodingType>(left: &[T::CodeUnit], right: &[T::CodeUnit]) -> bool {
    left == right
}

/// Makes the error of the reason `stop`. The cursor `here` is where the error is. A `LocatedError` has the position `at`. A
/// `ParseError` has no position, so `at` is not used. `brackets` says whether the reader reads brackets.
#[inline(always)]
pub fn error_at<'a, T: EncodingType, E: FromStop>(
    here: &mut Cursor<'a, T>,
    brackets: bool,
    stop: Reason,
    at: usize,
) -> E {
    let next = here.next();
    let code = code_of(stop, brackets, next);
    E::of_stop(StopAt {
        reason: stop,
        code,
        at,
    })
}

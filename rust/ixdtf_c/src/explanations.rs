// Made by tools/to_rust.py of crates/ixdtf_c/src/explanations.rt. Do not edit.

//! The explanation of an error: its reason, and the part of the text that is wrong.

use crate::error_numbers::number_and_location;
use crate::reader_errors::refusal;
use crate::reader_numbers::reader_by_number;
use crate::reason_numbers::number_of;
use ixdtf::encoding::{Utf8, Utf16};
use ixdtf::{LocatedError, Numbered, part_of};

/// Why a reader refuses a text, and where.
#[derive(Clone, Copy)]
#[repr(C)]
pub struct Explanation {
    /// The position of the error: the number of code units before it.
    pub place: usize,
    /// The index of the first code unit of the part of the text that is wrong.
    pub begin: usize,
    /// The index after the last code unit of this part.
    pub end: usize,
    /// The number of the error, or 0 if the text is accepted.
    pub error: u32,
    /// The number of the reason, or 0 if the text is accepted.
    pub reason: u32,
}

/// Explains an error.
fn explanation_of<T: Numbered>(error: &LocatedError, text: &[T::CodeUnit]) -> Explanation {
    let (number, _) = number_and_location(error.error);
    let part = part_of::<T>(error.reason, error.at, text);
    Explanation {
        place: error.at,
        begin: part.begin,
        end: part.end,
        error: number,
        reason: number_of(error.reason),
    }
}

/// Reads a text with the reader that has the number. Writes why this reader refuses the text. If it accepts the text, writes 0 to
/// each field. Returns what the reader returns, or 105 if no reader has the number. Then nothing is written.
#[inline(always)]
fn explain_into<T: Numbered>(number: u32, text: &[T::CodeUnit], out: &mut Explanation) -> u32 {
    let Some(reader) = reader_by_number(number) else {
        return 105;
    };
    match refusal::<T>(reader, text) {
        None => {
            *out = Explanation {
                place: 0,
                begin: 0,
                end: 0,
                error: 0,
                reason: 0,
            };
            0
        }
        Some(error) => {
            *out = explanation_of::<T>(&error, text);
            out.error
        }
    }
}

/// Writes why the reader with the number `reader` refuses a text. If it accepts the text, writes 0 to each field.
///
/// Returns what the reader returns: 0, or the number of the error. Returns 105 if no reader has the number. Then nothing is written.
#[unsafe(no_mangle)]
pub unsafe extern "C" fn ixdtf_explain(reader: u32, text: *const u8, text_length: usize, out: &mut Explanation) -> u32 {
    // SAFETY: the header requires this of the caller.
    let text = unsafe { crate::slices::slice(text, text_length) };
    explain_into::<Utf8>(reader, text, out)
}

/// Writes why the reader with the number `reader` refuses a text. If it accepts the text, writes 0 to each field.
///
/// Returns what the reader returns: 0, or the number of the error. Returns 105 if no reader has the number. Then nothing is written.
#[unsafe(no_mangle)]
pub unsafe extern "C" fn ixdtf16_explain(reader: u32, text: *const u16, text_length: usize, out: &mut Explanation) -> u32 {
    // SAFETY: the header requires this of the caller.
    let text = unsafe { crate::slices::slice(text, text_length) };
    explain_into::<Utf16>(reader, text, out)
}

// Made by tools/to_rust.py of crates/ixdtf_c/src/error_numbers.rt. Do not edit.

//! The numbers and the texts of errors for C.

use crate::slices::{Slice, to_c};
use ixdtf::ParseError;

/// Returns the number of an error, and the location of `AbruptEnd`. For every other error, the location is empty.
///
/// The numbers begin at 1 and follow the order in which `ParseError` declares the errors.
#[inline(always)]
pub fn number_and_location(error: ParseError) -> (u32, &'static [u8]) {
    match error {
        ParseError::ImplAssert => (1, &[]),
        ParseError::NonAsciiCodePoint => (2, &[]),
        ParseError::ParseFloat => (3, &[]),
        ParseError::AbruptEnd { location } => (4, location.as_bytes()),
        ParseError::InvalidEnd => (5, &[]),
        ParseError::InvalidMonthRange => (6, &[]),
        ParseError::InvalidDayRange => (7, &[]),
        ParseError::DateYear => (8, &[]),
        ParseError::DateExtendedYear => (9, &[]),
        ParseError::DateMonth => (10, &[]),
        ParseError::DateDay => (11, &[]),
        ParseError::DateUnexpectedEnd => (12, &[]),
        ParseError::TimeRequired => (13, &[]),
        ParseError::TimeHour => (14, &[]),
        ParseError::TimeMinuteSecond => (15, &[]),
        ParseError::TimeSecond => (16, &[]),
        ParseError::FractionPart => (17, &[]),
        ParseError::DateSeparator => (18, &[]),
        ParseError::TimeSeparator => (19, &[]),
        ParseError::DecimalSeparator => (20, &[]),
        ParseError::InvalidAnnotation => (21, &[]),
        ParseError::AnnotationOpen => (22, &[]),
        ParseError::AnnotationClose => (23, &[]),
        ParseError::AnnotationChar => (24, &[]),
        ParseError::AnnotationKeyValueSeparator => (25, &[]),
        ParseError::AnnotationKeyLeadingChar => (26, &[]),
        ParseError::AnnotationKeyChar => (27, &[]),
        ParseError::AnnotationValueCharPostHyphen => (28, &[]),
        ParseError::AnnotationValueChar => (29, &[]),
        ParseError::InvalidMinutePrecisionOffset => (30, &[]),
        ParseError::CriticalDuplicateCalendar => (31, &[]),
        ParseError::UnrecognizedCritical => (32, &[]),
        ParseError::TzLeadingChar => (33, &[]),
        ParseError::IanaCharPostSeparator => (34, &[]),
        ParseError::IanaChar => (35, &[]),
        ParseError::UtcTimeSeparator => (36, &[]),
        ParseError::OffsetNeedsSign => (37, &[]),
        ParseError::MonthDayHyphen => (38, &[]),
        ParseError::DurationDisgnator => (39, &[]),
        ParseError::DurationValueExceededRange => (40, &[]),
        ParseError::DateDurationPartOrder => (41, &[]),
        ParseError::TimeDurationPartOrder => (42, &[]),
        ParseError::TimeDurationDesignator => (43, &[]),
        ParseError::AmbiguousTimeMonthDay => (44, &[]),
        ParseError::AmbiguousTimeYearMonth => (45, &[]),
        ParseError::InvalidMonthDay => (46, &[]),
        _ => unreachable!(),
    }
}

/// A text that is passed to C.
#[derive(Clone, Copy)]
#[repr(C)]
pub struct Text<'a> {
    /// The bytes of the text.
    pub bytes: Slice<'a, u8>,
}

/// The errors with the numbers 1 to 46, in order. The location of `AbruptEnd` is empty.
static ERRORS: [ParseError; 46] = [
    ParseError::ImplAssert,
    ParseError::NonAsciiCodePoint,
    ParseError::ParseFloat,
    ParseError::AbruptEnd { location: "" },
    ParseError::InvalidEnd,
    ParseError::InvalidMonthRange,
    ParseError::InvalidDayRange,
    ParseError::DateYear,
    ParseError::DateExtendedYear,
    ParseError::DateMonth,
    ParseError::DateDay,
    ParseError::DateUnexpectedEnd,
    ParseError::TimeRequired,
    ParseError::TimeHour,
    ParseError::TimeMinuteSecond,
    ParseError::TimeSecond,
    ParseError::FractionPart,
    ParseError::DateSeparator,
    ParseError::TimeSeparator,
    ParseError::DecimalSeparator,
    ParseError::InvalidAnnotation,
    ParseError::AnnotationOpen,
    ParseError::AnnotationClose,
    ParseError::AnnotationChar,
    ParseError::AnnotationKeyValueSeparator,
    ParseError::AnnotationKeyLeadingChar,
    ParseError::AnnotationKeyChar,
    ParseError::AnnotationValueCharPostHyphen,
    ParseError::AnnotationValueChar,
    ParseError::InvalidMinutePrecisionOffset,
    ParseError::CriticalDuplicateCalendar,
    ParseError::UnrecognizedCritical,
    ParseError::TzLeadingChar,
    ParseError::IanaCharPostSeparator,
    ParseError::IanaChar,
    ParseError::UtcTimeSeparator,
    ParseError::OffsetNeedsSign,
    ParseError::MonthDayHyphen,
    ParseError::DurationDisgnator,
    ParseError::DurationValueExceededRange,
    ParseError::DateDurationPartOrder,
    ParseError::TimeDurationPartOrder,
    ParseError::TimeDurationDesignator,
    ParseError::AmbiguousTimeMonthDay,
    ParseError::AmbiguousTimeYearMonth,
    ParseError::InvalidMonthDay,
];

/// Returns the error with a number from 1 to 46. The location of `AbruptEnd` is empty.
fn error_by_number(number: u32) -> ParseError {
    ERRORS[number as usize - 1]
}

/// Writes the text of an error, such as `Invalid character while parsing month value.` for the number 10.
///
/// The errors have the numbers 1 to 46. For every other number, the text is empty.
#[unsafe(no_mangle)]
pub extern "C" fn ixdtf_error_text(number: u32, out: &mut Text<'_>) {
    if number < 1 || number > 46 {
        out.bytes = to_c(&[]);
    } else {
        out.bytes = to_c(error_by_number(number).to_static_string().as_bytes());
    }
}

// Made by tools/to_rust.py of crates/ixdtf_c/src/error_constants.rt. Do not edit.

//! The function for C that returns the name of a constant: the C header has a constant, such as `IXDTF_OK`, for each number
//! that a reader returns.

use crate::error_numbers::Text;
use crate::slices::to_c;

/// The names of the numbers 0 to 46. A NUL follows each name.
static NAMES: [&[u8]; 47] = [
    b"IXDTF_OK\0",
    b"IXDTF_IMPL_ASSERT\0",
    b"IXDTF_NON_ASCII_CODE_POINT\0",
    b"IXDTF_PARSE_FLOAT\0",
    b"IXDTF_ABRUPT_END\0",
    b"IXDTF_INVALID_END\0",
    b"IXDTF_INVALID_MONTH_RANGE\0",
    b"IXDTF_INVALID_DAY_RANGE\0",
    b"IXDTF_DATE_YEAR\0",
    b"IXDTF_DATE_EXTENDED_YEAR\0",
    b"IXDTF_DATE_MONTH\0",
    b"IXDTF_DATE_DAY\0",
    b"IXDTF_DATE_UNEXPECTED_END\0",
    b"IXDTF_TIME_REQUIRED\0",
    b"IXDTF_TIME_HOUR\0",
    b"IXDTF_TIME_MINUTE_SECOND\0",
    b"IXDTF_TIME_SECOND\0",
    b"IXDTF_FRACTION_PART\0",
    b"IXDTF_DATE_SEPARATOR\0",
    b"IXDTF_TIME_SEPARATOR\0",
    b"IXDTF_DECIMAL_SEPARATOR\0",
    b"IXDTF_INVALID_ANNOTATION\0",
    b"IXDTF_ANNOTATION_OPEN\0",
    b"IXDTF_ANNOTATION_CLOSE\0",
    b"IXDTF_ANNOTATION_CHAR\0",
    b"IXDTF_ANNOTATION_KEY_VALUE_SEPARATOR\0",
    b"IXDTF_ANNOTATION_KEY_LEADING_CHAR\0",
    b"IXDTF_ANNOTATION_KEY_CHAR\0",
    b"IXDTF_ANNOTATION_VALUE_CHAR_POST_HYPHEN\0",
    b"IXDTF_ANNOTATION_VALUE_CHAR\0",
    b"IXDTF_INVALID_MINUTE_PRECISION_OFFSET\0",
    b"IXDTF_CRITICAL_DUPLICATE_CALENDAR\0",
    b"IXDTF_UNRECOGNIZED_CRITICAL\0",
    b"IXDTF_TZ_LEADING_CHAR\0",
    b"IXDTF_IANA_CHAR_POST_SEPARATOR\0",
    b"IXDTF_IANA_CHAR\0",
    b"IXDTF_UTC_TIME_SEPARATOR\0",
    b"IXDTF_OFFSET_NEEDS_SIGN\0",
    b"IXDTF_MONTH_DAY_HYPHEN\0",
    b"IXDTF_DURATION_DISGNATOR\0",
    b"IXDTF_DURATION_VALUE_EXCEEDED_RANGE\0",
    b"IXDTF_DATE_DURATION_PART_ORDER\0",
    b"IXDTF_TIME_DURATION_PART_ORDER\0",
    b"IXDTF_TIME_DURATION_DESIGNATOR\0",
    b"IXDTF_AMBIGUOUS_TIME_MONTH_DAY\0",
    b"IXDTF_AMBIGUOUS_TIME_YEAR_MONTH\0",
    b"IXDTF_INVALID_MONTH_DAY\0",
];

/// Returns the name of a number, with a NUL after it. For a number without a name, returns only the NUL.
fn name_and_zero(number: u32) -> &'static [u8] {
    if number <= 46 {
        return NAMES[number as usize];
    }
    if number == 101 {
        return b"IXDTF_NOT_PRINTABLE\0";
    }
    if number == 102 {
        return b"IXDTF_TOO_SHORT\0";
    }
    if number == 103 {
        return b"IXDTF_NO_INSTANT\0";
    }
    if number == 104 {
        return b"IXDTF_NOT_EXACT\0";
    }
    if number == 105 {
        return b"IXDTF_NO_READER\0";
    }
    b"\0"
}

/// Writes the name that a number has in the C header, such as `IXDTF_DATE_MONTH` for 10.
///
/// For a number without a name, the name is empty. A NUL follows the name in memory. The length of the slice does not count it.
#[unsafe(no_mangle)]
pub extern "C" fn ixdtf_error_constant(number: u32, out: &mut Text<'_>) {
    let name = name_and_zero(number);
    out.bytes = to_c(&name[..name.len() - 1]);
}

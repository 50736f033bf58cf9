// Made by tools/to_rust.py of crates/ixdtf_reading/src/codes.rt. Do not edit.

//! The codes of the errors of each `Reason`.
//!
//! Each reason belongs to a line of the fault table (docs/FAULTS.md), except `UnrecognizedCritical` and `CriticalDuplicateCalendar`.
//! Each line is about one kind of *prefix*. A prefix is the part of a text just before the position of the error. Other code
//! units can come before the prefix, so it does not always begin where the text begins. The error depends on the reason, on
//! what follows the prefix, and on whether the reader reads brackets.

use crate::error_code::Code;
use crate::error_code::Code::*;
use crate::Reason;

/// What the text has at the position of an error. The prefix ends at this position.
#[derive(Clone, Copy)]
pub enum Next {
    /// The end of the text.
    End,
    /// A bad code unit.
    Bad,
    /// Another code unit, as a byte.
    Byte(u8),
}

/// The codes of a table line: at the end of the text, at a bad code unit, and at another code unit. The last field says whether
/// some of the other code units have another code.
type Codes = (Code, Code, Code, bool);

/// Returns the code of the error of a reason. `next` is what the text has at the position of the error. `brackets` says
/// whether the reader reads brackets.
#[inline(always)]
pub fn code_of(reason: Reason, brackets: bool, next: Next) -> Code {
    let codes = codes_of(reason, brackets);
    match next {
        Next::End => codes.0,
        Next::Bad => codes.1,
        Next::Byte(byte) => {
            if codes.3 {
                return code_at(reason, brackets, byte, codes.2);
            }
            codes.2
        }
    }
}

/// Returns the codes of the line of a reason.
///
/// The result is a reference. If the codes were copied, `rustc` would no longer know how many codes there are, and `Code::error`
/// would test the index into its table.
#[inline(always)]
fn codes_of(reason: Reason, brackets: bool) -> &'static Codes {
    if brackets {
        return &CODES[reason as usize];
    }
    &LONE_CODES[reason as usize]
}

/// Returns the code of the error at this byte. Most other code units have the code `usual`. The result is another code if the line of
/// the reason has another error at this byte.
///
/// If the function returned an `Option`, `code_of` would need `usual` after the call. Then the compiled code of each reader would
/// save a register, also for a text without an error.
#[cold]
#[inline(never)]
fn code_at(reason: Reason, brackets: bool, byte: u8, usual: Code) -> Code {
    let mixes = byte == b':' || byte.is_ascii_digit();
    match reason {
        Reason::AfterBasicMonth if byte == b'-' => Code::DateSeparator,
        Reason::AfterBasicMinute | Reason::AfterColonMinute if mixes => Code::TimeSeparator,
        Reason::OffsetAfterBasicMinute | Reason::OffsetAfterColonMinute if mixes => {
            Code::UtcTimeSeparator
        }
        Reason::ZoneOffsetAfterBasicMinute | Reason::ZoneOffsetAfterColonMinute if mixes => {
            Code::InvalidMinutePrecisionOffset
        }
        Reason::AfterSecondField if byte == b'.' || byte == b',' => Code::FractionPart,
        Reason::InZoneName if !brackets && byte == b']' => Code::InvalidEnd,
        _ => usual,
    }
}

// The codes of each reason, in the order of the variants, in a reader that reads brackets.
const CODES: &[Codes; 126] = &[
    (AbruptDigit, NonAsciiCodePoint, DateYear, false),
    (AbruptDigit, NonAsciiCodePoint, DateYear, false),
    (AbruptDigit, NonAsciiCodePoint, DateExtendedYear, false),
    (DateExtendedYear, DateExtendedYear, DateExtendedYear, false),
    (AbruptDate, NonAsciiCodePoint, DateMonth, false),
    (AbruptDigit, NonAsciiCodePoint, DateMonth, false),
    (
        InvalidMonthRange,
        InvalidMonthRange,
        InvalidMonthRange,
        false,
    ),
    (DateSeparator, NonAsciiCodePoint, DateSeparator, false),
    (AbruptDigit, NonAsciiCodePoint, DateDay, true),
    (AbruptDigit, NonAsciiCodePoint, DateDay, false),
    (InvalidDayRange, InvalidDayRange, InvalidDayRange, false),
    (InvalidEnd, NonAsciiCodePoint, InvalidEnd, false),
    (AbruptDigit, NonAsciiCodePoint, DateMonth, false),
    (InvalidEnd, NonAsciiCodePoint, InvalidEnd, false),
    (AbruptMonthDay, NonAsciiCodePoint, DateMonth, false),
    (AbruptMonthDay, NonAsciiCodePoint, MonthDayHyphen, false),
    (AbruptDigit, NonAsciiCodePoint, DateMonth, false),
    (
        InvalidMonthRange,
        InvalidMonthRange,
        InvalidMonthRange,
        false,
    ),
    (AbruptDigit, NonAsciiCodePoint, DateDay, false),
    (AbruptDigit, NonAsciiCodePoint, DateDay, false),
    (InvalidMonthDay, InvalidMonthDay, InvalidMonthDay, false),
    (InvalidEnd, NonAsciiCodePoint, InvalidEnd, false),
    (AbruptDigit, NonAsciiCodePoint, TimeHour, false),
    (
        AmbiguousTimeMonthDay,
        AmbiguousTimeMonthDay,
        AmbiguousTimeMonthDay,
        false,
    ),
    (
        AmbiguousTimeYearMonth,
        AmbiguousTimeYearMonth,
        AmbiguousTimeYearMonth,
        false,
    ),
    (AbruptDigit, NonAsciiCodePoint, TimeHour, false),
    (AbruptDigit, NonAsciiCodePoint, TimeHour, false),
    (TimeHour, TimeHour, TimeHour, false),
    (InvalidEnd, NonAsciiCodePoint, InvalidEnd, false),
    (AbruptDigit, NonAsciiCodePoint, TimeMinuteSecond, false),
    (TimeMinuteSecond, TimeMinuteSecond, TimeMinuteSecond, false),
    (InvalidEnd, NonAsciiCodePoint, InvalidEnd, true),
    (InvalidEnd, NonAsciiCodePoint, InvalidEnd, true),
    (AbruptDigit, NonAsciiCodePoint, TimeSecond, false),
    (TimeSecond, TimeSecond, TimeSecond, false),
    (InvalidEnd, NonAsciiCodePoint, InvalidEnd, false),
    (FractionPart, NonAsciiCodePoint, FractionPart, false),
    (InvalidEnd, NonAsciiCodePoint, InvalidEnd, false),
    (AbruptDigit, NonAsciiCodePoint, TimeHour, false),
    (AbruptDigit, NonAsciiCodePoint, TimeHour, false),
    (TimeHour, TimeHour, TimeHour, false),
    (InvalidEnd, NonAsciiCodePoint, InvalidEnd, false),
    (AbruptDigit, NonAsciiCodePoint, TimeMinuteSecond, false),
    (TimeMinuteSecond, TimeMinuteSecond, TimeMinuteSecond, false),
    (InvalidEnd, NonAsciiCodePoint, InvalidEnd, true),
    (InvalidEnd, NonAsciiCodePoint, InvalidEnd, true),
    (AbruptDigit, NonAsciiCodePoint, TimeMinuteSecond, false),
    (TimeMinuteSecond, TimeMinuteSecond, TimeMinuteSecond, false),
    (InvalidEnd, NonAsciiCodePoint, InvalidEnd, false),
    (FractionPart, NonAsciiCodePoint, FractionPart, false),
    (InvalidEnd, NonAsciiCodePoint, InvalidEnd, false),
    (AbruptDigit, NonAsciiCodePoint, TimeHour, false),
    (AbruptDigit, NonAsciiCodePoint, TimeHour, false),
    (TimeHour, TimeHour, TimeHour, false),
    (AnnotationClose, NonAsciiCodePoint, AnnotationClose, false),
    (AbruptDigit, NonAsciiCodePoint, TimeMinuteSecond, false),
    (TimeMinuteSecond, TimeMinuteSecond, TimeMinuteSecond, false),
    (AnnotationClose, NonAsciiCodePoint, AnnotationClose, true),
    (AnnotationClose, NonAsciiCodePoint, AnnotationClose, true),
    (AbruptDigit, NonAsciiCodePoint, TimeMinuteSecond, false),
    (TimeMinuteSecond, TimeMinuteSecond, TimeMinuteSecond, false),
    (AnnotationClose, NonAsciiCodePoint, AnnotationClose, false),
    (FractionPart, NonAsciiCodePoint, FractionPart, false),
    (AnnotationClose, NonAsciiCodePoint, AnnotationClose, false),
    (AbruptOffset, NonAsciiCodePoint, OffsetNeedsSign, false),
    (InvalidEnd, NonAsciiCodePoint, InvalidEnd, false),
    (AbruptDigit, NonAsciiCodePoint, DateYear, false),
    (AbruptDate, NonAsciiCodePoint, DateSeparator, false),
    (AbruptDigit, NonAsciiCodePoint, DateMonth, false),
    (AbruptDigit, NonAsciiCodePoint, DateDay, false),
    (AbruptDigit, NonAsciiCodePoint, TimeHour, false),
    (AbruptDigit, NonAsciiCodePoint, TimeMinuteSecond, false),
    (AbruptDigit, NonAsciiCodePoint, TimeSecond, false),
    (AbruptDigit, NonAsciiCodePoint, TimeHour, false),
    (AbruptDigit, NonAsciiCodePoint, TimeMinuteSecond, false),
    (
        InvalidMonthRange,
        InvalidMonthRange,
        InvalidMonthRange,
        false,
    ),
    (InvalidDayRange, InvalidDayRange, InvalidDayRange, false),
    (TimeHour, TimeHour, TimeHour, false),
    (TimeMinuteSecond, TimeMinuteSecond, TimeMinuteSecond, false),
    (TimeSecond, TimeSecond, TimeSecond, false),
    (TimeHour, TimeHour, TimeHour, false),
    (TimeMinuteSecond, TimeMinuteSecond, TimeMinuteSecond, false),
    (DateSeparator, NonAsciiCodePoint, DateSeparator, false),
    (TimeSeparator, NonAsciiCodePoint, TimeSeparator, false),
    (TimeSeparator, NonAsciiCodePoint, TimeSeparator, false),
    (TimeSeparator, NonAsciiCodePoint, TimeSeparator, false),
    (AbruptOffset, NonAsciiCodePoint, OffsetNeedsSign, true),
    (UtcTimeSeparator, NonAsciiCodePoint, UtcTimeSeparator, false),
    (InvalidEnd, NonAsciiCodePoint, InvalidEnd, false),
    (FractionPart, NonAsciiCodePoint, FractionPart, false),
    (AbruptOffset, NonAsciiCodePoint, OffsetNeedsSign, false),
    (InvalidEnd, NonAsciiCodePoint, InvalidEnd, false),
    (AbruptZone, NonAsciiCodePoint, TzLeadingChar, false),
    (TzLeadingChar, NonAsciiCodePoint, TzLeadingChar, false),
    (AnnotationClose, NonAsciiCodePoint, IanaChar, false),
    (
        IanaCharPostSeparator,
        NonAsciiCodePoint,
        IanaCharPostSeparator,
        false,
    ),
    (AbruptBracket, NonAsciiCodePoint, TzLeadingChar, false),
    (AbruptBracket, NonAsciiCodePoint, TzLeadingChar, false),
    (AbruptBracket, NonAsciiCodePoint, AbruptBracket, false),
    (IanaChar, IanaChar, IanaChar, false),
    (
        InvalidMinutePrecisionOffset,
        InvalidMinutePrecisionOffset,
        InvalidMinutePrecisionOffset,
        false,
    ),
    (InvalidEnd, NonAsciiCodePoint, InvalidEnd, false),
    (
        AnnotationKeyLeadingChar,
        NonAsciiCodePoint,
        AnnotationKeyLeadingChar,
        false,
    ),
    (
        AnnotationKeyLeadingChar,
        NonAsciiCodePoint,
        AnnotationKeyLeadingChar,
        false,
    ),
    (
        AnnotationKeyValueSeparator,
        NonAsciiCodePoint,
        AnnotationKeyChar,
        false,
    ),
    (
        AnnotationValueChar,
        NonAsciiCodePoint,
        AnnotationValueChar,
        false,
    ),
    (
        AnnotationClose,
        NonAsciiCodePoint,
        AnnotationValueChar,
        false,
    ),
    (
        AnnotationValueCharPostHyphen,
        NonAsciiCodePoint,
        AnnotationValueCharPostHyphen,
        false,
    ),
    (
        AbruptDurationStart,
        NonAsciiCodePoint,
        DurationDisgnator,
        false,
    ),
    (
        AbruptDurationDesignator,
        NonAsciiCodePoint,
        DurationDisgnator,
        false,
    ),
    (AbruptDuration, NonAsciiCodePoint, InvalidEnd, false),
    (InvalidEnd, NonAsciiCodePoint, InvalidEnd, false),
    (
        TimeDurationDesignator,
        NonAsciiCodePoint,
        TimeDurationDesignator,
        false,
    ),
    (InvalidEnd, NonAsciiCodePoint, InvalidEnd, false),
    (InvalidEnd, NonAsciiCodePoint, InvalidEnd, false),
    (
        AbruptDateDesignator,
        NonAsciiCodePoint,
        AbruptDateDesignator,
        false,
    ),
    (
        AbruptTimeDesignator,
        NonAsciiCodePoint,
        AbruptTimeDesignator,
        false,
    ),
    (
        DurationValueExceededRange,
        DurationValueExceededRange,
        DurationValueExceededRange,
        false,
    ),
    (
        DurationValueExceededRange,
        DurationValueExceededRange,
        DurationValueExceededRange,
        false,
    ),
    (
        DateDurationPartOrder,
        DateDurationPartOrder,
        DateDurationPartOrder,
        false,
    ),
    (
        TimeDurationPartOrder,
        TimeDurationPartOrder,
        TimeDurationPartOrder,
        false,
    ),
    (
        DurationValueExceededRange,
        DurationValueExceededRange,
        DurationValueExceededRange,
        false,
    ),
    (FractionPart, NonAsciiCodePoint, FractionPart, false),
    (
        AbruptTimeDesignator,
        NonAsciiCodePoint,
        AbruptTimeDesignator,
        false,
    ),
    (
        UnrecognizedCritical,
        UnrecognizedCritical,
        UnrecognizedCritical,
        false,
    ),
    (
        CriticalDuplicateCalendar,
        CriticalDuplicateCalendar,
        CriticalDuplicateCalendar,
        false,
    ),
];

// The codes of each reason, in the order of the variants, in a reader that reads no brackets.
const LONE_CODES: &[Codes; 126] = &[
    (AbruptDigit, NonAsciiCodePoint, DateYear, false),
    (AbruptDigit, NonAsciiCodePoint, DateYear, false),
    (AbruptDigit, NonAsciiCodePoint, DateExtendedYear, false),
    (DateExtendedYear, DateExtendedYear, DateExtendedYear, false),
    (AbruptDate, NonAsciiCodePoint, DateMonth, false),
    (AbruptDigit, NonAsciiCodePoint, DateMonth, false),
    (
        InvalidMonthRange,
        InvalidMonthRange,
        InvalidMonthRange,
        false,
    ),
    (DateSeparator, NonAsciiCodePoint, DateSeparator, false),
    (AbruptDigit, NonAsciiCodePoint, DateDay, true),
    (AbruptDigit, NonAsciiCodePoint, DateDay, false),
    (InvalidDayRange, InvalidDayRange, InvalidDayRange, false),
    (InvalidEnd, NonAsciiCodePoint, InvalidEnd, false),
    (AbruptDigit, NonAsciiCodePoint, DateMonth, false),
    (InvalidEnd, NonAsciiCodePoint, InvalidEnd, false),
    (AbruptMonthDay, NonAsciiCodePoint, DateMonth, false),
    (AbruptMonthDay, NonAsciiCodePoint, MonthDayHyphen, false),
    (AbruptDigit, NonAsciiCodePoint, DateMonth, false),
    (
        InvalidMonthRange,
        InvalidMonthRange,
        InvalidMonthRange,
        false,
    ),
    (AbruptDigit, NonAsciiCodePoint, DateDay, false),
    (AbruptDigit, NonAsciiCodePoint, DateDay, false),
    (InvalidMonthDay, InvalidMonthDay, InvalidMonthDay, false),
    (InvalidEnd, NonAsciiCodePoint, InvalidEnd, false),
    (AbruptDigit, NonAsciiCodePoint, TimeHour, false),
    (
        AmbiguousTimeMonthDay,
        AmbiguousTimeMonthDay,
        AmbiguousTimeMonthDay,
        false,
    ),
    (
        AmbiguousTimeYearMonth,
        AmbiguousTimeYearMonth,
        AmbiguousTimeYearMonth,
        false,
    ),
    (AbruptDigit, NonAsciiCodePoint, TimeHour, false),
    (AbruptDigit, NonAsciiCodePoint, TimeHour, false),
    (TimeHour, TimeHour, TimeHour, false),
    (InvalidEnd, NonAsciiCodePoint, InvalidEnd, false),
    (AbruptDigit, NonAsciiCodePoint, TimeMinuteSecond, false),
    (TimeMinuteSecond, TimeMinuteSecond, TimeMinuteSecond, false),
    (InvalidEnd, NonAsciiCodePoint, InvalidEnd, true),
    (InvalidEnd, NonAsciiCodePoint, InvalidEnd, true),
    (AbruptDigit, NonAsciiCodePoint, TimeSecond, false),
    (TimeSecond, TimeSecond, TimeSecond, false),
    (InvalidEnd, NonAsciiCodePoint, InvalidEnd, false),
    (FractionPart, NonAsciiCodePoint, FractionPart, false),
    (InvalidEnd, NonAsciiCodePoint, InvalidEnd, false),
    (AbruptDigit, NonAsciiCodePoint, TimeHour, false),
    (AbruptDigit, NonAsciiCodePoint, TimeHour, false),
    (TimeHour, TimeHour, TimeHour, false),
    (InvalidEnd, NonAsciiCodePoint, InvalidEnd, false),
    (AbruptDigit, NonAsciiCodePoint, TimeMinuteSecond, false),
    (TimeMinuteSecond, TimeMinuteSecond, TimeMinuteSecond, false),
    (InvalidEnd, NonAsciiCodePoint, InvalidEnd, true),
    (InvalidEnd, NonAsciiCodePoint, InvalidEnd, true),
    (AbruptDigit, NonAsciiCodePoint, TimeMinuteSecond, false),
    (TimeMinuteSecond, TimeMinuteSecond, TimeMinuteSecond, false),
    (InvalidEnd, NonAsciiCodePoint, InvalidEnd, false),
    (FractionPart, NonAsciiCodePoint, FractionPart, false),
    (InvalidEnd, NonAsciiCodePoint, InvalidEnd, false),
    (AbruptDigit, NonAsciiCodePoint, TimeHour, false),
    (AbruptDigit, NonAsciiCodePoint, TimeHour, false),
    (TimeHour, TimeHour, TimeHour, false),
    (InvalidEnd, NonAsciiCodePoint, InvalidEnd, false),
    (AbruptDigit, NonAsciiCodePoint, TimeMinuteSecond, false),
    (TimeMinuteSecond, TimeMinuteSecond, TimeMinuteSecond, false),
    (InvalidEnd, NonAsciiCodePoint, InvalidEnd, true),
    (InvalidEnd, NonAsciiCodePoint, InvalidEnd, true),
    (AbruptDigit, NonAsciiCodePoint, TimeMinuteSecond, false),
    (TimeMinuteSecond, TimeMinuteSecond, TimeMinuteSecond, false),
    (InvalidEnd, NonAsciiCodePoint, InvalidEnd, false),
    (FractionPart, NonAsciiCodePoint, FractionPart, false),
    (InvalidEnd, NonAsciiCodePoint, InvalidEnd, false),
    (AbruptOffset, NonAsciiCodePoint, OffsetNeedsSign, false),
    (InvalidEnd, NonAsciiCodePoint, InvalidEnd, false),
    (AbruptDigit, NonAsciiCodePoint, DateYear, false),
    (AbruptDate, NonAsciiCodePoint, DateSeparator, false),
    (AbruptDigit, NonAsciiCodePoint, DateMonth, false),
    (AbruptDigit, NonAsciiCodePoint, DateDay, false),
    (AbruptDigit, NonAsciiCodePoint, TimeHour, false),
    (AbruptDigit, NonAsciiCodePoint, TimeMinuteSecond, false),
    (AbruptDigit, NonAsciiCodePoint, TimeSecond, false),
    (AbruptDigit, NonAsciiCodePoint, TimeHour, false),
    (AbruptDigit, NonAsciiCodePoint, TimeMinuteSecond, false),
    (
        InvalidMonthRange,
        InvalidMonthRange,
        InvalidMonthRange,
        false,
    ),
    (InvalidDayRange, InvalidDayRange, InvalidDayRange, false),
    (TimeHour, TimeHour, TimeHour, false),
    (TimeMinuteSecond, TimeMinuteSecond, TimeMinuteSecond, false),
    (TimeSecond, TimeSecond, TimeSecond, false),
    (TimeHour, TimeHour, TimeHour, false),
    (TimeMinuteSecond, TimeMinuteSecond, TimeMinuteSecond, false),
    (DateSeparator, NonAsciiCodePoint, DateSeparator, false),
    (TimeSeparator, NonAsciiCodePoint, TimeSeparator, false),
    (TimeSeparator, NonAsciiCodePoint, TimeSeparator, false),
    (TimeSeparator, NonAsciiCodePoint, TimeSeparator, false),
    (AbruptOffset, NonAsciiCodePoint, OffsetNeedsSign, true),
    (UtcTimeSeparator, NonAsciiCodePoint, UtcTimeSeparator, false),
    (InvalidEnd, NonAsciiCodePoint, InvalidEnd, false),
    (FractionPart, NonAsciiCodePoint, FractionPart, false),
    (AbruptOffset, NonAsciiCodePoint, OffsetNeedsSign, false),
    (InvalidEnd, NonAsciiCodePoint, InvalidEnd, false),
    (AbruptZone, NonAsciiCodePoint, TzLeadingChar, false),
    (TzLeadingChar, NonAsciiCodePoint, TzLeadingChar, false),
    (InvalidEnd, NonAsciiCodePoint, IanaChar, true),
    (
        IanaCharPostSeparator,
        NonAsciiCodePoint,
        IanaCharPostSeparator,
        false,
    ),
    (AbruptBracket, NonAsciiCodePoint, TzLeadingChar, false),
    (AbruptBracket, NonAsciiCodePoint, TzLeadingChar, false),
    (AbruptBracket, NonAsciiCodePoint, AbruptBracket, false),
    (IanaChar, IanaChar, IanaChar, false),
    (
        InvalidMinutePrecisionOffset,
        InvalidMinutePrecisionOffset,
        InvalidMinutePrecisionOffset,
        false,
    ),
    (InvalidEnd, NonAsciiCodePoint, InvalidEnd, false),
    (
        AnnotationKeyLeadingChar,
        NonAsciiCodePoint,
        AnnotationKeyLeadingChar,
        false,
    ),
    (
        AnnotationKeyLeadingChar,
        NonAsciiCodePoint,
        AnnotationKeyLeadingChar,
        false,
    ),
    (
        AnnotationKeyValueSeparator,
        NonAsciiCodePoint,
        AnnotationKeyChar,
        false,
    ),
    (
        AnnotationValueChar,
        NonAsciiCodePoint,
        AnnotationValueChar,
        false,
    ),
    (
        AnnotationClose,
        NonAsciiCodePoint,
        AnnotationValueChar,
        false,
    ),
    (
        AnnotationValueCharPostHyphen,
        NonAsciiCodePoint,
        AnnotationValueCharPostHyphen,
        false,
    ),
    (
        AbruptDurationStart,
        NonAsciiCodePoint,
        DurationDisgnator,
        false,
    ),
    (
        AbruptDurationDesignator,
        NonAsciiCodePoint,
        DurationDisgnator,
        false,
    ),
    (AbruptDuration, NonAsciiCodePoint, InvalidEnd, false),
    (InvalidEnd, NonAsciiCodePoint, InvalidEnd, false),
    (
        TimeDurationDesignator,
        NonAsciiCodePoint,
        TimeDurationDesignator,
        false,
    ),
    (InvalidEnd, NonAsciiCodePoint, InvalidEnd, false),
    (InvalidEnd, NonAsciiCodePoint, InvalidEnd, false),
    (
        AbruptDateDesignator,
        NonAsciiCodePoint,
        AbruptDateDesignator,
        false,
    ),
    (
        AbruptTimeDesignator,
        NonAsciiCodePoint,
        AbruptTimeDesignator,
        false,
    ),
    (
        DurationValueExceededRange,
        DurationValueExceededRange,
        DurationValueExceededRange,
        false,
    ),
    (
        DurationValueExceededRange,
        DurationValueExceededRange,
        DurationValueExceededRange,
        false,
    ),
    (
        DateDurationPartOrder,
        DateDurationPartOrder,
        DateDurationPartOrder,
        false,
    ),
    (
        TimeDurationPartOrder,
        TimeDurationPartOrder,
        TimeDurationPartOrder,
        false,
    ),
    (
        DurationValueExceededRange,
        DurationValueExceededRange,
        DurationValueExceededRange,
        false,
    ),
    (FractionPart, NonAsciiCodePoint, FractionPart, false),
    (
        AbruptTimeDesignator,
        NonAsciiCodePoint,
        AbruptTimeDesignator,
        false,
    ),
    (
        UnrecognizedCritical,
        UnrecognizedCritical,
        UnrecognizedCritical,
        false,
    ),
    (
        CriticalDuplicateCalendar,
        CriticalDuplicateCalendar,
        CriticalDuplicateCalendar,
        false,
    ),
];

// Made by tools/to_rust.py of crates/ixdtf_reading/src/error_code.rt. Do not edit.

//! The code of an error. A code has one byte.

use crate::ParseError;

/// The code of an error that a reader can return. For most errors, `Code` has one variant. For `ParseError::AbruptEnd`, `Code` has
/// several variants: one for each value of the field `location`.
#[derive(Clone, Copy)]
pub enum Code {
    NonAsciiCodePoint,
    AbruptDigit,
    AbruptDate,
    AbruptBracket,
    AbruptOffset,
    AbruptZone,
    InvalidEnd,
    InvalidMonthRange,
    InvalidDayRange,
    DateYear,
    DateExtendedYear,
    DateMonth,
    DateDay,
    TimeHour,
    TimeMinuteSecond,
    TimeSecond,
    FractionPart,
    DateSeparator,
    TimeSeparator,
    AnnotationClose,
    AnnotationKeyValueSeparator,
    AnnotationKeyLeadingChar,
    AnnotationKeyChar,
    AnnotationValueCharPostHyphen,
    AnnotationValueChar,
    InvalidMinutePrecisionOffset,
    CriticalDuplicateCalendar,
    UnrecognizedCritical,
    TzLeadingChar,
    IanaCharPostSeparator,
    IanaChar,
    UtcTimeSeparator,
    OffsetNeedsSign,
    AbruptMonthDay,
    MonthDayHyphen,
    InvalidMonthDay,
    AmbiguousTimeMonthDay,
    AmbiguousTimeYearMonth,
    AbruptDurationStart,
    AbruptDurationDesignator,
    AbruptDuration,
    AbruptDateDesignator,
    AbruptTimeDesignator,
    DurationDisgnator,
    DurationValueExceededRange,
    DateDurationPartOrder,
    TimeDurationPartOrder,
    TimeDurationDesignator,
}

impl Code {
    /// Returns the `ParseError` of this code.
    ///
    /// A constant array has the `ParseError` of each code. The function is inlined, so the compiled code of a caller takes the error
    /// directly from this array.
    #[inline(always)]
    pub fn error(self) -> ParseError {
        ERRORS[self as usize]
    }
}

// The error of each code, in the order of the variants.
const ERRORS: &[ParseError; 48] = &[
    ParseError::NonAsciiCodePoint,
    ParseError::AbruptEnd { location: "digit" },
    ParseError::AbruptEnd { location: "Date" },
    ParseError::AbruptEnd {
        location: "AmbiguousAnnotation",
    },
    ParseError::AbruptEnd {
        location: "time-numoffset",
    },
    ParseError::AbruptEnd {
        location: "TimeZoneAnnotation",
    },
    ParseError::InvalidEnd,
    ParseError::InvalidMonthRange,
    ParseError::InvalidDayRange,
    ParseError::DateYear,
    ParseError::DateExtendedYear,
    ParseError::DateMonth,
    ParseError::DateDay,
    ParseError::TimeHour,
    ParseError::TimeMinuteSecond,
    ParseError::TimeSecond,
    ParseError::FractionPart,
    ParseError::DateSeparator,
    ParseError::TimeSeparator,
    ParseError::AnnotationClose,
    ParseError::AnnotationKeyValueSeparator,
    ParseError::AnnotationKeyLeadingChar,
    ParseError::AnnotationKeyChar,
    ParseError::AnnotationValueCharPostHyphen,
    ParseError::AnnotationValueChar,
    ParseError::InvalidMinutePrecisionOffset,
    ParseError::CriticalDuplicateCalendar,
    ParseError::UnrecognizedCritical,
    ParseError::TzLeadingChar,
    ParseError::IanaCharPostSeparator,
    ParseError::IanaChar,
    ParseError::UtcTimeSeparator,
    ParseError::OffsetNeedsSign,
    ParseError::AbruptEnd {
        location: "MonthDay",
    },
    ParseError::MonthDayHyphen,
    ParseError::InvalidMonthDay,
    ParseError::AmbiguousTimeMonthDay,
    ParseError::AmbiguousTimeYearMonth,
    ParseError::AbruptEnd {
        location: "DurationStart",
    },
    ParseError::AbruptEnd {
        location: "DurationDesignator",
    },
    ParseError::AbruptEnd {
        location: "Duration",
    },
    ParseError::AbruptEnd {
        location: "DateDurationDesignator",
    },
    ParseError::AbruptEnd {
        location: "TimeDurationDesignator",
    },
    ParseError::DurationDisgnator,
    ParseError::DurationValueExceededRange,
    ParseError::DateDurationPartOrder,
    ParseError::TimeDurationPartOrder,
    ParseError::TimeDurationDesignator,
];

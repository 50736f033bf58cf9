// Made by tools/to_rust.py of crates/ixdtf_answers/src/word.rt. Do not edit.

//! The words that can begin a line.

/// A word at the beginning of a line. It names the reader of the text. It also says whether the answer has the value that this
/// reader returns, the canonical text of this value, or its instant.
#[derive(Clone, Copy, Debug, PartialEq)]
pub enum Word {
    /// `parse`: a date, or a date and a time. An offset may follow the time, and there may be a zone and a calendar.
    Parse,
    /// `year-month`: a year and a month. There may be a zone and a calendar.
    YearMonth,
    /// `month-day`: a month and a day. There may be a zone and a calendar.
    MonthDay,
    /// `time`: a time. There may be an offset, a zone and a calendar.
    Time,
    /// `offset`: an offset from UTC.
    Offset,
    /// `zone`: a time zone, which is a name or an offset.
    Zone,
    /// `iana`: the name of a time zone.
    Iana,
    /// `duration`: a duration.
    Duration,
    /// `strict-month-day`: the same as `month-day`, but under the strict profile, `Profile::Strict` of the crate `ixdtf`. Under this
    /// profile, the day must be at least 1.
    StrictMonthDay,
    /// `strict-time`: the same as `time`, but under the strict profile. `time` refuses a text that is a time, but also begins with a
    /// month and a day. For example, `1200` is the time 12:00, but it is also the month 12 with the day 00. Under the strict profile,
    /// there is no day 00. So `strict-time` accepts `1200`, as the time 12:00.
    StrictTime,
    /// `strict-duration`: the same as `duration`, but under the strict profile. Under this profile, a unit must not be repeated.
    StrictDuration,
    /// `canonical`: the same as `parse`, but the answer is the canonical text.
    Canonical,
    /// `rfc3339`: a date-time of RFC 3339, section 5.6.
    Rfc3339,
    /// `zone-name`: the same as `iana`.
    ZoneName,
    /// `rfc9557`: a date-time of RFC 9557, section 4.1. There may be a zone and a calendar.
    Rfc9557,
    /// `canonical-offset`: the same as `offset`, but the answer is the canonical text.
    CanonicalOffset,
    /// `canonical-zone`: the same as `zone`, but the answer is the canonical text.
    CanonicalZone,
    /// `canonical-duration`: the same as `duration`, but the answer is the canonical text.
    CanonicalDuration,
    /// `instant`: the same as `parse`, but the answer is the instant of the record.
    Instant,
    /// `canonical-time`: the same as `time`, but the answer is the canonical text.
    CanonicalTime,
    /// `canonical-year-month`: the same as `year-month`, but the answer is the canonical text.
    CanonicalYearMonth,
    /// `canonical-month-day`: the same as `month-day`, but the answer is the canonical text.
    CanonicalMonthDay,
}

impl Word {
    /// Returns the word with this name. Returns `None` if there is no such word.
    ///
    /// The function is inlined into its two callers, because a call would cost five instructions for each line.
    #[inline(always)]
    pub fn named(name: &[u8]) -> Option<Word> {
        if name == b"parse".as_slice() {
            Some(Word::Parse)
        } else if name == b"year-month".as_slice() {
            Some(Word::YearMonth)
        } else if name == b"month-day".as_slice() {
            Some(Word::MonthDay)
        } else if name == b"time".as_slice() {
            Some(Word::Time)
        } else if name == b"offset".as_slice() {
            Some(Word::Offset)
        } else if name == b"zone".as_slice() {
            Some(Word::Zone)
        } else if name == b"iana".as_slice() {
            Some(Word::Iana)
        } else if name == b"duration".as_slice() {
            Some(Word::Duration)
        } else if name == b"strict-month-day".as_slice() {
            Some(Word::StrictMonthDay)
        } else if name == b"strict-time".as_slice() {
            Some(Word::StrictTime)
        } else if name == b"strict-duration".as_slice() {
            Some(Word::StrictDuration)
        } else if name == b"canonical".as_slice() {
            Some(Word::Canonical)
        } else if name == b"rfc3339".as_slice() {
            Some(Word::Rfc3339)
        } else if name == b"zone-name".as_slice() {
            Some(Word::ZoneName)
        } else if name == b"rfc9557".as_slice() {
            Some(Word::Rfc9557)
        } else if name == b"canonical-offset".as_slice() {
            Some(Word::CanonicalOffset)
        } else if name == b"canonical-zone".as_slice() {
            Some(Word::CanonicalZone)
        } else if name == b"canonical-duration".as_slice() {
            Some(Word::CanonicalDuration)
        } else if name == b"instant".as_slice() {
            Some(Word::Instant)
        } else if name == b"canonical-time".as_slice() {
            Some(Word::CanonicalTime)
        } else if name == b"canonical-year-month".as_slice() {
            Some(Word::CanonicalYearMonth)
        } else if name == b"canonical-month-day".as_slice() {
            Some(Word::CanonicalMonthDay)
        } else {
            None
        }
    }
}

// Made by tools/to_rust.py of crates/ixdtf_callers/src/callers/calling.rt. Do not edit.

//! Calls each reader in the way that the README and `docs/CALLING.md` show.

#[allow(unused_imports)]
use crate::runtime::{HostRuntime, TryClone};

use super::check;
use ixdtf::ParseError::{
    self, AbruptEnd, IanaCharPostSeparator, InvalidDayRange, InvalidMonthRange,
};
use ixdtf::ParserResult;
use ixdtf::encoding::{Utf8, Utf16};
use ixdtf::parsers::{IsoDurationParser, IxdtfParser, TimeZoneParser};
use ixdtf::records::{
    Annotation, DateRecord, IxdtfParseRecord, Sign, TimeDurationRecord, TimeZoneRecord,
    UtcOffsetRecordOrZ,
};
use crate::runtime::{AllocError, Global, String};
use crate::runtime::Fail;

// ==== An instant ====

// Returns the seconds since 1970-01-01T00:00:00Z of a text with a date, a time, and an offset or `Z`, and otherwise `None`.
fn seconds_since_1970(text: &str) -> Option<i64> {
    let Ok(record) = IxdtfParser::from_str(text).parse() else {
        return None;
    };
    Some(record.instant()?.seconds)
}

#[test]
fn has_an_instant() {
    let rt = HostRuntime;
    let text = "2024-03-02T08:48:00.25-05:00[America/New_York]";
    check(&rt, text, seconds_since_1970(text) == Some(1_709_387_280));
    check(
        &rt,
        "no offset",
        seconds_since_1970("2024-03-02T08:48:00").is_none(),
    );
}

// ==== A text taken apart ====

/// A date, a time and an offset, and a zone if the text names one.
#[derive(Clone, Copy, Debug, PartialEq)]
struct Moment<'a> {
    /// The year, the month and the day.
    date: (i32, u8, u8),
    /// The hour, the minute and the second.
    time: (u8, u8, u8),
    /// The nanoseconds after the second.
    nanoseconds: u32,
    /// The number of seconds that local time is ahead of UTC. It is `None` for `Z`, because `Z` does not say what the local time
    /// is.
    ahead: Option<i32>,
    /// The name of the time zone.
    zone: Option<&'a str>,
}

// Returns the parts of a text with a date, a time, and an offset or `Z`, and otherwise `None`.
fn moment_of<'a>(text: &'a str) -> Option<Moment<'a>> {
    let mut parser = IxdtfParser::from_str(text);
    let Ok(record) = parser.parse() else {
        return None;
    };
    let (date, time, offset) = (record.date?, record.time?, record.offset?);
    let nanoseconds = match time.fraction {
        Some(fraction) => fraction.to_truncated_nanoseconds(),
        None => 0,
    };
    let ahead = match offset {
        UtcOffsetRecordOrZ::Z => None,
        UtcOffsetRecordOrZ::Offset(offset) => Some(offset.to_seconds()),
    };
    let zone = match record.tz {
        Some(zone) => zone.tz.name(),
        None => None,
    };
    Some(Moment {
        date: (date.year, date.month, date.day),
        time: (time.hour, time.minute, time.second),
        nanoseconds,
        ahead,
        zone,
    })
}

const IN_NEW_YORK: Moment<'static> = Moment {
    date: (2024, 3, 2),
    time: (8, 48, 0),
    nanoseconds: 250_000_000,
    ahead: Some(-18_000),
    zone: Some("America/New_York"),
};

const AT_UTC: Moment<'static> = Moment {
    date: (2024, 3, 2),
    time: (8, 48, 0),
    nanoseconds: 0,
    ahead: Some(0),
    zone: None,
};

// The local time is not known, because the text has `Z`.
const UNKNOWN: Moment<'static> = Moment {
    date: (2024, 3, 2),
    time: (8, 48, 0),
    nanoseconds: 0,
    ahead: None,
    zone: None,
};

const MOMENTS: &[(&str, Option<Moment<'static>>)] = &[
    (
        "2024-03-02T08:48:00.25-05:00[America/New_York]",
        Some(IN_NEW_YORK),
    ),
    ("2024-03-02T08:48:00+00:00", Some(AT_UTC)),
    ("2024-03-02T08:48:00Z", Some(UNKNOWN)),
    ("2024-03-02T08:48:00Z[+05:30]", Some(UNKNOWN)),
    ("2024-03-02T08:48:00", None),
    ("2024-03-02T08:48:00+00:0", None),
];

#[test]
fn takes_a_text_apart() {
    let rt = HostRuntime;
    for (text, wanted) in MOMENTS {
        check(&rt, text, moment_of(text) == *wanted);
    }
}

// ==== One call of each reader ====

// Returns the date of the record, or the error, that a reader returned.
fn date_in(read: &ParserResult<IxdtfParseRecord<'_, Utf8>>) -> ParserResult<Option<DateRecord>> {
    match read {
        Ok(record) => Ok(record.date),
        Err(error) => Err(*error),
    }
}

// Returns the year, month and day of a text.
fn date_of(text: &str) -> ParserResult<Option<(i32, u8, u8)>> {
    let date = date_in(&IxdtfParser::from_str(text).parse())?;
    Ok(date.map(|date| (date.year, date.month, date.day)))
}

// Returns the year and the month of a text such as `2020-11`.
fn month_of(text: &str) -> ParserResult<Option<(i32, u8)>> {
    let date = date_in(&IxdtfParser::from_str(text).parse_year_month())?;
    Ok(date.map(|date| (date.year, date.month)))
}

// Returns the month and the day of a text such as `11-07`.
fn birthday_of(text: &str) -> ParserResult<Option<(u8, u8)>> {
    let date = date_in(&IxdtfParser::from_str(text).parse_month_day())?;
    Ok(date.map(|date| (date.month, date.day)))
}

// Returns the hour and the minute of a text such as `T1200`. The text `1200` is refused, because it begins like a month and a day.
fn clock_of(text: &str) -> ParserResult<Option<(u8, u8)>> {
    let mut parser = IxdtfParser::from_str(text);
    match parser.parse_time() {
        Ok(record) => Ok(record.time.map(|time| (time.hour, time.minute))),
        Err(error) => Err(error),
    }
}

// Returns the sign, the hour and the minute of an offset.
fn offset_of(text: &str) -> ParserResult<(Sign, u8, u8)> {
    let mut parser = TimeZoneParser::from_str(text);
    match parser.parse_offset() {
        Ok(offset) => Ok((offset.sign(), offset.hour(), offset.minute())),
        Err(error) => Err(error),
    }
}

// Returns whether a text is the name of a zone, and not an offset.
fn has_a_name(text: &str) -> ParserResult<bool> {
    let mut parser = TimeZoneParser::from_str(text);
    match parser.parse_identifier()? {
        TimeZoneRecord::Name(_) => Ok(true),
        _ => Ok(false),
    }
}

// Returns the bytes of a zone's name. This name is the complete text.
fn name_of<'a>(text: &'a str) -> ParserResult<&'a [u8]> {
    let mut parser = TimeZoneParser::from_str(text);
    parser.parse_iana_identifier()
}

// Returns the name of the calendar of a text, if the text has one.
fn calendar_of<'a>(text: &'a str) -> Option<&'a str> {
    let mut parser = IxdtfParser::from_str(text);
    let Ok(record) = parser.parse() else {
        return None;
    };
    std::str::from_utf8(record.calendar?).ok()
}

// Returns the sign, the weeks and the days of a duration such as `-P2W3D`.
fn days_of(text: &str) -> ParserResult<Option<(Sign, u32, u64)>> {
    let mut parser = IsoDurationParser::from_str(text);
    match parser.parse() {
        Ok(duration) => {
            let sign = duration.sign;
            Ok(duration.date.map(|date| (sign, date.weeks, date.days)))
        }
        Err(error) => Err(error),
    }
}

// Returns the sign and the complete seconds of a duration without a date, such as `-PT1H30.5M`. The fraction belongs to the last
// duration unit.
fn seconds_of(text: &str) -> Option<(Sign, u128)> {
    let mut parser = IsoDurationParser::from_str(text);
    let Ok(duration) = parser.parse() else {
        return None;
    };
    if duration.date.is_some() {
        return None;
    }
    let (hours, minutes, seconds, fraction, unit) = match duration.time? {
        TimeDurationRecord::Hours { hours, fraction } => (hours, 0, 0, fraction, 3600u64),
        TimeDurationRecord::Minutes {
            hours,
            minutes,
            fraction,
        } => (hours, minutes, 0, fraction, 60),
        TimeDurationRecord::Seconds {
            hours,
            minutes,
            seconds,
            fraction,
        } => (hours, minutes, seconds, fraction, 1),
    };
    let billionths = match fraction {
        Some(fraction) => u64::from(fraction.to_truncated_nanoseconds()),
        None => 0,
    };
    let part = billionths * unit / 1_000_000_000;
    let whole = u128::from(hours) * 3600 + u128::from(minutes) * 60 + u128::from(seconds);
    Some((duration.sign, whole + u128::from(part)))
}

// Returns the year of a date in 16-bit code units.
fn year_of_units(units: &[u16]) -> Option<i32> {
    let mut parser = IxdtfParser::from_utf16(units);
    let Ok(record) = parser.parse() else {
        return None;
    };
    let date = record.date?;
    Some(date.year)
}

// Returns the weeks of a duration in 16-bit code units.
fn weeks_of_units(units: &[u16]) -> Option<u32> {
    let mut parser = IsoDurationParser::<Utf16>::from_utf8(units);
    let Ok(duration) = parser.parse() else {
        return None;
    };
    let date = duration.date?;
    Some(date.weeks)
}

#[test]
fn calls_each_reader_of_dates() {
    let rt = HostRuntime;
    let date = date_of("2024-03-02T08:48:00Z");
    check(&rt, "a date", date == Ok(Some((2024, 3, 2))));
    check(&rt, "a month", month_of("2020-11") == Ok(Some((2020, 11))));
    check(&rt, "a birthday", birthday_of("11-07") == Ok(Some((11, 7))));
    check(&rt, "T1200", clock_of("T1200") == Ok(Some((12, 0))));
    let refused = Err(ParseError::AmbiguousTimeMonthDay);
    check(&rt, "1200", clock_of("1200") == refused);
}

#[test]
fn calls_each_reader_of_zones() {
    let rt = HostRuntime;
    let offset = offset_of("-05:30");
    check(&rt, "an offset", offset == Ok((Sign::Negative, 5, 30)));
    let named = has_a_name("America/New_York");
    check(&rt, "a zone by its name", named == Ok(true));
    check(
        &rt,
        "a zone by its offset",
        has_a_name("-05:00") == Ok(false),
    );
    let name = b"Europe/Berlin".as_slice();
    check(&rt, "a name", name_of("Europe/Berlin") == Ok(name));
}

#[test]
fn calls_the_reader_of_durations() {
    let rt = HostRuntime;
    let days = days_of("-P2W3DT4H");
    check(&rt, "days", days == Ok(Some((Sign::Negative, 2, 3))));
    check(&rt, "no days", days_of("PT4H") == Ok(None));
}

#[test]
fn names_the_calendar() {
    let rt = HostRuntime;
    let hebrew = calendar_of("2024-03-02[UTC][u-ca=hebrew]");
    check(&rt, "a calendar", hebrew == Some("hebrew"));
    check(&rt, "no calendar", calendar_of("2024-03-02[UTC]") == None);
}

const SECONDS: &[(&str, Option<(Sign, u128)>)] = &[
    ("1H", None),
    ("P1D", None),
    ("P1DT1H", None),
    ("PT0,25H", Some((Sign::Positive, 900))),
    ("PT1M2.999S", Some((Sign::Positive, 62))),
    ("-PT1H30.5M", Some((Sign::Negative, 5430))),
];

#[test]
fn counts_seconds() {
    let rt = HostRuntime;
    for (text, wanted) in SECONDS {
        check(&rt, text, seconds_of(text) == *wanted);
    }
}

// The text `2024-03-02`, and a bad code unit after it.
const WIDE_DATE: [u16; 11] = [50, 48, 50, 52, 45, 48, 51, 45, 48, 50, 0x263A];

// The text `P2W`.
const WIDE_DURATION: [u16; 3] = [80, 50, 87];

#[test]
fn reads_wide_units() {
    let rt = HostRuntime;
    let year = year_of_units(&WIDE_DATE[..10]);
    check(&rt, "a date", year == Some(2024));
    check(&rt, "another unit", year_of_units(&WIDE_DATE) == None);
    check(&rt, "weeks", weeks_of_units(&WIDE_DURATION) == Some(2));
    let cut = weeks_of_units(&WIDE_DURATION[..2]);
    check(&rt, "a duration that is cut", cut == None);
}

// ==== Errors ====

// Returns advice for the author of the text.
fn advice(error: ParseError) -> &'static str {
    match error {
        InvalidMonthRange => "there is no such month",
        InvalidDayRange => "the month has no such day",
        AbruptEnd { location } => location,
        other => other.to_static_string(),
    }
}

// Returns advice for a refused text. The advice is empty if the text is accepted.
fn advice_on(text: &str) -> &'static str {
    match date_of(text) {
        Ok(_date) => "",
        Err(error) => advice(error),
    }
}

const ADVICE: &[(&str, &str)] = &[
    ("2024-13-01", "there is no such month"),
    ("2023-02-29", "the month has no such day"),
    ("2024-03-0", "digit"),
    (
        "2024-03-02x",
        "Unexpected character found after parsing was completed.",
    ),
];

#[test]
fn matches_errors() {
    let rt = HostRuntime;
    for (text, wanted) in ADVICE {
        check(&rt, text, advice_on(text) == *wanted);
    }
}

// ==== Places of errors ====

// Explains why a text is refused, and marks the part that is wrong. The result is empty if the text is accepted.
fn explain(alloc: Global, text: &str) -> Result<String, AllocError> {
    match IxdtfParser::from_str(text).parse_located() {
        Ok(_record) => Ok(String::new(alloc)),
        Err(error) => format!(in alloc; "{error}\n{}", error.in_text(text)),
    }
}

// Returns the position of the error, if the text is refused. Only a refused text is read twice.
fn place_of_error(text: &str) -> Option<usize> {
    let mut parser = IxdtfParser::from_str(text);
    if parser.parse().is_ok() {
        return None;
    }
    match parser.parse_located() {
        Ok(_record) => None,
        Err(error) => Some(error.at),
    }
}

// Returns the position of the error in the name of a zone, and the error. Returns `None` if the name is accepted.
fn fault_of_name(text: &str) -> Option<(usize, ParseError)> {
    let mut parser = TimeZoneParser::from_str(text);
    match parser.parse_iana_identifier_located() {
        Ok(_name) => None,
        Err(located) => Some((located.at, located.error)),
    }
}

const MARKS: &[(&str, &str)] = &[
    (
        "2024-03-02T8:48",
        "Invalid character while parsing hour value. at 12\n2024-03-02T8:48\n            ^",
    ),
    (
        "2024-03-02T08:48:00-05:000",
        "Invalid time zone character after '/'. at 25\n2024-03-02T08:48:00-05:000\n                         ^",
    ),
];

#[test]
fn marks_places() -> Result<(), Fail> {
    let rt = HostRuntime;
    for (text, wanted) in MARKS {
        let marked = explain(rt.alloc(), text)?;
        check(&rt, text, marked.as_str() == *wanted);
    }
    Ok(())
}

const PLACES: &[(&str, Option<usize>)] = &[
    ("2024-03-02T8:48", Some(12)),
    ("2024-03-02T08:48:00-05:000", Some(25)),
    ("2024-03-02", None),
];

#[test]
fn tells_places() {
    let rt = HostRuntime;
    for (text, place) in PLACES {
        check(&rt, text, place_of_error(text) == *place);
    }
    let fault = fault_of_name("Europe//Berlin");
    check(&rt, "a name", fault == Some((7, IanaCharPostSeparator)));
    check(&rt, "no fault", fault_of_name("Europe/Berlin") == None);
}

// ==== Handlers ====

// Returns how many annotations a text has. The handler drops all of them, so none is refused.
fn count_annotations(text: &str) -> ParserResult<u32> {
    let mut count = 0u32;
    let mut parser = IxdtfParser::from_str(text);
    let read = parser.parse_with_annotation_handler(|_annotation| {
        count = count.saturating_add(1);
        None
    });
    match read {
        Ok(_record) => Ok(count),
        Err(error) => Err(error),
    }
}

// Tests whether `parse` accepts a text without its annotations with the key `x-note`, even if they are critical.
fn reads_with_notes(text: &str) -> bool {
    let mut parser = IxdtfParser::from_str(text);
    let read = parser.parse_with_annotation_handler(|annotation| {
        if annotation.key == b"x-note".as_slice() {
            None
        } else {
            Some(annotation)
        }
    });
    read.is_ok()
}

/// The number of annotations, and how many of them are critical.
#[derive(Clone, Copy, Debug, PartialEq)]
struct Counts {
    all: u32,
    critical: u32,
}

impl Counts {
    fn note(&mut self, critical: bool) {
        self.all = self.all.saturating_add(1);
        if critical {
            self.critical = self.critical.saturating_add(1);
        }
    }
}

// Returns how many annotations a text has. A method of the struct counts them.
fn counts_of(text: &str) -> ParserResult<Counts> {
    let mut counts = Counts {
        all: 0,
        critical: 0,
    };
    let mut parser = IxdtfParser::from_str(text);
    let read = parser.parse_with_annotation_handler(|annotation| {
        counts.note(annotation.critical);
        None
    });
    match read {
        Ok(_record) => Ok(counts),
        Err(error) => Err(error),
    }
}

#[test]
fn hands_annotations_out() -> Result<(), Fail> {
    let rt = HostRuntime;
    let text = "2024-03-02[u-ca=hebrew][!a=b]";
    check(&rt, "all", count_annotations(text)? == 2);
    let noted = reads_with_notes("2024-03-02[!x-note=draft][u-ca=hebrew]");
    check(&rt, "notes", noted);
    let other = reads_with_notes("2024-03-02[!x-text=draft]");
    check(&rt, "another key", !other);
    let counts = Counts {
        all: 2,
        critical: 1,
    };
    check(&rt, "counts", counts_of(text) == Ok(counts));
    check(&rt, "two counts", count_critical(text) == Ok((2, 1)));
    Ok(())
}

#[test]
fn keeps_an_annotation() {
    let rt = HostRuntime;
    let text = "2024-03-02T08:48:00-05:00[u-ca=iso8601][!answer-to-universe=fortytwo]";
    let answer = Annotation {
        critical: true,
        key: b"answer-to-universe".as_slice(),
        value: b"fortytwo".as_slice(),
    };
    check(&rt, "the answer", answer_in(text) == Ok(Some(answer)));
    let other = answer_in("2024-03-02[u-ca=iso8601]");
    check(&rt, "another key", other == Ok(None));
    let refused = answer_in("2024-03-02[!a=b]");
    let wanted = Err(ParseError::UnrecognizedCritical);
    check(&rt, "a critical key", refused == wanted);
}

// ==== Functions that take a handler ====

/// An error of the caller's own, with the reason why the text has no calendar.
#[derive(Clone, Copy, Debug, PartialEq)]
enum Refused {
    /// The reader refuses the text.
    ByTheReader(ParseError),
}

impl From<ParseError> for Refused {
    fn from(error: ParseError) -> Refused {
        Refused::ByTheReader(error)
    }
}

// Reads the calendar of a text with a handler. The caller chooses the type of the error.
fn calendar_or<'a, E: From<ParseError>, F>(text: &'a str, handler: F) -> Result<Option<&'a [u8]>, E>
where
    F: FnMut(Annotation<'a, Utf8>) -> Option<Annotation<'a, Utf8>>,
{
    let mut parser = IxdtfParser::from_str(text);
    match parser.parse_with_annotation_handler(handler) {
        Ok(record) => Ok(record.calendar),
        Err(error) => Err(E::from(error)),
    }
}

// Returns the annotation `answer-to-universe` of a text, even if it is critical. The handler returns every other annotation.
fn answer_in<'a>(text: &'a str) -> ParserResult<Option<Annotation<'a, Utf8>>> {
    let mut answer = None;
    let read = calendar_or::<ParseError, _>(text, |annotation| {
        if annotation.key == b"answer-to-universe".as_slice() {
            answer.get_or_insert(annotation);
            None
        } else {
            Some(annotation)
        }
    });
    match read {
        Ok(_calendar) => Ok(answer),
        Err(error) => Err(error),
    }
}

// Returns how many annotations a text has, and how many of them are critical.
fn count_critical(text: &str) -> ParserResult<(u32, u32)> {
    let mut all = 0u32;
    let mut critical = 0u32;
    let read = calendar_or::<ParseError, _>(text, |annotation| {
        all = all.saturating_add(1);
        if annotation.critical {
            critical = critical.saturating_add(1);
        }
        None
    });
    match read {
        Ok(_calendar) => Ok((all, critical)),
        Err(error) => Err(error),
    }
}

// Returns the calendar, or `None` if the text is refused.
fn calendar_if_read<'a, F>(text: &'a str, handler: F) -> Option<Option<&'a [u8]>>
where
    F: FnMut(Annotation<'a, Utf8>) -> Option<Annotation<'a, Utf8>>,
{
    let mut parser = IxdtfParser::from_str(text);
    let Ok(record) = parser.parse_with_annotation_handler(handler) else {
        return None;
    };
    Some(record.calendar)
}

// Returns whether a text has a calendar. The handler accepts annotations of every lifetime.
fn has_calendar<F>(text: &str, handler: F) -> ParserResult<bool>
where
    F: for<'b> FnMut(Annotation<'b, Utf8>) -> Option<Annotation<'b, Utf8>>,
{
    let calendar = calendar_or::<ParseError, _>(text, handler)?;
    Ok(calendar.is_some())
}

// Returns the calendar of a text, or the caller's own error.
fn own_calendar<'a>(text: &'a str) -> Result<Option<&'a [u8]>, Refused> {
    calendar_or::<Refused, _>(text, |annotation| Some(annotation))
}

#[test]
fn forwards_handlers() {
    let rt = HostRuntime;
    let text = "2024-03-02[u-ca=hebrew]";
    let hebrew = Some(b"hebrew".as_slice());
    check(&rt, text, own_calendar(text) == Ok(hebrew));
    let refused = Err(Refused::ByTheReader(ParseError::InvalidEnd));
    check(&rt, "an end", own_calendar("2024-03-02x") == refused);
    let found = calendar_if_read(text, |annotation| Some(annotation));
    check(&rt, "without an error", found == Some(hebrew));
    let found = has_calendar(text, |_annotation| None);
    check(&rt, "for every lifetime", found == Ok(false));
}

// ==== What a caller can conclude ====

// Returns the year of a date. It is `Some` only if the text is in the language of `parse`.
fn year_of(text: &str) -> Option<i32> {
    match IxdtfParser::from_str(text).parse() {
        Ok(record) => match record.date {
            Some(date) => Some(date.year),
            None => None,
        },
        Err(_) => None,
    }
}

#[test]
fn names_the_year() {
    let rt = HostRuntime;
    check(&rt, "a leap year", year_of("-000400-02-29") == Some(-400));
    check(&rt, "no leap year", year_of("-000100-02-29") == None);
}

#[test]
fn takes_the_handler_of_a_caller() {
    let rt = HostRuntime;
    let mut calls = 0u32;
    let found = calendar_or::<ParseError, _>("2020-01-01[u-ca=a][!c=d]", |annotation| {
        calls = calls.saturating_add(1);
        if annotation.critical {
            None
        } else {
            Some(annotation)
        }
    });
    check(&rt, "the calendar", found == Ok(Some(b"a".as_slice())));
    check(&rt, "the calls", calls == 2);
}

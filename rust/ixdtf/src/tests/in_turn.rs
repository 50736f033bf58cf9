// Made by tools/to_rust.py of crates/ixdtf_tests/src/tests/in_turn.rt. Do not edit.

//! Tests of several calls with one parser. After an error, the next call reads the same text. After a success, the complete text is
//! consumed, and a reader refuses the rest like the empty text.

#[allow(unused_imports)]
use crate::runtime::{HostRuntime, TryClone};

use super::{AT_DIGIT, check, dated, named};
use ixdtf::ParseError::{
    AbruptEnd, AmbiguousTimeYearMonth, DateDurationPartOrder, IanaCharPostSeparator,
    InvalidMonthDay, InvalidMonthRange, OffsetNeedsSign, TzLeadingChar,
};
use ixdtf::parsers::{IsoDurationParser, IxdtfParser, Profile, TimeZoneParser};

// ==== After an error ====

#[test]
fn keeps_what_it_refused() {
    let rt = HostRuntime;
    let mut parser = IxdtfParser::from_str("2020-13-01");
    check(&rt, "once", parser.parse() == Err(InvalidMonthRange));
    check(&rt, "twice", parser.parse() == Err(InvalidMonthRange));
    let located = parser.parse_located();
    check(
        &rt,
        "its position",
        matches!(located, Err(error) if error.at == 7),
    );
}

#[test]
fn keeps_a_duration_that_it_refused() {
    let rt = HostRuntime;
    let mut parser = IsoDurationParser::from_str("P1D1Y");
    check(&rt, "once", parser.parse() == Err(DateDurationPartOrder));
    check(&rt, "twice", parser.parse() == Err(DateDurationPartOrder));
}

#[test]
fn keeps_a_zone_that_it_refused() {
    let rt = HostRuntime;
    let mut parser = TimeZoneParser::from_str("Europe/");
    for _ in 0..2 {
        let name = parser.parse_iana_identifier();
        check(&rt, "a name", name == Err(IanaCharPostSeparator));
        let zone = parser.parse_identifier();
        check(&rt, "a zone", zone == Err(IanaCharPostSeparator));
        let offset = parser.parse_offset();
        check(&rt, "an offset", offset == Err(OffsetNeedsSign));
    }
}

#[test]
fn leaves_what_it_refused_to_another_reader() {
    let rt = HostRuntime;
    let mut parser = IxdtfParser::from_str("2021-12");
    let time = parser.parse_time();
    check(&rt, "a time", time == Err(AmbiguousTimeYearMonth));
    let month = parser.parse_year_month();
    check(&rt, "a year-month", month == Ok(dated(2021, 12, 1, None)));
    check(&rt, "the rest", parser.parse_year_month() == Err(AT_DIGIT));
}

#[test]
fn stays_strict() {
    let rt = HostRuntime;
    let mut parser = IxdtfParser::from_str("11-00").with_profile(Profile::Strict);
    for _ in 0..2 {
        let refused = parser.parse_month_day();
        check(&rt, "a month-day", refused == Err(InvalidMonthDay));
    }
    check(&rt, "a time", parser.parse_time().is_ok());
}

// ==== After a text was read ====

#[test]
fn reads_a_text_once() {
    let rt = HostRuntime;
    let mut parser = IxdtfParser::from_str("2020-01-01");
    let date = parser.parse();
    check(&rt, "a date", date == Ok(dated(2020, 1, 1, None)));
    check(&rt, "no date", parser.parse() == Err(AT_DIGIT));
    let rest = parser.parse_month_day();
    check(
        &rt,
        "no month-day",
        rest == Err(AbruptEnd {
            location: "MonthDay",
        }),
    );
}

#[test]
fn asks_no_handler_about_the_rest() {
    let rt = HostRuntime;
    let mut parser = IxdtfParser::from_str("2020-04-08[a=b]");
    check(&rt, "a date", parser.parse().is_ok());
    let mut calls = 0u32;
    let rest = parser.parse_with_annotation_handler(|annotation| {
        calls = calls.saturating_add(1);
        Some(annotation)
    });
    check(&rt, "the rest", rest == Err(AT_DIGIT) && calls == 0);
}

#[test]
fn reads_a_zone_once() {
    let rt = HostRuntime;
    let mut parser = TimeZoneParser::from_str("UTC");
    check(&rt, "a zone", parser.parse_identifier() == Ok(named("UTC")));
    let name = parser.parse_iana_identifier();
    check(&rt, "no name", name == Err(TzLeadingChar));
}

//! Answers the requests of `tests/run.py` with the crates `ixdtf` and `ixdtf_print`. Each line of the input has the width, the word of the reader, the handler and
//! the code units. Each line of the output has the cells of the answer.
mod width;

use ixdtf::parsers::{IsoDurationParser, IxdtfParser, Profile, TimeZoneParser};
use ixdtf::records::{
    Annotation, DateRecord, DurationParseRecord, Fraction, IxdtfParseRecord, MinutePrecisionOffset, Sign, TimeDurationRecord, TimeRecord, TimeZoneRecord, UtcOffsetRecord,
    UtcOffsetRecordOrZ,
};
use ixdtf::{Instant, LocatedError, ParseError, ParserResult};
use ixdtf_print::{CanonicalDuration, CanonicalOffset, PrintError};
use std::fmt::Write as _;
use std::io::{self, BufRead, Write};
use width::{Displayed, Narrow, Wide, Width};

/// A value that a reader returned.
#[derive(PartialEq)]
enum Found<'a, W: Width> {
    Parts(IxdtfParseRecord<'a, W::Encoding>),
    Offset(UtcOffsetRecord),
    Zone(TimeZoneRecord<'a, W::Encoding>),
    Name(&'a [W::Unit]),
    Duration(DurationParseRecord),
}

/// What a reader returned, and what its `*_located` variant returned.
type Outcome<'a, W> = (ParserResult<Found<'a, W>>, Result<Found<'a, W>, LocatedError>);

fn outcome<'a, W: Width, V>(plain: ParserResult<V>, located: Result<V, LocatedError>, found: fn(V) -> Found<'a, W>) -> Outcome<'a, W> {
    (plain.map(found), located.map(found))
}

/// Calls the reader, and then its `*_located` variant with another parser.
fn read<'a, W: Width>(reader: &str, profile: Profile, units: &'a [W::Unit]) -> Outcome<'a, W> {
    let text = || IxdtfParser::<W::Encoding>::new(units).with_profile(profile);
    let zone = || TimeZoneParser::<W::Encoding>::new(units);
    let duration = || IsoDurationParser::<W::Encoding>::new(units).with_profile(profile);
    match reader {
        "parse" => outcome(text().parse(), text().parse_located(), Found::Parts),
        "year-month" => outcome(text().parse_year_month(), text().parse_year_month_located(), Found::Parts),
        "month-day" => outcome(text().parse_month_day(), text().parse_month_day_located(), Found::Parts),
        "time" => outcome(text().parse_time(), text().parse_time_located(), Found::Parts),
        "rfc3339" => outcome(text().parse_rfc3339(), text().parse_rfc3339_located(), Found::Parts),
        "rfc9557" => outcome(text().parse_rfc9557(), text().parse_rfc9557_located(), Found::Parts),
        "offset" => outcome(zone().parse_offset(), zone().parse_offset_located(), Found::Offset),
        "zone" => outcome(zone().parse_identifier(), zone().parse_identifier_located(), Found::Zone),
        "zone-name" => outcome(zone().parse_iana_identifier(), zone().parse_iana_identifier_located(), Found::Name),
        _ => outcome(duration().parse(), duration().parse_located(), Found::Duration),
    }
}

/// A handler of `tests/replies.tsv`, which notes its calls.
struct Listener<'n> {
    name: &'n str,
    calls: usize,
    heard: String,
}

impl<'n> Listener<'n> {
    fn new(name: &'n str) -> Self {
        Listener { name, calls: 0, heard: String::new() }
    }

    fn reply<'a, W: Width>(&mut self, mut it: Annotation<'a, W::Encoding>) -> Option<Annotation<'a, W::Encoding>> {
        let mark = if it.critical { "!" } else { "" };
        write!(self.heard, "[{mark}{}={}]", W::shown(it.key), W::shown(it.value)).unwrap();
        self.calls += 1;
        match (self.name, self.calls) {
            ("drop", _) | ("another", 3) => return None,
            ("make-critical", _) => it.critical = true,
            ("turn-critical", _) => it.critical = !it.critical,
            ("another", 1) => {
                it.critical = false;
                it.key = W::calendar_key();
                it.value = W::first_calendar();
            }
            ("another", 2) => {
                it.key = W::calendar_key();
                it.value = W::second_calendar();
            }
            _ => {}
        }
        Some(it)
    }
}

/// Calls the reader with a handler, and then its `*_located` variant. Returns also the calls of the handler.
fn read_with<'a, W: Width>(reader: &str, profile: Profile, units: &'a [W::Unit], name: &str) -> (Outcome<'a, W>, String) {
    let parser = || IxdtfParser::<W::Encoding>::new(units).with_profile(profile);
    let (mut first, mut second) = (Listener::new(name), Listener::new(name));
    let mut plain = |it| first.reply::<W>(it);
    let mut located = |it| second.reply::<W>(it);
    let found = match reader {
        "parse" => outcome(parser().parse_with_annotation_handler(&mut plain), parser().parse_with_annotation_handler_located(&mut located), Found::Parts),
        "year-month" => outcome(
            parser().parse_year_month_with_annotation_handler(&mut plain),
            parser().parse_year_month_with_annotation_handler_located(&mut located),
            Found::Parts,
        ),
        "month-day" => outcome(
            parser().parse_month_day_with_annotation_handler(&mut plain),
            parser().parse_month_day_with_annotation_handler_located(&mut located),
            Found::Parts,
        ),
        "time" => outcome(parser().parse_time_with_annotation_handler(&mut plain), parser().parse_time_with_annotation_handler_located(&mut located), Found::Parts),
        _ => outcome(
            parser().parse_rfc9557_with_annotation_handler(&mut plain),
            parser().parse_rfc9557_with_annotation_handler_located(&mut located),
            Found::Parts,
        ),
    };
    assert_eq!(first.heard, second.heard);
    (found, first.heard)
}

// ==== Fields ====

fn fraction(it: Option<Fraction>) -> String {
    it.map_or(String::new(), |it| format!(".{:09}", it.to_truncated_nanoseconds()))
}

fn minutes(sign: Sign, hour: u8, minute: u8) -> String {
    format!("{}{hour},{minute}", if sign == Sign::Negative { '-' } else { '+' })
}

fn offset(it: UtcOffsetRecord) -> String {
    let second = it.second().map_or(String::new(), |second| format!(",{second}{}", fraction(it.fraction())));
    minutes(it.sign(), it.hour(), it.minute()) + &second
}

fn zone<W: Width>(it: &TimeZoneRecord<'_, W::Encoding>) -> String {
    match it {
        TimeZoneRecord::Name(name) => W::shown(name),
        TimeZoneRecord::Offset(MinutePrecisionOffset { sign, hour, minute }) => minutes(*sign, *hour, *minute),
        _ => unreachable!(),
    }
}

fn date(it: DateRecord) -> String {
    format!("date={},{},{}", it.year, it.month, it.day)
}

fn time(it: TimeRecord) -> String {
    format!("time={},{},{}{}", it.hour, it.minute, it.second, fraction(it.fraction))
}

fn record_fields<W: Width>(it: &IxdtfParseRecord<'_, W::Encoding>) -> String {
    let offset = it.offset.map(|it| match it {
        UtcOffsetRecordOrZ::Z => "offset=Z".to_string(),
        UtcOffsetRecordOrZ::Offset(it) => format!("offset={}", offset(it)),
    });
    let zone = it.tz.as_ref().map(|it| format!("tz={}{}", if it.critical { "!" } else { "" }, zone::<W>(&it.tz)));
    let calendar = it.calendar.map(|it| format!("calendar={}", W::shown(it)));
    [it.date.map(date), it.time.map(time), offset, zone, calendar].into_iter().flatten().collect::<Vec<_>>().join(" ")
}

fn duration_time(it: TimeDurationRecord) -> String {
    match it {
        TimeDurationRecord::Hours { hours, fraction: rest } => format!("{hours}{}", fraction(rest)),
        TimeDurationRecord::Minutes { hours, minutes, fraction: rest } => format!("{hours},{minutes}{}", fraction(rest)),
        TimeDurationRecord::Seconds { hours, minutes, seconds, fraction: rest } => format!("{hours},{minutes},{seconds}{}", fraction(rest)),
    }
}

fn duration_fields(it: &DurationParseRecord) -> String {
    let sign = Some(format!("sign={}", if it.sign == Sign::Negative { '-' } else { '+' }));
    let date = it.date.map(|it| format!("date={},{},{},{}", it.years, it.months, it.weeks, it.days));
    let time = it.time.map(|it| format!("time={}", duration_time(it)));
    [sign, date, time].into_iter().flatten().collect::<Vec<_>>().join(" ")
}

fn fields<W: Width>(it: &Found<'_, W>) -> String {
    match it {
        Found::Parts(it) => record_fields::<W>(it),
        Found::Offset(it) => format!("offset={}", offset(*it)),
        Found::Zone(it) => format!("tz={}", zone::<W>(it)),
        Found::Name(it) => format!("tz={}", W::shown(it)),
        Found::Duration(it) => duration_fields(it),
    }
}

// ==== Answers ====

/// The printer for what a reader returns.
fn print<W: Width>(reader: &str, found: &Found<'_, W>, out: &mut [W::Unit]) -> Option<Result<usize, PrintError>> {
    Some(match (reader, found) {
        ("parse" | "rfc3339" | "rfc9557", Found::Parts(it)) => W::print(it, out),
        ("year-month", Found::Parts(it)) => W::print_year_month(it, out),
        ("month-day", Found::Parts(it)) => W::print_month_day(it, out),
        ("time", Found::Parts(it)) => W::print_time(it, out),
        (_, Found::Offset(it)) => W::print_offset(it, out),
        (_, Found::Zone(it)) => W::print_zone(it, out),
        (_, Found::Duration(it)) => W::print_duration(it, out),
        _ => return None,
    })
}

/// The length of the canonical text, and what `Display` writes.
fn length_and_display<W: Width>(reader: &str, found: &Found<'_, W>) -> (Option<usize>, Displayed) {
    match (reader, found) {
        ("year-month", Found::Parts(it)) => (W::year_month_length(it), W::displayed_year_month(it)),
        ("month-day", Found::Parts(it)) => (W::month_day_length(it), W::displayed_month_day(it)),
        ("time", Found::Parts(it)) => (W::time_length(it), W::displayed_time(it)),
        (_, Found::Parts(it)) => (W::length(it), W::displayed(it)),
        (_, Found::Offset(it)) => (ixdtf_print::offset_length(it), Some(CanonicalOffset::of(it).map(|it| it.to_string()))),
        (_, Found::Zone(it)) => (W::zone_length(it), W::displayed_zone(it)),
        (_, Found::Duration(it)) => (ixdtf_print::duration_length(it), Some(CanonicalDuration::of(it).map(|it| it.to_string()))),
        (_, Found::Name(_)) => (None, None),
    }
}

/// The canonical text, if there is a printer for what the reader returns. It is read back as the same value, its length is known
/// before, and a slice that is too short stays as it was.
fn canonical<W: Width>(reader: &str, found: &Found<'_, W>) -> Option<String> {
    let mut out = [W::unit(0); 4096];
    let count = print(reader, found, &mut out)?.expect("a value that was read has a canonical text");
    let profile = if reader == "time" { Profile::Strict } else { Profile::Crate };
    assert!(read::<W>(reader, profile, &out[..count]).0.as_ref() == Ok(found), "the canonical text is read as the same value");
    let text = W::shown(&out[..count]);
    let (length, displayed) = length_and_display(reader, found);
    assert_eq!(length, Some(count), "the length is that of the canonical text");
    assert!(displayed.is_none_or(|it| it.as_ref() == Some(&text)), "`Display` writes the canonical text");
    let mut short = vec![W::unit(1); count - 1];
    assert_eq!(print(reader, found, &mut short), Some(Err(PrintError::TooShort)), "one code unit is missing");
    assert!(short.iter().all(|it| *it == W::unit(1)), "a slice that is too short stays as it was");
    Some(text)
}

/// The instant of the text that `Display` writes for an instant.
fn read_back(it: Instant) -> Option<Instant> {
    IxdtfParser::from_str(&it.to_string()).parse().ok()?.instant()
}

fn accepted<W: Width>(reader: &str, found: &Found<'_, W>) -> String {
    let mut cells = format!("fields={}", fields(found));
    if let Some(text) = canonical(reader, found) {
        write!(cells, "\tcanonical={text}").unwrap();
    }
    if let Found::Parts(it) = found {
        let instant = it.instant();
        assert_eq!(instant.and_then(read_back), instant, "an instant is displayed as a text that has this instant");
        let instant = instant.map_or("none".to_string(), |it| format!("{},{}", it.seconds, it.nanoseconds));
        write!(cells, "\tinstant={instant}").unwrap();
    }
    cells
}

fn name_of(error: ParseError) -> String {
    match error {
        ParseError::AbruptEnd { location } => format!("AbruptEnd {location}"),
        _ => format!("{error:?}"),
    }
}

/// The error, its position and its reason. If the text is UTF-8 or UTF-16, also the part that is wrong, the message and the hint.
fn refused<W: Width>(units: &[W::Unit], error: LocatedError) -> String {
    let mut cells = format!("error={}\tat={}\treason={}", name_of(error.error), error.at, error.reason.name());
    if let Some(text) = W::bytes(units) {
        let (part, hint) = (error.part_in(&text), error.hint_in(&text));
        let hint = hint.map_or("none".to_string(), |it| it.to_string());
        write!(cells, "\tpart={}..{}\tmessage={}\thint={hint}", part.begin, part.end, error.message_in(&text)).unwrap();
    }
    cells
}

/// The answer to a request of one width. Panics if the variants of the reader do not agree.
fn answer<W: Width>(word: &str, handler: &str, units: &[W::Unit]) -> String {
    let profile = if word.starts_with("strict-") { Profile::Strict } else { Profile::Crate };
    let reader = word.trim_start_matches("strict-");
    let has_handler = !matches!(reader, "rfc3339" | "offset" | "zone" | "zone-name" | "duration");
    let ((plain, located), calls) = if handler.is_empty() { (read::<W>(reader, profile, units), None) } else {
        let (found, calls) = read_with::<W>(reader, profile, units, handler);
        (found, Some(calls))
    };
    assert!(plain.as_ref().map_err(|it| *it) == located.as_ref().map_err(|it| it.error), "the reader and its `*_located` variant agree");
    if handler.is_empty() && has_handler {
        let ((again, _), _) = read_with::<W>(reader, profile, units, "keep");
        assert!(again == plain, "a handler that returns each annotation changes nothing");
    }
    let mut cells = match located {
        Ok(found) => accepted(reader, &found),
        Err(error) => refused::<W>(units, error),
    };
    if let Some(calls) = calls {
        write!(cells, "\tcalls={calls}").unwrap();
    }
    cells
}

fn units_of<U>(hexadecimal: &str, digits: usize, unit: fn(u16) -> U) -> Vec<U> {
    let numbers = (0..hexadecimal.len()).step_by(digits).map(|at| u16::from_str_radix(&hexadecimal[at..at + digits], 16).unwrap());
    numbers.map(unit).collect()
}

fn main() -> io::Result<()> {
    let mut out = io::stdout().lock();
    for line in io::stdin().lock().lines() {
        let line = line?;
        let cells: Vec<&str> = line.split('\t').collect();
        let [width, word, handler, units] = cells[..] else { panic!("no request: {line}") };
        let answer = if width == "8" {
            answer::<Narrow>(word, handler, &units_of(units, 2, Narrow::unit))
        } else {
            answer::<Wide>(word, handler, &units_of(units, 4, Wide::unit))
        };
        writeln!(out, "{answer}")?;
    }
    Ok(())
}

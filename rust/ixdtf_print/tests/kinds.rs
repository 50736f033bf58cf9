//! Tests that a record is equal to the record that is read back from its canonical text, for offsets, zones, times, year-months and
//! month-days. Some records have generated fields, and others are read from generated texts. The canonical texts are compared with texts that
//! `format!` writes.
use ixdtf::encoding::Utf8;
use ixdtf::parsers::{IxdtfParser, Profile, TimeZoneParser};
use ixdtf::records::{
    DateRecord, Fraction, FullPrecisionOffset, IxdtfParseRecord, MinutePrecisionOffset, Sign, TimeRecord, TimeZoneAnnotation,
    TimeZoneRecord, UtcOffsetRecord, UtcOffsetRecordOrZ,
};
use ixdtf_print::{month_day_length, print_month_day, CanonicalMonthDay, PrintError};
use ixdtf_print::{offset_length, print_offset, print_zone, zone_length, CanonicalOffset, CanonicalZone};
use ixdtf_print::{print_time, print_year_month, time_length, year_month_length, CanonicalTime, CanonicalYearMonth};

type Record<'a> = IxdtfParseRecord<'a, Utf8>;

/// Returns the canonical text. Checks that it has the length that is counted, and that `Display` writes the same text. If there is no
/// canonical text, returns the error, and checks that there is no length and no `Display` either.
fn printed(
    print: impl Fn(&mut [u8]) -> Result<usize, PrintError>,
    length: Option<usize>,
    shown: Option<String>,
) -> Result<String, PrintError> {
    let mut out = [7; 1_024];
    let count = match print(&mut out) {
        Ok(count) => count,
        Err(why) => {
            assert_eq!((why, length, shown), (PrintError::NotPrintable, None, None));
            assert_eq!(out, [7; 1_024]);
            return Err(why);
        }
    };
    let text = String::from_utf8(out[..count].to_vec()).unwrap();
    assert!(out[count..].iter().all(|byte| *byte == 7), "{text}");
    assert_eq!((length, shown.as_deref()), (Some(count), Some(text.as_str())));
    let mut short = [7; 1_024];
    assert_eq!(print(&mut short[..count - 1]), Err(PrintError::TooShort), "{text}");
    assert_eq!(short, [7; 1_024]);
    assert_eq!(print(&mut short[..count]), Ok(count), "{text}");
    Ok(text)
}

fn printed_offset(offset: &UtcOffsetRecord) -> Result<String, PrintError> {
    let shown = CanonicalOffset::of(offset).map(|shown| shown.to_string());
    printed(|out| print_offset(offset, out), offset_length(offset), shown)
}

fn printed_zone(zone: &TimeZoneRecord<'_, Utf8>) -> Result<String, PrintError> {
    let shown = CanonicalZone::of(zone).map(|shown| shown.to_string());
    printed(|out| print_zone(zone, out), zone_length(zone), shown)
}

fn printed_time(record: &Record<'_>) -> Result<String, PrintError> {
    let shown = CanonicalTime::of(record).map(|shown| shown.to_string());
    printed(|out| print_time(record, out), time_length(record), shown)
}

fn printed_year_month(record: &Record<'_>) -> Result<String, PrintError> {
    let shown = CanonicalYearMonth::of(record).map(|shown| shown.to_string());
    printed(|out| print_year_month(record, out), year_month_length(record), shown)
}

fn printed_month_day(record: &Record<'_>) -> Result<String, PrintError> {
    let shown = CanonicalMonthDay::of(record).map(|shown| shown.to_string());
    printed(|out| print_month_day(record, out), month_day_length(record), shown)
}

/// A printer refuses the records of the other readers. There is one exception: the first day of a month in the year 0.
#[test]
fn refuses_what_another_reader_returns() {
    let refused = Err(PrintError::NotPrintable);
    let date_time = IxdtfParser::from_str("2020-11-08T12:00Z[cet]").parse().unwrap();
    let time = IxdtfParser::from_str("12:00Z[cet]").parse_time().unwrap();
    let year_month = IxdtfParser::from_str("2020-11[cet]").parse_year_month().unwrap();
    let month_day = IxdtfParser::from_str("11-08[cet]").parse_month_day().unwrap();
    let empty = IxdtfParseRecord::default();
    for record in [&date_time, &year_month, &month_day, &empty] {
        assert_eq!(printed_time(record), refused);
    }
    for record in [&date_time, &time, &month_day, &empty] {
        assert_eq!(printed_year_month(record), refused);
    }
    for record in [&date_time, &time, &year_month, &empty] {
        assert_eq!(printed_month_day(record), refused);
    }
    let both = IxdtfParser::from_str("11-01").parse_month_day().unwrap();
    assert_eq!(printed_year_month(&both).as_deref(), Ok("0000-11"));
    assert_eq!(printed_month_day(&both).as_deref(), Ok("11-01"));
}

/// Pseudorandom numbers. They are the same in each run.
struct Numbers(u64);

const NAMES: [&[u8]; 6] = [b"UTC", b"Europe/Paris", b"_a/.b+1-0", b"a/b/c/d/e/f/g/h/i/j/k/l/m/n/o/p/q/r/s/t", b"Etc/GMT-14", b"z"];
const NO_NAMES: [&[u8]; 6] = [b"", b"1", b"a//b", b"a/", b"+01", b"caf\xe9"];
const VALUES: [&[u8]; 5] = [b"hebrew", b"islamic-civil", b"A", b"0-1-2-3-4-5-6-7-8-9-abcdefghijklmnopqrstuvwxyz", b"iso8601"];
const NO_VALUES: [&[u8]; 5] = [b"", b"-a", b"a-", b"a--b", b"a_b"];

impl Numbers {
    fn next(&mut self) -> u64 {
        self.0 = self.0.wrapping_mul(6_364_136_223_846_793_005).wrapping_add(1_442_695_040_888_963_407);
        self.0 >> 33
    }

    fn below(&mut self, most: usize) -> usize {
        self.next() as usize % most
    }

    fn one<T: Copy>(&mut self, parts: &[T]) -> T {
        parts[self.below(parts.len())]
    }

    /// A number up to `greatest`, and sometimes a greater one.
    fn up_to(&mut self, greatest: u8) -> u8 {
        match self.below(200) {
            0 => greatest + 1,
            1 => 255,
            2..20 => 0,
            20..40 => greatest,
            _ => self.below(usize::from(greatest) + 1) as u8,
        }
    }

    fn fraction(&mut self) -> Option<Fraction> {
        if self.below(2) == 0 {
            return None;
        }
        let most = self.one(&[255, 20, 20, 9]);
        let count = 1 + self.below(most) as u8;
        let value = (self.next() << 33 | self.next()) % 10u64.pow(u32::from(count.min(18)));
        Fraction::of_parts(count, value)
    }

    fn minute_offset(&mut self) -> MinutePrecisionOffset {
        let sign = self.one(&[Sign::Negative, Sign::Positive]);
        MinutePrecisionOffset { sign, hour: self.up_to(23), minute: self.up_to(59) }
    }

    fn offset(&mut self) -> UtcOffsetRecord {
        let minutes = self.minute_offset();
        if self.below(3) == 0 {
            return UtcOffsetRecord::MinutePrecision(minutes);
        }
        let (second, fraction) = (self.up_to(59), self.fraction());
        UtcOffsetRecord::FullPrecisionOffset(FullPrecisionOffset { minute_precision_offset: minutes, second, fraction })
    }

    fn zone(&mut self) -> TimeZoneRecord<'static, Utf8> {
        match self.below(100) {
            0 => TimeZoneRecord::Name(self.one(&NO_NAMES)),
            1..50 => TimeZoneRecord::Name(self.one(&NAMES)),
            _ => TimeZoneRecord::Offset(self.minute_offset()),
        }
    }

    /// A record that can have a zone, and can have a calendar.
    fn record(&mut self) -> Record<'static> {
        let mut record = Record::default();
        if self.below(2) == 0 {
            let mut note = note();
            note.critical = self.below(2) == 0;
            note.tz = self.zone();
            record.tz = Some(note);
        }
        record.calendar = match self.below(100) {
            0 => Some(self.one(&NO_VALUES)),
            1..50 => Some(self.one(&VALUES)),
            _ => None,
        };
        record
    }
}

fn note() -> TimeZoneAnnotation<'static, Utf8> {
    IxdtfParser::from_str("2020-01-01[z]").parse().unwrap().tz.unwrap()
}

// ---- the texts that `format!` writes

fn fraction_text(fraction: Option<Fraction>) -> String {
    let Some(fraction) = fraction else {
        return String::new();
    };
    let count = usize::from(fraction.digit_count());
    format!(".{:0width$}{}", fraction.leading_value(), "0".repeat(count - count.min(18)), width = count.min(18))
}

fn minute_offset_text(offset: MinutePrecisionOffset) -> Option<String> {
    let sign = if offset.sign == Sign::Negative { '-' } else { '+' };
    (offset.hour < 24 && offset.minute < 60).then(|| format!("{sign}{:02}:{:02}", offset.hour, offset.minute))
}

fn offset_text(offset: &UtcOffsetRecord) -> Option<String> {
    match offset {
        UtcOffsetRecord::MinutePrecision(offset) => minute_offset_text(*offset),
        UtcOffsetRecord::FullPrecisionOffset(offset) if offset.second < 60 => {
            let minutes = minute_offset_text(offset.minute_precision_offset)?;
            Some(format!("{minutes}:{:02}{}", offset.second, fraction_text(offset.fraction)))
        }
        _ => None,
    }
}

fn zone_text(zone: &TimeZoneRecord<'_, Utf8>) -> Option<String> {
    match zone {
        TimeZoneRecord::Name(name) if NO_NAMES.contains(name) => None,
        TimeZoneRecord::Name(name) => Some(String::from_utf8(name.to_vec()).unwrap()),
        TimeZoneRecord::Offset(offset) => minute_offset_text(*offset),
        _ => None,
    }
}

fn brackets_text(record: &Record<'_>) -> Option<String> {
    let mut text = String::new();
    if let Some(note) = &record.tz {
        text += if note.critical { "[!" } else { "[" };
        text += &zone_text(&note.tz)?;
        text += "]";
    }
    match record.calendar {
        Some(value) if NO_VALUES.contains(&value) => None,
        Some(value) => Some(format!("{text}[u-ca={}]", std::str::from_utf8(value).unwrap())),
        None => Some(text),
    }
}

fn time_text(record: &Record<'_>) -> Option<String> {
    let time = record.time.filter(|time| time.hour < 24 && time.minute < 60 && time.second < 61)?;
    let offset = match &record.offset {
        None => String::new(),
        Some(UtcOffsetRecordOrZ::Offset(offset)) => offset_text(offset)?,
        Some(_) => String::from("Z"),
    };
    let clock = format!("{:02}:{:02}:{:02}{}", time.hour, time.minute, time.second, fraction_text(time.fraction));
    Some(format!("{clock}{offset}{}", brackets_text(record)?))
}

fn year_month_text(record: &Record<'_>) -> Option<String> {
    let date = record.date.filter(|date| date.year.abs() < 1_000_000 && (1..=12).contains(&date.month) && date.day == 1)?;
    let year = if (0..10_000).contains(&date.year) { format!("{:04}", date.year) } else { format!("{:+07}", date.year) };
    Some(format!("{year}-{:02}{}", date.month, brackets_text(record)?))
}

fn month_day_text(record: &Record<'_>) -> Option<String> {
    const DAYS: [u8; 12] = [31, 29, 31, 30, 31, 30, 31, 31, 30, 31, 30, 31];
    let date = record.date.filter(|date| date.year == 0 && (1..=12).contains(&date.month))?;
    let is_day = date.day <= DAYS[usize::from(date.month) - 1];
    is_day.then_some(format!("{:02}-{:02}{}", date.month, date.day, brackets_text(record)?))
}

// ---- generated records

/// The number of generated records of each kind.
fn count() -> usize {
    std::env::var("RECORDS").map_or(20_000, |count| count.parse().unwrap())
}

/// Generates records, prints them and reads them back. Most of them have a canonical text.
fn check_made<R>(
    make: impl Fn(&mut Numbers) -> R,
    printed: impl Fn(&R) -> Result<String, PrintError>,
    written: impl Fn(&R) -> Option<String>,
    check_read: impl Fn(&R, &str),
) {
    let mut numbers = Numbers(2_026);
    let mut with_text = 0;
    for _ in 0..count() {
        let made = make(&mut numbers);
        let text = printed(&made);
        assert_eq!(text.clone().ok(), written(&made));
        if let Ok(text) = text {
            with_text += 1;
            check_read(&made, &text);
        }
    }
    assert!(with_text > count() / 2 && with_text < count(), "{with_text} of {} have a text", count());
    println!("{with_text} of {} have a text, and were read back", count());
}

const PROFILES: [Profile; 2] = [Profile::Crate, Profile::Strict];

#[test]
fn reads_back_made_offsets() {
    check_made(Numbers::offset, printed_offset, offset_text, |offset, text| {
        assert_eq!(TimeZoneParser::from_str(text).parse_offset(), Ok(*offset), "{text}");
    });
}

#[test]
fn reads_back_made_zones() {
    check_made(Numbers::zone, printed_zone, zone_text, |zone, text| {
        assert_eq!(TimeZoneParser::from_str(text).parse_identifier().as_ref(), Ok(zone), "{text}");
    });
}

#[test]
fn reads_back_made_times() {
    let make = |numbers: &mut Numbers| {
        let mut record = numbers.record();
        if numbers.below(100) > 0 {
            let (hour, minute, second) = (numbers.up_to(23), numbers.up_to(59), numbers.up_to(60));
            record.time = Some(TimeRecord { hour, minute, second, fraction: numbers.fraction() });
        }
        record.offset = match numbers.below(3) {
            0 => None,
            1 => Some(UtcOffsetRecordOrZ::Z),
            _ => Some(UtcOffsetRecordOrZ::Offset(numbers.offset())),
        };
        record
    };
    check_made(make, printed_time, time_text, |record, text| {
        for profile in PROFILES {
            assert_eq!(IxdtfParser::from_str(text).with_profile(profile).parse_time().as_ref(), Ok(record), "{text}");
        }
    });
}

#[test]
fn reads_back_made_year_months() {
    let make = |numbers: &mut Numbers| {
        let mut record = numbers.record();
        let ends = [-1_000_000, -999_999, -1, 0, 9_999, 10_000, 999_999, 1_000_000];
        let year = if numbers.below(8) == 0 { numbers.one(&ends) } else { numbers.below(2_000_000) as i32 - 1_000_000 };
        let near = numbers.below(20_000) as i32 - 5_000;
        let year = if numbers.below(2) == 0 { year } else { near };
        let day = if numbers.below(100) == 0 { numbers.up_to(31) } else { 1 };
        record.date = Some(DateRecord { year, month: numbers.up_to(12), day });
        record
    };
    check_made(make, printed_year_month, year_month_text, |record, text| {
        assert_eq!(IxdtfParser::from_str(text).parse_year_month().as_ref(), Ok(record), "{text}");
    });
}

#[test]
fn reads_back_made_month_days() {
    let make = |numbers: &mut Numbers| {
        let mut record = numbers.record();
        let year = if numbers.below(100) == 0 { numbers.one(&[-1, 1, 2020]) } else { 0 };
        record.date = Some(DateRecord { year, month: numbers.up_to(12), day: numbers.up_to(31) });
        record
    };
    check_made(make, printed_month_day, month_day_text, |record, text| {
        assert_eq!(IxdtfParser::from_str(text).parse_month_day().as_ref(), Ok(record), "{text}");
        let strict = IxdtfParser::from_str(text).with_profile(Profile::Strict).parse_month_day();
        assert_eq!(strict.ok().as_ref(), (record.date.unwrap().day > 0).then_some(record), "{text}");
    });
}

// ---- generated texts

/// Checks that a canonical text is at most `most` bytes longer than the text that was read, and exactly `most` bytes longer for some texts.
fn check_longer(most: usize, seed: u64, parts: &[&[&str]], canonical: impl Fn(&str) -> Option<String>) {
    let mut numbers = Numbers(seed);
    let mut read = 0;
    let mut reached = false;
    for _ in 0..100_000 {
        let text: String = parts.iter().map(|part| numbers.one(part)).collect();
        if let Some(canonical) = canonical(&text) {
            read += 1;
            assert!(canonical.len() <= text.len() + most, "{text}, printed as {canonical}");
            reached |= canonical.len() == text.len() + most;
        }
    }
    assert!(reached && read > 10_000, "{read} texts were read");
}

const ZONES: &[&str] = &["", "", "[UTC]", "[!America/New_York]", "[+05]", "[!-0030]", "[a//b]"];
const CALENDARS: &[&str] = &["", "", "[u-ca=iso8601]", "[!u-ca=hebrew]", "[a=b][u-ca=a-b]", "[u-ca=x][!u-ca=y]"];
const OFFSETS: &[&str] = &["", "Z", "z", "+00", "-0530", "-05:30", "+23:59:59", "+235959.5", "-00:00:00,000", "+24"];

#[test]
fn is_not_much_longer() {
    let hours = &["+00", "-23", "+0530", "-05:30", "+235959", "+23:59:59", "-24", "05"];
    check_longer(3, 1, &[hours, &["", ".5", ",123456789123456789123"]], |text| {
        let offset = TimeZoneParser::from_str(text).parse_offset().ok()?;
        let canonical = printed_offset(&offset).unwrap();
        assert_eq!(TimeZoneParser::from_str(&canonical).parse_offset(), Ok(offset));
        Some(canonical)
    });
    check_longer(3, 2, &[&["+00", "-2359", "+05:30", "a/b", "Etc/GMT+1", "_", ".", "1"], &["", "a", "/b", "/"]], |text| {
        let zone = TimeZoneParser::from_str(text).parse_identifier().ok()?;
        let canonical = printed_zone(&zone).unwrap();
        assert_eq!(TimeZoneParser::from_str(&canonical).parse_identifier().as_ref(), Ok(&zone));
        Some(canonical)
    });
    let clocks = &["00", "12", "2359", "1214", "12:30", "12:30:60", "123059.5", "00:00:00,123456789123456789123", "24"];
    for profile in PROFILES {
        check_longer(12, 3, &[&["", "T", "t"], clocks, OFFSETS, ZONES, CALENDARS], |text| {
            let record = IxdtfParser::from_str(text).with_profile(profile).parse_time().ok()?;
            let canonical = printed_time(&record).unwrap();
            assert_eq!(IxdtfParser::from_str(&canonical).parse_time().as_ref(), Ok(&record));
            Some(canonical)
        });
        let days = &["01", "31", "29", "00", "32"];
        check_longer(4, 4, &[&["", "--"], &["01", "02", "12", "13"], &["", "-"], days, ZONES, CALENDARS], |text| {
            let record = IxdtfParser::from_str(text).with_profile(profile).parse_month_day().ok()?;
            let canonical = printed_month_day(&record).unwrap();
            assert_eq!(IxdtfParser::from_str(&canonical).with_profile(profile).parse_month_day().as_ref(), Ok(&record));
            Some(canonical)
        });
    }
    let years = &["2020", "0000", "9999", "+002020", "-000001", "+010000", "-000000"];
    check_longer(4, 5, &[years, &["", "-"], &["01", "12", "00"], ZONES, CALENDARS], |text| {
        let record = IxdtfParser::from_str(text).parse_year_month().ok()?;
        let canonical = printed_year_month(&record).unwrap();
        assert_eq!(IxdtfParser::from_str(&canonical).parse_year_month().as_ref(), Ok(&record));
        Some(canonical)
    });
}

//! Reads texts whose code units are given as numbers. So a text can contain any code unit. Each line of standard input has the name of a
//! reader, `crate` or `strict` for the profile, the number of bits of a code unit, and the code units in hexadecimal. For each line, it writes
//! `ok` if the reader accepts the text. Otherwise it writes these parts, with a tab between them: the error, its position, the reason, where the
//! part that is wrong begins and ends, the message, and the hint. If there is no hint, the last part is empty. A reader has the name of its method. The reader of durations has the name `duration`.
//! For any other name, it writes `no such reader`. For a line of any other form, it writes `no such line`. `tools/compare_messages.py` runs this
//! example.
//!
//!     echo 'parse crate 8 32 30 32 34' | cargo run --example messages
use ixdtf::LocatedError;
use ixdtf::encoding::{EncodingType, Utf8, Utf16};
use ixdtf::parsers::{IsoDurationParser, IxdtfParser, Profile, TimeZoneParser};
use std::io::{BufRead, BufWriter, Write, stdin, stdout};

/// What a reader says about a text.
type Outcome = Result<(), LocatedError>;

/// Calls the reader with this name. If there is no such reader, returns `None`.
fn outcome<T: EncodingType>(reader: &str, profile: Profile, units: &[T::CodeUnit]) -> Option<Outcome> {
    let mut text = IxdtfParser::<T>::new(units).with_profile(profile);
    let mut zone = TimeZoneParser::<T>::new(units);
    let mut duration = IsoDurationParser::<T>::new(units).with_profile(profile);
    Some(match reader {
        "parse" => text.parse_located().map(drop),
        "parse_year_month" => text.parse_year_month_located().map(drop),
        "parse_month_day" => text.parse_month_day_located().map(drop),
        "parse_time" => text.parse_time_located().map(drop),
        "parse_rfc3339" => text.parse_rfc3339_located().map(drop),
        "parse_rfc9557" => text.parse_rfc9557_located().map(drop),
        "parse_offset" => zone.parse_offset_located().map(drop),
        "parse_identifier" => zone.parse_identifier_located().map(drop),
        "parse_iana_identifier" => zone.parse_iana_identifier_located().map(drop),
        "duration" => duration.parse_located().map(drop),
        _ => return None,
    })
}

/// Returns the answer for an outcome. `text` is the text as bytes.
fn answer(outcome: Option<Outcome>, text: &[u8]) -> String {
    match outcome {
        None => String::from("no such reader"),
        Some(Ok(())) => String::from("ok"),
        Some(Err(error)) => {
            let (part, message) = (error.part_in(text), error.message_in(text));
            let hint = error.hint_in(text).map(|hint| hint.to_string()).unwrap_or_default();
            let LocatedError { error, at, reason } = error;
            format!("{error}\t{at}\t{reason:?}\t{}\t{}\t{message}\t{hint}", part.begin, part.end)
        }
    }
}

/// Returns the answer for a text of 16-bit code units. `part_in`, `message_in` and `hint_in` need the text as bytes, so it is converted to UTF-8. No
/// character has a lone surrogate, so U+FFFD stands for each lone surrogate. All code units before an error are from 1 to 126. So the part that
/// is wrong has the same indices in both texts.
fn wide_answer(reader: &str, profile: Profile, units: &[u16]) -> String {
    answer(outcome::<Utf16>(reader, profile, units), String::from_utf16_lossy(units).as_bytes())
}

/// Returns the answer to a line of standard input. A line has a word that names the reader, then `crate` or `strict`, then `8` or `16`, and then
/// any number of code units in hexadecimal. For every other line, returns `None`.
fn answer_line(line: &str) -> Option<String> {
    let mut parts = line.split_ascii_whitespace();
    let (reader, profile, bits) = (parts.next()?, parts.next()?, parts.next()?);
    let profile = match profile {
        "crate" => Profile::Crate,
        "strict" => Profile::Strict,
        _ => return None,
    };
    match bits {
        "8" => {
            let units = parts.map(|unit| u8::from_str_radix(unit, 16)).collect::<Result<Vec<u8>, _>>().ok()?;
            Some(answer(outcome::<Utf8>(reader, profile, &units), &units))
        }
        "16" => {
            let units = parts.map(|unit| u16::from_str_radix(unit, 16)).collect::<Result<Vec<u16>, _>>().ok()?;
            Some(wide_answer(reader, profile, &units))
        }
        _ => None,
    }
}

fn main() -> std::io::Result<()> {
    let mut out = BufWriter::new(stdout().lock());
    for line in stdin().lock().lines() {
        writeln!(out, "{}", answer_line(&line?).as_deref().unwrap_or("no such line"))?;
    }
    out.flush()
}

#[cfg(test)]
/// Returns the answer for an ASCII text, which has the same code units in both widths.
fn answer_to(reader: &str, bits: u32, text: &str) -> String {
    let units: Vec<String> = text.bytes().map(|unit| format!("{unit:x}")).collect();
    answer_line(&format!("{reader} {bits} {}", units.join(" "))).unwrap()
}

#[test]
fn answers_in_both_widths() {
    for bits in [8, 16] {
        assert_eq!(answer_to("parse crate", bits, "2024-03-02"), "ok");
        assert_eq!(
            answer_to("parse crate", bits, "2024-13-02"),
            "Parsed month value not in a valid range.\t7\tMonthRange\t5\t7\tthe month is 13, and has to be 01 to 12\t"
        );
    }
    assert!(answer_line("parse crate 8 c3 a9").unwrap().ends_with("\t0\tYearStart\t0\t1\texpected a year of four digits, found U+00E9\t"));
    assert!(answer_line("parse crate 8 c3").unwrap().ends_with("\t0\tYearStart\t0\t1\texpected a year of four digits, found the byte 0xC3\t"));
}

#[test]
fn shows_characters_of_several_code_units() {
    assert!(answer_line("parse crate 16 d83d de00").unwrap().ends_with("\t0\tYearStart\t0\t1\texpected a year of four digits, found U+1F600\t"));
    for units in ["d83d", "de00", "d83d 30"] {
        let answer = answer_line(&format!("parse crate 16 {units}")).unwrap();
        assert!(answer.ends_with("\t0\tYearStart\t0\t1\texpected a year of four digits, found U+FFFD\t"), "{answer}");
    }
}

#[test]
fn knows_each_reader() {
    let texts = [
        ("parse", "2024-03-02"),
        ("parse_year_month", "2024-03"),
        ("parse_month_day", "03-02"),
        ("parse_time", "T08"),
        ("parse_rfc3339", "2024-03-02T08:48:00Z"),
        ("parse_rfc9557", "2024-03-02T08:48:00Z[UTC]"),
        ("parse_offset", "+01:00:00"),
        ("parse_identifier", "+01:00"),
        ("parse_iana_identifier", "UTC"),
        ("duration", "P1D"),
    ];
    for (reader, text) in texts {
        for profile in ["crate", "strict"] {
            assert_eq!(answer_to(&format!("{reader} {profile}"), 8, text), "ok", "{reader} {profile}");
        }
        assert_ne!(answer_to(&format!("{reader} crate"), 8, &format!("{text}?")), "ok", "{reader}");
    }
    assert_eq!(answer_to("parse_month_day crate", 8, "03-00"), "ok");
    assert_ne!(answer_to("parse_month_day strict", 8, "03-00"), "ok");
}

#[test]
fn knows_other_lines() {
    for line in ["", "parse", "parse crate", "parse crate 8 100", "parse crate 16 10000", "parse crate 7 30", "parse other 8 30"] {
        assert_eq!(answer_line(line), None, "{line}");
    }
    assert_eq!(answer_line("rfc crate 8 30").unwrap(), "no such reader");
}

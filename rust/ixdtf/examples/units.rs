//! Reads texts whose code units are given as numbers. So a text can contain any code unit. Each line of standard input has the name of a
//! reader, the number of bits of a code unit, and the code units in hexadecimal. For each line, it writes `ok`, or `error` with the text of the
//! error and its position. The readers are `rfc3339` and `rfc9557`. For any other name, it writes `no such reader`. For a line of any other
//! form, it writes `no such line`. `tools/compare_rfc_patterns.py` runs this example.
//!
//!     echo 'rfc3339 8 32 30 32 34' | cargo run --example units
use ixdtf::encoding::{EncodingType, Utf8, Utf16};
use ixdtf::parsers::IxdtfParser;
use std::io::{BufRead, BufWriter, Write, stdin, stdout};

/// Returns the answer for a text: the result of the reader.
fn answer<T: EncodingType>(reader: &str, units: &[T::CodeUnit]) -> String {
    let mut parser = IxdtfParser::<T>::new(units);
    let found = match reader {
        "rfc3339" => parser.parse_rfc3339_located(),
        "rfc9557" => parser.parse_rfc9557_located(),
        _ => return String::from("no such reader"),
    };
    found.map_or_else(|error| format!("error {error}"), |_| String::from("ok"))
}

/// Returns the answer to a line of standard input. A line has a word that names the reader, then `8` or `16`, then any number of code units in
/// hexadecimal. For every other line, returns `None`.
fn answer_line(line: &str) -> Option<String> {
    let mut parts = line.split_ascii_whitespace();
    let (reader, bits) = (parts.next()?, parts.next()?);
    match bits {
        "8" => Some(answer::<Utf8>(reader, &parts.map(|unit| u8::from_str_radix(unit, 16)).collect::<Result<Vec<u8>, _>>().ok()?)),
        "16" => Some(answer::<Utf16>(reader, &parts.map(|unit| u16::from_str_radix(unit, 16)).collect::<Result<Vec<u16>, _>>().ok()?)),
        _ => None,
    }
}

fn main() -> std::io::Result<()> {
    let mut out = BufWriter::new(stdout().lock());
    for line in stdin().lock().lines() {
        writeln!(out, "{}", answer_line(&line?).as_deref().unwrap_or("no such line"))?;
    }
    out.flush()
}

#[cfg(test)]
/// Returns the line for an ASCII text, which has the same code units in both widths.
fn line_of(reader: &str, bits: u32, text: &str) -> String {
    let units: Vec<String> = text.bytes().map(|unit| format!("{unit:x}")).collect();
    format!("{reader} {bits} {}", units.join(" "))
}

#[test]
fn answers_in_both_widths() {
    for bits in [8, 16] {
        assert_eq!(answer_line(&line_of("rfc3339", bits, "2024-03-02T08:48:00Z")).unwrap(), "ok");
        assert_eq!(
            answer_line(&line_of("rfc3339", bits, "20240302")).unwrap(),
            "error Invalid character while parsing date separator. at 4"
        );
    }
    assert_eq!(answer_line("rfc3339 16 ff12").unwrap(), "error Code point was not ASCII at 0");
}

#[test]
fn knows_both_readers() {
    let zoned = "2024-03-02T08:48:00Z[UTC]";
    assert_eq!(answer_line(&line_of("rfc9557", 16, zoned)).unwrap(), "ok");
    assert_eq!(
        answer_line(&line_of("rfc3339", 16, zoned)).unwrap(),
        "error Unexpected character found after parsing was completed. at 20"
    );
}

#[test]
fn knows_other_lines() {
    assert_eq!(answer_line("rfc3339"), None);
    assert_eq!(answer_line("rfc3339 8 100"), None);
    assert_eq!(answer_line("rfc3339 7 30"), None);
    assert_eq!(answer_line("rfc 8 30").unwrap(), "no such reader");
}

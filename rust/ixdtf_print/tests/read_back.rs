//! Tests that a record is equal to the record that is read back from its canonical text, on texts of the documents and on generated texts.
use ixdtf::parsers::IxdtfParser;
use ixdtf::records::IxdtfParseRecord;
use ixdtf_print::{print, printed_length, Canonical, PrintError};
use std::error::Error;

fn printed(text: &str) -> Result<String, PrintError> {
    let parsed = IxdtfParser::from_str(text).parse().unwrap();
    let mut out = [0; 4352];
    let count = print(&parsed, &mut out)?;
    Ok(String::from_utf8(out[..count].to_vec()).unwrap())
}

#[test]
fn refuses() {
    let parsed = IxdtfParser::from_str("2020-01-01T00+01:00:00.50[!-05]").parse().unwrap();
    let mut out = [7; 39];
    assert_eq!(print(&parsed, &mut out), Err(PrintError::TooShort));
    assert_eq!(print(&IxdtfParseRecord::default(), &mut out), Err(PrintError::NotPrintable));
    assert_eq!(out, [7; 39]);
}

/// The text has the length that `printed_length` returns. `Display` writes the same text, and ignores the width of the format.
#[test]
fn displays_what_it_prints() -> Result<(), Box<dyn Error>> {
    for text in ["20240302 084800z[!u-ca=hebrew]", "-0000010101t00[!-05]", "2020-01-01[a/b]"] {
        let parsed = IxdtfParser::from_str(text).parse()?;
        let mut out = vec![0; printed_length(&parsed).ok_or("no text")?];
        assert_eq!(print(&parsed, &mut out)?, out.len());
        let shown = Canonical::of(&parsed).ok_or("no text")?;
        assert_eq!(shown.to_string().as_bytes(), out);
        assert_eq!(format!("{shown:>80}"), shown.to_string());
    }
    let time = IxdtfParser::from_str("T12:00").parse_time()?;
    assert_eq!(printed_length(&time), None);
    assert!(Canonical::of(&time).is_none());
    Ok(())
}

/// The printer cannot print what a record does not keep, such as annotations with other keys. It prints a year-month or a month-day as a date,
/// or refuses it.
#[test]
fn says_what_is_lost() {
    assert_eq!(printed("2020-01-01[!u-ca=x][a=b]").as_deref(), Ok("2020-01-01[u-ca=x]"));
    assert_eq!(printed("2020-01-01T00:00:00.1234567890123456789").as_deref(), Ok("2020-01-01T00:00:00.1234567890123456780"));
    let mut out = [0; 64];
    let month = IxdtfParser::from_str("2020-11[UTC]").parse_year_month().unwrap();
    assert_eq!(print(&month, &mut out).map(|count| &out[..count]), Ok(b"2020-11-01[UTC]".as_slice()));
    let day = IxdtfParser::from_str("--02-29").parse_month_day().unwrap();
    assert_eq!(print(&day, &mut out).map(|count| &out[..count]), Ok(b"0000-02-29".as_slice()));
    let no_day = IxdtfParser::from_str("11-00").parse_month_day().unwrap();
    assert_eq!(print(&no_day, &mut out), Err(PrintError::NotPrintable));
    let time = IxdtfParser::from_str("T12:00").parse_time().unwrap();
    assert_eq!(print(&time, &mut out), Err(PrintError::NotPrintable));
}

/// Pseudorandom numbers. They are the same in each run.
struct Numbers(u64);

impl Numbers {
    fn below(&mut self, most: usize) -> usize {
        self.0 = self.0.wrapping_mul(6_364_136_223_846_793_005).wrapping_add(1_442_695_040_888_963_407);
        (self.0 >> 33) as usize % most
    }

    fn one<'a>(&mut self, parts: &[&'a str]) -> &'a str {
        parts[self.below(parts.len())]
    }
}

#[test]
fn reads_back_what_it_prints() {
    let mut numbers = Numbers(2_024);
    let mut read = 0;
    for _ in 0..100_000 {
        let mut text = String::new();
        text += numbers.one(&["2024-02-29", "20231231", "+012345-01-01", "-000001-10-10", "0000-01-01", "2023-02-29"]);
        text += numbers.one(&["", "T00", "t2359", " 12:30", "T12:30:60", "T123059.5", "T00:00:00,123456789123456789123"]);
        text += numbers.one(&["", "Z", "z", "+00", "-05:30", "+23:59:59", "-00:00:00.000"]);
        text += numbers.one(&["", "[UTC]", "[!America/New_York]", "[+05]", "[!-0030]", "[a//b]"]);
        text += numbers.one(&["", "[u-ca=iso8601]", "[!u-ca=hebrew]", "[a=b][u-ca=a-b]", "[u-ca=x][!u-ca=y]"]);
        let mut parser = IxdtfParser::from_str(&text);
        let Ok(parsed) = parser.parse() else {
            let refused = parser.parse().map(|_| ());
            assert_eq!(refused, IxdtfParser::from_str(&text).parse().map(|_| ()), "{text}, once more");
            continue;
        };
        read += 1;
        let canonical = printed(&text).unwrap();
        assert!(canonical.len() <= text.len() + 14, "{text}");
        assert_eq!(IxdtfParser::from_str(&canonical).parse(), Ok(parsed), "{text}, printed as {canonical}");
    }
    assert!(read > 10_000);
}

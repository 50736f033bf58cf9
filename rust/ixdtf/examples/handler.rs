//! Reads the annotations of each argument with a handler. The handler accepts the key `x-note`, even if the annotation is critical. It
//! replaces the calendar `gregorian` by `gregory`.
//!
//!     cargo run --example handler -- '2024-03-02[u-ca=gregorian][!x-note=draft]'
use ixdtf::ParseError;
use ixdtf::parsers::IxdtfParser;

/// What the program uses of a text: the value of the annotation `x-note`, and the calendar.
#[derive(Debug, Default, PartialEq)]
struct Found<'a> {
    note: Option<&'a [u8]>,
    calendar: Option<&'a [u8]>,
}

fn read(text: &str) -> Result<Found<'_>, ParseError> {
    let mut note = None;
    let record = IxdtfParser::from_str(text).parse_with_annotation_handler(|mut annotation| {
        if annotation.key == b"x-note" {
            note = Some(annotation.value);
            // `None` drops the annotation. So the reader does not refuse it, although the reader does not know its key.
            return None;
        }
        if annotation.key == b"u-ca" && annotation.value == b"gregorian" {
            annotation.value = b"gregory";
        }
        // The returned annotation replaces the annotation of the text.
        Some(annotation)
    })?;
    Ok(Found { note, calendar: record.calendar })
}

fn main() {
    for text in std::env::args().skip(1) {
        match read(&text) {
            Ok(found) => {
                let shown = |units: Option<&[u8]>| String::from_utf8_lossy(units.unwrap_or(b"none")).into_owned();
                println!("{text}: the note is {}, the calendar is {}", shown(found.note), shown(found.calendar));
            }
            Err(error) => println!("{text}: {error}"),
        }
    }
}

#[test]
fn reads() {
    let found = read("2024-03-02[u-ca=gregorian][!x-note=draft][a=b]").unwrap();
    assert_eq!(found, Found { note: Some(b"draft"), calendar: Some(b"gregory") });
    assert_eq!(read("2024-03-02"), Ok(Found::default()));
    assert_eq!(read("2024-03-02[!a=b]"), Err(ParseError::UnrecognizedCritical));
}

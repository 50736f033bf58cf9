//! Reads each argument with two handlers. Both are passed as one type, `&mut dyn FnMut`, so the program contains the reader with a
//! handler only once.
//!
//!     cargo run --example many_handlers -- '2024-03-02[!x-note=draft][u-ca=hebrew]'
use ixdtf::ParserResult;
use ixdtf::encoding::Utf8;
use ixdtf::parsers::IxdtfParser;
use ixdtf::records::{Annotation, IxdtfParseRecord};

/// Reads a text with a handler of any type.
fn parse_with<'a>(
    text: &'a str,
    handler: &mut dyn FnMut(Annotation<'a, Utf8>) -> Option<Annotation<'a, Utf8>>,
) -> ParserResult<IxdtfParseRecord<'a, Utf8>> {
    IxdtfParser::from_str(text).parse_with_annotation_handler(handler)
}

/// Returns the number of annotations of a text. The handler drops each of them.
fn count(text: &str) -> ParserResult<usize> {
    let mut count = 0;
    parse_with(text, &mut |_| {
        count += 1;
        None
    })?;
    Ok(count)
}

/// Returns the calendar of a text. The handler drops all other annotations, even critical ones.
fn calendar_of(text: &str) -> ParserResult<Option<&[u8]>> {
    let record = parse_with(text, &mut |annotation| {
        if annotation.key == b"u-ca" { Some(annotation) } else { None }
    })?;
    Ok(record.calendar)
}

fn main() {
    for text in std::env::args().skip(1) {
        match (count(&text), calendar_of(&text)) {
            (Ok(count), Ok(calendar)) => {
                let calendar = String::from_utf8_lossy(calendar.unwrap_or(b"none"));
                println!("{text}: annotations: {count}, calendar: {calendar}");
            }
            (Err(error), _) | (_, Err(error)) => println!("{text}: {error}"),
        }
    }
}

#[test]
fn reads() {
    let text = "2024-03-02[!x-note=draft][u-ca=hebrew]";
    assert_eq!(count(text), Ok(2));
    assert_eq!(calendar_of(text), Ok(Some(b"hebrew".as_slice())));
    assert_eq!(calendar_of("2024-03-02"), Ok(None));
}

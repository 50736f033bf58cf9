//! Reads each argument as 8-bit text and as 16-bit text, with one function that is generic over the encoding. Prints both results.
//!
//!     cargo run --example widths -- 2024-03-02 '２０２４-03-02'
use ixdtf::ParserResult;
#[cfg(test)]
use ixdtf::ParseError;
use ixdtf::encoding::{EncodingType, Utf8, Utf16};
use ixdtf::parsers::IxdtfParser;
use ixdtf::records::DateRecord;

/// Reads the date of a text of 8-bit or of 16-bit code units.
fn date_of<T: EncodingType>(source: &[T::CodeUnit]) -> ParserResult<Option<DateRecord>> {
    Ok(IxdtfParser::<T>::new(source).parse()?.date)
}

/// Reads a text as 8-bit text and as 16-bit text. Returns both results.
fn in_both(text: &str) -> (ParserResult<Option<DateRecord>>, ParserResult<Option<DateRecord>>) {
    let units: Vec<u16> = text.encode_utf16().collect();
    (date_of::<Utf8>(text.as_bytes()), date_of::<Utf16>(&units))
}

fn main() {
    for text in std::env::args().skip(1) {
        let (narrow, wide) = in_both(&text);
        println!("{text}: {narrow:?} of 8-bit units, {wide:?} of 16-bit units");
    }
}

#[test]
fn gives_the_same() {
    let (narrow, wide) = in_both("2024-03-02");
    let date = narrow.unwrap().unwrap();
    assert_eq!((date.year, date.month, date.day), (2024, 3, 2));
    assert_eq!(wide, Ok(Some(date)));
    assert_eq!(in_both("2024-13-02"), (Err(ParseError::InvalidMonthRange), Err(ParseError::InvalidMonthRange)));
}

#[test]
fn gives_another_error_outside_of_ascii() {
    let digits = "２０２４-03-02";
    assert_eq!(in_both(digits), (Err(ParseError::DateYear), Err(ParseError::NonAsciiCodePoint)));
}

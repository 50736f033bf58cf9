//! Puts each 16-bit code unit at each index of a text. The reader returns what it returns for 8-bit text with the same numbers, or refuses the code unit.
use ixdtf::encoding::{EncodingType, Utf16, Utf8};
use ixdtf::parsers::IxdtfParser;
use ixdtf::ParseError;

const TEXT: &[u8; 15] = b"2020-01-01[cet]";

/// The date, whether there is a zone, and the position of the error, of what `parse_located` returns.
fn outcome<T: EncodingType>(units: &[T::CodeUnit]) -> Result<(i32, u8, u8, bool), (ParseError, usize)> {
    let record = IxdtfParser::<T>::new(units).parse_located().map_err(|error| (error.error, error.at))?;
    let date = record.date.unwrap();
    Ok((date.year, date.month, date.day, record.tz.is_some()))
}

#[test]
fn each_unit_is_read_as_its_letter_or_is_bad() {
    for index in 0..TEXT.len() {
        let mut bytes = *TEXT;
        let mut units = TEXT.map(u16::from);
        for unit in 0..=u16::MAX {
            units[index] = unit;
            let wide = outcome::<Utf16>(&units);
            match u8::try_from(unit) {
                Ok(byte) if (1..=126).contains(&byte) => {
                    bytes[index] = byte;
                    assert_eq!(wide, outcome::<Utf8>(&bytes), "{unit} at {index}");
                }
                _ => assert_eq!(wide, Err((ParseError::NonAsciiCodePoint, index)), "{unit} at {index}"),
            }
        }
    }
}

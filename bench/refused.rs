//! Parses refused 16-bit texts, takes apart what `parse` returns in the same function, and prints a count.

use ixdtf::parsers::IxdtfParser;

const TEXTS: [&str; 6] = ["2024-13-17", "2024-02-30", "2024-05-17T25:00", "2024-05-17x", "hello", ""];

fn main() {
    let texts = TEXTS.map(|text| text.encode_utf16().collect::<Vec<u16>>());
    let mut refused = 0u64;
    for number in 0..12_000_000 {
        match IxdtfParser::from_utf16(&texts[number % TEXTS.len()]).parse() {
            Ok(record) => refused += u64::from(record.calendar.is_some()) + u64::from(record.date.is_some_and(|date| date.year > 0)),
            Err(_) => refused += 1,
        }
    }
    println!("{refused}");
}

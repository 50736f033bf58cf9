//! The first example of the README of the repository: `cargo run --example first`.

use ixdtf::parsers::IxdtfParser;

fn main() {
    for text in ["2024-03-02T08:48:00Z", "2024-03-02T8:48"] {
        match IxdtfParser::from_str(text).parse_located() {
            Ok(record) => println!("{:?}", record.date.unwrap()),
            Err(error) => println!("{}\n{}", error.message_in(text.as_bytes()), error.in_text(text)),
        }
    }
}

//! Prints for each argument whether it is a valid date, or a valid date and time. If it is not, prints what is wrong, and marks under this part of the text.
//!
//!     cargo run --example validate -- 2024-03-02T08:48:00Z 2024-02-30
use ixdtf::parsers::IxdtfParser;

/// Returns one line if the text is accepted. Otherwise returns what is wrong, the text, and marks under the part that is wrong.
fn report(text: &str) -> String {
    match IxdtfParser::from_str(text).parse_located() {
        Ok(_) => format!("{text}: valid"),
        Err(error) => format!("{text}: {}\n{}", error.message_in(text.as_bytes()), error.in_text(text)),
    }
}

fn main() {
    for text in std::env::args().skip(1) {
        println!("{}", report(&text));
    }
}

#[test]
fn reports() {
    assert_eq!(report("2024-03-02T08:48:00Z"), "2024-03-02T08:48:00Z: valid");
    assert_eq!(
        report("2020-x1"),
        "2020-x1: expected a digit of the month, which has two, found `x`\n2020-x1\n     ^"
    );
}

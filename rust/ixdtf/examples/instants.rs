//! Reads the lines of standard input. For each line, writes its instant: the seconds, the nanoseconds, and the instant as text, such as
//! `2024-03-02T08:48:00Z`. If a line has no instant, writes `none`.
//! `tools/compare_instants.py` runs this example.

use ixdtf::parsers::IxdtfParser;
use std::io::{BufRead, BufWriter, Write, stdin, stdout};

fn main() -> std::io::Result<()> {
    let mut out = BufWriter::new(stdout().lock());
    for line in stdin().lock().lines() {
        let instant = IxdtfParser::from_str(&line?).parse().ok().and_then(|record| record.instant());
        match instant {
            Some(instant) => writeln!(out, "{} {} {instant}", instant.seconds, instant.nanoseconds)?,
            None => writeln!(out, "none")?,
        }
    }
    out.flush()
}

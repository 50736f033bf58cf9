//! Reads lines from standard input, and writes one line with the answer to each of them to standard output.
//!
//! A person wrote this file.
#![forbid(unsafe_code)]

mod answer;
mod answer_fields;
mod canonical_answers;
mod explanations;
mod no_arguments;
mod outcome;
mod reader_answers;
mod runner;
mod word;

use ixdtf_buffers::error::RunError;
use no_arguments::arguments_allowed;
use runner::run;
use std::fmt;
use std::io::{Write, stderr, stdin, stdout};
use std::process::ExitCode;

fn main() -> ExitCode {
    if !arguments_allowed(std::env::args_os().skip(1).count()) {
        say(format_args!("ixdtf_lines: takes no arguments"));
        say(format_args!("{USAGE}"));
        return ExitCode::from(2);
    }
    match run(&mut stdin().lock(), &mut standard_output()) {
        Ok(()) => ExitCode::SUCCESS,
        Err(RunError::Read) => failed("read"),
        Err(RunError::Write) => failed("write"),
    }
}

/// Returns standard output without Rust's buffer, as a second file descriptor of the same output.
///
/// The program has its own buffer. Rust's buffer writes everything up to the last complete line, and keeps the rest, so it would cut each
/// write of the program in two. If the system gives no second file descriptor, this function returns standard output with Rust's buffer.
fn standard_output() -> Box<dyn Write> {
    #[cfg(unix)]
    if let Ok(descriptor) = std::os::fd::AsFd::as_fd(&stdout()).try_clone_to_owned() {
        return Box::new(std::fs::File::from(descriptor));
    }
    Box::new(stdout().lock())
}

/// The usage, which says what a line of the input is.
const USAGE: &str = "usage: a line of standard input is a word, a space and a text, and the words are \
    parse, year-month, month-day, time, offset, zone, iana, duration, strict-month-day, \
    strict-time, strict-duration, rfc3339, rfc9557, zone-name, instant, canonical, canonical-time, \
    canonical-year-month, canonical-month-day, canonical-offset, canonical-zone, canonical-duration; \
    explain and a space can be before the word";

/// Reports that reading or writing failed.
fn failed(what: &str) -> ExitCode {
    say(format_args!("ixdtf_lines: {what} failed"));
    ExitCode::from(1)
}

/// Writes a line to standard error. If the line cannot be written, the program goes on: nothing is left that could say so.
fn say(line: fmt::Arguments<'_>) {
    let _ = writeln!(stderr(), "{line}");
}

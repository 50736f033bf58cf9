//! Reports the lines of files that are not valid, and says where and why.
//!
//! A person wrote this file.
#![forbid(unsafe_code)]

mod arguments;
mod cause;
mod checker;
mod checking;
mod coloured;
mod csv;
mod exit_status;
mod instant_reading;
mod json;
mod judge;
mod kind;
mod line_part;
mod marked_text;
mod named_column;
mod nearest;
mod option_name;
mod option_value;
mod printed_line;
mod printing;
mod reading;
mod refusal;
mod report;
mod report_contents;
mod report_room;
mod request;
mod second_output;
mod shown;
mod skipped;
mod tally;
mod verdict;

use arguments::{Options, Word, Wrong, meant_by};
use checker::check;
use exit_status::status_of;
use ixdtf_buffers::error::RunError;
use named_column::{column_in_record, column_named};
use request::{Extent, Request};
use std::fmt::{self, Display};
use std::fs::File;
use std::io::{self, ErrorKind, IsTerminal, Read, Stderr, Write, stderr, stdin, stdout};
use std::process::ExitCode;
use tally::Tally;
use verdict::LINE_LIMIT;

const USAGE: &str = "\
usage: ixdtf_check [OPTION..] [FILE..]
Reports the lines of the files, or of standard input, that are no valid dates, times or
durations.

What is read:
  --kind KIND      the kind of the texts: date-time (the default), year-month, month-day,
                   time, offset, zone, zone-name or iana, duration, rfc3339, rfc9557
  --strict         the strict profile: a month-day does not have the day 00,
                   a duration does not repeat a unit, and 1200 is a time
  --ordered        also the order: no instant may be earlier than that of the line before
  ixdtf_check --kind rfc3339 times.txt
  ixdtf_check --kind=duration --strict durations.txt

Which lines are read:
  --header         not the first line of each file, which has the names of the fields
  --skip-blank     not the lines that have only spaces and tabs, or no byte
  --comment C      not the lines that begin with the byte C
  ixdtf_check --skip-blank --comment '#' times.txt

Which part of a line is read:
  --field N        field N of each line, counted from 1, and not the complete line
  --field NAME     the field that has this name in the first line; needs --header
  --fields A-B     fields A to B as one text; in each line, a space separates two fields
  --csv            with --field: lines are records of RFC 4180; fields may be in quotes
  --separator C    the byte between two fields; without this option, it is a tab,
                   or a comma with --csv, or a space with --fields
  ixdtf_check --field 3 --separator , table.csv
  ixdtf_check --header --field time --separator , table.csv
  ixdtf_check --fields 1-2 server.log
  ixdtf_check --csv --header --field time table.csv

What is written:
  --canonical      the canonical text of each accepted text; then the reports go to
                   standard error
  --max-reports N  at most N reports, and the number of the others
  --format FORMAT  the form of the reports: text (the default), or json
  --color WHEN     colours in the reports: auto (the default), always or never
  --quiet          no reports about refused lines; the counts are still written
  ixdtf_check --canonical --quiet dates.txt

Other:
  --help, -h       this text
  --version, -V    the version of the program
  --               every word after it is the name of a file
  The file - is standard input.

Exit status: 0 if every line was accepted, 1 if a line was refused, and 2 if an
argument is wrong, a file could not be checked, or something could not be written.";

const VERSION: &str = concat!("ixdtf_check ", env!("CARGO_PKG_VERSION"));

/// The results of the checks of all files.
struct Outcome {
    total: Tally,
    has_failed: bool,
    /// The most reports of all files together.
    most_reports: u64,
    /// Whether lines that are refused are reported.
    shows_refusals: bool,
    /// Whether a write to standard output has failed, or a write of a report to standard error. No file is checked after this.
    is_closed: bool,
    /// Whether standard output is a pipe that nobody reads, or a write of a report to standard error has failed. Then the program writes
    /// nothing more, not even to standard error.
    is_quiet: bool,
}

/// The two outputs of the checks.
struct Outputs {
    /// Standard output.
    output: Box<dyn Write>,
    /// The output of the reports with `--canonical`: standard error, which has no buffer.
    reports: Stderr,
}

impl Outcome {
    /// Limits the reports of the next file to those that the files before it have left.
    fn limit_reports(&mut self, request: &mut Request<'_>) {
        self.most_reports = request.most_reports;
        self.shows_refusals = !request.is_quiet;
        request.most_reports = request.most_reports.saturating_sub(self.total.refused);
    }

    /// Returns how many refused lines have no report because there are too many of them.
    fn unreported(&self) -> u64 {
        if self.shows_refusals { self.total.refused.saturating_sub(self.most_reports) } else { 0 }
    }
}

fn main() -> ExitCode {
    let mut words = Vec::new();
    for word in std::env::args_os().skip(1) {
        match word.into_string() {
            Ok(word) => words.push(word),
            Err(word) => return refuse(&format!("{}: this argument is not UTF-8", word.to_string_lossy())),
        }
    }
    let mut options = Options::new();
    let mut files = Vec::new();
    for word in &words {
        match options.take(word) {
            Word::Option => {}
            Word::File => files.push(word.as_str()),
            Word::Help => return show(USAGE),
            Word::Version => return show(VERSION),
            Word::Wrong(wrong) => return refuse_word(word, wrong),
        }
    }
    if let Some(wrong) = options.wrong() {
        return refuse(wrong.message());
    }
    if files.is_empty() {
        files.push("-");
    }
    let is_terminal = if options.has_two_outputs() { stderr().is_terminal() } else { stdout().is_terminal() };
    options.settle_color(is_terminal && shows_colors());
    let mut outputs = Outputs { output: standard_output(), reports: stderr() };
    let mut outcome = Outcome { total: Tally::new(), has_failed: false, most_reports: u64::MAX, shows_refusals: false, is_closed: false, is_quiet: false };
    let field_name = options.field_name().map(|it| it.in_word(&words[it.word]));
    for name in files {
        if !outcome.is_closed {
            check_file(&options, field_name, name, &mut outputs, &mut outcome);
        }
    }
    let Tally { lines, refused, bytes } = outcome.total;
    if !outcome.is_quiet && options.has_counts() {
        let more = outcome.unreported();
        if more > 0 {
            say(format_args!("{more} more refused line{}", plural_ending(more)));
        }
        let (of_lines, of_bytes) = (plural_ending(lines), plural_ending(bytes));
        say(format_args!("{lines} line{of_lines}, {refused} refused, {bytes} byte{of_bytes}"));
    }
    ExitCode::from(status_of(outcome.has_failed, refused))
}

/// Returns the ending of the word for what is counted: `1 line`, but `2 lines`.
fn plural_ending(count: u64) -> &'static str {
    if count == 1 { "" } else { "s" }
}

/// Returns whether a terminal shows colours, and the user does not forbid them: `NO_COLOR` is not set or is empty, and `TERM` is not `dumb`.
fn shows_colors() -> bool {
    let is_forbidden = std::env::var_os("NO_COLOR").is_some_and(|value| !value.is_empty());
    let is_dumb = std::env::var_os("TERM").is_some_and(|value| value == "dumb");
    !is_forbidden && !is_dumb
}

/// Writes a line to standard error. If the line cannot be written, the program goes on: nothing is left that could say so.
fn say(line: fmt::Arguments<'_>) {
    let _ = writeln!(stderr(), "{line}");
}

/// Writes the usage or the version to standard output. If it cannot be written, says why, unless nobody reads standard output.
fn show(text: &str) -> ExitCode {
    match writeln!(stdout(), "{text}") {
        Ok(()) => ExitCode::SUCCESS,
        Err(error) => {
            if error.kind() != ErrorKind::BrokenPipe {
                say(format_args!("ixdtf_check: standard output: {error}"));
            }
            ExitCode::from(2)
        }
    }
}

/// Reports what is wrong with an argument, and which argument was probably meant.
fn refuse_word(word: &str, wrong: Wrong) -> ExitCode {
    say(format_args!("ixdtf_check: {word}: {}", wrong.message()));
    if let Some(meant) = meant_by(word, wrong) {
        say(format_args!("Did you mean {meant}?"));
    }
    point_to_help()
}

/// Reports what is wrong with the arguments.
fn refuse(message: &str) -> ExitCode {
    say(format_args!("ixdtf_check: {message}"));
    point_to_help()
}

/// Writes how to see the usage. Returns the exit status 2.
fn point_to_help() -> ExitCode {
    say(format_args!("ixdtf_check --help shows the options."));
    ExitCode::from(2)
}

/// Returns standard output without Rust's buffer, as a second file descriptor of the same output.
///
/// The program has its own buffer. Rust's buffer writes everything up to the last complete line, and keeps the rest, so it would cut each
/// write of the program in two. If the system gives no second file descriptor, this function returns standard output with Rust's buffer.
fn standard_output() -> Box<dyn Write> {
    #[cfg(unix)]
    if let Ok(descriptor) = std::os::fd::AsFd::as_fd(&stdout()).try_clone_to_owned() {
        return Box::new(File::from(descriptor));
    }
    Box::new(stdout().lock())
}

/// Checks the file with this name. The name `-` means standard input.
fn check_file(options: &Options, field_name: Option<&str>, name: &str, outputs: &mut Outputs, outcome: &mut Outcome) {
    let Some(request) = options.request(name) else {
        return;
    };
    if name == "-" {
        return check_reader(&mut stdin().lock(), options, field_name, request, outputs, outcome);
    }
    match File::open(name) {
        Ok(mut file) => check_reader(&mut file, options, field_name, request, outputs, outcome),
        Err(error) => complain(name, error, outcome),
    }
}

/// Checks the lines of the reader. If the option `--field` has a name, the first line of the reader says which field has this name.
fn check_reader<R: Read>(
    reader: &mut R,
    options: &Options,
    field_name: Option<&str>,
    mut request: Request<'_>,
    outputs: &mut Outputs,
    outcome: &mut Outcome,
) {
    let Some(field_name) = field_name else {
        return check_request(reader, request, outputs, outcome);
    };
    let front = match front_of(reader) {
        Ok(front) => front,
        Err(error) => return complain(request.name, error, outcome),
    };
    let line = front.split(|byte| *byte == b'\n').next().unwrap_or(&front);
    let field = options.field_after(0);
    let column = if field.extent == Extent::Csv {
        column_in_record(field.separator, field_name.as_bytes(), line, &mut [0; LINE_LIMIT])
    } else {
        column_named(field.separator, field_name.as_bytes(), line)
    };
    match column {
        Ok(before) => {
            request.field = Some(options.field_after(before));
            check_request(&mut front.as_slice().chain(reader), request, outputs, outcome);
        }
        Err(error) => complain(request.name, format_args!("--field {field_name}: {}", error.message()), outcome),
    }
}

/// Reads the first line, and perhaps some bytes after it. If the first line is too long, reads only its first bytes. If a signal interrupts a
/// read, the read is tried again.
fn front_of<R: Read>(reader: &mut R) -> io::Result<Vec<u8>> {
    let mut front = vec![0; LINE_LIMIT];
    let mut count = 0;
    while count < front.len() && !front[..count].contains(&b'\n') {
        match reader.read(&mut front[count..]) {
            Ok(0) => break,
            Ok(more) => count += more,
            Err(error) if error.kind() == ErrorKind::Interrupted => {}
            Err(error) => return Err(error),
        }
    }
    front.truncate(count);
    Ok(front)
}

/// Checks the lines of the reader, as the request says.
fn check_request<R: Read>(reader: &mut R, mut request: Request<'_>, outputs: &mut Outputs, outcome: &mut Outcome) {
    let name = request.name;
    outcome.limit_reports(&mut request);
    let mut watched = Watched { inner: reader, error: None };
    let mut output = Watched { inner: &mut outputs.output, error: None };
    let mut reports = Watched { inner: &mut outputs.reports, error: None };
    let checked = check(&mut watched, &mut output, &mut reports, &request);
    outcome.total.add(checked.tally);
    match checked.end {
        Ok(()) => {}
        Err(RunError::Read) => match watched.error {
            Some(error) => complain(name, error, outcome),
            None => complain(name, "too many bytes", outcome),
        },
        Err(RunError::Write) => {
            outcome.is_closed = true;
            outcome.has_failed = true;
            outcome.is_quiet = reports.error.is_some() || output.error.is_some_and(|error| error.kind() == ErrorKind::BrokenPipe);
            if !outcome.is_quiet {
                complain("standard output", "cannot be written", outcome);
            }
        }
    }
}

/// Reports what failed, and why.
fn complain<D: Display>(name: &str, why: D, outcome: &mut Outcome) {
    outcome.has_failed = true;
    say(format_args!("ixdtf_check: {name}: {why}"));
}

/// A reader or a writer that keeps the error of its last call, if this call failed. So it does not keep the error of a read or a write that
/// succeeded when it was tried again.
struct Watched<'r, R> {
    inner: &'r mut R,
    error: Option<io::Error>,
}

impl<R> Watched<'_, R> {
    /// Keeps the error of a call. Returns an error of the same kind.
    fn keep(&mut self, error: io::Error) -> io::Error {
        let kind = error.kind();
        self.error = Some(error);
        io::Error::from(kind)
    }
}

impl<R: Read> Read for Watched<'_, R> {
    fn read(&mut self, buf: &mut [u8]) -> io::Result<usize> {
        self.error = None;
        self.inner.read(buf).map_err(|error| self.keep(error))
    }
}

impl<W: Write> Write for Watched<'_, W> {
    fn write(&mut self, buf: &[u8]) -> io::Result<usize> {
        self.error = None;
        self.inner.write(buf).map_err(|error| self.keep(error))
    }

    fn flush(&mut self) -> io::Result<()> {
        self.inner.flush().map_err(|error| self.keep(error))
    }
}

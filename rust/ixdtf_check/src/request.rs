// Made by tools/to_rust.py of crates/ixdtf_checks/src/request.rt. Do not edit.

//! What the check of one file does with the lines: the options, after `arguments` has read them.

use crate::kind::{InstantKind, Kind};
use ixdtf::parsers::Profile;

/// What the check does with each text.
#[derive(Clone, Copy, Debug, PartialEq)]
pub enum Task {
    /// The text is read as a text of this kind.
    Check(Kind),
    /// The text is read as a text of this kind, and its canonical text is written.
    Print(Kind),
    /// The text is read as a text of this kind. It has to name an instant. This instant must not be before the previous instant.
    /// The previous instant is that of the nearest preceding line whose text names an instant.
    Order(InstantKind),
}

/// Says where the text of a line is. The text is one field of the line, or several consecutive fields.
#[derive(Clone, Copy, Debug, PartialEq)]
pub struct Field {
    /// The number of fields before the text.
    pub before: usize,
    /// The byte between two fields.
    pub separator: u8,
    /// Where the text ends.
    pub extent: Extent,
}

/// Says where a text ends. The text begins where a field begins. There is one exception: if the extent is `Csv` and the field
/// is in quotes, the text begins after the opening quote, and ends before the closing quote.
#[derive(Clone, Copy, Debug, PartialEq)]
pub enum Extent {
    /// At the end of this field.
    One,
    /// At the end of a later field. The value is the number of fields of the text after its first field: it is 1 if the text is
    /// two fields. The separators between the fields belong to the text.
    More(usize),
    /// At the end of this field. The line must be a record of RFC 4180, and the field may be in quotes.
    Csv,
}

/// Which lines have no text. These lines are skipped: nothing is written about them. But a line that is too long is refused, and
/// not skipped.
#[derive(Clone, Copy, Debug, PartialEq)]
pub struct Skips {
    /// Whether the first line is skipped, because it has the names of the fields.
    pub header: bool,
    /// Whether blank lines are skipped. A blank line is empty, or has only spaces and tabs.
    pub blank: bool,
    /// The first byte of each line that is a comment. It is `None` if there are no comments.
    pub comment: Option<u8>,
}

/// The form of the report of a refused line.
#[derive(Clone, Copy, Debug, PartialEq)]
pub enum Format {
    /// The name of the file, the number of the line, the column and the message. Under them, the text of the line is shown, with
    /// marks under the part that is wrong.
    Text,
    /// The same text with colours, for a terminal.
    Coloured,
    /// An object of JSON (RFC 8259) on a line of its own.
    Json,
}

/// The options of the check of one file.
#[derive(Clone, Copy)]
pub struct Request<'n> {
    /// The name of the file, as it is written in reports.
    pub name: &'n str,
    /// What the check does with each text.
    pub task: Task,
    /// The profile that the readers use. A profile is a set of rules for the texts.
    pub profile: Profile,
    /// Says where the text of a line is. If this is `None`, the complete line is the text.
    pub field: Option<Field>,
    /// Which lines are skipped. If it is `None`, no line is skipped.
    pub skips: Option<Skips>,
    /// The greatest number of reports about refused lines. If it is `n`, only the first `n` refused lines can have a report.
    pub most_reports: u64,
    /// The form of the reports.
    pub format: Format,
    /// If this is `true`, no reports are written about refused lines.
    pub is_quiet: bool,
}

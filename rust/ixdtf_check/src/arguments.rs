// Made by tools/to_rust.py of crates/ixdtf_checks/src/arguments.rt. Do not edit.

//! The arguments of the program: the words after its name.

use crate::csv::QUOTE;
use crate::kind::{InstantKind, Kind};
use crate::nearest::{COLORS, FORMATS, KINDS, OPTIONS, nearest_of};
use crate::option_name::{Meaning, OptionName};
use crate::option_value::{Color, Column, Setting, TAB, Valued, setting_of};
use crate::request::{Extent, Field, Format, Request, Skips, Task};
use ixdtf::parsers::Profile;

/// The separator of the fields of `--csv`, if there is no `--separator`.
const COMMA: u8 = b',';

/// The separator of the fields of `--fields`. With this option, the text of a line can be several fields, with one space
/// between each field and the next.
const SPACE: u8 = b' ';

/// The value of `Skips` if no option asks to skip lines: no line is skipped.
const NOTHING_SKIPPED: Skips = Skips {
    header: false,
    blank: false,
    comment: None,
};

/// The role of a word among the arguments.
#[derive(Clone, Copy, Debug, PartialEq)]
pub enum Word {
    /// The word is an option, or the value of an option.
    Option,
    /// The word is the name of a file, or `-`.
    File,
    /// The word asks for the usage: `--help` or `-h`.
    Help,
    /// The word asks for the version: `--version` or `-V`.
    Version,
    /// The program refuses the word, for this reason.
    Wrong(Wrong),
}

/// The reason why the program refuses a word, or a combination of words.
#[derive(Clone, Copy, Debug, PartialEq)]
pub enum Wrong {
    /// There is no such option.
    UnknownOption,
    /// The option does not take a value, but the word gives it one, such as `--quiet=yes`.
    UnexpectedValue,
    /// The last word is an option that needs a value.
    MissingValue,
    /// There is no kind with this name.
    UnknownKind,
    /// The value of `--field` is 0 or empty.
    InvalidField,
    /// The value of `--field` is a name, but there is no `--header`.
    NameWithoutHeader,
    /// The value of `--separator` is neither one byte nor `\t`.
    InvalidSeparator,
    /// The value of `--comment` is not one byte.
    InvalidComment,
    /// The value of `--max-reports` is not a number below `2^64`.
    InvalidCount,
    /// There is no form of reports with this name.
    UnknownFormat,
    /// The value of `--color` is not `auto`, `always` or `never`.
    UnknownColor,
    /// There is `--separator`, but neither `--field` nor `--fields`.
    SeparatorWithoutField,
    /// The value of `--fields` does not have the form `FIRST-LAST`, where FIRST and LAST are the numbers of two fields, and LAST
    /// is not less than FIRST.
    InvalidFields,
    /// There is `--fields`, and the value of `--separator` is not a space.
    FieldsSeparator,
    /// There is `--csv`, but the text of a line is not one field. Either there is no `--field`, or `--fields` comes after `--field`
    /// and replaces it.
    CsvWithoutField,
    /// There is `--csv`, and the value of `--separator` is a quote.
    CsvSeparator,
    /// There is `--ordered`, and no text of the kind can name an instant. A text names an instant if it has a date, a time, and
    /// an offset or `Z`.
    OrderedKind,
    /// There is `--ordered` together with `--canonical`.
    OrderedCanonical,
}

impl Wrong {
    /// Returns the message for the user: what is wrong, or what was expected.
    pub fn message(self) -> &'static str {
        match self {
            Wrong::UnknownOption => "there is no such option",
            Wrong::UnexpectedValue => "this option has no value",
            Wrong::MissingValue => "the last word is an option that needs a value",
            Wrong::UnknownKind => {
                "there is no such kind; the kinds are date-time, year-month, month-day, time, offset, zone, zone-name, iana, duration, rfc3339 and rfc9557"
            }
            Wrong::InvalidField =>
                "expected the number of a field, which is 1 or more, or its name",
            Wrong::NameWithoutHeader => {
                "expected the number of a field, which is 1 or more; --field NAME needs --header"
            }
            Wrong::InvalidSeparator => "expected a separator of one byte, or \\t for a tab",
            Wrong::InvalidComment => "expected the one byte with which comments begin",
            Wrong::InvalidCount => "expected a number of reports",
            Wrong::UnknownFormat => "there is no such format; the formats are text and json",
            Wrong::UnknownColor => "expected auto, always or never",
            Wrong::SeparatorWithoutField => "--separator needs --field or --fields",
            Wrong::InvalidFields => {
                "expected the numbers of two fields with a - between them, such as 1-2; the first is 1 or more, and the second is not less"
            }
            Wrong::FieldsSeparator => {
                "--fields joins fields that a space separates; expected no --separator, or a space"
            }
            Wrong::CsvWithoutField => "--csv needs --field",
            Wrong::CsvSeparator => "with --csv, the separator cannot be a quote",
            Wrong::OrderedKind => {
                "--ordered is only for the kinds date-time, rfc3339 and rfc9557, whose texts can name instants"
            }
            Wrong::OrderedCanonical => "--ordered and --canonical do not go together",
        }
    }
}

/// Returns what the user probably meant with a refused word: an option, the name of a kind, the name of a format, or a value of
/// `--color`.
pub fn meant_by(word: &str, wrong: Wrong) -> Option<&'static str> {
    let (option, value) = match word.split_once('=') {
        None => (word, word),
        Some(parts) => parts,
    };
    match wrong {
        Wrong::UnknownOption => nearest_of(option, &OPTIONS),
        Wrong::UnknownKind => nearest_of(value, &KINDS),
        Wrong::UnknownFormat => nearest_of(value, &FORMATS),
        Wrong::UnknownColor => nearest_of(value, &COLORS),
        Wrong::UnexpectedValue
        | Wrong::MissingValue
        | Wrong::InvalidField
        | Wrong::NameWithoutHeader
        | Wrong::InvalidSeparator
        | Wrong::InvalidComment
        | Wrong::InvalidCount
        | Wrong::SeparatorWithoutField
        | Wrong::InvalidFields
        | Wrong::FieldsSeparator
        | Wrong::CsvWithoutField
        | Wrong::CsvSeparator
        | Wrong::OrderedKind
        | Wrong::OrderedCanonical => None,
    }
}

/// What the program expects as the next word.
#[derive(Clone, Copy, Debug, PartialEq)]
enum Awaited {
    /// An option, or the name of a file.
    Anything,
    /// The value of this option.
    Value(Valued),
    /// The name of a file.
    File,
}

/// The position of the name of a field in the arguments. The name is the value of `--field`.
#[derive(Clone, Copy, Debug, PartialEq)]
pub struct FieldName {
    /// The number of words before the word that contains the name.
    pub word: usize,
    /// The number of bytes of this word before the name.
    pub start: usize,
}

impl FieldName {
    /// Returns the name. `word` is the word that contains it.
    pub fn in_word(self, word: &str) -> &str {
        word.get(self.start..).unwrap_or("")
    }
}

/// The options of the program. Each call of `take` applies one more word to them.
#[derive(Clone, Copy, Debug, PartialEq)]
pub struct Options {
    awaited: Awaited,
    /// The number of words before the present one.
    words: usize,
    kind: Option<Kind>,
    is_strict: bool,
    column: Option<Column>,
    separator: Option<u8>,
    is_csv: bool,
    skips: Skips,
    most_reports: Option<u64>,
    format: Format,
    color: Color,
    is_canonical: bool,
    is_ordered: bool,
    is_quiet: bool,
}

impl Options {
    /// Creates the options before the first word: no option is set.
    pub fn new() -> Options {
        Options {
            awaited: Awaited::Anything,
            words: 0,
            kind: None,
            is_strict: false,
            column: None,
            separator: None,
            is_csv: false,
            skips: NOTHING_SKIPPED,
            most_reports: None,
            format: Format::Text,
            color: Color::Auto,
            is_canonical: false,
            is_ordered: false,
            is_quiet: false,
        }
    }

    /// Applies the next word to the options, and returns the role of the word.
    pub fn take(&mut self, word: &str) -> Word {
        let taken = self.take_awaited(word);
        self.words = self.words.saturating_add(1);
        taken
    }

    /// Applies a word, but does not count it.
    fn take_awaited(&mut self, word: &str) -> Word {
        match self.awaited {
            Awaited::Anything => self.take_any(word),
            Awaited::Value(option) => self.take_value(option, word, 0),
            Awaited::File => Word::File,
        }
    }

    /// Applies a word that is not the value of the word before it.
    fn take_any(&mut self, word: &str) -> Word {
        if is_file(word.as_bytes()) {
            return Word::File;
        }
        match word.split_once('=') {
            None => self.take_option(word),
            Some((option, value)) => self.take_with_value(option, value),
        }
    }

    /// Applies an option that has no `=`. If the option has a value, the next word is the value.
    fn take_option(&mut self, option: &str) -> Word {
        match OptionName::named(option.as_bytes()) {
            None => Word::Wrong(Wrong::UnknownOption),
            Some(option) => match option.meaning() {
                Meaning::Help => Word::Help,
                Meaning::Version => Word::Version,
                Meaning::Files => {
                    self.awaited = Awaited::File;
                    Word::Option
                }
                Meaning::Sets(setting) => {
                    self.set(setting);
                    Word::Option
                }
                Meaning::Takes(option) => {
                    self.awaited = Awaited::Value(option);
                    Word::Option
                }
            },
        }
    }

    /// Applies an option and its value, which were one word with a `=` between them.
    fn take_with_value(&mut self, option: &str, value: &str) -> Word {
        match OptionName::named(option.as_bytes()) {
            None => Word::Wrong(Wrong::UnknownOption),
            Some(name) => match name.meaning() {
                Meaning::Takes(valued) => {
                    self.take_value(valued, value, option.len().saturating_add(1))
                }
                Meaning::Help | Meaning::Version | Meaning::Files | Meaning::Sets(_) => {
                    Word::Wrong(Wrong::UnexpectedValue)
                }
            },
        }
    }

    /// Applies the value of an option. `start` is the index at which the value begins in its word.
    fn take_value(&mut self, option: Valued, value: &str, start: usize) -> Word {
        let place = FieldName {
            word: self.words,
            start,
        };
        self.awaited = Awaited::Anything;
        match setting_of(option, value, place) {
            Ok(setting) => {
                self.set(setting);
                Word::Option
            }
            Err(wrong) => Word::Wrong(wrong),
        }
    }

    /// Applies a setting. It replaces what an earlier option of the same name says.
    fn set(&mut self, setting: Setting) {
        match setting {
            Setting::Strict => self.is_strict = true,
            Setting::Ordered => self.is_ordered = true,
            Setting::Csv => self.is_csv = true,
            Setting::Header => self.skips.header = true,
            Setting::SkipBlank => self.skips.blank = true,
            Setting::Canonical => self.is_canonical = true,
            Setting::Quiet => self.is_quiet = true,
            Setting::Kind(kind) => self.kind = Some(kind),
            Setting::Column(column) => self.column = Some(column),
            Setting::Separator(byte) => self.separator = Some(byte),
            Setting::Comment(byte) => self.skips.comment = Some(byte),
            Setting::MaxReports(count) => self.most_reports = Some(count),
            Setting::Format(format) => self.format = format,
            Setting::Color(color) => self.color = color,
        }
    }

    /// Decides whether reports have colours, if `--color` is missing or has the value `auto`. Reports as objects of JSON never have
    /// colours. `shows_colors` says whether the reports go to a terminal that shows colours. Call this function after all words.
    /// Without a call, `auto` means no colours.
    pub fn settle_color(&mut self, shows_colors: bool) {
        if self.color == Color::Auto && shows_colors {
            self.color = Color::Always;
        }
    }

    /// Returns whether there is `--canonical`. With this option, the canonical texts go to standard output, and the reports go to
    /// standard error.
    pub fn has_two_outputs(&self) -> bool {
        self.is_canonical
    }

    /// Returns whether the numbers of lines, of refused lines and of bytes are written to standard error. If the reports go to standard
    /// error as objects of JSON, these numbers are not written there. Then standard error contains only objects, if nothing fails.
    pub fn has_counts(&self) -> bool {
        !(self.has_two_outputs() && self.format == Format::Json)
    }

    /// Returns the form of the reports. Objects of JSON never have colours.
    fn format_with_color(&self) -> Format {
        if self.format == Format::Text && self.color == Color::Always {
            Format::Coloured
        } else {
            self.format
        }
    }

    /// Returns the reason why the words do not fit together. Returns `None` if they do.
    pub fn wrong(&self) -> Option<Wrong> {
        let kind = self.kind.unwrap_or(Kind::DateTime);
        match self.awaited {
            Awaited::Value(_) => Some(Wrong::MissingValue),
            Awaited::Anything | Awaited::File => {
                if self.separator.is_some() && self.column.is_none() {
                    Some(Wrong::SeparatorWithoutField)
                } else if self.is_csv && !self.is_one_field() {
                    Some(Wrong::CsvWithoutField)
                } else if self.is_csv && self.separator == Some(QUOTE) {
                    Some(Wrong::CsvSeparator)
                } else if self.joins_other_fields() {
                    Some(Wrong::FieldsSeparator)
                } else if self.field_name().is_some() && !self.skips.header {
                    Some(Wrong::NameWithoutHeader)
                } else if self.is_ordered && InstantKind::of(kind).is_none() {
                    Some(Wrong::OrderedKind)
                } else if self.is_ordered && self.is_canonical {
                    Some(Wrong::OrderedCanonical)
                } else {
                    None
                }
            }
        }
    }

    /// Returns the position of the name in `--field NAME`. Returns `None` if `--field` has a number or is
    /// missing, or if `--fields` comes after it.
    pub fn field_name(&self) -> Option<FieldName> {
        match self.column {
            Some(Column::Named(field_name)) => Some(field_name),
            Some(Column::After(_) | Column::Between(_, _)) | None => None,
        }
    }

    /// Returns whether the text is one field of a line.
    fn is_one_field(&self) -> bool {
        match self.column {
            Some(Column::After(_) | Column::Named(_)) => true,
            Some(Column::Between(_, _)) | None => false,
        }
    }

    /// Returns whether `--fields` says which fields are the text, and `--separator` has another value than a space. The program
    /// refuses this combination.
    fn joins_other_fields(&self) -> bool {
        match (self.column, self.separator) {
            (Some(Column::Between(_, _)), Some(separator)) => separator != SPACE,
            _ => false,
        }
    }

    /// Returns the field that has `before` fields before it. The separator is that of `--separator`. Without this option, it is a
    /// comma if there is `--csv`, and otherwise a tab.
    pub fn field_after(&self, before: usize) -> Field {
        Field {
            before,
            separator: self
                .separator
                .unwrap_or(if self.is_csv { COMMA } else { TAB }),
            extent: if self.is_csv {
                Extent::Csv
            } else {
                Extent::One
            },
        }
    }

    /// Returns the request for a file with this name. Returns `None` if the words do not fit together. If the words name a field,
    /// the caller has to find this field in the first line of the file, and to set `field` of the request.
    pub fn request<'n>(&self, name: &'n str) -> Option<Request<'n>> {
        if self.wrong().is_some() {
            return None;
        }
        Some(Request {
            name,
            task: self.task(),
            profile: if self.is_strict {
                Profile::Strict
            } else {
                Profile::Crate
            },
            field: self.numbered_field(),
            skips: self.skips(),
            most_reports: self.most_reports.unwrap_or(u64::MAX),
            format: self.format_with_color(),
            is_quiet: self.is_quiet,
        })
    }

    /// Returns the field, if `--field` has a number, or the fields of `--fields`.
    fn numbered_field(&self) -> Option<Field> {
        match self.column {
            Some(Column::After(before)) => Some(self.field_after(before)),
            Some(Column::Between(before, more)) => Some(Field {
                before,
                separator: SPACE,
                extent: Extent::More(more),
            }),
            Some(Column::Named(_)) | None => None,
        }
    }

    /// Returns which lines are skipped. Returns `None` if no line is skipped.
    fn skips(&self) -> Option<Skips> {
        if self.skips == NOTHING_SKIPPED {
            None
        } else {
            Some(self.skips)
        }
    }

    /// Returns the task for each text.
    fn task(&self) -> Task {
        let kind = self.kind.unwrap_or(Kind::DateTime);
        if self.is_canonical {
            return Task::Print(kind);
        }
        match InstantKind::of(kind) {
            Some(kind) if self.is_ordered => Task::Order(kind),
            _ => Task::Check(kind),
        }
    }
}

/// Returns whether the word is the name of a file, or `-`.
fn is_file(word: &[u8]) -> bool {
    match word {
        [b'-'] => true,
        [first, ..] => *first != b'-',
        [] => true,
    }
}

// Made by tools/to_rust.py of crates/ixdtf_checks/src/option_value.rt. Do not edit.

//! The values of the options of the program `ixdtf_check`.

use crate::arguments::{FieldName, Wrong};
use crate::kind::Kind;
use crate::request::Format;

/// The separator of fields, if no option gives another one.
pub const TAB: u8 = b'\t';

/// An option that has a value.
#[derive(Clone, Copy, Debug, PartialEq)]
pub enum Valued {
    Kind,
    Field,
    Fields,
    Separator,
    Comment,
    MaxReports,
    Format,
    Color,
}

/// What an option and its value say.
#[derive(Clone, Copy, Debug, PartialEq)]
pub enum Setting {
    Strict,
    Ordered,
    Csv,
    Header,
    SkipBlank,
    Canonical,
    Quiet,
    Kind(Kind),
    Column(Column),
    Separator(u8),
    Comment(u8),
    MaxReports(u64),
    Format(Format),
    Color(Color),
}

/// When reports as a text have colours.
#[derive(Clone, Copy, Debug, PartialEq)]
pub enum Color {
    /// If they go to a terminal that shows colours.
    Auto,
    Always,
    Never,
}

/// The field or the fields of a line that are its text.
#[derive(Clone, Copy, Debug, PartialEq)]
pub enum Column {
    /// The field that has this number of fields before it.
    After(usize),
    /// The field that has a given name in the first line of a file.
    Named(FieldName),
    /// `Between(before, more)`: the field that has `before` fields before it, and the `more` fields after it.
    Between(usize, usize),
}

/// Returns what an option says with this value. `place` says where the value begins.
pub fn setting_of(option: Valued, value: &str, place: FieldName) -> Result<Setting, Wrong> {
    match option {
        Valued::Kind => kind_setting(value.as_bytes()),
        Valued::Field => field_setting(value, place),
        Valued::Fields => fields_setting(value),
        Valued::Separator => separator_setting(value.as_bytes()),
        Valued::Comment => comment_setting(value.as_bytes()),
        Valued::MaxReports => count_setting(value),
        Valued::Format => format_setting(value.as_bytes()),
        Valued::Color => color_setting(value.as_bytes()),
    }
}

/// Returns what `--kind` says. The value is the name of a kind.
fn kind_setting(value: &[u8]) -> Result<Setting, Wrong> {
    match Kind::named(value) {
        Some(kind) => Ok(Setting::Kind(kind)),
        None => Err(Wrong::UnknownKind),
    }
}

/// Returns what `--field` says. The value is the number of a field, from 1, or its name. `place` says where the value begins.
fn field_setting(value: &str, place: FieldName) -> Result<Setting, Wrong> {
    match value.parse::<usize>() {
        Ok(0) => Err(Wrong::InvalidField),
        Ok(number) => Ok(Setting::Column(Column::After(number - 1))),
        Err(_) if value.is_empty() => Err(Wrong::InvalidField),
        Err(_) => Ok(Setting::Column(Column::Named(place))),
    }
}

/// Returns what `--fields` says. The value has the numbers of the first and the last field, with a `-` between them.
fn fields_setting(value: &str) -> Result<Setting, Wrong> {
    let Some((first, last)) = value.split_once('-') else {
        return Err(Wrong::InvalidFields);
    };
    match (first.parse::<usize>(), last.parse::<usize>()) {
        (Ok(first), Ok(last)) if first > 0 && first <= last => {
            Ok(Setting::Column(Column::Between(first - 1, last - first)))
        }
        _ => Err(Wrong::InvalidFields),
    }
}

/// Returns what `--separator` says. The value is one byte, or `\t` for a tab.
fn separator_setting(value: &[u8]) -> Result<Setting, Wrong> {
    match value {
        [byte] => Ok(Setting::Separator(*byte)),
        [b'\\', b't'] => Ok(Setting::Separator(TAB)),
        _ => Err(Wrong::InvalidSeparator),
    }
}

/// Returns what `--comment` says. The value is the byte with which comments begin.
fn comment_setting(value: &[u8]) -> Result<Setting, Wrong> {
    match value {
        [byte] => Ok(Setting::Comment(*byte)),
        _ => Err(Wrong::InvalidComment),
    }
}

/// Returns what `--max-reports` says. The value is the greatest number of reports.
fn count_setting(value: &str) -> Result<Setting, Wrong> {
    match value.parse::<u64>() {
        Ok(count) => Ok(Setting::MaxReports(count)),
        Err(_) => Err(Wrong::InvalidCount),
    }
}

/// Returns what `--format` says. The value is the name of a form of reports.
fn format_setting(value: &[u8]) -> Result<Setting, Wrong> {
    if value == b"text".as_slice() {
        Ok(Setting::Format(Format::Text))
    } else if value == b"json".as_slice() {
        Ok(Setting::Format(Format::Json))
    } else {
        Err(Wrong::UnknownFormat)
    }
}

/// Returns what `--color` says.
fn color_setting(value: &[u8]) -> Result<Setting, Wrong> {
    if value == b"auto".as_slice() {
        Ok(Setting::Color(Color::Auto))
    } else if value == b"always".as_slice() {
        Ok(Setting::Color(Color::Always))
    } else if value == b"never".as_slice() {
        Ok(Setting::Color(Color::Never))
    } else {
        Err(Wrong::UnknownColor)
    }
}

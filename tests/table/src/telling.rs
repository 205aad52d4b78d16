//! How what is wrong is told (RULES 15.8, 15.9, 7).

use crate::reading::Refusal;

/// What is wrong with tables, by kind.
pub const KINDS: [(u64, &str); 15] = [
    (101, "the file has nothing in it"),
    (102, "there are more columns than a record has fields"),
    (103, "no field has this name"),
    (104, "a column before this one has the same name"),
    (105, "no column is named form"),
    (106, "no column is named minute"),
    (107, "the line has fewer cells than the first line"),
    (108, "the line has more cells than the first line"),
    (109, "the cell is empty"),
    (110, "the cell is not a number in plain decimal digits"),
    (111, "the number is too large"),
    (112, "cells are not quoted"),
    (113, "the cell is neither a number nor the name of a form"),
    (114, "the line is empty"),
    (115, "the line is too long"),
];

/// Refusals that the reader and the writer of records make.
pub const REFUSALS: [(u64, &str); 4] = [
    (2, "the record does not have 40 bytes"),
    (3, "there is no such form"),
    (4, "a field that the form does not use is not 0"),
    (5, "a field that the form uses is out of its range"),
];

/// A name of the first line is cut after so many bytes.
const SHOWN_BYTES: usize = 80;

/// What a refusal or a kind is told as.
pub fn told_as(number: u64) -> &'static str {
    let known = KINDS.iter().chain(&REFUSALS).find(|(told, _)| *told == number);
    known.map(|(_, text)| *text).expect("a refusal of records or a kind of tables")
}

/// A cell of the first line as it is shown.
pub fn shown(cell: &[u8]) -> String {
    let printable = |byte: &u8| if matches!(byte, b' '..=b'~') { char::from(*byte) } else { '?' };
    cell.iter().take(SHOWN_BYTES).map(printable).collect()
}

impl Refusal {
    /// The line on standard error, without its line feed.
    pub fn message(&self, file: &str) -> String {
        let column = self.column.map_or(String::new(), |column| format!(", column {column}"));
        let name = self.name.as_ref().map_or(String::new(), |name| format!(" ({name})"));
        let by = if self.kind < 100 { format!("refused by {}, ", self.kind) } else { String::new() };
        format!("{file}: line {}{column}{name}: {by}{}", self.line, told_as(self.kind))
    }
}

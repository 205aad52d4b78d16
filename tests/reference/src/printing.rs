//! What the printing program prints (RULES 13).

use std::fmt::Write;

use crate::book::{Book, Security};
use crate::call::{AREA_BYTES, Answer};
use crate::record::RECORD_BYTES;

/// A line for each record, one of them perhaps cut short, then a line for
/// each security.
pub fn print(input: &[u8]) -> String {
    let mut book = Book::fresh();
    let mut area = [0; AREA_BYTES];
    let mut text = String::new();
    for (place, record) in input.chunks(RECORD_BYTES).enumerate() {
        let (answer, rows) = match book.call(record, &mut area) {
            Answer::Accepted(counts) => (0, counts.rows),
            Answer::Refused(number) => (number, 0),
        };
        writeln!(text, "{} {answer} {rows}", place + 1).expect("a string takes all");
    }
    for security in &book.securities {
        writeln!(text, "{}", custody_line(security)).expect("a string takes all");
    }
    text
}

/// All four figures are kept with the security; no account is looked at.
pub fn custody_line(security: &Security) -> String {
    let Security { code, issued, outside, held } = security;
    format!("CUSTODY {code} ISSUED {issued} HELD {held} OUTSIDE {outside}")
}

//! Stands in for the programs under test, by the reader and the writer here:
//!
//!     table-standin FILE    as import
//!     table-standin         as export, of the records on standard input

use std::env;
use std::fs;
use std::io::{self, Read, Write};

use table::{reading, writing};

fn main() -> io::Result<()> {
    match env::args().nth(1) {
        Some(file) => import(&file),
        None => export(),
    }
}

/// A refused table leaves standard output empty.
fn import(file: &str) -> io::Result<()> {
    let text = match fs::read(file) {
        Ok(text) => text,
        Err(reason) => return writeln!(io::stderr(), "{file}: cannot be read: {reason}"),
    };
    match reading::read(&text) {
        Ok(records) => io::stdout().write_all(&records.concat()),
        Err(refusal) => io::stderr().write_all((refusal.message(file) + "\n").as_bytes()),
    }
}

fn export() -> io::Result<()> {
    let mut records = Vec::new();
    io::stdin().read_to_end(&mut records)?;
    io::stdout().write_all(writing::write(&records).as_bytes())
}

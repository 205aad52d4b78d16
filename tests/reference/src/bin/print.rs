//! Prints what the printing program has to print for the records on standard
//! input.

use std::io::{self, Read, Write};

fn main() -> io::Result<()> {
    let mut input = Vec::new();
    io::stdin().read_to_end(&mut input)?;
    io::stdout().write_all(reference::printing::print(&input).as_bytes())
}

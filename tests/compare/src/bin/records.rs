//! Writes a drawn file of records to standard output, for the printing
//! program and the reference's `print`:
//!
//!     records PROFILE SEED RECORDS [TAIL]
//!
//! TAIL is the length of a last record, 0 to 39 bytes.

use std::env;
use std::io::{self, Write};

use compare::generator::Generator;
use compare::generator::profile::{fast_days, profiles};
use reference::book::Book;
use reference::call::AREA_BYTES;
use reference::record::RECORD_BYTES;

fn main() -> io::Result<()> {
    let words: Vec<String> = env::args().skip(1).collect();
    let number = |place: usize| words.get(place).and_then(|word| word.parse::<u64>().ok());
    let named = |name: &String| profiles().into_iter().chain([fast_days()]).find(|profile| profile.name == name);
    let (Some(profile), Some(seed), Some(count)) = (words.first().and_then(named), number(1), number(2)) else {
        return Err(io::Error::other("usage: records PROFILE SEED RECORDS [TAIL]"));
    };
    let mut generator = Generator::new(profile, seed);
    let mut book = Book::fresh();
    let mut file = Vec::new();
    while file.len() < count as usize * RECORD_BYTES {
        let record = generator.next_call(&book).record;
        if record.len() == RECORD_BYTES {
            book.call(&record, &mut [0; AREA_BYTES]);
            file.extend(record);
        }
    }
    let tail = number(3).unwrap_or(0) as usize % RECORD_BYTES;
    file.extend(&generator.next_call(&book).area[..tail]);
    io::stdout().write_all(&file)
}

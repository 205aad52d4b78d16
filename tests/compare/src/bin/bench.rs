//! Nanoseconds a call of the library under test and of the Rust reference on
//! the same streams, in one run.
//!
//!     bench                       all streams, on both sides
//!     bench --stream NAME TIMES   one stream on the library alone, not timed,
//!                                 from its start so many times: for a program
//!                                 that counts instructions
//!
//! valgrind --tool=callgrind --toggle-collect=depository_call counts those
//! inside the calls alone, the ones before the stream's start with them: two
//! numbers of times give the instructions of one.

use std::env;
use std::hint::black_box;
use std::time::Instant;

use compare::depository::Depository;
use compare::streams::{Stream, streams};
use reference::book::Book;
use reference::call::{AREA_BYTES, Answer};

/// Each stream is timed so often on each side, in turns; the median counts.
const ROUNDS: usize = 7;

#[cfg(library_linked)]
type Library = compare::proved::Proved;
#[cfg(not(library_linked))]
type Library = Book;

fn main() {
    let words: Vec<String> = env::args().skip(1).collect();
    match words.iter().map(String::as_str).collect::<Vec<&str>>()[..] {
        [] => report_all(),
        ["--stream", name, times] => run_alone(name, times.parse().expect("a number of times")),
        _ => panic!("bench, or bench --stream NAME TIMES"),
    }
}

/// One stream on the library alone.
fn run_alone(name: &str, times: usize) {
    let streams = streams();
    let stream = streams.iter().find(|stream| stream.name == name).expect("a stream of this name");
    let start = start::<Library>(stream);
    let mut area = [0; AREA_BYTES];
    (0..times).for_each(|_| run(&mut start.clone(), stream, &mut area));
    println!("{}: {times} times {} calls of '{name}'", Library::NAME, stream.timed.len());
}

fn report_all() {
    println!("Nanoseconds a call: {} and {}, the median of {ROUNDS} rounds in turns.", Library::NAME, Book::NAME);
    println!("Both sides get the same records. On both sides the book is copied back to the stream's start outside");
    println!(
        "the timed part, one area of {AREA_BYTES} bytes serves all calls of a round and is not cleared, and nothing is"
    );
    println!("decoded or compared. The reference is written to be read; it is not tuned.");
    println!("{:<56} {:>8} {:>12} {:>12} {:>8}", "stream", "calls", "library", "reference", "ratio");
    streams().iter().for_each(report);
}

fn report(stream: &Stream) {
    let (mut library, mut reference) = (Vec::new(), Vec::new());
    for _ in 0..ROUNDS {
        library.push(time::<Library>(stream));
        reference.push(time::<Book>(stream));
    }
    let (library, reference) = (median(library), median(reference));
    let (calls, ratio) = (stream.timed.len() * stream.repeats, library / reference);
    println!("{:<56} {calls:>8} {library:>12.0} {reference:>12.0} {ratio:>8.2}", stream.name);
}

fn median(mut times: Vec<f64>) -> f64 {
    times.sort_by(f64::total_cmp);
    times[times.len() / 2]
}

/// The book in the stream's state.
fn start<D: Depository>(stream: &Stream) -> D {
    let mut book = D::fresh();
    for record in &stream.before {
        let answer = book.call(record, &mut [0; AREA_BYTES]);
        assert!(matches!(answer, Ok(Answer::Accepted(_))), "the state of '{}' is reached", stream.name);
    }
    book
}

fn run<D: Depository>(book: &mut D, stream: &Stream, area: &mut [u8]) {
    for record in &stream.timed {
        black_box(book.call(black_box(record), area)).expect("the boundary holds");
    }
}

/// Nanoseconds a call of one round.
fn time<D: Depository>(stream: &Stream) -> f64 {
    let mut area = [0; AREA_BYTES];
    let mut books = vec![start::<D>(stream); stream.repeats];
    let clock = Instant::now();
    books.iter_mut().for_each(|book| run(book, stream, &mut area));
    clock.elapsed().as_nanos() as f64 / (stream.timed.len() * stream.repeats) as f64
}

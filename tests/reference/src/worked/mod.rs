//! Worked lists: calls with their answers and what the book says after them,
//! worked out on paper. They stand here alone. The tests of this crate run
//! them, and so does the comparison, on both of its sides.

mod custody;
mod figures;
mod orders;
mod passes;
mod rate;
mod requests;
mod sent;

use crate::book::Book;
use crate::call::{Answer, Counts};
use crate::record::Order;
use crate::rows::ROW_BYTES;
use crate::sent::CONFIRMED;
use crate::windows::{end_of_work, next_cycle_minute};
use figures::{Figure, same};
use orders::{answer, form, open};

/// A list starts from the fresh book.
pub struct List {
    pub name: &'static str,
    steps: Vec<Step>,
}

enum Step {
    /// A call and its whole answer.
    Call(Order, Answer),
    /// The rows that the last call has written.
    Rows(&'static [u128]),
    /// Each day is ended and the next one opened, until this one is open.
    OnToDay(u64),
    /// What the book says now.
    Book(&'static [Figure]),
}

/// What is there after a call.
pub struct Reply {
    pub answer: Answer,
    pub area: Vec<u8>,
    pub book: Book,
}

/// All lists.
pub fn lists() -> Vec<List> {
    [rate::lists(), requests::lists(), custody::lists(), sent::lists(), passes::lists()].into_iter().flatten().collect()
}

/// An accepted call that writes no row and counts nothing.
fn accepted(order: Order) -> Step {
    Step::Call(order, Answer::Accepted(Counts::default()))
}

/// A call that writes a movement's two rows.
fn moved(order: Order) -> Step {
    Step::Call(order, Answer::Accepted(Counts { rows: 2, ..Counts::default() }))
}

/// A cycle that leaves so many trades.
fn left(order: Order, trades: u64) -> Step {
    Step::Call(order, Answer::Accepted(Counts { left: trades, ..Counts::default() }))
}

/// An answer that books so many trades.
fn settled(order: Order, trades: u64) -> Step {
    Step::Call(order, Answer::Accepted(Counts { rows: 4 * trades, settled: 2 * trades, ..Counts::default() }))
}

fn refused(order: Order, number: u64) -> Step {
    Step::Call(order, Answer::Refused(number))
}

/// Security 101, of 1,000 shares.
fn admission(minute: u64) -> Step {
    moved(Order { security: 101, quantity: 1_000, ..form(2, minute) })
}

impl List {
    /// Runs the list: `send` makes one call and gives what is there after it.
    /// An error says what is not as it should be.
    pub fn run(&self, mut send: impl FnMut(&Order) -> Result<Reply, String>) -> Result<(), String> {
        let mut last = Reply { answer: Answer::Refused(0), area: Vec::new(), book: Book::fresh() };
        for (place, step) in self.steps.iter().enumerate() {
            let result = match step {
                Step::Call(order, answer) => call(&mut send, order, answer).map(|reply| last = reply),
                Step::Rows(rows) => same("rows", &shown(rows.iter().copied()), &shown(last.rows())),
                Step::OnToDay(day) => on_to_day(&mut send, *day, &mut last),
                Step::Book(figures) => figures.iter().try_for_each(|figure| figure.check(&last.book)),
            };
            result.map_err(|text| format!("worked list '{}', step {}: {text}", self.name, place + 1))?;
        }
        Ok(())
    }
}

impl Reply {
    /// The rows that an accepted call has written.
    fn rows(&self) -> impl Iterator<Item = u128> {
        let count = if let Answer::Accepted(counts) = self.answer { counts.rows as usize } else { 0 };
        let row = |bytes: &[u8]| u128::from_be_bytes(bytes.try_into().expect("16 bytes"));
        self.area.chunks_exact(ROW_BYTES).take(count).map(row)
    }
}

/// Rows in hexadecimal, as they stand on paper.
fn shown(rows: impl Iterator<Item = u128>) -> Vec<String> {
    rows.map(|row| format!("{row:032X}")).collect()
}

/// Makes a call that must be answered like this.
fn call<S>(send: &mut S, order: &Order, expected: &Answer) -> Result<Reply, String>
where
    S: FnMut(&Order) -> Result<Reply, String>,
{
    let reply = send(order)?;
    same(&format!("{order:?}"), expected, &reply.answer)?;
    Ok(reply)
}

/// Cycles, each confirmed, and close come in the last minute of the work; the
/// next day is of kind 1 and opens at 470.
fn on_to_day<S>(send: &mut S, day: u64, last: &mut Reply) -> Result<(), String>
where
    S: FnMut(&Order) -> Result<Reply, String>,
{
    while last.book.day.number < day || !last.book.day.open {
        let today = &last.book.day;
        let minute = end_of_work(today.kind).max(today.last_minute);
        let order = match next_cycle_minute(today) {
            _ if !today.open => open(1, 470),
            _ if today.sent => answer(minute, CONFIRMED),
            Some(_) => form(16, minute),
            None => form(17, minute),
        };
        *last = send(&order)?;
        if let Answer::Refused(number) = last.answer {
            return Err(format!("{order:?} is refused with {number}"));
        }
    }
    Ok(())
}

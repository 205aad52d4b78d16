//! One list of calls on both sides, compared after each call.

use std::fmt;

use reference::book::{Book, LAST_DAY};
use reference::call::{AREA_BYTES, Answer};
use reference::record::{Order, pack, unpack};

use crate::coverage::Coverage;
use crate::depository::Depository;
use crate::difference::first_difference;
use crate::fitting;
use crate::generator::profile::{Profile, fast_days, profiles};
use crate::generator::{Call, Generator};
use crate::told;
use crate::totals::Totals;

/// The totals are held against the book under test after so many calls, and
/// at the end.
const CALLS_BETWEEN_TOTALS: u64 = 400;
/// A list that reaches the last day goes on for so many calls.
const CALLS_AFTER_LAST_DAY: u64 = 600;

/// A list is fixed by its profile and seed.
#[derive(Clone)]
pub struct List {
    pub number: usize,
    pub profile: Profile,
    pub seed: u64,
    pub calls: u64,
}

/// Where and how the two sides differ.
pub struct Difference {
    list: List,
    number: u64,
    call: Call,
    what: String,
}

/// `rounds` lists of each profile, numbered from `first`.
pub fn lists(seed: u64, rounds: u64, first: usize) -> Vec<List> {
    let mut lists = Vec::new();
    for round in 0..rounds {
        for profile in profiles() {
            let number = first + lists.len();
            let own = seed.wrapping_mul(0x1000_0000_01B3).wrapping_add(round << 8 | lists.len() as u64);
            lists.push(List { number, calls: profile.calls, profile, seed: own });
        }
    }
    lists
}

/// The list that runs to day 60,000 and past it.
pub fn list_to_last_day(seed: u64, number: usize) -> List {
    let profile = fast_days();
    List { number, calls: profile.calls, profile, seed }
}

/// Runs a list; the number of calls made.
pub fn run_list<D: Depository>(list: &List, coverage: &mut Coverage) -> Result<u64, Box<Difference>> {
    let mut generator = Generator::new(list.profile.clone(), list.seed);
    let mut sides = Sides::<D>::fresh();
    let mut after_last_day = 0;
    coverage.new_list();
    for number in 1..=list.calls {
        let call = generator.next_call(&sides.book);
        let day = &sides.book.day;
        after_last_day += u64::from(day.number == LAST_DAY && !day.open);
        let last = number == list.calls || after_last_day == CALLS_AFTER_LAST_DAY;
        coverage.before_call(&sides.book, &call.record, call.area.len());
        let mut compared = sides.call(&call).map(|_| ());
        coverage.after_call(&sides.book);
        if compared.is_ok() && (last || number % CALLS_BETWEEN_TOTALS == 0) {
            compared = sides.check_totals();
        }
        if let Err(what) = compared {
            return Err(Box::new(Difference { list: list.clone(), number, call, what }));
        }
        if last {
            return Ok(number);
        }
    }
    Ok(list.calls)
}

/// The reference and the depository under test after the same calls, and the
/// totals of those calls.
#[derive(Clone)]
pub struct Sides<D> {
    pub book: Book,
    under_test: D,
    totals: Totals,
}

impl<D: Depository> Sides<D> {
    pub fn fresh() -> Sides<D> {
        Sides { book: Book::fresh(), under_test: D::fresh(), totals: Totals::default() }
    }

    /// One call on both sides: the answer and the area, or what differs.
    pub fn call(&mut self, call: &Call) -> Result<(Answer, Vec<u8>), String> {
        let mut expected_area = call.area.clone();
        let mut area = call.area.clone();
        let expected = self.book.call(&call.record, &mut expected_area);
        let found = self.under_test.call(&call.record, &mut area)?;
        if found != expected {
            return Err(format!("reference:  {expected:?}\n  under test: {found:?}\n  {}", self.book_difference()));
        }
        let after = |text: String| format!("both sides: {found:?}\n  {text}");
        kept_after_rows(call, &found, &area).map_err(after)?;
        if let Some(byte) = (0..area.len()).find(|byte| area[*byte] != expected_area[*byte]) {
            return Err(after(format!("the areas differ from byte {byte} on (row {})", byte / 16 + 1)));
        }
        let book = self.under_test.book().map_err(after)?;
        if let Some(text) = first_difference(&self.book, &book) {
            return Err(after(text));
        }
        if sends_cycle(call, &found) {
            fitting::check(&book).map_err(after)?;
        }
        self.totals.take(&call.record, &found, &area);
        Ok((found, area))
    }

    /// The first difference of the books, for a report.
    fn book_difference(&self) -> String {
        let difference = self.under_test.book().map(|book| first_difference(&self.book, &book));
        difference.map_or_else(|text| text, |found| found.unwrap_or_else(|| "the books agree".to_string()))
    }

    /// One call with a good record and an area that is just long enough.
    pub fn send(&mut self, order: &Order) -> Result<(Answer, Vec<u8>), String> {
        let call = Call { record: pack(&order.fields(), 0).to_vec(), area: vec![0x5A; AREA_BYTES] };
        self.call(&call).map_err(|what| format!("{order:?}\n  {what}"))
    }

    /// Holds the totals against the book under test, and what is read of it
    /// against the book of the reference.
    pub fn check_totals(&self) -> Result<(), String> {
        self.totals.check(&*self.under_test.book()?, |security| self.under_test.held(security))?;
        told::check(&self.book, &self.under_test)
    }
}

/// Whether a call was an accepted form 16.
fn sends_cycle(call: &Call, answer: &Answer) -> bool {
    matches!(answer, Answer::Accepted(_)) && Order::from_fields(unpack(&call.record)).form == 16
}

/// What lies behind the rows is kept; after a refusal that is the whole area.
fn kept_after_rows(call: &Call, answer: &Answer, area: &[u8]) -> Result<(), String> {
    let rows = match answer {
        Answer::Accepted(counts) => counts.rows as usize,
        Answer::Refused(_) => 0,
    };
    let end = rows * 16;
    if end > area.len() || area[end..] != call.area[end..] {
        return Err(format!("bytes behind {rows} rows have changed"));
    }
    Ok(())
}

impl fmt::Display for Difference {
    fn fmt(&self, out: &mut fmt::Formatter) -> fmt::Result {
        let List { number: list, profile, seed, .. } = &self.list;
        let Call { record, area } = &self.call;
        writeln!(out, "DIFFERENCE in list {list} ({}), seed {seed}, call {}", profile.name, self.number)?;
        write!(out, "  record ")?;
        record.iter().try_for_each(|byte| write!(out, "{byte:02X}"))?;
        writeln!(out, " ({} bytes), area of {} bytes", record.len(), area.len())?;
        writeln!(out, "  {}", self.what)?;
        write!(out, "  run it again: compare --replay '{}' {seed} {}", profile.name, self.number)
    }
}

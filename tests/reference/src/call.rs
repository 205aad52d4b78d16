//! One call: the refusals in their order, then what the form does.

use crate::book::Book;
use crate::record::{self, Order};
use crate::rows::Rows;
use crate::{forms, refusals};

/// What an area must have at least (RULES 7.1).
pub const AREA_BYTES: usize = 4_096;

/// The counts of an accepted call (RULES 1.8): rows, then sides by the way in
/// which they went, then trades that a cycle has dropped.
#[derive(Clone, Copy, Debug, Default, PartialEq, Eq)]
pub struct Counts {
    pub rows: u64,
    pub settled: u64,
    pub cancelled: u64,
    pub deleted: u64,
    pub suspended: u64,
    pub left: u64,
}

#[derive(Clone, Copy, Debug, PartialEq, Eq)]
pub enum Answer {
    Accepted(Counts),
    Refused(u64),
}

impl Book {
    /// A refused call leaves book and area as they were.
    pub fn call(&mut self, record: &[u8], area: &mut [u8]) -> Answer {
        let order = match self.checked(record, area.len()) {
            Ok(order) => order,
            Err(number) => return Answer::Refused(number),
        };
        let form = forms::form(order.form).expect("refusal 3 has passed");
        let mut rows = Rows::new(area);
        let mut counts = (form.effect)(self, &order, &mut rows);
        counts.rows = rows.count();
        // RULES 4.6, for every form.
        self.day.last_minute = order.minute;
        Answer::Accepted(counts)
    }

    /// The order of a call that nothing refuses. What does not read is never
    /// put to the book (RULES 1.10).
    fn checked(&self, record: &[u8], area_bytes: usize) -> Result<Order, u64> {
        refusals::of_area(area_bytes, AREA_BYTES)?;
        let order = record::read(record)?;
        refusals::of_order(self, &order)?;
        Ok(order)
    }
}

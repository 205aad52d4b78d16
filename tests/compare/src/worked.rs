//! The worked lists of the reference, on both sides.

use reference::worked::{List, Reply};

use crate::depository::Depository;
use crate::run::Sides;

/// Runs a list on both sides, with the totals after each call: what is not as
/// it should be.
pub fn run<D: Depository>(list: &List) -> Result<(), String> {
    let mut sides = Sides::<D>::fresh();
    list.run(|order| {
        let (answer, area) = sides.send(order)?;
        sides.check_totals()?;
        Ok(Reply { answer, area, book: sides.book.clone() })
    })
}

//! The ends of the windows.

use reference::book::Book;
use reference::forms;
use reference::record::Order;
use reference::windows::{cycle_minutes, window};

use super::{Cell, Coverage};

#[derive(Clone, Copy, Debug, PartialEq, Eq, PartialOrd, Ord)]
pub enum Edge {
    /// One minute too early: refused.
    Before,
    /// The first minute: accepted.
    First,
    /// The last minute: accepted.
    Last,
    /// One minute too late: refused.
    After,
}

/// The part of a form's window: for instructions 1 if they settle today, for
/// a cycle and its answer the cycle's number, else 0.
fn part(book: &Book, order: &Order) -> u64 {
    match order.form {
        12 | 13 => u64::from(order.settlement_day == book.day.number),
        16 => book.day.cycles_run + 1,
        21 => book.day.cycles_run,
        _ => 0,
    }
}

impl Coverage {
    /// An order that is accepted, or refused for its minute.
    pub(super) fn edge(&mut self, book: &Book, order: &Order, accepted: bool) {
        let Some((first, last)) = window(&book.day, order) else {
            return;
        };
        let edge = match (order.minute, accepted) {
            (minute, false) if minute + 1 == first => Edge::Before,
            (minute, true) if minute == first => Edge::First,
            (minute, true) if minute == last => Edge::Last,
            (minute, false) if minute == last + 1 => Edge::After,
            _ => return,
        };
        let kind = if order.form == 1 { order.quantity } else { book.day.kind };
        self.reach(Cell::Edge { form: order.form, kind, part: part(book, order), edge });
    }
}

pub fn wanted() -> Vec<Cell> {
    let mut cells = Vec::new();
    for (form, kind) in forms::TABLE.iter().flat_map(|form| [(form.number, 1), (form.number, 2)]) {
        let parts = match form {
            12 | 13 => 0..=1,
            16 | 21 => 1..=cycle_minutes(kind).len() as u64,
            _ => 0..=0,
        };
        for (part, edge) in
            parts.flat_map(|part| [(part, Edge::Before), (part, Edge::First), (part, Edge::Last), (part, Edge::After)])
        {
            let last_cycle = part == cycle_minutes(kind).len() as u64;
            let nowhere = match (form, edge) {
                // No minute comes before 0, and 1440 is no minute of the day.
                (1, Edge::Before) | (17, Edge::After) => true,
                // The last answer has until 1439, and each comes behind a
                // cycle, whose minute is well past 480.
                (21, Edge::After) => last_cycle,
                (21, Edge::Before | Edge::First) => true,
                _ => false,
            };
            if !nowhere {
                cells.push(Cell::Edge { form, kind, part, edge });
            }
        }
    }
    cells
}

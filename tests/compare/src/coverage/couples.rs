//! Which two faults can stand in one call.

use reference::forms;
use reference::refusals::{self, Refusal, Test};

use super::Cell;

/// What can still be asked of an order that the reader refuses with 4 or 5:
/// its day and its minute.
pub const ASKED_OF_DAMAGED: [u64; 6] = [6, 7, 22, 23, 8, 9];

/// Faults of one form that exclude each other.
const APART: [(u64, u64); 4] = [
    // 15 and 24 look at an item that 14 has found.
    (14, 15),
    (14, 24),
    // A cycle is sent only while a day is open.
    (6, 22),
    (6, 24),
];

/// Forms that share a refusal which asks something else of each: a couple must
/// be met in both.
const FORMS_APART: [u64; 2] = [19, 20];

/// Refusals that look at the cycle that is sent: each couple with one of them
/// must be met in every form that can.
const OF_SENT_CYCLE: [u64; 3] = [22, 23, 24];

pub fn wanted() -> Vec<Cell> {
    let both = |first: &Refusal, second: &Refusal| Cell::Both { first: first.number, second: second.number };
    couples_in_order().filter(|(first, second)| together(first, second)).map(|(a, b)| both(a, b)).collect()
}

/// Both faults are of the order, not of its bytes.
pub fn wanted_by_form() -> Vec<Cell> {
    let mut cells = Vec::new();
    for form in forms::TABLE.iter().map(|form| form.number) {
        let meets = |refusal: &Refusal| matches!(refusal.test, Test::Order(_)) && (refusal.forms)(form);
        let asked = |first: u64, second: u64| {
            FORMS_APART.contains(&form) || OF_SENT_CYCLE.contains(&first) || OF_SENT_CYCLE.contains(&second)
        };
        let couples = couples_in_order().filter(|(first, second)| meets(first) && meets(second));
        let numbers = couples.map(|(first, second)| (first.number, second.number));
        let wanted = numbers.filter(|couple| !APART.contains(couple) && asked(couple.0, couple.1));
        cells.extend(wanted.map(|(first, second)| Cell::BothInForm { form, first, second }));
    }
    cells
}

/// Every two refusals, the one that is checked first before the other.
fn couples_in_order() -> impl Iterator<Item = (&'static Refusal, &'static Refusal)> {
    let table = refusals::TABLE;
    table
        .iter()
        .enumerate()
        .flat_map(move |(place, first)| table[place + 1..].iter().map(move |second| (first, second)))
}

/// Whether a call can deserve both; the first comes before the second in
/// checking order.
fn together(first: &Refusal, second: &Refusal) -> bool {
    match (first.test, second.test) {
        // The area says nothing of the record.
        (Test::Area(_), _) => true,
        // Nothing more is said of a record of another length or form.
        (Test::Length(_), _) | (Test::Fields(_), _) if !matches!(first.number, 4 | 5) => false,
        (Test::Fields(_), Test::Fields(_)) => true,
        (Test::Fields(_), _) => ASKED_OF_DAMAGED.contains(&second.number),
        _ => !APART.contains(&(first.number, second.number)) && share_a_form(first, second),
    }
}

fn share_a_form(first: &Refusal, second: &Refusal) -> bool {
    forms::TABLE.iter().any(|form| (first.forms)(form.number) && (second.forms)(form.number))
}

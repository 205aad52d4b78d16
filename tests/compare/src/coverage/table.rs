//! The table of what was reached.

use std::fmt::Write;

use reference::{forms, refusals};

use super::{Cell, Coverage, wanted};

type Belongs = fn(&Cell) -> bool;

/// Groups of cells, by the kind of cell.
const GROUPS: [(&str, Belongs); 10] = [
    ("two faults in one call", |cell| matches!(cell, Cell::Both { .. })),
    ("two faults in one form", |cell| matches!(cell, Cell::BothInForm { .. })),
    ("ends of windows", |cell| matches!(cell, Cell::Edge { .. })),
    ("ends of the tolerances", |cell| matches!(cell, Cell::Difference { .. })),
    ("ends of the tolerance in LBP, by its rate", |cell| matches!(cell, Cell::AtRate { .. })),
    ("types of requests and of their endings", |cell| matches!(cell, Cell::Requested { .. } | Cell::Ended { .. })),
    ("calls between a cycle and its answer", |cell| matches!(cell, Cell::Between { .. })),
    ("what an account of a sent trade offers", |cell| matches!(cell, Cell::Offer { .. })),
    ("terms by which a single misses", |cell| matches!(cell, Cell::NearMiss { .. })),
    ("kinds of damage to a record", |cell| matches!(cell, Cell::Damage(_))),
];

pub fn print(coverage: &Coverage) -> String {
    let mut text = answers(coverage);
    text.push_str("\nEvents:\n");
    let wanted = wanted();
    for cell in &wanted {
        if let Cell::Event(name) = cell {
            writeln!(text, "{:>10}  {name}", coverage.count(cell)).expect("a string takes all");
        }
    }
    text.push_str("\nGroups (cells reached of cells wanted, and the least reached):\n");
    for (name, belongs) in GROUPS {
        let cells: Vec<&Cell> = wanted.iter().filter(|cell| belongs(cell)).collect();
        let reached = cells.iter().filter(|cell| coverage.count(cell) > 0).count();
        let least = cells.iter().min_by_key(|cell| coverage.count(cell)).expect("a group has cells");
        let (count, total) = (coverage.count(least), cells.len());
        writeln!(text, "{reached:>6} of {total:<4} {name}; least {count}: {least:?}").expect("a string takes all");
    }
    text
}

/// Forms by answers, in checking order; a dash where the form cannot meet it.
fn answers(coverage: &Coverage) -> String {
    let mut text = String::from("Calls by form and answer (- cannot be):\nform accepted");
    refusals::TABLE.iter().for_each(|refusal| write!(text, " {:>6}", refusal.number).expect("a string takes all"));
    text.push('\n');
    for form in forms::TABLE.iter().map(|form| form.number) {
        let accepted: u64 = [1, 2].map(|kind| coverage.count(&Cell::Accepted { form, kind })).iter().sum();
        write!(text, "{form:>4} {accepted:>8}").expect("a string takes all");
        for refusal in refusals::TABLE {
            let count = coverage.count(&Cell::Refused { form, refusal: refusal.number });
            let shown = if (refusal.forms)(form) { count.to_string() } else { "-".to_string() };
            write!(text, " {shown:>6}").expect("a string takes all");
        }
        text.push('\n');
    }
    text
}

/// The cells that stayed empty.
pub fn empty(coverage: &Coverage) -> Vec<Cell> {
    wanted().into_iter().filter(|cell| coverage.count(cell) == 0).collect()
}

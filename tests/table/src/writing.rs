//! The table of a file of records (RULES 16).

use reference::forms;
use reference::record::{NAMES, Order, RECORD_BYTES, read};

use crate::telling::told_as;

/// What is left of the file behind its last whole record is one more.
pub fn write(records: &[u8]) -> String {
    let lines = records.chunks(RECORD_BYTES).map(|record| match read(record) {
        Ok(order) => line(&order),
        Err(number) => format!("unreadable: refused by {number} ({})", told_as(number)),
    });
    [NAMES.join(",")].into_iter().chain(lines).map(|line| line + "\n").collect()
}

fn line(order: &Order) -> String {
    let name = forms::form(order.form).expect("a form, since the order was read").name;
    let others = order.fields().into_iter().skip(1).map(|value| value.to_string());
    [name.to_string()].into_iter().chain(others).collect::<Vec<String>>().join(",")
}

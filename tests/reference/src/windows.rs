//! Windows in minutes of the day, by the kind of the day (RULES 4.7). Both
//! ends are inside. Each function is the window of some rows of the table of
//! forms: the first and the last minute.

use crate::book::Day;
use crate::forms;
use crate::record::Order;

type Window = Option<(u64, u64)>;

/// The number of cycles and their earliest minutes, by day kind.
pub fn cycle_minutes(kind: u64) -> &'static [u64] {
    if kind == 2 { &[585, 705] } else { &[585, 705, 825] }
}

/// The earliest minute of the next cycle, if one is left today.
pub fn next_cycle_minute(day: &Day) -> Option<u64> {
    cycle_minutes(day.kind).get(day.cycles_run as usize).copied()
}

/// The last minute of the day's work, from which it may close.
pub fn end_of_work(kind: u64) -> u64 {
    if kind == 2 { 900 } else { 960 }
}

/// The window of an order; none where its form has none now, or is none.
pub fn window(day: &Day, order: &Order) -> Window {
    forms::form(order.form).and_then(|form| (form.window)(day, order))
}

pub fn opening(_: &Day, _: &Order) -> Window {
    Some((0, 480))
}

pub fn working_day(day: &Day, _: &Order) -> Window {
    Some((480, end_of_work(day.kind)))
}

/// Where shares move on the members' word.
pub fn custody(day: &Day, _: &Order) -> Window {
    Some((510, if day.kind == 2 { 750 } else { 870 }))
}

/// An instruction that settles on the same day has less time; one whose day is
/// over has not (RULES 4.8).
pub fn instruction(day: &Day, order: &Order) -> Window {
    if order.settlement_day == day.number {
        return Some((480, if day.kind == 2 { 705 } else { 825 }));
    }
    working_day(day, order)
}

pub fn cycle(day: &Day, _: &Order) -> Window {
    next_cycle_minute(day).map(|minute| (minute, end_of_work(day.kind)))
}

/// The day's last answer may come late; an earlier one only while the cycles
/// behind it still can run.
pub fn answer(day: &Day, _: &Order) -> Window {
    let all_run = next_cycle_minute(day).is_none();
    Some((480, if all_run { 1439 } else { end_of_work(day.kind) }))
}

pub fn close(day: &Day, _: &Order) -> Window {
    Some((end_of_work(day.kind), 1439))
}

//! The rate and the tolerance in LBP that follows it (RULES 6.18, 8.4, 8.9).

use super::Figure::*;
use super::orders::{form, open};
use super::{List, Step, accepted, admission, refused};
use crate::record::Order;

/// The largest rate, and the largest amount.
const WIDEST: u64 = 1_099_511_627_775;

pub fn lists() -> Vec<List> {
    vec![
        List { name: "the first rate", steps: first_rate() },
        List { name: "a rate that comes later", steps: later_rate() },
        List { name: "the widest rate, and what refuses a rate", steps: widest_rate() },
    ]
}

fn rate(minute: u64, rate: u64) -> Order {
    Order { quantity: rate, ..form(18, minute) }
}

/// Member 7 delivers 10 shares of shareholder 5 to member 8 for LBP, traded
/// on day 1.
fn deliver(minute: u64, amount: u64, settlement_day: u64, reference: u64) -> Order {
    Order {
        security: 101,
        currency: 2,
        debited_member: 7,
        debited_type: 20,
        credited_member: 8,
        debited_shareholder: 5,
        credited_shareholder: 5,
        quantity: 10,
        amount,
        trade_day: 1,
        settlement_day,
        reference,
        ..form(12, minute)
    }
}

/// The receive of such a deliver.
fn receive(minute: u64, amount: u64, settlement_day: u64, reference: u64) -> Order {
    Order { form: 13, debited_type: 0, credited_type: 20, ..deliver(minute, amount, settlement_day, reference) }
}

/// A difference of 20 times 150,750 pairs, at the receiver's amount.
fn first_rate() -> Vec<Step> {
    vec![
        accepted(open(1, 470)),
        admission(500),
        accepted(deliver(500, 100_000, 1, 1)),
        accepted(receive(500, 3_115_000, 1, 2)),
        Step::Book(&[Rate(150_750), Waiting(1), Sides(2), Amounts(&[3_115_000])]),
    ]
}

/// The same difference waits at a rate one lower, and goes on waiting when
/// the rate is back; the next arrival pairs, on another day.
fn later_rate() -> Vec<Step> {
    vec![
        accepted(open(1, 470)),
        admission(500),
        accepted(deliver(500, 100_000, 3, 1)),
        accepted(rate(501, 150_749)),
        accepted(receive(502, 3_115_000, 3, 2)),
        Step::Book(&[Rate(150_749), Waiting(2), Sides(2)]),
        accepted(rate(503, 150_750)),
        Step::Book(&[Rate(150_750), Waiting(2), Sides(2)]),
        Step::OnToDay(2),
        accepted(receive(480, 3_115_000, 3, 3)),
        Step::Book(&[Rate(150_750), Waiting(2), Sides(3), Amounts(&[3_115_000, 3_115_000])]),
        // The receive that came first, then the pair.
        Step::Book(&[References(&[&[2], &[1, 3]])]),
    ]
}

/// Its tolerance is wider than any two amounts are apart.
fn widest_rate() -> Vec<Step> {
    vec![
        refused(rate(480, 150_000), 6),
        accepted(open(2, 470)),
        refused(rate(479, 150_000), 9),
        refused(rate(469, 150_000), 8),
        refused(rate(480, 0), 5),
        refused(Order { amount: 1, ..rate(480, 0) }, 4),
        refused(rate(901, 1), 9),
        accepted(rate(480, WIDEST)),
        admission(480),
        accepted(receive(500, WIDEST, 1, 1)),
        accepted(deliver(500, 1, 1, 1)),
        Step::Book(&[Rate(WIDEST), Waiting(1), Sides(2), Amounts(&[WIDEST])]),
    ]
}

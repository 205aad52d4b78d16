//! What is held of each security, kept beside what is outside (RULES 3.19).

use super::Figure::*;
use super::orders::{Party, answer, credit, debit, ending, form, open, request};
use super::{List, Step, accepted, admission, left, moved, refused, settled};
use crate::record::Order;

/// The largest issue.
const WIDEST: u64 = 1_099_511_627_775;

pub fn lists() -> Vec<List> {
    vec![
        List { name: "custody of one security", steps: one_security() },
        List { name: "custody of two securities", steps: two_securities() },
        List { name: "custody of whole issues", steps: whole_issues() },
    ]
}

fn admit(security: u64, quantity: u64) -> Step {
    moved(Order { security, quantity, ..form(2, 500) })
}

fn deposit(minute: u64, quantity: u64, to: Party) -> Order {
    credit(to, quantity, form(3, minute))
}

fn withdrawal(minute: u64, quantity: u64, from: Party) -> Order {
    debit(from, quantity, form(4, minute))
}

/// Forms 5 to 9, on day 1.
fn between(number: u64, minute: u64, quantity: u64, from: Party, to: Party) -> Order {
    Order { settlement_day: 1, ..credit(to, quantity, debit(from, quantity, form(number, minute))) }
}

fn of_102(order: Order) -> Order {
    Order { security: 102, ..order }
}

/// What stays in custody leaves the figure; what passes type 91 moves it.
fn one_security() -> Vec<Step> {
    let holder = (7, 20, 5);
    vec![
        accepted(open(1, 470)),
        admission(500),
        Step::Book(&[Held(101, 0), Outside(101, 1_000)]),
        moved(deposit(510, 400, holder)),
        Step::Book(&[Held(101, 400), Outside(101, 600)]),
        moved(between(6, 511, 50, holder, (7, 21, 5))),
        moved(request(512, 100, holder, 1)),
        Step::Book(&[Held(101, 400), Outside(101, 600)]),
        moved(withdrawal(513, 30, holder)),
        Step::Book(&[Held(101, 370), Outside(101, 630)]),
        refused(withdrawal(513, 300, holder), 16),
        Step::Book(&[Held(101, 370), Outside(101, 630)]),
        Step::OnToDay(2),
        moved(ending(510, 7, 91, 1)),
        Step::Book(&[Held(101, 270), Outside(101, 730)]),
        Step::Book(&[Printed(&["CUSTODY 101 ISSUED 1000 HELD 270 OUTSIDE 730"])]),
    ]
}

/// Each security has figures of its own, and no two of the four are equal.
fn two_securities() -> Vec<Step> {
    let mut steps = two_deposits();
    steps.extend(movements_within());
    steps.extend(cycle_of_both());
    steps.extend(paper_of_one());
    steps
}

fn two_deposits() -> Vec<Step> {
    vec![
        accepted(open(1, 470)),
        admission(500),
        admit(102, 500),
        moved(deposit(510, 300, (7, 20, 5))),
        moved(of_102(deposit(510, 80, (8, 10, 6)))),
        Step::Book(&[Held(101, 300), Outside(101, 700), Held(102, 80), Outside(102, 420)]),
        refused(of_102(deposit(510, 421, (8, 10, 6))), 16),
        refused(of_102(withdrawal(510, 81, (8, 10, 6))), 16),
        // 103 is not admitted.
        Step::Book(&[Held(101, 300), Outside(101, 700), Held(102, 80), Outside(102, 420), Held(103, 0)]),
    ]
}

/// Pledge, release, block, unblock, and a transfer to another member.
fn movements_within() -> Vec<Step> {
    vec![
        moved(between(6, 511, 50, (7, 20, 5), (7, 21, 5))),
        moved(between(7, 512, 20, (7, 21, 5), (7, 20, 5))),
        moved(of_102(between(8, 513, 10, (8, 10, 6), (8, 12, 6)))),
        moved(of_102(between(9, 514, 4, (8, 12, 6), (8, 10, 6)))),
        moved(between(5, 515, 70, (7, 20, 5), (9, 10, 5))),
        Step::Book(&[Held(101, 300), Outside(101, 700), Held(102, 80), Outside(102, 420)]),
        Step::Book(&[Accounts(&[
            (101, 7, 20, 5, 200),
            (101, 7, 21, 5, 30),
            (101, 9, 10, 5, 70),
            (102, 8, 10, 6, 74),
            (102, 8, 12, 6, 6),
        ])]),
    ]
}

/// Two trades settle, one of each security; a third lacks shares and is left.
fn cycle_of_both() -> Vec<Step> {
    let pay_in = |member, amount| Order { currency: 1, credited_member: member, amount, ..form(10, 516) };
    let mut steps = vec![moved(pay_in(7, 900)), moved(pay_in(8, 1_000))];
    steps.extend(pair(1, (7, 20, 5), (8, 20, 5), 90, 1_000).map(accepted));
    steps.extend(pair(2, (8, 10, 6), (7, 10, 6), 74, 1_900).map(of_102).map(accepted));
    steps.extend(pair(3, (8, 10, 6), (9, 10, 6), 5, 10).map(of_102).map(accepted));
    steps.extend([
        left(form(16, 585), 1),
        settled(answer(590, 1), 2),
        Step::Book(&[Held(101, 300), Outside(101, 700), Held(102, 80), Outside(102, 420)]),
        Step::Book(&[Accounts(&[
            (101, 7, 20, 5, 110),
            (101, 7, 21, 5, 30),
            (101, 8, 20, 5, 90),
            (101, 9, 10, 5, 70),
            (102, 7, 10, 6, 74),
            (102, 8, 12, 6, 6),
        ])]),
    ]);
    steps
}

/// The deliver and the receive of a trade for USD that settles on day 1, both
/// under one reference.
fn pair(reference: u64, from: Party, to: Party, quantity: u64, amount: u64) -> [Order; 2] {
    let terms = Order { currency: 1, amount, trade_day: 1, reference, ..between(12, 517, quantity, from, to) };
    [Order { credited_type: 0, ..terms }, Order { form: 13, debited_type: 0, ..terms }]
}

/// Of two requests for 102 the one ends in paper, which is held, the other
/// outside.
fn paper_of_one() -> Vec<Step> {
    vec![
        moved(withdrawal(590, 40, (8, 20, 5))),
        Step::Book(&[Held(101, 260), Outside(101, 740), Held(102, 80), Outside(102, 420)]),
        moved(of_102(deposit(590, 20, (9, 110, 6)))),
        Step::Book(&[Held(101, 260), Outside(101, 740), Held(102, 100), Outside(102, 400)]),
        moved(of_102(request(591, 24, (7, 10, 6), 1))),
        moved(of_102(request(591, 30, (7, 10, 6), 2))),
        Step::OnToDay(2),
        moved(ending(510, 7, 110, 1)),
        Step::Book(&[Held(101, 260), Outside(101, 740), Held(102, 100), Outside(102, 400)]),
        moved(ending(510, 7, 91, 2)),
        Step::Book(&[Held(101, 260), Outside(101, 740), Held(102, 70), Outside(102, 430)]),
        Step::Book(&[Printed(&[
            "CUSTODY 101 ISSUED 1000 HELD 260 OUTSIDE 740",
            "CUSTODY 102 ISSUED 500 HELD 70 OUTSIDE 430",
        ])]),
    ]
}

/// The largest issue and the smallest, wholly held and wholly outside.
fn whole_issues() -> Vec<Step> {
    let holder = (64, 120, 5);
    vec![
        accepted(open(2, 470)),
        admit(101, WIDEST),
        admit(102, 1),
        Step::Book(&[Held(101, 0), Outside(101, WIDEST), Held(102, 0), Outside(102, 1)]),
        moved(deposit(510, WIDEST, holder)),
        moved(of_102(deposit(510, 1, holder))),
        refused(deposit(510, 1, holder), 16),
        Step::Book(&[Held(101, WIDEST), Outside(101, 0), Held(102, 1), Outside(102, 0)]),
        Step::Book(&[Printed(&[
            "CUSTODY 101 ISSUED 1099511627775 HELD 1099511627775 OUTSIDE 0",
            "CUSTODY 102 ISSUED 1 HELD 1 OUTSIDE 0",
        ])]),
        moved(withdrawal(510, WIDEST, holder)),
        Step::Book(&[Held(101, 0), Outside(101, WIDEST), Held(102, 1), Outside(102, 0)]),
        Step::Book(&[Accounts(&[(102, 64, 120, 5, 1)])]),
    ]
}

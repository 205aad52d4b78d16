//! Cycles that are sent, and confirmed or declined some minutes later, while
//! the counter stays busy.

use super::Figure::*;
use super::orders::{Party, answer, credit, debit, form, open, request};
use super::{List, Step, accepted, admission, left, moved, refused, settled};
use crate::call::{Answer, Counts};
use crate::record::Order;

pub(super) const A: Party = (7, 20, 5);
pub(super) const B: Party = (8, 20, 5);
const C: Party = (9, 20, 5);
const OTHER: Party = (6, 20, 5);

pub fn lists() -> Vec<List> {
    vec![
        List { name: "a cycle sent, then confirmed", steps: sent_then_confirmed() },
        List { name: "a busy counter between a cycle and its answer", steps: busy_counter() },
        List { name: "a cycle that fixes nothing", steps: nothing_fixed() },
        List { name: "the end of a Friday", steps: end_of_friday() },
        List { name: "places that move in between", steps: moving_places() },
        List { name: "an account that is gone comes again", steps: gone_and_back() },
        List { name: "sixty-four trades confirmed in a full book", steps: full_book() },
    ]
}

pub(super) fn deposit(minute: u64, quantity: u64, to: Party) -> Step {
    moved(credit(to, quantity, form(3, minute)))
}

fn withdrawal(minute: u64, quantity: u64, from: Party) -> Order {
    debit(from, quantity, form(4, minute))
}

/// On day 1.
fn transfer(minute: u64, quantity: u64, from: Party, to: Party) -> Order {
    Order { settlement_day: 1, ..credit(to, quantity, debit(from, quantity, form(5, minute))) }
}

pub(super) fn pay_in(minute: u64, member: u64, amount: u64) -> Order {
    Order { currency: 1, credited_member: member, amount, ..form(10, minute) }
}

fn cancel(minute: u64, sender: u64, reference: u64) -> Order {
    Order { debited_member: sender, reference, ..form(15, minute) }
}

/// An exchange trade for USD of day 1.
fn trade(minute: u64, quantity: u64, amount: u64, [from, to]: [Party; 2], reference: u64) -> Order {
    let between = credit(to, quantity, debit(from, quantity, form(14, minute)));
    Order { currency: 1, amount, trade_day: 1, settlement_day: 4, reference, ..between }
}

/// The deliver of a trade for USD of day 1 that settles on the same day.
fn deliver(minute: u64, quantity: u64, amount: u64, between: [Party; 2], reference: u64) -> Order {
    let terms = trade(minute, quantity, amount, between, reference);
    Order { form: 12, credited_type: 0, settlement_day: 1, ..terms }
}

/// The receive of such a trade.
fn receive(minute: u64, quantity: u64, amount: u64, between: [Party; 2], reference: u64) -> Order {
    let terms = trade(minute, quantity, amount, between, reference);
    Order { form: 13, debited_type: 0, settlement_day: 1, ..terms }
}

/// Both at 540; the receive has a reference that is 1,000 higher.
pub(super) fn pair(quantity: u64, amount: u64, between: [Party; 2], reference: u64) -> [Step; 2] {
    let first = deliver(540, quantity, amount, between, reference);
    [first, receive(540, quantity, amount, between, reference + 1_000)].map(accepted)
}

/// Day 1, with 101.
pub(super) fn first_day() -> Vec<Step> {
    vec![accepted(open(1, 470)), admission(500)]
}

/// Of 60, 50 and 30 of 100 shares 60 and 30 are fixed, and booked later.
fn sent_then_confirmed() -> Vec<Step> {
    let mut steps = first_day();
    steps.extend([deposit(540, 100, A), moved(pay_in(540, 8, 1_000))]);
    steps.extend([(60, 1), (50, 2), (30, 3)].into_iter().flat_map(|(shares, own)| pair(shares, 100, [A, B], own)));
    steps.extend([
        left(form(16, 585), 1),
        Step::Book(&[Accounts(&[(101, 7, 20, 5, 100)]), Cycles(1), Sent(true), Waiting(3), Sides(6), Marked(2)]),
        settled(answer(590, 1), 2),
        Step::Rows(&[
            0x006501C500000005000000000000003C,
            0x8065020500000005000000000000003C,
            0x40010200000000000000000000000064,
            0xC00101C0000000000000000000000064,
            0x006501C500000005000000000000001E,
            0x8065020500000005000000000000001E,
            0x40010200000000000000000000000064,
            0xC00101C0000000000000000000000064,
        ]),
        Step::Book(&[Accounts(&[(101, 7, 20, 5, 10), (101, 8, 20, 5, 90)]), Cash(&[(7, 1, 200), (8, 1, 800)])]),
        Step::Book(&[Cycles(1), Sent(false), Waiting(1), Sides(2), Quantities(&[50]), Marked(0)]),
    ]);
    steps
}

/// A has 105 shares and gives 100: it offers 5. B has 10 of its own, and gets
/// and gives 100: its 10 are free.
fn busy_counter() -> Vec<Step> {
    let mut steps = first_day();
    steps.extend([deposit(540, 105, A), deposit(540, 10, B), moved(pay_in(540, 9, 50))]);
    steps.extend(pair(100, 50, [A, B], 1));
    steps.extend(pair(100, 50, [B, C], 2));
    steps.push(accepted(form(16, 585)));
    steps.extend(refused_while_sent());
    steps.extend(offers());
    steps.extend([
        refused(cancel(587, 7, 1), 24),
        refused(deliver(587, 1, 1, [A, B], 1), 14),
        accepted(trade(587, 1, 1, [A, B], 1)),
        refused(answer(586, 1), 8),
        refused(answer(587, 3), 5),
        refused(answer(961, 1), 9),
        settled(answer(960, 1), 2),
        Step::Book(&[Accounts(&[(101, 6, 20, 5, 10), (101, 9, 20, 5, 100)]), Cash(&[(7, 1, 50)])]),
        Step::Book(&[Waiting(1), Sent(false)]),
        refused(answer(960, 1), 23),
    ]);
    steps
}

fn refused_while_sent() -> [Step; 4] {
    let pay_out = Order { currency: 1, debited_member: 9, amount: 1, ..form(11, 586) };
    [refused(pay_in(584, 9, 1), 22), refused(pay_out, 22), refused(form(16, 705), 22), refused(form(17, 960), 7)]
}

fn offers() -> [Step; 7] {
    [
        refused(withdrawal(586, 6, A), 16),
        moved(withdrawal(586, 5, A)),
        refused(withdrawal(586, 1, A), 16),
        refused(request(586, 1, A, 1), 16),
        refused(transfer(586, 11, B, OTHER), 16),
        moved(transfer(586, 10, B, OTHER)),
        Step::Book(&[Accounts(&[(101, 6, 20, 5, 10), (101, 7, 20, 5, 100)]), Sent(true)]),
    ]
}

/// It is sent and answered all the same. In the second cycle both pairs are
/// sent, the one that is half cancelled too; declined, they wait, and the mark
/// with them.
fn nothing_fixed() -> Vec<Step> {
    let mut steps = first_day();
    steps.push(deposit(540, 100, A));
    steps.extend(pair(100, 50, [A, B], 1));
    steps.extend(pair(100, 50, [B, C], 2));
    steps.extend([
        left(form(16, 585), 2),
        Step::Book(&[Sent(true), Marked(0), Cycles(1)]),
        refused(pay_in(586, 9, 50), 22),
        accepted(cancel(586, 7, 1)),
        accepted(answer(587, 1)),
        Step::Book(&[Sent(false), Waiting(2), Cycles(1)]),
        moved(pay_in(588, 9, 50)),
        refused(cancel(588, 7, 1), 15),
        accepted(form(16, 705)),
        refused(cancel(705, 7, 1), 15),
        refused(cancel(705, 8, 1_001), 24),
        accepted(answer(705, 2)),
        Step::Book(&[Sent(false), Waiting(2), Cycles(2), Marked(0)]),
        Step::Call(cancel(705, 8, 1_001), Answer::Accepted(Counts { rows: 1, cancelled: 2, ..Counts::default() })),
        Step::Book(&[Waiting(1)]),
    ]);
    steps
}

/// The last answer may come late, and the day still ends behind it.
fn end_of_friday() -> Vec<Step> {
    vec![
        accepted(open(2, 470)),
        accepted(form(16, 585)),
        refused(form(17, 900), 7),
        refused(answer(901, 1), 9),
        accepted(answer(585, 1)),
        accepted(form(16, 705)),
        refused(form(16, 706), 7),
        refused(form(17, 900), 22),
        accepted(answer(1_200, 2)),
        refused(Order { security: 101, quantity: 1, ..form(2, 900) }, 8),
        refused(form(17, 1_199), 8),
        accepted(form(17, 1_200)),
        refused(answer(1_201, 1), 6),
    ]
}

/// A single before the sent pair leaves the list by pairing; what is confirmed
/// is the same.
fn moving_places() -> Vec<Step> {
    let mut steps = first_day();
    steps.extend([deposit(540, 10, A), moved(pay_in(540, 8, 5)), accepted(deliver(540, 3, 1, [OTHER, B], 1))]);
    steps.extend(pair(10, 5, [A, B], 1));
    steps.extend([
        accepted(form(16, 585)),
        accepted(receive(586, 3, 1, [OTHER, B], 2)),
        deposit(586, 3, OTHER),
        settled(answer(590, 1), 1),
        Step::Book(&[Accounts(&[(101, 6, 20, 5, 3), (101, 8, 20, 5, 10)]), Cash(&[(7, 1, 5)])]),
        Step::Book(&[Waiting(1), Sides(2)]),
    ]);
    steps
}

/// B has 10 shares, gets 100 and gives 60: it offers its 10, and without them
/// it is no account until the confirmation brings 40.
fn gone_and_back() -> Vec<Step> {
    let mut steps = first_day();
    steps.extend([deposit(540, 100, A), deposit(540, 10, B), moved(pay_in(540, 9, 50))]);
    steps.extend(pair(100, 50, [A, B], 1));
    steps.extend(pair(60, 50, [B, C], 2));
    steps.extend([
        accepted(form(16, 585)),
        refused(withdrawal(586, 11, B), 16),
        moved(withdrawal(586, 10, B)),
        Step::Book(&[Accounts(&[(101, 7, 20, 5, 100)]), Marked(2), Held(101, 100), Outside(101, 900)]),
        refused(withdrawal(587, 1, B), 16),
        refused(withdrawal(587, 1, A), 16),
        settled(answer(590, 1), 2),
        Step::Book(&[Accounts(&[(101, 8, 20, 5, 40), (101, 9, 20, 5, 60)]), Cash(&[(7, 1, 50)])]),
        moved(withdrawal(590, 40, B)),
    ]);
    steps
}

/// 192 accounts of two shares, and 64 trades, each of one share to a new
/// account; every member pays 1 and is paid 1, and none has any.
fn full_book() -> Vec<Step> {
    let holder = |place: u64, member: u64| (1 + (place + member) % 64, 20, 1 + place);
    let mut steps = first_day();
    steps.extend((0..192).map(|place| deposit(540, 2, holder(place, 0))));
    steps.extend((0..64).flat_map(|place| pair(1, 1, [holder(place, 0), holder(place, 1)], 1 + place)));
    steps.extend([
        accepted(form(16, 585)),
        Step::Book(&[AccountCount(192), Waiting(64), Sides(128), Marked(64)]),
        refused(credit((1, 20, 999), 1, form(3, 586)), 18),
        refused(deliver(586, 1, 1, [A, B], 999), 18),
        refused(debit(holder(0, 0), 2, form(4, 586)), 16),
        settled(answer(587, 1), 64),
        Step::Book(&[AccountCount(256), Waiting(0), Held(101, 384), Cash(&[])]),
        refused(credit((1, 20, 999), 1, form(3, 588)), 18),
    ]);
    steps
}

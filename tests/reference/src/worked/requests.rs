//! Requests for paper and their endings (RULES 6.19, 6.20, 7.19 to 7.21).

use super::Figure::*;
use super::orders::{Party, credit, debit, ending, form, open, request};
use super::{List, Step, accepted, admission, moved, refused};
use crate::record::Order;

pub fn lists() -> Vec<List> {
    vec![
        List { name: "paper, and out", steps: paper_and_out() },
        List { name: "sixteen requests", steps: sixteen() },
        List { name: "requests in a full book", steps: full_book() },
    ]
}

fn deposit(quantity: u64, to: Party) -> Step {
    moved(credit(to, quantity, form(3, 510)))
}

/// One account of type 50 with two requests: the one ends in paper, the other
/// outside.
fn paper_and_out() -> Vec<Step> {
    let mut steps = two_requests();
    steps.extend([
        refused(ending(521, 7, 120, 9), 20),
        refused(ending(521, 7, 110, 9), 19),
        refused(ending(521, 8, 120, 9), 19),
        refused(ending(521, 8, 20, 9), 11),
        refused(Order { quantity: 100, ..ending(521, 7, 120, 9) }, 4),
        Step::OnToDay(2),
        moved(ending(510, 7, 120, 9)),
        Step::Rows(&[0x006501CC800000050000000000000064, 0x806501DE000000050000000000000064]),
        Step::Book(&[Accounts(&[(101, 7, 50, 5, 300), (101, 7, 120, 5, 100)]), Requests(1)]),
        moved(ending(510, 7, 91, 8)),
        Step::Rows(&[0x006501CC80000005000000000000012C, 0x80650016C0000000000000000000012C]),
        Step::Book(&[Accounts(&[(101, 7, 120, 5, 100)]), Requests(0), Outside(101, 900)]),
        refused(ending(510, 7, 91, 8), 19),
    ]);
    steps
}

fn two_requests() -> Vec<Step> {
    let holder = (7, 20, 5);
    vec![
        accepted(open(1, 470)),
        admission(500),
        deposit(400, holder),
        refused(request(509, 100, holder, 9), 8),
        refused(request(871, 100, holder, 9), 9),
        refused(Order { security: 102, ..request(520, 100, holder, 9) }, 10),
        refused(request(520, 100, (7, 110, 5), 9), 11),
        refused(request(520, 401, holder, 9), 16),
        moved(request(520, 100, holder, 9)),
        Step::Rows(&[0x006501C5000000050000000000000064, 0x806501CC800000050000000000000064]),
        refused(request(520, 401, holder, 9), 19),
        moved(request(520, 300, holder, 8)),
        Step::Book(&[Accounts(&[(101, 7, 50, 5, 400)]), Requests(2), Outside(101, 600)]),
    ]
}

/// One reference is open for two members, and in the waiting list.
fn sixteen() -> Vec<Step> {
    let (one, other) = ((7, 10, 5), (8, 20, 5));
    let deliver = Order {
        currency: 1,
        credited_member: 8,
        credited_shareholder: 5,
        amount: 1,
        trade_day: 1,
        settlement_day: 2,
        reference: 1,
        ..debit(one, 1, form(12, 510))
    };
    let mut steps =
        vec![accepted(open(1, 470)), admission(500), deposit(15, one), deposit(15, other), accepted(deliver)];
    steps.extend((1..=15).map(|reference| moved(request(510, 1, one, reference))));
    steps.extend([
        moved(request(510, 1, other, 1)),
        Step::Book(&[Accounts(&[(101, 7, 50, 5, 15), (101, 8, 20, 5, 14), (101, 8, 50, 5, 1)])]),
        Step::Book(&[Requests(16), Waiting(1)]),
        refused(request(510, 1, other, 1), 19),
        refused(request(510, 99, other, 2), 21),
        refused(Order { debited_member: 8, reference: 1, ..form(15, 510) }, 14),
    ]);
    steps
}

/// 256 accounts of two shares: what empties one may open another. The first
/// ending would leave a rest and open an account, the second credits one that
/// is there, the third empties type 50.
fn full_book() -> Vec<Step> {
    let mut steps = vec![accepted(open(1, 470)), admission(500)];
    for member in 1..=64 {
        steps.extend([10, 20, 110, 120].map(|account_type| deposit(2, (member, account_type, 5))));
    }
    steps.extend([
        refused(request(510, 1, (1, 10, 5), 1), 18),
        moved(request(510, 2, (1, 10, 5), 1)),
        moved(request(510, 2, (1, 20, 5), 2)),
        moved(debit((1, 110, 5), 2, form(4, 510))),
        deposit(2, (2, 10, 6)),
        deposit(2, (2, 10, 7)),
        Step::OnToDay(2),
        refused(ending(510, 1, 110, 1), 18),
        moved(ending(510, 1, 120, 2)),
        moved(ending(510, 1, 110, 1)),
    ]);
    steps
}

//! Trades that a cycle drops and then takes back, since they fit beside what
//! it sends.

use super::Figure::*;
use super::orders::{Party, answer, form};
use super::sent::{A, B, deposit, first_day, pair, pay_in};
use super::{List, Step, left, moved, settled};

const C: Party = (9, 20, 5);
const D: Party = (10, 20, 5);
const E: Party = (11, 20, 5);
const F: Party = (12, 20, 5);

pub fn lists() -> Vec<List> {
    vec![
        List { name: "a trade comes back in a second pass", steps: second_pass() },
        List { name: "a pass goes on behind what it adds", steps: no_new_start() },
        List { name: "cash is there for the first and the last", steps: cash_between() },
        List { name: "two trades that fit only together", steps: only_together() },
        List { name: "63 trades come back one a pass, for their shares", steps: shares_one_a_pass() },
        List { name: "63 trades come back one a pass, for their cash", steps: cash_one_a_pass() },
    ]
}

/// A trade: quantity, amount, and the two parties.
type Terms = (u64, u64, [Party; 2]);

/// Pairs that settle on day 1, with references from 1 on.
fn pairs(trades: &[Terms]) -> Vec<Step> {
    let numbered = trades.iter().zip(1..);
    numbered.flat_map(|((quantity, amount, between), own)| pair(*quantity, *amount, *between, own)).collect()
}

/// Day 1: A has 100 shares, and members 8 to 12 can pay 10 each.
fn shares_of_a() -> Vec<Step> {
    let mut steps = first_day();
    steps.push(deposit(540, 100, A));
    steps.extend((8..=12).map(|member| moved(pay_in(540, member, 10))));
    steps
}

/// The fourth, the third and the first are dropped. The fourth brings B what
/// the first takes, but stands behind it.
const CHAIN: [Terms; 4] = [(30, 10, [B, C]), (60, 10, [A, D]), (50, 10, [A, E]), (30, 10, [A, B])];

/// The rows stand in list order, not in that of the passes.
fn second_pass() -> Vec<Step> {
    let mut steps = shares_of_a();
    steps.extend(pairs(&CHAIN));
    steps.extend([
        left(form(16, 585), 1),
        Step::Book(&[Sent(true), Waiting(4), Marked(3)]),
        settled(answer(585, 1), 3),
        Step::Rows(&[
            0x0065020500000005000000000000001E,
            0x8065024500000005000000000000001E,
            0x4001024000000000000000000000000A,
            0xC001020000000000000000000000000A,
            0x006501C500000005000000000000003C,
            0x8065028500000005000000000000003C,
            0x4001028000000000000000000000000A,
            0xC00101C000000000000000000000000A,
            0x006501C500000005000000000000001E,
            0x8065020500000005000000000000001E,
            0x4001020000000000000000000000000A,
            0xC00101C000000000000000000000000A,
        ]),
        Step::Book(&[Accounts(&[(101, 7, 20, 5, 10), (101, 9, 20, 5, 30), (101, 10, 20, 5, 60)])]),
        Step::Book(&[Waiting(1), Quantities(&[50])]),
    ]);
    steps
}

/// B sells its 30 a second time, at the list's end: that trade is added in the
/// pass that adds the fourth, and nothing is left for the first.
fn no_new_start() -> Vec<Step> {
    let mut steps = shares_of_a();
    steps.extend(pairs(&CHAIN));
    steps.extend(pair(30, 10, [B, F], 5));
    steps.extend([
        left(form(16, 585), 2),
        settled(answer(585, 1), 3),
        Step::Book(&[Accounts(&[(101, 7, 20, 5, 10), (101, 10, 20, 5, 60), (101, 12, 20, 5, 30)])]),
        Step::Book(&[Waiting(2), Quantities(&[30, 50])]),
    ]);
    steps
}

/// B pays 60, 50 and 30 of 100; the shares are all there.
fn cash_between() -> Vec<Step> {
    let mut steps = first_day();
    steps.extend([deposit(540, 3, A), moved(pay_in(540, 8, 100))]);
    steps.extend(pairs(&[(1, 60, [A, B]), (1, 50, [A, B]), (1, 30, [A, B])]));
    steps.extend([
        left(form(16, 585), 1),
        settled(answer(585, 1), 2),
        Step::Book(&[Accounts(&[(101, 7, 20, 5, 1), (101, 8, 20, 5, 2)]), Cash(&[(7, 1, 90), (8, 1, 10)])]),
        Step::Book(&[Waiting(1), Amounts(&[50])]),
    ]);
    steps
}

/// Nobody has shares. The second and the third would settle as a ring, but the
/// first is dropped last, and alone none of the three fits.
fn only_together() -> Vec<Step> {
    let mut steps = first_day();
    steps.extend([7, 8, 9].map(|member| moved(pay_in(540, member, 100))));
    steps.extend(pairs(&[(10, 5, [A, C]), (10, 5, [A, B]), (10, 5, [B, A])]));
    steps.extend([left(form(16, 585), 3), Step::Book(&[Sent(true), Marked(0)]), settled(answer(585, 1), 0)]);
    steps.push(Step::Book(&[Waiting(3), Cash(&[(7, 1, 100), (8, 1, 100), (9, 1, 100)])]));
    steps
}

fn holder(member: u64) -> Party {
    (member, 20, 5)
}

/// Each member sells 10 shares to the one before it. Only member 64 has them,
/// and sells 900 besides at the head of the list.
fn shares_one_a_pass() -> Vec<Step> {
    let mut trades = vec![(900, 1, [holder(64), holder(1)])];
    trades.extend((1..64).map(|member| (10, 1, [holder(member + 1), holder(member)])));
    let mut steps = first_day();
    steps.push(deposit(540, 10, holder(64)));
    steps.extend((1..=64).map(|member| moved(pay_in(540, member, 10))));
    steps.extend(pairs(&trades));
    steps.extend([
        left(form(16, 585), 1),
        Step::Book(&[Waiting(64), Marked(63)]),
        settled(answer(585, 1), 63),
        Step::Book(&[Accounts(&[(101, 1, 20, 5, 10)]), Waiting(1), Quantities(&[900])]),
    ]);
    steps
}

/// Each member pays 10 to the one before it for one share of two. Only member 64
/// has so much, and pays 900 besides, last but one in the list.
fn cash_one_a_pass() -> Vec<Step> {
    let mut trades: Vec<Terms> = (1..64).map(|member| (1, 10, [holder(member), holder(member + 1)])).collect();
    trades.insert(62, (1, 900, [holder(1), holder(64)]));
    let mut steps = first_day();
    steps.extend((1..=64).map(|member| deposit(540, 2, holder(member))));
    steps.push(moved(pay_in(540, 64, 10)));
    steps.extend(pairs(&trades));
    steps.extend([
        left(form(16, 585), 1),
        Step::Book(&[Waiting(64), Marked(63)]),
        settled(answer(585, 1), 63),
        Step::Book(&[AccountCount(64), Cash(&[(1, 1, 10)]), Waiting(1), Amounts(&[900])]),
    ]);
    steps
}

//! What a cycle takes back of the trades that it has dropped, and the two facts
//! of what it sends: nothing is short with it, and no trade that is left fits
//! beside it. Both are worked out here from the book at sending alone.

mod common;

use std::collections::BTreeSet;

use common::*;
use reference::book::{Account, Book, Item, Purse};
use reference::record::Order;

/// A trade for USD: seller, buyer, quantity and amount.
type Terms = (Account, Account, u64, u64);

/// The account of a member.
fn of(member: u64) -> Account {
    account(member, 10, 5)
}

/// Shares of members, cash of members, and due trades in list order, on day 4.
fn due_list(shares: &[(u64, u64)], cash: &[(u64, u64)], trades: &[Terms]) -> Book {
    let mut book = first_day(1);
    shares.iter().for_each(|(member, quantity)| book_in(&mut book, deposit(of(*member), *quantity, 540)));
    cash.iter().for_each(|(member, amount)| book_in(&mut book, pay_in(*member, USD, *amount, 540)));
    for ((from, to, quantity, amount), reference) in trades.iter().zip(1..) {
        accept(&mut book, &trade(*from, *to, *quantity, *amount, reference, 1, 541));
    }
    on_to_day(&mut book, 4);
    book
}

fn book_in(book: &mut Book, order: Order) {
    assert_eq!(accept(book, &order).rows, 2);
}

/// Sends the cycle: the places in the list of what it has fixed. The facts
/// hold, and what is left is what is not fixed.
fn sent(book: &Book) -> Vec<usize> {
    let mut after = book.clone();
    let left = accept(&mut after, &form(16, 585)).left;
    let fixed: Vec<usize> = (0..after.waiting.len()).filter(|place| after.waiting[*place].sent).collect();
    assert_eq!(left as usize, after.waiting.len() - fixed.len());
    check_facts(book, &fixed);
    fixed
}

fn check_facts(book: &Book, fixed: &[usize]) {
    assert!(!anything_short(book, fixed), "{fixed:?} of {:?}", book.waiting);
    for place in (0..book.waiting.len()).filter(|place| !fixed.contains(place)) {
        let with = [fixed, &[place]].concat();
        assert!(anything_short(book, &with), "{place} fits beside {fixed:?} of {:?}", book.waiting);
    }
}

/// Whether an account or a purse, of the book or of a trade of the list, would
/// be below zero after these trades.
fn anything_short(book: &Book, places: &[usize]) -> bool {
    let trades: Vec<&Item> = places.iter().map(|place| &book.waiting[*place]).collect();
    let sum = |values: &dyn Fn(&Item) -> i128| -> i128 { trades.iter().map(|trade| values(trade)).sum() };
    let change = |brings: bool, takes: bool, value: u64| {
        i128::from(value) * (i128::from(u8::from(brings)) - i128::from(u8::from(takes)))
    };
    let account_short = |account: &Account| {
        let moved = sum(&|trade| {
            change(trade.credited_account() == *account, trade.debited_account() == *account, trade.quantity)
        });
        i128::from(book.balance(account)) + moved < 0
    };
    let purse_short = |purse: &Purse| {
        let moved =
            sum(&|trade| change(trade.credited_purse() == *purse, trade.debited_purse() == *purse, trade.amount));
        i128::from(book.cash_of(purse)) + moved < 0
    };
    all_accounts(book).iter().any(account_short) || all_purses().iter().any(purse_short)
}

fn all_accounts(book: &Book) -> BTreeSet<Account> {
    let of_trades = book.waiting.iter().flat_map(|item| [item.debited_account(), item.credited_account()]);
    book.accounts.keys().copied().chain(of_trades).collect()
}

fn all_purses() -> Vec<Purse> {
    (1..=64).flat_map(|member| [USD, LBP].map(|currency| Purse { member, currency })).collect()
}

/// As many trades of the list as could settle together.
fn most_that_fit(book: &Book) -> usize {
    let chosen = |set: u32| (0..book.waiting.len()).filter(move |place| set >> place & 1 == 1).collect::<Vec<usize>>();
    let sets = (0..1_u32 << book.waiting.len()).map(chosen);
    sets.filter(|set| !anything_short(book, set)).map(|set| set.len()).max().expect("no trade at all fits")
}

#[test]
fn shares_that_are_there_are_used() {
    let sell = |quantity| (of(1), of(2), quantity, 10);
    let list = |quantities: &[u64]| {
        let trades: Vec<Terms> = quantities.iter().map(|quantity| sell(*quantity)).collect();
        sent(&due_list(&[(1, 100)], &[(2, 1_000)], &trades))
    };
    assert_eq!(list(&[60, 50, 30]), [0, 2], "P10");
    assert_eq!(list(&[60, 40, 1]), [0, 1]);
    assert_eq!(list(&[60, 41, 40]), [0, 2], "as much as there is");
    assert_eq!(list(&[60, 41, 41]), [0]);
    assert_eq!(list(&[101, 100, 1]), [1], "what comes back first is in for those behind");
    assert_eq!(list(&[101, 99, 1]), [1, 2]);
    assert_eq!(list(&[60, 20, 50, 15, 10, 5]), [0, 1, 3, 5], "not the 10, which are short by 5");
}

#[test]
fn cash_that_is_there_is_used() {
    let buy = |amount| (of(1), of(2), 1, amount);
    let list = |amounts: &[u64]| {
        let trades: Vec<Terms> = amounts.iter().map(|amount| buy(*amount)).collect();
        sent(&due_list(&[(1, 100)], &[(2, 100)], &trades))
    };
    assert_eq!(list(&[60, 50, 30]), [0, 2]);
    assert_eq!(list(&[101, 99, 1]), [1, 2]);
    assert_eq!(list(&[60, 50, 41, 41]), [0]);
}

/// Shares and cash are both asked for: one alone is not enough.
#[test]
fn both_places_of_a_trade_are_tested() {
    let trades = [(of(1), of(2), 60, 5), (of(1), of(2), 50, 5), (of(1), of(3), 30, 5), (of(1), of(2), 20, 5)];
    assert_eq!(sent(&due_list(&[(1, 100)], &[(2, 100)], &trades)), [0, 3], "3 cannot pay for its 30");
    assert_eq!(sent(&due_list(&[(1, 100)], &[(2, 100), (3, 5)], &trades)), [0, 2], "its 30 come before the 20");
    let trades = [(of(1), of(2), 1, 60), (of(1), of(2), 1, 50), (of(3), of(2), 1, 30), (of(1), of(2), 1, 20)];
    assert_eq!(sent(&due_list(&[(1, 100)], &[(2, 100)], &trades)), [0, 3], "3 has no share to sell");
}

/// The trade at place i takes what the one behind it brings; the last one takes
/// from member 1, which sells more than it has at the head.
fn chain_from_the_end(length: u64) -> Vec<Terms> {
    let mut trades = vec![(of(1), of(2), 1_000, 1)];
    trades.extend((0..length).map(|place| (of(4 + place), of(3 + place), 100, 1)));
    let last = trades.len() - 1;
    trades[last].0 = of(1);
    trades
}

#[test]
fn passes_go_on_until_none_adds() {
    for length in 1..=12 {
        let cash: Vec<(u64, u64)> = (1..=20).map(|member| (member, 10)).collect();
        let book = due_list(&[(1, 100)], &cash, &chain_from_the_end(length));
        let all_but_the_head: Vec<usize> = (1..=length as usize).collect();
        assert_eq!(sent(&book), all_but_the_head, "one comes back in each of {length} passes");
    }
}

/// What a trade brings to the very purse that pays it: a member that buys from
/// itself needs no cash.
#[test]
fn cash_to_itself_is_no_want_of_cash() {
    let own = (account(1, 10, 5), account(1, 20, 5), 30, 500);
    let trades = [(of(1), of(2), 60, 10), (of(1), of(2), 50, 10), own];
    assert_eq!(sent(&due_list(&[(1, 100)], &[(2, 100)], &trades)), [0, 2]);
}

/// Three trades of which two would settle as a ring: all are dropped, and none
/// fits alone. So what is sent need not be as much as could be.
#[test]
fn what_is_sent_is_not_the_most_that_could_be() {
    let ring = [(of(1), of(3), 10, 5), (of(1), of(2), 10, 5), (of(2), of(1), 10, 5)];
    let book = due_list(&[], &[(1, 100), (2, 100), (3, 100)], &ring);
    assert_eq!((sent(&book), most_that_fit(&book)), (vec![], 2));
    let sell = |quantity| (of(1), of(2), quantity, 5);
    let book = due_list(&[(1, 100)], &[(2, 100)], &[sell(100), sell(50), sell(50)]);
    assert_eq!((sent(&book), most_that_fit(&book)), (vec![0], 2));
}

/// A left trade may fit after a deposit; until the next cycle it stays left.
#[test]
fn what_is_left_waits_for_the_next_cycle() {
    let trades = [(of(1), of(2), 60, 5), (of(1), of(2), 50, 5), (of(1), of(2), 30, 5)];
    let mut book = due_list(&[(1, 100)], &[(2, 100)], &trades);
    assert_eq!(accept(&mut book, &form(16, 585)).left, 1);
    accept(&mut book, &deposit(of(1), 40, 586));
    let (counts, rows) = rows_of(&mut book, &answer(1, 587));
    assert_eq!((counts.settled, rows.len()), (4, 8));
    assert_eq!(rows.iter().map(|row| row[15]).collect::<Vec<u8>>(), [60, 60, 5, 5, 30, 30, 5, 5]);
    let counts = run_cycle(&mut book, 705);
    assert_eq!((counts.settled, counts.left, book.balance(&of(1))), (2, 0, 0));
}

/// Numbers below a limit, the same in each run.
struct Draw(u64);

impl Draw {
    fn below(&mut self, limit: u64) -> u64 {
        self.0 = self.0.wrapping_mul(6_364_136_223_846_793_005).wrapping_add(1_442_695_040_888_963_407);
        (self.0 >> 33) % limit
    }
}

/// Short lists among few members with little of anything, some trades within
/// one member.
fn drawn_list(draw: &mut Draw) -> Book {
    let little: Vec<(u64, u64)> = (1..=3).map(|member| (member, 1 + draw.below(9))).collect();
    let cash: Vec<(u64, u64)> = (1..=4).map(|member| (member, 1 + draw.below(9))).collect();
    let trades: Vec<Terms> = (0..2 + draw.below(7))
        .map(|_| {
            let (from, to) = (1 + draw.below(4), 1 + draw.below(4));
            let to = if from == to { account(to, 20, 5) } else { of(to) };
            (of(from), to, 1 + draw.below(9), 1 + draw.below(9))
        })
        .collect();
    due_list(&little, &cash, &trades)
}

#[test]
fn the_facts_hold_of_drawn_lists() {
    let mut draw = Draw(6);
    let (mut left, mut not_the_most) = (0, 0);
    for _ in 0..600 {
        let book = drawn_list(&mut draw);
        let fixed = sent(&book);
        left += usize::from(fixed.len() < book.waiting.len());
        not_the_most += usize::from(fixed.len() < most_that_fit(&book));
    }
    assert!(left > 300 && not_the_most > 20, "{left} lists leave some, {not_the_most} less than could settle");
}

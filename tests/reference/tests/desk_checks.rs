//! Desk checks P1 to P13 (RULES, appendix A).

mod common;

use common::*;
use reference::book::{Book, State};

#[test]
fn p1_form_3_at_minute_540_starts_1a_1c() {
    let mut area = [0; 40];
    reference::record::write(&deposit(account(7, 20, 5), 400, 540).fields(), &mut area).expect("a good order");
    assert_eq!(area[..2], [0x1A, 0x1C]);
}

#[test]
fn p2_credit_row_of_the_deposit() {
    let mut book = first_day(1);
    let (counts, rows) = rows_of(&mut book, &deposit(account(7, 20, 5), 400, 540));
    assert_eq!(counts.rows, 2);
    let credit = [0x80, 0x65, 0x01, 0xC5, 0x00, 0x00, 0x00, 0x05, 0x00, 0x00, 0x00, 0x00, 0x00, 0x00, 0x01, 0x90];
    assert_eq!(rows[1], credit);
    let debit = [0x00, 0x65, 0x00, 0x16, 0xC0, 0x00, 0x00, 0x00, 0x00, 0x00, 0x00, 0x00, 0x00, 0x00, 0x01, 0x90];
    assert_eq!(rows[0], debit, "type 91, member 0, shareholder 0");
}

/// A deliver at 100,000 and a receive, in both orders of arrival: the amount
/// of the pair, or none.
fn pair_at(receive_amount: u64, currency: u64, deliver_first: bool) -> Option<u64> {
    let mut book = first_day(1);
    let mut orders = [deliver(100_000, 2, 11, 500), receive(receive_amount, 2, 12, 500)];
    orders.iter_mut().for_each(|order| order.currency = currency);
    if !deliver_first {
        orders.reverse();
    }
    orders.iter().for_each(|order| assert_eq!(accept(&mut book, order).rows, 0));
    let pair = matches!(book.waiting[0].state, State::Pair { .. });
    assert_eq!(book.waiting.len(), if pair { 1 } else { 2 });
    pair.then_some(book.waiting[0].amount)
}

#[test]
fn p3_a_receive_2_000_above_pairs_at_its_amount() {
    assert_eq!(pair_at(102_000, USD, true), Some(102_000));
    assert_eq!(pair_at(102_000, USD, false), Some(102_000));
}

#[test]
fn p4_a_receive_2_001_above_does_not_pair() {
    assert_eq!(pair_at(102_001, USD, true), None);
    assert_eq!(pair_at(102_001, USD, false), None);
}

#[test]
fn p5_a_receive_below_does_not_pair() {
    assert_eq!(pair_at(99_999, USD, true), None);
    assert_eq!(pair_at(99_999, USD, false), None);
    assert_eq!(pair_at(100_000, USD, true), Some(100_000));
}

#[test]
fn pound_tolerance_has_both_its_ends() {
    assert_eq!(pair_at(3_115_000, LBP, true), Some(3_115_000));
    assert_eq!(pair_at(3_115_001, LBP, false), None);
    assert_eq!(pair_at(99_999, LBP, false), None);
}

#[test]
fn p6_same_day_deliver_at_825_is_taken() {
    let mut book = first_day(1);
    accept(&mut book, &deliver(100, 1, 11, 825));
    assert_eq!(book.waiting.len(), 1);
}

#[test]
fn p7_same_day_deliver_at_826_is_9() {
    assert_eq!(refuse(&mut first_day(1), &deliver(100, 1, 11, 826)), 9);
    assert_eq!(refuse(&mut first_day(2), &deliver(100, 1, 11, 706)), 9);
}

/// 64 delivers of different amounts wait.
fn full_list() -> Book {
    let mut book = first_day(1);
    for reference in 1..=64 {
        accept(&mut book, &deliver(1_000_000 + 10_000 * reference, 5, reference, 500));
    }
    book
}

#[test]
fn p8_with_64_items_an_arrival_that_matches_is_taken() {
    let mut book = full_list();
    accept(&mut book, &receive(1_020_000, 5, 1, 500));
    assert_eq!(book.waiting.len(), 64);
    let State::Pair { deliver, receive } = book.waiting[63].state else { panic!("the pair goes last") };
    assert_eq!((deliver.reference, receive.reference), (2, 1));
}

#[test]
fn p9_with_64_items_an_arrival_that_does_not_match_is_18() {
    assert_eq!(refuse(&mut full_list(), &receive(5, 5, 1, 500)), 18);
}

/// Day 1 with the trades sent, then day 4 with them due.
fn due_trades(mut book: Book, trades: &[reference::record::Order]) -> Book {
    trades.iter().for_each(|order| assert_eq!(accept(&mut book, order).rows, 0));
    (0..3).for_each(|_| assert_eq!(next_day(&mut book).suspended, 0));
    book
}

#[test]
fn p10_of_60_50_and_30_the_50_are_left() {
    let mut book = first_day(1);
    let (seller, buyer) = (account(1, 10, 5), account(2, 10, 6));
    accept(&mut book, &deposit(seller, 100, 540));
    accept(&mut book, &pay_in(2, USD, 1_000, 540));
    let sell = |quantity, reference| trade(seller, buyer, quantity, 10, reference, 1, 541);
    let mut book = due_trades(book, &[sell(60, 1), sell(50, 2), sell(30, 3)]);
    let counts = run_cycle(&mut book, 585);
    assert_eq!((counts.rows, counts.settled, counts.left), (8, 4, 1));
    assert_eq!((book.balance(&seller), book.balance(&buyer)), (10, 90));
    assert_eq!((cash(&book, 1), cash(&book, 2)), (20, 980));
    assert_eq!((book.waiting.len(), book.waiting[0].quantity), (1, 50));
}

/// 100 shares go from A by way of B to C, at 50 a trade; C has `cash_of_c`.
fn chain(cash_of_c: u64, turned: bool) -> Book {
    let mut book = first_day(1);
    let [a, b, c] = [1, 2, 3].map(|member| account(member, 10, 5));
    accept(&mut book, &deposit(a, 100, 540));
    if cash_of_c > 0 {
        accept(&mut book, &pay_in(3, USD, cash_of_c, 540));
    }
    let mut trades = [trade(a, b, 100, 50, 1, 1, 541), trade(b, c, 100, 50, 2, 1, 541)];
    if turned {
        trades.reverse();
    }
    due_trades(book, &trades)
}

#[test]
fn p11_a_chain_settles_when_its_end_can_pay() {
    for turned in [false, true] {
        let mut book = chain(50, turned);
        let counts = run_cycle(&mut book, 585);
        assert_eq!((counts.rows, counts.settled, counts.left), (8, 4, 0));
        assert_eq!(book.accounts.len(), 1, "an empty account is not kept");
        assert_eq!(book.balance(&account(3, 10, 5)), 100);
        assert_eq!([1, 2, 3].map(|member| cash(&book, member)), [50, 0, 0]);
    }
}

#[test]
fn p12_a_chain_does_not_settle_when_its_end_cannot_pay() {
    for turned in [false, true] {
        let mut book = chain(0, turned);
        let counts = run_cycle(&mut book, 585);
        assert_eq!((counts.rows, counts.settled, counts.left), (0, 0, 2));
        assert_eq!(book.balance(&account(1, 10, 5)), 100);
        assert_eq!(book.waiting.len(), 2);
    }
}

#[test]
fn p13_pledge_from_110_to_121_is_11() {
    let order = between(6, account(7, 110, 5), account(7, 121, 5), 1, 1, 540);
    assert_eq!(refuse(&mut first_day(1), &order), 11);
}

//! Cycles that are sent and answered: form 21, what comes between, and what an
//! account offers meanwhile.

mod common;

use common::*;
use reference::book::{Account, Book, MOST_ITEMS, Sender, State};
use reference::call::Counts;
use reference::forms::{self, Written};
use reference::record::{Order, read, write};
use reference::refusals;
use reference::sent::{offered, trades};

const CONFIRM: u64 = 1;
const DECLINE: u64 = 2;
const NOTHING: Counts = Counts { rows: 0, settled: 0, cancelled: 0, deleted: 0, suspended: 0, left: 0 };

fn seller() -> Account {
    account(7, 20, 5)
}

fn buyer() -> Account {
    account(8, 20, 5)
}

/// Day 1 with 100 shares of member 7, 1,000 of cash of member 8, and a pair of
/// 60 shares for 100 that is due, under references 1 and 1.
fn with_pair() -> Book {
    let mut book = first_day(1);
    accept(&mut book, &deposit(seller(), 100, 540));
    accept(&mut book, &pay_in(8, USD, 1_000, 540));
    accept(&mut book, &deliver(100, 1, 1, 540));
    accept(&mut book, &receive(100, 1, 1, 540));
    book
}

/// The same, with a cycle sent at 585.
fn sent() -> Book {
    let mut book = with_pair();
    assert_eq!(accept(&mut book, &form(16, 585)), NOTHING);
    book
}

/// Members 1, 2 and 3, the second with shares of its own: 100 come to it and
/// so many leave it again.
fn chain(own: u64, leaving: u64) -> Book {
    let mut book = first_day(1);
    let [a, b, c] = [1, 2, 3].map(|member| account(member, 10, 5));
    accept(&mut book, &deposit(a, 100, 540));
    if own > 0 {
        accept(&mut book, &deposit(b, own, 540));
    }
    (1..=3).for_each(|member| assert_eq!(accept(&mut book, &pay_in(member, USD, 1_000, 540)).rows, 2));
    accept(&mut book, &trade(a, b, 100, 50, 1, 1, 541));
    accept(&mut book, &trade(b, c, leaving, 50, 2, 1, 541));
    on_to_day(&mut book, 4);
    assert_eq!(accept(&mut book, &form(16, 585)), NOTHING);
    assert_eq!(trades(&book).len(), 2);
    book
}

#[test]
fn the_form_and_the_refusals_that_it_meets() {
    let met = refusals::TABLE.iter().filter(|refusal| (refusal.forms)(21) && refusal.number != 3);
    assert_eq!(met.map(|refusal| refusal.number).collect::<Vec<u64>>(), [1, 2, 4, 5, 6, 23, 8, 9]);
    let form = forms::form(21).expect("a form");
    assert_eq!((form.name, form.rows, form.takes_in), ("answer cycle", Written::Postings, 0));
    assert_eq!(forms::form(16).expect("a form").rows, Written::Nothing);
    for quantity in [CONFIRM, DECLINE] {
        assert_eq!(read(&record(&answer(quantity, 590))), Ok(answer(quantity, 590)));
    }
    for quantity in [0, 3, (1 << 40) - 1] {
        assert_eq!(read(&record(&answer(quantity, 590))), Err(5));
        assert_eq!(read(&record(&Order { amount: 1, ..answer(quantity, 590) })), Err(4));
    }
    assert_eq!(write(&answer(1 << 40, 590).fields(), &mut [0; 40]), Err(5));
}

#[test]
fn a_cycle_marks_and_counts_and_books_nothing() {
    let mut book = with_pair();
    let mut expected = book.clone();
    (expected.day.cycles_run, expected.day.sent, expected.day.last_minute) = (1, true, 600);
    expected.waiting[0].sent = true;
    let (counts, rows) = rows_of(&mut book, &form(16, 600));
    assert_eq!((counts, rows.len()), (NOTHING, 0));
    assert_eq!(book, expected);
}

#[test]
fn a_confirmation_books_what_was_sent() {
    let mut book = sent();
    let (counts, rows) = rows_of(&mut book, &answer(CONFIRM, 590));
    assert_eq!((counts, rows.len()), (Counts { rows: 4, settled: 2, ..NOTHING }, 4));
    assert_eq!((book.balance(&seller()), book.balance(&buyer())), (40, 60));
    assert_eq!((cash(&book, 7), cash(&book, 8)), (100, 900));
    assert!(book.waiting.is_empty() && !book.day.sent);
    assert_eq!((book.day.cycles_run, book.day.last_minute), (1, 590));
}

#[test]
fn a_declined_cycle_has_run_and_its_trades_wait() {
    let mut book = sent();
    let mut expected = with_pair();
    (expected.day.cycles_run, expected.day.last_minute) = (1, 590);
    assert_eq!(rows_of(&mut book, &answer(DECLINE, 590)), (NOTHING, vec![]));
    assert_eq!(book, expected);
    assert_eq!(accept(&mut book, &form(16, 705)), NOTHING, "not left, but sent again");
    assert_eq!(accept(&mut book, &answer(CONFIRM, 705)).settled, 2);
}

#[test]
fn refused_answers_and_cycles_change_nothing() {
    let mut book = first_day(2);
    assert_eq!(refuse(&mut book, &answer(CONFIRM, 100)), 23);
    assert_eq!(refuse(&mut book, &answer(DECLINE, 1_439)), 23);
    accept(&mut book, &form(16, 585));
    assert_eq!(refuse(&mut book, &form(16, 705)), 22);
    assert_eq!(refuse(&mut book, &form(16, 100)), 22, "at any minute");
    assert_eq!(refuse(&mut book, &form(17, 100)), 7);
    assert_eq!(refuse(&mut book, &answer(CONFIRM, 584)), 8);
    assert_eq!(refuse(&mut book, &answer(CONFIRM, 901)), 9);
    accept(&mut book, &answer(CONFIRM, 900));
    assert_eq!(refuse(&mut book, &answer(CONFIRM, 900)), 23);
    accept(&mut book, &form(16, 900));
    assert_eq!(refuse(&mut book, &form(16, 900)), 7);
    assert_eq!(refuse(&mut book, &form(17, 900)), 22);
    assert_eq!(refuse(&mut book, &open(1, 0)), 6);
    accept(&mut book, &answer(CONFIRM, 1_439));
    assert_eq!(refuse(&mut book, &set_rate(1, 1_439)), 9);
    accept(&mut book, &form(17, 1_439));
    assert_eq!(refuse(&mut book, &answer(CONFIRM, 1_439)), 6);
}

#[test]
fn cash_waits_for_the_answer_and_the_counter_does_not() {
    let mut book = sent();
    for minute in [0, 584, 586, 961] {
        assert_eq!(refuse(&mut book, &pay_in(8, USD, 1, minute)), 22);
        assert_eq!(refuse(&mut book, &pay_out(8, USD, 5_000, minute)), 22);
    }
    accept(&mut book, &admit(102, 5, 586));
    accept(&mut book, &deposit(buyer(), 10, 586));
    accept(&mut book, &between(6, buyer(), account(8, 21, 5), 5, 1, 586));
    accept(&mut book, &between(7, account(8, 21, 5), buyer(), 5, 1, 586));
    accept(&mut book, &between(8, buyer(), account(8, 22, 5), 5, 1, 586));
    accept(&mut book, &between(9, account(8, 22, 5), buyer(), 5, 1, 586));
    accept(&mut book, &set_rate(5, 586));
    accept(&mut book, &request(buyer(), 10, 1, 586));
    accept(&mut book, &trade(seller(), buyer(), 1, 1, 1, 1, 586));
    accept(&mut book, &answer(CONFIRM, 587));
    accept(&mut book, &pay_in(8, USD, 1, 587));
}

/// Each form that takes from an account is asked for what it offers.
#[test]
fn an_account_offers_what_the_trades_leave() {
    let taking = |quantity| {
        [
            withdraw(seller(), quantity, 586),
            between(5, seller(), account(9, 20, 5), quantity, 1, 586),
            between(6, seller(), account(7, 21, 5), quantity, 1, 586),
            between(8, seller(), account(7, 22, 5), quantity, 1, 586),
            request(seller(), quantity, 1, 586),
        ]
    };
    let mut book = sent();
    assert_eq!(offered(&book, &seller()), 40);
    taking(41).iter().for_each(|order| assert_eq!(refuse(&mut book, order), 16));
    for order in taking(40) {
        let mut book = book.clone();
        accept(&mut book, &order);
        assert_eq!(refuse(&mut book, &withdraw(seller(), 1, 586)), 16);
        assert_eq!(accept(&mut book, &answer(CONFIRM, 586)).settled, 2);
        assert_eq!(book.balance(&seller()), 0);
    }
    accept(&mut book, &answer(DECLINE, 586));
    accept(&mut book, &withdraw(seller(), 100, 586));
}

#[test]
fn what_is_taken_is_taken_net() {
    let b = account(2, 10, 5);
    for (leaving, offer) in [(60, 10), (100, 10), (105, 5), (110, 0)] {
        let mut book = chain(10, leaving);
        assert_eq!(offered(&book, &b), offer, "100 come and {leaving} leave");
        assert_eq!(refuse(&mut book, &withdraw(b, offer + 1, 586)), 16);
        if offer > 0 {
            accept(&mut book, &withdraw(b, offer, 586));
        }
        assert_eq!(accept(&mut book, &answer(CONFIRM, 587)).rows, 8);
        assert_eq!(book.balance(&b), 110 - leaving - offer);
    }
}

#[test]
fn an_emptied_account_comes_again_with_the_confirmation() {
    let b = account(2, 10, 5);
    for (leaving, left) in [(60, 40), (100, 0)] {
        let mut book = chain(10, leaving);
        accept(&mut book, &withdraw(b, 10, 586));
        assert!(!book.accounts.contains_key(&b));
        accept(&mut book, &answer(CONFIRM, 586));
        assert_eq!((book.balance(&b), book.accounts.contains_key(&b)), (left, left > 0));
    }
}

#[test]
fn a_sent_trade_cannot_be_cancelled_and_others_can() {
    let mut book = with_pair();
    for reference in [2, 3] {
        accept(&mut book, &deliver(9_999, 1, reference, 541));
        accept(&mut book, &receive(9_999, 1, reference, 541));
    }
    accept(&mut book, &cancel(7, 1, 542));
    assert_eq!(accept(&mut book, &form(16, 585)).left, 2, "8 has 1,000");
    assert_eq!(refuse(&mut book, &cancel(7, 1, 586)), 15, "marked before");
    assert_eq!(refuse(&mut book, &cancel(8, 1, 586)), 24, "the second half");
    accept(&mut book, &cancel(8, 2, 586));
    assert_eq!(accept(&mut book, &cancel(7, 2, 586)).cancelled, 2);
    accept(&mut book, &answer(DECLINE, 587));
    accept(&mut book, &form(16, 705));
    accept(&mut book, &cancel(7, 3, 705));
    accept(&mut book, &answer(DECLINE, 705));
    assert_eq!(accept(&mut book, &cancel(8, 1, 706)).cancelled, 2, "the first mark has stayed");
}

#[test]
fn the_first_half_leaves_no_mark() {
    let mut book = sent();
    assert_eq!((refuse(&mut book, &cancel(7, 1, 586)), refuse(&mut book, &cancel(8, 1, 586))), (24, 24));
    let State::Pair { deliver, receive } = book.waiting[0].state else { panic!("a pair") };
    assert!(!deliver.marked && !receive.marked);
    assert_eq!(refuse(&mut book, &cancel(7, 9, 586)), 14);
    assert_eq!(refuse(&mut book, &cancel(7, 1, 961)), 9);
}

/// A left trade would fit, and a new pair is due: neither is booked.
#[test]
fn a_confirmation_chooses_nothing() {
    let mut book = with_pair();
    accept(&mut book, &Order { quantity: 50, ..deliver(100, 1, 2, 541) });
    accept(&mut book, &Order { quantity: 50, ..receive(100, 1, 2, 541) });
    assert_eq!(accept(&mut book, &form(16, 585)).left, 1);
    accept(&mut book, &deposit(seller(), 500, 586));
    accept(&mut book, &deliver(200, 1, 3, 586));
    accept(&mut book, &receive(200, 1, 3, 586));
    assert_eq!(accept(&mut book, &answer(CONFIRM, 587)), Counts { rows: 4, settled: 2, ..NOTHING });
    assert_eq!((book.balance(&buyer()), book.waiting.len()), (60, 2));
    assert!(book.find_waiting(Sender::Member(7), 1).is_none());
    assert_eq!(run_cycle(&mut book, 705).settled, 4);
}

#[test]
fn marks_go_with_their_items() {
    let mut book = first_day(1);
    accept(&mut book, &deposit(seller(), 100, 540));
    accept(&mut book, &pay_in(8, USD, 100, 540));
    accept(&mut book, &deliver(7, 5, 9, 540));
    accept(&mut book, &deliver(8_000, 5, 10, 540));
    accept(&mut book, &receive(8_000, 5, 10, 540));
    accept(&mut book, &deliver(100, 1, 1, 540));
    accept(&mut book, &receive(100, 1, 1, 540));
    accept(&mut book, &deliver(9_000, 5, 11, 540));
    accept(&mut book, &form(16, 585));
    assert_eq!(trades(&book), [2]);
    accept(&mut book, &receive(7, 5, 9, 586));
    assert_eq!(trades(&book), [1]);
    accept(&mut book, &cancel(7, 10, 586));
    accept(&mut book, &cancel(8, 10, 586));
    assert_eq!(trades(&book), [0]);
    accept(&mut book, &receive(9_000, 5, 11, 586));
    assert_eq!(accept(&mut book, &answer(CONFIRM, 587)).settled, 2);
    assert_eq!((book.balance(&buyer()), book.waiting.len()), (60, 2));
}

/// 64 trades are sent from 64 accounts that stay, into as many new ones.
#[test]
fn a_confirmation_never_lacks_space() {
    let mut book = first_day(1);
    let holder = |place: u64, account_type| account(1 + place % 64, account_type, 1 + place);
    for place in 0..192 {
        accept(&mut book, &deposit(holder(place, 20), 2, 540));
    }
    (1..=64).for_each(|member| assert_eq!(accept(&mut book, &pay_in(member, USD, 10, 540)).rows, 2));
    for place in 0..64 {
        accept(&mut book, &trade(holder(place, 20), holder(place, 10), 1, 1, 1 + place, 1, 541));
    }
    on_to_day(&mut book, 4);
    accept(&mut book, &form(16, 585));
    assert_eq!((trades(&book).len(), book.accounts.len()), (MOST_ITEMS, 192));
    assert_eq!(refuse(&mut book, &deposit(account(1, 20, 999), 1, 586)), 18);
    assert_eq!(refuse(&mut book, &trade(seller(), buyer(), 1, 1, 99, 4, 586)), 18);
    let counts = accept(&mut book, &answer(CONFIRM, 587));
    assert_eq!((counts.rows, counts.settled), (256, 128));
    assert_eq!((book.waiting.len(), book.accounts.len()), (0, 256));
}

/// What is sent waits under its references, and its sides are waiting ones.
#[test]
fn what_is_sent_waits() {
    let mut book = sent();
    assert_eq!(refuse(&mut book, &deliver(5, 2, 1, 586)), 14);
    assert_eq!(book.waiting.iter().map(|item| item.sides()).sum::<u64>(), 2);
    let mut book = chain(0, 100);
    assert_eq!(refuse(&mut book, &trade(seller(), buyer(), 1, 1, 2, 4, 586)), 14);
    assert_eq!(refuse(&mut book, &cancel(1, 1, 586)), 14, "an exchange trade is never found");
}

//! Which refusal comes first, and the readings of the rules.

mod common;

use common::*;
use reference::book::{Book, CASH_CEILING, State};
use reference::call::Answer;
use reference::record::{Order, pack, read, write};
use reference::{forms, refusals};

fn answer(book: &mut Book, bytes: &[u8], area: usize) -> u64 {
    match book.call(bytes, &mut vec![0; area]) {
        Answer::Accepted(_) => 0,
        Answer::Refused(number) => number,
    }
}

#[test]
fn a_short_area_is_1_even_with_an_unreadable_record() {
    let mut book = first_day(1);
    assert_eq!(answer(&mut book, &[], 4095), 1);
    assert_eq!(answer(&mut book, &[0; 40], 0), 1);
    assert_eq!(answer(&mut book, &[], 4096), 2);
    assert_eq!(answer(&mut book, &[0; 41], 4096), 2);
    assert_eq!(answer(&mut book, &[0; 40], 4096), 3);
}

#[test]
fn unused_fields_come_before_ranges() {
    let minute_2000 = Order { minute: 2000, ..form(16, 0) };
    assert_eq!(read(&record(&minute_2000)), Err(5));
    assert_eq!(read(&record(&Order { credited_member: 1023, ..minute_2000 })), Err(4));
    assert_eq!(read(&record(&Order { currency: 3, ..form(16, 585) })), Err(4));
    assert_eq!(read(&pack(&minute_2000.fields(), 1)), Err(4));
    for unknown in (0..32).filter(|number| forms::form(*number).is_none()) {
        assert_eq!(read(&pack(&form(unknown, 0).fields(), 1)), Err(3));
    }
}

#[test]
fn a_used_field_of_0_is_5_and_an_unknown_type_11() {
    let good = deposit(account(7, 20, 5), 400, 540);
    assert_eq!(read(&record(&Order { credited_type: 0, ..good })), Err(5));
    assert_eq!(read(&record(&Order { quantity: 0, ..good })), Err(5));
    assert_eq!(read(&record(&Order { credited_member: 65, ..good })), Err(5));
    for unknown in [19, 50, 90, 91, 255] {
        assert_eq!(refuse(&mut first_day(1), &Order { credited_type: unknown, ..good }), 11);
    }
    assert_eq!(read(&record(&open(3, 0))), Err(5));
}

#[test]
fn the_writer_refuses_what_does_not_fit_and_keeps_the_rest() {
    let mut area = [9; 50];
    assert_eq!(write(&form(u64::MAX, 0).fields(), &mut area), Err(3));
    assert_eq!(write(&Order { amount: 1 << 40, ..form(16, 585) }.fields(), &mut area), Err(4));
    assert_eq!(write(&pay_in(1, 1, 1 << 40, 500).fields(), &mut area), Err(5));
    assert_eq!(write(&form(0, 0).fields(), &mut area[..39]), Err(1));
    assert_eq!(area, [9; 50]);
    let order = pay_in(64, 2, (1 << 40) - 1, 1439);
    assert_eq!(write(&order.fields(), &mut area), Ok(()));
    assert_eq!(area[40..], [9; 10]);
    assert_eq!(read(&area[..40]), Ok(order));
}

#[test]
fn days_open_and_close_in_turn() {
    let mut book = Book::fresh();
    assert_eq!(refuse(&mut book, &admit(101, 1, 500)), 6);
    assert_eq!(refuse(&mut book, &open(1, 481)), 9);
    accept(&mut book, &open(1, 480));
    assert_eq!(refuse(&mut book, &open(1, 481)), 6);
    assert_eq!(refuse(&mut book, &form(17, 100)), 7);
    assert_eq!(refuse(&mut book, &form(16, 479)), 8);
    assert_eq!(refuse(&mut book, &form(16, 584)), 9);
    end_day(&mut book);
    assert_eq!(refuse(&mut book, &form(16, 0)), 6);
    assert_eq!((book.day.kind, book.day.cycles_run, book.day.last_minute), (1, 3, 960));
}

#[test]
fn a_late_cycle_may_run_until_960_and_several_in_one_minute() {
    let mut book = first_day(1);
    assert_eq!(refuse(&mut book, &form(16, 961)), 9);
    (0..3).for_each(|_| assert_eq!(run_cycle(&mut book, 960).rows, 0));
    assert_eq!(refuse(&mut book, &form(16, 400)), 7);
    assert_eq!(refuse(&mut book, &form(17, 959)), 8);
    accept(&mut book, &form(17, 1439));
}

#[test]
fn day_60_000_is_the_last() {
    let mut book = Book::fresh();
    while book.day.number < 60_000 {
        accept(&mut book, &open(2, 0));
        end_day(&mut book);
    }
    assert_eq!(refuse(&mut book, &open(1, 0)), 6);
    assert_eq!(refuse(&mut book, &form(16, 585)), 6);
}

#[test]
fn a_refused_call_does_not_move_the_minute() {
    let mut book = first_day(1);
    assert_eq!(refuse(&mut book, &withdraw(account(7, 20, 5), 1, 800)), 16);
    accept(&mut book, &admit(102, 5, 480));
    assert_eq!(refuse(&mut book, &admit(103, 5, 479)), 8);
}

#[test]
fn later_faults_wait_for_earlier_ones() {
    let mut book = first_day(1);
    let (from, to) = (account(7, 20, 5), account(8, 120, 6));
    let faulty = Order { security: 999, ..between(5, from, to, 1, 9, 871) };
    assert_eq!(refuse(&mut book, &Order { minute: 479, ..faulty }), 8);
    assert_eq!(refuse(&mut book, &faulty), 9);
    assert_eq!(refuse(&mut book, &Order { minute: 870, ..faulty }), 10);
    let known = Order { minute: 870, security: SECURITY, ..faulty };
    assert_eq!(refuse(&mut book, &known), 11);
    let typed = Order { credited_type: 10, ..known };
    assert_eq!(refuse(&mut book, &typed), 12);
    let same_holder = Order { credited_shareholder: 5, ..typed };
    assert_eq!(refuse(&mut book, &same_holder), 13);
    assert_eq!(refuse(&mut book, &Order { settlement_day: 1, ..same_holder }), 16);
}

#[test]
fn the_rows_stand_in_checking_order() {
    let numbers: Vec<u64> = refusals::TABLE.iter().map(|refusal| refusal.number).collect();
    assert_eq!(numbers, [1, 2, 3, 4, 5, 6, 7, 22, 23, 8, 9, 10, 11, 12, 13, 14, 15, 19, 20, 21, 24, 16, 17, 18]);
}

#[test]
fn an_exchange_trade_may_stay_within_one_member() {
    let mut book = first_day(1);
    let (one, other) = (account(7, 20, 5), account(7, 20, 6));
    assert_eq!(refuse(&mut book, &trade(one, one, 1, 1, 1, 1, 540)), 12);
    accept(&mut book, &trade(one, other, 1, 1, 1, 1, 540));
    let far = Order { trade_day: 65_535, ..trade(one, other, 1, 1, 2, 1, 540) };
    assert_eq!(refuse(&mut book, &Order { settlement_day: 2, ..far }), 13);
}

#[test]
fn references_belong_to_senders() {
    let mut book = first_day(1);
    accept(&mut book, &deliver(100, 2, 11, 500));
    assert_eq!(refuse(&mut book, &deliver(999, 2, 11, 500)), 14);
    let swapped = Order { debited_member: 8, credited_member: 7, ..receive(100, 2, 11, 500) };
    assert_eq!(refuse(&mut book, &swapped), 14, "one sender, delivering or receiving");
    assert_eq!(refuse(&mut book, &cancel(7, 11, 500)), 15, "unmatched");
    assert_eq!(refuse(&mut book, &cancel(8, 11, 500)), 14, "another sender's");
    accept(&mut book, &receive(100, 2, 11, 500));
    accept(&mut book, &trade(account(7, 20, 5), account(8, 20, 5), 1, 1, 12, 1, 500));
    assert_eq!(refuse(&mut book, &cancel(7, 12, 500)), 14, "an exchange trade is never found");
    assert_eq!(accept(&mut book, &cancel(8, 11, 500)).rows, 0);
    assert_eq!(refuse(&mut book, &cancel(8, 11, 500)), 15, "marked by this sender");
    let (counts, rows) = rows_of(&mut book, &cancel(7, 11, 500));
    assert_eq!((counts.rows, counts.cancelled), (1, 2));
    assert_eq!(rows[0], [0x40, 0x1C, 0x08, 0, 0, 0, 0x0B, 0, 0, 0, 0x0B, 0, 0, 0, 0, 0]);
    assert_eq!(book.waiting.len(), 1);
}

#[test]
fn the_first_single_that_fits_is_taken() {
    let mut book = first_day(1);
    for (amount, reference) in [(1, 1), (100, 2), (99, 3)] {
        accept(&mut book, &deliver(amount, 2, reference, 500));
    }
    accept(&mut book, &Order { credited_type: 10, ..receive(2_100, 2, 9, 500) });
    let left: Vec<_> = book.waiting.iter().map(|item| item.state).collect();
    assert_eq!(left[..2], [State::Deliver { reference: 1 }, State::Deliver { reference: 3 }]);
    assert_eq!((book.waiting[2].deliverer.account_type, book.waiting[2].receiver.account_type), (20, 10));
}

#[test]
fn physical_and_book_entry_do_not_pair() {
    let mut book = first_day(1);
    accept(&mut book, &deliver(100, 2, 1, 500));
    accept(&mut book, &Order { credited_type: 120, ..receive(100, 2, 2, 500) });
    assert_eq!(book.waiting.len(), 2);
}

#[test]
fn cash_reaches_its_ceiling_exactly() {
    let mut book = first_day(1);
    let most = (1 << 40) - 1;
    for place in 0..909 {
        accept(&mut book, &pay_in(1 + place % 64, USD, most, 500));
    }
    let rest = CASH_CEILING - 909 * most;
    assert_eq!(refuse(&mut book, &pay_in(3, USD, rest + 1, 500)), 17);
    accept(&mut book, &pay_in(3, USD, rest, 500));
    assert_eq!(refuse(&mut book, &pay_in(3, USD, 1, 500)), 17);
    accept(&mut book, &pay_in(3, LBP, 1, 500));
}

#[test]
fn a_full_book_takes_what_does_not_grow_it() {
    let mut book = full_accounts();
    let (from, to) = (account(2, 20, 1), account(2, 21, 1));
    assert_eq!(refuse(&mut book, &deposit(account(1, 20, 999), 1, 540)), 18);
    assert_eq!(refuse(&mut book, &deposit(account(1, 20, 999), 1_000_000, 540)), 16);
    assert_eq!(refuse(&mut book, &deliver(5, 2, 1, 540)), 18);
    assert_eq!(refuse(&mut book, &between(6, from, to, 1, 1, 540)), 18);
    accept(&mut book, &between(6, from, to, 2, 1, 540));
    assert_eq!(book.accounts.len(), 256);
    accept(&mut book, &deposit(account(3, 20, 2), 1, 540));
}

#[test]
fn thirty_three_securities_are_too_many() {
    let mut book = first_day(1);
    (1..=31).for_each(|code| assert_eq!(accept(&mut book, &admit(code, 1, 500)).rows, 2));
    assert_eq!(refuse(&mut book, &admit(40, 1, 500)), 18);
    assert_eq!(refuse(&mut book, &admit(31, 1, 500)), 10);
}

#[test]
fn a_ring_of_empty_accounts_settles() {
    let mut book = first_day(1);
    let [a, b, c] = [1, 2, 3].map(|member| account(member, 110, 5));
    for (from, to, reference) in [(a, b, 1), (b, c, 2), (c, a, 3)] {
        accept(&mut book, &trade(from, to, 100, 50, reference, 1, 541));
    }
    (0..3).for_each(|_| assert_eq!(next_day(&mut book).rows, 0));
    let counts = run_cycle(&mut book, 585);
    assert_eq!((counts.settled, counts.rows), (6, 12));
    assert!(book.accounts.is_empty() && book.cash.is_empty());
}

#[test]
fn close_deletes_suspends_and_drops_marks() {
    let mut book = first_day(1);
    accept(&mut book, &deliver(100, 1, 1, 500));
    accept(&mut book, &receive(5, 1, 2, 500));
    accept(&mut book, &deliver(700, 2, 3, 500));
    accept(&mut book, &receive(700, 2, 4, 500));
    accept(&mut book, &trade(account(7, 20, 5), account(8, 20, 5), 1, 1, 5, 1, 500));
    accept(&mut book, &cancel(7, 3, 500));
    let counts = next_day(&mut book);
    assert_eq!((counts.rows, counts.deleted, counts.suspended), (2, 2, 0));
    let State::Pair { deliver, .. } = book.waiting[0].state else { panic!("the pair is kept") };
    assert!(!deliver.marked);
    next_day(&mut book);
    next_day(&mut book);
    assert_eq!(next_day(&mut book).suspended, 2, "the trade of day 1 on day 4");
    while book.day.number < 11 {
        assert_eq!(next_day(&mut book).rows, 0);
    }
    next_day(&mut book);
    assert_eq!((book.day.number, book.waiting.len()), (12, 1));
    let counts = end_day(&mut book);
    assert_eq!((counts.rows, counts.deleted), (1, 2), "the pair of day 2 on day 12");
}

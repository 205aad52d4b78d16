//! Requests for paper: forms 19 and 20 (RULES 6.19, 6.20, 7.19 to 7.21).

mod common;

use common::*;
use reference::account_types::{allows, request_leads};
use reference::book::{Account, Book, MOST_REQUESTS, Request, RequestName};
use reference::call::Counts;
use reference::forms::{self, Written};
use reference::record::{Order, largest, read, write};
use reference::refusals;

const TWO_ROWS: Counts = Counts { rows: 2, settled: 0, cancelled: 0, deleted: 0, suspended: 0, left: 0 };

fn holder(account_type: u64) -> Account {
    account(7, account_type, 5)
}

/// Day 1 with 100 shares in each free type of member 7.
fn holding() -> Book {
    let mut book = first_day(1);
    [10, 20, 110, 120].iter().for_each(|free| {
        accept(&mut book, &deposit(holder(*free), 100, 540));
    });
    book
}

/// A request of 30 shares from a type, under reference 9, and then so many
/// days.
fn requested(from: u64, days: u64) -> Book {
    let mut book = holding();
    accept(&mut book, &request(holder(from), 30, 9, 540));
    on_to_day(&mut book, 1 + days);
    book
}

/// The sum of the open requests is what stands in type 50.
fn agrees(book: &Book) -> bool {
    let open = book.requests.iter().map(|(name, request)| (request.account(name.member), request.quantity));
    let mut accounts = std::collections::BTreeMap::new();
    open.for_each(|(account, quantity)| *accounts.entry(account).or_insert(0) += quantity);
    accounts == book.accounts.clone().into_iter().filter(|(account, _)| account.account_type == 50).collect()
}

fn met(form: u64) -> Vec<u64> {
    let met = refusals::TABLE.iter().filter(|refusal| (refusal.forms)(form) && refusal.number != 3);
    met.map(|refusal| refusal.number).collect()
}

#[test]
fn the_forms_and_the_refusals_that_they_meet() {
    assert_eq!(met(19), [1, 2, 4, 5, 6, 8, 9, 10, 11, 19, 21, 16, 18]);
    assert_eq!(met(20), [1, 2, 4, 5, 6, 8, 9, 11, 19, 20, 18]);
    for number in [19, 20] {
        let form = forms::form(number).expect("a form");
        assert_eq!((form.rows, form.takes_in), (Written::Postings, 0));
    }
    for unknown in (22..32).chain([0]) {
        assert_eq!(read(&record(&form(unknown, 540))), Err(3));
        assert_eq!(write(&form(unknown, 540).fields(), &mut [0; 40]), Err(3));
    }
}

#[test]
fn types_come_from_book_entry_and_lead_to_paper_or_out() {
    let every = || 0..=255;
    assert!(every().filter(|from| allows(19, *from, 0)).eq([10, 20]));
    assert!(every().filter(|to| allows(20, 0, *to)).eq([91, 110, 120]));
    assert!(every().filter(|to| request_leads(10, *to)).eq([91, 110]));
    assert!(every().filter(|to| request_leads(20, *to)).eq([91, 120]));
}

#[test]
fn unused_fields_are_4_before_used_ones_are_5() {
    let (first, second) = (request(holder(20), 1, 9, 540), end_request(7, 120, 9, 540));
    assert_eq!((read(&record(&first)), read(&record(&second))), (Ok(first), Ok(second)));
    assert_eq!(read(&record(&Order { reference: 0, ..first })), Err(5));
    assert_eq!(read(&record(&Order { quantity: 0, ..first })), Err(5));
    assert_eq!(read(&record(&Order { credited_type: 50, quantity: 0, ..first })), Err(4));
    assert_eq!(read(&record(&Order { debited_member: 65, ..second })), Err(5));
    assert_eq!(read(&record(&Order { credited_type: 0, ..second })), Err(5));
    for wrong in
        [Order { security: 101, ..second }, Order { quantity: 1, ..second }, Order { debited_type: 20, ..second }]
    {
        assert_eq!(read(&record(&Order { reference: 0, ..wrong })), Err(4));
        assert_eq!(write(&wrong.fields(), &mut [0; 40]), Err(4));
    }
    assert_eq!(read(&record(&Order { debited_shareholder: 5, ..second })), Err(4));
}

#[test]
fn both_forms_have_the_window_of_deposits() {
    for (kind, last) in [(1, 870), (2, 750)] {
        let mut book = requested(20, 0);
        end_day(&mut book);
        accept(&mut book, &open(kind, 470));
        for order in [request(holder(10), 1, 8, 0), end_request(7, 120, 9, 0)] {
            assert_eq!(refuse(&mut book, &Order { minute: 509, ..order }), 9);
            assert_eq!(refuse(&mut book, &Order { minute: last + 1, ..order }), 9);
            accept(&mut book.clone(), &Order { minute: 510, ..order });
            accept(&mut book.clone(), &Order { minute: last, ..order });
        }
    }
}

#[test]
fn a_request_moves_shares_to_type_50_and_is_remembered() {
    for from in [10, 20] {
        let mut book = holding();
        let before = book.clone();
        let (counts, rows) = rows_of(&mut book, &request(holder(from), 30, 9, 600));
        assert_eq!((counts, rows.len()), (TWO_ROWS, 2));
        assert_eq!((book.balance(&holder(from)), book.balance(&holder(50))), (70, 30));
        let request = Request { security: SECURITY, account_type: from, shareholder: 5, quantity: 30, day: 1 };
        assert_eq!(book.requests.iter().collect::<Vec<_>>(), [(&RequestName { member: 7, reference: 9 }, &request)]);
        assert_eq!((book.sum_of_accounts(SECURITY), &book.securities), (400, &before.securities));
        assert_eq!(book.day.last_minute, 600);
    }
}

#[test]
fn an_ending_moves_the_whole_request() {
    for (from, into) in [(10, 110), (20, 120)] {
        let mut book = requested(from, 1);
        let (counts, rows) = rows_of(&mut book, &end_request(7, into, 9, 600));
        assert_eq!((counts, rows.len()), (TWO_ROWS, 2));
        assert_eq!((book.balance(&holder(50)), book.balance(&holder(into)), book.held(SECURITY)), (0, 130, 400));
        assert!(book.requests.is_empty());
    }
}

#[test]
fn what_leaves_is_outside() {
    for from in [10, 20] {
        let mut book = requested(from, 1);
        let (counts, rows) = rows_of(&mut book, &end_request(7, 91, 9, 600));
        assert_eq!((counts, rows.len()), (TWO_ROWS, 2));
        assert_eq!(rows[1][..8], [0x80, 0x65, 0x00, 0x16, 0xC0, 0, 0, 0], "member 0, type 91, shareholder 0");
        let security = book.security(SECURITY).expect("admitted");
        assert_eq!((book.held(SECURITY), security.outside, security.issued), (370, 999_630, 1_000_000));
        assert!(book.requests.is_empty() && book.balance(&holder(50)) == 0);
    }
}

#[test]
fn requests_from_10_and_20_share_an_account() {
    let mut book = requested(20, 0);
    accept(&mut book, &request(holder(10), 50, 8, 540));
    assert_eq!(book.balance(&holder(50)), 80);
    next_day(&mut book);
    assert_eq!(refuse(&mut book, &end_request(7, 120, 8, 540)), 19);
    assert_eq!(refuse(&mut book, &end_request(7, 110, 9, 540)), 19);
    accept(&mut book, &end_request(7, 120, 9, 540));
    assert_eq!((book.balance(&holder(50)), book.balance(&holder(120))), (50, 130));
    assert!(agrees(&book));
    accept(&mut book, &end_request(7, 110, 8, 540));
    assert_eq!((book.balance(&holder(50)), book.balance(&holder(110))), (0, 150));
}

#[test]
fn the_day_of_the_request_is_too_early_and_any_other_will_do() {
    for into in [120, 91] {
        assert_eq!(refuse(&mut requested(20, 0), &end_request(7, into, 9, 540)), 20);
        for days in [1, 2, 40] {
            accept(&mut requested(20, days), &end_request(7, into, 9, 540));
        }
    }
}

#[test]
fn an_ending_asks_its_type_then_its_request_then_its_day() {
    let mut book = requested(10, 0);
    for (sender, into, reference, number) in [
        (7, 10, 9, 11),
        (8, 10, 9, 11),
        (7, 50, 99, 11),
        (7, 120, 9, 19),
        (8, 110, 9, 19),
        (7, 91, 8, 19),
        (7, 110, 9, 20),
    ] {
        assert_eq!(refuse(&mut book, &end_request(sender, into, reference, 540)), number);
    }
}

#[test]
fn a_request_asks_its_reference_then_for_room_then_its_balance() {
    let mut book = requested(20, 0);
    assert_eq!(refuse(&mut book, &Order { security: 999, ..request(holder(120), 1, 9, 540) }), 10);
    assert_eq!(refuse(&mut book, &request(holder(120), 1, 9, 540)), 11);
    assert_eq!(refuse(&mut book, &request(holder(50), 1, 8, 540)), 11);
    assert_eq!(refuse(&mut book, &request(holder(20), 71, 9, 540)), 19);
    assert_eq!(refuse(&mut book, &request(holder(20), 71, 8, 540)), 16);
    (10..25).for_each(|reference| assert_eq!(accept(&mut book, &request(holder(20), 1, reference, 540)), TWO_ROWS));
    assert_eq!(book.requests.len(), MOST_REQUESTS);
    assert_eq!(refuse(&mut book, &request(holder(20), 71, 9, 540)), 19);
    assert_eq!(refuse(&mut book, &request(holder(20), 71, 8, 540)), 21);
    assert_eq!(refuse(&mut book, &request(account(8, 20, 5), 1, 9, 540)), 21, "of the book, not of the member");
    next_day(&mut book);
    accept(&mut book, &end_request(7, 120, 24, 540));
    accept(&mut book, &request(holder(20), 1, 8, 540));
    assert_eq!(refuse(&mut book, &request(holder(20), 1, 24, 540)), 21);
    assert!(agrees(&book));
}

#[test]
fn a_reference_is_the_members_own() {
    let mut book = requested(20, 0);
    accept(&mut book, &deposit(account(8, 10, 5), 5, 540));
    accept(&mut book, &request(account(8, 10, 5), 5, 9, 540));
    next_day(&mut book);
    assert_eq!(refuse(&mut book, &end_request(8, 120, 9, 540)), 19);
    accept(&mut book, &end_request(8, 110, 9, 540));
    assert_eq!((book.requests.len(), book.balance(&holder(50))), (1, 30));
}

#[test]
fn a_reference_is_free_again_after_its_ending() {
    let mut book = requested(20, 1);
    accept(&mut book, &admit(102, 1_000, 540));
    let other = Account { security: 102, ..holder(10) };
    accept(&mut book, &deposit(other, 7, 540));
    accept(&mut book, &end_request(7, 91, 9, 540));
    accept(&mut book, &request(other, 7, 9, 540));
    assert_eq!(refuse(&mut book, &end_request(7, 110, 9, 540)), 20, "the day of the new request");
    next_day(&mut book);
    accept(&mut book, &end_request(7, 91, 9, 540));
    assert_eq!([101, 102].map(|code| book.held(code)), [370, 0]);
}

#[test]
fn waiting_references_are_another_matter() {
    let mut book = requested(20, 0);
    accept(&mut book, &deliver(100, 9, 9, 540));
    accept(&mut book, &deliver(999, 9, 8, 540));
    accept(&mut book, &request(holder(20), 1, 8, 540));
    accept(&mut book, &request(holder(20), 1, 7, 540));
    assert_eq!(refuse(&mut book, &cancel(7, 7, 540)), 14, "open, and not waiting");
    assert_eq!(refuse(&mut book, &cancel(7, 8, 540)), 15, "a single");
    assert_eq!((book.requests.len(), book.waiting.len()), (3, 2));
}

#[test]
fn days_come_and_go_and_requests_stay() {
    let mut book = requested(10, 0);
    let requests = book.requests.clone();
    on_to_day(&mut book, 30);
    assert_eq!(book.requests, requests);
    assert!(agrees(&book));
    end_day(&mut book);
    assert_eq!(refuse(&mut book, &end_request(7, 110, 9, 960)), 6);
    assert_eq!(refuse(&mut book, &request(holder(10), 1, 9, 960)), 6);
}

#[test]
fn no_other_form_takes_requested_shares() {
    let mut book = requested(20, 1);
    assert_eq!(refuse(&mut book, &withdraw(holder(50), 1, 540)), 11);
    assert_eq!(refuse(&mut book, &deposit(holder(50), 1, 540)), 11);
    for number in 5..=9 {
        assert_eq!(refuse(&mut book, &between(number, holder(50), holder(20), 1, 2, 540)), 11);
        assert_eq!(refuse(&mut book, &between(number, holder(20), holder(50), 1, 2, 540)), 11);
    }
    assert_eq!(refuse(&mut book, &trade(holder(50), account(8, 20, 5), 1, 1, 1, 2, 540)), 11);
}

#[test]
fn open_requests_take_no_place_in_a_full_book() {
    let mut book = full_accounts();
    let one = account(2, 20, 1);
    assert_eq!(refuse(&mut book, &request(one, 1, 1, 540)), 18);
    accept(&mut book, &request(one, 2, 1, 540));
    assert_eq!((book.accounts.len(), book.requests.len()), (256, 1));
    next_day(&mut book);
    let mut out = book.clone();
    accept(&mut out, &end_request(2, 91, 1, 540));
    assert_eq!(out.accounts.len(), 255);
    accept(&mut book, &end_request(2, 120, 1, 540));
    assert_eq!(book.accounts.len(), 256);
}

#[test]
fn a_rest_in_type_50_and_a_new_account_need_room() {
    let mut book = full_accounts();
    let (book_entry, other) = (account(2, 20, 1), account(2, 10, 1));
    accept(&mut book, &withdraw(account(3, 20, 2), 2, 540));
    accept(&mut book, &request(book_entry, 1, 1, 540));
    accept(&mut book, &request(book_entry, 1, 2, 540));
    accept(&mut book, &deposit(other, 1, 540));
    assert_eq!(book.accounts.len(), 256);
    assert_eq!(refuse(&mut book, &request(other, 2, 3, 540)), 16);
    next_day(&mut book);
    assert_eq!(refuse(&mut book, &end_request(2, 120, 1, 540)), 18);
    accept(&mut book.clone(), &end_request(2, 91, 1, 540));
    accept(&mut book, &request(other, 1, 3, 540));
    assert_eq!(book.accounts.len(), 255);
    accept(&mut book, &end_request(2, 120, 1, 540));
    accept(&mut book, &end_request(2, 120, 2, 540));
    assert!(agrees(&book));
}

#[test]
fn the_widest_request() {
    use reference::record::Field;
    let most = largest(Field::Quantity);
    let widest =
        Account { security: 16_383, member: 64, account_type: 20, shareholder: largest(Field::CreditedShareholder) };
    let mut book = Book::fresh();
    accept(&mut book, &open(1, 0));
    accept(&mut book, &admit(widest.security, most, 480));
    accept(&mut book, &deposit(widest, most, 540));
    accept(&mut book, &request(widest, most, u64::from(u32::MAX), 540));
    next_day(&mut book);
    accept(&mut book, &end_request(64, 91, u64::from(u32::MAX), 540));
    assert_eq!(book.security(widest.security).map(|security| security.outside), Some(most));
}

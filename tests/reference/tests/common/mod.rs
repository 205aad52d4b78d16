//! Orders and days for the tests, with the field's usual values.
#![allow(dead_code)]

use reference::book::{Account, Book, Purse};
use reference::call::{Answer, Counts};
use reference::record::{Order, pack};

pub const SECURITY: u64 = 101;
pub const USD: u64 = 1;
pub const LBP: u64 = 2;

pub fn form(form: u64, minute: u64) -> Order {
    Order { form, minute, ..Order::default() }
}

pub fn open(kind: u64, minute: u64) -> Order {
    Order { quantity: kind, ..form(1, minute) }
}

pub fn admit(security: u64, quantity: u64, minute: u64) -> Order {
    Order { security, quantity, ..form(2, minute) }
}

pub fn account(member: u64, account_type: u64, shareholder: u64) -> Account {
    Account { security: SECURITY, member, account_type, shareholder }
}

pub fn deposit(to: Account, quantity: u64, minute: u64) -> Order {
    Order {
        security: to.security,
        credited_member: to.member,
        credited_type: to.account_type,
        credited_shareholder: to.shareholder,
        quantity,
        ..form(3, minute)
    }
}

pub fn withdraw(from: Account, quantity: u64, minute: u64) -> Order {
    Order {
        security: from.security,
        debited_member: from.member,
        debited_type: from.account_type,
        debited_shareholder: from.shareholder,
        quantity,
        ..form(4, minute)
    }
}

/// Forms 5 to 9.
pub fn between(number: u64, from: Account, to: Account, quantity: u64, day: u64, minute: u64) -> Order {
    Order {
        security: from.security,
        debited_member: from.member,
        debited_type: from.account_type,
        debited_shareholder: from.shareholder,
        credited_member: to.member,
        credited_type: to.account_type,
        credited_shareholder: to.shareholder,
        quantity,
        settlement_day: day,
        ..form(number, minute)
    }
}

pub fn pay_in(member: u64, currency: u64, amount: u64, minute: u64) -> Order {
    Order { credited_member: member, currency, amount, ..form(10, minute) }
}

pub fn pay_out(member: u64, currency: u64, amount: u64, minute: u64) -> Order {
    Order { debited_member: member, currency, amount, ..form(11, minute) }
}

/// Member 7 delivers 60 shares of shareholder 5 to member 8, type 20, traded
/// on day 1.
pub fn deliver(amount: u64, settlement_day: u64, reference: u64, minute: u64) -> Order {
    Order {
        security: SECURITY,
        currency: USD,
        debited_member: 7,
        debited_type: 20,
        credited_member: 8,
        debited_shareholder: 5,
        credited_shareholder: 5,
        quantity: 60,
        amount,
        trade_day: 1,
        settlement_day,
        reference,
        ..form(12, minute)
    }
}

/// The counterpart of `deliver`.
pub fn receive(amount: u64, settlement_day: u64, reference: u64, minute: u64) -> Order {
    Order { form: 13, debited_type: 0, credited_type: 20, ..deliver(amount, settlement_day, reference, minute) }
}

pub fn trade(from: Account, to: Account, quantity: u64, amount: u64, reference: u64, day: u64, minute: u64) -> Order {
    Order {
        currency: USD,
        amount,
        trade_day: day,
        settlement_day: day + 3,
        reference,
        ..between(14, from, to, quantity, day, minute)
    }
}

pub fn cancel(sender: u64, reference: u64, minute: u64) -> Order {
    Order { debited_member: sender, reference, ..form(15, minute) }
}

/// 1 confirms the cycle that is sent, 2 declines it.
pub fn answer(quantity: u64, minute: u64) -> Order {
    Order { quantity, ..form(21, minute) }
}

pub fn set_rate(rate: u64, minute: u64) -> Order {
    Order { quantity: rate, ..form(18, minute) }
}

pub fn request(from: Account, quantity: u64, reference: u64, minute: u64) -> Order {
    Order { form: 19, reference, ..withdraw(from, quantity, minute) }
}

pub fn end_request(sender: u64, into: u64, reference: u64, minute: u64) -> Order {
    Order { debited_member: sender, credited_type: into, reference, ..form(20, minute) }
}

/// The same instruction for LBP.
pub fn in_pounds(order: Order) -> Order {
    Order { currency: LBP, ..order }
}

pub fn record(order: &Order) -> [u8; 40] {
    pack(&order.fields(), 0)
}

pub fn send(book: &mut Book, order: &Order) -> Answer {
    book.call(&record(order), &mut [0; 4096])
}

/// Sends an order that must be accepted, and sees that what is held of each
/// security is still the sum of its accounts.
pub fn accept(book: &mut Book, order: &Order) -> Counts {
    match send(book, order) {
        Answer::Accepted(counts) => {
            check_held(book);
            counts
        }
        Answer::Refused(number) => panic!("{order:?} is refused with {number}"),
    }
}

fn check_held(book: &Book) {
    for security in &book.securities {
        assert_eq!(security.held, book.sum_of_accounts(security.code), "{security:?}");
        assert_eq!(security.held + security.outside, security.issued, "{security:?}");
    }
}

/// Sends an order that must be refused, and sees that the book stays.
pub fn refuse(book: &mut Book, order: &Order) -> u64 {
    let before = book.clone();
    let Answer::Refused(number) = send(book, order) else {
        panic!("{order:?} is accepted");
    };
    assert_eq!(*book, before, "a refused call leaves the book as it was");
    number
}

/// Sends an order and gives the area after it.
pub fn rows_of(book: &mut Book, order: &Order) -> (Counts, Vec<[u8; 16]>) {
    let mut area = [0xEE; 5000];
    let Answer::Accepted(counts) = book.call(&record(order), &mut area) else {
        panic!("{order:?} is refused");
    };
    check_held(book);
    let end = counts.rows as usize * 16;
    assert!(area[end..].iter().all(|byte| *byte == 0xEE), "bytes after the rows are kept");
    (counts, area[..end].chunks(16).map(|row| row.try_into().expect("16 bytes")).collect())
}

/// Day 1 of a kind, opened at 470, with security 101 of 1,000,000 shares.
pub fn first_day(kind: u64) -> Book {
    let mut book = Book::fresh();
    accept(&mut book, &open(kind, 470));
    accept(&mut book, &admit(SECURITY, 1_000_000, 480));
    book
}

/// Sends a cycle, which writes and settles nothing, and confirms it: the
/// counts of the answer, and the trades that the cycle left.
pub fn run_cycle(book: &mut Book, minute: u64) -> Counts {
    let sent = accept(book, &form(16, minute));
    assert_eq!(sent, Counts { left: sent.left, ..Counts::default() });
    let confirmed = accept(book, &answer(1, minute));
    assert_eq!(confirmed.left, 0, "what is left is counted once");
    Counts { left: sent.left, ..confirmed }
}

/// Runs what cycles are left and closes: the counts of the close.
pub fn end_day(book: &mut Book) -> Counts {
    while let Some(earliest) = reference::windows::next_cycle_minute(&book.day) {
        let minute = earliest.max(book.day.last_minute);
        run_cycle(book, minute);
    }
    let minute = reference::windows::end_of_work(book.day.kind).max(book.day.last_minute);
    accept(book, &form(17, minute))
}

/// Ends the day and opens the next one, of kind 1.
pub fn next_day(book: &mut Book) -> Counts {
    let counts = end_day(book);
    accept(book, &open(1, 470));
    counts
}

/// Days of kind 1, until this one is open.
pub fn on_to_day(book: &mut Book, day: u64) {
    while book.day.number < day {
        next_day(book);
    }
}

/// 256 accounts of 2 shares each, of type 20 and a shareholder each, and no
/// item; that of shareholder n is of member 1 + n % 64.
pub fn full_accounts() -> Book {
    let mut book = first_day(1);
    (1..=256).for_each(|holder| {
        accept(&mut book, &deposit(account(1 + holder % 64, 20, holder), 2, 540));
    });
    book
}

pub fn cash(book: &Book, member: u64) -> u64 {
    book.cash_of(&Purse { member, currency: USD })
}

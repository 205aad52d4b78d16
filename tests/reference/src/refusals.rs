//! The table of refusals, in checking order. Each test is a question of its
//! own, so that a call's further faults can be asked for too. A new refusal is
//! a row here, at its place in the order, and its test.

use crate::account_types;
use crate::book::{
    Account, Book, CASH_CEILING, Item, LAST_DAY, MOST_ACCOUNTS_AND_ITEMS, MOST_ITEMS, MOST_REQUESTS, MOST_SECURITIES,
    Purse, Sender, State,
};
use crate::forms::{self, Form};
use crate::matching;
use crate::record::{FIELDS, Field, Fields, Order, RECORD_BYTES};
use crate::requests;
use crate::sent;
use crate::windows;

/// What a refusal looks at.
#[derive(Clone, Copy)]
pub enum Test {
    /// The bytes of the lent area, and those that are needed.
    Area(fn(usize, usize) -> bool),
    /// The bytes of the record.
    Length(fn(usize) -> bool),
    /// The fields of a record, and the bits behind them.
    Fields(fn(&Fields, u64) -> bool),
    /// An order that has been read, and the book.
    Order(fn(&Book, &Order) -> bool),
}

#[derive(Clone, Copy)]
pub struct Refusal {
    pub number: u64,
    /// The forms that can meet it (RULES 7). What comes before a form is known
    /// can meet all.
    pub forms: fn(u64) -> bool,
    pub test: Test,
}

/// In checking order; the numbers say nothing about it.
pub const TABLE: &[Refusal] = &[
    Refusal { number: 1, forms: all, test: Test::Area(area_is_short) },
    Refusal { number: 2, forms: all, test: Test::Length(record_has_other_length) },
    Refusal { number: 3, forms: |form| forms::form(form).is_none(), test: Test::Fields(form_is_none) },
    Refusal { number: 4, forms: all, test: Test::Fields(unused_field_is_set) },
    Refusal { number: 5, forms: all, test: Test::Fields(used_field_is_out_of_range) },
    Refusal { number: 6, forms: all, test: Test::Order(day_is_wrong) },
    Refusal { number: 7, forms: |form| matches!(form, 16 | 17), test: Test::Order(cycles_are_wrong) },
    Refusal { number: 22, forms: |form| matches!(form, 10 | 11 | 16 | 17), test: Test::Order(cycle_is_sent) },
    Refusal { number: 23, forms: |form| form == 21, test: Test::Order(no_cycle_is_sent) },
    Refusal { number: 8, forms: |form| form != 1, test: Test::Order(minute_is_past) },
    Refusal { number: 9, forms: all, test: Test::Order(minute_is_outside_window) },
    Refusal { number: 10, forms: |form| matches!(form, 2..=9 | 12..=14 | 19), test: Test::Order(security_is_wrong) },
    Refusal { number: 11, forms: |form| matches!(form, 3..=9 | 12..=14 | 19 | 20), test: Test::Order(types_are_wrong) },
    Refusal { number: 12, forms: |form| matches!(form, 5..=9 | 12..=14), test: Test::Order(parties_are_wrong) },
    Refusal { number: 13, forms: |form| matches!(form, 5..=9 | 12..=14), test: Test::Order(days_are_wrong) },
    Refusal { number: 14, forms: |form| matches!(form, 12..=15), test: Test::Order(reference_is_wrong) },
    Refusal { number: 15, forms: |form| form == 15, test: Test::Order(item_cannot_be_cancelled) },
    Refusal { number: 19, forms: |form| matches!(form, 19 | 20), test: Test::Order(request_is_wrong) },
    Refusal { number: 20, forms: |form| form == 20, test: Test::Order(request_is_of_today) },
    Refusal { number: 21, forms: |form| form == 19, test: Test::Order(requests_are_full) },
    Refusal { number: 24, forms: |form| form == 15, test: Test::Order(item_is_sent) },
    Refusal { number: 16, forms: |form| matches!(form, 3..=9 | 11 | 19), test: Test::Order(balance_is_too_small) },
    Refusal { number: 17, forms: |form| form == 10, test: Test::Order(cash_passes_ceiling) },
    Refusal {
        number: 18,
        forms: |form| matches!(form, 2 | 3 | 5..=9 | 12..=14 | 19 | 20),
        test: Test::Order(tables_are_full),
    },
];

/// How many refusals there are.
pub const REFUSALS: usize = TABLE.len();

fn all(_: u64) -> bool {
    true
}

impl Refusal {
    /// Whether an order is refused by this row, which must look at orders.
    pub fn refuses(&self, book: &Book, order: &Order) -> bool {
        matches!(self.test, Test::Order(fails) if (self.forms)(order.form) && fails(book, order))
    }
}

/// The number of the first row that applies.
fn first(applies: impl Fn(&Refusal) -> bool) -> Result<(), u64> {
    match TABLE.iter().find(|refusal| applies(refusal)) {
        Some(refusal) => Err(refusal.number),
        None => Ok(()),
    }
}

pub fn of_area(bytes: usize, needed: usize) -> Result<(), u64> {
    first(|refusal| matches!(refusal.test, Test::Area(fails) if fails(bytes, needed)))
}

pub fn of_length(bytes: usize) -> Result<(), u64> {
    first(|refusal| matches!(refusal.test, Test::Length(fails) if fails(bytes)))
}

pub fn of_fields(fields: &Fields, zero_bits: u64) -> Result<(), u64> {
    first(|refusal| matches!(refusal.test, Test::Fields(fails) if fails(fields, zero_bits)))
}

pub fn of_order(book: &Book, order: &Order) -> Result<(), u64> {
    first(|refusal| refusal.refuses(book, order))
}

/// RULES 7.1.
fn area_is_short(bytes: usize, needed: usize) -> bool {
    bytes < needed
}

/// RULES 7.2.
fn record_has_other_length(bytes: usize) -> bool {
    bytes != RECORD_BYTES
}

fn form_of(fields: &Fields) -> Option<&'static Form> {
    forms::form(fields[Field::Form as usize])
}

/// RULES 7.3.
fn form_is_none(fields: &Fields, _: u64) -> bool {
    form_of(fields).is_none()
}

/// RULES 7.4: whatever the value, so that an unused field is never out of
/// range.
fn unused_field_is_set(fields: &Fields, zero_bits: u64) -> bool {
    let set = |form: &Form| FIELDS.iter().any(|field| !form.uses(*field) && fields[*field as usize] != 0);
    zero_bits != 0 || form_of(fields).is_some_and(set)
}

/// RULES 7.5.
fn used_field_is_out_of_range(fields: &Fields, _: u64) -> bool {
    let outside = |form: &Form, field: Field| {
        let (least, most) = form.range(field);
        !(least..=most).contains(&fields[field as usize])
    };
    form_of(fields).is_some_and(|form| FIELDS.iter().any(|field| form.uses(*field) && outside(form, *field)))
}

/// RULES 7.6.
fn day_is_wrong(book: &Book, order: &Order) -> bool {
    if order.form == 1 { book.day.open || book.day.number == LAST_DAY } else { !book.day.open }
}

/// RULES 7.7: a cycle when none is left, a close while one is.
fn cycles_are_wrong(book: &Book, order: &Order) -> bool {
    let all_run = windows::next_cycle_minute(&book.day).is_none();
    if order.form == 17 { !all_run } else { all_run }
}

/// Cash stands still, and neither a cycle nor the close comes, until the cycle
/// that is sent is answered.
fn cycle_is_sent(book: &Book, _: &Order) -> bool {
    book.day.sent
}

/// There is nothing to answer.
fn no_cycle_is_sent(book: &Book, _: &Order) -> bool {
    !book.day.sent
}

/// RULES 7.8.
fn minute_is_past(book: &Book, order: &Order) -> bool {
    order.minute < book.day.last_minute
}

/// RULES 7.9.
fn minute_is_outside_window(book: &Book, order: &Order) -> bool {
    let outside = |(first, last)| !(first..=last).contains(&order.minute);
    windows::window(&book.day, order).is_some_and(outside)
}

/// RULES 7.10: an admission needs a new security, every other form a known one.
fn security_is_wrong(book: &Book, order: &Order) -> bool {
    let admitted = book.security(order.security).is_some();
    if order.form == 2 { admitted } else { !admitted }
}

/// RULES 7.11.
fn types_are_wrong(_: &Book, order: &Order) -> bool {
    !account_types::allows(order.form, order.debited_type, order.credited_type)
}

/// RULES 7.12.
fn parties_are_wrong(_: &Book, order: &Order) -> bool {
    let shareholders_differ = order.debited_shareholder != order.credited_shareholder;
    let members_differ = order.debited_member != order.credited_member;
    let types_differ = order.debited_type != order.credited_type;
    let one_account = !members_differ && !types_differ && !shareholders_differ;
    match order.form {
        5 => shareholders_differ || one_account,
        6..=9 => shareholders_differ || members_differ,
        12 | 13 => shareholders_differ || !members_differ,
        14 => one_account,
        _ => false,
    }
}

/// RULES 7.13.
fn days_are_wrong(book: &Book, order: &Order) -> bool {
    let today = book.day.number;
    match order.form {
        5..=9 => order.settlement_day != today,
        12 | 13 => !(today..=today + 20).contains(&order.settlement_day) || order.trade_day > today,
        14 => order.settlement_day != order.trade_day + 3 || order.trade_day != today,
        _ => false,
    }
}

/// RULES 1.22; a cancel has its sender in the debited member (2.6).
pub fn sender(order: &Order) -> Sender {
    match order.form {
        13 => Sender::Member(order.credited_member),
        14 => Sender::Exchange,
        _ => Sender::Member(order.debited_member),
    }
}

/// RULES 7.14: a cancel needs an item under its reference, an arrival that
/// there is none.
fn reference_is_wrong(book: &Book, order: &Order) -> bool {
    let waiting = book.find_waiting(sender(order), order.reference).is_some();
    if order.form == 15 { !waiting } else { waiting }
}

/// RULES 7.15. Where there is no such item, 14 has said so.
fn item_cannot_be_cancelled(book: &Book, order: &Order) -> bool {
    let Some(place) = book.find_waiting(sender(order), order.reference) else {
        return false;
    };
    let item: &Item = &book.waiting[place];
    match item.state {
        State::Pair { deliver, receive } => {
            let by_deliverer = item.deliverer.member == order.debited_member;
            if by_deliverer { deliver.marked } else { receive.marked }
        }
        _ => true,
    }
}

/// Of either half. Where there is no such item, 14 has said so.
fn item_is_sent(book: &Book, order: &Order) -> bool {
    let place = book.find_waiting(sender(order), order.reference);
    place.is_some_and(|place| book.waiting[place].sent)
}

/// RULES 7.19: a new request needs a reference that its member has not open,
/// an ending a request that leads to its type.
fn request_is_wrong(book: &Book, order: &Order) -> bool {
    let open = book.requests.get(&requests::name(order));
    if order.form == 19 {
        return open.is_some();
    }
    !open.is_some_and(|request| account_types::request_leads(request.account_type, order.credited_type))
}

/// RULES 7.20: any later day will do.
fn request_is_of_today(book: &Book, order: &Order) -> bool {
    book.requests.get(&requests::name(order)).is_some_and(|request| request.day == book.day.number)
}

/// RULES 7.21, of the whole book.
fn requests_are_full(book: &Book, _: &Order) -> bool {
    book.requests.len() >= MOST_REQUESTS
}

/// The account that an order debits (forms 4 to 9, 19).
pub fn debited_account(order: &Order) -> Account {
    Account {
        security: order.security,
        member: order.debited_member,
        account_type: order.debited_type,
        shareholder: order.debited_shareholder,
    }
}

/// The account that an order credits (forms 3, 5 to 9).
pub fn credited_account(order: &Order) -> Account {
    Account {
        security: order.security,
        member: order.credited_member,
        account_type: order.credited_type,
        shareholder: order.credited_shareholder,
    }
}

/// RULES 7.16.
fn balance_is_too_small(book: &Book, order: &Order) -> bool {
    match order.form {
        3 => book.security(order.security).map_or(0, |security| security.outside) < order.quantity,
        4..=9 | 19 => sent::offered(book, &debited_account(order)) < order.quantity,
        11 => {
            let purse = Purse { member: order.debited_member, currency: order.currency };
            book.cash_of(&purse) < order.amount
        }
        _ => false,
    }
}

/// RULES 7.17.
fn cash_passes_ceiling(book: &Book, order: &Order) -> bool {
    book.cash_total(order.currency) + order.amount > CASH_CEILING
}

/// RULES 7.18, of the book as the call would leave it.
fn tables_are_full(book: &Book, order: &Order) -> bool {
    let securities = book.securities.len() + usize::from(order.form == 2);
    let items = book.waiting.len() + usize::from(adds_item(book, order));
    let accounts =
        book.accounts.len() + usize::from(opens_account(book, order)) - usize::from(empties_account(book, order));
    securities > MOST_SECURITIES || items > MOST_ITEMS || accounts + items > MOST_ACCOUNTS_AND_ITEMS
}

/// An arrival that matches takes the place of the single it pairs with.
fn adds_item(book: &Book, order: &Order) -> bool {
    match order.form {
        12 | 13 => matching::partner(book, order).is_none(),
        14 => true,
        _ => false,
    }
}

/// An open request is no account; type 50 is one like others.
fn opens_account(book: &Book, order: &Order) -> bool {
    let credited = match order.form {
        3 | 5..=9 => Some(credited_account(order)),
        19 => Some(requests::requested_account(order)),
        20 => requests::ending(book, order).and_then(|ending| ending.to),
        _ => None,
    };
    credited.is_some_and(|account| book.balance(&account) == 0)
}

fn empties_account(book: &Book, order: &Order) -> bool {
    match order.form {
        4..=9 | 19 => book.balance(&debited_account(order)) == order.quantity,
        20 => requests::ending(book, order).is_some_and(|ending| book.balance(&ending.from) == ending.quantity),
        _ => false,
    }
}

//! What the forms do that have no file of their own: the opening of a day,
//! single movements of shares and cash, and the rate (RULES 6.1 to 6.11,
//! 6.18).

use crate::book::{Book, Purse, Security};
use crate::call::Counts;
use crate::record::Order;
use crate::refusals::{credited_account, debited_account};
use crate::rows::Rows;

/// The next day, of the kind in the quantity field, with no cycle run yet.
pub fn open_day(book: &mut Book, order: &Order, _: &mut Rows) -> Counts {
    book.day.number += 1;
    book.day.open = true;
    book.day.kind = order.quantity;
    book.day.cycles_run = 0;
    Counts::default()
}

/// At first the whole issue is outside, and nothing is held.
pub fn admit(book: &mut Book, order: &Order, rows: &mut Rows) -> Counts {
    let Order { security: code, quantity, .. } = *order;
    book.securities.push(Security { code, issued: quantity, outside: quantity, held: 0 });
    rows.admission(code, quantity);
    Counts::default()
}

pub fn deposit(book: &mut Book, order: &Order, rows: &mut Rows) -> Counts {
    let account = credited_account(order);
    let security = book.admitted(order.security);
    security.outside -= order.quantity;
    security.held += order.quantity;
    book.set_balance(account, book.balance(&account) + order.quantity);
    rows.deposit(&account, order.quantity);
    Counts::default()
}

pub fn withdraw(book: &mut Book, order: &Order, rows: &mut Rows) -> Counts {
    let account = debited_account(order);
    book.set_balance(account, book.balance(&account) - order.quantity);
    let security = book.admitted(order.security);
    security.held -= order.quantity;
    security.outside += order.quantity;
    rows.withdrawal(&account, order.quantity);
    Counts::default()
}

/// Transfer, pledge, release, block and unblock: as much is held as before.
pub fn move_shares(book: &mut Book, order: &Order, rows: &mut Rows) -> Counts {
    let (from, to) = (debited_account(order), credited_account(order));
    book.set_balance(from, book.balance(&from) - order.quantity);
    book.set_balance(to, book.balance(&to) + order.quantity);
    rows.share_movement(&from, &to, order.quantity);
    Counts::default()
}

pub fn pay_in(book: &mut Book, order: &Order, rows: &mut Rows) -> Counts {
    let purse = Purse { member: order.credited_member, currency: order.currency };
    book.set_cash(purse, book.cash_of(&purse) + order.amount);
    rows.cash_movement(&outside_world(order), &purse, order.amount);
    Counts::default()
}

pub fn pay_out(book: &mut Book, order: &Order, rows: &mut Rows) -> Counts {
    let purse = Purse { member: order.debited_member, currency: order.currency };
    book.set_cash(purse, book.cash_of(&purse) - order.amount);
    rows.cash_movement(&purse, &outside_world(order), order.amount);
    Counts::default()
}

/// Counts from the next arrival on; what waits goes on waiting (RULES 8.9).
pub fn set_rate(book: &mut Book, order: &Order, _: &mut Rows) -> Counts {
    book.rate = order.quantity;
    Counts::default()
}

/// Cash that comes or goes has member 0 on its other end (RULES 11.7).
fn outside_world(order: &Order) -> Purse {
    Purse { member: 0, currency: order.currency }
}

//! Requests for paper: shares leave book entry for type 50, and on a later day
//! type 50 for paper or the outside (RULES 6.19, 6.20).

use crate::account_types::{OUTSIDE, REQUESTED};
use crate::book::{Account, Book, Request, RequestName};
use crate::call::Counts;
use crate::record::Order;
use crate::refusals::debited_account;
use crate::rows::Rows;

/// What an ending moves.
pub struct Ending {
    pub from: Account,
    /// None where the shares leave.
    pub to: Option<Account>,
    pub quantity: u64,
}

/// The request that an order of either form names.
pub fn name(order: &Order) -> RequestName {
    RequestName { member: order.debited_member, reference: order.reference }
}

/// The account of type 50 that a new request credits.
pub fn requested_account(order: &Order) -> Account {
    Account { account_type: REQUESTED, ..debited_account(order) }
}

/// The ending that an order asks for, if it names an open request.
pub fn ending(book: &Book, order: &Order) -> Option<Ending> {
    let request = book.requests.get(&name(order))?;
    let from = request.account(order.debited_member);
    let to = Account { account_type: order.credited_type, ..from };
    Some(Ending { from, to: (order.credited_type != OUTSIDE).then_some(to), quantity: request.quantity })
}

pub fn open(book: &mut Book, order: &Order, rows: &mut Rows) -> Counts {
    let (from, to) = (debited_account(order), requested_account(order));
    let request = Request {
        security: order.security,
        account_type: order.debited_type,
        shareholder: order.debited_shareholder,
        quantity: order.quantity,
        day: book.day.number,
    };
    book.set_balance(from, book.balance(&from) - order.quantity);
    book.set_balance(to, book.balance(&to) + order.quantity);
    book.requests.insert(name(order), request);
    rows.share_movement(&from, &to, order.quantity);
    Counts::default()
}

/// The whole request, and no more: others may stand in the same account.
pub fn end(book: &mut Book, order: &Order, rows: &mut Rows) -> Counts {
    let Ending { from, to, quantity } = ending(book, order).expect("refusal 19 has passed");
    book.requests.remove(&name(order));
    book.set_balance(from, book.balance(&from) - quantity);
    match to {
        Some(to) => {
            book.set_balance(to, book.balance(&to) + quantity);
            rows.share_movement(&from, &to, quantity);
        }
        None => {
            let security = book.admitted(from.security);
            security.held -= quantity;
            security.outside += quantity;
            rows.withdrawal(&from, quantity);
        }
    }
    Counts::default()
}

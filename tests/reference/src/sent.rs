//! A cycle between its sending and its answer.

use crate::book::{Account, Book, Item};
use crate::call::Counts;
use crate::cycle::{Holding, outcome};
use crate::record::Order;
use crate::rows::Rows;

/// The quantity of an answer.
pub const CONFIRMED: u64 = 1;
pub const DECLINED: u64 = 2;

/// The trades that are sent: their places in the list, in list order.
pub fn trades(book: &Book) -> Vec<usize> {
    (0..book.waiting.len()).filter(|place| book.waiting[*place].sent).collect()
}

/// All trades that are sent are booked, or none; the cycle has run either way.
pub fn answer(book: &mut Book, order: &Order, rows: &mut Rows) -> Counts {
    book.day.sent = false;
    if order.quantity == CONFIRMED {
        return settle(book, rows);
    }
    book.waiting.iter_mut().for_each(|item| item.sent = false);
    Counts::default()
}

/// Nothing is chosen again: cash stood still, and every account has kept what
/// the trades take from it net.
fn settle(book: &mut Book, rows: &mut Rows) -> Counts {
    let places = trades(book);
    for trade in places.iter().map(|place| &book.waiting[*place]) {
        rows.share_movement(&trade.debited_account(), &trade.credited_account(), trade.quantity);
        rows.cash_movement(&trade.debited_purse(), &trade.credited_purse(), trade.amount);
    }
    for (holding, value) in outcome(book, &places) {
        let value = u64::try_from(value).expect("nothing is short");
        match holding {
            Holding::Shares(account) => book.set_balance(account, value),
            Holding::Cash(purse) => book.set_cash(purse, value),
        }
    }
    let trades = places.len() as u64;
    book.waiting.retain(|item| !item.sent);
    Counts { settled: 2 * trades, ..Counts::default() }
}

/// What an account offers: its balance less what the sent trades take from it
/// net. What they bring is not there yet, so they never add to it.
pub fn offered(book: &Book, account: &Account) -> u64 {
    let net = taken(book, account).saturating_sub(brought(book, account));
    book.balance(account) - net
}

/// What the sent trades take from an account.
pub fn taken(book: &Book, account: &Account) -> u64 {
    quantity_where(book, |trade| trade.debited_account() == *account)
}

/// What the sent trades bring to an account.
pub fn brought(book: &Book, account: &Account) -> u64 {
    quantity_where(book, |trade| trade.credited_account() == *account)
}

fn quantity_where(book: &Book, wanted: impl Fn(&Item) -> bool) -> u64 {
    book.waiting.iter().filter(|item| item.sent && wanted(item)).map(|trade| trade.quantity).sum()
}

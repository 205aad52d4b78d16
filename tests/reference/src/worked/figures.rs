//! What a worked list says of a book.

use crate::book::{Account, Book, Item, Purse, State};
use crate::printing::custody_line;
use crate::sent;

/// One figure of a book.
pub enum Figure {
    Rate(u64),
    /// How many items wait.
    Waiting(usize),
    /// How many sides these are.
    Sides(u64),
    /// Of the waiting items, in list order.
    Quantities(&'static [u64]),
    /// Of the waiting items, in list order.
    Amounts(&'static [u64]),
    /// Of the waiting items, in list order; a pair has two, the deliver's
    /// first.
    References(&'static [&'static [u64]]),
    /// All accounts: security, member, type, shareholder and balance.
    Accounts(&'static [(u64, u64, u64, u64, u64)]),
    /// How many accounts there are.
    AccountCount(usize),
    /// All cash: member, currency and amount.
    Cash(&'static [(u64, u64, u64)]),
    /// How many cycles have run today.
    Cycles(u64),
    /// Whether a cycle is sent.
    Sent(bool),
    /// How many items are fixed by the cycle that is sent.
    Marked(usize),
    /// How many requests for paper are open.
    Requests(usize),
    /// A security's outside count.
    Outside(u64, u64),
    /// A security's held count: the figure that is kept, and the sum of its
    /// accounts.
    Held(u64, u64),
    /// The custody lines, in order of admission.
    Printed(&'static [&'static str]),
}

impl Figure {
    pub fn check(&self, book: &Book) -> Result<(), String> {
        let items = &book.waiting;
        match self {
            Figure::Rate(rate) => same("rate", rate, &book.rate),
            Figure::Waiting(count) => same("waiting items", count, &items.len()),
            Figure::Sides(sides) => same("waiting sides", sides, &items.iter().map(Item::sides).sum()),
            Figure::Quantities(quantities) => {
                same("quantities", &quantities.to_vec(), &items.iter().map(|item| item.quantity).collect())
            }
            Figure::Amounts(amounts) => {
                same("amounts", &amounts.to_vec(), &items.iter().map(|item| item.amount).collect())
            }
            Figure::References(all) => {
                let expected: Vec<Vec<u64>> = all.iter().map(|own| own.to_vec()).collect();
                same("references", &expected, &items.iter().map(references).collect())
            }
            Figure::Accounts(all) => same("accounts", &all.iter().copied().map(account).collect(), &book.accounts),
            Figure::AccountCount(count) => same("count of accounts", count, &book.accounts.len()),
            Figure::Cash(all) => same("cash", &all.iter().copied().map(purse).collect(), &book.cash),
            Figure::Cycles(run) => same("cycles run", run, &book.day.cycles_run),
            Figure::Sent(sent) => same("a cycle is sent", sent, &book.day.sent),
            Figure::Marked(count) => same("items of the sent cycle", count, &sent::trades(book).len()),
            Figure::Requests(count) => same("open requests", count, &book.requests.len()),
            Figure::Outside(code, outside) => {
                same("outside", &Some(*outside), &book.security(*code).map(|security| security.outside))
            }
            Figure::Held(code, held) => {
                same("held", held, &book.held(*code))?;
                same("sum of accounts", held, &book.sum_of_accounts(*code))
            }
            Figure::Printed(lines) => {
                let expected: Vec<String> = lines.iter().map(|line| line.to_string()).collect();
                same("custody lines", &expected, &book.securities.iter().map(custody_line).collect())
            }
        }
    }
}

fn account((security, member, account_type, shareholder, balance): (u64, u64, u64, u64, u64)) -> (Account, u64) {
    (Account { security, member, account_type, shareholder }, balance)
}

fn purse((member, currency, amount): (u64, u64, u64)) -> (Purse, u64) {
    (Purse { member, currency }, amount)
}

fn references(item: &Item) -> Vec<u64> {
    match item.state {
        State::Deliver { reference } | State::Receive { reference } | State::ExchangeTrade { reference } => {
            vec![reference]
        }
        State::Pair { deliver, receive } => vec![deliver.reference, receive.reference],
    }
}

pub fn same<T: PartialEq + std::fmt::Debug>(what: &str, expected: &T, found: &T) -> Result<(), String> {
    if expected == found { Ok(()) } else { Err(format!("{what}: expected {expected:?}, found {found:?}")) }
}

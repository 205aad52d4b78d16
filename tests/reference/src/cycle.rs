//! The netted settlement cycle (RULES 9).

use std::collections::{BTreeMap, BTreeSet};

use crate::book::{Account, Book, Item, Purse};
use crate::call::Counts;
use crate::record::Order;
use crate::rows::Rows;

/// What can be short.
#[derive(Clone, Copy, Debug, PartialEq, Eq, PartialOrd, Ord)]
pub enum Holding {
    Shares(Account),
    Cash(Purse),
}

/// What a trade takes, and from where.
pub fn debits(trade: &Item) -> [(Holding, u64); 2] {
    [(Holding::Shares(trade.debited_account()), trade.quantity), (Holding::Cash(trade.debited_purse()), trade.amount)]
}

/// What a trade brings, and to where.
pub fn credits(trade: &Item) -> [(Holding, u64); 2] {
    [(Holding::Shares(trade.credited_account()), trade.quantity), (Holding::Cash(trade.credited_purse()), trade.amount)]
}

/// The trades that a cycle takes (RULES 9.1): their places in the list, in list
/// order.
pub fn due(book: &Book) -> Vec<usize> {
    let is_due = |place: &usize| {
        let item = &book.waiting[*place];
        !item.is_single() && item.settlement_day <= book.day.number
    };
    (0..book.waiting.len()).filter(is_due).collect()
}

/// The position of each holding that the taken trades touch (RULES 9.2, 9.3).
pub fn outcome(book: &Book, taken: &[usize]) -> BTreeMap<Holding, i128> {
    let mut outcome = BTreeMap::new();
    let start = |holding: &Holding| i128::from(balance(book, holding));
    for trade in taken.iter().map(|place| &book.waiting[*place]) {
        for (holding, value) in credits(trade) {
            *outcome.entry(holding).or_insert_with(|| start(&holding)) += i128::from(value);
        }
        for (holding, value) in debits(trade) {
            *outcome.entry(holding).or_insert_with(|| start(&holding)) -= i128::from(value);
        }
    }
    outcome
}

pub fn balance(book: &Book, holding: &Holding) -> u64 {
    match holding {
        Holding::Shares(account) => book.balance(account),
        Holding::Cash(purse) => book.cash_of(purse),
    }
}

/// The holdings that are short (RULES 9.4).
pub fn short(book: &Book, taken: &[usize]) -> BTreeSet<Holding> {
    outcome(book, taken).into_iter().filter(|(_, value)| *value < 0).map(|(holding, _)| holding).collect()
}

/// What is kept of the taken trades when they are dropped one by one, until
/// nothing is short (RULES 9.5, 9.6).
pub fn kept(book: &Book) -> Vec<usize> {
    let mut taken = due(book);
    loop {
        let short = short(book, &taken);
        let debits_short = |place: &usize| debits(&book.waiting[*place]).iter().any(|(at, _)| short.contains(at));
        match taken.iter().rposition(debits_short) {
            Some(last) => taken.remove(last),
            None => return taken,
        };
    }
}

/// What a cycle fixes: what is kept, and what of the dropped trades fits beside
/// it. One that comes back can make room for another, so the dropped ones are
/// gone through until none comes back (RULES 9.26).
pub fn settling(book: &Book) -> Vec<usize> {
    let mut fixed = kept(book);
    while pass(book, &mut fixed) {}
    fixed.sort();
    fixed
}

/// Goes once through the trades that are out, in list order. A trade that fits
/// is in for those behind it (RULES 9.25). Whether any came back.
fn pass(book: &Book, fixed: &mut Vec<usize>) -> bool {
    let before = fixed.len();
    for place in due(book) {
        if !fixed.contains(&place) && fits(book, fixed, place) {
            fixed.push(place);
        }
    }
    fixed.len() > before
}

/// Whether nothing is short when a trade is added to others.
pub fn fits(book: &Book, fixed: &[usize], place: usize) -> bool {
    short(book, &[fixed, &[place]].concat()).is_empty()
}

/// Fixes what can be settled; it is booked when the cycle is confirmed. A cycle
/// that fixes nothing is sent like any other.
pub fn send(book: &mut Book, _: &Order, _: &mut Rows) -> Counts {
    let (due, fixed) = (due(book), settling(book));
    for place in &fixed {
        book.waiting[*place].sent = true;
    }
    book.day.sent = true;
    book.day.cycles_run += 1;
    Counts { left: (due.len() - fixed.len()) as u64, ..Counts::default() }
}

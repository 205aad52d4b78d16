//! Which trades fit beside others, worked out from a book alone.

use std::collections::BTreeMap;

use reference::book::{Book, Item};
use reference::cycle::{Holding, balance, credits, debits};

/// What some trades of the waiting list do to accounts and cash.
#[derive(Clone)]
pub struct Positions<'a> {
    book: &'a Book,
    changes: BTreeMap<Holding, i128>,
}

impl<'a> Positions<'a> {
    /// Of trades that are named by their places in the list.
    pub fn of(book: &'a Book, places: &[usize]) -> Positions<'a> {
        let mut positions = Positions { book, changes: BTreeMap::new() };
        places.iter().for_each(|place| positions.add(*place));
        positions
    }

    pub fn add(&mut self, place: usize) {
        self.change(place, 1);
    }

    pub fn remove(&mut self, place: usize) {
        self.change(place, -1);
    }

    fn change(&mut self, place: usize, times: i128) {
        let trade = &self.book.waiting[place];
        for (holding, value) in credits(trade) {
            *self.changes.entry(holding).or_insert(0) += times * i128::from(value);
        }
        for (holding, value) in debits(trade) {
            *self.changes.entry(holding).or_insert(0) -= times * i128::from(value);
        }
    }

    /// Balance, plus what the trades bring, less what they take.
    pub fn at(&self, holding: &Holding) -> i128 {
        i128::from(balance(self.book, holding)) + self.changes.get(holding).copied().unwrap_or(0)
    }

    pub fn is_short(&self, holding: &Holding) -> bool {
        self.at(holding) < 0
    }

    /// What is short, of all accounts and cash; what no trade touches never is.
    pub fn short(&self) -> impl Iterator<Item = &Holding> {
        self.changes.keys().filter(|holding| self.is_short(holding))
    }

    pub fn is_any_short(&self) -> bool {
        self.short().next().is_some()
    }

    /// Whether nothing is short with one trade more, where nothing is without
    /// it: then the places that it debits are the only ones that can be.
    pub fn fits(&self, place: usize) -> bool {
        let trade = &self.book.waiting[place];
        let brought = |at: &Holding| credits(trade).iter().filter(|(to, _)| to == at).map(|(_, value)| value).sum();
        debits(trade).iter().all(|(at, value)| {
            let own: u64 = brought(at);
            self.at(at) + i128::from(own) >= i128::from(*value)
        })
    }

    /// Adds a trade if it fits, and tells whether it does.
    pub fn add_if_it_fits(&mut self, place: usize) -> bool {
        let fits = self.fits(place);
        if fits {
            self.add(place);
        }
        fits
    }

    /// The same trades and one more.
    pub fn with(&self, place: usize) -> Positions<'a> {
        let mut with = self.clone();
        with.add(place);
        with
    }
}

/// Holds what a cycle has fixed against the book in which it is marked: nothing
/// is short with it, and with any one more of the due trades something is.
pub fn check(book: &Book) -> Result<(), String> {
    let is_due = |item: &Item| !item.is_single() && item.settlement_day <= book.day.number;
    let due = (0..book.waiting.len()).filter(|place| is_due(&book.waiting[*place]));
    let (fixed, left): (Vec<usize>, Vec<usize>) = due.partition(|place| book.waiting[*place].sent);
    let positions = Positions::of(book, &fixed);
    if let Some(holding) = positions.short().next() {
        return Err(format!("short with the trades that are fixed: {holding:?}, trades {fixed:?}"));
    }
    match left.iter().find(|place| !positions.with(**place).is_any_short()) {
        Some(place) => Err(format!("the trade at place {place} is left, and fits beside {fixed:?}")),
        None => Ok(()),
    }
}

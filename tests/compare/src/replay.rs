//! The choice of a cycle, replayed from the book: what is dropped, what comes
//! back in which pass, and what other ways of taking trades back would send.

use reference::book::Book;
use reference::cycle::{Holding, debits, due};

use crate::fitting::Positions;

/// A trade that was dropped, and what it debited that was short then.
pub struct Dropped {
    pub place: usize,
    pub shares: bool,
    pub cash: bool,
}

/// A cycle after the dropping. Trades are named by their places in the list.
pub struct Replay<'a> {
    book: &'a Book,
    pub kept: Vec<usize>,
    /// In the order of dropping.
    pub dropped: Vec<Dropped>,
}

impl<'a> Replay<'a> {
    pub fn of(book: &'a Book) -> Replay<'a> {
        let mut replay = Replay { book, kept: due(book), dropped: Vec::new() };
        let mut positions = Positions::of(book, &replay.kept);
        while let Some((number, dropped)) = replay.last_short(&positions) {
            positions.remove(replay.kept.remove(number));
            replay.dropped.push(dropped);
        }
        replay
    }

    /// Of the trades still in, the last that debits what is short, by its place
    /// among them.
    fn last_short(&self, positions: &Positions) -> Option<(usize, Dropped)> {
        (0..self.kept.len()).rev().find_map(|number| {
            let place = self.kept[number];
            let [shares, cash] = debits(&self.book.waiting[place]).map(|(holding, _)| positions.is_short(&holding));
            (shares || cash).then_some((number, Dropped { place, shares, cash }))
        })
    }

    fn in_order_of_dropping(&self) -> Vec<usize> {
        self.dropped.iter().map(|dropped| dropped.place).collect()
    }

    fn in_list_order(&self) -> Vec<usize> {
        let mut places = self.in_order_of_dropping();
        places.sort();
        places
    }

    /// What is in after the dropping, in numbers.
    pub fn positions(&self) -> Positions<'a> {
        Positions::of(self.book, &self.kept)
    }

    /// What each pass adds, without the last, which adds none.
    pub fn passes(&self) -> Vec<Vec<usize>> {
        self.passes_over(self.in_list_order())
    }

    fn passes_over(&self, mut out: Vec<usize>) -> Vec<Vec<usize>> {
        let mut positions = self.positions();
        let mut passes = Vec::new();
        loop {
            let before = out.len();
            let added: Vec<usize> = out.iter().copied().filter(|place| positions.add_if_it_fits(*place)).collect();
            out.retain(|place| !added.contains(place));
            if out.len() == before {
                return passes;
            }
            passes.push(added);
        }
    }

    /// The trades that are sent when these are added.
    pub fn sent(&self, added: impl IntoIterator<Item = usize>) -> Vec<usize> {
        let mut sent: Vec<usize> = self.kept.iter().copied().chain(added).collect();
        sent.sort();
        sent
    }

    pub fn after_one_pass(&self) -> Vec<usize> {
        self.sent(self.passes().into_iter().next().unwrap_or_default())
    }

    pub fn from_the_end(&self) -> Vec<usize> {
        let from_the_end = self.in_list_order().into_iter().rev().collect();
        self.sent(self.passes_over(from_the_end).concat())
    }

    pub fn by_dropping(&self) -> Vec<usize> {
        self.sent(self.passes_over(self.in_order_of_dropping()).concat())
    }

    /// All that fit beside those kept are added at once.
    pub fn all_at_once(&self) -> Vec<usize> {
        let positions = self.positions();
        self.sent(self.in_list_order().into_iter().filter(|place| positions.fits(*place)))
    }

    /// Each addition starts from the front again.
    pub fn starting_again(&self) -> Vec<usize> {
        let (mut positions, mut out, mut added) = (self.positions(), self.in_list_order(), Vec::new());
        while let Some(first) = out.iter().position(|place| positions.fits(*place)) {
            positions.add(out[first]);
            added.push(out.remove(first));
        }
        self.sent(added)
    }
}

/// Whether each of the two debited places of a trade would be short with it.
pub fn wants(book: &Book, positions: &Positions, place: usize) -> [bool; 2] {
    let with = positions.with(place);
    debits(&book.waiting[place]).map(|(holding, _): (Holding, u64)| with.is_short(&holding))
}

//! What comes back of the trades that a cycle drops, and where another way of
//! taking them back would send another set.

use reference::book::{Book, Item, MOST_ITEMS, State};
use reference::cycle::{Holding, due};

use super::Coverage;
use crate::fitting::Positions;
use crate::replay::{Dropped, Replay, wants};

pub const EVENTS: &[&str] = &[
    "no due trade is dropped: no pass",
    "some due trades are dropped and none comes back",
    "all due trades are dropped and none comes back",
    "all due trades are dropped and some come back",
    "all dropped trades but one come back",
    "a pass adds one trade",
    "a pass adds several trades",
    "exactly one pass adds",
    "exactly two passes add",
    "exactly three passes add",
    "four or more passes add",
    "64 trades dropped for want of shares, 63 come back one a pass",
    "64 trades dropped for want of cash, 63 come back one a pass",
    "the first pass adds a trade in front of a kept one",
    "the first pass adds a trade behind a kept one",
    "a pass adds a trade between two kept ones",
    "a later pass adds in front of an earlier one",
    "a later pass adds behind an earlier one",
    "dropped for want of shares alone, a trade comes back",
    "dropped for want of cash alone, a trade comes back",
    "dropped for want of both, a trade comes back",
    "a trade within one member comes back",
    "a trade within one member comes back without cash of its own for it",
    "a pair comes back",
    "an exchange trade comes back",
    "a trade comes back with all the shares that are there",
    "a trade comes back with all the cash that is there",
    "a trade stays out for want of shares alone",
    "a trade stays out for want of cash alone",
    "a trade stays out for want of both",
    "a trade stays out for want of one share",
    "a trade stays out for want of one hundredth",
    "a trade that fitted beside the kept ones stays out",
    "one pass alone would send another set",
    "starting again after each addition would send another set",
    "passes from the list's end would send another set",
    "passes in the order of dropping would send another set",
    "adding at once all that fit would send another set",
];

impl Coverage {
    /// A cycle that is about to be sent.
    pub(super) fn passes(&mut self, book: &Book) {
        let replay = Replay::of(book);
        if replay.dropped.is_empty() {
            self.named(&[(!replay.kept.is_empty(), "no due trade is dropped: no pass")]);
            return;
        }
        let passes = replay.passes();
        let (dropped, added) = (replay.dropped.len(), passes.iter().map(Vec::len).sum::<usize>());
        let (all, none) = (replay.kept.is_empty(), added == 0);
        self.named(&[
            (!all && none, "some due trades are dropped and none comes back"),
            (all && none, "all due trades are dropped and none comes back"),
            (all && !none, "all due trades are dropped and some come back"),
            (!none && added + 1 == dropped, "all dropped trades but one come back"),
        ]);
        self.counted(&replay, &passes);
        self.left_out(book, &replay, &passes);
        if !none {
            self.places(&replay.kept, &passes);
            self.taken_back(book, &replay, &passes);
            self.other_ways(&replay, &passes);
        }
    }

    fn counted(&mut self, replay: &Replay, passes: &[Vec<usize>]) {
        let one_a_pass = replay.dropped.len() == MOST_ITEMS && passes.len() == MOST_ITEMS - 1;
        self.named(&[
            (passes.iter().any(|added| added.len() == 1), "a pass adds one trade"),
            (passes.iter().any(|added| added.len() > 1), "a pass adds several trades"),
            (passes.len() == 1, "exactly one pass adds"),
            (passes.len() == 2, "exactly two passes add"),
            (passes.len() == 3, "exactly three passes add"),
            (passes.len() >= 4, "four or more passes add"),
            (
                one_a_pass && replay.dropped.iter().all(|trade| trade.shares),
                "64 trades dropped for want of shares, 63 come back one a pass",
            ),
            (
                one_a_pass && replay.dropped.iter().all(|trade| trade.cash),
                "64 trades dropped for want of cash, 63 come back one a pass",
            ),
        ]);
    }

    /// Where what is added stands in the list.
    fn places(&mut self, kept: &[usize], passes: &[Vec<usize>]) {
        let in_front = |place: &usize| kept.last().is_some_and(|last| place < last);
        let behind = |place: &usize| kept.first().is_some_and(|first| first < place);
        let between = passes.concat().iter().any(|place| behind(place) && in_front(place));
        self.named(&[
            (passes[0].iter().any(in_front), "the first pass adds a trade in front of a kept one"),
            (passes[0].iter().any(behind), "the first pass adds a trade behind a kept one"),
            (between, "a pass adds a trade between two kept ones"),
        ]);
        for two in passes.windows(2) {
            let (earlier, later) = (&two[0], &two[1]);
            self.named(&[
                (later.iter().min() < earlier.iter().max(), "a later pass adds in front of an earlier one"),
                (later.iter().max() > earlier.iter().min(), "a later pass adds behind an earlier one"),
            ]);
        }
    }

    /// Each trade that comes back, at the moment when it is added.
    fn taken_back(&mut self, book: &Book, replay: &Replay, passes: &[Vec<usize>]) {
        let mut positions = replay.positions();
        for place in passes.concat() {
            let trade = &book.waiting[place];
            let dropped = replay.dropped.iter().find(|dropped| dropped.place == place).expect("it was dropped");
            self.dropped_for(dropped);
            self.own_cash(&positions, trade);
            positions.add(place);
            self.used_up(&positions, trade);
            let exchange = matches!(trade.state, State::ExchangeTrade { .. });
            self.named(&[(exchange, "an exchange trade comes back"), (!exchange, "a pair comes back")]);
        }
    }

    fn dropped_for(&mut self, dropped: &Dropped) {
        self.event(match (dropped.shares, dropped.cash) {
            (true, true) => "dropped for want of both, a trade comes back",
            (true, false) => "dropped for want of shares alone, a trade comes back",
            _ => "dropped for want of cash alone, a trade comes back",
        });
    }

    fn own_cash(&mut self, positions: &Positions, trade: &Item) {
        let own = trade.debited_purse() == trade.credited_purse();
        let poor = positions.at(&Holding::Cash(trade.debited_purse())) < i128::from(trade.amount);
        self.named(&[
            (own, "a trade within one member comes back"),
            (own && poor, "a trade within one member comes back without cash of its own for it"),
        ]);
    }

    fn used_up(&mut self, positions: &Positions, trade: &Item) {
        self.named(&[
            (
                positions.at(&Holding::Shares(trade.debited_account())) == 0,
                "a trade comes back with all the shares that are there",
            ),
            (
                positions.at(&Holding::Cash(trade.debited_purse())) == 0,
                "a trade comes back with all the cash that is there",
            ),
        ]);
    }

    /// Each trade that is still out, beside all that are sent.
    fn left_out(&mut self, book: &Book, replay: &Replay, passes: &[Vec<usize>]) {
        let (kept, sent) = (replay.positions(), replay.sent(passes.concat()));
        let positions = Positions::of(book, &sent);
        for place in due(book).into_iter().filter(|place| !sent.contains(place)) {
            let trade = &book.waiting[place];
            let with = positions.with(place);
            let [shares, cash] = wants(book, &positions, place);
            self.named(&[
                (shares && !cash, "a trade stays out for want of shares alone"),
                (cash && !shares, "a trade stays out for want of cash alone"),
                (shares && cash, "a trade stays out for want of both"),
                (with.at(&Holding::Shares(trade.debited_account())) == -1, "a trade stays out for want of one share"),
                (with.at(&Holding::Cash(trade.debited_purse())) == -1, "a trade stays out for want of one hundredth"),
                (kept.fits(place), "a trade that fitted beside the kept ones stays out"),
            ]);
        }
    }

    fn other_ways(&mut self, replay: &Replay, passes: &[Vec<usize>]) {
        let sent = replay.sent(passes.concat());
        self.named(&[
            (replay.after_one_pass() != sent, "one pass alone would send another set"),
            (replay.starting_again() != sent, "starting again after each addition would send another set"),
            (replay.from_the_end() != sent, "passes from the list's end would send another set"),
            (replay.by_dropping() != sent, "passes in the order of dropping would send another set"),
            (replay.all_at_once() != sent, "adding at once all that fit would send another set"),
        ]);
    }
}

//! What cycles come upon when they are sent, and what is booked when they are
//! confirmed.

use std::collections::BTreeMap;

use reference::book::{Account, Book, Item, State};
use reference::cycle::{Holding, balance, credits, debits, due, settling, short};

use super::Coverage;
use super::arrivals::is_full;

pub const EVENTS: &[&str] = &[
    "cycle with nothing due",
    "cycle sends all that is due",
    "cycle sends some and leaves some",
    "cycle leaves all that is due",
    "64 trades sent in one cycle",
    "64 trades left in one cycle",
    "trade left for want of shares",
    "trade left for want of cash",
    "dropping a trade makes another holding short",
    "shares netted: an account gives more than it had",
    "cash netted: a member pays more than it had",
    "a balance is below zero on the way, in list order",
    "a ring of accounts that had nothing settles",
    "trade within one member settled",
    "trade within one member left",
    "pair settled",
    "pair with a mark settled",
    "pair settled after its settlement day",
    "exchange trade settled",
    "USD settled",
    "LBP settled",
    "confirmation opens an account",
    "confirmation empties an account",
    "confirmation in a full book",
    "trades of two securities settle in one cycle",
];

type Trades<'a> = [&'a Item];

impl Coverage {
    /// A cycle that is about to be sent.
    pub(super) fn cycle(&mut self, book: &Book) {
        let due = due(book);
        let settling = settling(book);
        let trade = |place: &usize| &book.waiting[*place];
        let left: Vec<&Item> = due.iter().filter(|place| !settling.contains(place)).map(trade).collect();
        match (settling.len(), left.len()) {
            (0, 0) => self.event("cycle with nothing due"),
            (_, 0) => self.event("cycle sends all that is due"),
            (0, _) => self.event("cycle leaves all that is due"),
            _ => self.event("cycle sends some and leaves some"),
        }
        self.named(&[
            (settling.len() == 64, "64 trades sent in one cycle"),
            (left.len() == 64, "64 trades left in one cycle"),
        ]);
        self.left_trades(book, &due, &left);
        self.passes(book);
        self.sending(book, &settling);
    }

    /// Trades that are about to be booked.
    pub(super) fn booking(&mut self, book: &Book, settled: &Trades) {
        self.named(&[
            (!settled.is_empty() && is_full(book), "confirmation in a full book"),
            (
                settled.iter().any(|trade| trade.security != settled[0].security),
                "trades of two securities settle in one cycle",
            ),
        ]);
        self.settled_trades(book, settled);
        self.netting(book, settled);
    }

    fn settled_trades(&mut self, book: &Book, settled: &Trades) {
        for trade in settled {
            let marked = matches!(trade.state, State::Pair { deliver, receive } if deliver.marked || receive.marked);
            let pair = matches!(trade.state, State::Pair { .. });
            self.named(&[
                (within_one_member(trade), "trade within one member settled"),
                (pair, "pair settled"),
                (marked, "pair with a mark settled"),
                (pair && trade.settlement_day < book.day.number, "pair settled after its settlement day"),
                (!pair, "exchange trade settled"),
                (trade.currency == 1, "USD settled"),
                (trade.currency == 2, "LBP settled"),
            ]);
        }
    }

    fn netting(&mut self, book: &Book, settled: &Trades) {
        let mut taken: BTreeMap<Holding, u64> = BTreeMap::new();
        let mut net: BTreeMap<Holding, i128> = BTreeMap::new();
        let mut below_zero = false;
        for trade in settled {
            for (holding, value) in credits(trade) {
                *net.entry(holding).or_insert(0) += i128::from(value);
            }
            for (holding, value) in debits(trade) {
                *taken.entry(holding).or_insert(0) += value;
                let change = net.entry(holding).or_insert(0);
                *change -= i128::from(value);
                below_zero |= i128::from(balance(book, &holding)) + *change < 0;
            }
        }
        let more_than_had = |(holding, value): (&Holding, &u64)| (*value > balance(book, holding)).then_some(*holding);
        let netted: Vec<Holding> = taken.iter().filter_map(more_than_had).collect();
        self.named(&[
            (netted.iter().any(is_shares), "shares netted: an account gives more than it had"),
            (!netted.iter().all(is_shares), "cash netted: a member pays more than it had"),
            (below_zero, "a balance is below zero on the way, in list order"),
            (
                settled.iter().any(|trade| in_empty_ring(book, settled, trade)),
                "a ring of accounts that had nothing settles",
            ),
        ]);
        self.changed_accounts(book, &net);
    }

    fn changed_accounts(&mut self, book: &Book, net: &BTreeMap<Holding, i128>) {
        for (holding, change) in net.iter().filter(|(holding, _)| is_shares(holding)) {
            let before = i128::from(balance(book, holding));
            self.named(&[
                (before == 0 && *change > 0, "confirmation opens an account"),
                (before > 0 && before + change == 0, "confirmation empties an account"),
            ]);
        }
    }

    fn left_trades(&mut self, book: &Book, due: &[usize], left: &Trades) {
        if left.is_empty() {
            return;
        }
        let at_first = short(book, due);
        for trade in left {
            let short_ones: Vec<Holding> = debits(trade)
                .into_iter()
                .map(|(holding, _)| holding)
                .filter(|holding| at_first.contains(holding))
                .collect();
            self.named(&[
                (within_one_member(trade), "trade within one member left"),
                (short_ones.iter().any(is_shares), "trade left for want of shares"),
                (short_ones.iter().any(|holding| !is_shares(holding)), "trade left for want of cash"),
                (short_ones.is_empty(), "dropping a trade makes another holding short"),
            ]);
        }
    }
}

fn is_shares(holding: &Holding) -> bool {
    matches!(holding, Holding::Shares(_))
}

fn within_one_member(trade: &Item) -> bool {
    trade.deliverer.member == trade.receiver.member
}

/// Whether the same shares go from the trade's seller through accounts that
/// had nothing and come back.
fn in_empty_ring(book: &Book, settled: &Trades, first: &Item) -> bool {
    let start = first.debited_account();
    let mut at: Account = first.credited_account();
    if book.balance(&start) != 0 {
        return false;
    }
    for _ in 0..settled.len() {
        if at == start {
            return true;
        }
        let sells_on = |trade: &&&Item| trade.debited_account() == at && trade.quantity == first.quantity;
        match settled.iter().find(sells_on) {
            Some(trade) if book.balance(&at) == 0 => at = trade.credited_account(),
            _ => return false,
        }
    }
    false
}

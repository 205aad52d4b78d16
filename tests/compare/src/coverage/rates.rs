//! The rate at which LBP instructions meet: how large it is, and whether it
//! was set since the first of them came (RULES 8.4, 8.9).

use std::collections::BTreeMap;

use reference::book::{Book, FIRST_RATE, Item, State};
use reference::matching::{amounts_agree, same_terms, tolerance};
use reference::record::{Field, Order, usual_range};

use super::arrivals::{Step, step};
use super::{Cell, Coverage};

const LBP: u64 = 2;
/// At such a rate the tolerance in LBP is not above that in USD.
const SMALL: u64 = 100;

/// The rate in the book when the second instruction arrives.
#[derive(Clone, Copy, Debug, PartialEq, Eq, PartialOrd, Ord)]
pub enum Rate {
    First,
    Small,
    /// No two amounts are as far apart as its tolerance.
    Widest,
    /// Another than when the single came, on the same day.
    SetBetween,
    /// Another than when the single came, and set before today.
    SetOnEarlierDay,
}

pub const EVENTS: &[&str] = &[
    "form 18 sets the least rate",
    "form 18 sets the largest rate",
    "form 18 sets the rate that is in the book",
    "form 18 leaves two singles waiting that its rate would let pair",
    "a rate that was set outlasts a close and an opening",
    "arrival pairs that would not at the rate when the single came",
    "arrival waits that would pair at the rate when the single came",
    "single, another rate and arrival in one minute",
    "arrival takes a single that another waiting single would fit now",
    "arrival pairs above the last 32 bits of the tolerance",
    "arrival pairs above the last 40 bits of the tolerance",
    "least and largest amount pair",
];

/// What a list has shown of its rates.
#[derive(Default)]
pub struct History {
    /// The day on which a rate was set last.
    set_on: u64,
    /// By the sender and reference of an LBP instruction, as it came.
    arrivals: BTreeMap<(u64, u64), Arrival>,
}

#[derive(Clone, Copy)]
struct Arrival {
    rate: u64,
    day: u64,
    minute: u64,
}

pub fn wanted() -> Vec<Cell> {
    let ends = [Step::MinusOne, Step::Zero, Step::Inside, Step::Tolerance, Step::ToleranceAndOne];
    let rates = [Rate::First, Rate::Small, Rate::Widest, Rate::SetBetween, Rate::SetOnEarlierDay];
    let mut cells = Vec::new();
    for (rate, arriving) in rates.into_iter().flat_map(|rate| [(rate, 12), (rate, 13)]) {
        let steps = if rate == Rate::Widest { &ends[..3] } else { &ends[..] };
        cells.extend(steps.iter().map(|step| Cell::AtRate { rate, arriving, step: *step }));
    }
    cells
}

fn largest() -> u64 {
    usual_range(Field::Quantity).1
}

/// The sender and reference of a single.
fn name(single: &Item) -> (u64, u64) {
    match single.state {
        State::Deliver { reference } => (single.deliverer.member, reference),
        State::Receive { reference } => (single.receiver.member, reference),
        _ => unreachable!("only instructions have a rate"),
    }
}

impl History {
    /// What is to be said of the book's rate where a single meets an arrival.
    fn kinds(&self, book: &Book, single: &Arrival) -> Vec<Rate> {
        let moved = single.rate != book.rate;
        let today = book.day.number;
        let all = [
            (book.rate == FIRST_RATE, Rate::First),
            (book.rate <= SMALL, Rate::Small),
            (book.rate == largest(), Rate::Widest),
            (moved && self.set_on == today && single.day == today, Rate::SetBetween),
            (moved && self.set_on < today, Rate::SetOnEarlierDay),
        ];
        all.into_iter().filter(|(holds, _)| *holds).map(|(_, rate)| rate).collect()
    }
}

impl Coverage {
    /// An accepted order of form 1.
    pub(super) fn opening(&mut self, book: &Book) {
        if book.rate != FIRST_RATE {
            self.event("a rate that was set outlasts a close and an opening");
        }
    }

    /// An accepted order of form 18.
    pub(super) fn new_rate(&mut self, book: &Book, order: &Order) {
        let rate = order.quantity;
        self.named(&[
            (rate == 1, "form 18 sets the least rate"),
            (rate == largest(), "form 18 sets the largest rate"),
            (rate == book.rate, "form 18 sets the rate that is in the book"),
            (lets_singles_pair(book, rate), "form 18 leaves two singles waiting that its rate would let pair"),
        ]);
        self.rates.set_on = book.day.number;
    }

    /// An accepted instruction, as it comes.
    pub(super) fn note_rate(&mut self, book: &Book, order: &Order, arrival: &Item) {
        if arrival.currency == LBP {
            let noted = Arrival { rate: book.rate, day: book.day.number, minute: order.minute };
            self.rates.arrivals.insert(name(arrival), noted);
        }
    }

    /// An arrival and a waiting single of the other form; `partner` is the
    /// single that the arrival pairs with, if there is one.
    pub(super) fn meeting(&mut self, book: &Book, order: &Order, couple: [&Item; 2], partner: Option<&Item>) {
        let [deliver, receive] = couple;
        let single = if order.form == 12 { receive } else { deliver };
        if order.currency != LBP || !same_terms(deliver, receive) {
            return;
        }
        let Some(came) = self.rates.arrivals.get(&name(single)).copied() else {
            return;
        };
        if let Some(step) = step(book.rate, deliver, receive) {
            for rate in self.rates.kinds(book, &came) {
                self.reach(Cell::AtRate { rate, arriving: order.form, step });
            }
        }
        let pairs = partner == Some(single);
        let pairs_then = amounts_agree(came.rate, deliver, receive);
        let one_minute = (came.day, came.minute) == (book.day.number, order.minute);
        self.named(&[
            (pairs && !pairs_then, "arrival pairs that would not at the rate when the single came"),
            (partner.is_none() && pairs_then, "arrival waits that would pair at the rate when the single came"),
            (one_minute && came.rate != book.rate, "single, another rate and arrival in one minute"),
        ]);
        if pairs {
            self.pairing(book, couple, single);
        }
    }

    /// An LBP arrival and the single that it pairs with.
    fn pairing(&mut self, book: &Book, [deliver, receive]: [&Item; 2], single: &Item) {
        let (difference, most) = (receive.amount - deliver.amount, tolerance(book.rate, LBP));
        let above = |bits: u32| difference > most & ((1 << bits) - 1);
        self.named(&[
            (above(32), "arrival pairs above the last 32 bits of the tolerance"),
            (above(40), "arrival pairs above the last 40 bits of the tolerance"),
            (difference + 1 == largest(), "least and largest amount pair"),
            (
                book.waiting.iter().any(|other| agree(book.rate, single, other)),
                "arrival takes a single that another waiting single would fit now",
            ),
        ]);
    }
}

/// Whether two waiting singles would pair at a rate, were one of them to come
/// now.
fn agree(rate: u64, one: &Item, other: &Item) -> bool {
    let (deliver, receive) = match (one.state, other.state) {
        (State::Deliver { .. }, State::Receive { .. }) => (one, other),
        (State::Receive { .. }, State::Deliver { .. }) => (other, one),
        _ => return false,
    };
    same_terms(deliver, receive) && amounts_agree(rate, deliver, receive)
}

/// Whether two LBP singles wait that agree at the new rate and not at the old.
fn lets_singles_pair(book: &Book, rate: u64) -> bool {
    let singles: Vec<&Item> = book.waiting.iter().filter(|item| item.currency == LBP && item.is_single()).collect();
    let newly = |one: &Item, other: &Item| agree(rate, one, other) && !agree(book.rate, one, other);
    singles.iter().any(|one| singles.iter().any(|other| newly(one, other)))
}

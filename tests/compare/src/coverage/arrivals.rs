//! Movements in full tables, arrivals that match or do not, and both ends of
//! the tolerance.

use reference::account_types::{FREE, same_nature};
use reference::book::{Book, Item, MOST_ACCOUNTS_AND_ITEMS, MOST_ITEMS, State};
use reference::matching::{amounts_agree, partner, same_terms, tolerance, waiting_item};
use reference::record::Order;
use reference::refusals::{credited_account, debited_account};

use super::{Cell, Coverage};

/// Receive amount less deliver amount.
#[derive(Clone, Copy, Debug, PartialEq, Eq, PartialOrd, Ord)]
pub enum Step {
    MinusOne,
    Zero,
    Inside,
    Tolerance,
    ToleranceAndOne,
}

/// What an arrival and a single must have in common.
#[derive(Clone, Copy, Debug, PartialEq, Eq, PartialOrd, Ord)]
pub enum Term {
    Security,
    Shareholder,
    TradeDay,
    SettlementDay,
    Quantity,
    Currency,
    Deliverer,
    Receiver,
    Nature,
}

const TERMS: [Term; 9] = [
    Term::Security,
    Term::Shareholder,
    Term::TradeDay,
    Term::SettlementDay,
    Term::Quantity,
    Term::Currency,
    Term::Deliverer,
    Term::Receiver,
    Term::Nature,
];

pub const EVENTS: &[&str] = &[
    "form 5 moves a whole balance to a new account in a full book",
    "form 6 moves a whole balance to a new account in a full book",
    "form 7 moves a whole balance to a new account in a full book",
    "form 8 moves a whole balance to a new account in a full book",
    "form 9 moves a whole balance to a new account in a full book",
    "arrival matches at 64 items",
    "arrival matches with accounts and items at 256",
    "arrival does not match",
    "arrival passes over an earlier single of the other form",
    "arrival has several singles that fit",
    "types 10 and 20 pair",
    "types 110 and 120 pair",
    "form 12 refused at 64 items",
    "form 13 refused at 64 items",
    "form 14 refused at 64 items",
    "form 12 refused with accounts and items at 256",
    "form 13 refused with accounts and items at 256",
    "form 14 refused with accounts and items at 256",
];

pub fn wanted() -> Vec<Cell> {
    let steps = [Step::MinusOne, Step::Zero, Step::Inside, Step::Tolerance, Step::ToleranceAndOne];
    let mut cells = Vec::new();
    for (currency, arriving) in [(1, 12), (1, 13), (2, 12), (2, 13)] {
        cells.extend(steps.map(|step| Cell::Difference { currency, arriving, step }));
    }
    for arriving in [12, 13] {
        cells.extend(TERMS.map(|term| Cell::NearMiss { term, arriving }));
    }
    cells
}

/// A full book's accounts and items together.
pub(super) fn is_full(book: &Book) -> bool {
    book.accounts.len() + book.waiting.len() == MOST_ACCOUNTS_AND_ITEMS
}

/// The name in a list of names that starts with the form's number.
fn of_form(form: u64, names: &[&'static str]) -> &'static str {
    let start = format!("form {form} ");
    names.iter().find(|name| name.starts_with(&start)).expect("a name for the form")
}

impl Coverage {
    /// An accepted order of forms 5 to 9.
    pub(super) fn movement(&mut self, book: &Book, order: &Order) {
        let opens = book.balance(&credited_account(order)) == 0;
        let empties = book.balance(&debited_account(order)) == order.quantity;
        if is_full(book) && opens && empties {
            self.event(of_form(order.form, &EVENTS[..5]));
        }
    }

    /// An accepted order of form 12 or 13.
    pub(super) fn arrival(&mut self, book: &Book, order: &Order) {
        let arrival = waiting_item(order);
        let others: Vec<&Item> = book.waiting.iter().filter(|item| is_other_form(item, &arrival)).collect();
        let place = partner(book, order);
        for other in &others {
            let (deliver, receive) = if order.form == 12 { (&arrival, *other) } else { (*other, &arrival) };
            self.difference(book, order, deliver, receive);
            self.near_miss(book, order, deliver, receive);
            self.meeting(book, order, [deliver, receive], place.map(|place| &book.waiting[place]));
        }
        self.note_rate(book, order, &arrival);
        self.instruction_beside_request(book, order);
        let Some(place) = place else {
            return self.event("arrival does not match");
        };
        let single = &book.waiting[place];
        if *others[0] != *single {
            self.event("arrival passes over an earlier single of the other form");
        }
        let mut rest = book.clone();
        rest.waiting.remove(place);
        if partner(&rest, order).is_some() {
            self.event("arrival has several singles that fit");
        }
        if book.waiting.len() == MOST_ITEMS {
            self.event("arrival matches at 64 items");
        }
        if is_full(book) {
            self.event("arrival matches with accounts and items at 256");
        }
        self.types(single, &arrival);
    }

    fn types(&mut self, single: &Item, arrival: &Item) {
        let side = |item: &Item| match item.state {
            State::Deliver { .. } => item.deliverer.account_type,
            _ => item.receiver.account_type,
        };
        let mut types = [side(single), side(arrival)];
        types.sort_unstable();
        debug_assert!(types.iter().all(|one| FREE.contains(one)));
        match types {
            [10, 20] => self.event("types 10 and 20 pair"),
            [110, 120] => self.event("types 110 and 120 pair"),
            _ => {}
        }
    }

    fn near_miss(&mut self, book: &Book, order: &Order, deliver: &Item, receive: &Item) {
        if let [term] = other_terms(deliver, receive)[..]
            && amounts_agree(book.rate, deliver, receive)
        {
            self.reach(Cell::NearMiss { term, arriving: order.form });
        }
    }

    fn difference(&mut self, book: &Book, order: &Order, deliver: &Item, receive: &Item) {
        if same_terms(deliver, receive)
            && let Some(step) = step(book.rate, deliver, receive)
        {
            self.reach(Cell::Difference { currency: order.currency, arriving: order.form, step });
        }
    }

    /// An order that is refused with 18.
    pub(super) fn refused_for_room(&mut self, book: &Book, order: &Order) {
        if !matches!(order.form, 12..=14) {
            return;
        }
        let names = &EVENTS[EVENTS.len() - 6..];
        if book.waiting.len() == MOST_ITEMS {
            self.event(of_form(order.form, &names[..3]));
        } else {
            self.event(of_form(order.form, &names[3..]));
        }
    }
}

/// Where the amounts of a deliver and a receive lie to the tolerance at a rate.
pub(super) fn step(rate: u64, deliver: &Item, receive: &Item) -> Option<Step> {
    let most = tolerance(rate, deliver.currency) as i64;
    match receive.amount as i64 - deliver.amount as i64 {
        -1 => Some(Step::MinusOne),
        0 => Some(Step::Zero),
        difference if difference == most => Some(Step::Tolerance),
        difference if difference == most + 1 => Some(Step::ToleranceAndOne),
        difference if (1..most).contains(&difference) => Some(Step::Inside),
        _ => None,
    }
}

/// The terms in which a deliver and a receive differ.
fn other_terms(deliver: &Item, receive: &Item) -> Vec<Term> {
    let (own, named) = (&deliver.deliverer, &deliver.receiver);
    let differs = |term: &Term| match term {
        Term::Security => deliver.security != receive.security,
        Term::Shareholder => own.shareholder != receive.receiver.shareholder,
        Term::TradeDay => deliver.trade_day != receive.trade_day,
        Term::SettlementDay => deliver.settlement_day != receive.settlement_day,
        Term::Quantity => deliver.quantity != receive.quantity,
        Term::Currency => deliver.currency != receive.currency,
        Term::Deliverer => own.member != receive.deliverer.member,
        Term::Receiver => named.member != receive.receiver.member,
        Term::Nature => !same_nature(own.account_type, receive.receiver.account_type),
    };
    TERMS.into_iter().filter(differs).collect()
}

fn is_other_form(waiting: &Item, arrival: &Item) -> bool {
    matches!(
        (waiting.state, arrival.state),
        (State::Deliver { .. }, State::Receive { .. }) | (State::Receive { .. }, State::Deliver { .. })
    )
}

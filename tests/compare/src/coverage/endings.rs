//! What cancels and closes come upon.

use reference::book::{Book, Item, MOST_ITEMS, MOST_REQUESTS, Sender, State};
use reference::close::PAIR_AGE;
use reference::record::Order;
use reference::refusals::sender;

use super::Coverage;

pub const EVENTS: &[&str] = &[
    "first mark by the deliverer",
    "first mark by the receiver",
    "second mark by the deliverer",
    "second mark by the receiver",
    "cancel of a single refused",
    "second cancel by one sender refused",
    "cancel of another sender's reference refused",
    "cancel of an exchange trade's reference refused",
    "cancel of an unknown reference refused",
    "close deletes a single deliver",
    "close deletes a single receive",
    "close deletes an aged pair",
    "close deletes an aged pair with a mark",
    "close suspends an exchange trade",
    "close keeps a single of a later day",
    "close keeps a pair at settlement day + 9",
    "close keeps an exchange trade of a later day",
    "close drops a deliverer's mark",
    "close drops a receiver's mark",
    "close removes 64 items",
    "close with an empty list",
    "close deletes and suspends and keeps",
];

impl Coverage {
    /// An accepted cancel.
    pub(super) fn cancellation(&mut self, book: &Book, order: &Order) {
        let place = book.find_waiting(sender(order), order.reference).expect("an accepted cancel finds its item");
        let item = &book.waiting[place];
        let State::Pair { deliver, receive } = item.state else { unreachable!("only pairs are cancelled") };
        let by_deliverer = item.deliverer.member == order.debited_member;
        let other_marked = if by_deliverer { receive.marked } else { deliver.marked };
        self.event(match (other_marked, by_deliverer) {
            (false, true) => "first mark by the deliverer",
            (false, false) => "first mark by the receiver",
            (true, true) => "second mark by the deliverer",
            (true, false) => "second mark by the receiver",
        });
    }

    /// A cancel that is refused with 14 or 15.
    pub(super) fn refused_cancellation(&mut self, book: &Book, order: &Order) {
        if let Some(place) = book.find_waiting(sender(order), order.reference) {
            let single = book.waiting[place].is_single();
            let name = if single { "cancel of a single refused" } else { "second cancel by one sender refused" };
            return self.event(name);
        }
        let by_exchange = book.find_waiting(Sender::Exchange, order.reference).is_some();
        let by_other = (1..=64).any(|member| book.find_waiting(Sender::Member(member), order.reference).is_some());
        self.event(match (by_exchange, by_other) {
            (true, _) => "cancel of an exchange trade's reference refused",
            (false, true) => "cancel of another sender's reference refused",
            (false, false) => "cancel of an unknown reference refused",
        });
    }

    /// A close that is about to be made.
    pub(super) fn close(&mut self, book: &Book) {
        let today = book.day.number;
        if book.requests.len() == MOST_REQUESTS {
            self.event("close with sixteen requests");
        }
        let ends: Vec<bool> = book.waiting.iter().map(|item| self.at_close(item, today)).collect();
        match ends.iter().filter(|ends| **ends).count() {
            _ if ends.is_empty() => self.event("close with an empty list"),
            MOST_ITEMS => self.event("close removes 64 items"),
            _ => {}
        }
        let ended =
            |wanted: fn(&Item) -> bool| book.waiting.iter().zip(&ends).any(|(item, ends)| *ends && wanted(item));
        let suspends = ended(|item| matches!(item.state, State::ExchangeTrade { .. }));
        let deletes = ended(|item| !matches!(item.state, State::ExchangeTrade { .. }));
        if suspends && deletes && ends.contains(&false) {
            self.event("close deletes and suspends and keeps");
        }
    }

    /// Whether an item ends at the close of a day.
    fn at_close(&mut self, item: &Item, today: u64) -> bool {
        let come = item.settlement_day <= today;
        match item.state {
            State::Deliver { .. } if come => self.event("close deletes a single deliver"),
            State::Receive { .. } if come => self.event("close deletes a single receive"),
            State::Deliver { .. } | State::Receive { .. } => self.event("close keeps a single of a later day"),
            State::ExchangeTrade { .. } if come => self.event("close suspends an exchange trade"),
            State::ExchangeTrade { .. } => self.event("close keeps an exchange trade of a later day"),
            State::Pair { deliver, receive } => {
                return self.pair_at_close(item, today, deliver.marked, receive.marked);
            }
        }
        come
    }

    fn pair_at_close(&mut self, pair: &Item, today: u64, deliver_marked: bool, receive_marked: bool) -> bool {
        let marked = deliver_marked || receive_marked;
        let aged = today >= pair.settlement_day + PAIR_AGE;
        match (aged, marked) {
            (true, true) => self.event("close deletes an aged pair with a mark"),
            (true, false) => self.event("close deletes an aged pair"),
            _ => {}
        }
        if !aged && deliver_marked {
            self.event("close drops a deliverer's mark");
        }
        if !aged && receive_marked {
            self.event("close drops a receiver's mark");
        }
        if today + 1 == pair.settlement_day + PAIR_AGE {
            self.event("close keeps a pair at settlement day + 9");
        }
        aged
    }
}

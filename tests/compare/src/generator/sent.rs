//! Answers of cycles, and orders around the trades that are sent.

use reference::account_types::{BLOCK, PAPER, PLEDGE};
use reference::book::{Account, Item, State};
use reference::record::Order;
use reference::sent::{CONFIRMED, DECLINED, offered};

use super::draft::{Desk, credit, debit};

/// The forms that can take from an account which a trade touches.
const TAKING: [u64; 5] = [4, 5, 6, 8, 19];

impl Desk<'_> {
    pub fn answer_of_cycle(&mut self) -> Order {
        let quantity = if self.random.percent(70) { CONFIRMED } else { DECLINED };
        Order { form: 21, quantity, ..Order::default() }
    }

    fn sent_trade(&mut self) -> Option<Item> {
        let sent: Vec<Item> = self.book.waiting.iter().filter(|item| item.sent).copied().collect();
        self.random.maybe_pick(&sent)
    }

    /// An order that touches a sent trade, or what is around it in the list.
    pub fn around_sent(&mut self) -> Option<Order> {
        match self.random.below(20) {
            0..=10 => self.all_that_is_offered(),
            11 | 12 => self.deposit_for_sent(),
            13..=15 => {
                let order = self.cancel_of_sent(Order { form: 15, ..Order::default() });
                (order.reference > 0).then_some(order)
            }
            16 | 17 => self.cancel_of_marked(),
            _ => self.answer_to_single(),
        }
    }

    /// All that an account of a sent trade offers, or one share more.
    fn all_that_is_offered(&mut self) -> Option<Order> {
        let trade = self.sent_trade()?;
        let from = if self.random.percent(60) { trade.debited_account() } else { trade.credited_account() };
        let more = u64::from(self.random.percent(40));
        let quantity = (offered(self.book, &from) + more).max(1);
        let form = self.random.pick(&TAKING);
        let order = self.taking(form, &from)?;
        Some(Order { form, quantity, ..order })
    }

    /// An order of a form that takes shares from an account, if it can.
    fn taking(&mut self, form: u64, from: &Account) -> Option<Order> {
        let other = |pairs: &[(u64, u64)]| pairs.iter().find(|(free, _)| *free == from.account_type).map(|pair| pair.1);
        let within = |account_type| Account { account_type, ..*from };
        match form {
            4 => Some(debit(Order::default(), from)),
            5 => {
                let to = Account { member: from.member % 64 + 1, ..*from };
                Some(self.between(from, &to))
            }
            6 => other(&PLEDGE).map(|to| self.between(from, &within(to))),
            8 => other(&BLOCK).map(|to| self.between(from, &within(to))),
            _ => other(&PAPER).map(|_| {
                let reference = self.request_reference(from.member);
                debit(Order { reference, ..Order::default() }, from)
            }),
        }
    }

    /// A few shares of its own for an account of a sent trade.
    fn deposit_for_sent(&mut self) -> Option<Order> {
        let trade = self.sent_trade()?;
        let to = if self.random.percent(50) { trade.debited_account() } else { trade.credited_account() };
        Some(credit(Order { form: 3, quantity: self.random.between(1, 9), ..Order::default() }, &to))
    }

    /// A cancel of either half of a sent pair, whether its sender has marked it
    /// or not.
    pub fn cancel_of_sent(&mut self, order: Order) -> Order {
        self.cancel_where(order, |item| item.sent)
    }

    /// A cancel of a half-cancelled pair that is not sent, wherever it stands.
    fn cancel_of_marked(&mut self) -> Option<Order> {
        let marked = |item: &Item| match item.state {
            State::Pair { deliver, receive } => !item.sent && (deliver.marked || receive.marked),
            _ => false,
        };
        let order = self.cancel_where(Order { form: 15, ..Order::default() }, marked);
        (order.reference > 0).then_some(order)
    }

    fn cancel_where(&mut self, order: Order, wanted: impl Fn(&Item) -> bool) -> Order {
        let mut halves = Vec::new();
        for item in self.book.waiting.iter().filter(|item| wanted(item)) {
            if let State::Pair { deliver, receive } = item.state {
                halves.push((item.deliverer.member, deliver.reference));
                halves.push((item.receiver.member, receive.reference));
            }
        }
        match self.random.maybe_pick(&halves) {
            Some((debited_member, reference)) => Order { debited_member, reference, ..order },
            None => order,
        }
    }

    /// The other instruction of any single: the pair moves to the list's end.
    fn answer_to_single(&mut self) -> Option<Order> {
        let singles: Vec<Item> = self.book.waiting.iter().filter(|item| item.is_single()).copied().collect();
        let single = self.random.maybe_pick(&singles)?;
        Some(self.answer(&single, 0))
    }
}

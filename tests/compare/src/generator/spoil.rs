//! One fault put into an order on purpose, for the refusal that it aims at.
//! The reference says what the call is refused with in the end.

use reference::account_types::{BLOCK, FREE, PLEDGE};
use reference::book::{Account, CASH_CEILING, Item, Purse, Security, State};
use reference::record::Order;
use reference::refusals::{self, Refusal, Test, debited_account};
use reference::sent::offered;
use reference::windows::window;

use super::draft::{Desk, MOST, credit, debit};

/// Types that no table has, or not in that place.
const OTHER_TYPES: [u64; 20] = [1, 9, 11, 12, 13, 19, 21, 22, 50, 80, 90, 91, 100, 111, 112, 119, 121, 122, 150, 255];

/// Refusals that come from the state of the day, whatever an order says.
const OF_THE_DAY: [u64; 4] = [6, 7, 22, 23];

/// The refusals at which a fault in an order can aim, of those wanted.
pub fn aims(wanted: impl Fn(&Refusal) -> bool) -> Vec<u64> {
    let of_order = |refusal: &&Refusal| matches!(refusal.test, Test::Order(_)) && wanted(refusal);
    let numbers = refusals::TABLE.iter().filter(of_order).map(|refusal| refusal.number);
    numbers.filter(|number| !OF_THE_DAY.contains(number)).collect()
}

impl Desk<'_> {
    /// The order with a fault; as it was where the book has no room for it.
    pub fn spoil(&mut self, order: Order, refusal: u64) -> Order {
        match refusal {
            8 => self.past_minute(order),
            9 => self.minute_outside(order),
            10 => self.wrong_security(order),
            11 => self.wrong_type(order),
            12 => self.wrong_parties(order),
            13 => self.wrong_days(order),
            14 => self.wrong_reference(order),
            15 => self.wrong_cancellation(order),
            19 => self.wrong_request(order),
            20 => self.early_ending(order),
            21 => self.one_more_request(order),
            24 => self.cancel_of_sent(order),
            16 => self.too_much(order),
            17 => self.past_ceiling(order),
            18 => self.growth(order),
            _ => order,
        }
    }

    fn past_minute(&mut self, order: Order) -> Order {
        let last = self.book.day.last_minute;
        let back = if self.random.percent(50) { 1 } else { self.random.below(last + 1) };
        Order { minute: last.saturating_sub(back), ..order }
    }

    fn minute_outside(&mut self, order: Order) -> Order {
        let last = self.book.day.last_minute;
        let Some((from, to)) = window(&self.book.day, &order) else {
            return order;
        };
        let before = last < from && (to >= 1439 || self.random.percent(50));
        let minute =
            if before { self.random.between(last, from - 1) } else { self.random.between(to.min(1438) + 1, 1439) };
        Order { minute, ..order }
    }

    fn wrong_security(&mut self, order: Order) -> Order {
        let admitted: Vec<u64> = self.book.securities.iter().map(|security| security.code).collect();
        let known = self.random.maybe_pick(&admitted).unwrap_or(1);
        let security = if order.form == 2 { known } else { self.random.between(1, 16_383) };
        Order { security, ..order }
    }

    fn wrong_type(&mut self, order: Order) -> Order {
        let other = if self.random.percent(70) { self.random.pick(&OTHER_TYPES) } else { self.random.pick(&FREE) };
        let credited = match order.form {
            3 | 13 | 20 => true,
            4 | 12 | 19 => false,
            _ => self.random.percent(50),
        };
        if credited { Order { credited_type: other, ..order } } else { Order { debited_type: other, ..order } }
    }

    fn wrong_parties(&mut self, order: Order) -> Order {
        let shareholder = order.credited_shareholder % ((1 << 30) - 1) + 1;
        let one_member = Order { credited_member: order.debited_member, ..order };
        match (order.form, self.random.below(2)) {
            (5 | 14, 0) => Order {
                credited_type: order.debited_type,
                credited_shareholder: order.debited_shareholder,
                ..one_member
            },
            (6..=9, 0) => Order { credited_member: order.credited_member % 64 + 1, ..order },
            (12 | 13, 0) => one_member,
            (14, _) => order,
            _ => Order { credited_shareholder: shareholder, ..order },
        }
    }

    fn wrong_days(&mut self, order: Order) -> Order {
        let today = self.book.day.number;
        let other = match self.random.below(4) {
            0 => today + 1,
            1 => today.saturating_sub(1).max(1),
            2 => today + 21,
            _ => self.random.between(1, 65_535),
        };
        match (order.form, self.random.below(3)) {
            (5..=9, _) => Order { settlement_day: other, ..order },
            (12 | 13, 0) => Order { trade_day: self.random.between(today + 1, today + 2), ..order },
            (12 | 13, _) => Order { settlement_day: other, ..order },
            (14, 0) => Order { trade_day: other, settlement_day: (other + 3).min(65_535), ..order },
            (14, 1) => Order { trade_day: other, ..order },
            (14, _) => Order { settlement_day: order.settlement_day + self.random.between(0, 2) - 1, ..order },
            _ => order,
        }
    }

    /// The couples under which an item waits; the exchange is member 0.
    fn waiting_references(item: &Item) -> Vec<(u64, u64)> {
        match item.state {
            State::Deliver { reference } => vec![(item.deliverer.member, reference)],
            State::Receive { reference } => vec![(item.receiver.member, reference)],
            State::Pair { deliver, receive } => {
                vec![(item.deliverer.member, deliver.reference), (item.receiver.member, receive.reference)]
            }
            State::ExchangeTrade { reference } => vec![(0, reference)],
        }
    }

    fn wrong_reference(&mut self, order: Order) -> Order {
        let couples: Vec<(u64, u64)> = self.book.waiting.iter().flat_map(Self::waiting_references).collect();
        let exchange = order.form == 14;
        let fitting: Vec<(u64, u64)> =
            couples.iter().filter(|(sender, _)| (*sender == 0) == exchange).copied().collect();
        let Some((sender, reference)) = self.random.maybe_pick(&fitting) else {
            return order;
        };
        let other = if sender == 64 { 1 } else { sender + 1 };
        match order.form {
            12 => Order { debited_member: sender, credited_member: other, reference, ..order },
            13 => Order { credited_member: sender, debited_member: other, reference, ..order },
            14 => Order { reference, ..order },
            _ => self.unknown_reference(order, &couples),
        }
    }

    /// For a cancel: unknown, another sender's, an exchange trade's, or that of
    /// a request for paper.
    fn unknown_reference(&mut self, order: Order, couples: &[(u64, u64)]) -> Order {
        if self.random.percent(20) {
            return self.wrong_request(order);
        }
        let (_, reference) = self.random.pick(couples);
        let reference = if self.random.percent(30) { self.reference() } else { reference };
        Order { debited_member: self.member(), reference, ..order }
    }

    fn wrong_cancellation(&mut self, order: Order) -> Order {
        let mut couples = Vec::new();
        for item in &self.book.waiting {
            match item.state {
                State::Pair { deliver, receive } => {
                    let both = [(item.deliverer.member, deliver), (item.receiver.member, receive)];
                    let marked = both.iter().filter(|(_, half)| half.marked);
                    couples.extend(marked.map(|(sender, half)| (*sender, half.reference)));
                }
                State::ExchangeTrade { .. } => {}
                _ => couples.extend(Self::waiting_references(item)),
            }
        }
        match self.random.maybe_pick(&couples) {
            Some((debited_member, reference)) => Order { debited_member, reference, ..order },
            None => order,
        }
    }

    fn too_much(&mut self, order: Order) -> Order {
        let kept = match order.form {
            3 => self.book.security(order.security).map_or(0, |security: &Security| security.outside),
            4..=9 | 19 => offered(self.book, &debited_account(&order)),
            _ => self.book.cash_of(&Purse { member: order.debited_member, currency: order.currency }),
        };
        if kept >= MOST {
            return order;
        }
        let asked = if self.random.percent(60) { kept + 1 } else { self.random.between(kept + 1, MOST) };
        if order.form == 11 { Order { amount: asked, ..order } } else { Order { quantity: asked, ..order } }
    }

    fn past_ceiling(&mut self, order: Order) -> Order {
        let room = CASH_CEILING - self.book.cash_total(order.currency);
        if room >= MOST {
            return order;
        }
        let amount = if self.random.percent(60) { room + 1 } else { self.random.between(room + 1, MOST) };
        Order { amount, ..order }
    }

    /// An order that needs one more place in a table.
    fn growth(&mut self, order: Order) -> Order {
        match order.form {
            2 => Order { security: self.random.between(1, 16_383), ..order },
            3 => Order { credited_shareholder: self.random.between(1, (1 << 30) - 1), ..order },
            5 => self.part_of_account(order, |_, account| Account { member: account.member % 64 + 1, ..account }),
            6 => self.part_to_type(order, &PLEDGE),
            7 => self.part_to_type(order, &PLEDGE.map(|(free, pledged)| (pledged, free))),
            8 => self.part_to_type(order, &BLOCK),
            9 => self.part_to_type(order, &BLOCK.map(|(free, blocked)| (blocked, free))),
            12 | 13 => Order { quantity: self.random.between(1, MOST), ..order },
            19 => self.request_that_grows(order),
            20 => self.ending_that_grows(order),
            _ => order,
        }
    }

    fn part_to_type(&mut self, order: Order, pairs: &[(u64, u64)]) -> Order {
        let pairs = pairs.to_vec();
        self.part_of_account(order, move |_, account| {
            let other = pairs.iter().find(|(from, _)| *from == account.account_type);
            Account { account_type: other.map_or(0, |(_, to)| *to), ..account }
        })
    }

    /// Moves a part of a kept account to one that is not kept, if there is
    /// such a couple.
    fn part_of_account(&mut self, order: Order, other: impl Fn(&Order, Account) -> Account) -> Order {
        let mut couples = Vec::new();
        for (account, balance) in &self.book.accounts {
            let to = other(&order, *account);
            let restricted = order.form == 5 && !FREE.contains(&account.account_type);
            if *balance > 1 && to.account_type != 0 && !restricted && self.book.balance(&to) == 0 {
                couples.push((*account, to));
            }
        }
        let Some((from, to)) = self.random.maybe_pick(&couples) else {
            return order;
        };
        credit(debit(Order { quantity: 1, ..order }, &from), &to)
    }
}

//! Orders that the book is likely to accept. The minute is set later.

use reference::account_types::{BLOCK, FREE, PLEDGE, same_nature};
use reference::book::{Account, Book, CASH_CEILING, Item, Purse, State};
use reference::record::Order;
use reference::sent::offered;

use super::profile::Profile;
use crate::random::Random;

/// The largest quantity or amount of a record.
pub const MOST: u64 = (1 << 40) - 1;

/// The codes, members and shareholders that a list knows.
pub struct World {
    pub codes: Vec<u64>,
    pub members: Vec<u64>,
    pub shareholders: Vec<u64>,
}

impl World {
    /// The largest value of each field is always among them.
    pub fn draw(profile: &Profile, random: &mut Random) -> World {
        World {
            codes: distinct(profile.securities, 16_383, random),
            members: distinct(profile.members, 64, random),
            shareholders: distinct(profile.shareholders, (1 << 30) - 1, random),
        }
    }
}

fn distinct(count: usize, most: u64, random: &mut Random) -> Vec<u64> {
    let mut values = vec![most];
    while values.len() < count {
        let value = if count as u64 == most { values.len() as u64 } else { random.between(1, most) };
        if !values.contains(&value) {
            values.push(value);
        }
    }
    values
}

/// What an order is drawn from.
pub struct Desk<'a> {
    pub book: &'a Book,
    pub world: &'a World,
    pub profile: &'a Profile,
    pub random: &'a mut Random,
}

impl Desk<'_> {
    /// An order of a form, or none where the book has nothing for it.
    pub fn draft(&mut self, form: u64) -> Option<Order> {
        let order = match form {
            1 => Some(Order { quantity: 1 + u64::from(self.random.percent(self.profile.fridays)), ..Order::default() }),
            2 => self.admission(),
            3 => self.deposit(),
            4 => self.withdrawal(),
            5 => self.transfer(),
            6 => self.restriction(&PLEDGE),
            7 => self.restriction(&PLEDGE.map(|(free, pledged)| (pledged, free))),
            8 => self.restriction(&BLOCK),
            9 => self.restriction(&BLOCK.map(|(free, blocked)| (blocked, free))),
            10 => self.pay_in(),
            11 => self.pay_out(),
            12 | 13 => self.instruction(form),
            14 => self.exchange_trade(),
            15 => self.cancellation(),
            16 | 17 => Some(Order::default()),
            18 => Some(self.new_rate()),
            19 => self.request(),
            20 => self.ending(),
            21 => Some(self.answer_of_cycle()),
            _ => None,
        };
        order.map(|order| Order { form, ..order })
    }

    pub fn member(&mut self) -> u64 {
        self.random.pick(&self.world.members)
    }

    pub fn shareholder(&mut self) -> u64 {
        self.random.pick(&self.world.shareholders)
    }

    pub fn admitted_code(&mut self) -> Option<u64> {
        let codes: Vec<u64> = self.book.securities.iter().map(|security| security.code).collect();
        self.random.maybe_pick(&codes)
    }

    /// An account of an admitted security, kept or not.
    pub fn any_account(&mut self) -> Option<Account> {
        Some(Account {
            security: self.admitted_code()?,
            member: self.member(),
            account_type: self.random.pick(&FREE),
            shareholder: self.shareholder(),
        })
    }

    /// A kept account of one of the types.
    pub fn kept_account(&mut self, types: &[u64]) -> Option<Account> {
        let of_type = |account: &&Account| types.contains(&account.account_type);
        let count = self.book.accounts.keys().filter(of_type).count();
        if count == 0 {
            return None;
        }
        let place = self.random.place(count);
        self.book.accounts.keys().filter(of_type).nth(place).copied()
    }

    /// A part of a balance: often the whole, sometimes one.
    pub fn part(&mut self, balance: u64) -> u64 {
        match self.random.below(10) {
            _ if balance <= 1 => 1,
            0..=2 => balance.min(MOST),
            3 => 1,
            _ => self.random.between(1, balance.min(MOST)),
        }
    }

    fn size(&mut self) -> u64 {
        if self.random.percent(self.profile.large_values) {
            return if self.random.percent(50) { MOST } else { self.random.between(1, MOST) };
        }
        self.random.sized(20).max(1)
    }

    fn admission(&mut self) -> Option<Order> {
        let open: Vec<u64> =
            self.world.codes.iter().filter(|code| self.book.security(**code).is_none()).copied().collect();
        let security = self.random.maybe_pick(&open)?;
        let quantity = if self.random.percent(20) { self.size() } else { self.random.between(1_000, 1 << 24) };
        Some(Order { security, quantity, ..Order::default() })
    }

    fn deposit(&mut self) -> Option<Order> {
        let fresh = self.random.percent(if self.profile.shareholders > 10 { 80 } else { 35 });
        let kept = if fresh { None } else { self.kept_account(&FREE) };
        let to = match kept {
            Some(account) => account,
            None => self.any_account()?,
        };
        let outside = self.book.security(to.security)?.outside;
        let quantity = if self.random.percent(90) { self.part(outside / 16) } else { self.part(outside) };
        Some(credit(Order { quantity, ..Order::default() }, &to))
    }

    fn withdrawal(&mut self) -> Option<Order> {
        let from = self.kept_account(&FREE)?;
        let quantity = self.part(offered(self.book, &from));
        Some(debit(Order { quantity, ..Order::default() }, &from))
    }

    fn transfer(&mut self) -> Option<Order> {
        let from = self.kept_account(&FREE)?;
        let to = Account { member: self.member(), account_type: self.like(from.account_type), ..from };
        Some(self.between(&from, &to))
    }

    /// A free type of the same nature.
    pub fn like(&mut self, account_type: u64) -> u64 {
        let alike: Vec<u64> = FREE.into_iter().filter(|other| same_nature(*other, account_type)).collect();
        self.random.pick(&alike)
    }

    /// Pledge, release, block, unblock: a kept account and its other type.
    fn restriction(&mut self, pairs: &[(u64, u64)]) -> Option<Order> {
        let debited: Vec<u64> = pairs.iter().map(|(debited, _)| *debited).collect();
        let from = self.kept_account(&debited)?;
        let (_, account_type) = *pairs.iter().find(|(debited, _)| *debited == from.account_type)?;
        Some(self.between(&from, &Account { account_type, ..from }))
    }

    pub fn between(&mut self, from: &Account, to: &Account) -> Order {
        let quantity = self.part(offered(self.book, from));
        let settlement_day = self.book.day.number;
        credit(debit(Order { quantity, settlement_day, ..Order::default() }, from), to)
    }

    /// Near the ceiling, often exactly what is missing.
    fn pay_in(&mut self) -> Option<Order> {
        let currency = self.random.between(1, 2);
        let room = CASH_CEILING - self.book.cash_total(currency);
        let exact = room <= MOST && room > 0 && self.random.percent(50);
        let large = self.random.percent(self.profile.large_values);
        let amount = if exact {
            room
        } else if large {
            self.size()
        } else {
            self.random.sized(26).max(1)
        };
        Some(Order { currency, credited_member: self.member(), amount, ..Order::default() })
    }

    fn pay_out(&mut self) -> Option<Order> {
        let purses: Vec<(Purse, u64)> = self.book.cash.iter().map(|(purse, cash)| (*purse, *cash)).collect();
        let (purse, cash) = self.random.maybe_pick(&purses)?;
        let amount = self.part(cash);
        Some(Order { currency: purse.currency, debited_member: purse.member, amount, ..Order::default() })
    }

    /// A reference, sometimes the largest, sometimes one of few.
    pub fn reference(&mut self) -> u64 {
        match self.random.below(20) {
            0 => u64::from(u32::MAX),
            1..=8 => self.random.between(1, 30),
            _ => self.random.between(1, u64::from(u32::MAX)),
        }
    }

    fn instruction(&mut self, form: u64) -> Option<Order> {
        let singles: Vec<Item> = self
            .book
            .waiting
            .iter()
            .filter(|item| match item.state {
                State::Deliver { .. } => form == 13,
                State::Receive { .. } => form == 12,
                _ => false,
            })
            .copied()
            .collect();
        if self.random.percent(55)
            && let Some(single) = self.random.maybe_pick(&singles)
        {
            return Some(self.counterpart(&single));
        }
        self.new_instruction(form)
    }

    pub fn new_instruction(&mut self, form: u64) -> Option<Order> {
        let kept = if self.random.percent(70) { self.kept_account(&FREE) } else { None };
        let from = match kept {
            Some(account) => account,
            None => self.any_account()?,
        };
        let to = Account { member: self.member(), account_type: self.like(from.account_type), ..from };
        let today = self.book.day.number;
        let ahead = self.random.below(self.profile.days_ahead + 1);
        let trade_day = if self.random.percent(70) { today } else { self.random.between(1, today.max(1)) };
        let mut order = self.trade_between(&from, &to);
        order.trade_day = trade_day;
        order.settlement_day = today + ahead;
        if form == 12 {
            order.credited_type = 0;
        } else {
            order.debited_type = 0;
        }
        Some(order)
    }

    fn exchange_trade(&mut self) -> Option<Order> {
        let kept = if self.random.percent(75) { self.kept_account(&FREE) } else { None };
        let from = match kept {
            Some(account) => account,
            None => self.any_account()?,
        };
        let to = Account {
            member: if self.random.percent(15) { from.member } else { self.member() },
            account_type: self.like(from.account_type),
            shareholder: self.shareholder(),
            ..from
        };
        Some(self.trade_between(&from, &to))
    }

    /// Quantity and amount are near what seller and buyer have.
    pub fn trade_between(&mut self, from: &Account, to: &Account) -> Order {
        let currency = self.random.between(1, 2);
        let balance = self.book.balance(from);
        let cash = self.book.cash_of(&Purse { member: to.member, currency });
        let modest = self.random.percent(60);
        let share = |whole: u64| if modest { whole.div_ceil(8) } else { whole };
        let quantity = if balance > 0 { self.part(share(balance)) } else { self.size() };
        let amount = if cash > 0 && self.random.percent(80) { self.part(share(cash)) } else { self.size() };
        let order = Order {
            currency,
            quantity,
            amount,
            trade_day: self.book.day.number,
            settlement_day: self.book.day.number + 3,
            reference: self.reference(),
            ..Order::default()
        };
        credit(debit(order, from), to)
    }

    /// A half of a pair that its sender has not marked.
    fn cancellation(&mut self) -> Option<Order> {
        let mut halves = Vec::new();
        for item in &self.book.waiting {
            if let State::Pair { deliver, receive } = item.state {
                let both = [(item.deliverer.member, deliver), (item.receiver.member, receive)];
                halves.extend(both.into_iter().filter(|(_, half)| !half.marked));
            }
        }
        let (sender, half) = self.random.maybe_pick(&halves)?;
        Some(Order { debited_member: sender, reference: half.reference, ..Order::default() })
    }
}

pub fn debit(order: Order, account: &Account) -> Order {
    Order {
        security: account.security,
        debited_member: account.member,
        debited_type: account.account_type,
        debited_shareholder: account.shareholder,
        ..order
    }
}

pub fn credit(order: Order, account: &Account) -> Order {
    Order {
        security: account.security,
        credited_member: account.member,
        credited_type: account.account_type,
        credited_shareholder: account.shareholder,
        ..order
    }
}

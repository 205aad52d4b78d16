//! Groups of exchange trades of which a cycle drops some and takes some back.
//!
//! One trade asks for too much, so that what takes from the same place is
//! dropped with it. The others are a chain in which each takes what the one
//! behind it brings, so that they come back from the end, and some that take
//! the same a second time.

use reference::account_types::FREE;
use reference::book::{Account, MOST_ACCOUNTS_AND_ITEMS, MOST_ITEMS, Purse};
use reference::record::Order;

use super::draft::{Desk, MOST, credit};

/// Another account of the same member.
fn beside(account: Account) -> Account {
    Account { shareholder: account.shareholder % 9 + 1, ..account }
}

impl Desk<'_> {
    /// A few trades among places that have little.
    pub fn crowd(&mut self) -> Option<Vec<Order>> {
        match self.random.below(5) {
            0 | 1 => self.crowd_for_shares(),
            2 | 3 => self.crowd_for_cash(),
            _ => self.crowd_for_both(),
        }
    }

    /// A list of 64 trades that are all dropped and come back one a pass.
    pub fn full_chain(&mut self) -> Option<Vec<Order>> {
        if self.random.percent(30) { self.full_chain_of_shares() } else { self.full_chain_of_cash() }
    }

    /// At any place of a list, often at its head.
    fn put_in(&mut self, orders: &mut Vec<Order>, order: Order) {
        let place = if self.random.percent(40) { 0 } else { self.random.place(orders.len() + 1) };
        orders.insert(place, order);
    }

    fn cash_of(&self, account: &Account, currency: u64) -> u64 {
        self.book.cash_of(&Purse { member: account.member, currency })
    }

    /// A kept account and some beside it: of its own member, where cash is no
    /// matter, or of members that have some.
    fn accounts_from(&mut self, first: Account, currency: u64) -> Vec<Account> {
        let rich = |member: &u64| self.book.cash_of(&Purse { member: *member, currency }) > 20;
        let mut members: Vec<u64> = self.world.members.iter().copied().filter(rich).collect();
        if members.is_empty() || self.random.percent(40) {
            members = vec![first.member];
        }
        let mut accounts = vec![first, beside(first)];
        for _ in 0..self.random.between(1, 5) {
            let (member, account_type) = (self.random.pick(&members), self.like(first.account_type));
            let account = Account { member, account_type, shareholder: self.random.between(1, 9), ..first };
            if !accounts.contains(&account) {
                accounts.push(account);
            }
        }
        accounts
    }

    /// A trade between any two of some accounts.
    fn trade_among(&mut self, accounts: &[Account], template: Order) -> Order {
        let from = self.random.place(accounts.len());
        let to = (from + 1 + self.random.place(accounts.len() - 1)) % accounts.len();
        self.trade(template, accounts[from], accounts[to])
    }

    /// Each account sells on what comes to it; the first has it.
    fn crowd_for_shares(&mut self) -> Option<Vec<Order>> {
        let first = self.kept_account(&FREE)?;
        let balance = self.book.balance(&first).min(MOST / 2);
        let currency = self.random.between(1, 2);
        let (quantity, amount) = (self.part(balance), self.random.between(1, 3));
        let template = Order { currency, quantity, amount, ..self.trade_of_today() };
        let accounts = self.accounts_from(first, currency);
        let couples = accounts.windows(2).rev();
        let mut orders: Vec<Order> = couples.map(|couple| self.trade(template, couple[0], couple[1])).collect();
        for _ in 0..self.random.below(4) {
            let quantity = if self.random.percent(50) { quantity } else { self.part(balance) };
            let again = self.trade_among(&accounts, Order { quantity, ..template });
            self.put_in(&mut orders, again);
        }
        let quantity = balance + 1 + self.random.sized(10);
        let too_much = self.trade(Order { quantity, ..template }, first, accounts[1]);
        self.put_in(&mut orders, too_much);
        Some(orders)
    }

    /// Kept accounts of different members.
    fn sellers(&mut self) -> Vec<Account> {
        let mut sellers: Vec<Account> = Vec::new();
        for _ in 0..6 {
            if let Some(seller) = self.kept_account(&FREE)
                && sellers.iter().all(|other| other.member != seller.member)
            {
                sellers.push(seller);
            }
        }
        sellers
    }

    /// One share from a seller to a member.
    fn one_share(&mut self, currency: u64, amount: u64, from: Account, member: u64) -> Order {
        let to = Account { member, account_type: self.like(from.account_type), ..from };
        let to = if to == from { beside(from) } else { to };
        let template = Order { currency, quantity: 1, amount, ..self.trade_of_today() };
        self.trade(template, from, to)
    }

    /// Each member pays with what it is paid; the richest alone has it.
    fn crowd_for_cash(&mut self) -> Option<Vec<Order>> {
        let currency = self.random.between(1, 2);
        let mut sellers = self.sellers();
        sellers.sort_by_key(|seller| self.cash_of(seller, currency));
        let members: Vec<u64> = sellers.iter().map(|seller| seller.member).collect();
        let richest = sellers.pop()?;
        let cash = self.cash_of(&richest, currency).clamp(1, MOST / 2);
        let amount = if self.random.percent(70) { cash } else { self.part(cash) };
        let couples = sellers.iter().zip(&members[1..]);
        let mut orders: Vec<Order> =
            couples.map(|(from, member)| self.one_share(currency, amount, *from, *member)).collect();
        for _ in 0..self.random.below(4) {
            let (from, member) = (self.random.maybe_pick(&sellers)?, self.random.pick(&members));
            let amount = if self.random.percent(50) { amount } else { self.part(cash) };
            let again = self.one_share(currency, amount, from, member);
            self.put_in(&mut orders, again);
        }
        let (from, amount) = (self.random.maybe_pick(&sellers)?, cash + 1 + self.random.sized(10));
        let too_much = self.one_share(currency, amount, from, richest.member);
        self.put_in(&mut orders, too_much);
        Some(orders)
    }

    /// Trades of any parts of what an account and a few members have.
    fn crowd_for_both(&mut self) -> Option<Vec<Order>> {
        let first = self.kept_account(&FREE)?;
        let balance = self.book.balance(&first).min(MOST);
        let currency = self.random.between(1, 2);
        let accounts = self.accounts_from(first, currency);
        let cash = accounts.iter().map(|account| self.cash_of(account, currency)).max()?.clamp(1, MOST);
        let mut orders = Vec::new();
        for _ in 0..self.random.between(4, 12) {
            let (quantity, amount) = (self.part(balance), self.part(cash));
            let template = Order { currency, quantity, amount, ..self.trade_of_today() };
            orders.push(self.trade_among(&accounts, template));
        }
        Some(orders)
    }

    /// Whether so many more accounts fit beside a full list.
    fn has_room(&self, accounts: usize) -> bool {
        self.book.accounts.len() + accounts + MOST_ITEMS <= MOST_ACCOUNTS_AND_ITEMS
    }

    /// Within one member, from accounts that have nothing; the last trade takes
    /// all that a kept account has.
    fn full_chain_of_shares(&mut self) -> Option<Vec<Order>> {
        let last = self.kept_account(&FREE)?;
        let quantity = self.book.balance(&last);
        if quantity > MOST / 2 || !self.has_room(0) {
            return None;
        }
        let base = self.random.between(1_000, 1 << 29);
        let empty = (0..MOST_ITEMS as u64 - 1).map(|place| Account { shareholder: base + place, ..last });
        let accounts: Vec<Account> = empty.chain([last]).collect();
        let template = Order { currency: 1, quantity, amount: 5, ..self.trade_of_today() };
        let couples = accounts.windows(2);
        let mut orders: Vec<Order> = couples.map(|couple| self.trade(template, couple[1], couple[0])).collect();
        let too_much = self.trade(Order { quantity: MOST, ..template }, last, accounts[0]);
        self.put_in(&mut orders, too_much);
        Some(orders)
    }

    /// One share from each member to the next, which pays with what it is paid.
    /// The last one alone gets cash for it, more than the others are left.
    fn full_chain_of_cash(&mut self) -> Option<Vec<Order>> {
        let (security, currency, turn) = (self.admitted_code()?, self.random.between(1, 2), self.random.below(64));
        let party = |place| Account { security, member: 1 + (turn + place) % 64, account_type: 10, shareholder: 1 };
        let parties: Vec<Account> = (0..64).map(party).collect();
        let (amount, payer) = (1 << 30, parties[63].member);
        let mut orders = self.two_shares_each(&parties)?;
        orders.extend(self.pay_outs(&parties, currency)?);
        orders.push(Order { form: 10, currency, credited_member: payer, amount, ..Order::default() });
        let couples = parties.windows(2);
        let mut trades: Vec<Order> =
            couples.map(|couple| self.one_share(currency, amount, couple[0], couple[1].member)).collect();
        let too_much = self.one_share(currency, MOST, parties[0], payer);
        self.put_in(&mut trades, too_much);
        orders.extend(trades);
        Some(orders)
    }

    /// All the cash of those that have much, if it may leave in one order each.
    fn pay_outs(&self, parties: &[Account], currency: u64) -> Option<Vec<Order>> {
        let all: Vec<(u64, u64)> = parties.iter().map(|party| (party.member, self.cash_of(party, currency))).collect();
        if self.book.day.sent || all.iter().any(|(_, amount)| *amount > MOST) {
            return None;
        }
        let much = all.into_iter().filter(|(_, amount)| *amount > 1 << 28);
        let order = |(member, amount)| Order { form: 11, currency, debited_member: member, amount, ..Order::default() };
        Some(much.map(order).collect())
    }

    /// Deposits for those accounts of one security that have less, if there is
    /// room and so much is outside.
    fn two_shares_each(&self, accounts: &[Account]) -> Option<Vec<Order>> {
        let poor: Vec<&Account> = accounts.iter().filter(|account| self.book.balance(account) < 2).collect();
        let outside = self.book.security(accounts[0].security)?.outside;
        if !self.has_room(poor.len()) || outside < 2 * poor.len() as u64 {
            return None;
        }
        Some(poor.into_iter().map(|to| credit(Order { form: 3, quantity: 2, ..Order::default() }, to)).collect())
    }
}

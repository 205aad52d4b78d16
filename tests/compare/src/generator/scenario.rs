//! Groups of exchange trades that belong together: chains, rings and lists
//! of 64 trades.

use std::collections::VecDeque;

use reference::account_types::FREE;
use reference::book::{Account, MOST_ACCOUNTS_AND_ITEMS, MOST_ITEMS, Purse};
use reference::record::Order;

use super::draft::{Desk, credit, debit};

impl Desk<'_> {
    /// A prepared group, in the order in which it is sent.
    pub fn scenario(&mut self) -> VecDeque<Order> {
        let full = self.random.percent(self.profile.full_lists);
        let orders = match self.random.below(8) {
            _ if full && !self.book.waiting.is_empty() => None,
            kind if full => self.full_group(kind),
            0 | 1 => self.chain(),
            2 | 3 => self.ring(),
            _ => self.crowd(),
        };
        orders.unwrap_or_default().into()
    }

    /// A group that fills an empty list.
    fn full_group(&mut self, kind: u64) -> Option<Vec<Order>> {
        match kind {
            0..=2 => self.full_chain(),
            3..=5 => self.full_list(true),
            _ => self.full_list(false),
        }
    }

    /// Accounts of different members, by which shares can pass.
    fn row_of_accounts(&mut self, first: Account) -> Vec<Account> {
        let mut members: Vec<u64> =
            self.world.members.iter().filter(|member| **member != first.member).copied().collect();
        self.random.shuffle(&mut members);
        members.truncate(self.random.between(1, 5) as usize);
        let mut accounts = vec![first];
        for member in members {
            let account_type = self.like(first.account_type);
            accounts.push(Account { member, account_type, shareholder: self.shareholder(), ..first });
        }
        accounts
    }

    /// Each buyer sells on the same shares for the same amount; the last
    /// buyer may have the cash. Sent forwards, backwards or mixed.
    fn chain(&mut self) -> Option<Vec<Order>> {
        let first = self.kept_account(&FREE)?;
        let accounts = self.row_of_accounts(first);
        let currency = self.random.between(1, 2);
        let last = accounts[accounts.len() - 1];
        let cash = self.book.cash_of(&Purse { member: last.member, currency });
        let amount = if cash > 0 { self.part(cash) } else { self.random.between(1, 1000) };
        let quantity = self.part(self.book.balance(&first));
        let template = Order { currency, quantity, amount, ..self.trade_of_today() };
        let mut orders: Vec<Order> =
            accounts.windows(2).map(|couple| self.trade(template, couple[0], couple[1])).collect();
        match self.random.below(3) {
            0 => orders.reverse(),
            1 => self.random.shuffle(&mut orders),
            _ => {}
        }
        Some(orders)
    }

    /// A chain whose end sells to its start; nobody needs to have anything.
    fn ring(&mut self) -> Option<Vec<Order>> {
        let first = self.any_account()?;
        let mut accounts = self.row_of_accounts(first);
        accounts.push(first);
        let quantity = self.random.sized(30).max(1);
        let amount = self.random.sized(30).max(1);
        let template = Order { currency: self.random.between(1, 2), quantity, amount, ..self.trade_of_today() };
        Some(accounts.windows(2).map(|couple| self.trade(template, couple[0], couple[1])).collect())
    }

    /// 64 trades for an empty list: forth and back, so that all settle; or
    /// from accounts that have nothing, so that each is dropped.
    fn full_list(&mut self, settles: bool) -> Option<Vec<Order>> {
        if self.book.accounts.len() + MOST_ITEMS > MOST_ACCOUNTS_AND_ITEMS {
            return None;
        }
        let mut orders = Vec::new();
        while orders.len() < MOST_ITEMS {
            let first = self.any_account()?;
            let accounts = self.row_of_accounts(first);
            let second = accounts[1.min(accounts.len() - 1)];
            if second == first {
                return None;
            }
            let quantity = self.book.balance(&first) + self.random.sized(20).max(1);
            let template =
                Order { currency: 1, quantity, amount: self.random.sized(20).max(1), ..self.trade_of_today() };
            orders.push(self.trade(template, first, second));
            if settles {
                orders.push(self.trade(template, second, first));
            }
        }
        Some(orders)
    }

    pub fn trade_of_today(&self) -> Order {
        let today = self.book.day.number;
        Order { form: 14, trade_day: today, settlement_day: today + 3, ..Order::default() }
    }

    pub fn trade(&mut self, template: Order, from: Account, to: Account) -> Order {
        let reference = self.random.between(1, u64::from(u32::MAX));
        credit(debit(Order { reference, ..template }, &from), &to)
    }
}

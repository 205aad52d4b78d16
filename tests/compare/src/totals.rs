//! The totals of a list of calls, from what its accepted calls were given and
//! gave back alone, and what they say of the last book (RULES 12).

use std::collections::{BTreeMap, BTreeSet};

use reference::account_types::REQUESTED;
use reference::book::{Account, Book, Purse, Security};
use reference::call::{Answer, Counts};
use reference::forms::{self, Written};
use reference::record::{Order, unpack};
use reference::{cycle, sent, windows};

/// RULES 5.4.
const PLEDGED_OR_BLOCKED: [u64; 7] = [11, 21, 121, 12, 22, 112, 122];

#[derive(Clone, Default)]
pub struct Totals {
    deposits: BTreeMap<u64, i128>,
    withdrawals: BTreeMap<u64, i128>,
    /// Security and quantity of the last form 19, by its debited member and
    /// reference; it stays when the request ends.
    requested: BTreeMap<(u64, u64), (u64, i128)>,
    pay_ins: BTreeMap<u64, i128>,
    pay_outs: BTreeMap<u64, i128>,
    issued: BTreeMap<u64, i128>,
    put_in: BTreeMap<Account, i128>,
    released: BTreeMap<Account, i128>,
    posted_shares: BTreeMap<Account, i128>,
    posted_outside: BTreeMap<u64, i128>,
    posted_cash: BTreeMap<Purse, i128>,
    sides_taken_in: i128,
    sides_gone: i128,
}

fn add<K: Ord>(totals: &mut BTreeMap<K, i128>, key: K, value: i128) {
    *totals.entry(key).or_insert(0) += value;
}

/// What was never posted counts as 0, as does what the book does not have.
fn at<K: Ord>(totals: &BTreeMap<K, i128>, key: &K) -> i128 {
    totals.get(key).copied().unwrap_or(0)
}

impl Totals {
    /// Takes in one call of the list.
    pub fn take(&mut self, record: &[u8], answer: &Answer, area: &[u8]) {
        let Answer::Accepted(counts) = answer else {
            return;
        };
        let order = Order::from_fields(unpack(record));
        let form = forms::form(order.form).expect("an accepted record has a form");
        self.take_order(&order);
        self.sides_taken_in += i128::from(form.takes_in);
        self.sides_gone += sides_gone(counts);
        if form.rows == Written::Postings {
            area.chunks_exact(16).take(counts.rows as usize).for_each(|row| self.take_posting(row));
        }
    }

    fn take_order(&mut self, order: &Order) {
        let (quantity, amount) = (i128::from(order.quantity), i128::from(order.amount));
        match order.form {
            2 => add(&mut self.issued, order.security, quantity),
            3 => add(&mut self.deposits, order.security, quantity),
            4 => add(&mut self.withdrawals, order.security, quantity),
            6 | 8 => add(&mut self.put_in, credited(order), quantity),
            7 | 9 => add(&mut self.released, debited(order), quantity),
            10 => add(&mut self.pay_ins, order.currency, amount),
            11 => add(&mut self.pay_outs, order.currency, amount),
            19 => {
                self.requested.insert((order.debited_member, order.reference), (order.security, quantity));
            }
            20 if order.credited_type == 91 => self.take_leaving(order),
            _ => {}
        }
    }

    /// What leaves by a request is withdrawn, with the security and quantity
    /// of its form 19 (RULES 12.6).
    fn take_leaving(&mut self, order: &Order) {
        if let Some((security, quantity)) = self.requested.get(&(order.debited_member, order.reference)) {
            add(&mut self.withdrawals, *security, *quantity);
        }
    }

    /// A row counts for the place that it names; the issued count and the cash
    /// of the world outside are none (RULES 12.4).
    fn take_posting(&mut self, row: &[u8]) {
        let row = u128::from_be_bytes(row.try_into().expect("16 bytes"));
        let bits = |from_right: u32, width: u32| (row >> from_right) as u64 & ((1 << width) - 1);
        let (credit, cash, named) = (bits(127, 1) == 1, bits(126, 1) == 1, bits(112, 14));
        let (member, account_type, shareholder) = (bits(102, 10), bits(94, 8), bits(64, 30));
        let value = i128::from(row as u64);
        let change = if credit { value } else { -value };
        match (cash, member, account_type) {
            (true, 0, _) | (false, _, 90) => {}
            (true, _, _) => add(&mut self.posted_cash, Purse { member, currency: named }, change),
            (false, _, 91) => add(&mut self.posted_outside, named, change),
            (false, _, _) => {
                let account = Account { security: named, member, account_type, shareholder };
                add(&mut self.posted_shares, account, change);
            }
        }
    }

    /// Holds the totals against the last book; `told` is what the library says
    /// is held of a security.
    pub fn check(&self, book: &Book, told: impl Fn(u64) -> u64) -> Result<(), String> {
        self.check_custody(book, told)?;
        self.check_cash(book)?;
        self.check_accounts(book)?;
        check_sent(book)?;
        let waiting: i128 = book.waiting.iter().map(|item| i128::from(item.sides())).sum();
        same("sides taken in = gone + waiting", &"", self.sides_taken_in, self.sides_gone + waiting)
    }

    /// What is kept as held is the sum of the accounts, what the library tells,
    /// and deposits less withdrawals. Issued is that of form 2, and what is kept
    /// as held plus what is kept as outside.
    fn check_custody(&self, book: &Book, told: impl Fn(u64) -> u64) -> Result<(), String> {
        for code in &self.securities(book) {
            let kept = book.security(*code);
            let figure = |figure: fn(&Security) -> u64| i128::from(kept.map_or(0, figure));
            let issued = figure(|security| security.issued);
            let outside = figure(|security| security.outside);
            let held = figure(|security| security.held);
            same("held = sum of accounts", code, held, i128::from(book.sum_of_accounts(*code)))?;
            same("held = held by the library", code, held, i128::from(told(*code)))?;
            same("issued = quantity of form 2", code, issued, at(&self.issued, code))?;
            let deposited = at(&self.deposits, code) - at(&self.withdrawals, code);
            same("held = deposits - withdrawals", code, held, deposited)?;
            same("issued = held + outside", code, issued, held + outside)?;
            same("outside = posted rows of type 91", code, outside, at(&self.posted_outside, code))?;
        }
        Ok(())
    }

    /// The securities of the book, also those of accounts alone, and those of
    /// the calls. What is not admitted has only zeros.
    fn securities(&self, book: &Book) -> BTreeSet<u64> {
        let of_calls = [&self.issued, &self.deposits, &self.withdrawals, &self.posted_outside];
        let mut codes: BTreeSet<u64> = of_calls.into_iter().flat_map(BTreeMap::keys).copied().collect();
        codes.extend(book.securities.iter().map(|security| security.code));
        codes.extend(book.accounts.keys().map(|account| account.security));
        codes
    }

    fn check_cash(&self, book: &Book) -> Result<(), String> {
        for currency in [1, 2] {
            let paid = at(&self.pay_ins, &currency) - at(&self.pay_outs, &currency);
            same("cash = pay-ins - pay-outs", &currency, i128::from(book.cash_total(currency)), paid)?;
        }
        for purse in book.cash.keys().chain(self.posted_cash.keys()).collect::<BTreeSet<_>>() {
            same("cash = posted rows", purse, i128::from(book.cash_of(purse)), at(&self.posted_cash, purse))?;
        }
        Ok(())
    }

    fn check_accounts(&self, book: &Book) -> Result<(), String> {
        let seen = self.put_in.keys().chain(self.released.keys()).chain(self.posted_shares.keys());
        for account in book.accounts.keys().chain(seen).collect::<BTreeSet<_>>() {
            let balance = i128::from(book.balance(account));
            same("balance = posted rows", account, balance, at(&self.posted_shares, account))?;
            if PLEDGED_OR_BLOCKED.contains(&account.account_type) {
                let kept = at(&self.put_in, account) - at(&self.released, account);
                same("pledged or blocked = put in - released", account, balance, kept)?;
            }
        }
        check_requested(book)
    }
}

/// What stands in type 50 is what is asked for by the open requests, and each
/// of them was made by today.
fn check_requested(book: &Book) -> Result<(), String> {
    let mut requested = BTreeMap::new();
    for (name, request) in &book.requests {
        add(&mut requested, request.account(name.member), i128::from(request.quantity));
        same("request not after today", name, i128::from(request.day.max(book.day.number)), book.day.number.into())?;
    }
    let of_type = book.accounts.keys().filter(|account| account.account_type == REQUESTED);
    for account in of_type.chain(requested.keys()) {
        same("type 50 = open requests", account, i128::from(book.balance(account)), at(&requested, account))?;
    }
    Ok(())
}

/// A cycle is sent on an open day on which one has run, and fixes trades whose
/// day has come, over which nothing is short. Until it is answered, and while
/// one is still to run, the day can be finished.
fn check_sent(book: &Book) -> Result<(), String> {
    let (day, sent) = (&book.day, sent::trades(book));
    let holds = |law: &str, holds: bool| if holds { Ok(()) } else { Err(format!("{law}: {day:?}")) };
    holds("sent only on an open day after a cycle", !day.sent || day.open && day.cycles_run > 0)?;
    holds("trades are fixed only while a cycle is sent", day.sent || sent.is_empty())?;
    let due = |place: &usize| !book.waiting[*place].is_single() && book.waiting[*place].settlement_day <= day.number;
    holds("what is fixed is due", sent.iter().all(due))?;
    holds("nothing is short over what is fixed", cycle::short(book, &sent).is_empty())?;
    let to_run = day.open && windows::next_cycle_minute(day).is_some();
    let in_time = day.last_minute <= windows::end_of_work(day.kind);
    holds("the minute leaves time for cycles and answers", in_time || !(day.sent || to_run))
}

/// The sides that a call removed, in any way.
fn sides_gone(counts: &Counts) -> i128 {
    let all = [counts.settled, counts.cancelled, counts.deleted, counts.suspended];
    all.into_iter().map(i128::from).sum()
}

fn debited(order: &Order) -> Account {
    Account {
        security: order.security,
        member: order.debited_member,
        account_type: order.debited_type,
        shareholder: order.debited_shareholder,
    }
}

fn credited(order: &Order) -> Account {
    Account {
        security: order.security,
        member: order.credited_member,
        account_type: order.credited_type,
        shareholder: order.credited_shareholder,
    }
}

fn same<K: std::fmt::Debug>(law: &str, key: &K, left: i128, right: i128) -> Result<(), String> {
    if left == right { Ok(()) } else { Err(format!("{law}: {key:?} has {left} and {right}")) }
}

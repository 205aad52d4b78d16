//! What the book keeps (RULES 3).

use std::collections::BTreeMap;

use crate::account_types::REQUESTED;

pub const MOST_SECURITIES: usize = 32;
pub const MOST_ITEMS: usize = 64;
pub const MOST_ACCOUNTS_AND_ITEMS: usize = 256;
pub const MOST_REQUESTS: usize = 16;
/// After this day none opens.
pub const LAST_DAY: u64 = 60_000;
/// The most cash of one currency in the whole book, in hundredths.
pub const CASH_CEILING: u64 = 1_000_000_000_000_000;
/// The rate before any is set.
pub const FIRST_RATE: u64 = 150_750;

#[derive(Clone, Debug, Default, PartialEq, Eq)]
pub struct Day {
    pub number: u64,
    pub open: bool,
    /// 2 is a Friday, 1 another day; 0 before the first day.
    pub kind: u64,
    pub cycles_run: u64,
    pub last_minute: u64,
    /// A cycle is sent and not answered yet; it may have fixed no trade.
    pub sent: bool,
}

#[derive(Clone, Debug, PartialEq, Eq)]
pub struct Security {
    pub code: u64,
    pub issued: u64,
    pub outside: u64,
    /// What its accounts hold, kept so that nobody has to add them up.
    pub held: u64,
}

/// What names an account (RULES 1.15).
#[derive(Clone, Copy, Debug, PartialEq, Eq, PartialOrd, Ord)]
pub struct Account {
    pub security: u64,
    pub member: u64,
    pub account_type: u64,
    pub shareholder: u64,
}

/// What names a member's cash; currency 1 is USD, 2 is LBP.
#[derive(Clone, Copy, Debug, PartialEq, Eq, PartialOrd, Ord)]
pub struct Purse {
    pub member: u64,
    pub currency: u64,
}

/// One side of a waiting item; a single's other side has type 0.
#[derive(Clone, Copy, Debug, PartialEq, Eq)]
pub struct Side {
    pub member: u64,
    pub account_type: u64,
    pub shareholder: u64,
}

/// One instruction of a pair: its reference, and whether its sender has
/// asked to cancel.
#[derive(Clone, Copy, Debug, PartialEq, Eq)]
pub struct Half {
    pub reference: u64,
    pub marked: bool,
}

#[derive(Clone, Copy, Debug, PartialEq, Eq)]
pub enum State {
    Deliver { reference: u64 },
    Receive { reference: u64 },
    Pair { deliver: Half, receive: Half },
    ExchangeTrade { reference: u64 },
}

/// An item of the waiting list (RULES 1.19, 3.8).
#[derive(Clone, Copy, Debug, PartialEq, Eq)]
pub struct Item {
    pub security: u64,
    pub currency: u64,
    pub deliverer: Side,
    pub receiver: Side,
    pub quantity: u64,
    pub amount: u64,
    pub trade_day: u64,
    pub settlement_day: u64,
    pub state: State,
    /// Fixed by the cycle that is sent. The mark goes with the item, whose
    /// place in the list moves.
    pub sent: bool,
}

/// Who sent an instruction; all exchange trades come from the exchange.
#[derive(Clone, Copy, Debug, PartialEq, Eq)]
pub enum Sender {
    Member(u64),
    Exchange,
}

impl Item {
    pub fn is_single(&self) -> bool {
        matches!(self.state, State::Deliver { .. } | State::Receive { .. })
    }

    /// RULES 1.21.
    pub fn sides(&self) -> u64 {
        if self.is_single() { 1 } else { 2 }
    }

    /// The account that gives the shares of a pair or exchange trade.
    pub fn debited_account(&self) -> Account {
        self.account(&self.deliverer)
    }

    /// The account that gets the shares of a pair or exchange trade.
    pub fn credited_account(&self) -> Account {
        self.account(&self.receiver)
    }

    fn account(&self, side: &Side) -> Account {
        Account {
            security: self.security,
            member: side.member,
            account_type: side.account_type,
            shareholder: side.shareholder,
        }
    }

    /// The receiver pays.
    pub fn debited_purse(&self) -> Purse {
        Purse { member: self.receiver.member, currency: self.currency }
    }

    /// The deliverer is paid.
    pub fn credited_purse(&self) -> Purse {
        Purse { member: self.deliverer.member, currency: self.currency }
    }

    /// Whether the item waits under a sender's reference; a pair waits under
    /// those of both its senders.
    pub fn waits_under(&self, sender: Sender, reference: u64) -> bool {
        let deliverer = Sender::Member(self.deliverer.member);
        let receiver = Sender::Member(self.receiver.member);
        let wanted = (sender, reference);
        match self.state {
            State::Deliver { reference } => wanted == (deliverer, reference),
            State::Receive { reference } => wanted == (receiver, reference),
            State::Pair { deliver, receive } => {
                wanted == (deliverer, deliver.reference) || wanted == (receiver, receive.reference)
            }
            State::ExchangeTrade { reference } => wanted == (Sender::Exchange, reference),
        }
    }
}

/// What names an open request for paper: a reference is the member's own.
#[derive(Clone, Copy, Debug, PartialEq, Eq, PartialOrd, Ord)]
pub struct RequestName {
    pub member: u64,
    pub reference: u64,
}

/// An open request for paper (RULES 6.19).
#[derive(Clone, Copy, Debug, PartialEq, Eq)]
pub struct Request {
    pub security: u64,
    /// The type that the shares came from, which their account does not tell.
    pub account_type: u64,
    pub shareholder: u64,
    pub quantity: u64,
    /// The day on which it was made.
    pub day: u64,
}

impl Request {
    /// Where a member's requested shares stand.
    pub fn account(&self, member: u64) -> Account {
        Account { security: self.security, member, account_type: REQUESTED, shareholder: self.shareholder }
    }
}

#[derive(Clone, Debug, PartialEq, Eq)]
pub struct Book {
    pub day: Day,
    /// In order of admission.
    pub securities: Vec<Security>,
    /// Non-zero balances only.
    pub accounts: BTreeMap<Account, u64>,
    /// Hundredths; an absent purse is empty.
    pub cash: BTreeMap<Purse, u64>,
    /// The earliest arrival first.
    pub waiting: Vec<Item>,
    /// Hundredths of LBP for one USD (RULES 3.14).
    pub rate: u64,
    /// The requests for paper that are open; no item of the waiting list, and
    /// no account.
    pub requests: BTreeMap<RequestName, Request>,
}

impl Book {
    /// RULES 3.2.
    pub fn fresh() -> Book {
        Book {
            day: Day::default(),
            securities: Vec::new(),
            accounts: BTreeMap::new(),
            cash: BTreeMap::new(),
            waiting: Vec::new(),
            rate: FIRST_RATE,
            requests: BTreeMap::new(),
        }
    }

    pub fn security(&self, code: u64) -> Option<&Security> {
        self.securities.iter().find(|security| security.code == code)
    }

    /// An admitted security, to change it.
    pub fn admitted(&mut self, code: u64) -> &mut Security {
        self.securities.iter_mut().find(|security| security.code == code).expect("the security is admitted")
    }

    pub fn balance(&self, account: &Account) -> u64 {
        self.accounts.get(account).copied().unwrap_or(0)
    }

    /// An account of balance 0 is not kept.
    pub fn set_balance(&mut self, account: Account, balance: u64) {
        if balance == 0 {
            self.accounts.remove(&account);
        } else {
            self.accounts.insert(account, balance);
        }
    }

    pub fn cash_of(&self, purse: &Purse) -> u64 {
        self.cash.get(purse).copied().unwrap_or(0)
    }

    pub fn set_cash(&mut self, purse: Purse, amount: u64) {
        if amount == 0 {
            self.cash.remove(&purse);
        } else {
            self.cash.insert(purse, amount);
        }
    }

    /// All members' cash in a currency.
    pub fn cash_total(&self, currency: u64) -> u64 {
        self.cash.iter().filter(|(purse, _)| purse.currency == currency).map(|(_, amount)| amount).sum()
    }

    /// The figure that is kept with the security (RULES 3.19).
    pub fn held(&self, security: u64) -> u64 {
        self.security(security).map_or(0, |security| security.held)
    }

    /// What `held` must be (RULES 1.17).
    pub fn sum_of_accounts(&self, security: u64) -> u64 {
        let of_security = |account: &Account| account.security == security;
        self.accounts.iter().filter(|(account, _)| of_security(account)).map(|(_, balance)| balance).sum()
    }

    /// The waiting item that a sender's reference names.
    pub fn find_waiting(&self, sender: Sender, reference: u64) -> Option<usize> {
        self.waiting.iter().position(|item| item.waits_under(sender, reference))
    }
}

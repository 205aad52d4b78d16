//! Rows of 16 bytes, one behind the other from the first byte of the lent area
//! on (RULES 11).

use crate::account_types::{OUTSIDE, TOTAL_ISSUED};
use crate::book::{Account, Item, Purse, State};

pub const ROW_BYTES: usize = 16;

/// Writes rows and counts them; what lies behind them is kept.
pub struct Rows<'a> {
    area: &'a mut [u8],
    written: usize,
}

/// One end of a movement: what a posting row names besides its value.
struct Place {
    cash: bool,
    security_or_currency: u64,
    member: u64,
    account_type: u64,
    shareholder: u64,
}

/// Why an item has left (RULES 11.9).
#[derive(Clone, Copy)]
pub enum Notice {
    Single = 1,
    AgedPair = 2,
    Suspended = 3,
    Cancelled = 4,
}

impl<'a> Rows<'a> {
    pub fn new(area: &'a mut [u8]) -> Rows<'a> {
        Rows { area, written: 0 }
    }

    pub fn count(&self) -> u64 {
        self.written as u64
    }

    fn push(&mut self, row: u128) {
        let start = self.written * ROW_BYTES;
        self.area[start..start + ROW_BYTES].copy_from_slice(&row.to_be_bytes());
        self.written += 1;
    }

    /// RULES 11.4.
    fn movement(&mut self, from: Place, to: Place, value: u64) {
        self.push(posting_row(false, &from, value));
        self.push(posting_row(true, &to, value));
    }

    pub fn admission(&mut self, security: u64, quantity: u64) {
        self.movement(total(security, TOTAL_ISSUED), total(security, OUTSIDE), quantity);
    }

    pub fn deposit(&mut self, account: &Account, quantity: u64) {
        self.movement(total(account.security, OUTSIDE), shares(account), quantity);
    }

    pub fn withdrawal(&mut self, account: &Account, quantity: u64) {
        self.movement(shares(account), total(account.security, OUTSIDE), quantity);
    }

    pub fn share_movement(&mut self, from: &Account, to: &Account, quantity: u64) {
        self.movement(shares(from), shares(to), quantity);
    }

    pub fn cash_movement(&mut self, from: &Purse, to: &Purse, amount: u64) {
        self.movement(cash(from), cash(to), amount);
    }

    /// RULES 11.9, 11.10; the last 40 bits are zero.
    pub fn notice(&mut self, kind: Notice, item: &Item) {
        let (deliver, receive) = match item.state {
            State::Deliver { reference } => (reference, 0),
            State::Receive { reference } => (0, reference),
            State::Pair { deliver, receive } => (deliver.reference, receive.reference),
            State::ExchangeTrade { reference } => (reference, reference),
        };
        let mut row = kind as u128;
        row = row << 10 | u128::from(item.deliverer.member);
        row = row << 10 | u128::from(item.receiver.member);
        row = row << 32 | u128::from(deliver);
        row = row << 32 | u128::from(receive);
        self.push(row << 40);
    }
}

/// The fields of RULES 11.4, each behind the other.
fn posting_row(credit: bool, place: &Place, value: u64) -> u128 {
    let mut row = u128::from(credit);
    row = row << 1 | u128::from(place.cash);
    row = row << 14 | u128::from(place.security_or_currency);
    row = row << 10 | u128::from(place.member);
    row = row << 8 | u128::from(place.account_type);
    row = row << 30 | u128::from(place.shareholder);
    row << 64 | u128::from(value)
}

/// The issued or the outside count of a security (RULES 11.6).
fn total(security: u64, account_type: u64) -> Place {
    Place { cash: false, security_or_currency: security, member: 0, account_type, shareholder: 0 }
}

fn shares(account: &Account) -> Place {
    Place {
        cash: false,
        security_or_currency: account.security,
        member: account.member,
        account_type: account.account_type,
        shareholder: account.shareholder,
    }
}

/// RULES 11.7.
fn cash(purse: &Purse) -> Place {
    Place { cash: true, security_or_currency: purse.currency, member: purse.member, account_type: 0, shareholder: 0 }
}

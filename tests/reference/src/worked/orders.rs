//! The orders of the worked lists. Those that name a security name 101.

use crate::record::Order;

/// Member, type and shareholder.
pub type Party = (u64, u64, u64);

pub fn form(form: u64, minute: u64) -> Order {
    Order { form, minute, ..Order::default() }
}

pub fn open(kind: u64, minute: u64) -> Order {
    Order { quantity: kind, ..form(1, minute) }
}

/// The answer of a cycle: 1 confirms it, 2 declines it.
pub fn answer(minute: u64, quantity: u64) -> Order {
    Order { quantity, ..form(21, minute) }
}

/// Shares from a party.
pub fn debit((member, account_type, shareholder): Party, quantity: u64, order: Order) -> Order {
    Order {
        security: 101,
        debited_member: member,
        debited_type: account_type,
        debited_shareholder: shareholder,
        quantity,
        ..order
    }
}

/// Shares to a party.
pub fn credit((member, account_type, shareholder): Party, quantity: u64, order: Order) -> Order {
    Order {
        security: 101,
        credited_member: member,
        credited_type: account_type,
        credited_shareholder: shareholder,
        quantity,
        ..order
    }
}

pub fn request(minute: u64, quantity: u64, from: Party, reference: u64) -> Order {
    Order { reference, ..debit(from, quantity, form(19, minute)) }
}

pub fn ending(minute: u64, sender: u64, into: u64, reference: u64) -> Order {
    Order { debited_member: sender, credited_type: into, reference, ..form(20, minute) }
}

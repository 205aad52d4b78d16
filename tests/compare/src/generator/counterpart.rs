//! Instructions that answer a waiting single, or miss it by one term.

use reference::book::{Item, State};
use reference::matching::tolerance;
use reference::record::Order;

use super::draft::{Desk, MOST};

impl Desk<'_> {
    /// The other instruction of a waiting single, its amount often at an end
    /// of the tolerance or just past it.
    pub fn counterpart(&mut self, single: &Item) -> Order {
        let most = tolerance(self.book.rate, single.currency);
        let difference = match self.random.below(20) {
            0..=7 => 0,
            8..=10 => most as i64,
            11 => most as i64 + 1,
            12 => -1,
            _ => self.random.between(0, most) as i64,
        };
        let order = self.answer(single, difference);
        if self.random.percent(15) { self.with_other_term(order) } else { order }
    }

    /// The other instruction of a single. The receive is this much above the
    /// deliver, as far as amounts go.
    pub fn answer(&mut self, single: &Item, difference: i64) -> Order {
        let delivers = matches!(single.state, State::Deliver { .. });
        let (form, sign) = if delivers { (13, 1) } else { (12, -1) };
        let amount = (single.amount as i64 + sign * difference).clamp(1, MOST as i64) as u64;
        let own_type = self.like(single.deliverer.account_type.max(single.receiver.account_type));
        Order { amount, reference: self.reference(), ..terms_of(single, form, own_type) }
    }

    /// The same instruction with one of the terms of matching changed.
    fn with_other_term(&mut self, order: Order) -> Order {
        let shareholder = order.debited_shareholder % ((1 << 30) - 1) + 1;
        let other_nature = |account_type: u64| if account_type == 0 { 0 } else { (account_type + 100) % 200 };
        match self.random.below(9) {
            0 => Order { security: self.admitted_code().unwrap_or(order.security), ..order },
            1 => Order { debited_shareholder: shareholder, credited_shareholder: shareholder, ..order },
            2 => Order { trade_day: order.trade_day.saturating_sub(1).max(1), ..order },
            3 => Order { settlement_day: order.settlement_day + 1, ..order },
            4 => Order { quantity: order.quantity % MOST + 1, ..order },
            5 => Order { currency: 3 - order.currency, ..order },
            6 => Order { debited_member: self.member(), ..order },
            7 => Order { credited_member: self.member(), ..order },
            _ => Order {
                debited_type: other_nature(order.debited_type),
                credited_type: other_nature(order.credited_type),
                ..order
            },
        }
    }
}

/// An instruction with a waiting single's terms and its own type.
fn terms_of(single: &Item, form: u64, own_type: u64) -> Order {
    Order {
        form,
        security: single.security,
        currency: single.currency,
        debited_member: single.deliverer.member,
        debited_type: if form == 12 { own_type } else { 0 },
        credited_member: single.receiver.member,
        credited_type: if form == 13 { own_type } else { 0 },
        debited_shareholder: single.deliverer.shareholder,
        credited_shareholder: single.receiver.shareholder,
        quantity: single.quantity,
        trade_day: single.trade_day,
        settlement_day: single.settlement_day,
        ..Order::default()
    }
}

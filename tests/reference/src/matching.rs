//! Deliver and receive instructions: how they wait and how they pair (RULES 8).

use crate::account_types::same_nature;
use crate::book::{Book, Half, Item, Side, State};
use crate::call::Counts;
use crate::record::Order;
use crate::rows::Rows;

/// By how much a receive may pass the deliver's amount: twenty dollars, which
/// are pounds at a rate (RULES 8.4).
pub fn tolerance(rate: u64, currency: u64) -> u64 {
    if currency == 1 { 2_000 } else { 20 * rate }
}

/// The place of the first single that an arrival pairs with (RULES 8.2), at
/// the rate that is in the book now (RULES 8.9).
pub fn partner(book: &Book, order: &Order) -> Option<usize> {
    let arrival = waiting_item(order);
    book.waiting.iter().position(|waiting| match (waiting.state, arrival.state) {
        (State::Deliver { .. }, State::Receive { .. }) => fit(book.rate, waiting, &arrival),
        (State::Receive { .. }, State::Deliver { .. }) => fit(book.rate, &arrival, waiting),
        _ => false,
    })
}

fn fit(rate: u64, deliver: &Item, receive: &Item) -> bool {
    same_terms(deliver, receive) && amounts_agree(rate, deliver, receive)
}

/// The receive never offers less than the deliver asks.
pub fn amounts_agree(rate: u64, deliver: &Item, receive: &Item) -> bool {
    receive.amount >= deliver.amount && receive.amount - deliver.amount <= tolerance(rate, deliver.currency)
}

/// All of RULES 8.3 but the amounts; the shareholder of an instruction is the
/// same on both of its sides.
pub fn same_terms(deliver: &Item, receive: &Item) -> bool {
    deliver.security == receive.security
        && deliver.deliverer.shareholder == receive.receiver.shareholder
        && deliver.trade_day == receive.trade_day
        && deliver.settlement_day == receive.settlement_day
        && deliver.quantity == receive.quantity
        && deliver.currency == receive.currency
        && deliver.deliverer.member == receive.deliverer.member
        && deliver.receiver.member == receive.receiver.member
        && same_nature(deliver.deliverer.account_type, receive.receiver.account_type)
}

/// A pair takes its single's place at the end of the list (RULES 8.7); what
/// finds no partner, and an exchange trade, goes last as it is.
pub fn arrive(book: &mut Book, order: &Order, _: &mut Rows) -> Counts {
    let arrival = waiting_item(order);
    let item = match partner(book, order) {
        None => arrival,
        Some(place) => {
            let earlier = book.waiting.remove(place);
            match arrival.state {
                State::Deliver { .. } => pair(&arrival, &earlier),
                _ => pair(&earlier, &arrival),
            }
        }
    };
    book.waiting.push(item);
    Counts::default()
}

fn pair(deliver: &Item, receive: &Item) -> Item {
    Item {
        deliverer: deliver.deliverer,
        receiver: receive.receiver,
        amount: receive.amount,
        state: State::Pair { deliver: half(deliver), receive: half(receive) },
        ..*deliver
    }
}

fn half(single: &Item) -> Half {
    let reference = match single.state {
        State::Deliver { reference } | State::Receive { reference } => reference,
        _ => unreachable!("only singles pair"),
    };
    Half { reference, marked: false }
}

/// The item that an order of form 12, 13 or 14 would be by itself.
pub fn waiting_item(order: &Order) -> Item {
    let reference = order.reference;
    Item {
        security: order.security,
        currency: order.currency,
        deliverer: Side {
            member: order.debited_member,
            account_type: order.debited_type,
            shareholder: order.debited_shareholder,
        },
        receiver: Side {
            member: order.credited_member,
            account_type: order.credited_type,
            shareholder: order.credited_shareholder,
        },
        quantity: order.quantity,
        amount: order.amount,
        trade_day: order.trade_day,
        settlement_day: order.settlement_day,
        state: match order.form {
            12 => State::Deliver { reference },
            13 => State::Receive { reference },
            _ => State::ExchangeTrade { reference },
        },
        sent: false,
    }
}

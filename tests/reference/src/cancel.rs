//! Cancellation of a pair by both of its senders (RULES 10).

use crate::book::{Book, State};
use crate::call::Counts;
use crate::record::Order;
use crate::refusals::sender;
use crate::rows::{Notice, Rows};

pub fn cancel(book: &mut Book, order: &Order, rows: &mut Rows) -> Counts {
    let place = book.find_waiting(sender(order), order.reference).expect("refusal 14 has passed");
    let item = &mut book.waiting[place];
    let by_deliverer = item.deliverer.member == order.debited_member;
    let State::Pair { deliver, receive } = &mut item.state else {
        unreachable!("refusal 15 has passed");
    };
    let half = if by_deliverer { &mut *deliver } else { &mut *receive };
    half.marked = true;
    if !(deliver.marked && receive.marked) {
        // RULES 10.2.
        return Counts::default();
    }
    let removed = book.waiting.remove(place);
    rows.notice(Notice::Cancelled, &removed);
    Counts { cancelled: removed.sides(), ..Counts::default() }
}

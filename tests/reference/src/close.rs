//! Close of the day (RULES 4.12 to 4.14).

use crate::book::{Book, Half, Item, State};
use crate::call::Counts;
use crate::record::Order;
use crate::rows::{Notice, Rows};

/// A pair that many days past its settlement day is given up.
pub const PAIR_AGE: u64 = 10;

/// One walk through the list; what stays loses its marks.
pub fn close(book: &mut Book, _: &Order, rows: &mut Rows) -> Counts {
    let mut counts = Counts::default();
    let mut kept = Vec::new();
    for item in book.waiting.drain(..) {
        let Some(notice) = ending(&item, book.day.number) else {
            kept.push(without_marks(item));
            continue;
        };
        rows.notice(notice, &item);
        match notice {
            Notice::Suspended => counts.suspended += item.sides(),
            _ => counts.deleted += item.sides(),
        }
    }
    book.waiting = kept;
    book.day.open = false;
    counts
}

/// The notice with which an item leaves, if it does.
fn ending(item: &Item, today: u64) -> Option<Notice> {
    let day = item.settlement_day;
    match item.state {
        State::Deliver { .. } | State::Receive { .. } => (day == today).then_some(Notice::Single),
        State::Pair { .. } => (day + PAIR_AGE == today).then_some(Notice::AgedPair),
        State::ExchangeTrade { .. } => (day <= today).then_some(Notice::Suspended),
    }
}

fn without_marks(mut item: Item) -> Item {
    if let State::Pair { deliver, receive } = item.state {
        let unmarked = |half: Half| Half { marked: false, ..half };
        item.state = State::Pair { deliver: unmarked(deliver), receive: unmarked(receive) };
    }
    item
}

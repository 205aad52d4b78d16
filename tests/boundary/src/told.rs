//! What the boundary's functions tell of a book, in the order of depository.h.

use reference::book::{Book, RequestName, State};

use crate::{DAY_WORDS, ITEM_TOLD_WORDS, REQUEST_WORDS, SECURITY_WORDS, SIZE_WORDS};

/// Number, open, kind, cycles run, last minute, and whether a cycle is sent.
pub fn day_told(book: &Book) -> [u64; DAY_WORDS] {
    let day = &book.day;
    [day.number, u64::from(day.open), day.kind, day.cycles_run, day.last_minute, u64::from(day.sent)]
}

/// The waiting item at a place, if there is one; its state is told in another
/// number than the one that stands in the book.
pub fn item_told(book: &Book, place: usize) -> Option<[u64; ITEM_TOLD_WORDS]> {
    let item = book.waiting.get(place)?;
    let (state, reference, second, marks) = match item.state {
        State::Deliver { reference } => (1, reference, 0, [false, false]),
        State::Receive { reference } => (2, reference, 0, [false, false]),
        State::Pair { deliver, receive } => (3, deliver.reference, receive.reference, [deliver.marked, receive.marked]),
        State::ExchangeTrade { reference } => (4, reference, 0, [false, false]),
    };
    Some([
        item.security,
        item.currency,
        item.deliverer.member,
        item.deliverer.account_type,
        item.deliverer.shareholder,
        item.receiver.member,
        item.receiver.account_type,
        item.receiver.shareholder,
        item.quantity,
        item.amount,
        item.trade_day,
        item.settlement_day,
        state,
        reference,
        second,
        u64::from(marks[0]),
        u64::from(marks[1]),
        u64::from(item.sent),
    ])
}

/// Securities, accounts, items and open requests.
pub fn sizes_told(book: &Book) -> [u64; SIZE_WORDS] {
    [book.securities.len(), book.accounts.len(), book.waiting.len(), book.requests.len()].map(|size| size as u64)
}

/// Code, issued, held and outside of the security at a place, if there is one.
pub fn security_told(book: &Book, place: usize) -> Option<[u64; SECURITY_WORDS]> {
    let security = book.securities.get(place)?;
    Some([security.code, security.issued, security.held, security.outside])
}

/// Security, type, shareholder, quantity and day; all 0 where no such request
/// is open.
pub fn request_told(book: &Book, member: u64, reference: u64) -> [u64; REQUEST_WORDS] {
    let Some(request) = book.requests.get(&RequestName { member, reference }) else {
        return [0; REQUEST_WORDS];
    };
    [request.security, request.account_type, request.shareholder, request.quantity, request.day]
}

//! From the plain book to words.

use reference::book::{Account, Book, Item, Request, RequestName, State};

use crate::*;

/// Writes a book; the free words are left as they are.
pub fn encode(book: &Book, words: &mut [u64]) {
    assert_eq!(words.len(), BOOK_WORDS);
    let day = &book.day;
    let day_words = [day.number, u64::from(day.open), day.kind, day.cycles_run, day.last_minute, u64::from(day.sent)];
    words[DAY..DAY + day_words.len()].copy_from_slice(&day_words);
    securities(book, &mut words[SECURITIES..ACCOUNTS]);
    accounts(book, &mut words[ACCOUNTS..CASH]);
    cash(book, &mut words[CASH..WAITING]);
    waiting(book, &mut words[WAITING..RATE]);
    words[RATE] = book.rate;
    requests(book, &mut words[REQUESTS..]);
}

fn securities(book: &Book, words: &mut [u64]) {
    words[0] = book.securities.len() as u64;
    for (place, security) in book.securities.iter().enumerate() {
        words[1 + place] = security.code;
        words[1 + SECURITY_ROOM + place] = security.issued;
        words[1 + 2 * SECURITY_ROOM + place] = security.outside;
        words[1 + 3 * SECURITY_ROOM + place] = security.held;
    }
}

fn accounts(book: &Book, words: &mut [u64]) {
    words[0] = book.accounts.len() as u64;
    for (place, (account, balance)) in book.accounts.iter().enumerate() {
        words[1 + place] = key(account);
        words[1 + ACCOUNT_ROOM + place] = *balance;
    }
}

fn key(account: &Account) -> u64 {
    account.security << 48 | account.member << 38 | account.account_type << 30 | account.shareholder
}

fn cash(book: &Book, words: &mut [u64]) {
    words.fill(0);
    for (purse, amount) in &book.cash {
        words[(2 * (purse.member - 1) + purse.currency - 1) as usize] = *amount;
    }
}

fn waiting(book: &Book, words: &mut [u64]) {
    words[0] = book.waiting.len() as u64;
    for (item, row) in book.waiting.iter().zip(words[1..].chunks_mut(ITEM_WORDS)) {
        row.copy_from_slice(&item_words(item));
    }
}

fn item_words(item: &Item) -> [u64; ITEM_WORDS] {
    let (state, first, second, marks) = match item.state {
        State::Deliver { reference } => (SINGLE, reference, 0, DELIVER_MARK),
        State::Receive { reference } => (SINGLE, reference, 0, 0),
        State::Pair { deliver, receive } => {
            let marks = mark(deliver.marked, DELIVER_MARK) + mark(receive.marked, RECEIVE_MARK);
            (PAIR, deliver.reference, receive.reference, marks)
        }
        State::ExchangeTrade { reference } => (EXCHANGE_TRADE, reference, 0, 0),
    };
    [
        item.security,
        item.currency,
        item.deliverer.member,
        item.deliverer.account_type,
        item.deliverer.shareholder,
        item.receiver.member,
        item.receiver.account_type,
        item.receiver.shareholder,
        item.quantity,
        item.amount,
        item.trade_day,
        item.settlement_day,
        state,
        first,
        second,
        marks + mark(item.sent, SENT_MARK),
    ]
}

fn mark(holds: bool, mark: u64) -> u64 {
    if holds { mark } else { 0 }
}

fn requests(book: &Book, words: &mut [u64]) {
    words[0] = book.requests.len() as u64;
    for (place, (name, request)) in book.requests.iter().enumerate() {
        for (table, word) in request_words(name, request).into_iter().enumerate() {
            words[1 + table * REQUEST_ROOM + place] = word;
        }
    }
}

fn request_words(name: &RequestName, request: &Request) -> [u64; 3] {
    [
        name.member << 32 | name.reference,
        request.security << 38 | request.account_type << 30 | request.shareholder,
        request.quantity << 16 | request.day,
    ]
}

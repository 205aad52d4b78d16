//! From words to the plain book. Words that no book has are an error.

use std::collections::BTreeMap;

use reference::account_types::PAPER;
use reference::book::{Account, Book, Day, Half, Item, LAST_DAY, Purse, Request, RequestName, Security, Side, State};
use reference::record::{Field, usual_range};

use crate::*;

pub fn decode(words: &[u64]) -> Result<Book, String> {
    if words.len() != BOOK_WORDS {
        return Err(format!("the book has {} words", words.len()));
    }
    Ok(Book {
        day: day(&words[DAY..SECURITIES])?,
        securities: securities(&words[SECURITIES..ACCOUNTS])?,
        accounts: accounts(&words[ACCOUNTS..CASH])?,
        cash: cash(&words[CASH..WAITING]),
        waiting: waiting(&words[WAITING..RATE])?,
        rate: rate(words[RATE])?,
        requests: requests(&words[REQUESTS..])?,
    })
}

fn day(words: &[u64]) -> Result<Day, String> {
    let open = flag(words[1], "the day's open word")?;
    let sent = flag(words[5], "the day's sent word")?;
    Ok(Day { number: words[0], open, kind: words[2], cycles_run: words[3], last_minute: words[4], sent })
}

fn flag(word: u64, name: &str) -> Result<bool, String> {
    match word {
        0 => Ok(false),
        1 => Ok(true),
        _ => Err(format!("{name} is {word}")),
    }
}

fn count(word: u64, room: usize, name: &str) -> Result<usize, String> {
    match usize::try_from(word) {
        Ok(count) if count <= room => Ok(count),
        _ => Err(format!("the count of {name} is {word}")),
    }
}

fn securities(words: &[u64]) -> Result<Vec<Security>, String> {
    let count = count(words[0], SECURITY_ROOM, "securities")?;
    let at = |column: usize, place: usize| words[1 + column * SECURITY_ROOM + place];
    let security = |place| {
        let [code, issued, outside, held] = [0, 1, 2, 3].map(|column| at(column, place));
        Security { code, issued, outside, held }
    };
    Ok((0..count).map(security).collect())
}

fn accounts(words: &[u64]) -> Result<BTreeMap<Account, u64>, String> {
    let count = count(words[0], ACCOUNT_ROOM, "accounts")?;
    let keys = &words[1..1 + count];
    let balances = &words[1 + ACCOUNT_ROOM..1 + ACCOUNT_ROOM + count];
    let map: BTreeMap<Account, u64> = keys.iter().map(|key| account(*key)).zip(balances.iter().copied()).collect();
    if map.len() < count {
        return Err("an account stands twice in the table".to_string());
    }
    Ok(map)
}

fn account(key: u64) -> Account {
    Account {
        security: key >> 48,
        member: key >> 38 & 0x3FF,
        account_type: key >> 30 & 0xFF,
        shareholder: key & 0x3FFF_FFFF,
    }
}

fn cash(words: &[u64]) -> BTreeMap<Purse, u64> {
    let purse = |place: usize| Purse { member: place as u64 / 2 + 1, currency: place as u64 % 2 + 1 };
    let kept = words.iter().enumerate().filter(|(_, amount)| **amount != 0);
    kept.map(|(place, amount)| (purse(place), *amount)).collect()
}

fn waiting(words: &[u64]) -> Result<Vec<Item>, String> {
    let count = count(words[0], ITEM_ROOM, "items")?;
    words[1..].chunks(ITEM_WORDS).take(count).map(item).collect()
}

fn item(words: &[u64]) -> Result<Item, String> {
    let side =
        |start: usize| Side { member: words[start], account_type: words[start + 1], shareholder: words[start + 2] };
    let item = Item {
        security: words[0],
        currency: words[1],
        deliverer: side(2),
        receiver: side(5),
        quantity: words[8],
        amount: words[9],
        trade_day: words[10],
        settlement_day: words[11],
        state: state(words[12], words[13], words[14], words[15] & !SENT_MARK)?,
        sent: words[15] & SENT_MARK != 0,
    };
    if item.sent && item.is_single() { Err("a single is sent".to_string()) } else { Ok(item) }
}

fn state(state: u64, first: u64, second: u64, marks: u64) -> Result<State, String> {
    match (state, second, marks) {
        (SINGLE, 0, DELIVER_MARK) => Ok(State::Deliver { reference: first }),
        (SINGLE, 0, 0) => Ok(State::Receive { reference: first }),
        (PAIR, _, 0..=3) => Ok(State::Pair {
            deliver: Half { reference: first, marked: marks & DELIVER_MARK != 0 },
            receive: Half { reference: second, marked: marks & RECEIVE_MARK != 0 },
        }),
        (EXCHANGE_TRADE, 0, 0) => Ok(State::ExchangeTrade { reference: first }),
        _ => Err(format!("an item has state {state}, second reference {second}, marks {marks}")),
    }
}

/// RULES 3.1.
fn rate(word: u64) -> Result<u64, String> {
    if in_range(Field::Quantity, word) { Ok(word) } else { Err(format!("the rate is {word}")) }
}

/// Whether a record's field can hold a value that is used.
fn in_range(field: Field, value: u64) -> bool {
    let (least, most) = usual_range(field);
    (least..=most).contains(&value)
}

fn requests(words: &[u64]) -> Result<BTreeMap<RequestName, Request>, String> {
    let count = count(words[0], REQUEST_ROOM, "requests")?;
    let at = |table: usize, place: usize| words[1 + table * REQUEST_ROOM + place];
    let row = |place| request(at(0, place), at(1, place), at(2, place));
    let map = (0..count).map(row).collect::<Result<BTreeMap<RequestName, Request>, String>>()?;
    if map.len() < count { Err("a request stands twice in the table".to_string()) } else { Ok(map) }
}

fn request(key: u64, origin: u64, size: u64) -> Result<(RequestName, Request), String> {
    let name = RequestName { member: key >> 32, reference: key & 0xFFFF_FFFF };
    let request = Request {
        security: origin >> 38,
        account_type: origin >> 30 & 0xFF,
        shareholder: origin & 0x3FFF_FFFF,
        quantity: size >> 16,
        day: size & 0xFFFF,
    };
    let ranges = [
        (Field::DebitedMember, name.member),
        (Field::Reference, name.reference),
        (Field::Security, request.security),
        (Field::DebitedShareholder, request.shareholder),
        (Field::Quantity, request.quantity),
    ];
    let from_book_entry = PAPER.iter().any(|(from, _)| *from == request.account_type);
    let on_a_day = (1..=LAST_DAY).contains(&request.day);
    if from_book_entry && on_a_day && ranges.iter().all(|(field, value)| in_range(*field, *value)) {
        Ok((name, request))
    } else {
        Err(format!("a request has {name:?}, {request:?}"))
    }
}

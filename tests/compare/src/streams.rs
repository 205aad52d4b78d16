//! The streams of calls that the benchmark times.

use reference::book::Book;
use reference::call::{AREA_BYTES, Answer};
use reference::record::{Order, RECORD_BYTES, pack};
use reference::sent::{CONFIRMED, trades};
use reference::windows::next_cycle_minute;

use crate::generator::Generator;
use crate::generator::profile::profiles;
use crate::replay::Replay;

const CODE: u64 = 101;

pub type Record = [u8; RECORD_BYTES];

/// Calls that bring the book into its state (not timed), then the calls that
/// are timed, and how often from that same state.
pub struct Stream {
    pub name: &'static str,
    pub before: Vec<Record>,
    pub timed: Vec<Record>,
    pub repeats: usize,
}

pub fn streams() -> Vec<Stream> {
    vec![
        busy_mix(),
        full_book(),
        full_cycle("cycle, 64 trades dropped one by one", false),
        full_cycle("cycle, 64 trades sent", true),
        put_back("cycle, 64 trades dropped, put back one a pass (shares)", chain_of_shares(0)),
        put_back("cycle, 64 trades dropped, put back one a pass (cash)", chain_of_cash(0)),
        put_back("cycle, the same, the one left next to last (shares)", chain_of_shares(62)),
        put_back("cycle, the same, the one left next to last (cash)", chain_of_cash(62)),
        full_answer("answer, 64 trades confirmed", 1),
        full_answer("answer, 64 trades declined", 2),
        while_sent(),
        unreadable_records(),
        refused_orders(),
    ]
}

fn record(order: Order) -> Record {
    pack(&order.fields(), 0)
}

fn form(form: u64, minute: u64) -> Order {
    Order { form, minute, ..Order::default() }
}

fn answer(minute: u64, quantity: u64) -> Order {
    Order { quantity, ..form(21, minute) }
}

/// Makes calls that must be accepted.
fn accept(book: &mut Book, records: &[Record]) {
    for record in records {
        let answer = book.call(record, &mut [0; AREA_BYTES]);
        assert!(matches!(answer, Answer::Accepted(_)), "{record:02X?} is answered with {answer:?}");
    }
}

fn first_day() -> Vec<Record> {
    let open = Order { quantity: 1, ..form(1, 470) };
    vec![record(open), record(Order { security: CODE, quantity: 1 << 39, ..form(2, 480) })]
}

/// The calls of the comparison's busy profile, as drawn.
fn busy_mix() -> Stream {
    let mut generator = Generator::new(profiles().swap_remove(0), 1);
    let mut book = Book::fresh();
    let mut timed = Vec::new();
    while timed.len() < 20_000 {
        let call = generator.next_call(&book);
        if let Ok(record) = Record::try_from(&call.record[..])
            && call.area.len() >= AREA_BYTES
        {
            book.call(&record, &mut [0; AREA_BYTES]);
            timed.push(record);
        }
    }
    Stream { name: "busy mix of all forms", before: Vec::new(), timed, repeats: 1 }
}

/// Credits account `place`: its member and shareholder, and type 10 or 20.
fn credit(order: Order, place: u64, account_type: u64) -> Order {
    let (credited_member, credited_shareholder) = (1 + place % 64, 1 + place);
    Order { security: CODE, credited_member, credited_type: account_type, credited_shareholder, ..order }
}

fn debit(order: Order, place: u64, account_type: u64) -> Order {
    let (debited_member, debited_shareholder) = (1 + place % 64, 1 + place);
    Order { security: CODE, debited_member, debited_type: account_type, debited_shareholder, ..order }
}

fn deposit(place: u64, account_type: u64, quantity: u64) -> Record {
    record(credit(Order { quantity, ..form(3, 540) }, place, account_type))
}

fn transfer(place: u64, from: u64, to: u64, quantity: u64) -> Order {
    credit(debit(Order { quantity, settlement_day: 1, ..form(5, 540) }, place, from), place, to)
}

/// 256 accounts: types 10 and 20 of 128 shareholders.
fn filled() -> Vec<Record> {
    let mut records = first_day();
    records.extend((0..128).flat_map(|place| [deposit(place, 10, 1000), deposit(place, 20, 1000)]));
    records
}

/// Deposits into kept accounts, and transfers between two kept accounts.
fn full_book() -> Stream {
    let before = filled();
    let mut timed = Vec::new();
    for round in 0..5_000 {
        let place = round * 37 % 128;
        timed.push(deposit(place, 10, 1));
        timed.push(record(transfer(place, 10, 20, 7)));
        timed.push(deposit(place, 20, 1));
        timed.push(record(transfer(place, 20, 10, 7)));
    }
    let mut book = Book::fresh();
    accept(&mut book, &before);
    accept(&mut book, &timed);
    assert_eq!(book.accounts.len(), 256);
    Stream { name: "deposits and transfers, 256 accounts", before, timed, repeats: 1 }
}

/// 64 due exchange trades, and 190 accounts besides.
fn full_cycle(name: &'static str, settles: bool) -> Stream {
    let (before, mut book) = due_trades(settles);
    let cycle = record(form(16, 585));
    let sent = if settles { 64 } else { 0 };
    let answer = book.call(&cycle, &mut [0; AREA_BYTES]);
    assert!(matches!(answer, Answer::Accepted(counts) if counts.left == 64 - sent));
    assert_eq!(trades(&book).len() as u64, sent);
    Stream { name, before, timed: vec![cycle], repeats: 200 }
}

/// 64 due exchange trades that a cycle drops, all of them, and of which it takes
/// back 63, one a pass, from the list's end.
fn put_back(name: &'static str, first_day: Vec<Record>) -> Stream {
    let (before, mut book) = on_to_day_4(first_day);
    let (replay, cycle) = (Replay::of(&book), record(form(16, 585)));
    assert_eq!((replay.kept.len(), replay.dropped.len(), book.accounts.len()), (0, 64, 191));
    assert!(replay.passes().len() == 63 && replay.passes().iter().all(|added| added.len() == 1));
    let answer = book.call(&cycle, &mut [0; AREA_BYTES]);
    assert!(matches!(answer, Answer::Accepted(counts) if counts.left == 1));
    assert_eq!(trades(&book).len(), 63);
    Stream { name, before, timed: vec![cycle], repeats: 20 }
}

/// Each account sells 10 shares to the one before it; only the last account has
/// them, and sells 1,000 besides in the trade at the place `head`.
fn chain_of_shares(head: usize) -> Vec<Record> {
    let mut records = first_day();
    records.extend((0..64).map(|member| pay_in(member, 1000)));
    records.extend((0..190).map(|place| deposit(1000 + place, 20, 1000)));
    records.push(deposit(63, 10, 10));
    let mut trades: Vec<Order> = (1..64).map(|place| between(place, place - 1, 10, 5)).collect();
    trades.insert(head, between(63, 64, 1000, 5));
    records.extend(numbered(trades));
    records
}

/// Each member pays 10 to the one before it; only the last member has them, and
/// pays 1,000 besides in the trade at the place `head`. All sellers have shares.
fn chain_of_cash(head: usize) -> Vec<Record> {
    let mut records = first_day();
    records.extend((0..127).map(|place| deposit(1000 + place, 20, 1000)));
    records.extend((0..64).map(|place| deposit(place, 10, 2)));
    records.push(pay_in(63, 10));
    let mut trades: Vec<Order> = (1..64).map(|place| between(place - 1, place, 1, 10)).collect();
    trades.insert(head, between(0, 63, 1, 1000));
    records.extend(numbered(trades));
    records
}

/// To the member of account `place`.
fn pay_in(place: u64, amount: u64) -> Record {
    record(Order { currency: 1, credited_member: 1 + place, amount, ..form(10, 540) })
}

/// An exchange trade of day 1, from one account to another.
fn between(from: u64, to: u64, quantity: u64, amount: u64) -> Order {
    let terms = Order { currency: 1, quantity, amount, trade_day: 1, settlement_day: 4, ..form(14, 540) };
    credit(debit(terms, from, 10), to, 10)
}

/// Under references from 1 on.
fn numbered(trades: Vec<Order>) -> impl Iterator<Item = Record> {
    trades.into_iter().zip(1..).map(|(trade, reference)| record(Order { reference, ..trade }))
}

/// The answer of a cycle that has sent 64 trades.
fn full_answer(name: &'static str, quantity: u64) -> Stream {
    let (mut before, mut book) = due_trades(true);
    before.push(record(form(16, 585)));
    accept(&mut book, &before[before.len() - 1..]);
    let answered = record(answer(585, quantity));
    let rows = if quantity == CONFIRMED { 256 } else { 0 };
    let answer = book.call(&answered, &mut [0; AREA_BYTES]);
    assert!(matches!(answer, Answer::Accepted(counts) if counts.rows == rows));
    Stream { name, before, timed: vec![answered], repeats: 200 }
}

/// Transfers between a cycle of 64 trades and its answer: each looks at what
/// the trades take from its account.
fn while_sent() -> Stream {
    let (mut before, mut book) = due_trades(true);
    before.push(record(form(16, 585)));
    accept(&mut book, &before[before.len() - 1..]);
    let moved = |place, from, to| record(Order { settlement_day: 4, minute: 585, ..transfer(place, from, to, 7) });
    let places = (0..5_000).map(|round| 1000 + round * 37 % 190);
    let timed: Vec<Record> = places.flat_map(|place| [moved(place, 20, 10), moved(place, 10, 20)]).collect();
    accept(&mut book, &timed);
    Stream { name: "transfers while 64 trades are sent", before, timed, repeats: 1 }
}

/// The calls before a cycle of 64 trades, and the book after them.
fn due_trades(settles: bool) -> (Vec<Record>, Book) {
    let mut before = first_day();
    before.extend((0..190).map(|place| deposit(1000 + place, 20, 1000)));
    before.extend(numbered((0..64).map(|place| trade(place, settles)).collect()));
    on_to_day_4(before)
}

/// The calls of day 1 and of those up to the first cycle of day 4, and the book
/// after them.
fn on_to_day_4(mut before: Vec<Record>) -> (Vec<Record>, Book) {
    let mut book = Book::fresh();
    accept(&mut book, &before);
    while book.day.number < 4 {
        let next = match next_cycle_minute(&book.day) {
            _ if !book.day.open => first_day()[0],
            _ if book.day.sent => record(answer(book.day.last_minute, CONFIRMED)),
            Some(minute) => record(form(16, minute)),
            None => record(form(17, 960)),
        };
        accept(&mut book, &[next]);
        before.push(next);
    }
    (before, book)
}

/// Forth and back between couples of empty accounts, which settles; or a
/// chain of empty accounts without cash, which is dropped trade by trade.
fn trade(place: u64, settles: bool) -> Order {
    between(place, if settles { place ^ 1 } else { place + 1 }, 10, 5)
}

/// An unused field that is set, and a used one out of its range.
fn unreadable_records() -> Stream {
    let good = credit(Order { quantity: 1, ..form(3, 540) }, 1, 20);
    let unused = record(Order { currency: 1, ..good });
    let range = record(Order { credited_member: 65, ..good });
    let timed = [unused, range].repeat(10_000);
    Stream { name: "records that cannot be read (4, 5)", before: first_day(), timed, repeats: 1 }
}

/// Orders refused by the last tests, in a full book.
fn refused_orders() -> Stream {
    let too_much = record(transfer(100, 10, 20, 1001));
    let no_room = deposit(5000, 10, 1);
    let timed = [too_much, no_room].repeat(10_000);
    Stream { name: "orders refused in a full book (16, 18)", before: filled(), timed, repeats: 1 }
}

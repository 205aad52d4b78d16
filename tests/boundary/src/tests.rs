//! The layout, and words that no book has.

use reference::book::{Book, Half, Item, Request, RequestName, Security, Side, State};

use super::*;

/// The words of a book, over words that mean nothing.
fn words_of(book: &Book) -> Vec<u64> {
    let mut words = vec![u64::MAX; BOOK_WORDS];
    encode(book, &mut words);
    words
}

/// The words of a fresh book, but for one.
fn words_with(place: usize, word: u64) -> Vec<u64> {
    let mut words = words_of(&Book::fresh());
    words[place] = word;
    words
}

#[test]
fn the_parts_lie_one_behind_the_other() {
    assert_eq!(SECURITIES + 1 + 4 * SECURITY_ROOM, ACCOUNTS);
    assert_eq!(ACCOUNTS + 1 + 2 * ACCOUNT_ROOM, CASH);
    assert_eq!(CASH + 2 * 64, WAITING);
    assert_eq!(WAITING + 1 + ITEM_ROOM * ITEM_WORDS, RATE);
    assert_eq!(RATE + 1, REQUESTS);
    assert_eq!(REQUESTS + 1 + 3 * REQUEST_ROOM, BOOK_WORDS);
}

fn of_securities(securities: Vec<Security>) -> Book {
    Book { securities, ..Book::fresh() }
}

#[test]
fn a_security_is_a_code_and_three_counts() {
    let most = (1 << 40) - 1;
    let first = Security { code: 101, issued: 1_000, outside: 730, held: 270 };
    let widest = Security { code: 16_383, issued: most, outside: 0, held: most };
    let book = of_securities(vec![first, widest]);
    let words = words_of(&book);
    assert_eq!(words[8..12], [2, 101, 16_383, u64::MAX], "free words are kept");
    assert_eq!(words[41..44], [1_000, most, u64::MAX]);
    assert_eq!(words[73..76], [730, 0, u64::MAX]);
    assert_eq!(words[105..108], [270, most, u64::MAX]);
    assert_eq!(decode(&words), Ok(book));
}

#[test]
fn thirty_two_securities_have_room() {
    let numbered = |n| Security { code: n, issued: 1_000 * n, outside: 900 * n, held: 100 * n };
    let book = of_securities((1..=32).map(numbered).collect());
    let words = words_of(&book);
    assert_eq!((words[40], words[72], words[104], words[136]), (32, 32_000, 28_800, 3_200));
    assert_eq!((words[137], decode(&words)), (0, Ok(book)), "no account");
}

#[test]
fn a_sent_cycle_is_a_word_of_the_day() {
    let mut book = Book::fresh();
    (book.day.number, book.day.open, book.day.kind, book.day.cycles_run) = (3, true, 2, 1);
    (book.day.last_minute, book.day.sent) = (585, true);
    let words = words_of(&book);
    assert_eq!(words[..8], [3, 1, 2, 1, 585, 1, u64::MAX, u64::MAX], "free words are kept");
    assert_eq!(day_told(&book), [3, 1, 2, 1, 585, 1]);
    assert_eq!(decode(&words), Ok(book));
    assert_eq!(day_told(&Book::fresh()), [0; DAY_WORDS]);
    assert!(decode(&words_with(5, 2)).is_err_and(|text| text.contains("sent")));
}

fn item(state: State, sent: bool) -> Item {
    let side = |member, account_type| Side { member, account_type, shareholder: 5 };
    Item {
        security: 101,
        currency: 2,
        deliverer: side(7, 20),
        receiver: side(8, 10),
        quantity: 60,
        amount: 100,
        trade_day: 1,
        settlement_day: 4,
        state,
        sent,
    }
}

fn pair(deliver_marked: bool, receive_marked: bool) -> State {
    let half = |reference, marked| Half { reference, marked };
    State::Pair { deliver: half(1, deliver_marked), receive: half(1_001, receive_marked) }
}

fn waiting(items: &[Item]) -> Book {
    Book { waiting: items.to_vec(), ..Book::fresh() }
}

/// The last four words of an item: state, references, marks.
fn last_words(state: State, sent: bool) -> [u64; 4] {
    let book = waiting(&[item(state, sent)]);
    let words = words_of(&book);
    assert_eq!(decode(&words), Ok(book));
    words[WAITING + 13..WAITING + 17].try_into().expect("four words")
}

#[test]
fn the_mark_of_a_sent_cycle_stands_beside_those_of_a_cancel() {
    for (sent, mark) in [(false, 0), (true, 4)] {
        assert_eq!(last_words(pair(false, false), sent), [1, 1, 1_001, mark]);
        assert_eq!(last_words(pair(true, false), sent), [1, 1, 1_001, mark + 1]);
        assert_eq!(last_words(pair(false, true), sent), [1, 1, 1_001, mark + 2]);
        assert_eq!(last_words(State::ExchangeTrade { reference: 9 }, sent), [2, 9, 0, mark]);
    }
    assert_eq!(last_words(State::Deliver { reference: 9 }, false), [0, 9, 0, 1]);
    assert_eq!(last_words(State::Receive { reference: 9 }, false), [0, 9, 0, 0]);
}

#[test]
fn marks_that_no_item_has() {
    let marks = |state: State, marks: u64| {
        let mut words = words_of(&waiting(&[item(state, false)]));
        words[WAITING + 16] = marks;
        decode(&words)
    };
    let trade = State::ExchangeTrade { reference: 9 };
    for wrong in [1, 2, 3, 5, 6, 7, 8, 12, u64::MAX] {
        assert!(marks(trade, wrong).is_err(), "{wrong}");
    }
    for wrong in [8, 12, u64::MAX] {
        assert!(marks(pair(false, false), wrong).is_err(), "{wrong}");
    }
    for wrong in [2, 3, 4, 5, 6, 7] {
        assert!(marks(State::Deliver { reference: 9 }, wrong).is_err(), "{wrong}");
    }
}

#[test]
fn an_item_is_told_with_its_marks() {
    let book = waiting(&[item(pair(true, false), true), item(State::Receive { reference: 9 }, false)]);
    let terms = [101, 2, 7, 20, 5, 8, 10, 5, 60, 100, 1, 4];
    let told = |place: usize| item_told(&book, place).expect("an item");
    assert_eq!((&told(0)[..12], &told(0)[12..]), (&terms[..], &[3, 1, 1_001, 1, 0, 1][..]));
    assert_eq!((&told(1)[..12], &told(1)[12..]), (&terms[..], &[2, 9, 0, 0, 0, 0][..]));
    assert_eq!(item_told(&book, 2), None);
}

#[test]
fn the_rate_is_a_word() {
    for rate in [1, 150_750, (1 << 40) - 1] {
        let book = Book { rate, ..Book::fresh() };
        assert_eq!(decode(&words_with(RATE, rate)), Ok(book.clone()));
        assert_eq!(words_of(&book), words_with(RATE, rate));
    }
    for rate in [0, 1 << 40, u64::MAX] {
        assert!(decode(&words_with(RATE, rate)).is_err_and(|text| text.contains("rate")));
    }
}

const FIRST: (RequestName, Request) = (
    RequestName { member: 7, reference: 9 },
    Request { security: 101, account_type: 20, shareholder: 5, quantity: 100, day: 3 },
);
const WIDEST: (RequestName, Request) = (
    RequestName { member: 64, reference: u32::MAX as u64 },
    Request { security: 16_383, account_type: 10, shareholder: (1 << 30) - 1, quantity: (1 << 40) - 1, day: 60_000 },
);

fn two_requests() -> Book {
    Book { requests: [FIRST, WIDEST].into(), ..Book::fresh() }
}

/// The word at a place of each of the three tables of requests.
fn request_words(words: &[u64], place: usize) -> [u64; 3] {
    [0, 1, 2].map(|table| words[REQUESTS + 1 + table * REQUEST_ROOM + place])
}

#[test]
fn a_request_is_a_key_and_two_words() {
    let words = words_of(&two_requests());
    assert_eq!(words[1804], 2);
    assert_eq!(request_words(&words, 0), [7 << 32 | 9, 101 << 38 | 20 << 30 | 5, 100 << 16 | 3]);
    assert_eq!(request_words(&words, 1), [0x40_FFFF_FFFF, 0x000F_FFC2_BFFF_FFFF, 0x00FF_FFFF_FFFF_EA60]);
    assert_eq!((words[1805], words[1821], words[1837]), (7 << 32 | 9, 101 << 38 | 20 << 30 | 5, 100 << 16 | 3));
    assert!((2..REQUEST_ROOM).all(|place| request_words(&words, place) == [u64::MAX; 3]), "free words are kept");
    assert_eq!(decode(&words), Ok(two_requests()));
}

#[test]
fn requests_stand_in_any_order() {
    let mut words = words_of(&two_requests());
    (0..3).for_each(|table| words.swap(REQUESTS + 1 + table * REQUEST_ROOM, REQUESTS + 2 + table * REQUEST_ROOM));
    assert_eq!(decode(&words), Ok(two_requests()));
}

#[test]
fn sixteen_requests_have_room() {
    let named = |reference| (RequestName { reference, ..FIRST.0 }, FIRST.1);
    let book = Book { requests: (1..=16).map(named).collect(), ..Book::fresh() };
    assert_eq!(decode(&words_of(&book)), Ok(book));
    let complaint = decode(&words_with(REQUESTS, 17)).expect_err("one too many");
    assert!(complaint.contains("count of requests"), "{complaint}");
}

/// What is said of two requests of which one has another word.
fn complaint(table: usize, word: u64) -> String {
    let mut words = words_of(&two_requests());
    words[REQUESTS + 2 + table * REQUEST_ROOM] = word;
    decode(&words).expect_err("no book has such a request")
}

#[test]
fn requests_that_no_book_has() {
    assert!(complaint(0, 7 << 32 | 9).contains("twice"));
    let keys = [9, 7 << 32, 65 << 32 | 9, 1 << 63 | 7 << 32 | 9];
    let origins = [19, 50, 110, 91, 0].map(|account_type| 101 << 38 | account_type << 30 | 5);
    let parties = [20 << 30 | 5, 101 << 38 | 20 << 30, 16_384 << 38 | 20 << 30 | 5];
    let sizes = [3, 100 << 16, 100 << 16 | 60_001, 1 << 56 | 3];
    let tables = [&keys[..], &[origins.as_slice(), &parties].concat(), &sizes];
    for (table, words) in tables.into_iter().enumerate() {
        for word in words {
            let text = complaint(table, *word);
            assert!(text.starts_with("a request"), "{text}");
        }
    }
}

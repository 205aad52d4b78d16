//! What a cycle has fixed is judged from the book alone: a mark too few and a
//! mark too many are seen.

use compare::fitting::check;
use compare::generator::Generator;
use compare::generator::profile::profiles;
use compare::replay::Replay;
use reference::book::Book;
use reference::call::Answer;
use reference::record::{Order, unpack};

/// The books after the cycles of a list in which much is netted.
fn sent_cycles() -> Vec<Book> {
    let netting = profiles().into_iter().find(|profile| profile.name == "netting").expect("a profile");
    let mut generator = Generator::new(netting, 5);
    let mut book = Book::fresh();
    let mut books = Vec::new();
    for _ in 0..4_000 {
        let mut call = generator.next_call(&book);
        let answer = book.call(&call.record, &mut call.area);
        if matches!(answer, Answer::Accepted(_)) && Order::from_fields(unpack(&call.record)).form == 16 {
            books.push(book.clone());
        }
    }
    books
}

/// The complaint about a book with one mark more or less.
fn complaint(book: &Book, place: usize) -> Option<String> {
    let mut wrong = book.clone();
    wrong.waiting[place].sent = !wrong.waiting[place].sent;
    check(&wrong).err()
}

#[test]
fn what_the_reference_fixes_is_right() {
    let books = sent_cycles();
    assert!(books.len() > 50);
    books.iter().for_each(|book| assert_eq!(check(book), Ok(())));
}

/// Without one trade of those fixed it fits itself, unless others need what it
/// brings.
#[test]
fn a_mark_too_few_is_seen() {
    let books = sent_cycles();
    let marked = |book: &Book| (0..book.waiting.len()).filter(|place| book.waiting[*place].sent).collect::<Vec<_>>();
    let places = books.iter().flat_map(|book| marked(book).into_iter().map(move |place| (book, place)));
    let complaints: Vec<String> = places.map(|(book, place)| complaint(book, place).expect("a mark too few")).collect();
    assert!(complaints.iter().any(|text| text.contains("is left, and fits beside")), "{complaints:?}");
}

#[test]
fn a_mark_too_many_is_seen() {
    let books = sent_cycles();
    let mut seen = 0;
    for book in &books {
        let today = book.day.number;
        let left = |item: &reference::book::Item| !item.sent && !item.is_single() && item.settlement_day <= today;
        for place in (0..book.waiting.len()).filter(|place| left(&book.waiting[*place])) {
            let text = complaint(book, place).expect("a mark too many");
            assert!(text.starts_with("short with the trades that are fixed"), "{text}");
            seen += 1;
        }
    }
    assert!(seen > 10, "{seen} trades are left");
}

/// The replay of the comparison chooses what the reference chooses.
#[test]
fn replayed_passes_send_what_is_fixed() {
    let mut several = 0;
    for mut book in sent_cycles() {
        let fixed: Vec<usize> = (0..book.waiting.len()).filter(|place| book.waiting[*place].sent).collect();
        book.waiting.iter_mut().for_each(|item| item.sent = false);
        let replay = Replay::of(&book);
        let passes = replay.passes();
        assert_eq!(replay.sent(passes.concat()), fixed);
        several += usize::from(passes.len() > 1);
    }
    assert!(several > 5, "{several} cycles make more than one pass that adds");
}

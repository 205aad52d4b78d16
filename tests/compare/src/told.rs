//! What is read of a book through the library's own functions, held against
//! the book of the reference.

use std::fmt::Debug;

use boundary::{REQUEST_WORDS, day_told, item_told, request_told, security_told, sizes_told};
use reference::book::{Book, MOST_ITEMS, MOST_SECURITIES, RequestName};

use crate::depository::Depository;

pub fn check<D: Depository>(book: &Book, under_test: &D) -> Result<(), String> {
    told("the day", &day_told(book), &under_test.day())?;
    told("the rate", &book.rate, &under_test.rate())?;
    told("the sizes", &sizes_told(book), &under_test.sizes())?;
    securities(book, under_test)?;
    held_of_others(book, under_test)?;
    items(book, under_test)?;
    open_requests(book, under_test)?;
    other_requests(book, under_test)
}

fn told<T: PartialEq + Debug>(what: &str, expected: &T, found: &T) -> Result<(), String> {
    if expected == found { Ok(()) } else { Err(format!("{what}: expected {expected:?}, but {found:?} is told")) }
}

/// Each security is told by its place, and what is held of it by its code; no
/// security is told behind the last.
fn securities<D: Depository>(book: &Book, under_test: &D) -> Result<(), String> {
    for place in (0..=MOST_SECURITIES).chain([usize::MAX]) {
        let name = format!("code, issued, held and outside at place {place}");
        told(&name, &security_told(book, place), &under_test.security(place))?;
    }
    for security in &book.securities {
        told(&format!("held of security {}", security.code), &security.held, &under_test.held(security.code))?;
    }
    Ok(())
}

/// Nothing is held of a security that is not admitted.
fn held_of_others<D: Depository>(book: &Book, under_test: &D) -> Result<(), String> {
    let unknown = [0, 1, 16_383, 1 << 14, u64::MAX].into_iter().filter(|code| book.security(*code).is_none());
    for code in unknown {
        told(&format!("held of security {code}, which is not admitted"), &0, &under_test.held(code))?;
    }
    Ok(())
}

/// Each waiting item is told by its place, none behind the last.
fn items<D: Depository>(book: &Book, under_test: &D) -> Result<(), String> {
    for place in (0..=MOST_ITEMS).chain([usize::MAX]) {
        told(&format!("the waiting item at place {place}"), &item_told(book, place), &under_test.item(place))?;
    }
    Ok(())
}

fn open_requests<D: Depository>(book: &Book, under_test: &D) -> Result<(), String> {
    for RequestName { member, reference } in book.requests.keys().copied() {
        let expected = request_told(book, member, reference);
        let name = format!("request {reference} of member {member}");
        told(&name, &expected, &under_test.request(member, reference))?;
    }
    Ok(())
}

/// Nothing is told of what is not open, nor of what no record can name.
fn other_requests<D: Depository>(book: &Book, under_test: &D) -> Result<(), String> {
    let near = book.requests.keys().flat_map(beside);
    let names = near.chain([(0, 0), (1, 1), (64, u64::from(u32::MAX)), (u64::MAX, u64::MAX)]);
    for (member, reference) in names {
        if !book.requests.contains_key(&RequestName { member, reference }) {
            let name = format!("request {reference} of member {member}, which is not open");
            told(&name, &[0; REQUEST_WORDS], &under_test.request(member, reference))?;
        }
    }
    Ok(())
}

/// Couples that are one step from an open request, or would be the same where
/// a reference of more than 32 bits is added to the member.
fn beside(name: &RequestName) -> [(u64, u64); 6] {
    let RequestName { member, reference } = *name;
    [
        (member % 64 + 1, reference),
        (member, reference - 1),
        (member, reference + (1 << 32)),
        (member - 1, reference + (1 << 32)),
        (member + (1 << 10), reference),
        (member + (1 << 32), reference),
    ]
}

//! The worked lists, and that they see what is wrong.

mod common;

use common::*;
use reference::book::{Book, Security};
use reference::call::Answer;
use reference::record::Order;
use reference::worked::{self, Reply};

/// One call, and what is there after it.
fn reply(book: &mut Book, order: &Order) -> Reply {
    let mut area = vec![0x5A; 4096];
    let answer = book.call(&record(order), &mut area);
    Reply { answer, area, book: book.clone() }
}

/// What the lists say of replies that are changed like this.
fn complaints(change: impl Fn(&mut Reply)) -> Vec<String> {
    let run = |list: &worked::List| {
        let mut book = Book::fresh();
        list.run(|order| {
            let mut reply = reply(&mut book, order);
            change(&mut reply);
            Ok(reply)
        })
    };
    worked::lists().iter().filter_map(|list| run(list).err()).collect()
}

#[test]
fn the_worked_lists_run() {
    assert_eq!(complaints(|_| {}), [""; 0]);
}

#[test]
fn a_worked_list_sees_a_wrong_answer() {
    let complaints = complaints(|reply| reply.answer = Answer::Refused(18));
    assert_eq!(complaints.len(), worked::lists().len());
    assert!(complaints.iter().all(|text| text.contains("step 1:")));
}

#[test]
fn a_worked_list_sees_a_wrong_row_or_figure() {
    let rows = complaints(|reply| reply.area[31] ^= 1);
    assert!(rows.len() == 3 && rows.iter().all(|text| text.contains("rows: expected")), "{rows:?}");
    let figures = complaints(|reply| reply.book.requests.clear());
    assert!(figures.len() == 2 && figures.iter().all(|text| text.contains("open requests")), "{figures:?}");
    let figures = complaints(|reply| reply.book.accounts.clear());
    assert!(figures.len() == 15 && figures.iter().all(|text| text.contains("accounts: expected")), "{figures:?}");
}

#[test]
fn a_worked_list_sees_a_wrong_mark_or_answer() {
    let figures = complaints(|reply| reply.book.day.sent = !reply.book.day.sent);
    assert!(figures.len() >= 3 && figures.iter().any(|text| text.contains("a cycle is sent: expected")), "{figures:?}");
    let figures = complaints(|reply| reply.book.waiting.iter_mut().for_each(|item| item.sent = true));
    assert!(figures.len() == 6 && figures.iter().all(|text| text.contains("items of the sent cycle")), "{figures:?}");
    let figures = complaints(|reply| reply.book.day.cycles_run += 1);
    assert!(figures.iter().any(|text| text.contains("cycles run: expected")), "{figures:?}");
    let figures = complaints(|reply| reply.book.cash.clear());
    assert!(figures.len() == 7 && figures.iter().all(|text| text.contains(": cash: expected")), "{figures:?}");
}

/// What the lists of custody say of a book in which each security is changed
/// like this.
fn custody_complaints(change: impl Fn(&mut Security)) -> Vec<String> {
    let mut complaints = complaints(|reply| reply.book.securities.iter_mut().for_each(&change));
    complaints.retain(|text| text.contains("'custody of"));
    complaints
}

#[test]
fn a_worked_list_sees_a_wrong_held_figure() {
    let more = custody_complaints(|security| security.held += 1);
    assert!(more.len() == 3 && more.iter().all(|text| text.contains(": held: expected")), "{more:?}");
    let exchanged = custody_complaints(|security| std::mem::swap(&mut security.held, &mut security.outside));
    assert!(exchanged.len() == 3 && exchanged.iter().all(|text| text.contains(": held: expected")), "{exchanged:?}");
}

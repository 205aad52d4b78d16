//! The printing example of RULES 13.7, and the custody lines of worked lists.

mod common;

use common::*;
use reference::book::{Book, Security};
use reference::printing::{custody_line, print};
use reference::worked::{self, Reply};

fn example() -> Vec<u8> {
    let holder = account(7, 20, 5);
    [open(1, 470), admit(101, 1_000, 500), deposit(holder, 400, 540), withdraw(holder, 401, 541)]
        .iter()
        .flat_map(record)
        .collect()
}

#[test]
fn the_example_prints_as_in_the_paper() {
    let expected = "1 0 0\n2 0 2\n3 0 2\n4 16 0\nCUSTODY 101 ISSUED 1000 HELD 400 OUTSIDE 600\n";
    assert_eq!(print(&example()), expected);
}

#[test]
fn what_is_left_of_the_file_is_a_record() {
    let mut input = example();
    input.truncate(2 * 40 + 39);
    assert_eq!(print(&input), "1 0 0\n2 0 2\n3 2 0\nCUSTODY 101 ISSUED 1000 HELD 0 OUTSIDE 1000\n");
}

/// Type 50 is held, and what leaves by a request is outside.
#[test]
fn what_is_requested_is_held() {
    let holder = account(7, 20, 5);
    let mut input: Vec<u8> = example()[..120].to_vec();
    input.extend([request(holder, 100, 9, 541), request(holder, 50, 8, 541)].iter().flat_map(record));
    assert_eq!(print(&input).lines().last(), Some("CUSTODY 101 ISSUED 1000 HELD 400 OUTSIDE 600"));
    let cycles = [form(16, 960), answer(1, 960)].repeat(3);
    let night = [form(17, 960), open(1, 470)];
    input.extend(cycles.iter().chain(&night).flat_map(record));
    input.extend([end_request(7, 120, 9, 510), end_request(7, 91, 8, 510)].iter().flat_map(record));
    let text = print(&input);
    assert!(text.contains("\n14 0 2\n15 0 2\n"), "{text}");
    assert_eq!(text.lines().last(), Some("CUSTODY 101 ISSUED 1000 HELD 350 OUTSIDE 650"));
}

/// All records of a worked list, one behind the other.
fn records_of(list: &str) -> Vec<u8> {
    let named = worked::lists().into_iter().find(|worked| worked.name == list).expect("a worked list");
    let (mut records, mut book, mut area) = (Vec::new(), Book::fresh(), vec![0; 4096]);
    let run = named.run(|order| {
        records.extend(record(order));
        let answer = book.call(&record(order), &mut area);
        Ok(Reply { answer, area: area.clone(), book: book.clone() })
    });
    assert_eq!(run, Ok(()));
    records
}

#[test]
fn what_is_held_of_each_security_is_printed() {
    let one = print(&records_of("custody of one security"));
    let two = print(&records_of("custody of two securities"));
    let custody = |text: &str| text[text.find("CUSTODY").expect("a custody line")..].to_string();
    assert_eq!(custody(&one), "CUSTODY 101 ISSUED 1000 HELD 270 OUTSIDE 730\n");
    assert_eq!(
        custody(&two),
        "CUSTODY 101 ISSUED 1000 HELD 260 OUTSIDE 740\nCUSTODY 102 ISSUED 500 HELD 70 OUTSIDE 430\n"
    );
}

/// Even if it were wrong.
#[test]
fn the_figure_that_is_kept_is_printed() {
    let security = Security { code: 1, issued: 2, outside: 3, held: 4 };
    assert_eq!(custody_line(&security), "CUSTODY 1 ISSUED 2 HELD 4 OUTSIDE 3");
}

#[test]
fn empty_input_prints_nothing() {
    assert_eq!(print(&[]), "");
}

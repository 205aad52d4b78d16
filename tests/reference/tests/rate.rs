//! The rate: form 18, and the tolerance in LBP (RULES 3.14, 6.18, 8.4, 8.9).

mod common;

use common::*;
use reference::book::{Book, FIRST_RATE};
use reference::call::Counts;
use reference::forms::{self, Written};
use reference::record::{Order, pack, read, write};
use reference::refusals;

/// The largest rate, and the largest amount.
const WIDEST: u64 = (1 << 40) - 1;

/// Whether a deliver of 1 and a receive of so much more pair in LBP.
fn pairs_at(rate: u64, more: u64) -> bool {
    let mut book = first_day(1);
    accept(&mut book, &set_rate(rate, 490));
    accept(&mut book, &in_pounds(deliver(1, 2, 1, 500)));
    accept(&mut book, &in_pounds(receive(1 + more, 2, 2, 500)));
    book.waiting.len() == 1
}

#[test]
fn a_fresh_book_has_the_first_rate() {
    assert_eq!((Book::fresh().rate, FIRST_RATE), (150_750, 150_750));
}

#[test]
fn form_18_meets_1_to_6_and_8_and_9() {
    let met = refusals::TABLE.iter().filter(|refusal| (refusal.forms)(18) && refusal.number != 3);
    assert_eq!(met.map(|refusal| refusal.number).collect::<Vec<u64>>(), [1, 2, 4, 5, 6, 8, 9]);
    let form = forms::form(18).expect("a form");
    assert_eq!((form.name, form.rows, form.takes_in), ("set rate", Written::Nothing, 0));
}

#[test]
fn a_rate_is_40_bits_wide_and_at_least_1() {
    for rate in [1, FIRST_RATE, WIDEST] {
        assert_eq!(read(&record(&set_rate(rate, 480))), Ok(set_rate(rate, 480)));
    }
    assert_eq!(read(&record(&set_rate(0, 480))), Err(5));
    assert_eq!(write(&set_rate(1 << 40, 480).fields(), &mut [0; 40]), Err(5));
    assert_eq!(read(&record(&Order { amount: 1, ..set_rate(0, 480) })), Err(4));
    assert_eq!(read(&pack(&set_rate(1, 480).fields(), 1)), Err(4));
}

#[test]
fn form_18_has_the_window_of_form_2() {
    for (kind, last) in [(1, 960), (2, 900)] {
        let mut book = Book::fresh();
        accept(&mut book, &open(kind, 470));
        assert_eq!(refuse(&mut book, &set_rate(1, 479)), 9);
        accept(&mut book, &set_rate(1, 480));
        assert_eq!(refuse(&mut book, &set_rate(1, 479)), 8);
        assert_eq!(refuse(&mut book, &set_rate(1, last + 1)), 9);
        accept(&mut book, &set_rate(1, last));
    }
}

/// All cycles have run, and a cycle is left: neither is asked.
#[test]
fn form_18_changes_the_rate_and_the_minute_alone() {
    for cycles in [0, 3] {
        let mut book = first_day(1);
        accept(&mut book, &deposit(account(7, 20, 5), 400, 540));
        accept(&mut book, &deliver(100, 2, 1, 540));
        (0..cycles).for_each(|_| assert_eq!(run_cycle(&mut book, 825).rows, 0));
        let mut expected = book.clone();
        (expected.rate, expected.day.last_minute) = (7, 900);
        let (counts, rows) = rows_of(&mut book, &set_rate(7, 900));
        assert_eq!((counts, rows.len()), (Counts::default(), 0));
        assert_eq!(book, expected);
    }
}

#[test]
fn the_tolerance_is_20_times_the_rate() {
    for rate in [1, 2, 150_749, 150_750, 214_748_365, 54_975_581_388] {
        assert!(pairs_at(rate, 0) && pairs_at(rate, 20 * rate), "rate {rate}");
        assert!(!pairs_at(rate, 20 * rate + 1), "rate {rate}");
    }
    // 20 times these have more than 40 bits.
    for rate in [54_975_581_389, WIDEST] {
        assert!(pairs_at(rate, WIDEST - 1), "rate {rate}");
    }
}

#[test]
fn a_receive_never_offers_less() {
    let mut book = first_day(1);
    accept(&mut book, &set_rate(WIDEST, 490));
    accept(&mut book, &in_pounds(receive(99, 2, 2, 500)));
    accept(&mut book, &in_pounds(deliver(100, 2, 1, 500)));
    assert_eq!(book.waiting.len(), 2);
}

#[test]
fn dollars_do_not_follow_the_rate() {
    for rate in [1, WIDEST] {
        for (more, items) in [(2_000, 1), (2_001, 2)] {
            let mut book = first_day(1);
            accept(&mut book, &set_rate(rate, 490));
            accept(&mut book, &deliver(100, 2, 1, 500));
            accept(&mut book, &receive(100 + more, 2, 2, 500));
            assert_eq!(book.waiting.len(), items, "rate {rate}, {more} more");
        }
    }
}

/// All in one minute: what came first counts.
#[test]
fn the_rate_at_the_second_instruction_counts() {
    for (rate, items) in [(50, 1), (49, 2)] {
        for deliver_first in [true, false] {
            let mut book = first_day(1);
            let mut couple = [deliver(100, 2, 1, 500), receive(1_100, 2, 2, 500)].map(in_pounds);
            if !deliver_first {
                couple.reverse();
            }
            accept(&mut book, &set_rate(99 - rate, 500));
            accept(&mut book, &couple[0]);
            accept(&mut book, &set_rate(rate, 500));
            accept(&mut book, &couple[1]);
            assert_eq!(book.waiting.len(), items, "rate {rate}");
        }
    }
}

#[test]
fn a_pair_stays_whatever_the_rate_becomes() {
    let mut book = first_day(1);
    accept(&mut book, &in_pounds(deliver(100, 2, 1, 500)));
    accept(&mut book, &in_pounds(receive(3_015_100, 2, 2, 500)));
    let pair = book.waiting.clone();
    accept(&mut book, &set_rate(1, 501));
    assert_eq!((book.waiting.len(), &book.waiting), (1, &pair));
}

#[test]
fn days_come_and_go_and_the_rate_stays() {
    let mut book = first_day(1);
    accept(&mut book, &set_rate(7, 500));
    end_day(&mut book);
    assert_eq!(book.rate, 7);
    assert_eq!(refuse(&mut book, &set_rate(8, 960)), 6);
    accept(&mut book, &open(2, 0));
    assert_eq!(book.rate, 7);
}

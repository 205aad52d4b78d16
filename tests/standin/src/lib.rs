//! The reference behind the C boundary of depository.h.
//!
//! It stands in place of the library under test, to try the comparison
//! itself: as it is, no difference may be found; with one deliberate change
//! (../slips), the change must be found.

use std::slice::{from_raw_parts, from_raw_parts_mut};

use boundary::{
    BOOK_WORDS, COUNT_WORDS, NO_SUCH_PLACE, WRONG_BOOK, WRONG_COUNTS, WRONG_FIELDS, WRONG_VALUES, day_told, decode,
    encode, item_told, request_told, security_told, sizes_told,
};
use reference::book::{Account, Book, Purse};
use reference::call::{Answer, Counts};
use reference::record::{self, FIELD_COUNT};

/// A pointer of length 0 may be anything, so it is not looked at.
///
/// # Safety
/// `start` must be good for `length` elements.
unsafe fn shared<'a, T>(start: *const T, length: usize) -> &'a [T] {
    if length == 0 { &[] } else { unsafe { from_raw_parts(start, length) } }
}

/// # Safety
/// As for `shared`, and nothing else may use the elements.
unsafe fn unique<'a, T>(start: *mut T, length: usize) -> &'a mut [T] {
    if length == 0 { &mut [] } else { unsafe { from_raw_parts_mut(start, length) } }
}

/// # Safety
/// See depository.h.
#[unsafe(no_mangle)]
pub unsafe extern "C" fn depository_fresh(book: *mut u64, words: usize) -> u64 {
    if words != BOOK_WORDS {
        return WRONG_BOOK;
    }
    encode(&Book::fresh(), unsafe { unique(book, words) });
    0
}

/// # Safety
/// See depository.h.
#[unsafe(no_mangle)]
pub unsafe extern "C" fn depository_call(
    book: *mut u64,
    words: usize,
    record: *const u8,
    record_bytes: usize,
    area: *mut u8,
    area_bytes: usize,
    counts: *mut u64,
    counts_words: usize,
) -> u64 {
    let words = unsafe { unique(book, words) };
    let (record, area) = unsafe { (shared(record, record_bytes), unique(area, area_bytes)) };
    let counts = unsafe { unique(counts, counts_words) };
    if words.len() != BOOK_WORDS {
        return WRONG_BOOK;
    }
    if counts.len() != COUNT_WORDS {
        return WRONG_COUNTS;
    }
    let mut book = decode(words).expect("a book of this library");
    let answer = book.call(record, area);
    encode(&book, words);
    match answer {
        Answer::Refused(number) => number,
        Answer::Accepted(answer) => {
            counts.copy_from_slice(&count_words(&answer));
            0
        }
    }
}

fn count_words(counts: &Counts) -> [u64; COUNT_WORDS] {
    [counts.rows, counts.settled, counts.cancelled, counts.deleted, counts.suspended, counts.left]
}

/// # Safety
/// See depository.h.
#[unsafe(no_mangle)]
pub unsafe extern "C" fn depository_day(book: *const u64, words: usize, values: *mut u64, values_words: usize) -> u64 {
    let (words, values) = unsafe { (shared(book, words), unique(values, values_words)) };
    tell(words, values, day_told)
}

/// # Safety
/// See depository.h.
#[unsafe(no_mangle)]
pub unsafe extern "C" fn depository_item(
    book: *const u64,
    words: usize,
    place: usize,
    values: *mut u64,
    values_words: usize,
) -> u64 {
    let (words, values) = unsafe { (shared(book, words), unique(values, values_words)) };
    tell_of_place(words, values, |book| item_told(book, place))
}

/// # Safety
/// See depository.h.
#[unsafe(no_mangle)]
pub unsafe extern "C" fn depository_rate(book: *const u64, words: usize, values: *mut u64, values_words: usize) -> u64 {
    let (words, values) = unsafe { (shared(book, words), unique(values, values_words)) };
    tell(words, values, |book| [book.rate])
}

/// # Safety
/// See depository.h.
#[unsafe(no_mangle)]
pub unsafe extern "C" fn depository_held(
    book: *const u64,
    words: usize,
    security: u64,
    values: *mut u64,
    values_words: usize,
) -> u64 {
    let (words, values) = unsafe { (shared(book, words), unique(values, values_words)) };
    tell(words, values, |book| [book.held(security)])
}

/// # Safety
/// See depository.h.
#[unsafe(no_mangle)]
pub unsafe extern "C" fn depository_balance(
    book: *const u64,
    words: usize,
    security: u64,
    member: u64,
    account_type: u64,
    shareholder: u64,
    values: *mut u64,
    values_words: usize,
) -> u64 {
    let (words, values) = unsafe { (shared(book, words), unique(values, values_words)) };
    tell(words, values, |book| [book.balance(&Account { security, member, account_type, shareholder })])
}

/// # Safety
/// See depository.h.
#[unsafe(no_mangle)]
pub unsafe extern "C" fn depository_cash(
    book: *const u64,
    words: usize,
    member: u64,
    currency: u64,
    values: *mut u64,
    values_words: usize,
) -> u64 {
    let (words, values) = unsafe { (shared(book, words), unique(values, values_words)) };
    tell(words, values, |book| [book.cash_of(&Purse { member, currency })])
}

/// # Safety
/// See depository.h.
#[unsafe(no_mangle)]
pub unsafe extern "C" fn depository_sizes(
    book: *const u64,
    words: usize,
    values: *mut u64,
    values_words: usize,
) -> u64 {
    let (words, values) = unsafe { (shared(book, words), unique(values, values_words)) };
    tell(words, values, sizes_told)
}

/// # Safety
/// See depository.h.
#[unsafe(no_mangle)]
pub unsafe extern "C" fn depository_request(
    book: *const u64,
    words: usize,
    member: u64,
    reference: u64,
    values: *mut u64,
    values_words: usize,
) -> u64 {
    let (words, values) = unsafe { (shared(book, words), unique(values, values_words)) };
    tell(words, values, |book| request_told(book, member, reference))
}

/// # Safety
/// See depository.h.
#[unsafe(no_mangle)]
pub unsafe extern "C" fn depository_security(
    book: *const u64,
    words: usize,
    place: usize,
    values: *mut u64,
    values_words: usize,
) -> u64 {
    let (words, values) = unsafe { (shared(book, words), unique(values, values_words)) };
    tell_of_place(words, values, |book| security_told(book, place))
}

/// Puts figures of a book into values of as many words.
fn tell<const WORDS: usize>(words: &[u64], values: &mut [u64], figures: impl Fn(&Book) -> [u64; WORDS]) -> u64 {
    tell_of_place(words, values, |book| Some(figures(book)))
}

/// The same where a place may be behind the last.
fn tell_of_place<const WORDS: usize>(
    words: &[u64],
    values: &mut [u64],
    figures: impl Fn(&Book) -> Option<[u64; WORDS]>,
) -> u64 {
    if words.len() != BOOK_WORDS {
        return WRONG_BOOK;
    }
    if values.len() != WORDS {
        return WRONG_VALUES;
    }
    let Some(figures) = figures(&decode(words).expect("a book of this library")) else {
        return NO_SUCH_PLACE;
    };
    values.copy_from_slice(&figures);
    0
}

/// # Safety
/// See depository.h.
#[unsafe(no_mangle)]
pub unsafe extern "C" fn depository_read(
    record: *const u8,
    record_bytes: usize,
    fields: *mut u64,
    fields_words: usize,
) -> u64 {
    let (record, fields) = unsafe { (shared(record, record_bytes), unique(fields, fields_words)) };
    if fields.len() != FIELD_COUNT {
        return WRONG_FIELDS;
    }
    match record::read(record) {
        Err(number) => number,
        Ok(order) => {
            fields.copy_from_slice(&order.fields());
            0
        }
    }
}

/// # Safety
/// See depository.h.
#[unsafe(no_mangle)]
pub unsafe extern "C" fn depository_write(
    fields: *const u64,
    fields_words: usize,
    area: *mut u8,
    area_bytes: usize,
) -> u64 {
    let (fields, area) = unsafe { (shared(fields, fields_words), unique(area, area_bytes)) };
    let Ok(fields) = <&[u64; FIELD_COUNT]>::try_from(fields) else {
        return WRONG_FIELDS;
    };
    record::write(fields, area).err().unwrap_or(0)
}

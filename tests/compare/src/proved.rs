//! The library under test behind its C boundary (depository.h). Every length
//! is fixed here, so that no caller can give a wrong one.

use std::borrow::Cow;

use boundary::{
    BOOK_WORDS, COUNT_WORDS, DAY_WORDS, ITEM_TOLD_WORDS, NO_SUCH_PLACE, REQUEST_WORDS, SECURITY_WORDS, SIZE_WORDS,
    WRONG_BOOK, decode,
};
use reference::book::{Book, FIRST_RATE};
use reference::call::{Answer, Counts};
use reference::record::{FIELD_COUNT, Fields};

use crate::depository::Depository;

unsafe extern "C" {
    fn depository_fresh(book: *mut u64, words: usize) -> u64;
    fn depository_call(
        book: *mut u64,
        words: usize,
        record: *const u8,
        record_bytes: usize,
        area: *mut u8,
        area_bytes: usize,
        counts: *mut u64,
        counts_words: usize,
    ) -> u64;
    fn depository_day(book: *const u64, words: usize, values: *mut u64, values_words: usize) -> u64;
    fn depository_item(book: *const u64, words: usize, place: usize, values: *mut u64, values_words: usize) -> u64;
    fn depository_rate(book: *const u64, words: usize, values: *mut u64, values_words: usize) -> u64;
    fn depository_sizes(book: *const u64, words: usize, values: *mut u64, values_words: usize) -> u64;
    fn depository_security(book: *const u64, words: usize, place: usize, values: *mut u64, values_words: usize) -> u64;
    fn depository_held(book: *const u64, words: usize, security: u64, values: *mut u64, values_words: usize) -> u64;
    fn depository_request(
        book: *const u64,
        words: usize,
        member: u64,
        reference: u64,
        values: *mut u64,
        values_words: usize,
    ) -> u64;
    fn depository_read(record: *const u8, record_bytes: usize, fields: *mut u64, fields_words: usize) -> u64;
    fn depository_write(fields: *const u64, fields_words: usize, area: *mut u8, area_bytes: usize) -> u64;
}

/// Stands in result buffers before a call, to show that a refusal keeps them.
const UNTOUCHED: u64 = 0xA5A5_5A5A_0123_FEDC;

/// A book in this program's memory, moved only by the library.
#[derive(Clone)]
pub struct Proved {
    words: Box<[u64; BOOK_WORDS]>,
}

impl Depository for Proved {
    const NAME: &'static str = "the proved library";

    fn fresh() -> Proved {
        let mut words = Box::new([UNTOUCHED; BOOK_WORDS]);
        assert_eq!(fresh_in(&mut words[..]), 0, "a buffer of the right length takes a fresh book");
        Proved { words }
    }

    fn call(&mut self, record: &[u8], area: &mut [u8]) -> Result<Answer, String> {
        let mut counts = [UNTOUCHED; COUNT_WORDS];
        // SAFETY: each pointer comes from a live slice and goes with its own
        // length; the slices are apart, as `&mut` says.
        let number = unsafe {
            depository_call(
                self.words.as_mut_ptr(),
                BOOK_WORDS,
                record.as_ptr(),
                record.len(),
                area.as_mut_ptr(),
                area.len(),
                counts.as_mut_ptr(),
                COUNT_WORDS,
            )
        };
        if number == 0 {
            return Ok(Answer::Accepted(counts_of(&counts)));
        }
        if counts != [UNTOUCHED; COUNT_WORDS] {
            return Err(format!("refusal {number} changed the counts"));
        }
        Ok(Answer::Refused(number))
    }

    fn day(&self) -> [u64; DAY_WORDS] {
        let mut values = [UNTOUCHED; DAY_WORDS];
        // SAFETY: as in `call`.
        let number = unsafe { depository_day(self.words.as_ptr(), BOOK_WORDS, values.as_mut_ptr(), DAY_WORDS) };
        assert_eq!(number, 0, "a book of the right length is read");
        values
    }

    fn rate(&self) -> u64 {
        let mut rate = [UNTOUCHED];
        // SAFETY: as in `call`.
        let number = unsafe { depository_rate(self.words.as_ptr(), BOOK_WORDS, rate.as_mut_ptr(), rate.len()) };
        assert_eq!(number, 0, "a book of the right length is read");
        rate[0]
    }

    fn sizes(&self) -> [u64; SIZE_WORDS] {
        let mut sizes = [UNTOUCHED; SIZE_WORDS];
        // SAFETY: as in `call`.
        let number = unsafe { depository_sizes(self.words.as_ptr(), BOOK_WORDS, sizes.as_mut_ptr(), sizes.len()) };
        assert_eq!(number, 0, "a book of the right length is read");
        sizes
    }

    fn security(&self, place: usize) -> Option<[u64; SECURITY_WORDS]> {
        let mut values = [UNTOUCHED; SECURITY_WORDS];
        let words = self.words.as_ptr();
        // SAFETY: as in `call`.
        let number = unsafe { depository_security(words, BOOK_WORDS, place, values.as_mut_ptr(), SECURITY_WORDS) };
        of_place(number, values)
    }

    fn item(&self, place: usize) -> Option<[u64; ITEM_TOLD_WORDS]> {
        let mut values = [UNTOUCHED; ITEM_TOLD_WORDS];
        let words = self.words.as_ptr();
        // SAFETY: as in `call`.
        let number = unsafe { depository_item(words, BOOK_WORDS, place, values.as_mut_ptr(), ITEM_TOLD_WORDS) };
        of_place(number, values)
    }

    fn held(&self, security: u64) -> u64 {
        let mut held = [UNTOUCHED];
        // SAFETY: as in `call`.
        let number =
            unsafe { depository_held(self.words.as_ptr(), BOOK_WORDS, security, held.as_mut_ptr(), held.len()) };
        assert_eq!(number, 0, "a book of the right length is read");
        held[0]
    }

    fn request(&self, member: u64, reference: u64) -> [u64; REQUEST_WORDS] {
        let mut values = [UNTOUCHED; REQUEST_WORDS];
        let (words, place) = (self.words.as_ptr(), values.as_mut_ptr());
        // SAFETY: as in `call`.
        let number = unsafe { depository_request(words, BOOK_WORDS, member, reference, place, REQUEST_WORDS) };
        assert_eq!(number, 0, "a book of the right length is read");
        values
    }

    fn book(&self) -> Result<Cow<'_, Book>, String> {
        decode(&self.words[..]).map(Cow::Owned)
    }

    fn read(record: &[u8]) -> Result<Result<Fields, u64>, String> {
        let mut fields = [UNTOUCHED; FIELD_COUNT];
        // SAFETY: as in `call`.
        let number = unsafe { depository_read(record.as_ptr(), record.len(), fields.as_mut_ptr(), FIELD_COUNT) };
        if number == 0 {
            return Ok(Ok(fields));
        }
        if fields != [UNTOUCHED; FIELD_COUNT] {
            return Err(format!("refusal {number} changed the fields"));
        }
        Ok(Err(number))
    }

    fn write(fields: &Fields, area: &mut [u8]) -> Result<(), u64> {
        // SAFETY: as in `call`.
        match unsafe { depository_write(fields.as_ptr(), FIELD_COUNT, area.as_mut_ptr(), area.len()) } {
            0 => Ok(()),
            number => Err(number),
        }
    }

    fn boundary_checks() -> Vec<(&'static str, bool)> {
        vec![
            ("no fresh book in 0 words", keeps_wrong_length(0)),
            ("no fresh book in one word less", keeps_wrong_length(BOOK_WORDS - 1)),
            ("no fresh book in one word more", keeps_wrong_length(BOOK_WORDS + 1)),
            ("a fresh book over any words", Proved::fresh().book().is_ok_and(|book| *book == Book::fresh())),
            ("the day of a fresh book is told", Proved::fresh().day() == [0; DAY_WORDS]),
            ("the rate of a fresh book is told", Proved::fresh().rate() == FIRST_RATE),
            ("the sizes of a fresh book are told", Proved::fresh().sizes() == [0; SIZE_WORDS]),
            ("no security of a fresh book is told", Proved::fresh().security(0).is_none()),
            ("no item of a fresh book is told", Proved::fresh().item(0).is_none()),
            ("no request of a fresh book is told", Proved::fresh().request(1, 1) == [0; REQUEST_WORDS]),
        ]
    }
}

/// What was told of a place, if it is not behind the last.
fn of_place<const WORDS: usize>(number: u64, values: [u64; WORDS]) -> Option<[u64; WORDS]> {
    if number == NO_SUCH_PLACE {
        assert_eq!(values, [UNTOUCHED; WORDS], "no such place leaves the values");
        return None;
    }
    assert_eq!(number, 0, "a book of the right length is read");
    Some(values)
}

fn fresh_in(words: &mut [u64]) -> u64 {
    // SAFETY: the pointer is good for the slice's length.
    unsafe { depository_fresh(words.as_mut_ptr(), words.len()) }
}

/// 0 if the buffer has the right length; else the number of a wrong book, and
/// the buffer is untouched.
fn keeps_wrong_length(length: usize) -> bool {
    let mut words = vec![UNTOUCHED; length];
    fresh_in(&mut words) == WRONG_BOOK && words.iter().all(|word| *word == UNTOUCHED)
}

fn counts_of(words: &[u64; COUNT_WORDS]) -> Counts {
    let [rows, settled, cancelled, deleted, suspended, left] = *words;
    Counts { rows, settled, cancelled, deleted, suspended, left }
}

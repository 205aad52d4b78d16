//! What the comparison and the benchmark ask of a depository.

use std::borrow::Cow;

use boundary::{
    DAY_WORDS, ITEM_TOLD_WORDS, REQUEST_WORDS, SECURITY_WORDS, SIZE_WORDS, day_told, item_told, request_told,
    security_told, sizes_told,
};
use reference::book::Book;
use reference::call::Answer;
use reference::record::{self, Fields};

/// An error is a fault at the boundary itself, such as a count changed by a
/// refused call.
pub trait Depository: Clone {
    const NAME: &'static str;

    fn fresh() -> Self;
    fn call(&mut self, record: &[u8], area: &mut [u8]) -> Result<Answer, String>;
    /// Number, open, kind, cycles run, last minute, and whether a cycle is sent.
    fn day(&self) -> [u64; DAY_WORDS];
    fn rate(&self) -> u64;
    /// Securities, accounts, items and open requests.
    fn sizes(&self) -> [u64; SIZE_WORDS];
    /// Code, issued, held and outside of the security at a place, if there is
    /// one.
    fn security(&self, place: usize) -> Option<[u64; SECURITY_WORDS]>;
    fn held(&self, security: u64) -> u64;
    /// The waiting item at a place, if there is one.
    fn item(&self, place: usize) -> Option<[u64; ITEM_TOLD_WORDS]>;
    /// Security, type, shareholder, quantity and day of an open request.
    fn request(&self, member: u64, reference: u64) -> [u64; REQUEST_WORDS];
    fn book(&self) -> Result<Cow<'_, Book>, String>;
    fn read(record: &[u8]) -> Result<Result<Fields, u64>, String>;
    fn write(fields: &Fields, area: &mut [u8]) -> Result<(), u64>;
    /// What else the boundary promises, checked once.
    fn boundary_checks() -> Vec<(&'static str, bool)>;
}

impl Depository for Book {
    const NAME: &'static str = "the Rust reference";

    fn fresh() -> Book {
        Book::fresh()
    }

    fn call(&mut self, record: &[u8], area: &mut [u8]) -> Result<Answer, String> {
        Ok(Book::call(self, record, area))
    }

    fn day(&self) -> [u64; DAY_WORDS] {
        day_told(self)
    }

    fn rate(&self) -> u64 {
        self.rate
    }

    fn sizes(&self) -> [u64; SIZE_WORDS] {
        sizes_told(self)
    }

    fn security(&self, place: usize) -> Option<[u64; SECURITY_WORDS]> {
        security_told(self, place)
    }

    fn held(&self, security: u64) -> u64 {
        Book::held(self, security)
    }

    fn item(&self, place: usize) -> Option<[u64; ITEM_TOLD_WORDS]> {
        item_told(self, place)
    }

    fn request(&self, member: u64, reference: u64) -> [u64; REQUEST_WORDS] {
        request_told(self, member, reference)
    }

    fn book(&self) -> Result<Cow<'_, Book>, String> {
        Ok(Cow::Borrowed(self))
    }

    fn read(record: &[u8]) -> Result<Result<Fields, u64>, String> {
        Ok(record::read(record).map(|order| order.fields()))
    }

    fn write(fields: &Fields, area: &mut [u8]) -> Result<(), u64> {
        record::write(fields, area)
    }

    fn boundary_checks() -> Vec<(&'static str, bool)> {
        Vec::new()
    }
}

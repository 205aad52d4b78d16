//! The words in which a book crosses the C boundary, to and from the plain
//! `Book` that both sides of the comparison show.
//!
//! Words behind the counts of a table, and the two last words of the day, are
//! free: decoding skips them.

mod decode;
mod encode;
mod told;

pub use decode::decode;
pub use encode::encode;
pub use told::{day_told, item_told, request_told, security_told, sizes_told};

pub const BOOK_WORDS: usize = 1853;
pub const COUNT_WORDS: usize = 6;
pub const DAY_WORDS: usize = 6;
pub const SIZE_WORDS: usize = 4;
pub const SECURITY_WORDS: usize = 4;
/// What is told of a waiting item; it stands in fewer words.
pub const ITEM_TOLD_WORDS: usize = 18;
pub const REQUEST_WORDS: usize = 5;

/// What is answered for a buffer of a wrong length, and for a place behind the
/// last.
pub const WRONG_BOOK: u64 = 1001;
pub const WRONG_COUNTS: u64 = 1002;
pub const WRONG_FIELDS: u64 = 1003;
pub const WRONG_VALUES: u64 = 1004;
pub const NO_SUCH_PLACE: u64 = 1005;

/// The day: number, open, kind, cycles run, last minute, whether a cycle is
/// sent, two free words.
const DAY: usize = 0;
/// The securities: count, then codes, issued counts, outside counts and held
/// counts.
const SECURITIES: usize = 8;
const SECURITY_ROOM: usize = 32;
/// The accounts: count, then keys, then balances.
const ACCOUNTS: usize = 137;
const ACCOUNT_ROOM: usize = 256;
/// Cash of member m and currency c stands at 2 * (m - 1) + (c - 1).
const CASH: usize = 650;
/// The waiting list: count, then rows.
const WAITING: usize = 778;
const ITEM_ROOM: usize = 64;
const ITEM_WORDS: usize = 16;
/// The rate, one word.
const RATE: usize = 1803;
/// The open requests: count, then keys, then what was requested and of whom,
/// then quantities and days. Their order is free, as that of accounts is.
const REQUESTS: usize = 1804;
const REQUEST_ROOM: usize = 16;

/// The state word of a waiting item.
const SINGLE: u64 = 0;
const PAIR: u64 = 1;
const EXCHANGE_TRADE: u64 = 2;

/// The last word of a waiting item: 1 where a single is a deliver, or the
/// halves of a pair that are marked, and the mark of the cycle that is sent.
const DELIVER_MARK: u64 = 1;
const RECEIVE_MARK: u64 = 2;
const SENT_MARK: u64 = 4;

#[cfg(test)]
mod tests;

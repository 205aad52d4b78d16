//! The depository ledger, written a second time, from its paper alone. RULES
//! is docs/RULES.md, whose paragraphs say the same.
//!
//! It serves as the other side of the comparison and is never linked into
//! the product. Every number is a plain `u64` and every table a plain
//! collection, so that each function can be read beside its rule.

pub mod account_types;
pub mod book;
pub mod call;
pub mod cancel;
pub mod close;
pub mod cycle;
pub mod forms;
pub mod matching;
pub mod movements;
pub mod printing;
pub mod record;
pub mod refusals;
pub mod requests;
pub mod rows;
pub mod sent;
pub mod windows;
pub mod worked;

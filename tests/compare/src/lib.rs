//! The comparison of the library under test with the reference: drawn lists
//! of calls, the totals of such lists (RULES 12), and a table of what was
//! reached. RULES is docs/RULES.md.

pub mod coverage;
pub mod depository;
pub mod difference;
pub mod fitting;
pub mod generator;
#[cfg(library_linked)]
pub mod proved;
pub mod random;
pub mod record_alone;
pub mod replay;
pub mod run;
pub mod streams;
pub mod sweeps;
mod told;
pub mod totals;
pub mod worked;

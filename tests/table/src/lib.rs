//! Orders as a table and records as a table (RULES 15 and 16), written from
//! their paper alone, and the trial that holds the programs `import` and
//! `export` against it. RULES is docs/RULES.md.

pub mod damage;
pub mod draw;
pub mod met;
#[path = "../../compare/src/random.rs"]
pub mod random;
pub mod reading;
pub mod telling;
pub mod trial;
pub mod worked;
pub mod writing;

//! What the drawn tables met, and what they must have met.

use std::collections::BTreeMap;

use crate::reading::{Record, Refusal};
use crate::telling::{KINDS, told_as};

/// How often tables were accepted, and refused by each kind, with a column or
/// without.
#[derive(Default)]
pub struct Met {
    pub accepted: u64,
    pub records: u64,
    pub exports: u64,
    refused: BTreeMap<(u64, bool), u64>,
}

impl Met {
    pub fn read(&mut self, read: &Result<Vec<Record>, Refusal>) {
        match read {
            Ok(records) => {
                self.accepted += 1;
                self.records += records.len() as u64;
            }
            Err(refusal) => *self.refused.entry((refusal.kind, refusal.column.is_some())).or_insert(0) += 1,
        }
    }

    pub fn add(&mut self, other: Met) {
        self.accepted += other.accepted;
        self.records += other.records;
        self.exports += other.exports;
        other.refused.into_iter().for_each(|(cell, count)| *self.refused.entry(cell).or_insert(0) += count);
    }

    /// What a run must meet, with its counts. Lines that are too long (115)
    /// are not drawn.
    pub fn cells(&self) -> Vec<(String, u64)> {
        let mut cells = vec![("accepted".to_string(), self.accepted), ("exported".to_string(), self.exports)];
        cells.push((format!("5, without a column: {}", told_as(5)), self.count(5, false)));
        for kind in [3, 4, 5].into_iter().chain(KINDS.iter().map(|(kind, _)| *kind).filter(|kind| *kind != 115)) {
            let column = !matches!(kind, 101 | 105 | 106 | 114);
            cells.push((format!("{kind}: {}", told_as(kind)), self.count(kind, column)));
        }
        cells
    }

    fn count(&self, kind: u64, column: bool) -> u64 {
        self.refused.get(&(kind, column)).copied().unwrap_or(0)
    }
}

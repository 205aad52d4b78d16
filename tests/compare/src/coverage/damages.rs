//! Damaged records: every kind of damage that stands alone in a record.

use reference::forms::{self, Form};
use reference::record::{FIELDS, Field, RECORD_BYTES, ZERO_BITS, largest, unpack};

use super::{Cell, Coverage};
use crate::generator::damage::{LAST_BITS, unknown_forms};

/// Fields are named by their place in the record.
#[derive(Clone, Copy, Debug, PartialEq, Eq, PartialOrd, Ord)]
pub enum Damage {
    Length(usize),
    LengthAbove80,
    Form(u64),
    Unused {
        form: u64,
        field: usize,
    },
    ZeroBits,
    /// One alone of the last 48 bits, whatever field has it.
    LastBit(usize),
    Zero {
        form: u64,
        field: usize,
    },
    Above {
        form: u64,
        field: usize,
    },
}

impl Coverage {
    pub(super) fn damaged(&mut self, bytes: &[u8]) {
        if let [only] = damages(bytes)[..] {
            self.reach(Cell::Damage(only));
            if let Some(bit) = last_bit(bytes) {
                self.reach(Cell::Damage(Damage::LastBit(bit)));
            }
        }
    }
}

fn damages(bytes: &[u8]) -> Vec<Damage> {
    if bytes.len() != RECORD_BYTES {
        return vec![if bytes.len() > 80 { Damage::LengthAbove80 } else { Damage::Length(bytes.len()) }];
    }
    let fields = unpack(bytes);
    let Some(form) = forms::form(fields[0]) else {
        return vec![Damage::Form(fields[0])];
    };
    let number = form.number;
    let mut found = Vec::new();
    if last_bits(bytes).any(|bit| bit >= LAST_BITS - ZERO_BITS) {
        found.push(Damage::ZeroBits);
    }
    for (place, (field, value)) in FIELDS.into_iter().zip(fields).enumerate() {
        let (least, most) = form.range(field);
        match form.uses(field) {
            false if value != 0 => found.push(Damage::Unused { form: number, field: place }),
            true if value < least => found.push(Damage::Zero { form: number, field: place }),
            true if value > most => found.push(Damage::Above { form: number, field: place }),
            _ => {}
        }
    }
    found
}

/// Which of the last 48 bits are set, counted from 0.
fn last_bits(bytes: &[u8]) -> impl Iterator<Item = usize> {
    let last = &bytes[bytes.len().saturating_sub(LAST_BITS / 8)..];
    (0..8 * last.len()).filter(|bit| last[bit / 8] & (0x80 >> (bit % 8)) != 0)
}

/// The one that is set of a whole record's last 48 bits, if it is alone.
pub fn last_bit(bytes: &[u8]) -> Option<usize> {
    let mut set = last_bits(bytes);
    let first = set.next().filter(|_| bytes.len() == RECORD_BYTES)?;
    set.next().is_none().then_some(first)
}

pub fn wanted() -> Vec<Damage> {
    let mut wanted: Vec<Damage> = (0..=80).filter(|length| *length != RECORD_BYTES).map(Damage::Length).collect();
    wanted.push(Damage::LengthAbove80);
    wanted.extend(unknown_forms().into_iter().map(Damage::Form));
    wanted.push(Damage::ZeroBits);
    wanted.extend((0..LAST_BITS).map(Damage::LastBit));
    for form in forms::TABLE {
        for (place, field) in FIELDS.into_iter().enumerate().skip(1) {
            wanted.extend(wanted_of_field(form, place, field));
        }
    }
    wanted
}

fn wanted_of_field(form: &Form, place: usize, field: Field) -> Vec<Damage> {
    let number = form.number;
    if !form.uses(field) {
        return vec![Damage::Unused { form: number, field: place }];
    }
    let (least, most) = form.range(field);
    let mut wanted = Vec::new();
    if least > 0 {
        wanted.push(Damage::Zero { form: number, field: place });
    }
    if most < largest(field) {
        wanted.push(Damage::Above { form: number, field: place });
    }
    wanted
}

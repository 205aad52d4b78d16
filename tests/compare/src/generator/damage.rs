//! Damage to a record's bytes, and areas of every length.

use reference::call::AREA_BYTES;
use reference::forms::{self, Form};
use reference::record::{FIELDS, Field, Fields, Order, RECORD_BYTES, largest, pack};

use crate::random::Random;

/// The bits behind the reference: three fields, and bits that are always zero.
pub const LAST_BITS: usize = 48;

/// What the form field can hold that is no form.
pub fn unknown_forms() -> Vec<u64> {
    (0..=largest(Field::Form)).filter(|number| forms::form(*number).is_none()).collect()
}

/// A record with one thing wrong, of any kind that the reader can meet.
pub fn damaged(order: &Order, random: &mut Random) -> Vec<u8> {
    match random.below(16) {
        0..=4 => unused_set(order, random),
        5..=7 => used_zero(order, random),
        8 | 9 => used_above(order, random),
        10 => other_form(order, random),
        11 => last_bit_set(order, random),
        12 => pack(&two_wrong(order, random), random.below(2)).to_vec(),
        13 => other_length(order, random),
        14 => flipped(order, random),
        _ => noise(random),
    }
}

/// A field's value of every size, but not 0.
fn some_value(field: Field, random: &mut Random) -> u64 {
    random.between(1, largest(field))
}

/// The fields of an order for which something holds in its form.
fn fields_where(order: &Order, wanted: impl Fn(&Form, Field) -> bool) -> Vec<Field> {
    let form = forms::form(order.form);
    FIELDS.into_iter().filter(|field| form.is_some_and(|form| wanted(form, *field))).collect()
}

fn with(order: &Order, field: Option<Field>, value: impl Fn(Field) -> u64) -> Fields {
    let mut fields = order.fields();
    if let Some(field) = field {
        fields[field as usize] = value(field);
    }
    fields
}

fn unused_set(order: &Order, random: &mut Random) -> Vec<u8> {
    let field = random.maybe_pick(&fields_where(order, |form, field| !form.uses(field)));
    let value = field.map_or(0, |field| some_value(field, random));
    pack(&with(order, field, |_| value), 0).to_vec()
}

fn used_zero(order: &Order, random: &mut Random) -> Vec<u8> {
    let ranged = |form: &Form, field| field != Field::Form && form.uses(field) && form.range(field).0 > 0;
    let field = random.maybe_pick(&fields_where(order, ranged));
    pack(&with(order, field, |_| 0), 0).to_vec()
}

fn used_above(order: &Order, random: &mut Random) -> Vec<u8> {
    let most = |form: &Form, field| form.range(field).1;
    let ranged = |form: &Form, field| field != Field::Form && form.uses(field) && most(form, field) < largest(field);
    let field = random.maybe_pick(&fields_where(order, ranged));
    let edge = random.percent(50);
    let above = forms::form(order.form).zip(field).map_or(0, |(form, field)| {
        let first = most(form, field) + 1;
        if edge { first } else { random.between(first, largest(field)) }
    });
    pack(&with(order, field, |_| above), 0).to_vec()
}

fn other_form(order: &Order, random: &mut Random) -> Vec<u8> {
    let form = random.pick(&unknown_forms());
    pack(&Order { form, ..*order }.fields(), 0).to_vec()
}

fn last_bit_set(order: &Order, random: &mut Random) -> Vec<u8> {
    let mut bytes = pack(&order.fields(), 0).to_vec();
    let bit = 8 * RECORD_BYTES - 1 - random.place(LAST_BITS);
    bytes[bit / 8] |= 0x80 >> (bit % 8);
    bytes
}

/// Any two fields set to anything.
fn two_wrong(order: &Order, random: &mut Random) -> Fields {
    let mut fields = order.fields();
    for _ in 0..2 {
        let field = random.pick(&FIELDS[1..]);
        fields[field as usize] = if random.percent(30) { 0 } else { some_value(field, random) };
    }
    fields
}

fn other_length(order: &Order, random: &mut Random) -> Vec<u8> {
    let mut bytes = pack(&order.fields(), 0).to_vec();
    let length = match random.below(10) {
        0 => random.between(RECORD_BYTES as u64 + 1, 5_000),
        1 => random.pick(&[0, 39, 41, 80]),
        _ => random.below(81),
    };
    bytes.resize(length as usize, 0);
    bytes
}

fn flipped(order: &Order, random: &mut Random) -> Vec<u8> {
    let mut bytes = pack(&order.fields(), 0).to_vec();
    let bit = random.place(RECORD_BYTES * 8);
    bytes[bit / 8] ^= 1 << (bit % 8);
    bytes
}

fn noise(random: &mut Random) -> Vec<u8> {
    let mut bytes = vec![0; RECORD_BYTES];
    random.fill(&mut bytes);
    bytes
}

/// The length of a lent area.
pub fn area_length(short_permille: u64, random: &mut Random) -> usize {
    if random.permille(short_permille) {
        return match random.below(4) {
            0 => random.pick(&[0, 1, 15, 16, 40, AREA_BYTES - 1]),
            _ => random.place(AREA_BYTES),
        };
    }
    match random.below(4) {
        0 | 1 => AREA_BYTES,
        2 => AREA_BYTES + random.place(64),
        _ => AREA_BYTES + random.place(2_000),
    }
}

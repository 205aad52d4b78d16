//! The tables of forms and refusals, and the layout of the record.

mod common;

use std::collections::BTreeSet;

use common::*;
use reference::forms::{self, FORMS, Form};
use reference::record::{
    FIELD_COUNT, FIELDS, Field, Order, RECORD_BYTES, WIDTHS, ZERO_BITS, ZERO_OFFSET, largest, pack, read, unpack, write,
};
use reference::refusals::{self, REFUSALS};

/// The order of a form whose used fields are all at their least.
fn least(form: &Form) -> Order {
    let value = |field: Field| if form.uses(field) { form.range(field).0 } else { 0 };
    Order { form: form.number, ..Order::from_fields(FIELDS.map(value)) }
}

#[test]
fn no_number_stands_twice() {
    let forms: BTreeSet<u64> = forms::TABLE.iter().map(|form| form.number).collect();
    let names: BTreeSet<&str> = forms::TABLE.iter().map(|form| form.name).collect();
    let refusals: BTreeSet<u64> = refusals::TABLE.iter().map(|refusal| refusal.number).collect();
    assert_eq!((forms.len(), names.len(), refusals.len()), (FORMS, FORMS, REFUSALS));
    assert!(!forms.contains(&0) && forms.iter().all(|form| *form <= largest(Field::Form)));
    assert!(!refusals.contains(&0), "0 is the answer of an accepted call");
}

#[test]
fn ranges_are_of_used_fields_and_fit_their_widths() {
    for form in forms::TABLE {
        assert!(form.ranges.iter().all(|(field, _, _)| form.fields.contains(field)), "form {}", form.number);
        for field in form.fields {
            let (least, most) = form.range(*field);
            assert!(least <= most && most <= largest(*field), "form {}, {field:?}", form.number);
        }
    }
}

#[test]
fn every_form_reads_at_the_least_of_its_fields() {
    for order in forms::TABLE.iter().map(least) {
        assert_eq!(read(&record(&order)), Ok(order));
    }
}

#[test]
fn fields_and_zero_bits_fill_the_record() {
    assert_eq!(WIDTHS.iter().sum::<usize>(), ZERO_OFFSET);
    assert_eq!(ZERO_OFFSET + ZERO_BITS, 8 * RECORD_BYTES);
    assert!(FIELDS.iter().enumerate().all(|(place, field)| *field as usize == place));
}

/// The last six bytes of a record with these fields.
fn last_bytes(operation: u64, original: u64, edition: u64) -> [u8; 6] {
    let order = Order { operation, original, edition, ..Order::default() };
    let bytes = record(&order);
    assert_eq!(Order::from_fields(unpack(&bytes)), order);
    assert!(bytes[..34].iter().all(|byte| *byte == 0));
    bytes[34..].try_into().expect("six bytes")
}

#[test]
fn operation_original_and_edition_stand_behind_the_reference() {
    assert_eq!(last_bytes(1, 7, 0), [0x20, 0x00, 0x00, 0x00, 0xE0, 0x00]);
    assert_eq!(last_bytes(2, u64::from(u32::MAX), 0), [0x5F, 0xFF, 0xFF, 0xFF, 0xE0, 0x00]);
    assert_eq!(last_bytes(0, 0, 1), [0x00, 0x00, 0x00, 0x00, 0x10, 0x00]);
    assert_eq!(pack(&[0; FIELD_COUNT], 0xFFF)[34..], [0x00, 0x00, 0x00, 0x00, 0x0F, 0xFF]);
}

#[test]
fn each_of_the_last_48_bits_is_4_in_every_form() {
    for order in forms::TABLE.iter().map(least) {
        for bit in 8 * RECORD_BYTES - 48..8 * RECORD_BYTES {
            let mut bytes = record(&order);
            bytes[bit / 8] |= 0x80 >> (bit % 8);
            assert_eq!(read(&bytes), Err(4), "form {}, bit {bit}", order.form);
        }
    }
}

#[test]
fn the_writer_refuses_the_last_three_fields_in_every_form() {
    for form in forms::TABLE {
        for field in [Field::Operation, Field::Original, Field::Edition] {
            for value in [1, largest(field), largest(field) + 1, u64::MAX] {
                let mut fields = least(form).fields();
                fields[field as usize] = value;
                assert_eq!(write(&fields, &mut [0; RECORD_BYTES]), Err(4), "form {}, {field:?}", form.number);
            }
        }
    }
}

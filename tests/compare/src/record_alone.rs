//! The record reader and writer alone, which have no book: every form,
//! damaged bytes, fields that do not fit, and both round trips.

use std::collections::BTreeMap;

use reference::forms::{self, FORMS, Form};
use reference::record::{self, FIELDS, Field, Fields, Order, WIDTHS, largest};

use crate::coverage::damages::last_bit;
use crate::depository::Depository;
use crate::generator::damage::{LAST_BITS, damaged};
use crate::random::Random;

/// How often something was reached, by its name.
#[derive(Default)]
pub struct Reached {
    counts: BTreeMap<String, u64>,
}

/// An answer by form; 0 where the form is none, or the record has not 40
/// bytes.
fn answered(who: &str, form: u64, answer: u64) -> String {
    format!("{who}, form {form}, answer {answer}")
}

/// A record that is refused with 4, of whose last bits this one alone is set.
fn refused_bit(bit: usize) -> String {
    format!("reader, bit {bit} of the last {LAST_BITS}, answer 4")
}

/// An order that is refused with 4, of whose unused fields this one alone is
/// set; it may fit its width or not.
fn refused_field(form: u64, field: Field, fits: bool) -> String {
    format!("writer, form {form}, {field:?} set, fits {fits}, answer 4")
}

impl Reached {
    /// The cells that a run must fill, with their counts.
    pub fn cells(&self) -> Vec<(String, u64)> {
        let mut cells = vec![
            answered("reader", 0, 2),
            answered("reader", 0, 3),
            answered("writer", 0, 1),
            answered("writer", 0, 3),
        ];
        for form in forms::TABLE {
            cells.extend([0, 4, 5].map(|answer| answered("reader", form.number, answer)));
            cells.extend([0, 1, 4, 5].map(|answer| answered("writer", form.number, answer)));
            for field in FIELDS.into_iter().filter(|field| !form.uses(*field)) {
                cells.extend([true, false].map(|fits| refused_field(form.number, field, fits)));
            }
        }
        cells.extend((0..LAST_BITS).map(refused_bit));
        let count = |name: &String| self.counts.get(name).copied().unwrap_or(0);
        cells.into_iter().map(|name| (name.clone(), count(&name))).collect()
    }

    fn reach(&mut self, name: String) {
        *self.counts.entry(name).or_insert(0) += 1;
    }

    fn read(&mut self, bytes: &[u8], answer: u64) {
        let form = if matches!(answer, 2 | 3) { 0 } else { u64::from(bytes[0] >> 3) };
        self.reach(answered("reader", form, answer));
        if answer == 4 {
            last_bit(bytes).into_iter().for_each(|bit| self.reach(refused_bit(bit)));
        }
    }

    fn written(&mut self, fields: &Fields, answer: u64) {
        let Some(form) = forms::form(fields[Field::Form as usize]) else {
            return self.reach(answered("writer", 0, answer));
        };
        self.reach(answered("writer", form.number, answer));
        let set = |field: &Field| !form.uses(*field) && fields[*field as usize] != 0;
        let set: Vec<Field> = FIELDS.into_iter().filter(set).collect();
        if let [field] = set[..]
            && answer == 4
        {
            self.reach(refused_field(form.number, field, fields[field as usize] <= largest(field)));
        }
    }
}

/// Runs `rounds` records and as many sets of fields.
pub fn run<D: Depository>(seed: u64, rounds: u64) -> Result<Reached, String> {
    let mut random = Random::new(seed);
    let mut reached = Reached::default();
    for round in 0..rounds {
        let order = any_order(forms::TABLE[round as usize % FORMS], &mut random);
        let bytes = any_record(&order, &mut random);
        let answer = read_once::<D>(&bytes, &mut random).map_err(|text| format!("reader, round {round}: {text}"))?;
        reached.read(&bytes, answer);
        let fields = any_fields(&order, &mut random);
        let answer = write_once::<D>(&fields, &mut random).map_err(|text| format!("writer, round {round}: {text}"))?;
        reached.written(&fields, answer);
    }
    Ok(reached)
}

/// A good order of a form, its fields often at the ends of their ranges.
pub fn any_order(form: Form, random: &mut Random) -> Order {
    let mut fields = [0; FIELDS.len()];
    for field in FIELDS.into_iter().filter(|field| form.uses(*field)) {
        let (low, high) = form.range(field);
        fields[field as usize] = match random.below(6) {
            0 => low,
            1 => high,
            _ => random.between(low, high),
        };
    }
    fields[Field::Form as usize] = form.number;
    Order::from_fields(fields)
}

fn any_record(order: &Order, random: &mut Random) -> Vec<u8> {
    match random.below(10) {
        0..=3 => record::pack(&order.fields(), 0).to_vec(),
        4 => {
            let mut bytes = vec![0; random.place(200)];
            random.fill(&mut bytes);
            bytes
        }
        _ => damaged(order, random),
    }
}

/// Reads a record on both sides; a good one is written back.
fn read_once<D: Depository>(bytes: &[u8], random: &mut Random) -> Result<u64, String> {
    let expected = record::read(bytes).map(|order| order.fields());
    let found = D::read(bytes)?;
    if expected != found {
        return Err(format!("{bytes:02X?}: expected {expected:?}, found {found:?}"));
    }
    let Ok(fields) = found else {
        return Ok(found.err().unwrap_or(0));
    };
    let (before, mut area) = lent_area(40 + random.place(60), random);
    let written = D::write(&fields, &mut area);
    if written.is_err() || area[..40] != *bytes || area[40..] != before[40..] {
        return Err(format!("{bytes:02X?}: written back as {area:02X?}, {written:?}"));
    }
    Ok(0)
}

fn lent_area(length: usize, random: &mut Random) -> (Vec<u8>, Vec<u8>) {
    let mut area = vec![0; length];
    random.fill(&mut area);
    (area.clone(), area)
}

/// Fields for the writer: good ones, or some set to anything, also to what
/// is wider than the record's field.
fn any_fields(order: &Order, random: &mut Random) -> Fields {
    let mut fields = order.fields();
    let wrong = random.pick(&[0, 0, 1, 1, 1, 2, 3]);
    for _ in 0..wrong {
        let place = random.place(fields.len());
        if place == 0 && random.percent(70) {
            continue;
        }
        let width = WIDTHS[place];
        fields[place] = match random.below(8) {
            0 => 0,
            1 => 1 << width,
            2 => u64::MAX,
            3 => random.word(),
            4 => (1 << width) - 1,
            5 => fields[place] | 1 << random.between(width as u64, 63),
            _ => random.below(1 << width),
        };
    }
    fields
}

/// Writes fields on both sides; good ones are read back.
fn write_once<D: Depository>(fields: &Fields, random: &mut Random) -> Result<u64, String> {
    let length = match random.below(8) {
        0 => random.place(40),
        1 | 2 => 40,
        _ => 40 + random.place(5_000),
    };
    let (mut expected_area, mut found_area) = lent_area(length, random);
    let expected = record::write(fields, &mut expected_area);
    let found = D::write(fields, &mut found_area);
    if expected != found {
        return Err(format!("{fields:?}: expected {expected:?}, found {found:?}"));
    }
    if expected_area != found_area {
        return Err(format!("{fields:?}: the areas differ after {found:?}"));
    }
    if found.is_ok() && D::read(&found_area[..40])? != Ok(*fields) {
        return Err(format!("{fields:?}: not read back"));
    }
    Ok(found.err().unwrap_or(0))
}

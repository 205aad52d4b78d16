//! Reads a table (RULES 15): its records, or the first thing that is wrong.

use reference::forms;
use reference::record::{FIELDS, Field, Fields, NAMES, RECORD_BYTES, write};

use crate::telling::shown;

/// A line of more bytes, its line feed not counted, is too long (115).
pub const LINE_BYTES: usize = 16_382;
const BYTE_ORDER_MARK: &[u8] = b"\xEF\xBB\xBF";

pub type Record = [u8; RECORD_BYTES];

/// Why a table is refused: 3, 4, 5, or 101 to 115 (RULES 15.8). The column is
/// none where no single one is meant.
#[derive(Clone, Debug, PartialEq, Eq)]
pub struct Refusal {
    pub kind: u64,
    pub line: usize,
    pub column: Option<usize>,
    pub name: Option<String>,
}

/// A line without its end. Numbers of lines and columns begin with 1.
struct Line<'a> {
    number: usize,
    bytes: usize,
    cells: Vec<&'a [u8]>,
}

pub fn read(file: &[u8]) -> Result<Vec<Record>, Refusal> {
    let lines = lines(file.strip_prefix(BYTE_ORDER_MARK).unwrap_or(file));
    let Some((first, others)) = lines.split_first() else {
        return Err(Refusal { kind: 101, line: 1, column: None, name: None });
    };
    let columns = first.columns()?;
    let mut empty = None;
    let mut records = Vec::new();
    for line in others {
        line.fits()?;
        if line.is_empty() {
            empty = empty.or(Some(line));
        } else if let Some(empty) = empty {
            return Err(empty.whole(114));
        } else {
            records.push(line.record(&columns)?);
        }
    }
    Ok(records)
}

fn lines(text: &[u8]) -> Vec<Line<'_>> {
    text.split_inclusive(|byte| *byte == b'\n').enumerate().map(|(place, bytes)| line(place + 1, bytes)).collect()
}

fn line(number: usize, bytes: &[u8]) -> Line<'_> {
    let ended = bytes.strip_suffix(b"\n").unwrap_or(bytes);
    let cells = ended.split(|byte| *byte == b',').map(without_blanks).collect();
    Line { number, bytes: ended.len(), cells }
}

fn without_blanks(cell: &[u8]) -> &[u8] {
    let kept = |byte: &u8| !matches!(byte, b' ' | b'\t' | b'\r');
    let start = cell.iter().position(kept).unwrap_or(cell.len());
    let end = cell.iter().rposition(kept).map_or(start, |place| place + 1);
    &cell[start..end]
}

fn has_quote(cell: &[u8]) -> bool {
    cell.contains(&b'"')
}

impl Line<'_> {
    fn is_empty(&self) -> bool {
        self.cells.len() == 1 && self.cells[0].is_empty()
    }

    fn refused(&self, kind: u64, column: Option<usize>, name: Option<&str>) -> Refusal {
        Refusal { kind, line: self.number, column: column.map(|place| place + 1), name: name.map(str::to_string) }
    }

    /// A line that is no field's alone.
    fn whole(&self, kind: u64) -> Refusal {
        self.refused(kind, None, None)
    }

    fn fits(&self) -> Result<(), Refusal> {
        if self.bytes > LINE_BYTES { Err(self.whole(115)) } else { Ok(()) }
    }

    /// The fields that the first line names.
    fn columns(&self) -> Result<Vec<Field>, Refusal> {
        self.fits()?;
        if self.is_empty() {
            return Err(self.whole(114));
        }
        let mut columns = Vec::new();
        for (place, cell) in self.cells.iter().enumerate() {
            let name = (!cell.is_empty()).then(|| shown(cell));
            columns.push(column(cell, &columns).map_err(|kind| self.refused(kind, Some(place), name.as_deref()))?);
        }
        for (field, kind) in [(Field::Form, 105), (Field::Minute, 106)] {
            if !columns.contains(&field) {
                return Err(self.whole(kind));
            }
        }
        Ok(columns)
    }

    /// The record of any other line.
    fn record(&self, columns: &[Field]) -> Result<Record, Refusal> {
        let mut fields = [0; FIELDS.len()];
        for (place, field) in columns.iter().enumerate() {
            let value = self.cells.get(place).ok_or(107).and_then(|cell| value(*field, cell));
            let refused = |kind| self.refused(kind, Some(place), Some(NAMES[*field as usize]));
            fields[*field as usize] = value.map_err(refused)?;
        }
        if self.cells.len() > columns.len() {
            return Err(self.refused(108, Some(columns.len()), None));
        }
        let mut record = [0; RECORD_BYTES];
        write(&fields, &mut record).map_err(|number| self.by_the_writer(number, &fields, columns))?;
        Ok(record)
    }

    /// Refusals 3 to 5 are told of the first field to which they apply.
    fn by_the_writer(&self, number: u64, fields: &Fields, columns: &[Field]) -> Refusal {
        let at_fault = FIELDS.into_iter().find(|field| applies(number, *field, fields));
        let column = at_fault.and_then(|field| columns.iter().position(|column| *column == field));
        self.refused(number, column, at_fault.map(|field| NAMES[field as usize]))
    }
}

/// The field of a cell of the first line, where those before it are known.
fn column(cell: &[u8], before: &[Field]) -> Result<Field, u64> {
    if before.len() == FIELDS.len() {
        return Err(102);
    }
    if cell.is_empty() {
        return Err(109);
    }
    let Some(place) = NAMES.iter().position(|name| name.as_bytes() == cell) else {
        return Err(if has_quote(cell) { 112 } else { 103 });
    };
    if before.contains(&FIELDS[place]) { Err(104) } else { Ok(FIELDS[place]) }
}

/// What a cell says under a field.
fn value(field: Field, cell: &[u8]) -> Result<u64, u64> {
    let must_say = matches!(field, Field::Form | Field::Minute);
    match cell.first() {
        None if must_say => Err(109),
        None => Ok(0),
        Some(byte) if field == Field::Form && !byte.is_ascii_digit() => form(cell),
        Some(_) => number(cell),
    }
}

/// The number of the form of this name.
fn form(cell: &[u8]) -> Result<u64, u64> {
    let named = forms::TABLE.iter().find(|form| form.name.as_bytes() == cell);
    named.map(|form| form.number).ok_or(if has_quote(cell) { 112 } else { 113 })
}

fn number(cell: &[u8]) -> Result<u64, u64> {
    let strange: u64 = if has_quote(cell) { 112 } else { 110 };
    let with = |value: u64, byte: &u8| {
        let digit = byte.is_ascii_digit().then(|| u64::from(byte - b'0')).ok_or(strange)?;
        value.checked_mul(10).and_then(|tens| tens.checked_add(digit)).ok_or(111)
    };
    cell.iter().try_fold(0, with)
}

/// Whether one of the writer's tests 3 to 5 fails at this field.
fn applies(number: u64, field: Field, fields: &Fields) -> bool {
    let value = fields[field as usize];
    let Some(form) = forms::form(fields[Field::Form as usize]) else {
        return field == Field::Form;
    };
    let (least, most) = form.range(field);
    match number {
        4 => !form.uses(field) && value != 0,
        _ => form.uses(field) && !(least..=most).contains(&value),
    }
}

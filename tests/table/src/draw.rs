//! Draws tables of good orders, in every way in which they may be written.

use reference::forms::{self, Form};
use reference::record::{FIELDS, Field, Fields, NAMES};

use crate::damage;
use crate::random::Random;

/// A table before it is text: the names of its columns, and cells below them.
pub struct Sheet {
    pub names: Vec<Vec<u8>>,
    pub lines: Vec<Vec<Vec<u8>>>,
}

/// How a table is written down.
struct Style {
    mark: bool,
    /// Of so many lines in a hundred the line feed has a carriage return.
    returns: u64,
    /// So many cells in a hundred have blanks around them.
    blanks: u64,
    last_feed: bool,
    lines_behind: u64,
}

/// A longer line might not fit the program's buffer (115).
const LONGEST_LINE: usize = 60_000;

/// The table of a run. The same seed and run give the same bytes.
pub fn table(seed: u64, run: u64) -> Vec<u8> {
    let mut random = Random::new(Random::new(seed).word() ^ run);
    loop {
        let bytes = any_bytes(&mut random);
        if bytes.split(|byte| *byte == b'\n').all(|line| line.len() <= LONGEST_LINE) {
            return bytes;
        }
    }
}

fn any_bytes(random: &mut Random) -> Vec<u8> {
    match random.below(200) {
        0..=2 => damage::noise(random),
        3..=8 => damage::scraps(random),
        _ => {
            let mut sheet = sheet(random);
            let damages = random.pick(&[0, 0, 0, 1, 1, 1, 1, 2]);
            (0..damages).for_each(|_| damage::sheet(&mut sheet, random));
            let mut bytes = written(&sheet, random);
            let damages = random.pick(&[0, 0, 0, 0, 1, 1, 2]);
            (0..damages).for_each(|_| damage::bytes(&mut bytes, random));
            bytes
        }
    }
}

/// Any orders, or those of one form or two.
fn orders(random: &mut Random) -> Vec<Fields> {
    let few: Vec<u64> = (0..random.between(1, 2)).map(|_| random.between(1, forms::FORMS as u64)).collect();
    let mixed = random.percent(40);
    // Some tables are larger than the program's buffer.
    let most = if random.permille(3) { 4_000 } else { 9 };
    let order = |random: &mut Random| {
        let form = if mixed { random.between(1, forms::FORMS as u64) } else { random.pick(&few) };
        self::order(forms::form(form).expect("a form"), random)
    };
    (0..random.below(most)).map(|_| order(random)).collect()
}

/// A good order of a form, its fields often at the ends of their ranges.
pub fn order(form: &Form, random: &mut Random) -> Fields {
    let mut fields = FIELDS.map(|field| {
        let (least, most) = form.range(field);
        match random.below(5) {
            _ if !form.uses(field) => 0,
            0 => least,
            1 => most,
            2 => random.between(least, most.min(least + 9)),
            _ => random.between(least, most),
        }
    });
    fields[Field::Form as usize] = form.number;
    fields
}

/// Columns for what the orders say, and some more, in any order.
fn sheet(random: &mut Random) -> Sheet {
    let orders = orders(random);
    let more = random.pick(&[0, 0, 10, 50, 100]);
    let needed = |field: &Field| {
        matches!(field, Field::Form | Field::Minute) || orders.iter().any(|order| order[*field as usize] != 0)
    };
    let mut columns: Vec<Field> = FIELDS.into_iter().filter(|field| needed(field) || random.percent(more)).collect();
    if random.percent(80) {
        random.shuffle(&mut columns);
    }
    let names = columns.iter().map(|field| NAMES[*field as usize].as_bytes().to_vec()).collect();
    let mut line = |order: &Fields| columns.iter().map(|field| cell(*field, order[*field as usize], random)).collect();
    Sheet { names, lines: orders.iter().map(&mut line).collect() }
}

fn cell(field: Field, value: u64, random: &mut Random) -> Vec<u8> {
    if field == Field::Form && random.percent(60) {
        return forms::form(value).map_or("", |form| form.name).into();
    }
    if value == 0 && field != Field::Minute && random.percent(60) {
        return Vec::new();
    }
    let zeros = if random.percent(10) { random.place(30) } else { 0 };
    format!("{}{value}", "0".repeat(zeros)).into()
}

fn style(random: &mut Random) -> Style {
    Style {
        mark: random.percent(20),
        returns: random.pick(&[0, 0, 50, 100]),
        blanks: random.pick(&[0, 0, 20, 80]),
        last_feed: random.percent(70),
        lines_behind: if random.percent(15) { random.between(1, 4) } else { 0 },
    }
}

fn written(sheet: &Sheet, random: &mut Random) -> Vec<u8> {
    let style = style(random);
    let mut bytes = if style.mark { b"\xEF\xBB\xBF".to_vec() } else { Vec::new() };
    let mut lines: Vec<&[Vec<u8>]> = vec![&sheet.names];
    lines.extend(sheet.lines.iter().map(Vec::as_slice));
    let empty = [Vec::new()];
    lines.extend((0..style.lines_behind).map(|_| empty.as_slice()));
    for (place, line) in lines.iter().enumerate() {
        for (column, cell) in line.iter().enumerate() {
            bytes.extend((column > 0).then_some(b','));
            bytes.extend(blanks(style.blanks, random));
            bytes.extend(cell);
            bytes.extend(blanks(style.blanks, random));
        }
        if place + 1 < lines.len() || style.last_feed {
            let returned = random.percent(style.returns);
            bytes.extend(if returned { b"\r\n".as_slice() } else { b"\n" });
        }
    }
    bytes
}

fn blanks(percent: u64, random: &mut Random) -> Vec<u8> {
    if !random.percent(percent) {
        return Vec::new();
    }
    let count = if random.permille(1) { random.between(1, 20_000) } else { random.between(1, 3) };
    (0..count).map(|_| random.pick(b"  \t")).collect()
}

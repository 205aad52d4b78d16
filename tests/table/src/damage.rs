//! Damages tables: their names, cells, columns and lines, and their bytes.

use reference::forms;
use reference::record::{NAMES, RECORD_BYTES, WIDTHS};

use crate::draw::{self, Sheet};
use crate::random::Random;

/// Bytes that mean something in a table, or nearly do.
const TELLING: &[u8] = b",,,\"\"\n\n\r\t 00123456789-+.;'#xX\x00\x0B\x1A\x7F\xA0\xEF\xBB\xBF\xFF";

/// One damage to the cells of a table.
pub fn sheet(sheet: &mut Sheet, random: &mut Random) {
    match random.below(22) {
        0..=3 => name(sheet, random),
        4..=5 => drop_column(sheet, random),
        6 => double_column(sheet, random),
        7 => columns_too_many(sheet, random),
        8 => swap_names(sheet, random),
        9..=12 => cell(sheet, random),
        13..=15 => value(sheet, random),
        16 => cells_fewer(sheet, random),
        17 => cells_more(sheet, random),
        18..=19 => form(sheet, random),
        _ => empty_lines(sheet, random),
    }
}

/// A name is changed, dropped or added, and the cells stay.
fn name(sheet: &mut Sheet, random: &mut Random) {
    let place = random.place(sheet.names.len());
    match random.below(6) {
        0 => sheet.names.insert(random.place(sheet.names.len() + 1), strange_name(random)),
        1 if sheet.names.len() > 1 => drop(sheet.names.remove(place)),
        2 => sheet.names[place].make_ascii_uppercase(),
        3 => sheet.names[place] = random.pick(&NAMES).into(),
        _ => sheet.names[place] = strange_name(random),
    }
}

fn strange_name(random: &mut Random) -> Vec<u8> {
    let name = random.pick(&NAMES);
    match random.below(8) {
        0 => Vec::new(),
        1 => format!("\"{name}\"").into(),
        2 => name[..name.len() - 1].into(),
        3 => name.replace(' ', "  ").into(),
        4 => {
            random.pick(&["note", "(zero)", "zero", "debited", "Minute", "day", "quantity.", "type of account"]).into()
        }
        5 => some(random.pick(&[79, 80, 81, 200]), random),
        _ => {
            let mut changed = name.as_bytes().to_vec();
            bytes(&mut changed, random);
            changed.retain(|byte| !matches!(byte, b',' | b'\n'));
            changed
        }
    }
}

/// Up to so many bytes, none of which ends a cell.
fn some(most: usize, random: &mut Random) -> Vec<u8> {
    let mut drawn = vec![0; most - random.place(3).min(most)];
    random.fill(&mut drawn);
    let printable = random.percent(50);
    drawn
        .iter()
        .map(|byte| if printable { b'a' + byte % 26 } else { *byte })
        .filter(|byte| !b",\n".contains(byte))
        .collect()
}

/// A column goes with its cells.
fn drop_column(sheet: &mut Sheet, random: &mut Random) {
    let place = random.place(sheet.names.len());
    if sheet.names.len() > 1 {
        sheet.names.remove(place);
        sheet.lines.iter_mut().filter(|line| place < line.len()).for_each(|line| drop(line.remove(place)));
    }
}

fn double_column(sheet: &mut Sheet, random: &mut Random) {
    let (from, to) = (random.place(sheet.names.len()), random.place(sheet.names.len() + 1));
    for line in sheet.lines.iter_mut().chain([&mut sheet.names]) {
        if from < line.len() && to <= line.len() {
            line.insert(to, line[from].clone());
        }
    }
}

/// All names, and one or more behind them.
fn columns_too_many(sheet: &mut Sheet, random: &mut Random) {
    for name in NAMES {
        if !sheet.names.iter().any(|named| named == name.as_bytes()) {
            sheet.names.push(name.into());
            sheet.lines.iter_mut().for_each(|line| line.push(Vec::new()));
        }
    }
    for _ in 0..random.between(1, 3) {
        let name = if random.percent(50) { random.pick(&NAMES).into() } else { strange_name(random) };
        sheet.names.push(name);
    }
}

fn swap_names(sheet: &mut Sheet, random: &mut Random) {
    let (one, other) = (random.place(sheet.names.len()), random.place(sheet.names.len()));
    sheet.names.swap(one, other);
}

/// A line that has cells, if there is one.
fn any_line<'a>(sheet: &'a mut Sheet, random: &mut Random) -> Option<&'a mut Vec<Vec<u8>>> {
    let mut lines: Vec<_> = sheet.lines.iter_mut().filter(|line| !line.is_empty()).collect();
    if lines.is_empty() { None } else { Some(lines.swap_remove(random.place(lines.len()))) }
}

fn cell(sheet: &mut Sheet, random: &mut Random) {
    let Some(line) = any_line(sheet, random) else { return };
    let place = random.place(line.len());
    let text = String::from_utf8_lossy(&line[place]).to_string();
    line[place] = match random.below(13) {
        0 | 1 => Vec::new(),
        2 => format!("\"{text}\"").into(),
        3 => format!("-{text}").into(),
        4 => format!("{text}.0").into(),
        5 => format!("{text},000").into(),
        6 => format!("1 {text}").into(),
        7 => text.to_uppercase().into(),
        8 => random.pick(forms::TABLE).name.into(),
        9 => some(9, random),
        10 => format!("{}{text}", "0".repeat(random.place(40))).into(),
        11 => random.between(0, 70).to_string().into(),
        _ => {
            bytes(&mut line[place], random);
            return;
        }
    };
}

/// A number at or beyond an end of what a field or 64 bits hold. With a whole
/// field added, its bits stay as they were.
fn value(sheet: &mut Sheet, random: &mut Random) {
    let place = random.place(sheet.names.len());
    let field = NAMES.iter().position(|name| name.as_bytes() == sheet.names[place]);
    let Some(line) = any_line(sheet, random).filter(|line| place < line.len()) else { return };
    let width = field.map_or(8, |field| WIDTHS[field]);
    let before: u128 = String::from_utf8_lossy(&line[place]).parse().unwrap_or(0);
    let value = match random.below(10) {
        0 => 0,
        1 => random.between(1, 3).into(),
        2 => 1 << width,
        3 => before + (1 << width),
        4 => before + (1 << 64),
        5 => random.pick(&[u64::MAX.into(), 1 << 64, 1 << 63, 1 << 32]),
        6 => random.pick(&[21, 22, 64, 65, 1439, 1440, 99, 255, 256]),
        7 => before + 1,
        8 => before.saturating_sub(1),
        _ => u128::from(random.word()) << random.below(60),
    };
    line[place] = value.to_string().into();
}

/// Another form, or none, over the cells of an order.
fn form(sheet: &mut Sheet, random: &mut Random) {
    let place = sheet.names.iter().position(|name| name == b"form");
    let (Some(place), Some(line)) = (place, any_line(sheet, random)) else { return };
    if let Some(cell) = line.get_mut(place) {
        let named = random.percent(40);
        *cell = if named { random.pick(forms::TABLE).name.into() } else { random.below(40).to_string().into() };
    }
}

fn cells_fewer(sheet: &mut Sheet, random: &mut Random) {
    let Some(line) = any_line(sheet, random) else { return };
    if random.percent(50) {
        line.remove(random.place(line.len()));
    } else {
        line.truncate(random.place(line.len()));
    }
}

fn cells_more(sheet: &mut Sheet, random: &mut Random) {
    let Some(line) = any_line(sheet, random) else { return };
    let (from, to) = (random.place(line.len()), random.place(line.len() + 1));
    let cell = if random.percent(50) { Vec::new() } else { line[from].clone() };
    line.insert(if random.percent(50) { to } else { line.len() }, cell);
}

/// Also more of them than the program's buffer holds.
fn empty_lines(sheet: &mut Sheet, random: &mut Random) {
    let place = random.place(sheet.lines.len() + 1);
    let count = if random.permille(5) { random.place(70_000) } else { random.between(1, 3) as usize };
    let behind = sheet.lines.split_off(place);
    sheet.lines.extend((0..count).map(|_| vec![Vec::new()]));
    sheet.lines.extend(behind);
}

/// One damage to bytes, often behind the first line.
pub fn bytes(bytes: &mut Vec<u8>, random: &mut Random) {
    let byte = if random.percent(80) { random.pick(TELLING) } else { random.word() as u8 };
    let behind = bytes.iter().position(|byte| *byte == b'\n').map_or(0, |feed| feed + 1);
    let start = if random.percent(60) { behind } else { 0 };
    let place = start + random.place(bytes.len() + 1 - start);
    match random.below(12) {
        0..=2 => bytes.insert(place, byte),
        3..=5 if place < bytes.len() => bytes[place] = byte,
        6..=7 if place < bytes.len() => drop(bytes.remove(place)),
        8 => bytes.truncate(place),
        9 => drop(bytes.drain(..place)),
        10 => {
            let end = bytes.len().min(place + random.place(40));
            let slice = bytes[place..end].to_vec();
            let to = random.place(bytes.len() + 1);
            bytes.splice(to..to, slice);
        }
        _ => before(bytes, random),
    }
}

/// Something before the first line.
fn before(bytes: &mut Vec<u8>, random: &mut Random) {
    let pieces: [&[u8]; 6] = [b"\n", b" \r\n", b"\xEF\xBB\xBF", b"\xEF\xBB", b",", b"sep=,\n"];
    bytes.splice(0..0, random.pick(&pieces).to_vec());
}

/// Bytes of any kind, or none.
pub fn noise(random: &mut Random) -> Vec<u8> {
    let mut bytes = vec![0; random.place(3) * random.place(100)];
    random.fill(&mut bytes);
    bytes
}

/// Names, blanks and ends of lines, one behind the other.
pub fn scraps(random: &mut Random) -> Vec<u8> {
    let pieces: [&[u8]; 12] =
        [b"form", b"minute", b",", b",", b"\n", b"\r\n", b" ", b"\t", b"16", b"660", b"\xEF\xBB\xBF", b"cycle"];
    let begin = random.pick(&["", "", "form,minute\n", "minute,form\n"]).as_bytes().to_vec();
    (0..random.place(12)).fold(begin, |bytes, _| [bytes.as_slice(), random.pick(&pieces)].concat())
}

/// Records, some of which do not read, and a rest of the file.
pub fn records(random: &mut Random) -> Vec<u8> {
    let most = if random.percent(3) { 3_000 } else { 6 };
    let mut records = Vec::new();
    for _ in 0..random.below(most) {
        let order = draw::order(&random.pick(forms::TABLE), random);
        let mut record = reference::record::pack(&order, 0);
        match random.below(6) {
            0 => record[random.place(RECORD_BYTES)] ^= 1 << random.below(8),
            1 => record[random.place(RECORD_BYTES)] = random.word() as u8,
            2 if random.percent(50) => random.fill(&mut record),
            3 => record[0] = random.word() as u8,
            _ => {}
        }
        records.extend(record);
    }
    let rest = if random.percent(30) { random.place(RECORD_BYTES) } else { 0 };
    records.extend((0..rest).map(|_| random.word() as u8));
    records
}

//! The worked cases, by the reader and the writer here.

use std::collections::BTreeSet;

use reference::record::{NAMES, pack};
use table::telling::KINDS;
use table::worked::{self, Outcome};
use table::{reading, writing};

#[test]
fn tables_are_read_as_worked_out() {
    for case in worked::imports() {
        let read = reading::read(&case.table).map_err(|refusal| refusal.message("FILE"));
        let expected = match case.outcome {
            Outcome::Orders(orders) => Ok(orders.iter().map(|order| pack(&order.fields(), 0)).collect()),
            Outcome::Told(text) => Err(format!("FILE: {text}")),
        };
        assert_eq!(read, expected, "{}", case.name);
    }
}

#[test]
fn every_kind_is_worked_out() {
    let refusal = |case: &worked::Import| reading::read(&case.table).err().map(|refusal| refusal.kind);
    let met: BTreeSet<u64> = worked::imports().iter().filter_map(refusal).collect();
    assert_eq!(met, KINDS.iter().map(|(kind, _)| *kind).chain([3, 4, 5]).collect());
}

#[test]
fn no_name_stands_twice() {
    let imports: BTreeSet<&str> = worked::imports().iter().map(|case| case.name).collect();
    assert_eq!(imports.len(), worked::imports().len());
    assert_eq!(NAMES.iter().collect::<BTreeSet<_>>().len(), NAMES.len());
}

#[test]
fn the_deposit_has_the_bytes_of_the_paper() {
    let names = "form,minute,security,credited member,credited type,credited shareholder,quantity";
    let table = format!("{names}\ndeposit,540,101,7,20,5,400\n");
    let start = [0x1A, 0x1C, 0x01, 0x94, 0x00, 0x00, 0x00, 0x71, 0x40, 0, 0, 0, 0, 0, 0, 5, 0, 0, 0, 1, 0x90];
    let mut record = [0; 40];
    record[..start.len()].copy_from_slice(&start);
    assert_eq!(reading::read(table.as_bytes()), Ok(vec![record]));
}

#[test]
fn records_are_written_as_worked_out() {
    for case in worked::exports() {
        assert_eq!(writing::write(&case.records), case.table, "{}", case.name);
    }
}

/// RULES 16.4: a table of records that all read is read as these records, any
/// other is refused.
#[test]
fn what_is_written_is_read_back() {
    for case in worked::exports() {
        let read = reading::read(case.table.as_bytes());
        let all_read = case.records.chunks(40).all(|record| reference::record::read(record).is_ok());
        assert_eq!(read.is_ok(), all_read, "{}", case.name);
        assert!(read.is_err() || read.is_ok_and(|records| records.concat() == case.records), "{}", case.name);
    }
}

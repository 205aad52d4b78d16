//! Runs the programs under test on files and holds what they print and tell
//! against the reader and the writer here.

use std::fs::{self, File, OpenOptions};
use std::io::{self, Seek, Write};
use std::path::{Path, PathBuf};
use std::process::{Command, Stdio};

use crate::reading::{self, Record, Refusal};
use crate::writing;

/// The programs under test, by their paths.
pub struct Programs {
    pub import: PathBuf,
    pub export: PathBuf,
}

/// What a program printed, and what it told on standard error.
#[derive(PartialEq, Eq)]
pub struct Printed {
    pub output: Vec<u8>,
    pub told: Vec<u8>,
}

/// A file that is written again and again.
pub struct Input {
    pub path: PathBuf,
    file: File,
}

impl Input {
    pub fn new(path: PathBuf) -> io::Result<Input> {
        let file = OpenOptions::new().read(true).write(true).create(true).truncate(true).open(&path)?;
        Ok(Input { path, file })
    }

    /// The length is set last: to cut a file to nothing first takes longer.
    pub fn write(&mut self, bytes: &[u8]) -> io::Result<()> {
        self.file.rewind()?;
        self.file.write_all(bytes)?;
        self.file.set_len(bytes.len() as u64)
    }

    fn name(&self) -> String {
        self.path.display().to_string()
    }
}

/// Runs a program to its end. A signal ends none of them.
fn run(command: &mut Command) -> Result<Printed, String> {
    let ended = command.output().map_err(|reason| format!("{:?} cannot be run: {reason}", command.get_program()))?;
    match ended.status.code() {
        Some(_) => Ok(Printed { output: ended.stdout, told: ended.stderr }),
        None => Err(format!("ended by a signal: {}", ended.status)),
    }
}

impl Programs {
    /// What `import` makes of a file, which need not be there.
    pub fn imported(&self, file: &Path) -> Result<Printed, String> {
        run(Command::new(&self.import).arg(file).stdin(Stdio::null()))
    }

    fn exported(&self, file: &Path) -> Result<Printed, String> {
        let records = File::open(file).map_err(|reason| reason.to_string())?;
        run(Command::new(&self.export).stdin(records))
    }

    /// Holds `import` against what is expected of a table: its records, or
    /// what is told behind the name of the file.
    pub fn import(&self, input: &mut Input, table: &[u8], expected: Result<&[u8], &str>) -> Result<(), String> {
        input.write(table).map_err(|reason| reason.to_string())?;
        let expected = match expected {
            Ok(records) => Printed { output: records.to_vec(), told: Vec::new() },
            Err(told) => Printed { output: Vec::new(), told: format!("{}: {told}\n", input.name()).into() },
        };
        held("import", &self.imported(&input.path)?, &expected)
    }

    /// Holds `import` against the reader here.
    pub fn read(&self, input: &mut Input, table: &[u8]) -> (Result<Vec<Record>, Refusal>, Result<(), String>) {
        let read = reading::read(table);
        let name = input.name();
        let behind = |message: String| message[name.len() + 2..].to_string();
        let expected = read.as_ref().map(|records| records.concat()).map_err(|refusal| behind(refusal.message(&name)));
        let outcome = self.import(input, table, expected.as_deref().map_err(String::as_str));
        (read, outcome)
    }

    /// Holds `export` against a table.
    pub fn export(&self, input: &mut Input, records: &[u8], table: &str) -> Result<(), String> {
        input.write(records).map_err(|reason| reason.to_string())?;
        let expected = Printed { output: table.into(), told: Vec::new() };
        held("export", &self.exported(&input.path)?, &expected)
    }

    /// Holds `export` against the writer here, and `import` against the reader
    /// on the table that was exported.
    pub fn round(&self, input: &mut Input, records: &[u8]) -> Result<(), String> {
        let table = writing::write(records);
        self.export(input, records, &table)?;
        let (read, outcome) = self.read(input, table.as_bytes());
        let whole =
            records.chunks(reference::record::RECORD_BYTES).all(|record| reference::record::read(record).is_ok());
        outcome?;
        match read {
            Ok(read) if whole && read.concat() == records => Ok(()),
            Err(_) if !whole => Ok(()),
            _ => Err("the table of records is not read back".to_string()),
        }
    }

    /// A file that cannot be opened or read is told in one line, with the
    /// system's reason.
    pub fn unread(&self, file: &Path, reason: &str) -> Result<(), String> {
        let printed = self.imported(file)?;
        let told = String::from_utf8_lossy(&printed.told);
        let one_line = told.ends_with('\n') && told.lines().count() == 1;
        if printed.output.is_empty() && one_line && told.contains(reason) {
            return Ok(());
        }
        Err(format!("'{reason}' is expected, printed {} bytes, told {told:?}", printed.output.len()))
    }
}

fn held(name: &str, printed: &Printed, expected: &Printed) -> Result<(), String> {
    if printed == expected {
        return Ok(());
    }
    Err(format!("{name}\n    expected {}\n    but got  {}", shown(expected), shown(printed)))
}

/// The first bytes of what was printed, and of what was told.
fn shown(printed: &Printed) -> String {
    let Printed { output, told } = printed;
    let first = |bytes: &[u8]| bytes[..bytes.len().min(240)].escape_ascii().to_string();
    let output_shown = if output.starts_with(b"form,") {
        first(output)
    } else {
        output.iter().take(80).map(|byte| format!("{byte:02X}")).collect()
    };
    format!("{} bytes {output_shown}, told '{}'", output.len(), first(told))
}

/// A folder of this run for its files, removed at its end.
pub struct Folder(pub PathBuf);

impl Folder {
    pub fn new() -> io::Result<Folder> {
        let path = std::env::temp_dir().join(format!("tables-{}", std::process::id()));
        fs::create_dir_all(&path)?;
        Ok(Folder(path))
    }
}

impl Drop for Folder {
    fn drop(&mut self) {
        // What cannot be removed is left.
        let _ = fs::remove_dir_all(&self.0);
    }
}

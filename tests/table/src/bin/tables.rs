//! Holds the programs `import` and `export` against the reader and the writer
//! here, on worked cases and on drawn tables:
//!
//!     tables IMPORT EXPORT [--seed N] [--runs N]
//!
//! The last line is "N passed, M failed"; the exit code is 0 if M is 0.

use std::env;
use std::fs;
use std::io;
use std::path::PathBuf;
use std::process::ExitCode;
use std::sync::Mutex;
use std::sync::atomic::{AtomicU64, Ordering};
use std::thread;
use std::time::Instant;

use reference::record::pack;
use table::met::Met;
use table::random::Random;
use table::trial::{Folder, Input, Programs};
use table::worked::{self, Outcome};
use table::{damage, draw};

const SEED: u64 = 1;
const RUNS: u64 = 100_000;
const THREADS: u64 = 2;
/// One run in so many exports its records where there are any, or damaged ones.
const EXPORTED: u64 = 10;
const DAMAGED: u64 = 40;
/// The drawn tables end at so many failures.
const MOST_FAILURES: u64 = 20;

struct Options {
    programs: Programs,
    seed: u64,
    runs: u64,
}

#[derive(Default)]
struct Tally {
    passed: u64,
    failed: u64,
}

impl Tally {
    fn check(&mut self, outcome: Result<(), String>, name: impl FnOnce() -> String) {
        match outcome {
            Ok(()) => self.passed += 1,
            Err(text) => {
                self.failed += 1;
                println!("FAILED: {}: {text}", name());
            }
        }
    }
}

fn main() -> ExitCode {
    let tally = options().and_then(|options| run(&options).map_err(|reason| reason.to_string()));
    match tally {
        Ok(tally) => {
            println!("{} passed, {} failed", tally.passed, tally.failed);
            if tally.failed == 0 { ExitCode::SUCCESS } else { ExitCode::FAILURE }
        }
        Err(text) => {
            eprintln!("{text}");
            ExitCode::FAILURE
        }
    }
}

fn options() -> Result<Options, String> {
    let mut paths = Vec::new();
    let (mut seed, mut runs) = (SEED, RUNS);
    let mut words = env::args().skip(1);
    let number = |word: Option<String>| word.and_then(|word| word.parse().ok()).ok_or("a number is missing");
    while let Some(word) = words.next() {
        match word.as_str() {
            "--seed" => seed = number(words.next())?,
            "--runs" => runs = number(words.next())?,
            _ => paths.push(PathBuf::from(word)),
        }
    }
    let [import, export] =
        <[PathBuf; 2]>::try_from(paths).map_err(|_| "usage: tables IMPORT EXPORT [--seed N] [--runs N]")?;
    Ok(Options { programs: Programs { import, export }, seed, runs })
}

fn run(options: &Options) -> io::Result<Tally> {
    let Options { programs, seed, runs } = options;
    println!("Under test: {} and {}. Seed {seed}, {runs} runs.", programs.import.display(), programs.export.display());
    let folder = Folder::new()?;
    let mut tally = Tally::default();
    worked_checks(programs, &folder, &mut tally)?;
    let start = Instant::now();
    let trial = Trial { options, next: AtomicU64::new(0), failed: AtomicU64::new(0), tally: Mutex::new(tally) };
    let met = trial.run(&folder)?;
    let mut tally = trial.tally.into_inner().expect("no panic");
    let seconds = start.elapsed().as_secs_f64();
    println!(
        "{} drawn tables, {} records, {} exports, {seconds:.1} s",
        trial.next.into_inner().min(*runs),
        met.records,
        met.exports
    );
    for (name, count) in met.cells() {
        println!("{count:>8}  {name}");
        tally.check(if count > 0 { Ok(()) } else { Err("never met".to_string()) }, || name);
    }
    Ok(tally)
}

/// The worked cases, and files that cannot be read.
fn worked_checks(programs: &Programs, folder: &Folder, tally: &mut Tally) -> io::Result<()> {
    let mut input = Input::new(folder.0.join("worked.csv"))?;
    for (place, case) in worked::imports().iter().enumerate() {
        let outcome = match &case.outcome {
            Outcome::Orders(orders) => {
                let records: Vec<u8> = orders.iter().flat_map(|order| pack(&order.fields(), 0)).collect();
                programs.import(&mut input, &case.table, Ok(&records))
            }
            Outcome::Told(text) => programs.import(&mut input, &case.table, Err(text)),
        };
        let kept = || kept(&format!("worked-{place}.csv"), &case.table);
        tally.check(outcome, || format!("worked case, {}, {}", case.name, kept()));
    }
    for (place, case) in worked::exports().iter().enumerate() {
        let outcome = programs.export(&mut input, &case.records, &case.table);
        let kept = || kept(&format!("worked-{place}.records"), &case.records);
        tally.check(outcome, || format!("worked case, {}, {}", case.name, kept()));
    }
    let none = programs.unread(&folder.0.join("none.csv"), "No such file or directory");
    tally.check(none, || "a file that is not there".to_string());
    tally.check(programs.unread(&folder.0, "Is a directory"), || "a folder".to_string());
    Ok(())
}

/// Keeps a file that fails, and says where.
fn kept(name: &str, file: &[u8]) -> String {
    let path = env::temp_dir().join(format!("tables-failed-{name}"));
    match fs::write(&path, file) {
        Ok(()) => format!("kept in {}", path.display()),
        Err(reason) => format!("not kept: {reason}"),
    }
}

/// The drawn tables, shared out among threads.
struct Trial<'a> {
    options: &'a Options,
    next: AtomicU64,
    failed: AtomicU64,
    tally: Mutex<Tally>,
}

impl Trial<'_> {
    /// What all threads meet.
    fn run(&self, folder: &Folder) -> io::Result<Met> {
        let parts = thread::scope(|scope| {
            let started: Vec<_> = (0..THREADS).map(|part| scope.spawn(move || self.part(folder, part))).collect();
            started.into_iter().map(|part| part.join().expect("no panic")).collect::<io::Result<Vec<Met>>>()
        })?;
        let mut met = Met::default();
        parts.into_iter().for_each(|part| met.add(part));
        Ok(met)
    }

    /// What one thread meets.
    fn part(&self, folder: &Folder, part: u64) -> io::Result<Met> {
        let mut input = Input::new(folder.0.join(format!("{part}.csv")))?;
        let mut met = Met::default();
        loop {
            let run = self.next.fetch_add(1, Ordering::Relaxed);
            if run >= self.options.runs || self.failed.load(Ordering::Relaxed) >= MOST_FAILURES {
                return Ok(met);
            }
            self.table(run, &mut input, &mut met);
            if run % DAMAGED == 0 {
                let mut random = Random::new(Random::new(self.options.seed).word() ^ !run);
                self.records(run, &damage::records(&mut random), &mut input, &mut met);
            }
        }
    }

    fn table(&self, run: u64, input: &mut Input, met: &mut Met) {
        let table = draw::table(self.options.seed, run);
        let (read, outcome) = self.options.programs.read(input, &table);
        met.read(&read);
        self.check(run, outcome, &table, "csv");
        if let Ok(records) = read
            && run % EXPORTED == 0
        {
            self.records(run, &records.concat(), input, met);
        }
    }

    fn records(&self, run: u64, records: &[u8], input: &mut Input, met: &mut Met) {
        met.exports += 1;
        self.check(run, self.options.programs.round(input, records), records, "records");
    }

    fn check(&self, run: u64, outcome: Result<(), String>, file: &[u8], ending: &str) {
        let failed = outcome.is_err();
        let kept = || kept(&format!("{}-{run}.{ending}", self.options.seed), file);
        self.tally.lock().expect("no panic").check(outcome, || format!("run {run}, {}", kept()));
        self.failed.fetch_add(u64::from(failed), Ordering::Relaxed);
    }
}

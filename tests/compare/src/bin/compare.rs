//! The comparison: fixed lists, fresh lists, worked lists, and the record
//! alone.
//!
//!     compare                        all lists, with a fresh seed besides
//!     compare --seed N               all lists, N in place of the fresh seed
//!     compare --replay PROFILE SEED CALLS   one list, up to a call
//!     compare --reference            the reference against itself
//!
//! The last line is "N passed, M failed"; the exit code is 0 if M is 0.

use std::env;
use std::process::ExitCode;
use std::time::{Instant, SystemTime, UNIX_EPOCH};

use compare::coverage::{Coverage, ruled_out, table, wanted};
use compare::depository::Depository;
use compare::generator::profile::{fast_days, profiles};
use compare::record_alone;
use compare::run::{List, list_to_last_day, lists, run_list};
use compare::sweeps;
use reference::book::Book;
use reference::worked;

const FIXED_SEED: u64 = 1;
const FIXED_ROUNDS: u64 = 14;
const FRESH_ROUNDS: u64 = 4;
const RECORD_ROUNDS: u64 = 200_000;

struct Options {
    seed: u64,
    replay: Option<List>,
    reference_only: bool,
}

#[derive(Default)]
struct Tally {
    passed: u64,
    failed: u64,
}

impl Tally {
    fn check(&mut self, holds: bool, name: impl FnOnce() -> String) {
        if holds {
            self.passed += 1;
        } else {
            self.failed += 1;
            println!("FAILED: {}", name());
        }
    }
}

fn main() -> ExitCode {
    let options = match options() {
        Ok(options) => options,
        Err(text) => {
            eprintln!("{text}");
            return ExitCode::FAILURE;
        }
    };
    let tally = if options.reference_only { run::<Book>(&options) } else { run_library(&options) };
    println!("{} passed, {} failed", tally.passed, tally.failed);
    if tally.failed == 0 { ExitCode::SUCCESS } else { ExitCode::FAILURE }
}

#[cfg(library_linked)]
fn run_library(options: &Options) -> Tally {
    run::<compare::proved::Proved>(options)
}

/// Without the library the reference is compared with itself.
#[cfg(not(library_linked))]
fn run_library(options: &Options) -> Tally {
    run::<Book>(options)
}

fn options() -> Result<Options, String> {
    let fresh = SystemTime::now().duration_since(UNIX_EPOCH).map_or(0, |time| time.as_nanos() as u64);
    let mut options = Options { seed: fresh, replay: None, reference_only: false };
    let mut words = env::args().skip(1);
    let number =
        |word: Option<String>| word.and_then(|word| word.parse().ok()).ok_or("a number is missing".to_string());
    while let Some(word) = words.next() {
        match word.as_str() {
            "--seed" => options.seed = number(words.next())?,
            "--reference" => options.reference_only = true,
            "--replay" => {
                let name = words.next().unwrap_or_default();
                let known = profiles().into_iter().chain([fast_days()]).find(|profile| profile.name == name);
                let profile = known.ok_or_else(|| format!("no profile is called '{name}'"))?;
                let (seed, calls) = (number(words.next())?, number(words.next())?);
                options.replay = Some(List { number: 0, profile, seed, calls });
            }
            _ => return Err(format!("unknown option {word}")),
        }
    }
    Ok(options)
}

fn run<D: Depository>(options: &Options) -> Tally {
    let mut tally = Tally::default();
    let mut coverage = Coverage::default();
    println!("Under test: {}. Fixed seed {FIXED_SEED}, fresh seed {}.", D::NAME, options.seed);
    if let Some(list) = &options.replay {
        run_lists::<D>(std::slice::from_ref(list), &mut coverage, &mut tally);
        return tally;
    }
    D::boundary_checks().into_iter().for_each(|(name, holds)| tally.check(holds, || name.to_string()));
    record_checks::<D>(options.seed, &mut tally);
    let mut all = lists(FIXED_SEED, FIXED_ROUNDS, 1);
    all.push(list_to_last_day(FIXED_SEED, all.len() + 1));
    all.extend(lists(options.seed, FRESH_ROUNDS, all.len() + 1));
    let agree = tally.failed == 0 && run_lists::<D>(&all, &mut coverage, &mut tally);
    worked_checks::<D>(&mut tally);
    if agree {
        sweep_checks::<D>(&mut tally);
        coverage_checks(&coverage, &mut tally);
    }
    tally
}

/// Runs lists up to the first difference; whether there was none.
fn run_lists<D: Depository>(all: &[List], coverage: &mut Coverage, tally: &mut Tally) -> bool {
    let start = Instant::now();
    for list in all {
        let result = run_list::<D>(list, coverage);
        let holds = result.is_ok();
        tally.check(holds, || result.err().map_or(String::new(), |difference| difference.to_string()));
        if !holds {
            return false;
        }
    }
    let seconds = start.elapsed().as_secs_f64();
    let Coverage { calls, accepted, .. } = coverage;
    let (percent, speed) = (100.0 * *accepted as f64 / *calls as f64, *calls as f64 / seconds);
    println!("{} lists, {calls} calls, {percent:.1} % accepted, {seconds:.1} s, {speed:.0} calls a second", all.len());
    true
}

/// A seed that is both runs once.
fn record_checks<D: Depository>(fresh: u64, tally: &mut Tally) {
    let seeds = if fresh == FIXED_SEED { vec![fresh] } else { vec![FIXED_SEED, fresh] };
    for seed in seeds {
        match record_alone::run::<D>(seed, RECORD_ROUNDS) {
            Ok(reached) => reached.cells().into_iter().for_each(|(name, count)| {
                tally.check(count > 0, || format!("empty: {name}, seed {seed}"));
            }),
            Err(text) => tally.check(false, || format!("{text}, seed {seed}")),
        }
    }
}

fn worked_checks<D: Depository>(tally: &mut Tally) {
    for list in worked::lists() {
        let result = compare::worked::run::<D>(&list);
        tally.check(result.is_ok(), || result.err().unwrap_or_default());
    }
}

fn sweep_checks<D: Depository>(tally: &mut Tally) {
    match sweeps::types::<D>() {
        Ok(forms) => forms.into_iter().for_each(|(form, holds)| {
            tally.check(holds, || format!("the types that form {form} allows are not as many as the paper's"));
        }),
        Err(text) => tally.check(false, || text),
    }
    match sweeps::endings::<D>() {
        Ok(holds) => tally.check(holds, || "the types in which requests end are not the paper's".to_string()),
        Err(text) => tally.check(false, || text),
    }
    let not_tried = sweeps::forms_not_tried();
    tally.check(not_tried.is_empty(), || format!("not every type or minute is tried of forms {not_tried:?}"));
    match sweeps::minutes::<D>() {
        Ok(count) => tally.check(count == sweeps::minutes_allowed(), || {
            format!("{count} minutes accepted, {} allowed by the paper's windows", sweeps::minutes_allowed())
        }),
        Err(text) => tally.check(false, || text),
    }
}

fn coverage_checks(coverage: &Coverage, tally: &mut Tally) {
    print!("{}", table::print(coverage));
    for cell in wanted() {
        tally.check(coverage.count(&cell) > 0, || format!("empty: {cell:?}"));
    }
    for cell in ruled_out(coverage) {
        tally.check(false, || format!("reached although the rules exclude it: {cell:?}"));
    }
}

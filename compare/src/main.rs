//! Runs the proved library and the Rust on the same inputs. See ../run for the commands.
//! A new operation is a module with an `Operation`, a line in `operations` and a safe wrapper in `ours`, or a program that calls it.
//! A program of the repository is a module with a `Program`, and stands in `PROGRAMS`.
mod bench;
mod check_batch;
mod cut_pair;
mod inputs;
mod lister;
mod listing;
mod lookups;
mod made;
mod making;
mod merging;
mod offsets;
mod ours;
mod outputs;
mod padding;
mod pair_lengths;
mod pairs;
mod processing;
mod profile;
mod profile_inputs;
mod report;
mod reports;
mod rounding;
mod running;
mod sequence_column;
mod tables;
mod tally;
mod template_inputs;
mod template_text;
mod templates;
mod texts;
mod truncating;
mod validating;
mod wellformed;

use std::process::ExitCode;
use tally::{Stored, Tally};
use tokenizers::rng::Rng;

/// One operation of the library, as it is compared, stored and timed.
pub struct Operation {
    pub name: &'static str,
    /// the form of its stored cases, its number first
    pub format: &'static str,
    /// exhaustive cases, and `count` random inputs with what is made of each
    pub compare: fn(&mut Tally, &mut Rng, count: u64),
    /// small cases for a replay program; the answers come from the oracle or an independent reading
    pub store: fn(&mut Rng) -> Vec<Stored>,
    pub bench: fn(),
}

/// What cannot cross the C interface: it has stored cases, and only a replay program runs it.
pub struct Replayed {
    pub name: &'static str,
    pub format: &'static str,
    pub store: fn(&mut Rng) -> Vec<Stored>,
}

fn operations() -> Vec<Operation> {
    let mut all = vec![check_batch::OPERATION];
    all.extend(lookups::OPERATIONS);
    all.extend([sequence_column::OPERATION, making::FROM_TOKENS, making::SET_SEQUENCE_ID, texts::TEXT, texts::SPAN, truncating::OPERATION]);
    all.extend([merging::MERGE_WITH, merging::MERGE, pairs::OPERATION, pair_lengths::OPERATION, cut_pair::OPERATION]);
    all.extend([padding::PAD, padding::PAD_ENCODINGS, rounding::OPERATION]);
    all.extend([templates::OPERATION, validating::VALIDATE, validating::COUNT_ADDED, processing::OPERATION]);
    all.extend([offsets::BYTES_TO_CHARS, offsets::CHARS_TO_BYTES]);
    all.extend([reports::REPORT_ADD, reports::REPORT_SHARE]);
    all.push(profile::OPERATION);
    all
}

const REPLAYED: [Replayed; 1] = [texts::TEXT_PART];

/// A program that is run beside an independent one. What it prints of its own stored input is held by `rt check`.
pub struct Program {
    pub name: &'static str,
    pub compare: fn(&mut Tally, &mut Rng, count: u64),
    pub bench: fn(),
}

const PROGRAMS: [Program; 2] = [lister::PROGRAM, report::PROGRAM];

/// All that can be compared and timed: the operations, then the programs.
fn all() -> Vec<Program> {
    let operations = operations().into_iter().map(|o| Program { name: o.name, compare: o.compare, bench: o.bench });
    operations.chain(PROGRAMS).collect()
}

const SEED: u64 = 1;
const COUNT: u64 = 1_000;

/// All of them and the files made of the operations, or only the one that is named.
fn compare(seed: u64, count: u64, only: Option<&str>) -> bool {
    println!("seed {seed}, {count} random inputs per operation, beside the exhaustive ones");
    let mut good = only.is_some() || made::all_up_to_date(&operations(), &REPLAYED);
    for compared in all().into_iter().filter(|o| only.is_none_or(|name| name == o.name)) {
        let mut tally = Tally::default();
        (compared.compare)(&mut tally, &mut Rng(seed), count);
        good &= tally.report(compared.name);
    }
    good
}

fn times(only: Option<&str>) -> bool {
    all().iter().filter(|o| only.is_none_or(|name| name == o.name)).for_each(|o| (o.bench)());
    true
}

fn main() -> ExitCode {
    let words: Vec<String> = std::env::args().skip(1).collect();
    let words: Vec<&str> = words.iter().map(String::as_str).collect();
    let good = match words[..] {
        [] => compare(SEED, COUNT, None),
        ["bench"] => times(None),
        ["bench", name] if all().iter().any(|o| o.name == name) => times(Some(name)),
        [name] if all().iter().any(|o| o.name == name) => compare(SEED, COUNT, Some(name)),
        ["longest"] => offsets::longest(),
        ["header"] => made::header().write(),
        ["store"] => made::stored_cases(&operations(), &REPLAYED).iter().all(made::Made::write),
        [seed, count] => match (seed.parse(), count.parse()) {
            (Ok(seed), Ok(count)) => compare(seed, count, None),
            _ => usage(),
        },
        _ => usage(),
    };
    if good { ExitCode::SUCCESS } else { ExitCode::FAILURE }
}

fn usage() -> bool {
    eprintln!("usage: compare/run [SEED COUNT | OPERATION | bench [OPERATION] | longest | header | store]");
    false
}

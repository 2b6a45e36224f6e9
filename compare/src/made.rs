//! The files of the repository that this program makes: the C header, the stored cases of the replay programs and the input of the
//! report, with what each program must print.
//! Paths are from the root of the repository, where `run` starts this program.
use crate::tally::{self, Stored, LENT};
use crate::{report, Operation, Replayed};
use std::fs;
use tokenizers::rng::Rng;

pub struct Made {
    path: String,
    command: &'static str,
    text: Vec<u8>,
}

/// The seed of the stored cases, fixed so that the file can be made again.
const STORE_SEED: u64 = 2;

pub fn header() -> Made {
    let text = include_str!(concat!(env!("OUT_DIR"), "/noddrefyr.h")).to_string();
    Made { path: "include/noddrefyr.h".to_string(), command: "compare/run header", text: text.into_bytes() }
}

/// The replay programs, each with the numbers of the operations whose cases it runs.
const PROGRAMS: [(&str, &[u32]); 12] = [
    ("replay_lookups", &[1, 2, 3, 4, 6, 7, 8, 9, 10, 11]),
    ("replay_texts", &[14, 15, 17]),
    ("replay_encodings", &[5, 12, 13]),
    ("replay_cuts", &[16, 20, 32, 33]),
    ("replay_pads", &[21, 22, 31]),
    ("replay_joins", &[18]),
    ("replay_folds", &[19]),
    ("replay_templates", &[23, 24, 25]),
    ("replay_process", &[26]),
    ("replay_offsets", &[27, 28]),
    ("replay_reports", &[29, 30]),
    ("replay_profiles", &[34]),
];

/// Lines at the end of the first program's cases, after those made of one case of each operation, that it must find: what it
/// says of each.
const WRONG: [(&str, &str); 7] = [
    ("1 0 0 0 7", "differs"),
    ("1 0 0 1 0", "differs"),
    ("1  0 0 0 0", "bad"),
    ("1 0 0 0 x", "bad"),
    ("1 0 0 0 4294967296", "bad"),
    ("1 26 0 0 0", "bad"),
    ("4294967295 0 0", "bad"),
];

/// An operation's name, the form of its cases, and what makes them.
type Kind = (&'static str, &'static str, fn(&mut Rng) -> Vec<Stored>);

/// The number of an operation, with which the form of its cases begins.
fn number(format: &str) -> u32 {
    format.split(' ').next().and_then(|word| word.parse().ok()).expect("a number first")
}

/// The stored cases of every replay program, the input of the report, and what each prints.
pub fn stored_cases(operations: &[Operation], replayed: &[Replayed]) -> Vec<Made> {
    let kinds = operations.iter().map(|o| (o.name, o.format, o.store)).chain(replayed.iter().map(|o| (o.name, o.format, o.store)));
    let kinds: Vec<Kind> = kinds.collect();
    for (name, format, _) in &kinds {
        let runs = PROGRAMS.iter().filter(|p| p.1.contains(&number(format))).count();
        assert_eq!(runs, 1, "programs that replay {name}");
    }
    let replayed = PROGRAMS.iter().enumerate().flat_map(|(i, (program, numbers))| {
        let own: Vec<Kind> = kinds.iter().filter(|k| numbers.contains(&number(k.1))).copied().collect();
        cases_of(program, &own, if i == 0 { &WRONG } else { &[] })
    });
    let (input, printed) = report::stored(&mut Rng(STORE_SEED));
    replayed.chain(both_streams("report", input, printed)).collect()
}

const STORE: &str = "compare/run store";

/// The input of a program, and what it must print.
fn both_streams(program: &str, input: Vec<u8>, printed: String) -> [Made; 2] {
    let made = |file: &str, text: Vec<u8>| Made { path: format!("crates/{program}/{file}"), command: STORE, text };
    [made("stdin", input), made("stdout", printed.into_bytes())]
}

fn cases_of(program: &str, kinds: &[Kind], more: &[(&str, &'static str)]) -> [Made; 2] {
    let mut text = format!(
        "# Cases for the program {program}, made by `{STORE}` with seed {STORE_SEED}. The answers are those of the\n\
         # Rust or of an independent reading of the paper, never those of the library under test.\n\
         # A line is one case: the operation's number, its inputs, the expected answers; a list is its length, then\n\
         # its numbers. What is lent has {LENT} in each number before the call, and is as long as the stored list; the answers\n\
         # are all of it after the call.\n"
    );
    let mut cases = 0;
    let mut wrong = vec![];
    for (name, format, store) in kinds {
        text += &format!("# {name}: {format}\n");
        let all = store(&mut Rng(STORE_SEED));
        for stored in &all {
            text += &format!("# {}\n{}\n", stored.what, stored.line);
            cases += 1;
        }
        wrong.extend(tally::wrong(&all).into_iter().map(|(what, line, said)| (format!("# {name}, {what}\n{line}\n"), said)));
    }
    text += "# What must be found: answers that differ, and lines that cannot be read.\n";
    wrong.extend(more.iter().map(|(line, said)| (format!("{line}\n"), *said)));
    let mut printed = String::new();
    for (line, said) in &wrong {
        text += line;
        printed += &format!("line {} {said}\n", text.lines().count());
    }
    let differ = wrong.iter().filter(|w| w.1 == "differs").count();
    printed += &format!("cases {}, differ {differ}, bad {}\n", cases + differ, wrong.len() - differ);
    both_streams(program, text.into_bytes(), printed)
}

impl Made {
    pub fn write(&self) -> bool {
        let done = fs::write(&self.path, &self.text);
        match &done {
            Ok(()) => println!("{}: written", self.path),
            Err(e) => println!("{}: {e}", self.path),
        }
        done.is_ok()
    }

    fn up_to_date(&self) -> bool {
        let same = fs::read(&self.path).is_ok_and(|text| text == self.text);
        println!("{}: {}", self.path, if same { "up to date" } else { "NOT UP TO DATE" });
        if !same {
            println!("  `{}` writes it", self.command);
        }
        same
    }
}

/// Says for each file whether it is what this program would write.
pub fn all_up_to_date(operations: &[Operation], replayed: &[Replayed]) -> bool {
    let made = [header()].into_iter().chain(stored_cases(operations, replayed));
    made.fold(true, |good, made| made.up_to_date() & good)
}

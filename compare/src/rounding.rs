//! rounded_length, which does not cross the C interface: the replay program calls it, here on many more cases than are stored.
//! The lengths are those that the Rust's own code works out for encodings that only remember them (oracle/lengths).
use crate::ours::Lengths;
use crate::running::{self, shown};
use crate::tally::{halves, Line, Stored, Tally};
use crate::{padding, Operation};
use lengths::padding::{pad_encodings, PaddingParams, PaddingStrategy};
use lengths::tokenizer::Encoding;
use std::collections::HashSet;
use tokenizers::rng::Rng;

pub const OPERATION: Operation = Operation {
    name: "rounded_length",
    format: "31 length-and-multiple nothing rounded (each number as its low and its high 32 bits)",
    compare,
    store,
    bench: padding::time_rounding,
};

const PATH: &str = "target/bin/replay_pads";

// ---- The Rust, and the second reading

/// The length to which the Rust pads encodings of so many rows; it leaves an empty batch at once.
fn rust_length(rows: &[usize], fixed: Option<u64>, multiple: Option<u64>) -> Option<u64> {
    let mut encodings: Vec<Encoding> = rows.iter().map(|n| Encoding::of(*n)).collect();
    let strategy = fixed.map_or(PaddingStrategy::BatchLongest, |length| PaddingStrategy::Fixed(length as usize));
    let params = PaddingParams { strategy, pad_to_multiple_of: multiple.map(|m| m as usize), ..PaddingParams::default() };
    pad_encodings(&mut encodings, &params).expect("no error");
    let told: HashSet<Option<usize>> = encodings.iter().map(Encoding::padded_to).collect();
    assert!(told.len() <= 1, "encodings padded to several lengths");
    told.into_iter().next().flatten().map(|n| n as u64)
}

/// "the least one not below the length that the multiple divides, or the length itself for multiple 0"
fn rounded_up(length: u64, multiple: u64) -> u128 {
    match (length as u128, multiple as u128) {
        (length, 0) => length,
        (length, multiple) => length.div_ceil(multiple) * multiple,
    }
}

/// The length to which a batch of encodings of so many rows is padded, as it is read. It has to be the Rust's, whose sum wraps
/// where 64 bits do not hold it. Multiple 0 is the Rust's `Some(0)` and its `None`.
pub fn target(rows: &[usize], lengths: Lengths) -> u128 {
    let longest = rows.iter().copied().max().unwrap_or(0) as u64;
    let read = rounded_up(if lengths.fixed { lengths.length } else { longest }, lengths.multiple);
    let fixed = lengths.fixed.then_some(lengths.length);
    let wrapped = (!rows.is_empty()).then_some(read as u64);
    assert_eq!(rust_length(rows, fixed, Some(lengths.multiple)), wrapped, "the Rust pads to another length: {lengths:?}");
    if lengths.multiple == 0 {
        assert_eq!(rust_length(rows, fixed, None), wrapped, "the Rust pads to another length without a multiple: {lengths:?}");
    }
    read
}

/// What is to be answered: that length, held to 64 bits.
fn rounded(length: u64, multiple: u64) -> u64 {
    let read = target(&[0], Lengths { fixed: true, length, multiple });
    u64::try_from(read).unwrap_or(u64::MAX)
}

// ---- Cases

fn line(length: u64, multiple: u64) -> Line {
    Line::of(31).list(&halves(&[length, multiple])).list(&[]).answer_wide(rounded(length, multiple))
}

/// One case for each pair, and one for what is printed after all of them.
fn cases(t: &mut Tally, pairs: &[(u64, u64)]) {
    let lines: Vec<Line> = pairs.iter().map(|(length, multiple)| line(*length, *multiple)).collect();
    let input: String = lines.iter().map(|line| format!("{line}\n")).collect();
    let printed = match running::through_pipe(PATH, &[input.as_bytes()]) {
        Ok(printed) => String::from_utf8(printed).expect("text"),
        Err(end) => return t.case(false, || (format!("it ended with {end}"), shown(input.as_bytes()))),
    };
    let told: Vec<&str> = printed.lines().collect();
    let wrong: HashSet<usize> = told.iter().filter_map(|said| said.strip_prefix("line ")?.split(' ').next()?.parse().ok()).collect();
    for (i, line) in lines.iter().enumerate() {
        t.case(!wrong.contains(&(i + 1)), || ("another length is given".to_string(), line.to_string()));
    }
    let counts = format!("cases {}, differ {}, bad 0", lines.len(), wrong.len());
    t.case(told.last() == Some(&&counts[..]), || (format!("the counts are {:?}", told.last()), counts.clone()));
}

/// Numbers around the powers of 2, where a width or a sum could be passed, and some others.
fn edges() -> Vec<u64> {
    let powers = [0, 1, 3, 8, 16, 31, 32, 33, 48, 62, 63].map(|bits| 1u64 << bits);
    let around = powers.into_iter().flat_map(|x| [x - 1, x, x + 1]);
    let mut all: Vec<u64> = around.chain([10, 6_700_417, u64::MAX / 3, u64::MAX / 2 + 7, u64::MAX - 2, u64::MAX - 1, u64::MAX]).collect();
    all.sort_unstable();
    all.dedup();
    all
}

/// Numbers of all magnitudes, of which the second often divides the first or nearly.
fn random_pair(r: &mut Rng) -> (u64, u64) {
    let any = |r: &mut Rng| r.next() >> r.below(64);
    let (length, multiple) = (any(r), any(r));
    match r.below(3) {
        0 => (length, multiple),
        1 => (multiple.wrapping_mul(1 + r.below(9)).wrapping_add(r.below(3)).wrapping_sub(1), multiple),
        _ => (u64::MAX - r.below(1 << 20), 1 + r.below(1 << 20)),
    }
}

fn compare(t: &mut Tally, r: &mut Rng, count: u64) {
    let small: Vec<(u64, u64)> = (0..=300).flat_map(|length| (0..=300).map(move |multiple| (length, multiple))).collect();
    cases(t, &small);
    let edges = edges();
    let wide: Vec<(u64, u64)> = edges.iter().flat_map(|length| edges.iter().map(|multiple| (*length, *multiple))).collect();
    cases(t, &wide);
    let random: Vec<(u64, u64)> = (0..100 * count).map(|_| random_pair(r)).collect();
    cases(t, &random);
}

fn store(r: &mut Rng) -> Vec<Stored> {
    const MAX: u64 = u64::MAX;
    const NARROW: u64 = u32::MAX as u64;
    let corners = [(0, 0), (0, 7), (7, 0), (7, 1), (7, 7), (8, 7), (NARROW, 2), (NARROW, NARROW), (1, MAX), (MAX, 0), (MAX, 1), (MAX, 3), (MAX, MAX), (MAX, 2), (MAX - 1, MAX), (MAX / 2 + 2, MAX / 2 + 1)];
    let random: Vec<(u64, u64)> = (0..16).map(|_| random_pair(r)).collect();
    let pairs = corners.into_iter().chain(random);
    pairs.map(|(length, multiple)| Stored { what: format!("{length} to a multiple of {multiple}"), line: line(length, multiple) }).collect()
}

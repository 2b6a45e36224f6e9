//! pair_lengths against what the Rust's own truncate_encodings cuts encodings to that only count their rows (oracle/lengths): every
//! small pair, and row counts and max lengths of the full 32 bits.
use crate::ours::{self, Answer, BEFORE};
use crate::pairs::refusal;
use crate::tally::{Line, Stored, Tally};
use crate::{bench, Operation};
use lengths::tokenizer::Encoding;
use lengths::truncation::{truncate_encodings, TruncationError, TruncationParams, TruncationStrategy};
use std::hint::black_box;
use tokenizers::rng::Rng;

pub const OPERATION: Operation = Operation {
    name: "pair_lengths",
    format: "32 first-rows-has-second-second-rows-max-length-strategy nothing refusal first-cut first-kept second-cut second-kept",
    compare,
    store,
    bench: times,
};

#[derive(Clone, Copy, Debug)]
struct Pair {
    first: u32,
    second: Option<u32>,
    max_length: u32,
    strategy: u32,
}

/// "any other only the second"
fn params(pair: Pair) -> TruncationParams {
    let strategy = match pair.strategy {
        0 => TruncationStrategy::LongestFirst,
        1 => TruncationStrategy::OnlyFirst,
        _ => TruncationStrategy::OnlySecond,
    };
    TruncationParams { max_length: pair.max_length as usize, strategy, ..TruncationParams::default() }
}

/// Whether the Rust cuts an encoding, and how many rows it keeps. A cut to as many rows as there are, or more, is none.
fn kept(e: &Encoding) -> [u32; 2] {
    let rows = e.get_ids().len();
    let kept = e.cut_to().unwrap_or(rows).min(rows);
    [(kept < rows) as u32, kept as u32]
}

/// What is to be answered, where each lent number was `before`.
fn expected(pair: Pair, before: u32) -> Answer {
    let (first, second) = (Encoding::of(pair.first as usize), pair.second.map(|rows| Encoding::of(rows as usize)));
    match truncate_encodings(first, second, &params(pair)) {
        Err(e) => (refusal!(TruncationError, &*e), vec![before; 4]),
        Ok((first, second)) => {
            let told = [kept(&first), second.as_ref().map_or([0; 2], kept)].concat();
            let rows = pair.first as u64 + pair.second.unwrap_or(0) as u64;
            assert_eq!(told[1] as u64 + told[3] as u64, rows.min(pair.max_length as u64), "the Rust keeps another sum: {pair:?}");
            (0, told)
        }
    }
}

fn line(pair: Pair) -> Line {
    let (refusal, told) = expected(pair, BEFORE);
    let given = [pair.first, pair.second.is_some() as u32, pair.second.unwrap_or(9), pair.max_length, pair.strategy];
    Line::of(32).list(&given).list(&[]).answer(refusal, &told)
}

fn case(t: &mut Tally, pair: Pair) {
    let got = ours::pair_lengths(pair.first, pair.second, pair.max_length, pair.strategy);
    t.case(got == expected(pair, BEFORE), || (format!("ours gave {got:?}"), line(pair)));
}

fn all_strategies(t: &mut Tally, first: u32, second: Option<u32>, max_length: u32, strategies: &[u32]) {
    strategies.iter().for_each(|strategy| case(t, Pair { first, second, max_length, strategy: *strategy }));
}

/// Numbers around which a sum of 32 bits, a half or a limit could go wrong.
const EDGES: [u32; 18] = [
    0, 1, 2, 3, 7, 8, 65_535, 65_536, 65_537, 0x5555_5555, 0x7FFF_FFFE, 0x7FFF_FFFF, 0x8000_0000, 0x8000_0001, 0xAAAA_AAAA, 0xFFFF_FFFD, 0xFFFF_FFFE, 0xFFFF_FFFF,
];

fn compare(t: &mut Tally, r: &mut Rng, count: u64) {
    let seconds = |most: u32| (0..=most).map(Some).chain([None]);
    for first in 0..=48 {
        for second in seconds(48) {
            (0..=100).for_each(|max_length| all_strategies(t, first, second, max_length, &[0, 1, 2]));
        }
    }
    for first in EDGES {
        for second in EDGES.into_iter().map(Some).chain([None]) {
            for max_length in EDGES {
                all_strategies(t, first, second, max_length, &[0, 1, 2, 3, u32::MAX]);
            }
        }
    }
    // by chance, of every size, and a max length near the sum of both, near one of them and near twice the shorter
    for _ in 0..count * 100 {
        let mut any = || (r.next() as u32) >> r.below(32);
        let (first, other) = (any(), any());
        let second = (r.below(5) > 0).then_some(other);
        let near = |r: &mut Rng, n: u64| (n + r.below(5)).saturating_sub(2).min(u32::MAX as u64) as u32;
        let rows = first as u64 + second.unwrap_or(0) as u64;
        let shorter = first.min(second.unwrap_or(first)) as u64;
        let longest = first.max(second.unwrap_or(0)) as u64;
        for max_length in [(r.next() as u32) >> r.below(32), near(r, rows), near(r, 2 * shorter), near(r, longest), near(r, shorter)] {
            all_strategies(t, first, second, max_length, &[0, 1, 2]);
        }
    }
}

fn store(_: &mut Rng) -> Vec<Stored> {
    let most = u32::MAX;
    let all = [
        ("document 01's sample, 10 and 10", (10, Some(10), 7, 0)),
        ("document 01's sample, 10 and 8", (10, Some(8), 7, 0)),
        ("document 01's sample, 2 and 10", (2, Some(10), 7, 0)),
        ("10 and 2, the second whole", (10, Some(2), 7, 0)),
        ("document 01's sample, 5 and 5 to 1", (5, Some(5), 1, 0)),
        ("8 and 7 to 9", (8, Some(7), 9, 0)),
        ("alone, the longest first", (10, None, 7, 0)),
        ("alone, only the first", (10, None, 7, 1)),
        ("alone, only the second", (10, None, 7, 2)),
        ("alone and within, only the second", (7, None, 7, 2)),
        ("only the first", (10, Some(3), 7, 1)),
        ("only the first, too short by nothing", (3, Some(7), 7, 1)),
        ("only the first, one row kept", (3, Some(6), 7, 1)),
        ("only the second", (3, Some(10), 7, 2)),
        ("only the second, too short", (10, Some(3), 7, 2)),
        ("only the second, too short by nothing", (7, Some(3), 7, 2)),
        ("any other strategy", (3, Some(10), 7, most)),
        ("within", (3, Some(4), 7, 1)),
        ("within, the second as long as all may be", (0, Some(7), 7, 1)),
        ("within, the first as long as all may be", (7, Some(0), 7, 2)),
        ("max length 0", (3, Some(4), 0, 2)),
        ("max length 0 and no rows", (0, Some(4), 0, 1)),
        ("max length 0, alone, only the second", (3, None, 0, 2)),
        ("no rows", (0, Some(0), 0, 0)),
        ("both of 32 bits", (most, Some(most), most, 0)),
        ("both of 32 bits, the first alone", (most, Some(most - 1), most, 1)),
        ("a sum of 2^32", (1 << 31, Some(1 << 31), most, 0)),
        ("a sum of 2^32 - 1", (1 << 31, Some((1 << 31) - 1), most, 2)),
        ("one of 32 bits", (most, None, most - 1, 0)),
    ];
    all.map(|(what, (first, second, max_length, strategy))| Stored { what: what.to_string(), line: line(Pair { first, second, max_length, strategy }) }).into()
}

fn times() {
    for (strategy, what) in [(0, "longest first"), (1, "only first")] {
        let pair = Pair { first: 512, second: Some(512), max_length: 768, strategy };
        let encodings = (Encoding::of(512), Some(Encoding::of(512)));
        let mut kept = [0; 4];
        let (ours, rust) = bench::both(
            || assert_eq!(ours::pair_lengths_into(black_box(512), black_box(Some(512)), black_box(768), strategy, &mut kept), 0),
            || {
                let (first, second) = black_box(&encodings).clone();
                truncate_encodings(first, second, &params(pair)).unwrap()
            },
        );
        bench::row(&format!("lengths of a pair, {what}"), ours, "Rust", rust, "over rows that are only counted");
    }
}

//! cut_pair against the Rust's `truncate` of each encoding that has a length: every small pair with every two lengths, lengths
//! for a second that is missing, seconds without one, the limits.
use crate::inputs::{self, chain, exact};
use crate::ours::{self, Lent, Output, BEFORE};
use crate::outputs::{output, outputs_around, stored};
use crate::pairs::{one_or_two, quietly};
use crate::tally::{Line, Stored, Tally, LENT};
use crate::truncating::{self, truncated};
use crate::{bench, Operation};
use std::hint::black_box;
use std::panic::{catch_unwind, AssertUnwindSafe};
use tokenizers::bridge::{Batch, MAX_LEVELS, MAX_NODES, MAX_ROWS, NODE, ROW};
use tokenizers::rng::{random_batch, Rng, Size};
use tokenizers::Encoding;

pub const OPERATION: Operation = Operation {
    name: "cut_pair",
    format: "33 nodes rows first-length has-second-length second-length stride left refusal nodes rows out-nodes out-rows",
    compare,
    store,
    bench: times,
};

/// How a pair is cut.
#[derive(Clone, Copy, Debug)]
struct Cut {
    first: u32,
    second: Option<u32>,
    stride: u32,
    left: bool,
}

/// An encoding cut to a length, or whole; 3 where the Rust panics.
fn cut_to(e: Encoding, length: Option<u32>, cut: Cut) -> Result<Encoding, u32> {
    let Some(max) = length else { return Ok(e) };
    catch_unwind(AssertUnwindSafe(|| truncated(e, truncating::Cut { max, stride: cut.stride, left: cut.left }))).map_err(|_| 3)
}

fn result(b: &Batch, cut: Cut) -> Result<Vec<Encoding>, u32> {
    let (first, second) = one_or_two(b).ok_or(1u32)?;
    let first = cut_to(first, Some(cut.first), cut)?;
    let second = second.map(|e| cut_to(e, cut.second, cut)).transpose()?;
    Ok([first].into_iter().chain(second).collect())
}

fn expected(result: &Result<Vec<Encoding>, u32>, nodes: usize, rows: usize, before: u32) -> Output {
    output(result.as_deref().map_err(|k| *k), nodes, rows, before)
}

fn line(b: &Batch, cut: Cut, want: &Output) -> Line {
    let line = Line::of(33).list(&b.nodes).list(&b.rows).number(cut.first).number(cut.second.is_some() as u32).number(cut.second.unwrap_or(0));
    stored(line.number(cut.stride).number(cut.left as u32), want)
}

fn case(t: &mut Tally, b: &Batch, cut: Cut, which: &[usize]) {
    let result = result(b, cut);
    for &i in which {
        let (nodes, rows) = outputs_around(result.as_deref().map_err(|k| *k))[i];
        let got = ours::cut_pair(b, cut.first, cut.second, cut.stride, cut.left, nodes, rows);
        let want = expected(&result, nodes, rows, BEFORE);
        t.case(got == want, || (format!("ours gave refusal {}", got.refusal), line(b, cut, &want)));
    }
}

const ALL: [usize; 4] = [0, 1, 2, 3];

fn both_ways(t: &mut Tally, b: &Batch, first: u32, second: Option<u32>, stride: u32, which: &[usize]) {
    [false, true].into_iter().for_each(|left| case(t, b, Cut { first, second, stride, left }, which));
}

/// A length or none.
fn some_length(r: &mut Rng, most: u64) -> Option<u32> {
    [Some(r.small(most)), None, Some(u32::MAX)][[0, 0, 0, 1, 1, 2][r.below(6) as usize]]
}

fn compare(t: &mut Tally, r: &mut Rng, count: u64) {
    quietly(|| {
        small(t);
        by_chance(t, r, count);
        limits(t);
    })
}

/// Every pair of up to nine rows each, the first with a window, and every two lengths up to ten.
fn small(t: &mut Tally) {
    for code in 0..10 * 11u32 {
        let shape = [&[(code % 10, 1), (1, 0)], &[(code / 10, 0)][..(code < 100) as usize]].concat();
        let b = exact(&shape);
        for lengths in 0..11 * 12u32 {
            let second = (lengths / 11 < 11).then_some(lengths / 11);
            (0..11).for_each(|stride| both_ways(t, &b, lengths % 11, second, stride, &[0]));
        }
    }
}

fn by_chance(t: &mut Tally, r: &mut Rng, count: u64) {
    for i in 0..count {
        let many = 1 + r.below(2);
        let b = random_batch(r, many, Size { levels: i % 3, windows: 2, rows: 1 + i % 9, offset: 40 });
        let (first, second) = (some_length(r, 9).unwrap_or(u32::MAX), some_length(r, 9));
        let stride = [r.small(5), u32::MAX][(r.below(9) == 0) as usize];
        both_ways(t, &b, first, second, stride, &ALL);
        inputs::some_damages(&mut |b| both_ways(t, b, first, second, stride, &[0]), r, &b, 2);
        both_ways(t, &inputs::random_small(r, i), first, second, stride, &[0, 3]);
    }
}

/// The result at its limits: rows, nodes, levels.
fn limits(t: &mut Tally) {
    let (nodes, rows) = (MAX_NODES as u32, MAX_ROWS as u32);
    for (first, second, lengths, stride) in [
        (nodes / 2, nodes / 2, (1, Some(1)), 0),
        (nodes / 2 + 1, nodes / 2, (1, Some(1)), 0),
        (nodes - 1, 9, (1, None), 0),
        (nodes, 9, (1, None), 0),
        (rows / 2, rows / 2, (500, Some(501)), 1),
        (rows / 2, rows / 2, (500, None), 0),
        (24_640, 24_640, (512, Some(512)), 128),
        (24_641, 24_640, (512, Some(512)), 128),
        (rows - 1, 1, (0, Some(0)), 0),
        (rows, 0, (0, None), 7),
    ] {
        both_ways(t, &exact(&[(first, 0), (second, 0)]), lengths.0, lengths.1, stride, &ALL);
    }
    for levels in [MAX_LEVELS, MAX_LEVELS + 1] {
        for second in [Some(0), Some(2), None] {
            both_ways(t, &exact(&[chain(levels), vec![(3, 0)]].concat()), 0, second, 0, &ALL);
            both_ways(t, &exact(&[vec![(3, 0)], chain(levels)].concat()), 0, second, 0, &ALL);
        }
    }
}

fn store(r: &mut Rng) -> Vec<Stored> {
    let all = [
        ("both cut", 2, (2, Some(3)), 1),
        ("both cut to nothing", 2, (0, Some(0)), 9),
        ("a second without a length", 2, (2, None), 1),
        ("a first that stays whole", 2, (40, Some(2)), 1),
        ("both whole by their lengths", 2, (40, Some(u32::MAX)), u32::MAX),
        ("a stride too large for the first", 2, (1, Some(40)), 1),
        ("a stride too large for the second", 2, (40, Some(1)), 1),
        ("a stride too large for a second that stays whole", 2, (40, None), 1),
        ("one encoding", 1, (2, None), 1),
        ("a length for a missing second", 1, (2, Some(1)), 1),
        ("three encodings", 3, (2, Some(2)), 1),
        ("none", 0, (2, Some(2)), 1),
    ];
    let mut out = vec![];
    quietly(|| {
        for (i, (what, many, (first, second), stride)) in all.into_iter().enumerate() {
            let b = random_batch(r, many, Size { levels: 1, windows: 2, rows: 6, offset: 40 });
            for left in [false, true] {
                let cut = Cut { first, second, stride, left };
                let result = result(&b, cut);
                // from the right with just enough room, from the left with more or too little
                let (nodes, rows) = outputs_around(result.as_deref().map_err(|k| *k))[if left { 1 + i % 3 } else { 0 }];
                out.push(Stored { what: format!("{what}, {}", if left { "left" } else { "right" }), line: line(&b, cut, &expected(&result, nodes, rows, LENT)) });
            }
        }
    });
    out
}

fn times() {
    let b = exact(&[(512, 0), (512, 0)]);
    let pair = one_or_two(&b).unwrap();
    for second in [Some(256), None] {
        let cut = Cut { first: 256, second, stride: 0, left: false };
        let mut lent = Lent::new(8 * NODE, 1_024 * ROW);
        let ours = bench::alone(|| assert_eq!(lent.cut_pair(black_box(&b), 256, second, 0, false), 0));
        let rust = bench::once(&pair, |(first, other)| (cut_to(first, Some(256), cut), other.map(|e| cut_to(e, second, cut))));
        let what = format!("512 and 512 rows cut to 256 and {}", second.map_or("whole".to_string(), |n| n.to_string()));
        bench::row(&what, ours, "Rust", rust, "");
    }
}

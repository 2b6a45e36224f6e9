//! pair_lengths and cut_pair in turn against the Rust's truncate_encodings: every small pair with every max length and stride, the
//! strategies, the limits. Each by itself is in pair_lengths.rs and cut_pair.rs.
use crate::inputs::{self, chain, exact};
use crate::ours::{self, Lent, Output, BEFORE};
use crate::outputs::{output, outputs_around, stored};
use crate::tally::{Line, Stored, Tally, LENT};
use crate::{bench, wellformed, Operation};
use std::hint::black_box;
use std::panic::{catch_unwind, AssertUnwindSafe};
use tokenizers::bridge::{from_batch, Batch, MAX_LEVELS, MAX_NODES, MAX_ROWS, NODE, ROW};
use tokenizers::rng::{random_batch, Rng, Size};
use tokenizers::utils::truncation::{truncate_encodings, TruncationError, TruncationParams, TruncationStrategy};
use tokenizers::{Encoding, TruncationDirection};

pub const OPERATION: Operation = Operation {
    name: "cut_in_turn",
    format: "20 nodes rows max-length stride strategy left refusal nodes rows out-nodes out-rows (pair_lengths, then cut_pair; strategies: 0 longest first, 1 only first, 2 only second)",
    compare,
    store,
    bench: times,
};

/// How a pair is cut.
#[derive(Clone, Copy, Debug)]
struct Cut {
    max_length: u32,
    stride: u32,
    strategy: u32,
    left: bool,
}

fn params(cut: Cut) -> TruncationParams {
    TruncationParams {
        direction: if cut.left { TruncationDirection::Left } else { TruncationDirection::Right },
        max_length: cut.max_length as usize,
        strategy: [TruncationStrategy::LongestFirst, TruncationStrategy::OnlyFirst, TruncationStrategy::OnlySecond][cut.strategy as usize],
        stride: cut.stride as usize,
    }
}

/// The encodings of a batch of one or two.
pub fn one_or_two(b: &Batch) -> Option<(Encoding, Option<Encoding>)> {
    matches!(wellformed::top_encodings(&b.nodes, &b.rows)?, 1 | 2).then(|| {
        let mut all = from_batch(&b.nodes, &b.rows).into_iter();
        (all.next().unwrap(), all.next())
    })
}

/// An error of the Rust's as a refusal. One of the two comes in a box of its own. The given file is compiled twice, so that there
/// are two types of errors.
macro_rules! refusal {
    ($error:ident, $e:expr) => {{
        let e: &(dyn std::error::Error + 'static) = $e;
        match e.downcast_ref::<$error>().or(e.downcast_ref::<Box<$error>>().map(|e| &**e)) {
            Some($error::SecondSequenceNotProvided) => 4u32,
            Some($error::SequenceTooShort) => 5,
            None => unreachable!("an error that truncate_encodings does not have"),
        }
    }};
}
pub(crate) use refusal;

/// Without what the Rust prints where it panics, as it does where a stride is refused.
pub fn quietly<O>(work: impl FnOnce() -> O) -> O {
    let hook = std::panic::take_hook();
    std::panic::set_hook(Box::new(|_| {}));
    let done = work();
    std::panic::set_hook(hook);
    done
}

/// The Rust's result, or the refusal: its two errors, and 3 where it panics.
fn result(b: &Batch, cut: Cut) -> Result<Vec<Encoding>, u32> {
    let (first, second) = one_or_two(b).ok_or(1u32)?;
    let answer = catch_unwind(AssertUnwindSafe(|| truncate_encodings(first, second, &params(cut)))).map_err(|_| 3u32)?;
    let (first, second) = answer.map_err(|e| refusal!(TruncationError, &*e))?;
    Ok([first].into_iter().chain(second).collect())
}

fn expected(result: &Result<Vec<Encoding>, u32>, nodes: usize, rows: usize, before: u32) -> Output {
    output(result.as_deref().map_err(|k| *k), nodes, rows, before)
}

fn line(b: &Batch, cut: Cut, want: &Output) -> Line {
    let line = Line::of(20).list(&b.nodes).list(&b.rows).number(cut.max_length).number(cut.stride);
    stored(line.number(cut.strategy).number(cut.left as u32), want)
}

fn case(t: &mut Tally, b: &Batch, cut: Cut, which: &[usize]) {
    let result = result(b, cut);
    for &i in which {
        let (nodes, rows) = outputs_around(result.as_deref().map_err(|k| *k))[i];
        let want = expected(&result, nodes, rows, BEFORE);
        // a second that is not cut is handed over with its length or without, by turns
        let leave_out = cut.stride % 2 == 1;
        let got = ours::cut_in_turn(b, cut.max_length, cut.stride, cut.strategy, cut.left, leave_out, nodes, rows);
        t.case(got == want, || (format!("ours gave refusal {}", got.refusal), line(b, cut, &want)));
    }
}

const ALL: [usize; 4] = [0, 1, 2, 3];

fn all_ways(t: &mut Tally, b: &Batch, max_length: u32, stride: u32, which: &[usize]) {
    for way in 0..6 {
        case(t, b, Cut { max_length, stride, strategy: way / 2, left: way % 2 == 1 }, which);
    }
}

/// One encoding of so many rows, or two, the first with a window.
fn rows_of(first: u32, second: Option<u32>) -> Batch {
    let mut shape = vec![(first, 1), (1, 0)];
    shape.extend(second.map(|rows| (rows, 0)));
    exact(&shape)
}

fn compare(t: &mut Tally, r: &mut Rng, count: u64) {
    quietly(|| all_cases(t, r, count));
}

fn all_cases(t: &mut Tally, r: &mut Rng, count: u64) {
    for first in 0..=40 {
        for code in 0..43 * 43 {
            all_ways(t, &rows_of(first, None), code / 43, code % 43, &[0]);
        }
    }
    for pair in 0..41 * 41 {
        let b = rows_of(pair / 41, Some(pair % 41));
        (0..43 * 43).for_each(|code| all_ways(t, &b, code / 43, code % 43, &[0]));
    }
    for i in 0..count {
        let many = 1 + r.below(2);
        let b = random_batch(r, many, Size { levels: i % 3, windows: 2, rows: 1 + i % 9, offset: 40 });
        let (max_length, stride) = ([r.small(12), u32::MAX][(r.below(9) == 0) as usize], [r.small(5), u32::MAX][(r.below(9) == 0) as usize]);
        all_ways(t, &b, max_length, stride, &ALL);
        inputs::some_damages(&mut |b| all_ways(t, b, max_length, stride, &[0]), r, &b, 2);
        all_ways(t, &inputs::random_small(r, i), max_length, stride, &[0, 3]);
    }
    // the result at its limits: rows, nodes, levels
    let (nodes, rows) = (MAX_NODES as u32, MAX_ROWS as u32);
    for (first, second, max_length, stride) in [
        (nodes / 2, nodes / 2, 2, 0),
        (nodes / 2 + 1, nodes / 2, 2, 0),
        (rows / 2, rows / 2, 1_000, 1),
        (rows / 2, rows / 2, 1_000, 0),
        (24_640, 24_640, 1_024, 128),
        (24_641, 24_640, 1_024, 128),
        (rows - 1, 1, 0, 0),
        (rows, 0, 0, 7),
    ] {
        all_ways(t, &exact(&[(first, 0), (second, 0)]), max_length, stride, &ALL);
    }
    for levels in [MAX_LEVELS, MAX_LEVELS + 1] {
        all_ways(t, &exact(&[chain(levels), vec![(3, 0)]].concat()), 0, 0, &ALL);
        all_ways(t, &exact(&[vec![(3, 0)], chain(levels)].concat()), 0, 0, &ALL);
    }
}

fn store(r: &mut Rng) -> Vec<Stored> {
    quietly(|| all_stored(r))
}

fn all_stored(r: &mut Rng) -> Vec<Stored> {
    let mut out = vec![];
    for i in 0..24u32 {
        let b = random_batch(r, 1 + (i % 4 != 3) as u64, Size { levels: i as u64 % 2, windows: 2, rows: 6, offset: 40 });
        let cut = Cut { max_length: if i % 4 == 3 { 1 } else { r.small(9) }, stride: r.small(2 + i as u64 / 12), strategy: i % 3, left: i % 2 == 1 };
        let result = result(&b, cut);
        let (nodes, rows) = outputs_around(result.as_deref().map_err(|k| *k))[[0, 1, 0, 1, 2, 3][i as usize / 4]];
        out.push(Stored { what: format!("{cut:?}"), line: line(&b, cut, &expected(&result, nodes, rows, LENT)) });
    }
    out.extend([0, 1].map(unstarred));
    out
}

/// Document 01's sample without a star: "Max length 1, 5 and 5: stride 0 gives 0 and 1; stride 1 gives 3."
fn unstarred(stride: u32) -> Stored {
    let b = exact(&[(5, 0), (5, 0)]);
    let cut = Cut { max_length: 1, stride, strategy: 0, left: false };
    let result = result(&b, cut);
    let lengths = result.as_ref().map(|e| e.iter().map(|e| e.get_ids().len()).collect::<Vec<_>>()).map_err(|k| *k);
    assert_eq!(lengths, [Ok(vec![0, 1]), Err(3)][stride as usize]);
    let (nodes, rows) = outputs_around(result.as_deref().map_err(|k| *k))[0];
    Stored { what: format!("document 01's sample, stride {stride}"), line: line(&b, cut, &expected(&result, nodes, rows, LENT)) }
}

fn times() {
    let b = exact(&[(512, 0), (512, 0)]);
    let (first, second) = one_or_two(&b).unwrap();
    for strategy in [0, 1] {
        let max_length = [512, 768][strategy as usize];
        let cut = Cut { max_length, stride: 0, strategy, left: false };
        let mut lent = Lent::new(8 * NODE, 1_024 * ROW);
        let ours = bench::alone(|| assert_eq!(lent.cut_in_turn(black_box(&b), max_length, 0, strategy, false, false), 0));
        let rust = bench::once(&(first.clone(), second.clone()), |(first, second)| truncate_encodings(first, second, &params(cut)).unwrap());
        let what = format!("pair of 512 and 512 rows cut to {max_length}, {}", ["longest first", "only first"][strategy as usize]);
        bench::row(&what, ours, "Rust", rust, "");
    }
}

//! truncate against the Rust's: every small cut, and the limits of a result.
use crate::inputs::{self, exact};
use crate::lookups::one;
use crate::ours::{self, Lent, Output, BEFORE};
use crate::outputs::{output, outputs_around, stored};
use crate::tally::{Line, Stored, Tally, LENT};
use crate::{bench, Operation};
use std::hint::black_box;
use tokenizers::bridge::{from_batch, Batch, MAX_NODES, MAX_ROWS, NODE, ROW};
use tokenizers::rng::Rng;
use tokenizers::{Encoding, TruncationDirection};

pub const OPERATION: Operation = Operation {
    name: "truncate",
    format: "16 nodes rows max stride left refusal nodes rows out-nodes out-rows",
    compare,
    store,
    bench: times,
};

/// How an encoding is cut.
#[derive(Clone, Copy, Debug)]
pub struct Cut {
    pub max: u32,
    pub stride: u32,
    pub left: bool,
}

/// What the Rust cuts it to. It panics for a stride not below a max that cuts rows off.
pub fn truncated(mut e: Encoding, cut: Cut) -> Encoding {
    let direction = if cut.left { TruncationDirection::Left } else { TruncationDirection::Right };
    e.truncate(cut.max as usize, cut.stride as usize, direction);
    e
}

/// The Rust's result, or the refusal: 3 where it would panic, so that it is not called there.
fn result(b: &Batch, cut: Cut) -> Result<Encoding, u32> {
    let e = one(b).ok_or(1u32)?;
    if 0 < cut.max && (cut.max as usize) < e.len() && cut.stride >= cut.max {
        return Err(3);
    }
    Ok(truncated(e, cut))
}

fn encodings(result: &Result<Encoding, u32>) -> Result<&[Encoding], u32> {
    result.as_ref().map(std::slice::from_ref).map_err(|k| *k)
}

fn expected(result: &Result<Encoding, u32>, nodes: usize, rows: usize, before: u32) -> Output {
    output(encodings(result), nodes, rows, before)
}

fn line(b: &Batch, cut: Cut, want: Output) -> Line {
    let line = Line::of(16).list(&b.nodes).list(&b.rows).number(cut.max).number(cut.stride).number(cut.left as u32);
    stored(line, &want)
}

fn case(t: &mut Tally, b: &Batch, cut: Cut) {
    let result = result(b, cut);
    for (nodes, rows) in outputs_around(encodings(&result)) {
        let got = ours::truncate(b, cut.max, cut.stride, cut.left, nodes, rows);
        let want = expected(&result, nodes, rows, BEFORE);
        t.case(got == want, || (format!("ours gave refusal {}", got.refusal), line(b, cut, want)));
    }
}

fn both_ways(t: &mut Tally, b: &Batch, max: u32, stride: u32) {
    [false, true].into_iter().for_each(|left| case(t, b, Cut { max, stride, left }));
}

fn compare(t: &mut Tally, r: &mut Rng, count: u64) {
    for rows in 0..=40 {
        let b = exact(&[(rows, 1), (2, 0)]);
        for code in 0..43 * 43 {
            both_ways(t, &b, code / 43, code % 43);
        }
    }
    for i in 0..count {
        let b = inputs::random_one(r, i);
        let (max, stride) = ([r.small(9), u32::MAX][(r.below(9) == 0) as usize], [r.small(6), u32::MAX][(r.below(9) == 0) as usize]);
        both_ways(t, &b, max, stride);
        inputs::some_damages(&mut |b| both_ways(t, b, max, stride), r, &b, 2);
        both_ways(t, &inputs::random_small(r, i), max, stride);
    }
    // the result at its limits: rows, nodes, levels
    for (rows, max, stride) in [(49_280, 512, 128), (49_281, 512, 128), (65_536, 512, 0), (65_536, 512, 1), (4_096, 1, 0), (4_097, 1, 0), (65_536, 65_535, 65_534), (65_536, 0, 0)] {
        both_ways(t, &exact(&[(rows, 0)]), max, stride);
    }
    for levels in [16, 17] {
        both_ways(t, &exact(&inputs::chain(levels)), 0, 0);
    }
}

fn store(r: &mut Rng) -> Vec<Stored> {
    let mut out = vec![];
    for i in 0..16u32 {
        let b = inputs::random_one(r, 3 * i as u64 + 1);
        let cut = Cut { max: i % 5, stride: r.small(3), left: i % 2 == 1 };
        let result = result(&b, cut);
        let (nodes, rows) = outputs_around(encodings(&result))[i as usize % 4];
        let what = format!("max {}, stride {}, {}", cut.max, cut.stride, if cut.left { "left" } else { "right" });
        out.push(Stored { what, line: line(&b, cut, expected(&result, nodes, rows, LENT)) });
    }
    out
}

fn times() {
    let b = exact(&[(49_280, 0)]);
    let e = from_batch(&b.nodes, &b.rows).remove(0);
    for left in [false, true] {
        let cut = Cut { max: 512, stride: 128, left };
        let mut lent = Lent::new(MAX_NODES * NODE, MAX_ROWS * ROW);
        let ours = bench::alone(|| assert_eq!(lent.truncate(black_box(&b), 512, 128, left), 0));
        let rust = bench::once(&e, |e| truncated(e, cut));
        let what = format!("truncate 49,280 rows to 65,536, {}", if left { "left" } else { "right" });
        bench::row(&what, ours, "Rust", rust, "");
        let (from, mut to) = (vec![1u32; MAX_ROWS * ROW], vec![0u32; MAX_ROWS * ROW]);
        let copy = bench::alone(|| to.copy_from_slice(black_box(&from)));
        bench::row(&what, ours, "memory copy", copy, "of the result");
    }
}

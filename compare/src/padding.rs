//! pad and pad_encodings against the Rust's: small trees in both directions, multiples, the limits of a result,
//! lengths and multiples above 32 bits (`rounding` has the length that a batch is padded to).
use crate::inputs::{self, exact};
use crate::lookups::one;
use crate::ours::{self, Lent, Lengths, Output, Pad, BEFORE};
use crate::outputs::{output, outputs_around, stored};
use crate::tally::{Line, Stored, Tally, LENT};
use crate::{bench, rounding, wellformed, Operation};
use std::hint::black_box;
use tokenizers::bridge::{from_batch, to_batch, Batch, MAX_NODES, MAX_ROWS, ROW};
use tokenizers::utils::padding::{pad_encodings, PaddingDirection, PaddingParams, PaddingStrategy};
use tokenizers::rng::{random_batch, Rng, Size};
use tokenizers::Encoding;

pub const PAD: Operation = Operation {
    name: "pad",
    format: "21 nodes rows length id type text-start text-length left refusal nodes rows out-nodes out-rows (the length as its low and its high 32 bits; the pool has 8 bytes)",
    compare: compare_one,
    store: store_one,
    bench: time_one,
};

pub const PAD_ENCODINGS: Operation = Operation {
    name: "pad_encodings",
    format: "22 nodes rows fixed length multiple id type text-start text-length left refusal nodes rows out-nodes out-rows (length and multiple as their low and their high 32 bits; the pool has 8 bytes; fixed 1: the length given, 0: that of the longest)",
    compare: compare_batch,
    store: store_batch,
    bench: time_batch,
};

fn direction(pad: Pad) -> PaddingDirection {
    if pad.left { PaddingDirection::Left } else { PaddingDirection::Right }
}

/// The pad text as it travels through the Rust.
fn token(pad: Pad) -> String {
    format!("1,{},{}", pad.text_start, pad.text_length)
}

/// "14 for the pad text, used or not"
fn outside(pad: Pad, pool: usize) -> bool {
    pad.text_start as u64 + pad.text_length as u64 > pool as u64
}

fn pad_line(line: Line, pad: Pad, want: &Output) -> Line {
    let line = line.number(pad.id).number(pad.type_id).number(pad.text_start).number(pad.text_length);
    stored(line.number(pad.left as u32), want)
}

const ALL: [usize; 4] = [0, 1, 2, 3];

/// A pad whose text lies in a pool of 8 bytes, or just not.
fn random_pad(r: &mut Rng) -> (Pad, usize) {
    let text_start = [r.small(10), u32::MAX][(r.below(9) == 0) as usize];
    let text_length = [r.small(6), u32::MAX][(r.below(9) == 0) as usize];
    (Pad { id: r.small(1 << 32), type_id: r.small(4), text_start, text_length, left: r.below(2) == 0 }, 8)
}

const PLAIN: Pad = Pad { id: 9, type_id: 3, text_start: 1, text_length: 5, left: false };

/// The rows that a batch would have when padded, which may be far too many to build.
fn rows_padded(encodings: &[Encoding], length: u128) -> u128 {
    encodings.iter().map(|e| length.max(e.len() as u128) + rows_padded(e.get_overflowing(), length)).sum()
}

/// Lengths around the limits of 32 and of 64 bits, of which none may be taken for its lower 32 bits.
const WIDE: [u64; 8] = [u32::MAX as u64, 1 << 32, (1 << 32) + 3, 3 << 32, 1 << 63, (1 << 63) + 1, u64::MAX - 1, u64::MAX];

/// A small length, or a wide one now and then.
fn random_length(r: &mut Rng, below: u64) -> u64 {
    match r.below(20) {
        0 => WIDE[r.below(WIDE.len() as u64) as usize],
        1 => (r.small(4) as u64) << 32 | r.small(below) as u64,
        _ => r.small(below) as u64,
    }
}

// ---- One encoding

fn result_one(b: &Batch, length: u64, pad: Pad, pool: usize) -> Result<Vec<Encoding>, u32> {
    let mut e = one(b).ok_or(1u32)?;
    if outside(pad, pool) {
        return Err(14);
    }
    if rows_padded(std::slice::from_ref(&e), length as u128) > MAX_ROWS as u128 {
        return Err(2);
    }
    e.pad(length as usize, pad.id, pad.type_id, &token(pad), direction(pad));
    Ok(vec![e])
}

fn case_one(t: &mut Tally, b: &Batch, length: u64, pad: Pad, pool: usize, which: &[usize]) {
    let result = result_one(b, length, pad, pool);
    for &i in which {
        let (nodes, rows) = outputs_around(result.as_deref().map_err(|k| *k))[i];
        let got = ours::pad(b, length, pad, pool, nodes, rows);
        let want = output(result.as_deref().map_err(|k| *k), nodes, rows, BEFORE);
        t.case(got == want, || (format!("to {length} ours gave refusal {}", got.refusal), line_one(b, length, pad, &want)));
    }
}

fn line_one(b: &Batch, length: u64, pad: Pad, want: &Output) -> Line {
    pad_line(Line::of(21).list(&b.nodes).list(&b.rows).wide(length), pad, want)
}

fn compare_one(t: &mut Tally, r: &mut Rng, count: u64) {
    inputs::all_shapes(&mut |b| {
        for way in 0..8 {
            case_one(t, b, way / 2, Pad { left: way % 2 == 1, ..PLAIN }, 8, &[0]);
        }
    });
    for start in 0..=10 {
        for length in 0..=10 {
            case_one(t, &exact(&[(2, 1), (3, 0)]), 3, Pad { text_start: start, text_length: length, ..PLAIN }, 8, &ALL);
        }
    }
    for i in 0..count {
        let b = inputs::random_one(r, i);
        let (pad, pool) = random_pad(r);
        let length = random_length(r, 20);
        case_one(t, &b, length, pad, pool, &ALL);
        inputs::some_damages(&mut |b| case_one(t, b, length, pad, pool, &[0]), r, &b, 2);
        case_one(t, &inputs::random_small(r, i), length, pad, pool, &ALL);
    }
    for length in WIDE {
        for shape in [vec![(0, 0)], vec![(3, 1), (5, 0)]] {
            case_one(t, &exact(&shape), length, PLAIN, 8, &ALL);
        }
    }
    let (rows, most) = (MAX_ROWS as u32, MAX_ROWS as u64);
    for (shape, length) in [(vec![(0, 0)], most), (vec![(0, 0)], most + 1), (vec![(1, 1), (0, 0)], most / 2), (vec![(1, 1), (0, 0)], most / 2 + 1), (vec![(rows, 0)], 5), (vec![(rows, 1), (0, 0)], 0), (vec![(rows, 1), (0, 0)], 1)] {
        for left in [false, true] {
            case_one(t, &exact(&shape), length, Pad { left, ..PLAIN }, 8, &ALL);
        }
    }
    let wide = exact(&[vec![(0, MAX_NODES as u32 - 1)], vec![(0, 0); MAX_NODES - 1]].concat());
    for length in [15, 16, 17, u32::MAX as u64] {
        case_one(t, &wide, length, PLAIN, 8, &ALL);
    }
}

fn store_one(r: &mut Rng) -> Vec<Stored> {
    let mut out = vec![];
    for i in 0..16u32 {
        let b = inputs::random_one(r, 3 * i as u64 + 1);
        let pad = Pad { id: 100 + i, type_id: i % 3, text_start: i % 9, text_length: i % 4, left: i % 2 == 1 };
        let length = [r.small(8) as u64, WIDE[i as usize % 8]][(i % 5 == 0) as usize];
        let result = result_one(&b, length, pad, 8);
        let (nodes, rows) = outputs_around(result.as_deref().map_err(|k| *k))[i as usize % 4];
        let want = output(result.as_deref().map_err(|k| *k), nodes, rows, LENT);
        out.push(Stored { what: format!("to {length}, {}", if pad.left { "left" } else { "right" }), line: line_one(&b, length, pad, &want) });
    }
    out
}

fn time_one() {
    for windows in [0, 8] {
        let b = exact(&[vec![(100, windows)], vec![(100, 0); windows as usize]].concat());
        let e = one(&b).unwrap();
        let rows = 512 * (windows as usize + 1);
        for left in [true, false] {
            let pad = Pad { left, ..PLAIN };
            let mut lent = Lent::new(b.nodes.len(), rows * ROW);
            let pool = [0; 8];
            let ours = bench::alone(|| assert_eq!(lent.pad(black_box(&b), 512, pad, &pool), 0));
            let text = token(pad);
            let rust = bench::once(&e, |mut e| {
                e.pad(512, pad.id, pad.type_id, &text, direction(pad));
                e
            });
            let what = format!("pad 100 to 512 rows, {windows} windows, {}", if left { "left" } else { "right" });
            bench::row(&what, ours, "Rust", rust, "");
        }
    }
}

// ---- A batch

fn params(lengths: Lengths, pad: Pad) -> PaddingParams {
    PaddingParams {
        strategy: if lengths.fixed { PaddingStrategy::Fixed(lengths.length as usize) } else { PaddingStrategy::BatchLongest },
        direction: direction(pad),
        pad_to_multiple_of: Some(lengths.multiple as usize),
        pad_id: pad.id,
        pad_type_id: pad.type_id,
        pad_token: token(pad),
    }
}

/// The length that a batch is padded to, worked out beforehand, so that the Rust is not asked for more rows than the limits.
fn target(encodings: &[Encoding], lengths: Lengths) -> u128 {
    rounding::target(&encodings.iter().map(Encoding::len).collect::<Vec<_>>(), lengths)
}

/// The Rust's answer. Multiple 0 is the Rust's `Some(0)` and its `None`, which have to agree.
fn padded(encodings: Vec<Encoding>, params: PaddingParams) -> Vec<Encoding> {
    let mut result = encodings.clone();
    pad_encodings(&mut result, &params).expect("no error");
    if params.pad_to_multiple_of == Some(0) {
        let mut unrounded = encodings;
        pad_encodings(&mut unrounded, &PaddingParams { pad_to_multiple_of: None, ..params }).expect("no error");
        assert_eq!(to_batch(&result), to_batch(&unrounded), "multiple 0 and no multiple differ");
    }
    result
}

fn result_batch(b: &Batch, lengths: Lengths, pad: Pad, pool: usize) -> Result<Vec<Encoding>, u32> {
    wellformed::top_encodings(&b.nodes, &b.rows).ok_or(1u32)?;
    if outside(pad, pool) {
        return Err(14);
    }
    let encodings = from_batch(&b.nodes, &b.rows);
    if rows_padded(&encodings, target(&encodings, lengths)) > MAX_ROWS as u128 {
        return Err(2);
    }
    Ok(padded(encodings, params(lengths, pad)))
}

fn line_batch(b: &Batch, lengths: Lengths, pad: Pad, want: &Output) -> Line {
    let line = Line::of(22).list(&b.nodes).list(&b.rows).number(lengths.fixed as u32).wide(lengths.length).wide(lengths.multiple);
    pad_line(line, pad, want)
}

fn case_batch(t: &mut Tally, b: &Batch, lengths: Lengths, pad: Pad, pool: usize, which: &[usize]) {
    let result = result_batch(b, lengths, pad, pool);
    for &i in which {
        let (nodes, rows) = outputs_around(result.as_deref().map_err(|k| *k))[i];
        let got = ours::pad_encodings(b, lengths, pad, pool, nodes, rows);
        let want = output(result.as_deref().map_err(|k| *k), nodes, rows, BEFORE);
        t.case(got == want, || (format!("{lengths:?}: ours gave refusal {}", got.refusal), line_batch(b, lengths, pad, &want)));
    }
}

fn compare_batch(t: &mut Tally, r: &mut Rng, count: u64) {
    inputs::all_shapes(&mut |b| {
        for code in 0..6 {
            let lengths = Lengths { fixed: code % 2 == 1, length: code / 2 + 1, multiple: code / 2 };
            case_batch(t, b, lengths, Pad { left: code == 3, ..PLAIN }, 8, &[0]);
        }
    });
    for length in 0..=40 {
        for multiple in 0..=42 {
            let lengths = Lengths { fixed: true, length, multiple };
            case_batch(t, &exact(&[(3, 1), (2, 0), (5, 0)]), lengths, PLAIN, 8, &[0]);
            case_batch(t, &exact(&[(length as u32, 0), (2, 0)]), Lengths { fixed: false, ..lengths }, PLAIN, 8, &[0]);
        }
    }
    for i in 0..count {
        let many = r.below(5);
        let b = random_batch(r, many, Size { levels: i % 3, windows: 2, rows: 1 + i % 9, offset: 40 });
        let (pad, pool) = random_pad(r);
        let lengths = Lengths { fixed: r.below(2) == 0, length: random_length(r, 20), multiple: random_length(r, 9) };
        case_batch(t, &b, lengths, pad, pool, &ALL);
        if !b.nodes.is_empty() {
            inputs::some_damages(&mut |b| case_batch(t, b, lengths, pad, pool, &[0]), r, &b, 2);
        }
    }
    for length in [0, 1, 3].into_iter().chain(WIDE) {
        for multiple in [0, 1, 2, 3].into_iter().chain(WIDE) {
            for fixed in [false, true] {
                for shape in [vec![], vec![(0, 0)], vec![(3, 0), (0, 0)]] {
                    case_batch(t, &exact(&shape), Lengths { fixed, length, multiple }, PLAIN, 8, &ALL);
                }
            }
        }
    }
    const NARROW: u64 = u32::MAX as u64;
    for (encodings, length, multiple) in [(MAX_NODES, 16, 0), (MAX_NODES, 17, 0), (MAX_NODES, 15, 16), (MAX_NODES, 16, 17), (1, NARROW, NARROW), (1, NARROW, 2), (0, NARROW, 7)] {
        for fixed in [false, true] {
            case_batch(t, &exact(&vec![(0, 0); encodings]), Lengths { fixed, length, multiple }, PLAIN, 8, &ALL);
        }
    }
}

fn store_batch(r: &mut Rng) -> Vec<Stored> {
    let mut out = vec![];
    let mut add = |b: &Batch, lengths: Lengths, pad: Pad, way: u32| {
        let result = result_batch(b, lengths, pad, 8);
        let (nodes, rows) = outputs_around(result.as_deref().map_err(|k| *k))[way as usize % 4];
        let want = output(result.as_deref().map_err(|k| *k), nodes, rows, LENT);
        out.push(Stored { what: format!("{lengths:?}"), line: line_batch(b, lengths, pad, &want) });
    };
    for i in 0..16u32 {
        let b = random_batch(r, i as u64 % 4, Size { levels: i as u64 % 2, windows: 2, rows: 4, offset: 40 });
        let pad = Pad { id: 100 + i, type_id: i % 3, text_start: i % 9, text_length: i % 4, left: i % 2 == 1 };
        let length = [r.small(8) as u64, WIDE[i as usize % 8]][(i % 6 == 3) as usize];
        let multiple = [r.small(5) as u64, WIDE[i as usize / 2 % 8]][(i % 5 == 4) as usize];
        add(&b, Lengths { fixed: i % 3 == 0, length, multiple }, pad, i / 2);
    }
    // no number of 64 bits is the rounded length
    for shape in [vec![], vec![(0, 0)], vec![(3, 1), (2, 0)]] {
        add(&exact(&shape), Lengths { fixed: true, length: u64::MAX, multiple: 2 }, PLAIN, 0);
    }
    out
}

fn time_batch() {
    let b = exact(&(0..64).map(|i| (i * 37 % 512, 0)).collect::<Vec<_>>());
    let encodings = from_batch(&b.nodes, &b.rows);
    let lengths = Lengths { fixed: false, length: 0, multiple: 8 };
    let mut padded = encodings.clone();
    pad_encodings(&mut padded, &params(lengths, PLAIN)).expect("no error");
    let rows = to_batch(&padded).unwrap().rows.len();
    let mut lent = Lent::new(b.nodes.len(), rows);
    let pool = [0; 8];
    let ours = bench::alone(|| assert_eq!(lent.pad_encodings(black_box(&b), lengths, PLAIN, &pool), 0));
    let with = params(lengths, PLAIN);
    let rust = bench::once(&encodings, |mut e| {
        pad_encodings(&mut e, &with).expect("no error");
        e
    });
    bench::row("pad 64 encodings of mixed lengths", ours, "Rust", rust, "");
    let (from, mut to) = (vec![1u32; rows], vec![0u32; rows]);
    let copy = bench::alone(|| to.copy_from_slice(black_box(&from)));
    bench::row("pad 64 encodings of mixed lengths", ours, "memory copy", copy, "of the result");
}

/// Nothing is padded, so that little but the check and the rounding is left.
pub fn time_rounding() {
    let b = exact(&[(8, 0)]);
    let mut encodings = from_batch(&b.nodes, &b.rows);
    for multiple in [0, 8] {
        let lengths = Lengths { fixed: true, length: 8, multiple };
        let (mut lent, pool) = (Lent::new(b.nodes.len(), b.rows.len()), [0; 8]);
        let with = params(lengths, PLAIN);
        let ours = || assert_eq!(lent.pad_encodings(black_box(&b), black_box(lengths), PLAIN, &pool), 0);
        let (ours, rust) = bench::both(ours, || pad_encodings(black_box(&mut encodings), black_box(&with)).expect("no error"));
        bench::row(&format!("pad 8 rows to 8, multiple {multiple}"), ours, "Rust", rust, "nothing to add");
    }
}

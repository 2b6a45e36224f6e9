//! from_tokens and set_sequence_id against the Rust's, in outputs that are long enough or not.
use crate::lookups::{bench_batch, one};
use crate::ours::{self, Output, BEFORE};
use crate::outputs::{output, outputs, stored};
use crate::tally::{Line, Stored, Tally, LENT};
use crate::{bench, inputs, Operation};
use std::hint::black_box;
use tokenizers::bridge::{Batch, MAX_ROWS, NODE, ROW, SEQUENCES};
use tokenizers::rng::Rng;
use tokenizers::{Encoding, Token};

const TOKEN: usize = 5;

pub const FROM_TOKENS: Operation = Operation {
    name: "from_tokens",
    format: "12 tokens nothing type refusal nodes rows out-nodes out-rows",
    compare: compare_tokens,
    store: store_tokens,
    bench: time_tokens,
};

pub const SET_SEQUENCE_ID: Operation = Operation {
    name: "set_sequence_id",
    format: "13 nodes rows sequence refusal nodes rows out-nodes out-rows",
    compare: compare_sequence,
    store: store_sequence,
    bench: time_sequence,
};

/// The Rust's encoding of the tokens, whose texts lie in pool 0.
fn rust_tokens(tokens: &[u32], type_id: u32) -> Encoding {
    let token = |t: &[u32]| Token::new(t[0], format!("0,{},{}", t[1], t[2]), (t[3] as usize, t[4] as usize));
    Encoding::from_tokens(tokens.chunks(TOKEN).map(token).collect(), type_id)
}

// ---- from_tokens

fn made(tokens: &[u32], type_id: u32, nodes: usize, rows: usize, before: u32) -> Output {
    if !tokens.len().is_multiple_of(TOKEN) {
        return output(Err(1), nodes, rows, before);
    }
    output(Ok(&[rust_tokens(tokens, type_id)]), nodes, rows, before)
}

fn tokens_line(tokens: &[u32], type_id: u32, nodes: usize, rows: usize) -> Line {
    stored(Line::of(12).list(tokens).list(&[]).number(type_id), &made(tokens, type_id, nodes, rows, LENT))
}

fn case_tokens(t: &mut Tally, tokens: &[u32], type_id: u32) {
    for (nodes, rows) in outputs(NODE, tokens.len() / TOKEN * ROW) {
        let got = ours::from_tokens(tokens, type_id, nodes, rows);
        let want = made(tokens, type_id, nodes, rows, BEFORE);
        t.case(got == want, || (format!("ours gave refusal {}", got.refusal), tokens_line(tokens, type_id, nodes, rows)));
    }
}

fn random_tokens(r: &mut Rng, numbers: usize) -> Vec<u32> {
    (0..numbers).map(|_| [r.small(5), r.small(1 << 32)][r.below(2) as usize]).collect()
}

fn compare_tokens(t: &mut Tally, r: &mut Rng, count: u64) {
    for numbers in 0..=41 {
        case_tokens(t, &random_tokens(r, numbers), numbers as u32);
    }
    for _ in 0..count {
        let numbers = r.below(300) as usize;
        case_tokens(t, &random_tokens(r, numbers), u32::MAX);
    }
    for rows in [MAX_ROWS - 1, MAX_ROWS, MAX_ROWS + 1] {
        case_tokens(t, &random_tokens(r, rows * TOKEN), 1);
    }
}

fn store_tokens(r: &mut Rng) -> Vec<Stored> {
    let mut out = vec![];
    for (i, numbers) in [0, 5, 15, 40, 14, 41, 20, 10, 25, 30].into_iter().enumerate() {
        let tokens = random_tokens(r, numbers);
        let (nodes, rows) = outputs(NODE, numbers / TOKEN * ROW)[i % 4];
        out.push(Stored { what: format!("{numbers} numbers of tokens"), line: tokens_line(&tokens, i as u32, nodes, rows) });
    }
    out
}

fn time_tokens() {
    let mut r = Rng(3);
    for rows in [512, MAX_ROWS] {
        let tokens: Vec<u32> = random_tokens(&mut r, rows * TOKEN);
        let list: Vec<Token> = tokens.chunks(TOKEN).map(|t| Token::new(t[0], format!("tok{:05}", t[1] % 100_000), (t[3] as usize, t[4] as usize))).collect();
        let mut lent = ours::Lent::new(NODE, rows * ROW);
        let ours = bench::alone(|| lent.from_tokens(black_box(&tokens), 0));
        let rust = bench::once(&list, |l| Encoding::from_tokens(l, 0));
        bench::row(&format!("from_tokens, {rows} rows"), ours, "Rust", rust, "");
    }
}

// ---- set_sequence_id

fn with_sequence(b: &Batch, id: u32, nodes: usize, rows: usize, before: u32) -> Output {
    let Some(mut e) = one(b) else { return output(Err(1), nodes, rows, before) };
    if id as usize >= SEQUENCES {
        return output(Err(13), nodes, rows, before);
    }
    e.set_sequence_id(id as usize);
    output(Ok(&[e]), nodes, rows, before)
}

fn sequence_line(b: &Batch, id: u32, nodes: usize, rows: usize) -> Line {
    stored(Line::of(13).list(&b.nodes).list(&b.rows).number(id), &with_sequence(b, id, nodes, rows, LENT))
}

fn case_sequence(t: &mut Tally, b: &Batch, id: u32) {
    for (nodes, rows) in outputs(b.nodes.len(), b.rows.len()) {
        let got = ours::set_sequence_id(b, id, nodes, rows);
        let want = with_sequence(b, id, nodes, rows, BEFORE);
        t.case(got == want, || (format!("ours gave refusal {}", got.refusal), sequence_line(b, id, nodes, rows)));
    }
}

fn compare_sequence(t: &mut Tally, r: &mut Rng, count: u64) {
    inputs::all_ranges(&mut |b| (0..9).for_each(|id| case_sequence(t, b, id)));
    for i in 0..count {
        let id = [r.small(9), u32::MAX][(r.below(8) == 0) as usize];
        let single = inputs::random_one(r, i);
        case_sequence(t, &single, id);
        inputs::some_damages(&mut |b| case_sequence(t, b, id), r, &single, 4);
        case_sequence(t, &inputs::random_small(r, i), id);
    }
}

fn store_sequence(r: &mut Rng) -> Vec<Stored> {
    let mut out = vec![];
    for i in 0..12u32 {
        let b = if i == 9 { inputs::small_batch(r, 1) } else { inputs::random_one(r, i as u64) };
        let (nodes, rows) = outputs(b.nodes.len(), b.rows.len())[i as usize % 4];
        out.push(Stored { what: format!("sequence {}", i % 10), line: sequence_line(&b, i % 10, nodes, rows) });
    }
    out
}

fn time_sequence() {
    let b = bench_batch();
    let e = one(&b).unwrap();
    let mut lent = ours::Lent::new(b.nodes.len(), b.rows.len());
    let ours = bench::alone(|| lent.set_sequence_id(black_box(&b), 3));
    let rust = bench::once(&e, |mut e| {
        e.set_sequence_id(3);
        e
    });
    bench::row("set_sequence_id, 512 rows", ours, "Rust", rust, "the Rust changes its map in place; ours writes a copy");
    let mut to = b.rows.clone();
    let copy = bench::alone(|| to.copy_from_slice(black_box(&b.rows)));
    bench::row("set_sequence_id, 512 rows", ours, "memory copy", copy, "of the rows");
}

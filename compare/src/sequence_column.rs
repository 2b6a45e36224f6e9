//! get_sequence_ids against the Rust's: the mark and the id of each row, in an output that is long enough or not.
use crate::lookups::{bench_batch, one};
use crate::ours::{self, BEFORE};
use crate::tally::{Line, Stored, Tally, LENT};
use crate::{bench, inputs, Operation};
use std::hint::black_box;
use tokenizers::bridge::Batch;
use tokenizers::rng::Rng;
use tokenizers::Encoding;

pub const OPERATION: Operation = Operation {
    name: "get_sequence_ids",
    format: "5 nodes rows refusal rows 7 output nothing (of the two counts and the two lists of an operation that writes it has one)",
    compare,
    store,
    bench: times,
};

fn column(e: &Encoding) -> Vec<u32> {
    e.get_sequence_ids().into_iter().flat_map(|id| [id.is_some() as u32, id.unwrap_or(0) as u32]).collect()
}

/// The refusal, the number of rows and the output, all of whose numbers were `before`.
fn expected(b: &Batch, length: usize, before: u32) -> (u32, usize, Vec<u32>) {
    let kept = (BEFORE as usize, vec![before; length]);
    match one(b) {
        None => (1, kept.0, kept.1),
        Some(e) if 2 * e.len() > length => (2, kept.0, kept.1),
        Some(e) => {
            let mut out = column(&e);
            out.resize(length, before);
            (0, e.len(), out)
        }
    }
}

fn line(b: &Batch, length: usize) -> Line {
    let (refusal, rows, out) = expected(b, length, LENT);
    Line::of(5).list(&b.nodes).list(&b.rows).answer(refusal, &[rows as u32, LENT]).list(&out).list(&[])
}

fn case(t: &mut Tally, b: &Batch) {
    let exact = one(b).map_or(4, |e| 2 * e.len());
    for length in [exact, exact + 3, exact.saturating_sub(1)] {
        let got = ours::get_sequence_ids(b, length);
        t.case(got == expected(b, length, BEFORE), || (format!("ours gave {got:?}"), line(b, length)));
    }
}

fn compare(t: &mut Tally, r: &mut Rng, count: u64) {
    inputs::all_ranges(&mut |b| case(t, b));
    for i in 0..count {
        let single = inputs::random_one(r, i);
        case(t, &single);
        inputs::some_damages(&mut |b| case(t, b), r, &single, 4);
        case(t, &inputs::random_small(r, i));
    }
}

fn store(r: &mut Rng) -> Vec<Stored> {
    let mut out = vec![];
    for i in 0..12 {
        let b = inputs::random_one(r, i);
        let rows = one(&b).map_or(0, |e| e.len());
        let length = [2 * rows, 2 * rows + 5, (2 * rows).saturating_sub(1)][i as usize % 3];
        out.push(Stored { what: "a sequence column".to_string(), line: line(&b, length) });
    }
    out
}

fn times() {
    let b = bench_batch();
    let e = one(&b).unwrap();
    let mut out = vec![0; 1024];
    let (ours, rust) = bench::both(|| ours::get_sequence_ids_into(black_box(&b), &mut out), || e.get_sequence_ids());
    bench::row("get_sequence_ids, 512 rows", ours, "Rust", rust, "ours checks the batch; the Rust allocates its result");
}

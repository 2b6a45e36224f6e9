//! check_batch against the independent reading of 'well-formed'. Every well-formed case also goes through the Rust's
//! Encoding, which has to give the same numbers back.
use crate::inputs::{self, batch, chain, exact, large, small_batch, wrapping, DAMAGES};
use crate::tally::{Line, Stored, Tally};
use crate::{bench, ours, wellformed, Operation};
use std::hint::black_box;
use tokenizers::bridge::{from_batch, to_batch, Batch, MAX_NODES, MAX_ROWS, NODE};
use tokenizers::rng::Rng;

pub const OPERATION: Operation = Operation {
    name: "check_batch",
    format: "1 nodes rows refusal encodings",
    compare,
    store,
    bench: times,
};

fn line(b: &Batch, expected: Option<usize>) -> Line {
    Line::of(1).list(&b.nodes).list(&b.rows).answer(expected.is_none() as u32, &[expected.unwrap_or(0) as u32])
}

fn case(t: &mut Tally, b: &Batch) {
    /// what `encodings` holds before the call and, if refused, after it
    const BEFORE: usize = 0xDEAD_BEEF_0BAD_F00D;
    let expected = wellformed::top_encodings(&b.nodes, &b.rows);
    let mut encodings = BEFORE;
    let refusal = ours::check_batch(&b.nodes, &b.rows, &mut encodings);
    let same = (refusal, encodings) == expected.map_or((1, BEFORE), |n| (0, n));
    let kept = expected.is_none() || to_batch(&from_batch(&b.nodes, &b.rows)).as_ref() == Ok(b);
    t.case(same && kept, || {
        let ours = format!("ours gave {refusal} and encodings {encodings}");
        (if same { "the Rust's Encoding gives other numbers back".to_string() } else { ours }, line(b, expected))
    });
}

fn compare(t: &mut Tally, r: &mut Rng, count: u64) {
    let visit = &mut |b: &Batch| case(t, b);
    inputs::exhaustive(visit, r);
    for i in 0..count {
        let small = inputs::random_small(r, i);
        visit(&small);
        inputs::all_damages(visit, &small);
        let large = inputs::random_large(r, i);
        visit(&large);
        inputs::some_damages(visit, r, &large, 40);
    }
}

fn store(r: &mut Rng) -> Vec<Stored> {
    let mut out = vec![];
    let mut keep = |what: &str, b: &Batch, good: bool| {
        let expected = wellformed::top_encodings(&b.nodes, &b.rows);
        assert_eq!(expected.is_some(), good, "{what}");
        out.push(Stored { what: what.to_string(), line: line(b, expected) });
    };
    keep("no encoding", &Batch::default(), true);
    keep("rows and no node", &batch(&[], 1), false);
    keep("the empty encoding", &exact(&[(0, 0)]), true);
    keep("one empty window", &exact(&[(0, 1), (0, 0)]), true);
    keep("a chain of 12", &exact(&chain(12)), true);
    keep("12 encodings", &exact(&[(1, 0); 12]), true);
    keep("64 rows", &exact(&[(64, 0)]), true);
    wrapping().iter().filter(|b| b.nodes.len() <= 12 * NODE).for_each(|b| keep("counts that wrap around", b, false));
    for i in 0..24 {
        keep("well-formed", &small_batch(r, i % 5), true);
    }
    for (what, damage) in DAMAGES {
        for levels in 0..3 {
            let mut b = small_batch(r, levels);
            damage(r, &mut b);
            keep(what, &b, false);
        }
    }
    out
}

fn sum(b: &Batch) -> u32 {
    let add = |xs: &[u32]| xs.iter().fold(0u32, |s, x| s.wrapping_add(*x));
    add(black_box(&b.nodes)).wrapping_add(add(black_box(&b.rows)))
}

fn times() {
    println!("check_batch (the Rust has no such check; 'sum' adds up all numbers, 'reading' is the independent one)");
    for (nodes, rows) in [(1, MAX_ROWS), (128, MAX_ROWS), (MAX_NODES, MAX_ROWS), (MAX_NODES, 0)] {
        let b = large(nodes, rows);
        let check = || {
            let mut encodings = 0;
            assert_eq!(ours::check_batch(black_box(&b.nodes), black_box(&b.rows), &mut encodings), 0);
            encodings
        };
        let what = format!("{rows} rows in {nodes} nodes");
        let (ours, other) = bench::both(check, || sum(&b));
        let (n, unit) = if rows > 0 { (rows, "row") } else { (nodes, "node") };
        bench::row(&what, ours, "sum", other, &format!("{:.2} ns per {unit}", ours / n as f64));
        let (ours, other) = bench::both(check, || wellformed::top_encodings(black_box(&b.nodes), black_box(&b.rows)));
        bench::row(&what, ours, "reading", other, "");
    }
}

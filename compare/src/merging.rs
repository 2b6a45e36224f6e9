//! merge_with (join) and merge (fold) against the Rust's: all small shapes, the limits of a result, offsets at the edge of
//! u32. A join can be far too large to build, so its size is found first, from the two alone.
use crate::inputs::{self, chain, exact};
use crate::lookups::one;
use crate::ours::{self, Folded, Lent, Output, BEFORE};
use crate::outputs::{has_room, output, outputs_around, stored};
use crate::tally::{Line, Stored, Tally, LENT};
use crate::{bench, wellformed, Operation};
use std::hint::black_box;
use tokenizers::bridge::{from_batch, node_count, to_batch, Batch, MAX_LEVELS, MAX_NODES, MAX_ROWS, NODE, ROW};
use tokenizers::rng::{random_batch, Rng, Size};
use tokenizers::Encoding;

pub const MERGE_WITH: Operation = Operation {
    name: "merge_with",
    format: "18 nodes rows second-nodes second-rows growing refusal nodes rows out-nodes out-rows",
    compare: compare_joins,
    store: store_joins,
    bench: time_joins,
};

pub const MERGE: Operation = Operation {
    name: "merge",
    format: "19 nodes rows growing left refusal nodes rows out-nodes out-rows (left: what each number of the working store is after the call, which has 2,048 of each kind)",
    compare: compare_folds,
    store: store_folds,
    bench: time_folds,
};

// ---- The size of a join

/// The nodes of an encoding, depth first: the row count and the windows' places of each.
fn flattened(e: &Encoding) -> Vec<(u64, Vec<usize>)> {
    fn go(e: &Encoding, out: &mut Vec<(u64, Vec<usize>)>) -> usize {
        let at = out.len();
        out.push((e.len() as u64, vec![]));
        let windows = e.get_overflowing().iter().map(|w| go(w, out)).collect();
        out[at].1 = windows;
        at
    }
    let mut out = vec![];
    go(e, &mut out);
    out
}

/// The nodes and rows of the join of two encodings: of every node of one with every node of the other, the last first.
fn join_size(s: &Encoding, p: &Encoding) -> (u64, u64) {
    let (s, p) = (flattened(s), flattened(p));
    let mut sizes = vec![(0u64, 0u64); s.len() * p.len()];
    for i in (0..s.len()).rev() {
        for j in (0..p.len()).rev() {
            let (mut nodes, mut rows) = (1u64, s[i].0 + p[j].0);
            let mut add = |(n, r): (u64, u64)| {
                nodes = nodes.saturating_add(n);
                rows = rows.saturating_add(r);
            };
            for &window in &s[i].1 {
                add(sizes[window * p.len() + j]);
                p[j].1.iter().for_each(|other| add(sizes[window * p.len() + other]));
            }
            p[j].1.iter().for_each(|other| add(sizes[i * p.len() + other]));
            sizes[i * p.len() + j] = (nodes, rows);
        }
    }
    sizes[0]
}

// ---- What is expected

/// The Rust's result and whether its offsets are numbers of a batch, or the refusal.
pub struct Joined {
    pub encoding: Encoding,
    pub fits: bool,
}

fn offsets_fit(e: &Encoding) -> bool {
    e.get_offsets().iter().all(|&(start, end)| start.max(end) <= u32::MAX as usize) && e.get_overflowing().iter().all(offsets_fit)
}

pub fn joined(s: Encoding, p: Encoding, growing: bool) -> Result<Joined, u32> {
    let (nodes, rows) = join_size(&s, &p);
    if nodes > MAX_NODES as u64 || rows > MAX_ROWS as u64 {
        return Err(2);
    }
    let mut encoding = s;
    encoding.merge_with(p, growing);
    let fits = offsets_fit(&encoding);
    Ok(Joined { encoding, fits })
}

fn join(a: &Batch, b: &Batch, growing: bool) -> Result<Joined, u32> {
    joined(one(a).ok_or(1u32)?, one(b).ok_or(1u32)?, growing)
}

/// The steps one by one: the first that is too large refuses, and an offset may pass u32 at any of them.
fn fold(b: &Batch, growing: bool) -> Result<Joined, u32> {
    wellformed::top_encodings(&b.nodes, &b.rows).ok_or(1u32)?;
    let encodings = from_batch(&b.nodes, &b.rows);
    let mut so_far = Joined { encoding: Encoding::default(), fits: true };
    for e in &encodings {
        let next = joined(so_far.encoding, e.clone(), growing)?;
        so_far = Joined { fits: so_far.fits && next.fits, ..next };
    }
    assert!(Encoding::merge(encodings, growing) == so_far.encoding, "the Rust's merge is not its merge_with, one after another");
    Ok(so_far)
}

fn expected(result: &Result<Joined, u32>, nodes: usize, rows: usize, before: u32) -> Output {
    let Ok(joined) = result else { return output(Err(*result.as_ref().err().unwrap()), nodes, rows, before) };
    let encodings = std::slice::from_ref(&joined.encoding);
    if joined.fits || !has_room(encodings, nodes, rows) {
        return output(if joined.fits { Ok(encodings) } else { Err(2) }, nodes, rows, before);
    }
    output(Err(6), nodes, rows, 0)
}

/// The same with a working store of so many numbers.
pub fn expected_fold(result: &Result<Joined, u32>, sizes: [usize; 4], before: u32) -> Folded {
    let [nodes, rows, working_nodes, working_rows] = sizes;
    let without = |refusal| output(Err(refusal), nodes, rows, before);
    let working_room = result.as_ref().map_or(true, |j| has_room(std::slice::from_ref(&j.encoding), working_nodes, working_rows));
    let output = if working_room { expected(result, nodes, rows, before) } else { without(2) };
    let left = if [0, 6].contains(&output.refusal) { 0 } else { before };
    Folded { output, working: Batch { nodes: vec![left; working_nodes], rows: vec![left; working_rows] } }
}

/// Outputs around the size of a result, which may be refused.
fn around(result: &Result<Joined, u32>) -> [(usize, usize); 4] {
    outputs_around(result.as_ref().map(|j| std::slice::from_ref(&j.encoding)).map_err(|k| *k))
}

// ---- Joins

fn join_line(a: &Batch, b: &Batch, growing: bool, want: &Output) -> Line {
    let line = Line::of(18).list(&a.nodes).list(&a.rows).list(&b.nodes).list(&b.rows).number(growing as u32);
    stored(line, want)
}

fn case_join(t: &mut Tally, a: &Batch, b: &Batch, which: &[usize]) {
    for growing in [false, true] {
        let result = join(a, b, growing);
        for &i in which {
            let (nodes, rows) = around(&result)[i];
            let got = ours::merge_with(a, b, growing, nodes, rows);
            let want = expected(&result, nodes, rows, BEFORE);
            t.case(got == want, || (format!("ours gave refusal {}", got.refusal), join_line(a, b, growing, &want)));
        }
    }
}

const ALL: [usize; 4] = [0, 1, 2, 3];

/// The shapes of all trees of so many nodes, as the windows of each node, depth first.
fn trees(nodes: usize) -> Vec<Vec<u32>> {
    /// lists of trees with so many nodes in all
    fn lists(nodes: usize) -> Vec<(u32, Vec<u32>)> {
        if nodes == 0 {
            return vec![(0, vec![])];
        }
        let mut out = vec![];
        for first in 1..=nodes {
            for tree in trees(first) {
                out.extend(lists(nodes - first).into_iter().map(|(count, rest)| (count + 1, [tree.clone(), rest].concat())));
            }
        }
        out
    }
    lists(nodes - 1).into_iter().map(|(count, rest)| [vec![count], rest].concat()).collect()
}

/// All shapes of up to so many nodes, with no row or one in each node; the rows and ranges differ from node to node.
fn all_small(most: usize) -> Vec<Batch> {
    let mut out = vec![];
    for windows in (1..=most).flat_map(trees) {
        for code in 0..1u32 << windows.len() {
            let shape: Vec<_> = windows.iter().enumerate().map(|(i, &w)| (code >> i & 1, w)).collect();
            let mut b = exact(&shape);
            for (i, node) in b.nodes.chunks_mut(NODE).enumerate() {
                let (id, rows) = ((i + code as usize) % 3, node[0]);
                node[2 + 3 * id..5 + 3 * id].copy_from_slice(&[1, 0, rows]);
            }
            for (i, row) in b.rows.chunks_mut(ROW).enumerate() {
                row[7..9].copy_from_slice(&[3 * i as u32 + 1, 5 * i as u32 + 2]);
            }
            out.push(b);
        }
    }
    out
}

/// One row with these offsets, below it a window of one row with those.
fn with_offsets(top: [u32; 2], window: Option<[u32; 2]>) -> Batch {
    let mut b = if window.is_some() { exact(&[(1, 1), (1, 0)]) } else { exact(&[(1, 0)]) };
    b.rows[7..9].copy_from_slice(&top);
    if let Some(window) = window {
        b.rows[ROW + 7..ROW + 9].copy_from_slice(&window);
    }
    b
}

/// Pairs whose offsets add up to just u32's last number, and to one more, in the top or in a window, start or end.
fn at_the_edge() -> Vec<(Batch, Batch)> {
    let mut out = vec![];
    for base in [0, 1, 1 << 31, u32::MAX] {
        let rest = u32::MAX - base;
        for over in [rest, rest.saturating_add(1)] {
            for second in [with_offsets([over, 0], None), with_offsets([0, over], None), with_offsets([0, 0], Some([over, 0])), with_offsets([0, 0], Some([0, over]))] {
                for first in [with_offsets([9, base], None), with_offsets([0, 0], Some([5, base])), with_offsets([0, base], Some([0, 0]))] {
                    out.push((first, second.clone()));
                }
            }
        }
    }
    // the last row decides, and a node without rows moves nothing
    let mut two = exact(&[(2, 0)]);
    two.rows[8] = u32::MAX;
    out.push((two.clone(), with_offsets([1, 1], None)));
    out.push((exact(&[(0, 1), (1, 0)]), with_offsets([u32::MAX, u32::MAX], None)));
    out
}

/// Pairs whose join is at a limit and one beyond: nodes, rows, levels; and some whose join would have billions of nodes.
fn joins_at_limits() -> Vec<(Batch, Batch)> {
    let star = |rows: u32, windows: u32| exact(&[vec![(rows, windows)], vec![(rows, 0); windows as usize]].concat());
    let flat = |rows: u32| exact(&[(rows, 0)]);
    let deep = |levels: usize| exact(&chain(levels + 1));
    let (nodes, rows, levels) = (MAX_NODES as u32, MAX_ROWS as u32, MAX_LEVELS);
    vec![
        (star(0, nodes - 1), flat(1)),
        (star(0, nodes - 1), flat(16)),
        (star(0, nodes - 1), flat(17)),
        (flat(1), star(0, nodes - 1)),
        (star(1, 36), star(0, 36)),
        (star(1, 37), star(0, 36)),
        (star(1, 1), star(0, 1_023)),
        (star(1, 1), star(0, 1_024)),
        (flat(rows / 2), flat(rows / 2)),
        (flat(rows / 2), flat(rows / 2 + 1)),
        (flat(rows), flat(0)),
        (flat(rows), flat(1)),
        (deep(levels), flat(1)),
        (flat(1), deep(levels)),
        (deep(levels - 1), deep(1)),
        (deep(levels), deep(1)),
        (deep(1), deep(levels)),
        (deep(5), deep(5)),
        (deep(6), deep(6)),
        (deep(8), deep(8)),
        (deep(levels), deep(levels)),
        (star(3, 2_000), star(3, 2_000)),
    ]
}

fn compare_joins(t: &mut Tally, r: &mut Rng, count: u64) {
    let small = all_small(5);
    for (i, a) in small.iter().enumerate() {
        for (j, b) in small.iter().enumerate() {
            // each pair with one output, all four in turn
            case_join(t, a, b, &[(i + j) % 4]);
        }
    }
    for (a, b) in at_the_edge().iter().chain(&joins_at_limits()) {
        case_join(t, a, b, &ALL);
    }
    for i in 0..count {
        let (a, b) = (inputs::random_one(r, i), inputs::random_one(r, i / 3));
        case_join(t, &a, &b, &ALL);
        case_join(t, &inputs::random_small(r, i), &b, &ALL);
        inputs::some_damages(&mut |a| case_join(t, a, &b, &ALL), r, &a, 2);
        inputs::some_damages(&mut |b| case_join(t, &a, b, &ALL), r, &b, 2);
        // near the limits of a result, on both sides of them
        let size = Size { levels: 1 + i % 3, windows: [60, 8, 3][i as usize % 3], rows: 20, offset: 1 << (20 + i % 13) };
        case_join(t, &random_batch(r, 1, size), &random_batch(r, 1, size), &[i as usize % 4]);
    }
}

/// Few enough nodes for a stored case.
fn is_small(result: &Result<Joined, u32>) -> bool {
    result.as_ref().map_or(true, |j| node_count(&j.encoding) <= 40)
}

fn store_joins(r: &mut Rng) -> Vec<Stored> {
    let mut out = vec![];
    for i in 0..24u32 {
        let size = Size { levels: i as u64 % 3, windows: 2, rows: 2, offset: 50 };
        let (a, b) = match i {
            // at the edge of u32, and one past it
            3 | 7 => (with_offsets([9, 1 << 31], None), with_offsets([i / 7 + u32::MAX / 2, 0], Some([0, 0]))),
            11 => (exact(&chain(MAX_LEVELS + 1)), exact(&chain(2))),
            _ => (random_batch(r, 1 + (i == 9) as u64, size), random_batch(r, 1, Size { levels: i as u64 % 2, windows: 1, ..size })),
        };
        let growing = i % 2 == 1;
        let result = join(&a, &b, growing);
        if !is_small(&result) {
            continue;
        }
        let (nodes, rows) = around(&result)[if i % 6 == 2 { 2 + i as usize / 6 % 2 } else { i as usize % 2 }];
        out.push(Stored { what: format!("growing {growing}"), line: join_line(&a, &b, growing, &expected(&result, nodes, rows, LENT)) });
    }
    out
}

/// An encoding of so many rows with so many windows of as many rows.
fn with_windows(rows: u32, windows: u32) -> Batch {
    exact(&[vec![(rows, windows)], vec![(rows, 0); windows as usize]].concat())
}

/// The Rust's time alone, one call to a clock reading; with a copy of its operands, which it takes and ours leaves alone;
/// and a plain copy of the result's rows.
pub fn row(what: &str, ours: f64, rust: f64, kept: f64, rows: usize) {
    bench::row(what, ours, "Rust", rust, "which moves its operands' rows");
    bench::row(what, ours, "Rust", kept, "with a copy of its operands");
    let (from, mut to) = (vec![1u32; rows * ROW], vec![0u32; rows * ROW]);
    let copy = bench::alone(|| to.copy_from_slice(black_box(&from)));
    bench::row(what, ours, "memory copy", copy, "of the result");
}

fn time_joins() {
    for (what, rows, windows) in [("join, 8 windows each, 128 rows a node", 128, 8), ("join, 512 and 512 rows", 512, 0)] {
        let b = with_windows(rows, windows);
        let e = one(&b).unwrap();
        let mut result = e.clone();
        result.merge_with(e.clone(), true);
        let size = to_batch(&[result]).unwrap();
        let mut lent = Lent::new(size.nodes.len(), size.rows.len());
        let ours = bench::alone(|| assert_eq!(lent.merge_with(black_box(&b), black_box(&b), true), 0));
        let joined = |(mut s, p): (Encoding, Encoding)| {
            s.merge_with(p, true);
            s
        };
        let rust = bench::once(&(e.clone(), e.clone()), joined);
        let kept = bench::once(&(), |()| joined((e.clone(), e.clone())));
        row(what, ours, rust, kept, size.rows.len() / ROW);
    }
}

// ---- Folds

fn fold_line(b: &Batch, growing: bool, want: &Folded) -> Line {
    let left = want.working.nodes.first().copied().unwrap_or(0);
    stored(Line::of(19).list(&b.nodes).list(&b.rows).number(growing as u32).number(left), &want.output)
}

/// The numbers of each list of the working store of a stored case.
pub const STORED: usize = 2_048;

/// The output and the working store, each just enough or too small.
pub fn stores(result: &Result<Joined, u32>, which: usize) -> [usize; 4] {
    let around = around(result);
    let ((nodes, rows), (working_nodes, working_rows)) = match which {
        0..=3 => (around[which], around[1]),
        _ => (around[1], around[which - 4]),
    };
    [nodes, rows, working_nodes, working_rows]
}

pub const ALL_STORES: [usize; 8] = [0, 1, 2, 3, 4, 5, 6, 7];

fn case_fold(t: &mut Tally, b: &Batch, which: &[usize]) {
    for growing in [false, true] {
        let result = fold(b, growing);
        for &i in which {
            let sizes = stores(&result, i);
            let got = ours::merge(b, growing, sizes);
            let want = expected_fold(&result, sizes, BEFORE);
            t.case(got == want, || (format!("ours gave refusal {}", got.output.refusal), fold_line(b, growing, &want)));
        }
    }
}

/// The encodings of two batches one after another.
fn after(a: &Batch, b: &Batch) -> Batch {
    Batch { nodes: [&a.nodes[..], &b.nodes].concat(), rows: [&a.rows[..], &b.rows].concat() }
}

/// Folds in which runs of encodings without windows stand at the start, between encodings that have a window and at the end: all
/// ways to put up to seven one after another, at most three of them with a window. Nodes have no rows up to two, ranges share two ids.
fn with_runs() -> Vec<Batch> {
    let mut out = vec![];
    for (many, code) in (1..=7).flat_map(|many| (0..1u32 << many).map(move |code| (many, code))) {
        if code.count_ones() > 3 {
            continue;
        }
        let mut shape = vec![];
        for i in 0..many {
            let windows = code >> i & 1;
            shape.push(((i + code) % 3, windows));
            shape.extend(vec![((i + code / 2) % 3, 0); windows as usize]);
        }
        let mut b = exact(&shape);
        for (i, node) in b.nodes.chunks_mut(NODE).enumerate() {
            let (id, rows) = (i % 2, node[0]);
            node[2 + 3 * id..5 + 3 * id].copy_from_slice(&[1, rows / 2, rows]);
        }
        for (i, row) in b.rows.chunks_mut(ROW).enumerate() {
            row[7..9].copy_from_slice(&[3 * i as u32 + 1, 5 * i as u32 + 2]);
        }
        out.push(b);
    }
    // a run that comes to u32's last number, and one that passes it: on the top, and in the window alone
    for over in [0, 1] {
        let run = after(&with_offsets([7, 1 << 31], None), &with_offsets([over, u32::MAX >> 1], None));
        for first in [with_offsets([0, over], Some([0, 0])), with_offsets([0, 0], Some([0, over]))] {
            out.push(after(&first, &run));
            out.push(after(&after(&first, &run), &with_offsets([0, 0], Some([0, 0]))));
        }
    }
    out
}

fn compare_folds(t: &mut Tally, r: &mut Rng, count: u64) {
    case_fold(t, &Batch::default(), &ALL_STORES);
    let small = all_small(3);
    for (i, a) in small.iter().enumerate() {
        case_fold(t, a, &ALL_STORES);
        for (j, b) in small.iter().enumerate() {
            case_fold(t, &after(a, b), &[(i + j) % 8]);
            for (k, c) in small.iter().enumerate() {
                case_fold(t, &after(&after(a, b), c), &[(i + j + k) % 8]);
            }
        }
    }
    for (a, b) in at_the_edge().iter().chain(&joins_at_limits()) {
        case_fold(t, &after(a, b), &ALL_STORES);
    }
    for b in with_runs() {
        case_fold(t, &b, &ALL_STORES);
    }
    for i in 0..count {
        let size = Size { levels: i % 3, windows: 2, rows: 4, offset: 1 << (8 * (i % 5)) };
        let many = r.below(1 + 6 / (1 + i % 3));
        let b = random_batch(r, many, size);
        case_fold(t, &b, &ALL_STORES);
        if !b.nodes.is_empty() {
            inputs::some_damages(&mut |b| case_fold(t, b, &[i as usize % 8]), r, &b, 2);
        }
        let (many, offset) = (r.below(40), [40, 1 << 27][i as usize % 2]);
        case_fold(t, &random_batch(r, many, Size { levels: 0, windows: 0, rows: 9, offset }), &[i as usize % 8]);
    }
    for (encodings, rows) in [(MAX_NODES, 16), (MAX_NODES, 0), (2, 32_768), (3, 21_846)] {
        case_fold(t, &exact(&vec![(rows, 0); encodings]), &[0, 2]);
    }
}

fn store_folds(r: &mut Rng) -> Vec<Stored> {
    let mut out = vec![];
    for i in 0..24u32 {
        let size = Size { levels: i as u64 % 3, windows: 1 + i as u64 % 2, rows: 2, offset: [50, 1 << 31][(i % 5 == 4) as usize] };
        let b = match i {
            3 | 7 => after(&with_offsets([9, 1 << 31], None), &with_offsets([i / 7 + u32::MAX / 2, 0], Some([0, 0]))),
            _ => random_batch(r, i as u64 % 4, size),
        };
        let growing = i % 2 == 1;
        let result = fold(&b, growing);
        if !is_small(&result) {
            continue;
        }
        let [nodes, rows, _, _] = stores(&result, [0, 1, 0, 1, 2, 1, 3, 0][i as usize % 8]);
        let sizes = [nodes, rows, STORED, STORED];
        out.push(Stored { what: format!("growing {growing}"), line: fold_line(&b, growing, &expected_fold(&result, sizes, LENT)) });
    }
    out
}

fn time_folds() {
    for (what, encodings, rows) in [("fold of 64 encodings of 128 rows", 64, 128), ("fold of 4,096 encodings of 16 rows", MAX_NODES, 16), ("fold of 2,048 encodings of 16 rows", MAX_NODES / 2, 16)] {
        let b = exact(&vec![(rows, 0); encodings]);
        let e = from_batch(&b.nodes, &b.rows);
        let mut lent = Lent::new(NODE, b.rows.len());
        let mut working = Batch { nodes: vec![0; NODE], rows: vec![0; b.rows.len()] };
        let ours = bench::alone(|| assert_eq!(lent.merge(black_box(&b), true, &mut working), 0));
        let rust = bench::once(&e, |e| Encoding::merge(e, true));
        let kept = bench::once(&(), |()| Encoding::merge(e.clone(), true));
        row(what, ours, rust, kept, b.rows.len() / ROW);
    }
    // the result so far has a window, and nothing that comes after it has
    let b = after(&with_windows(32_500, 1), &exact(&vec![(0, 0); MAX_NODES - 2]));
    let e = from_batch(&b.nodes, &b.rows);
    let mut lent = Lent::new(2 * NODE, b.rows.len());
    let mut working = Batch { nodes: vec![0; 2 * NODE], rows: vec![0; b.rows.len()] };
    let ours = bench::few(5, || assert_eq!(lent.merge(black_box(&b), true, &mut working), 0));
    let rust = bench::few(5, || Encoding::merge(black_box(e.clone()), true));
    bench::row("fold of 65,000 rows with a window, then 4,094 empty encodings", ours, "Rust", rust, "with a copy of its operands");
}

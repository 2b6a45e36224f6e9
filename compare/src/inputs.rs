//! Batches to compare on, good and malformed, for every operation that takes one: all small shapes, the limits,
//! random ones and what is made of them by damage. `visit` is called for each.
use tokenizers::bridge::{Batch, MAX_LEVELS, MAX_NODES, MAX_ROWS, NODE, ROW, SEQUENCES};
use tokenizers::rng::{random_batch, Rng, Size};

/// Nodes with these (row count, window count) and no ranges, and so many good rows.
pub fn batch(shape: &[(u32, u32)], rows: usize) -> Batch {
    let blank = [0; NODE - 2];
    let nodes = shape.iter().flat_map(|&(rows, windows)| [rows, windows].into_iter().chain(blank)).collect();
    let row = |i: usize| [i as u32, 0, i as u32 % 2, 3, 4, i as u32 % 2, (i as u32 % 2) * 7, 9, 10, 0, 1];
    Batch { nodes, rows: (0..rows).flat_map(row).collect() }
}

/// The batch whose row slice is what its nodes ask for.
pub fn exact(shape: &[(u32, u32)]) -> Batch {
    batch(shape, shape.iter().map(|n| n.0 as usize).sum())
}

/// With its row slice as it is, one number shorter, and one row longer.
pub fn three_lengths(visit: &mut impl FnMut(&Batch), b: &Batch) {
    visit(b);
    let mut short = b.clone();
    if short.rows.pop().is_some() {
        visit(&short);
    }
    let mut long = b.clone();
    long.rows.extend(batch(&[], 1).rows);
    visit(&long);
}

/// All that is exhaustive: small batches, those at the limits with some damages, and counts that wrap around.
pub fn exhaustive(visit: &mut impl FnMut(&Batch), r: &mut Rng) {
    all_shapes(visit);
    all_ranges(visit);
    all_rows(visit);
    for b in at_limits() {
        three_lengths(visit, &b);
        some_damages(visit, r, &b, 10);
    }
    wrapping().iter().for_each(visit);
}

/// Every combination of row and window counts over few nodes.
pub fn all_shapes(visit: &mut impl FnMut(&Batch)) {
    for (most_nodes, most_rows, most_windows) in [(4, 2, 3), (5, 1, 4), (6, 0, 5)] {
        let ways = (most_rows + 1) * (most_windows + 1);
        for nodes in 0..=most_nodes {
            for code in 0..u32::pow(ways, nodes) {
                let digits = (0..nodes).map(|i| code / ways.pow(i) % ways);
                let shape: Vec<_> = digits.map(|d| (d % (most_rows + 1), d / (most_rows + 1))).collect();
                three_lengths(visit, &exact(&shape));
            }
        }
    }
}

/// Every small range at each of the eight places of each node of a chain of three.
pub fn all_ranges(visit: &mut impl FnMut(&Batch)) {
    for rows in 0..=3 {
        let base = exact(&[(rows, 1), (rows, 1), (rows, 0)]);
        for place in (0..3 * SEQUENCES).map(|i| i / SEQUENCES * NODE + 2 + i % SEQUENCES * 3) {
            for code in 0..3 * 5 * 5 {
                let mut b = base.clone();
                b.nodes[place..place + 3].copy_from_slice(&[code / 25, code / 5 % 5, code % 5]);
                visit(&b);
            }
        }
    }
}

/// Every two ranges of up to four rows, under every two ids.
pub fn all_range_pairs(visit: &mut impl FnMut(&Batch)) {
    for rows in 0..=4u32 {
        let mut b = exact(&[(rows, 0)]);
        let ranges: Vec<[u32; 3]> = (0..=rows).flat_map(|end| (0..=end).map(move |start| [1, start, end])).collect();
        for (low, high) in (0..SEQUENCES).flat_map(|high| (0..high).map(move |low| (low, high))) {
            for (first, second) in ranges.iter().flat_map(|first| ranges.iter().map(move |second| (first, second))) {
                b.nodes[2..].fill(0);
                b.nodes[2 + low * 3..][..3].copy_from_slice(first);
                b.nodes[2 + high * 3..][..3].copy_from_slice(second);
                visit(&b);
            }
        }
    }
}

/// Every small pool, word mark and word in each row of two nodes.
pub fn all_rows(visit: &mut impl FnMut(&Batch)) {
    for row in 0..4 {
        for code in 0..27 {
            let mut b = exact(&[(2, 0), (2, 0)]);
            b.rows[row * ROW + 2] = code / 9;
            b.rows[row * ROW + 5..row * ROW + 7].copy_from_slice(&[code / 3 % 3, code % 3]);
            visit(&b);
        }
    }
}

/// Few ranges that matter to a search in the rows: none; some rows under id 0; two that overlap; all rows under id 7.
fn with_ranges(visit: &mut impl FnMut(&Batch), b: &Batch) {
    let rows = b.nodes[0];
    let some = rows.min(1);
    let choices: [&[(usize, u32, u32)]; 5] =
        [&[], &[(0, some, rows)], &[(0, 0, rows - some)], &[(1, 0, rows - some), (3, some, rows)], &[(7, 0, rows)]];
    for ranges in choices {
        let mut b = b.clone();
        for &(id, start, end) in ranges {
            b.nodes[2 + 3 * id..5 + 3 * id].copy_from_slice(&[1, start, end]);
        }
        visit(&b);
    }
}

/// Every column of up to four words, each absent or 0 to 2.
pub fn all_words(visit: &mut impl FnMut(&Batch)) {
    for rows in 0..=4u32 {
        for code in 0..4u32.pow(rows) {
            let mut b = exact(&[(rows, 0)]);
            for (i, row) in b.rows.chunks_mut(ROW).enumerate() {
                let word = code / 4u32.pow(i as u32) % 4;
                row[5..9].copy_from_slice(&[(word > 0) as u32, word.saturating_sub(1), i as u32 + 20, i as u32 + 30]);
            }
            with_ranges(visit, &b);
        }
    }
}

/// Every column of up to three offsets, each start and end 0 to 2.
pub fn all_offsets(visit: &mut impl FnMut(&Batch)) {
    for rows in 0..=3u32 {
        for code in 0..9u32.pow(rows) {
            let mut b = exact(&[(rows, 0)]);
            for (i, row) in b.rows.chunks_mut(ROW).enumerate() {
                let offsets = code / 9u32.pow(i as u32) % 9;
                row[7..9].copy_from_slice(&[offsets / 3, offsets % 3]);
            }
            with_ranges(visit, &b);
        }
    }
}

/// Every small pool, text start and text length in each row of two nodes, and those whose sum passes u32.
pub fn all_texts(visit: &mut impl FnMut(&Batch)) {
    const ENDS: [u32; 7] = [0, 1, 3, 4, 8, u32::MAX - 3, u32::MAX];
    for row in 0..4 {
        for code in 0..2 * 49 {
            let mut b = exact(&[(2, 0), (2, 0)]);
            b.rows[row * ROW + 2..row * ROW + 5].copy_from_slice(&[code / 49, ENDS[code as usize / 7 % 7], ENDS[code as usize % 7]]);
            visit(&b);
        }
    }
}

/// Every node of up to three rows over special masks and offsets of 0 to 2. Its window ends after all of them, so that a span
/// that takes in the window's row is another.
pub fn all_spans(visit: &mut impl FnMut(&Batch)) {
    for rows in 0..=3u32 {
        for code in 0..27u32.pow(rows) {
            let mut b = exact(&[(rows, 1), (1, 0)]);
            for (i, row) in b.rows.chunks_mut(ROW).take(rows as usize).enumerate() {
                let numbers = code / 27u32.pow(i as u32) % 27;
                row[7..].copy_from_slice(&[numbers / 9, numbers / 3 % 3, numbers % 3, code % 2]);
            }
            visit(&b);
        }
    }
}

/// n nodes, each the only window of the one before.
pub fn chain(n: usize) -> Vec<(u32, u32)> {
    (0..n).map(|i| (1, (i + 1 < n) as u32)).collect()
}

/// Batches at the limits and just above: nodes, rows, levels.
pub fn at_limits() -> Vec<Batch> {
    let (nodes, rows) = (MAX_NODES, MAX_ROWS as u32);
    let each = rows / MAX_NODES as u32;
    let mut shapes = vec![vec![(rows, 0)], vec![(rows + 1, 0)], vec![(rows, 1), (0, 0)], vec![(rows, 1), (1, 0)]];
    for n in [nodes - 1, nodes, nodes + 1] {
        shapes.push(vec![(0, 0); n]);
        shapes.push([vec![(0, n as u32 - 1)], vec![(0, 0); n - 1]].concat());
    }
    shapes.push(vec![(each, 0); nodes]);
    shapes.push([vec![(each, 0); nodes - 1], vec![(each + 1, 0)]].concat());
    for n in [MAX_LEVELS, MAX_LEVELS + 1, MAX_LEVELS + 2] {
        shapes.push(chain(n));
        shapes.push([vec![(0, 0); 3], chain(n), vec![(0, 0)]].concat());
        // the chain is the last window of the top, then the first
        shapes.push([vec![(1, 3), (0, 0), (0, 0)], chain(n - 1)].concat());
        shapes.push([vec![(1, 3)], chain(n - 1), vec![(0, 0), (0, 0)]].concat());
        // deep and wide: each level's first window goes on, its other windows come after all below it
        let wide = (nodes / (MAX_LEVELS + 2)) as u32;
        shapes.push([vec![(0, wide); n - 1], vec![(0, 0); 1 + (n - 1) * (wide as usize - 1)]].concat());
        // each level's last window goes on
        let level = [vec![(0, wide)], vec![(0, 0); wide as usize - 1]].concat();
        shapes.push([level.repeat(n - 1), vec![(0, 0)]].concat());
    }
    shapes.iter().map(|s| exact(s)).collect()
}

/// Counts whose sums or products would come out right if they wrapped around.
pub fn wrapping() -> Vec<Batch> {
    let half = 1 << 31;
    let shapes: [&[(u32, u32)]; 9] = [
        &[(half, 0), (half, 0)],
        &[(u32::MAX, 0), (1, 0)],
        &[(u32::MAX, 1), (1, 0)],
        &[(1, 0), (u32::MAX, 0), (1, 0)],
        &[(1 << 20, 0); MAX_NODES],
        &[(0, u32::MAX)],
        &[(0, u32::MAX), (0, 0)],
        &[(0, half), (0, half), (0, 1), (0, 0)],
        &[(0, u32::MAX), (0, u32::MAX), (0, 3), (0, 0)],
    ];
    shapes.iter().flat_map(|s| [0, 1].map(|rows| batch(s, rows))).collect()
}

/// Up to three encodings with few rows; the i-th has i mod 4 levels at most, and every second one large offsets.
pub fn random_small(r: &mut Rng, i: u64) -> Batch {
    let encodings = r.below(4);
    let offset = [40, 1 << 32][(i % 2) as usize];
    random_batch(r, encodings, Size { levels: i % 4, windows: 2, rows: 3, offset })
}

/// One encoding with few rows and up to two levels of windows; every second one has large offsets.
pub fn random_one(r: &mut Rng, i: u64) -> Batch {
    let offset = [40, 1 << 32][(i % 2) as usize];
    random_batch(r, 1, Size { levels: i % 3, windows: 2, rows: 1 + i % 9, offset })
}

/// Up to six encodings with up to 12 rows a node, flat and wide or deep and narrow by i.
pub fn random_large(r: &mut Rng, i: u64) -> Batch {
    let (encodings, levels) = (1 + r.below(6), 1 + i % 16);
    random_batch(r, encodings, Size { levels, windows: 1 + 16 / (levels * levels), rows: 12, offset: 1 << 32 })
}

/// The batch with other offsets and special masks, by a kind for each node. So the spans of windows and neighbours are wider
/// than many a node's own, and some nodes have rows but no span.
pub fn with_free_spans(r: &mut Rng, mut b: Batch) -> Batch {
    let mut rows = b.rows.chunks_mut(ROW);
    for node in b.nodes.chunks(NODE) {
        let kind = r.below(4);
        rows.by_ref().take(node[0] as usize).for_each(|row| row[7..10].copy_from_slice(&free_span(r, kind)));
    }
    b
}

/// The offsets and the special mask of a row. Offsets lie between 20 and 39 for kind 0, at the ends of u32 for kind 1, and
/// in either place for the others; masks are of all sorts, but never 0 for kind 3.
fn free_span(r: &mut Rng, kind: u64) -> [u32; 3] {
    const ENDS: [u32; 4] = [0, 1, u32::MAX - 1, u32::MAX];
    const MASKS: [u32; 6] = [0, 0, 0, 1, 2, u32::MAX];
    let mut offset = || {
        let inside = kind == 0 || (kind != 1 && r.below(2) == 0);
        if inside { 20 + r.small(20) } else { ENDS[r.below(4) as usize] }
    };
    let (start, end) = (offset(), offset());
    let masks = if kind == 3 { &MASKS[3..] } else { &MASKS[..] };
    [start, end, masks[r.below(masks.len() as u64) as usize]]
}

/// The numbers that a number is changed to.
fn changed(x: u32) -> [u32; 6] {
    [x.wrapping_add(1), x.wrapping_sub(1), 0, 1, 2, u32::MAX]
}

/// The nodes of a batch or its rows.
fn slice(b: &mut Batch, of_nodes: bool) -> &mut Vec<u32> {
    if of_nodes { &mut b.nodes } else { &mut b.rows }
}

/// Every number changed in every way; each slice cut, doubled, lengthened; each node and row left out or doubled.
pub fn all_damages(visit: &mut impl FnMut(&Batch), b: &Batch) {
    let mut copy = b.clone();
    for (of_nodes, width) in [(true, NODE), (false, ROW)] {
        let good = slice(&mut copy, of_nodes).clone();
        for (i, &was) in good.iter().enumerate() {
            for x in changed(was) {
                slice(&mut copy, of_nodes)[i] = x;
                visit(&copy);
            }
            slice(&mut copy, of_nodes)[i] = was;
        }
        let mut visit_with = |numbers: Vec<u32>| {
            *slice(&mut copy, of_nodes) = numbers;
            visit(&copy);
        };
        for n in 1..=width + 1 {
            // cut in place: a read past the end would find the good numbers and not refuse
            let mut short = good.clone();
            short.truncate(good.len().saturating_sub(n));
            visit_with(short);
            visit_with([&good[..], &vec![0; n]].concat());
        }
        visit_with(good.repeat(2));
        for i in (0..good.len()).step_by(width) {
            visit_with([&good[..i], &good[i + width..]].concat());
            visit_with([&good[..i + width], &good[i..]].concat());
        }
        *slice(&mut copy, of_nodes) = good;
    }
    visit(&Batch { nodes: b.nodes.repeat(2), rows: b.rows.repeat(2) });
}

/// For a large batch: so many numbers changed by chance, each alone.
pub fn some_damages(visit: &mut impl FnMut(&Batch), r: &mut Rng, b: &Batch, times: usize) {
    let mut copy = b.clone();
    for i in 0..times {
        let of_nodes = i % 2 == 0 || b.rows.is_empty();
        let numbers = slice(&mut copy, of_nodes);
        let at = r.below(numbers.len() as u64) as usize;
        let was = numbers[at];
        numbers[at] = changed(was)[r.below(6) as usize];
        visit(&copy);
        slice(&mut copy, of_nodes)[at] = was;
    }
}

/// A kind of damage for the stored cases, at a node or row by chance; the batch has at least two of each.
pub type Damage = (&'static str, fn(&mut Rng, &mut Batch));

/// The place of a number of some node.
fn node(r: &mut Rng, b: &Batch, number: usize) -> usize {
    r.below((b.nodes.len() / NODE) as u64) as usize * NODE + number
}

/// The place of a number of some row.
fn row(r: &mut Rng, b: &Batch, number: usize) -> usize {
    r.below((b.rows.len() / ROW) as u64) as usize * ROW + number
}

/// Sets one of the eight ranges of some node, from that node's row count.
fn set_range(r: &mut Rng, b: &mut Batch, range: fn(u32) -> [u32; 3]) {
    let at = node(r, b, 0);
    let place = at + 2 + 3 * r.below(SEQUENCES as u64) as usize;
    let range = range(b.nodes[at]);
    b.nodes[place..place + 3].copy_from_slice(&range);
}

fn add(numbers: &mut [u32], at: usize, x: u32) {
    numbers[at] = numbers[at].wrapping_add(x);
}

pub const DAMAGES: [Damage; 20] = [
    ("nodes one number short", |_, b| b.nodes.truncate(b.nodes.len() - 1)),
    ("rows one number short", |_, b| b.rows.truncate(b.rows.len() - 1)),
    ("one number after the nodes", |_, b| b.nodes.push(0)),
    ("one number after the rows", |_, b| b.rows.push(0)),
    ("a row left over", |_, b| b.rows.extend([0; ROW])),
    ("the last row missing", |_, b| b.rows.truncate(b.rows.len() - ROW)),
    ("a row count one too high", |r, b| { let at = node(r, b, 0); add(&mut b.nodes, at, 1) }),
    ("a row count far too high", |r, b| { let at = node(r, b, 0); b.nodes[at] = u32::MAX }),
    ("a window too many asked for", |_, b| { let last = b.nodes.len() - NODE; add(&mut b.nodes, last + 1, 1) }),
    ("far too many windows asked for", |r, b| { let at = node(r, b, 1); b.nodes[at] = u32::MAX }),
    ("a range mark of 2", |r, b| set_range(r, b, |_| [2, 0, 0])),
    ("a start where the range is absent", |r, b| set_range(r, b, |_| [0, 1, 0])),
    ("an end where the range is absent", |r, b| set_range(r, b, |_| [0, 0, 1])),
    ("a start above the end", |r, b| set_range(r, b, |rows| [1, rows + 1, rows])),
    ("an end above the row count", |r, b| set_range(r, b, |rows| [1, rows, rows + 1])),
    ("a start and an end far above the row count", |r, b| set_range(r, b, |_| [1, u32::MAX, u32::MAX])),
    ("a pool of 2", |r, b| { let at = row(r, b, 2); b.rows[at] = 2 }),
    ("a pool far above 1", |r, b| { let at = row(r, b, 2); b.rows[at] = u32::MAX }),
    ("a word mark of 2", |r, b| { let at = row(r, b, 5); b.rows[at] = 2 }),
    ("a word where the mark is 0", |r, b| { let at = row(r, b, 5); b.rows[at..at + 2].copy_from_slice(&[0, 1]) }),
];

/// A random batch of at most 12 nodes and 64 rows, and at least two of each.
pub fn small_batch(r: &mut Rng, levels: u64) -> Batch {
    loop {
        let encodings = 1 + r.below(3);
        let b = random_batch(r, encodings, Size { levels, windows: 2, rows: 4, offset: 50 });
        if (2..=12).contains(&(b.nodes.len() / NODE)) && (2..=64).contains(&(b.rows.len() / ROW)) {
            return b;
        }
    }
}

/// So many rows, shared out evenly over a top encoding and its windows, every range present.
pub fn large(nodes: usize, rows: usize) -> Batch {
    let each = (rows / nodes) as u32;
    let mut b = exact(&[vec![(each, nodes as u32 - 1)], vec![(each, 0); nodes - 1]].concat());
    for node in b.nodes.chunks_mut(NODE) {
        node[2..].chunks_mut(3).for_each(|range| range.copy_from_slice(&[1, 0, each]));
    }
    b
}

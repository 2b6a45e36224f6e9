//! Records that keep the terminal profile of request 08, and what breaks one of its rules in them. What breaks a rule says where that
//! must be told, from how it was made.
use crate::inputs::exact;
use std::mem;
use tokenizers::bridge::{Batch, NODE, ROW, SEQUENCES};
use tokenizers::rng::Rng;

/// Where a row's numbers begin that the rules look at: word mark, word, offset start and end, special mask, attention.
pub const WORD: usize = 5;
const OFFSETS: usize = 7;
const MASKS: usize = 9;

/// The masks that a row may have, special mask and attention.
pub const KEPT: [[u32; 2]; 3] = [[0, 1], [1, 0], [1, 1]];

/// The row counts and window counts of nodes.
pub type Shape = Vec<(u32, u32)>;

pub fn shape_of(b: &Batch) -> Shape {
    b.nodes.chunks(NODE).map(|node| (node[0], node[1])).collect()
}

/// So many encodings with up to so many windows, which have none, and up to so many rows in each node.
pub fn flat_shape(r: &mut Rng, encodings: u64, windows: u64, rows: u64) -> Shape {
    let mut shape = vec![];
    for _ in 0..encodings {
        let windows = r.small(windows + 1);
        shape.push((r.small(rows + 1), windows));
        shape.extend((0..windows).map(|_| (r.small(rows + 1), 0)));
    }
    shape
}

// ---- Records that pass

/// A batch of this shape that breaks no rule but the first, and not that one unless its windows have windows.
pub fn filled(r: &mut Rng, shape: &[(u32, u32)]) -> Batch {
    let mut b = exact(shape);
    let mut rows = &mut b.rows[..];
    for node in b.nodes.chunks_mut(NODE) {
        let (own, rest) = mem::take(&mut rows).split_at_mut(node[0] as usize * ROW);
        rows = rest;
        fill_node(r, node, own);
    }
    b
}

fn fill_node(r: &mut Rng, node: &mut [u32], rows: &mut [u32]) {
    let no_words = r.below(8) == 0;
    rows.chunks_mut(ROW).for_each(|row| row[WORD..].copy_from_slice(&plain_row(r, no_words)));
    let ranges = apart(r, node[0]);
    if ranges.is_empty() {
        rising(r, rows);
    }
    for (id, start, end) in ranges {
        node[2 + 3 * id..5 + 3 * id].copy_from_slice(&[1, start, end]);
        rising(r, &mut rows[start as usize * ROW..end as usize * ROW]);
    }
}

/// The numbers of a row from its word mark on, with any word or none.
fn plain_row(r: &mut Rng, no_word: bool) -> [u32; 6] {
    let mark = (!no_word && r.below(4) != 0) as u32;
    let word = [r.small(4), r.small(4), u32::MAX - r.small(4)][r.below(3) as usize];
    let end = [r.small(40), r.next() as u32, u32::MAX][r.below(3) as usize];
    let start = [0, r.below(end as u64 + 1) as u32, end][r.below(3) as usize];
    let masks = KEPT[r.below(3) as usize];
    [mark, mark * word, start, end, masks[0], masks[1]]
}

/// Other words in all rows that have one: each is the one before it or above it.
fn rising(r: &mut Rng, rows: &mut [u32]) {
    let mut word = [r.small(3), r.small(3), u32::MAX - r.small(9)][r.below(3) as usize];
    for row in rows.chunks_mut(ROW).filter(|row| row[WORD] == 1) {
        row[WORD + 1] = word;
        word = word.saturating_add(r.small(3));
    }
}

/// Ranges that share no row, under ids in any order: some side by side, some with rows between, and empty ones anywhere.
fn apart(r: &mut Rng, rows: u32) -> Vec<(usize, u32, u32)> {
    let mut ids: Vec<usize> = (0..SEQUENCES).collect();
    for i in (1..SEQUENCES).rev() {
        ids.swap(i, r.below(i as u64 + 1) as usize);
    }
    let most = [0, 1, 2, SEQUENCES as u64][r.below(4) as usize];
    let with_rows = r.below(most + 1) as usize;
    let mut bounds: Vec<u32> = (0..2 * with_rows).map(|_| r.small(rows as u64 + 1)).collect();
    bounds.sort();
    for i in (2..bounds.len()).step_by(2).filter(|_| r.below(2) == 0) {
        bounds[i] = bounds[i - 1];
    }
    let empty = if r.below(3) == 0 { r.below(SEQUENCES as u64 - with_rows as u64 + 1) } else { 0 };
    bounds.extend((0..empty).map(|_| r.small(rows as u64 + 1)).flat_map(|row| [row, row]));
    ids.into_iter().zip(bounds.chunks(2)).map(|(id, bounds)| (id, bounds[0], bounds[1])).collect()
}

// ---- What breaks a rule

/// Breaks a rule at a place by chance in a batch that passes: rule, node and row that must be told. None if there is no such place.
pub type Breaking = fn(&mut Rng, &mut Batch) -> Option<[u32; 3]>;

/// One for each rule, in their order.
pub const BREAKINGS: [Breaking; 6] = [give_window, other_mask, unattended, start_past_end, two_ranges, falling_word];

/// A node, with the place of its numbers and of its rows.
struct Place {
    node: u32,
    at: usize,
    rows_at: usize,
    rows: u32,
}

fn places(b: &Batch) -> Vec<Place> {
    let mut rows_at = 0;
    let place = |(i, node): (usize, &[u32])| {
        let place = Place { node: i as u32, at: i * NODE, rows_at, rows: node[0] };
        rows_at += node[0] as usize * ROW;
        place
    };
    b.nodes.chunks(NODE).enumerate().map(place).collect()
}

fn any<'a, T>(r: &mut Rng, of: &'a [T]) -> Option<&'a T> {
    if of.is_empty() { None } else { Some(&of[r.below(of.len() as u64) as usize]) }
}

/// A row by chance, the last one more often: its node, its number in it, and the place of its numbers.
fn any_row(r: &mut Rng, b: &Batch) -> Option<(u32, u32, usize)> {
    let rows = b.rows.len() / ROW;
    if rows == 0 {
        return None;
    }
    let at = if r.below(8) == 0 { rows - 1 } else { r.below(rows as u64) as usize } * ROW;
    let of = places(b).into_iter().rev().find(|place| place.rows_at <= at && place.rows > 0)?;
    Some((of.node, ((at - of.rows_at) / ROW) as u32, at))
}

/// Gives a window to a window.
fn give_window(r: &mut Rng, b: &mut Batch) -> Option<[u32; 3]> {
    // how many windows are still to come, level by level
    let mut open: Vec<u32> = vec![];
    let mut windows = vec![];
    for (i, node) in b.nodes.chunks(NODE).enumerate() {
        while open.last() == Some(&0) {
            open.pop();
        }
        if let Some(last) = open.last_mut() {
            *last -= 1;
            windows.push(i);
        }
        open.push(node[1]);
    }
    let window = *any(r, &windows)?;
    b.nodes[window * NODE + 1] += 1;
    b.nodes.splice((window + 1) * NODE..(window + 1) * NODE, [0; NODE]);
    Some([1, window as u32, 0])
}

fn other_mask(r: &mut Rng, b: &mut Batch) -> Option<[u32; 3]> {
    let (node, row, at) = any_row(r, b)?;
    b.rows[at + MASKS + r.below(2) as usize] = [2, 3, 256, u32::MAX][r.below(4) as usize];
    Some([2, node, row])
}

fn unattended(r: &mut Rng, b: &mut Batch) -> Option<[u32; 3]> {
    let (node, row, at) = any_row(r, b)?;
    b.rows[at + MASKS..at + MASKS + 2].fill(0);
    Some([3, node, row])
}

fn start_past_end(r: &mut Rng, b: &mut Batch) -> Option<[u32; 3]> {
    let (node, row, at) = any_row(r, b)?;
    let end = r.small(40);
    let offsets = [[end + 1, end], [end + 1 + r.small(40), end], [u32::MAX, u32::MAX - 1], [u32::MAX, 0]];
    b.rows[at + OFFSETS..at + OFFSETS + 2].copy_from_slice(&offsets[r.below(4) as usize]);
    Some([4, node, row])
}

/// The ranges of a node that are there, each with the place of its numbers.
fn ranges(b: &Batch, of: &Place) -> Vec<(usize, u32, u32)> {
    let all = (0..SEQUENCES).map(|id| of.at + 2 + 3 * id);
    all.filter(|at| b.nodes[*at] == 1).map(|at| (at, b.nodes[at + 1], b.nodes[at + 2])).collect()
}

/// A range more, over a row that lies in one.
fn two_ranges(r: &mut Rng, b: &mut Batch) -> Option<[u32; 3]> {
    let held: Vec<(Place, u32, u32)> = places(b)
        .into_iter()
        .filter_map(|of| {
            let all = ranges(b, &of);
            let with_rows: Vec<_> = all.iter().filter(|(_, start, end)| start < end).collect();
            let &&(_, start, end) = any(r, &with_rows)?;
            (all.len() < SEQUENCES).then_some((of, start, end))
        })
        .collect();
    let (of, start, end) = any(r, &held)?;
    let row = start + r.small((end - start) as u64);
    let (start, end) = (r.small(row as u64 + 1), row + 1 + r.small((of.rows - row) as u64));
    let shared = |(_, other_start, other_end): &(usize, u32, u32)| (start.max(*other_start)..end.min(*other_end)).next();
    let first = ranges(b, of).iter().filter_map(shared).min().expect("the row that was chosen");
    let free: Vec<usize> = (0..SEQUENCES).map(|id| of.at + 2 + 3 * id).filter(|at| b.nodes[*at] == 0).collect();
    let at = *any(r, &free)?;
    b.nodes[at..at + 3].copy_from_slice(&[1, start, end]);
    Some([5, of.node, first])
}

/// A word in a range, or in a node without ranges, that is below the last one before it there.
fn falling_word(r: &mut Rng, b: &mut Batch) -> Option<[u32; 3]> {
    let mut within: Vec<(u32, usize, u32, u32)> = vec![];
    for of in places(b) {
        let all = ranges(b, &of);
        let whole = [(of.at, 0, of.rows)];
        let looked_at = if all.is_empty() { &whole[..] } else { &all[..] };
        within.extend(looked_at.iter().filter(|(_, start, end)| end - start >= 2).map(|(_, start, end)| (of.node, of.rows_at, *start, *end)));
    }
    let &(node, rows_at, start, end) = any(r, &within)?;
    let place = |row: u32| rows_at + row as usize * ROW + WORD;
    let row = start + 1 + r.small((end - start) as u64 - 1);
    let before = match (start..row).rev().find(|before| b.rows[place(*before)] == 1) {
        Some(before) => before,
        None => {
            b.rows[place(row - 1)..place(row - 1) + 2].copy_from_slice(&[1, 5]);
            row - 1
        }
    };
    if b.rows[place(before) + 1] == 0 {
        // nothing is below 0: this and all words after it there go up by one
        for later in (before..end).filter(|later| b.rows[place(*later)] == 1).collect::<Vec<u32>>() {
            b.rows[place(later) + 1] = b.rows[place(later) + 1].saturating_add(1);
        }
    }
    let last = b.rows[place(before) + 1];
    let word = [last - 1, r.small(last as u64)][r.below(2) as usize];
    b.rows[place(row)..place(row) + 2].copy_from_slice(&[1, word]);
    Some([6, node, row])
}

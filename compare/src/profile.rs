//! check_profile, which the Rust does not have, against a reading of request 08 that goes over the Rust's encodings rule by rule, then
//! depth first; and what request 08 says of words looked up in records that pass, of the library's own answers.
use crate::inputs::{self, batch, exact, DAMAGES};
use crate::lookups::one;
use crate::ours::{self, Answer, BEFORE};
use crate::profile_inputs::{filled, flat_shape, shape_of, BREAKINGS, KEPT, WORD};
use crate::tally::{Line, Stored, Tally};
use crate::{bench, wellformed, Operation};
use std::hint::black_box;
use std::ops::Range;
use tokenizers::bridge::{from_batch, Batch, MAX_LEVELS, MAX_NODES, MAX_ROWS, NODE, ROW, SEQUENCES};
use tokenizers::encoding::probe;
use tokenizers::rng::Rng;
use tokenizers::Encoding;

pub const OPERATION: Operation =
    Operation { name: "check_profile", format: "34 nodes rows refusal rule node row (three zeros for a batch that passes)", compare, store, bench: times };

// ---- The second reading

/// The first row at which an encoding breaks a rule; it is a window or stands at the top.
type Rule = fn(&Encoding, bool) -> Option<usize>;

const RULES: [Rule; 6] = [
    // windows have no windows
    |e, window| (window && !e.get_overflowing().is_empty()).then_some(0),
    // both masks are 0 or 1
    |e, _| masks(e).position(|(special, attention)| ![0, 1].contains(&special) || ![0, 1].contains(&attention)),
    // attention is 0 only where the special mask is 1
    |e, _| masks(e).position(|(special, attention)| attention == 0 && special != 1),
    // offset start does not pass offset end
    |e, _| e.get_offsets().iter().position(|(start, end)| start > end),
    // no row lies in two ranges
    |e, _| {
        let ranges = probe::ranges(e);
        (0..e.len()).find(|row| ranges.iter().filter(|(_, range)| range.contains(row)).count() > 1)
    },
    // inside each range, or all rows if there are no ranges, the words that are present never fall
    |e, _| looked_at(e).into_iter().filter_map(|rows| first_fall(e, rows)).min(),
];

/// The special mask and the attention of each row.
fn masks(e: &Encoding) -> impl Iterator<Item = (u32, u32)> + '_ {
    e.get_special_tokens_mask().iter().copied().zip(e.get_attention_mask().iter().copied())
}

fn looked_at(e: &Encoding) -> Vec<Range<usize>> {
    let ranges = probe::ranges(e);
    if ranges.is_empty() { vec![0..e.len()] } else { ranges.into_iter().map(|(_, range)| range).collect() }
}

fn first_fall(e: &Encoding, rows: Range<usize>) -> Option<usize> {
    let present: Vec<(usize, u32)> = rows.filter_map(|row| Some((row, e.get_word_ids()[row]?))).collect();
    present.windows(2).find(|pair| pair[1].1 < pair[0].1).map(|pair| pair[1].0)
}

/// All encodings and windows, as they are stored, and whether each is a window.
fn depth_first(tops: &[Encoding]) -> Vec<(&Encoding, bool)> {
    fn add<'a>(e: &'a Encoding, window: bool, all: &mut Vec<(&'a Encoding, bool)>) {
        all.push((e, window));
        e.get_overflowing().iter().for_each(|w| add(w, true, all));
    }
    let mut all = vec![];
    tops.iter().for_each(|e| add(e, false, &mut all));
    all
}

/// The number of the first broken rule, the node and the row, or three zeros.
fn first_break(tops: &[Encoding]) -> [u32; 3] {
    let nodes = depth_first(tops);
    for (rule, broken_at) in (1..).zip(RULES) {
        for (node, (e, window)) in (0..).zip(&nodes) {
            if let Some(row) = broken_at(e, *window) {
                return [rule, node, row as u32];
            }
        }
    }
    [0; 3]
}

/// What must be told of a batch, none if it is malformed.
fn read(b: &Batch) -> Option<[u32; 3]> {
    wellformed::top_encodings(&b.nodes, &b.rows)?;
    Some(first_break(&from_batch(&b.nodes, &b.rows)))
}

/// The same as a refusal and the lent numbers.
fn expected(read: Option<[u32; 3]>) -> Answer {
    read.map_or((1, vec![BEFORE; 3]), |told| (0, told.to_vec()))
}

// ---- Cases

const PASSES: [u32; 3] = [0; 3];

/// The cases, and how many were told to pass, to break each rule, and were refused.
struct Cases<'a> {
    tally: &'a mut Tally,
    told: [u64; 8],
}

fn line(b: &Batch, (refusal, values): &Answer) -> Line {
    Line::of(34).list(&b.nodes).list(&b.rows).answer(*refusal, values)
}

impl Cases<'_> {
    fn case(&mut self, b: &Batch) -> Option<[u32; 3]> {
        let read = read(b);
        let want = expected(read);
        let got = ours::check_profile(b);
        self.told[read.map_or(7, |told| told[0] as usize)] += 1;
        self.tally.case(got == want, || (format!("ours gave {got:?}"), line(b, &want)));
        read
    }

    /// A batch, and if it passes also with each rule broken at a place by chance, and with several.
    fn with_breaks(&mut self, r: &mut Rng, b: &Batch) {
        if self.case(b) != Some(PASSES) {
            return;
        }
        for breaking in BREAKINGS {
            let mut broken = b.clone();
            if let Some(place) = breaking(r, &mut broken) {
                let read = self.case(&broken);
                assert!(read.is_none_or(|told| told == place), "the reading tells {read:?} of a break made at {place:?}");
            }
        }
        let mut several = b.clone();
        for _ in 0..2 + r.below(3) {
            BREAKINGS[r.below(6) as usize](r, &mut several);
        }
        self.case(&several);
    }

    fn print(&self) {
        let [passes, rules @ .., refused] = self.told;
        println!("check_profile was told: passes {passes}, rules 1 to 6 {rules:?}, refused {refused}");
        assert!(self.told.iter().all(|count| *count >= 1_000), "too few cases of a kind");
    }
}

// ---- Words in records that pass

/// Request 08 on words, of our own answers: in one encoding that passes, under an id with a range or in a record without ranges, a word
/// is not found exactly if no row there carries it, and else from the first row that does to the last.
fn ask_words(t: &mut Tally, b: &Batch) {
    let Some(e) = one(b).filter(|_| ours::check_profile(b) == expected(Some(PASSES))) else { return };
    let ranges: Vec<(u32, Range<usize>)> = match probe::ranges(&e) {
        none if none.is_empty() => (0..=SEQUENCES as u32).chain([u32::MAX]).map(|id| (id, 0..e.len())).collect(),
        some => some.into_iter().map(|(id, range)| (id as u32, range)).collect(),
    };
    let near = e.get_word_ids().iter().flatten().flat_map(|word| [word.wrapping_sub(1), *word, word.wrapping_add(1)]);
    let mut words: Vec<u32> = near.chain([0, 1, u32::MAX]).collect();
    words.sort();
    words.dedup();
    for (id, rows) in ranges {
        for word in &words {
            let carrying: Vec<usize> = rows.clone().filter(|row| e.get_word_ids()[*row] == Some(*word)).collect();
            let want = match carrying[..] {
                [] => vec![0; 3],
                [first, ..] => vec![1, first as u32, carrying[carrying.len() - 1] as u32 + 1],
            };
            let got = ours::word_to_tokens(b, *word, id);
            t.case(got == (0, want.clone()), || {
                let asked = Line::of(6).list(&b.nodes).list(&b.rows).number(*word).number(id);
                (format!("of a word in a record that passes, ours gave {got:?}"), asked.answer(0, &want))
            });
        }
    }
}

// ---- All small records

/// The masks of a row in small records: all that it may have, and some that break the second or the third rule.
const SMALL_MASKS: [[u32; 2]; 6] = [KEPT[0], KEPT[1], KEPT[2], [2, 1], [0, 2], [0, 0]];

/// A row's numbers from the word mark on: one of 36, by masks, offsets that pass or not, and no word, 0 or 1.
fn small_row(code: u32) -> [u32; 6] {
    let [special, attention] = SMALL_MASKS[code as usize % 6];
    let word = code / 12 % 3;
    [(word > 0) as u32, word.saturating_sub(1), 3 + code / 6 % 2, 3, special, attention]
}

fn set_row(b: &mut Batch, row: usize, numbers: &[u32]) {
    b.rows[row * ROW + WORD..][..6].copy_from_slice(numbers);
}

fn set_range(b: &mut Batch, node: usize, id: usize, (start, end): (u32, u32)) {
    b.nodes[node * NODE + 2 + 3 * id..][..3].copy_from_slice(&[1, start, end]);
}

/// All ranges of so many rows, the empty ones too.
fn all_ranges(rows: u32) -> Vec<(u32, u32)> {
    (0..=rows).flat_map(|end| (0..=end).map(move |start| (start, end))).collect()
}

/// Every two of the small rows, in one node with any two ranges, and in several nodes.
fn two_rows(visit: &mut impl FnMut(&Batch)) {
    const SHAPES: [&[(u32, u32)]; 8] = [
        &[(1, 1), (1, 0)],
        &[(1, 0), (1, 0)],
        &[(0, 1), (1, 1), (1, 0)],
        &[(1, 1), (0, 1), (1, 0)],
        &[(1, 2), (1, 0), (0, 0)],
        &[(0, 0), (1, 1), (1, 0)],
        &[(0, 1), (2, 0)],
        &[(0, 1), (0, 1), (2, 0)],
    ];
    for code in 0..36 * 36 {
        let with_rows = |shape: &[(u32, u32)]| {
            let mut b = exact(shape);
            set_row(&mut b, 0, &small_row(code % 36));
            set_row(&mut b, 1, &small_row(code / 36));
            b
        };
        SHAPES.iter().for_each(|shape| visit(&with_rows(shape)));
        for first in all_ranges(2) {
            for second in all_ranges(2) {
                let mut b = with_rows(&[(2, 0)]);
                set_range(&mut b, 0, SEQUENCES - 1, first);
                visit(&b);
                set_range(&mut b, 0, 1, second);
                visit(&b);
            }
        }
    }
}

/// Every column of up to four words, each absent or 0 to 2, with any two ranges, and of three with any three.
fn words_in_ranges(visit: &mut impl FnMut(&Batch)) {
    for (rows, ids) in [(0, 2), (1, 2), (2, 2), (3, 2), (4, 2), (3, 3)] {
        let ranges = all_ranges(rows);
        for code in 0..4u32.pow(rows) {
            let mut b = exact(&[(rows, 0)]);
            for row in 0..rows {
                let word = code / 4u32.pow(row) % 4;
                set_row(&mut b, row as usize, &[(word > 0) as u32, word.saturating_sub(1), 3, 4, 0, 1]);
            }
            visit(&b);
            for choice in 0..ranges.len().pow(ids) {
                for i in 0..ids {
                    // the ids go down, so that the order of ids is not that of choices
                    set_range(&mut b, 0, SEQUENCES - 1 - 2 * i as usize, ranges[choice / ranges.len().pow(i) % ranges.len()]);
                }
                visit(&b);
            }
        }
    }
}

/// Every pair of masks in a row of the top, of a window and of a window's window, the other rows as they may be.
fn all_masks(visit: &mut impl FnMut(&Batch)) {
    const MASKS: [u32; 5] = [0, 1, 2, 1 << 31, u32::MAX];
    for shape in [&[(1, 1), (1, 0), (1, 0)][..], &[(1, 1), (1, 1), (1, 0)]] {
        for code in 0..3 * 25 {
            let mut b = exact(shape);
            set_row(&mut b, code / 25, &[0, 0, 0, 0, MASKS[code % 5], MASKS[code / 5 % 5]]);
            visit(&b);
        }
    }
}

fn every_small(c: &mut Cases, r: &mut Rng) {
    let visit = &mut |b: &Batch| {
        c.case(b);
    };
    inputs::exhaustive(visit, r);
    inputs::all_range_pairs(visit);
    inputs::all_offsets(visit);
    inputs::all_spans(visit);
    all_masks(visit);
    two_rows(visit);
    let visit = &mut |b: &Batch| {
        c.case(b);
        ask_words(c.tally, b);
    };
    inputs::all_words(visit);
    words_in_ranges(visit);
}

// ---- Records by chance

/// Rows, nodes and levels at the limits and just above, filled so that few rules are broken but the first.
fn limits(c: &mut Cases, r: &mut Rng) {
    for shape in inputs::at_limits() {
        let b = filled(r, &shape_of(&shape));
        c.with_breaks(r, &b);
        inputs::some_damages(&mut |b| { c.case(b); }, r, &b, 4);
    }
}

/// The same by chance, within two of the limits.
fn near_limits(c: &mut Cases, r: &mut Rng) {
    let rows = (MAX_ROWS - 2) as u32 + r.small(4);
    let nodes = 1 + r.small(6);
    let many = (MAX_NODES - 2) as u32 + r.small(4);
    let levels = MAX_LEVELS - 1 + r.below(4) as usize;
    let each = rows / nodes;
    let few = [vec![(rows - each * (nodes - 1), nodes - 1)], vec![(each, 0); nodes as usize - 1]].concat();
    let wide = [vec![(r.small(20), many - 1)], (1..many).map(|_| (r.small(4), 0)).collect()].concat();
    let deep = [flat_shape(r, 2, 2, 4), inputs::chain(levels), flat_shape(r, 2, 2, 4)].concat();
    for shape in [few, wide, deep] {
        let b = filled(r, &shape);
        c.with_breaks(r, &b);
    }
}

fn compare(t: &mut Tally, r: &mut Rng, count: u64) {
    let c = &mut Cases { tally: t, told: [0; 8] };
    every_small(c, r);
    limits(c, r);
    for i in 0..count {
        let encodings = r.below(4);
        let small = flat_shape(r, encodings, 2, 4);
        let small = filled(r, &small);
        c.with_breaks(r, &small);
        inputs::all_damages(&mut |b| { c.case(b); }, &small);
        let encodings = 1 + r.below(5);
        let large = flat_shape(r, encodings, 6, 40);
        let large = filled(r, &large);
        c.with_breaks(r, &large);
        inputs::some_damages(&mut |b| { c.case(b); }, r, &large, 20);
        let single = flat_shape(r, 1, i % 3, 1 + i % 24);
        let single = filled(r, &single);
        c.with_breaks(r, &single);
        ask_words(c.tally, &single);
        let any = inputs::random_small(r, i);
        c.case(&any);
        c.case(&inputs::with_free_spans(r, any));
        c.case(&inputs::random_large(r, i));
        if i.is_multiple_of(50) {
            near_limits(c, r);
        }
    }
    c.print();
}

// ---- Stored cases

/// A row by its numbers from the word mark on.
type Numbers = [u32; 6];

const NO_WORD: Numbers = [0, 0, 3, 5, 0, 1];

const fn word(word: u32) -> Numbers {
    [1, word, 3, 5, 0, 1]
}

const fn masks_of(special: u32, attention: u32) -> Numbers {
    [0, 0, 3, 5, special, attention]
}

const fn offsets(start: u32, end: u32) -> Numbers {
    [0, 0, start, end, 0, 1]
}

/// A kind of stored case: its nodes as (row count, window count), their ranges as (node, id, start, end), its rows, and what is told.
type Kind = (&'static str, &'static [(u32, u32)], &'static [(usize, usize, u32, u32)], &'static [Numbers], [u32; 3]);

const KINDS: [Kind; 44] = [
    ("no encoding", &[], &[], &[], PASSES),
    ("an encoding without rows", &[(0, 0)], &[], &[], PASSES),
    ("windows without rows", &[(0, 2), (0, 0), (0, 0)], &[], &[], PASSES),
    ("all masks that may be", &[(3, 0)], &[], &[masks_of(0, 1), masks_of(1, 0), masks_of(1, 1)], PASSES),
    ("a start at its end, the least and the greatest", &[(2, 0)], &[], &[offsets(0, 0), offsets(u32::MAX, u32::MAX)], PASSES),
    ("equal words, and rows without one between", &[(4, 0)], &[], &[word(2), NO_WORD, word(2), word(9)], PASSES),
    ("an empty range in another and at its ends", &[(3, 0)], &[(0, 0, 0, 3), (0, 1, 1, 1), (0, 2, 0, 0), (0, 3, 3, 3)], &[word(1), word(2), word(3)], PASSES),
    ("two ranges side by side, words lower in the second", &[(4, 0)], &[(0, 0, 0, 2), (0, 1, 2, 4)], &[word(7), word(8), word(1), word(2)], PASSES),
    ("falling words outside of the only range", &[(4, 0)], &[(0, 2, 1, 3)], &[word(9), word(4), word(5), word(2)], PASSES),
    ("falling words and an empty range alone", &[(3, 0)], &[(0, 5, 1, 1)], &[word(9), word(4), word(5)], PASSES),
    ("a window begins below the last word of the top", &[(2, 1), (2, 0)], &[], &[word(6), word(7), word(1), word(2)], PASSES),
    ("the second encoding begins below the last word of the first", &[(1, 0), (1, 0)], &[], &[word(6), word(1)], PASSES),
    ("two tops with windows", &[(1, 1), (1, 0), (0, 2), (1, 0), (0, 0)], &[], &[word(6), word(1), word(0)], PASSES),
    ("a window with a window", &[(1, 1), (1, 1), (1, 0)], &[], &[NO_WORD, NO_WORD, NO_WORD], [1, 1, 0]),
    ("windows down four levels", &[(0, 1), (0, 1), (0, 1), (0, 0)], &[], &[], [1, 1, 0]),
    ("the third window has windows", &[(1, 3), (1, 0), (1, 0), (0, 2), (0, 0), (0, 0)], &[], &[NO_WORD, NO_WORD, NO_WORD], [1, 3, 0]),
    ("a window with windows in the second encoding", &[(0, 1), (0, 0), (1, 1), (2, 1), (0, 0)], &[], &[NO_WORD, NO_WORD, NO_WORD], [1, 3, 0]),
    ("a special mask of 2", &[(3, 0)], &[], &[NO_WORD, masks_of(2, 1), NO_WORD], [2, 0, 1]),
    ("an attention of 2", &[(2, 0)], &[], &[NO_WORD, masks_of(1, 2)], [2, 0, 1]),
    ("a special mask of 4294967295 where attention is 0", &[(1, 0)], &[], &[masks_of(u32::MAX, 0)], [2, 0, 0]),
    ("a mask of 2 in a window, after a node without rows", &[(1, 2), (0, 0), (3, 0)], &[], &[NO_WORD, NO_WORD, masks_of(2, 2), NO_WORD], [2, 2, 1]),
    ("neither special nor attended to", &[(3, 0)], &[], &[masks_of(1, 0), masks_of(0, 0), masks_of(0, 0)], [3, 0, 1]),
    ("neither, in the last window of the second encoding", &[(1, 0), (1, 2), (0, 0), (2, 0)], &[], &[NO_WORD, NO_WORD, masks_of(1, 0), masks_of(0, 0)], [3, 3, 1]),
    ("a start past its end", &[(2, 0)], &[], &[offsets(5, 5), offsets(6, 5)], [4, 0, 1]),
    ("a start past its end, in a special row", &[(2, 0)], &[], &[NO_WORD, [0, 0, u32::MAX, u32::MAX - 1, 1, 0]], [4, 0, 1]),
    ("a start past its end in a window", &[(1, 1), (2, 0)], &[], &[NO_WORD, NO_WORD, offsets(1, 0)], [4, 1, 1]),
    ("two ranges share their last and first row", &[(4, 0)], &[(0, 0, 0, 3), (0, 1, 2, 4)], &[NO_WORD; 4], [5, 0, 2]),
    ("the later of two under the smaller id", &[(4, 0)], &[(0, 1, 2, 4), (0, 6, 0, 3)], &[NO_WORD; 4], [5, 0, 2]),
    ("a range in another", &[(4, 0)], &[(0, 0, 0, 4), (0, 1, 1, 2)], &[NO_WORD; 4], [5, 0, 1]),
    ("the same range twice", &[(3, 0)], &[(0, 3, 1, 3), (0, 7, 1, 3)], &[NO_WORD; 3], [5, 0, 1]),
    ("two pairs that share rows, the second pair earlier", &[(6, 0)], &[(0, 0, 4, 6), (0, 1, 4, 5), (0, 2, 1, 3), (0, 3, 2, 3)], &[NO_WORD; 6], [5, 0, 2]),
    ("shared rows in a window alone", &[(2, 1), (2, 0)], &[(0, 0, 0, 2), (1, 0, 0, 2), (1, 1, 1, 2)], &[NO_WORD; 4], [5, 1, 1]),
    ("a falling word without ranges", &[(3, 0)], &[], &[word(3), word(4), word(2)], [6, 0, 2]),
    ("a falling word after rows without one", &[(4, 0)], &[], &[word(3), NO_WORD, NO_WORD, word(2)], [6, 0, 3]),
    ("a fall, a rise and a fall", &[(4, 0)], &[], &[word(5), word(1), word(7), word(0)], [6, 0, 1]),
    ("a fall in the range of the larger id first", &[(4, 0)], &[(0, 0, 2, 4), (0, 1, 0, 2)], &[word(2), word(1), word(2), word(1)], [6, 0, 1]),
    ("a fall in a range, after words outside", &[(5, 0)], &[(0, 7, 2, 5)], &[word(9), word(8), word(3), NO_WORD, word(2)], [6, 0, 4]),
    ("a fall in the last window, its own row", &[(2, 2), (0, 0), (3, 0)], &[], &[word(8), word(9), word(1), word(2), word(0)], [6, 2, 2]),
    ("a fall under a range, a range and an empty one before", &[(5, 0)], &[(0, 4, 3, 5), (0, 2, 0, 3), (0, 0, 3, 3)], &[word(5), word(5), word(6), word(1), word(0)], [6, 0, 4]),
    ("every rule broken, the first last", &[(5, 1), (2, 1), (0, 0)], &[(0, 0, 0, 2), (0, 1, 1, 2)], &[word(4), word(3), offsets(2, 1), masks_of(0, 0), masks_of(2, 0), NO_WORD, NO_WORD], [1, 1, 0]),
    ("rules 2 to 6 broken, the second last", &[(4, 1), (2, 0)], &[(0, 0, 0, 2), (0, 1, 1, 2)], &[word(4), word(3), offsets(2, 1), masks_of(0, 0), NO_WORD, masks_of(2, 0)], [2, 1, 1]),
    ("rules 3 to 6 broken, the third last", &[(3, 0), (2, 0)], &[(0, 0, 0, 2), (0, 1, 1, 2)], &[word(4), word(3), offsets(2, 1), NO_WORD, masks_of(0, 0)], [3, 1, 1]),
    ("rules 4 to 6 broken, the fourth last", &[(2, 0), (2, 0)], &[(0, 0, 0, 2), (0, 1, 1, 2)], &[word(4), word(3), NO_WORD, offsets(2, 1)], [4, 1, 1]),
    ("rules 5 and 6 broken, the fifth last", &[(2, 0), (3, 0)], &[(1, 0, 0, 2), (1, 1, 1, 3)], &[word(4), word(3), NO_WORD, NO_WORD, NO_WORD], [5, 1, 1]),
];

fn stored(what: &str, b: &Batch) -> Stored {
    Stored { what: what.to_string(), line: line(b, &expected(read(b))) }
}

fn store(r: &mut Rng) -> Vec<Stored> {
    let mut out = vec![];
    for (what, shape, ranges, rows, told) in KINDS {
        let mut b = batch(shape, rows.len());
        rows.iter().enumerate().for_each(|(i, row)| set_row(&mut b, i, row));
        ranges.iter().for_each(|&(node, id, start, end)| set_range(&mut b, node, id, (start, end)));
        assert_eq!(read(&b), Some(told), "{what}");
        out.push(stored(what, &b));
    }
    for _ in 0..4 {
        let shape = flat_shape(r, 3, 2, 6);
        let b = filled(r, &shape);
        out.push(stored("by chance", &b));
        for (rule, breaking) in (1..).zip(BREAKINGS) {
            let mut broken = b.clone();
            if breaking(r, &mut broken).is_some() {
                out.push(stored(&format!("by chance, rule {rule} broken"), &broken));
            }
        }
    }
    out.push(stored("rows and no node", &batch(&[], 1)));
    for (what, damage) in DAMAGES {
        let mut b = inputs::small_batch(r, 1);
        damage(r, &mut b);
        assert_eq!(read(&b), None, "{what}");
        out.push(stored(what, &b));
    }
    out
}

// ---- Times

/// So many rows that pass, shared out evenly over a top encoding and its windows: words that rise from row to row, masks by chance, and
/// in each node so many ranges side by side.
fn plain(nodes: usize, rows: usize, ranges: u32) -> Batch {
    let r = &mut Rng(5);
    let each = (rows / nodes) as u32;
    let mut b = exact(&[vec![(each, nodes as u32 - 1)], vec![(each, 0); nodes - 1]].concat());
    for node in 0..nodes {
        (0..ranges).for_each(|id| set_range(&mut b, node, id as usize, (each * id / ranges, each * (id + 1) / ranges)));
    }
    for i in 0..rows as u32 {
        let [special, attention] = KEPT[r.below(3) as usize];
        set_row(&mut b, i as usize, &[1, i % each, 5 * i, 5 * i + 4, special, attention]);
    }
    b
}

fn times() {
    for (nodes, ranges) in [1, 128, MAX_NODES].into_iter().flat_map(|nodes| [1, SEQUENCES as u32].map(|ranges| (nodes, ranges))) {
        let b = plain(nodes, MAX_ROWS, ranges);
        let tops = from_batch(&b.nodes, &b.rows);
        assert_eq!(first_break(&tops), PASSES);
        let profile = || {
            assert_eq!(ours::check_profile(black_box(&b)), expected(Some(PASSES)));
        };
        let check = || {
            let mut encodings = 0;
            assert_eq!(ours::check_batch(black_box(&b.nodes), black_box(&b.rows), &mut encodings), 0);
            encodings
        };
        let what = format!("check_profile, {nodes} nodes, {ranges} ranges each");
        let (ours, other) = bench::both(&profile, check);
        bench::row(&what, ours, "check_batch", other, &format!("{MAX_ROWS} rows, {:.2} ns per row", ours / MAX_ROWS as f64));
        let (ours, other) = bench::both(&profile, || first_break(black_box(&tops)));
        bench::row(&what, ours, "second reading", other, "the reading has its tree");
    }
}

//! The lookups on one encoding against the Rust's. Each is one entry of OPERATIONS; what they share is here.
//! A batch that is malformed, or not of one encoding, must be refused with 1.
//! Three of them also give the row's place in its sequence, which the Rust does not: that number is left out of the comparison
//! with it, and compared with a second reading (`place`).
use crate::inputs::{self, exact};
use crate::ours::{self, Answer, BEFORE};
use crate::tally::{Line, Stored, Tally};
use crate::{bench, wellformed, Operation};
use std::hint::black_box;
use tokenizers::bridge::{from_batch, Batch, NODE, ROW};
use tokenizers::encoding::probe;
use tokenizers::rng::Rng;
use tokenizers::Encoding;

/// What a lookup is asked for, beside the batch.
#[derive(Clone, Copy, PartialEq)]
pub enum Asked {
    Nothing,
    Token,
    Sequence,
    WordInSequence,
    PlaceInSequence,
}

pub struct Lookup {
    /// its number in the stored cases
    number: u32,
    asked: Asked,
    ours: fn(&Batch, [u32; 2]) -> Answer,
    /// the Rust's answer as the lent numbers, a mark first where something may be absent, without the row's place
    rust: fn(&Encoding, [u32; 2]) -> Vec<u32>,
    /// whether ours gives the row's place in its sequence too
    placed: bool,
    /// the Rust's call and nothing else, for the clock
    timed: fn(&Encoding, [u32; 2]),
}

fn some<const N: usize>(found: Option<[usize; N]>) -> Vec<u32> {
    let values = found.unwrap_or([0; N]).map(|x| x as u32);
    [&[found.is_some() as u32], &values[..]].concat()
}

/// The smallest id whose range holds the row, which document 01 gives; the Rust gives any of them.
fn smallest(e: &Encoding, row: usize, rust: usize) -> usize {
    let holding: Vec<usize> = probe::ranges(e).into_iter().filter(|(_, r)| r.contains(&row)).map(|(id, _)| id).collect();
    assert!(holding.is_empty() || holding.contains(&rust), "the Rust gave a sequence that does not hold the row");
    holding.first().copied().unwrap_or(rust)
}

/// Where that place stands in an answer: after the mark and the sequence.
const PLACE: usize = 2;

/// The row's place in the sequence that was found: how many rows of the sequence's range lie before it, or its own number if
/// there are no ranges; 0, as all numbers are, where nothing was found.
fn place(e: &Encoding, row: u32, found: bool, id: u32) -> u32 {
    let ranges = probe::ranges(e);
    match ranges.into_iter().find(|(other, _)| *other == id as usize) {
        _ if !found => 0,
        None => row,
        Some((_, range)) => range.take_while(|before| *before < row as usize).count() as u32,
    }
}

pub const SEQUENCE_RANGE: Lookup = Lookup {
    number: 2,
    asked: Asked::Sequence,
    ours: |b, [id, _]| ours::sequence_range(b, id),
    rust: |e, [id, _]| {
        let range = probe::sequence_range(e, id as usize);
        vec![range.start as u32, range.end as u32]
    },
    placed: false,
    timed: |e, [id, _]| drop(black_box(probe::sequence_range(e, id as usize))),
};
pub const N_SEQUENCES: Lookup =
    Lookup { number: 3, asked: Asked::Nothing, ours: |b, _| ours::n_sequences(b), rust: |e, _| vec![e.n_sequences() as u32], placed: false, timed: |e, _| { black_box(e.n_sequences()); } };
pub const TOKEN_TO_SEQUENCE: Lookup = Lookup {
    number: 4,
    asked: Asked::Token,
    ours: |b, [row, _]| ours::token_to_sequence(b, row),
    rust: |e, [row, _]| some(e.token_to_sequence(row as usize).map(|id| [smallest(e, row as usize, id)])),
    placed: true,
    timed: |e, [row, _]| { black_box(e.token_to_sequence(row as usize)); },
};
pub const WORD_TO_TOKENS: Lookup = Lookup {
    number: 6,
    asked: Asked::WordInSequence,
    ours: |b, [word, id]| ours::word_to_tokens(b, word, id),
    rust: |e, [word, id]| some(e.word_to_tokens(word, id as usize).map(|(start, end)| [start, end])),
    placed: false,
    timed: |e, [word, id]| { black_box(e.word_to_tokens(word, id as usize)); },
};
pub const WORD_TO_CHARS: Lookup = Lookup {
    number: 7,
    asked: Asked::WordInSequence,
    ours: |b, [word, id]| ours::word_to_chars(b, word, id),
    rust: |e, [word, id]| some(e.word_to_chars(word, id as usize).map(|(start, end)| [start, end])),
    placed: false,
    timed: |e, [word, id]| { black_box(e.word_to_chars(word, id as usize)); },
};
pub const CHAR_TO_TOKEN: Lookup = Lookup {
    number: 8,
    asked: Asked::PlaceInSequence,
    ours: |b, [place, id]| ours::char_to_token(b, place, id),
    rust: |e, [place, id]| some(e.char_to_token(place as usize, id as usize).map(|row| [row])),
    placed: false,
    timed: |e, [place, id]| { black_box(e.char_to_token(place as usize, id as usize)); },
};
pub const TOKEN_TO_CHARS: Lookup = Lookup {
    number: 9,
    asked: Asked::Token,
    ours: |b, [row, _]| ours::token_to_chars(b, row),
    rust: |e, [row, _]| some(e.token_to_chars(row as usize).map(|(id, (start, end))| [smallest(e, row as usize, id), start, end])),
    placed: true,
    timed: |e, [row, _]| { black_box(e.token_to_chars(row as usize)); },
};
pub const TOKEN_TO_WORD: Lookup = Lookup {
    number: 10,
    asked: Asked::Token,
    ours: |b, [row, _]| ours::token_to_word(b, row),
    rust: |e, [row, _]| some(e.token_to_word(row as usize).map(|(id, word)| [smallest(e, row as usize, id), word as usize])),
    placed: true,
    timed: |e, [row, _]| { black_box(e.token_to_word(row as usize)); },
};
pub const CHAR_TO_WORD: Lookup = Lookup {
    number: 11,
    asked: Asked::PlaceInSequence,
    ours: |b, [place, id]| ours::char_to_word(b, place, id),
    rust: |e, [place, id]| some(e.char_to_word(place as usize, id as usize).map(|word| [word as usize])),
    placed: false,
    timed: |e, [place, id]| { black_box(e.char_to_word(place as usize, id as usize)); },
};

/// An operation for each lookup: the functions that it shares with the others, over its own constant.
macro_rules! operation {
    ($lookup:expr, $name:literal, $format:literal) => {
        Operation {
            name: $name,
            format: $format,
            compare: |t, r, count| compare(&$lookup, t, r, count),
            store: |r| store(&$lookup, r),
            bench: || times(&$lookup, $name),
        }
    };
}

pub const OPERATIONS: [Operation; 9] = [
    operation!(SEQUENCE_RANGE, "sequence_range", "2 nodes rows sequence refusal start end"),
    operation!(N_SEQUENCES, "n_sequences", "3 nodes rows refusal count"),
    operation!(TOKEN_TO_SEQUENCE, "token_to_sequence", "4 nodes rows token refusal found sequence place"),
    operation!(WORD_TO_TOKENS, "word_to_tokens", "6 nodes rows word sequence refusal found start end"),
    operation!(WORD_TO_CHARS, "word_to_chars", "7 nodes rows word sequence refusal found start end"),
    operation!(CHAR_TO_TOKEN, "char_to_token", "8 nodes rows place sequence refusal found row"),
    operation!(TOKEN_TO_CHARS, "token_to_chars", "9 nodes rows token refusal found sequence place start end"),
    operation!(TOKEN_TO_WORD, "token_to_word", "10 nodes rows token refusal found sequence place word"),
    operation!(CHAR_TO_WORD, "char_to_word", "11 nodes rows place sequence refusal found word"),
];

/// The one encoding of a batch that has just one.
pub fn one(b: &Batch) -> Option<Encoding> {
    (wellformed::top_encodings(&b.nodes, &b.rows) == Some(1)).then(|| from_batch(&b.nodes, &b.rows).remove(0))
}

/// Everything worth asking of an encoding with so many rows: inside, at the end, past it, and at the end of u32.
fn questions(asked: Asked, rows: u32) -> Vec<[u32; 2]> {
    const IDS: [u32; 6] = [0, 1, 3, 7, 8, u32::MAX];
    let with_ids = |xs: &[u32]| xs.iter().flat_map(|x| IDS.map(|id| [*x, id])).collect();
    match asked {
        Asked::Nothing => vec![[0, 0]],
        Asked::Token => (0..=rows + 1).chain([u32::MAX]).map(|row| [row, 0]).collect(),
        Asked::Sequence => (0..=8).chain([u32::MAX]).map(|id| [id, 0]).collect(),
        Asked::WordInSequence => with_ids(&[0, 1, 2, 3, 4, u32::MAX]),
        Asked::PlaceInSequence => with_ids(&[0, 1, 2, 3, 20, 39, u32::MAX - 1, u32::MAX]),
    }
}

fn line(l: &Lookup, b: &Batch, question: [u32; 2], (refusal, values): &Answer) -> Line {
    let options = match l.asked {
        Asked::Nothing => 0,
        Asked::Token | Asked::Sequence => 1,
        Asked::WordInSequence | Asked::PlaceInSequence => 2,
    };
    let asked = question[..options].iter().fold(Line::of(l.number).list(&b.nodes).list(&b.rows), |line, x| line.number(*x));
    asked.answer(*refusal, values)
}

/// The Rust's answer, with the row's place where ours has one.
fn answered(l: &Lookup, e: &Encoding, question: [u32; 2]) -> Vec<u32> {
    let mut values = (l.rust)(e, question);
    if l.placed {
        values.insert(PLACE, place(e, question[0], values[0] == 1, values[1]));
    }
    values
}

fn expected(l: &Lookup, e: &Option<Encoding>, question: [u32; 2], lent: usize) -> Answer {
    e.as_ref().map_or((1, vec![BEFORE; lent]), |e| (0, answered(l, e, question)))
}

fn case(l: &Lookup, t: &mut Tally, b: &Batch, e: &Option<Encoding>, question: [u32; 2]) {
    let got = (l.ours)(b, question);
    let want = expected(l, e, question, got.1.len());
    t.case(got == want, || (format!("ours gave {got:?}"), line(l, b, question, &want)));
}

fn ask_all(l: &Lookup, t: &mut Tally, b: &Batch) {
    let e = one(b);
    let rows = e.as_ref().map_or(1, |e| e.len() as u32);
    questions(l.asked, rows).into_iter().for_each(|q| case(l, t, b, &e, q));
}

fn compare(l: &Lookup, t: &mut Tally, r: &mut Rng, count: u64) {
    // all ranges, also malformed ones; one encoding with a window that must not be looked at
    inputs::all_ranges(&mut |b| ask_all(l, t, b));
    if l.placed {
        inputs::all_range_pairs(&mut |b| ask_all(l, t, b));
    }
    match l.asked {
        Asked::WordInSequence | Asked::Token => inputs::all_words(&mut |b| ask_all(l, t, b)),
        Asked::PlaceInSequence => inputs::all_offsets(&mut |b| ask_all(l, t, b)),
        Asked::Nothing | Asked::Sequence => {}
    }
    for i in 0..count {
        let single = inputs::random_one(r, i);
        ask_all(l, t, &single);
        inputs::some_damages(&mut |b| ask_all(l, t, b), r, &single, 4);
        ask_all(l, t, &inputs::random_small(r, i));
    }
}

/// Rows whose place in their sequence is easily got wrong: the ranges of four rows, by id, and the row asked for.
const PLACES: [(&str, &[(usize, u32, u32)], u32); 8] = [
    ("a range that starts later", &[(2, 1, 4)], 3),
    ("the second of two ranges", &[(0, 0, 1), (3, 1, 4)], 2),
    ("two ranges hold the row, the smaller id starts earlier", &[(0, 0, 4), (1, 2, 4)], 3),
    ("two ranges hold the row, the smaller id starts later", &[(0, 2, 4), (1, 0, 4)], 3),
    ("between two ranges", &[(0, 0, 1), (1, 2, 4)], 1),
    ("no ranges", &[], 3),
    ("no ranges, the row count itself", &[], 4),
    ("no ranges, above the row count", &[], 5),
];

/// Four rows with a word and characters in each, and these ranges.
fn with_places(ranges: &[(usize, u32, u32)]) -> Batch {
    let mut b = exact(&[(4, 0)]);
    for (i, row) in b.rows.chunks_mut(ROW).enumerate() {
        row[5..9].copy_from_slice(&[1, i as u32 + 60, i as u32 + 20, i as u32 + 30]);
    }
    for &(id, start, end) in ranges {
        b.nodes[2 + id * 3..][..3].copy_from_slice(&[1, start, end]);
    }
    b
}

fn stored(l: &Lookup, what: &str, b: &Batch, question: [u32; 2]) -> Stored {
    let lent = (l.ours)(b, question).1.len();
    let answer = expected(l, &one(b), question, lent);
    Stored { what: what.to_string(), line: line(l, b, question, &answer) }
}

fn store(l: &Lookup, r: &mut Rng) -> Vec<Stored> {
    let mut out = vec![];
    for i in 0..12 {
        let b = if i % 6 == 5 { inputs::small_batch(r, 1) } else { inputs::random_one(r, 2 * i) };
        let e = one(&b);
        let all = questions(l.asked, e.as_ref().map_or(1, |e| e.len() as u32));
        let question = all[r.below(all.len() as u64) as usize];
        out.push(stored(l, if e.is_some() { "one encoding" } else { "another number of encodings" }, &b, question));
    }
    let places = PLACES.iter().filter(|_| l.placed);
    out.extend(places.map(|(what, ranges, row)| stored(l, what, &with_places(ranges), [*row, 0])));
    out
}

/// 512 rows, the word i / 2 and the characters 5 i to 5 i + 4 in row i, one range over all rows.
pub fn bench_batch() -> Batch {
    let mut b = exact(&[(512, 0)]);
    b.nodes[2..5].copy_from_slice(&[1, 0, 512]);
    for (i, row) in b.rows.chunks_mut(ROW).enumerate() {
        row[5..9].copy_from_slice(&[1, i as u32 / 2, 5 * i as u32, 5 * i as u32 + 4]);
    }
    assert_eq!(b.nodes.len(), NODE);
    b
}

fn times(l: &Lookup, name: &str) {
    let b = bench_batch();
    let e = one(&b).unwrap();
    let question = match l.asked {
        Asked::WordInSequence => [250, 0],
        Asked::PlaceInSequence => [2501, 0],
        _ => [500, 0],
    };
    let (ours, rust) = bench::both(|| (l.ours)(black_box(&b), black_box(question)), || (l.timed)(black_box(&e), black_box(question)));
    bench::row(&format!("{name}, 512 rows"), ours, "Rust", rust, "ours checks the batch in each call");
}

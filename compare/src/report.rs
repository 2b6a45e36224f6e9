//! The report, a program of the repository: all that it prints, byte for byte, beside an independent reading of the same
//! batches.
use crate::inputs::{self, chain, exact, large};
use crate::reports::{self, with_masks, Report, TOTALS};
use crate::running::{self, in_pieces, shown, Printed};
use crate::tally::Tally;
use crate::{bench, Program};
use tokenizers::bridge::{Batch, MAX_LEVELS, NODE, ROW};
use tokenizers::rng::Rng;

pub const PROGRAM: Program = Program { name: "report", compare, bench: times };

const PATH: &str = "target/bin/report";

// ---- The second reading

/// The most bytes of a batch, those of its counts among them.
const LARGEST: usize = 65_536;

/// The bytes of the two counts.
const COUNTS: usize = 8;

fn words(bytes: &[u8]) -> Vec<u32> {
    bytes.chunks_exact(4).map(|word| u32::from_le_bytes(word.try_into().unwrap())).collect()
}

/// The report over the batches of an input, or the first refusal.
fn read(mut input: &[u8]) -> Result<Report, u32> {
    let mut report = [0; 6];
    while !input.is_empty() {
        let (counts, rest) = input.split_at_checked(COUNTS).ok_or(1u32)?;
        let [nodes, rows] = words(counts)[..] else { unreachable!("two words") };
        let node_words = NODE as u128 * nodes as u128;
        let bytes = 4 * (node_words + ROW as u128 * rows as u128);
        if COUNTS as u128 + bytes > LARGEST as u128 {
            return Err(2);
        }
        let (numbers, rest) = rest.split_at_checked(bytes as usize).ok_or(1u32)?;
        let numbers = words(numbers);
        let (nodes, rows) = numbers.split_at(node_words as usize);
        report = reports::added(&report, nodes, rows)?;
        input = rest;
    }
    Ok(report)
}

/// What is printed of an input.
fn answer(input: &[u8]) -> String {
    let report = match read(input) {
        Ok(report) => report,
        Err(refusal) => return format!("refused {refusal}\n"),
    };
    let totals: String = TOTALS.iter().zip(report).map(|(name, total)| format!("{name} {total}\n")).collect();
    let [part, whole] = reports::share(&report);
    format!("{totals}share {part} {whole}\n")
}

// ---- Comparing

fn case(t: &mut Tally, input: &[u8], got: Printed) {
    let want = answer(input);
    match got {
        Ok(got) => t.case(got == want.as_bytes(), || (format!("it printed {}", shown(&got)), format!("{}\n{want}", shown(input)))),
        Err(end) => t.case(false, || (format!("it ended with {end}"), shown(input))),
    }
}

fn at_once(t: &mut Tally, input: &[u8]) {
    case(t, input, running::through_pipe(PATH, &[input]));
}

/// In pieces of up to `most` bytes, one for each read and through a pipe.
fn in_both_ways(t: &mut Tally, r: &mut Rng, input: &[u8], most: u64) {
    let pieces = in_pieces(r, input, most);
    case(t, input, running::piece_by_piece(PATH, &pieces));
    case(t, input, running::through_pipe(PATH, &pieces));
}

// ---- Files

fn bytes(words: &[u32]) -> Vec<u8> {
    words.iter().flat_map(|word| word.to_le_bytes()).collect()
}

/// A batch as it stands in a file.
fn written(b: &Batch) -> Vec<u8> {
    let counts = [b.nodes.len() / NODE, b.rows.len() / ROW].map(|count| count as u32);
    bytes(&[&counts[..], &b.nodes, &b.rows].concat())
}

/// How many nodes and rows have just so many words, in every way with a node.
fn counts_of(words: usize) -> impl Iterator<Item = (usize, usize)> {
    let ways = (1..=words / NODE).map(move |nodes| (nodes, words - nodes * NODE));
    ways.filter(|(_, left)| left.is_multiple_of(ROW)).map(|(nodes, left)| (nodes, left / ROW))
}

/// So many rows in one encoding, and the other nodes its windows.
fn windowed(nodes: usize, rows: usize) -> Batch {
    exact(&[vec![(rows as u32, nodes as u32 - 1)], vec![(0, 0); nodes - 1]].concat())
}

/// How many rows a batch of so many bytes has at most beside these nodes.
fn rows_in(bytes: usize, nodes: usize) -> usize {
    ((bytes - COUNTS) / 4 - nodes * NODE) / ROW
}

/// Three small batches, one of them empty.
fn small_file(r: &mut Rng) -> Vec<u8> {
    let batches = [exact(&[(1, 0)]), Batch::default(), exact(&[(1, 1), (2, 0)])];
    batches.map(|b| written(&with_masks(b, r))).concat()
}

/// Cut at every length, and with up to seven bytes too many.
fn cut_short(t: &mut Tally, r: &mut Rng) {
    let file = small_file(r);
    (0..=file.len()).for_each(|end| at_once(t, &file[..end]));
    (1..COUNTS).for_each(|more| at_once(t, &[&file[..], &vec![0; more]].concat()));
}

/// Each byte of the counts of each batch changed alone.
fn damaged_counts(t: &mut Tally, r: &mut Rng) {
    let file = small_file(r);
    let second = written(&exact(&[(1, 0)])).len();
    for at in [0, second, second + COUNTS].into_iter().flat_map(|start| start..start + COUNTS) {
        let flipped = (0..8).map(|bit| file[at] ^ 1 << bit);
        for byte in flipped.chain([file[at].wrapping_add(1), file[at].wrapping_sub(1), 0, 1, 3, 0x7F, 0xFF]) {
            let mut file = file.clone();
            file[at] = byte;
            at_once(t, &file);
        }
    }
}

/// Counts of far more bytes than there may be, most of which are few if their product or sum wraps around in 32 bits.
fn wrapping_counts() -> Vec<[u32; 2]> {
    let mut all = vec![];
    for x in [u32::MAX, u32::MAX - 1, 1 << 31, (1 << 31) - 1, 1 << 30, 1 << 29, 1 << 24, 65_536, LARGEST as u32 / 4] {
        all.extend([[x, 0], [0, x], [x, 1], [1, x], [x, x]]);
    }
    // so many words are a whole number of times 2^32 bytes, and their bytes come to none or to few more
    for words in (1..=9).map(|times: usize| times << 30) {
        let [nodes, rows] = [NODE, ROW].map(|width| words.div_ceil(width) as u32);
        all.extend([[nodes, 0], [nodes, 1], [0, rows], [1, rows]]);
        all.extend(counts_of(words).next().map(|(nodes, rows)| [nodes as u32, rows as u32]));
    }
    all
}

/// Each of these counts first and after a good batch, with nothing after them, and with some bytes that may be a batch.
fn too_large(t: &mut Tally, r: &mut Rng) {
    let good = written(&with_masks(exact(&[(2, 1), (1, 0)]), r));
    for counts in wrapping_counts() {
        let counts = bytes(&counts);
        at_once(t, &counts);
        at_once(t, &[&good, &counts, &good[COUNTS..]].concat());
        at_once(t, &[&counts, &vec![0; 200][..]].concat());
    }
}

/// Batches of just as many bytes as there may be, of a few less and of a few more, good ones and with one byte missing; and the
/// most nodes and the most rows.
fn around_the_limit(t: &mut Tally, r: &mut Rng) {
    let (most, rows) = ((LARGEST - COUNTS) / 4, rows_in(LARGEST, 1));
    let mut counts: Vec<_> = (most - 3..=most + 3).flat_map(|words| counts_of(words).step_by(5)).collect();
    counts.extend([(most / NODE, 0), (most / NODE + 1, 0), (5_000, 0), (1, rows), (1, rows + 1)]);
    for (nodes, rows) in counts {
        let file = written(&with_masks(windowed(nodes, rows), r));
        at_once(t, &file);
        at_once(t, &[&file[..], &small_file(r)].concat());
        at_once(t, &file[..file.len() - 1]);
        at_once(t, &file[..COUNTS]);
    }
    // rows and no node: too large or malformed
    for rows in [most / ROW, most / ROW + 1] {
        at_once(t, &written(&inputs::batch(&[], rows)));
    }
}

/// A batch that is malformed, or may be, first and after good ones, with something behind it that another refusal or none is for.
fn malformed(t: &mut Tally, r: &mut Rng) {
    let file = small_file(r);
    let mut bad = vec![inputs::batch(&[], 1), inputs::batch(&[(2, 0)], 1), inputs::batch(&[(0, 1)], 0), exact(&chain(MAX_LEVELS + 2))];
    bad.extend((0..20).map(|i| damaged(r, i)));
    for b in bad.iter().map(written) {
        for behind in [&[][..], &[0xFF; 8], b"x", &file] {
            at_once(t, &[&file[..], &b, behind].concat());
            at_once(t, &[&b[..], behind].concat());
        }
    }
}

/// A small batch with one number of its nodes or of its rows changed; it may still be good.
fn damaged(r: &mut Rng, i: u64) -> Batch {
    let b = with_masks(inputs::random_one(r, i), r);
    let mut out = b.clone();
    inputs::some_damages(&mut |b| out = b.clone(), r, &b, 1 + i as usize % 2);
    out
}

/// So many batches, all of them good, though one may be too large at times: small ones, or small and large ones.
fn random_file(r: &mut Rng, batches: u64, with_large: bool) -> Vec<u8> {
    let mut out = vec![];
    for i in 0..batches {
        let b = match r.below(4) {
            0 if with_large => {
                let (bytes, nodes) = (50_000 + r.below(15_000) as usize, 1 + r.below(60) as usize);
                large(nodes, rows_in(bytes, nodes))
            }
            1 if with_large => inputs::random_large(r, i),
            2 => inputs::random_one(r, i),
            _ => inputs::random_small(r, i),
        };
        out.extend(written(&with_masks(b, r)));
    }
    out
}

/// Cut off, followed by garbage or by a batch that may be malformed, with one bit changed, or as it is.
fn harmed(r: &mut Rng, mut file: Vec<u8>, i: u64) -> Vec<u8> {
    let at = r.below(file.len() as u64 + 1) as usize;
    match i % 8 {
        0 => file.truncate(at),
        1 => file.extend(vec![r.next() as u8; 1 + r.below(20) as usize]),
        2 => file.extend(written(&damaged(r, i)).into_iter().chain(random_file(r, 2, false))),
        3 if at < file.len() => file[at] ^= 1 << r.below(8),
        _ => {}
    }
    file
}

fn random_files(t: &mut Tally, r: &mut Rng, count: u64) {
    for i in 0..count / 5 {
        let batches = r.below(5);
        let file = random_file(r, batches, false);
        let file = harmed(r, file, i);
        in_both_ways(t, r, &file, 1 + i % 70);
    }
    for i in 0..count / 20 {
        let batches = r.below(51);
        let file = random_file(r, batches, true);
        let file = harmed(r, file, i);
        at_once(t, &file);
        in_both_ways(t, r, &file, [65_000, 5_000, 1_000][i as usize % 3]);
    }
}

fn compare(t: &mut Tally, r: &mut Rng, count: u64) {
    for file in [vec![], vec![0; 8], vec![0; 16], vec![0; 80_000], vec![0; 15], vec![0xFF; 7], vec![0xFF; 100_000]] {
        at_once(t, &file);
    }
    cut_short(t, r);
    damaged_counts(t, r);
    too_large(t, r);
    around_the_limit(t, r);
    malformed(t, r);
    random_files(t, r, count);
}

// ---- The stored input

/// An input of a few small batches, and what is printed of it.
pub fn stored(r: &mut Rng) -> (Vec<u8>, String) {
    let input = [small_file(r), random_file(r, 12, false)].concat();
    let printed = answer(&input);
    assert!(!printed.starts_with("refused"), "the stored input is to be a good one");
    (input, printed)
}

// ---- Timing

fn times() {
    let mut r = Rng(5);
    let batch = |nodes: usize| large(nodes, rows_in(60_000, nodes));
    let batches: Vec<u8> = (1..=16).flat_map(|i| written(&with_masks(batch(4 * i), &mut r))).collect();
    let input = batches.repeat(100_000_000 / batches.len());
    assert_eq!(running::through_pipe(PATH, &[&input]), Ok(answer(&input).into_bytes()), "what is timed is not what is compared");
    let ours = running::time(PATH, &input);
    let other = bench::few(5, || answer(&input));
    let megabytes = input.len() as f64 / 1e6;
    let note = format!("{:.1} MB/s read; the reading runs in memory", megabytes * 1e9 / ours);
    bench::row(&format!("report, {megabytes:.0} MB of batches of 60 kB"), ours, "second reading", other, &note);
}

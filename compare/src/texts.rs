//! text and span, which the Rust does not have, against what its Encoding says of each row and node of a whole batch; and that
//! the spans of what the Rust cuts make up the span before.
use crate::lookups::one;
use crate::ours::{self, Answer, BEFORE};
use crate::tally::{Line, Stored, Tally};
use crate::truncating::{truncated, Cut};
use crate::{bench, inputs, wellformed, Operation, Replayed};
use std::hint::black_box;
use tokenizers::bridge::{from_batch, to_batch, Batch, MAX_ROWS, NODE, ROW};
use tokenizers::rng::{random_batch, Rng, Size};
use tokenizers::Encoding;

pub const TEXT: Operation = Operation {
    name: "text",
    format: "14 nodes rows row tokens added refusal found pool start length (the two pools as lists of bytes)",
    compare: compare_text,
    store: store_text,
    bench: time_text,
};

pub const SPAN: Operation = Operation {
    name: "span",
    format: "15 nodes rows node refusal found start end",
    compare: compare_span,
    store: store_span,
    bench: time_span,
};

pub const TEXT_PART: Replayed = Replayed {
    name: "text_part",
    format: "17 nodes rows row tokens added part (the two pools and the part as lists of bytes)",
    store: store_part,
};

/// All encodings of a batch, windows included, as they are stored; none if it is malformed.
fn encodings(b: &Batch) -> Option<Vec<Encoding>> {
    fn add(e: &Encoding, all: &mut Vec<Encoding>) {
        all.push(e.clone());
        e.get_overflowing().iter().for_each(|w| add(w, all));
    }
    wellformed::top_encodings(&b.nodes, &b.rows)?;
    let mut all = vec![];
    from_batch(&b.nodes, &b.rows).iter().for_each(|e| add(e, &mut all));
    Some(all)
}

// ---- text

/// The most bytes of a pool.
const POOL: usize = 16;

/// The bytes of a pool: all differ, also from those of the other.
fn bytes(pool: usize) -> [u8; POOL] {
    std::array::from_fn(|i| b"aA"[pool] + i as u8)
}

fn text_of(all: &Option<Vec<Encoding>>, row: u32, pools: [usize; 2]) -> Answer {
    let Some(all) = all else { return (1, vec![BEFORE; 4]) };
    let Some(text) = all.iter().flat_map(|e| e.get_tokens()).nth(row as usize) else { return (0, vec![0; 4]) };
    let text: Vec<u32> = text.split(',').map(|x| x.parse().unwrap()).collect();
    if text[1] as usize + text[2] as usize > pools[text[0] as usize] {
        return (14, vec![BEFORE; 4]);
    }
    (0, vec![1, text[0], text[1], text[2]])
}

/// A case with the two pools as lists of bytes.
fn pools_line(operation: u32, b: &Batch, row: u32, pools: [usize; 2]) -> Line {
    let bytes = [0, 1].map(|pool| bytes(pool)[..pools[pool]].iter().map(|x| *x as u32).collect::<Vec<u32>>());
    Line::of(operation).list(&b.nodes).list(&b.rows).number(row).list(&bytes[0]).list(&bytes[1])
}

fn text_line(b: &Batch, row: u32, pools: [usize; 2], (refusal, values): &Answer) -> Line {
    pools_line(14, b, row, pools).answer(*refusal, values)
}

fn ask_texts(t: &mut Tally, b: &Batch) {
    let [tokens, added] = [bytes(0), bytes(1)];
    let all = encodings(b);
    let rows = all.as_ref().map_or(1, |all| all.iter().map(Encoding::len).sum::<usize>()) as u32;
    for row in (0..=rows + 1).chain([u32::MAX / 11 + 1, u32::MAX]) {
        for pools in [[0, 0], [4, 8], [8, 4], [7, 7], [16, 3]] {
            let got = ours::text(b, row, &tokens[..pools[0]], &added[..pools[1]]);
            let want = text_of(&all, row, pools);
            t.case(got == want, || (format!("ours gave {got:?}"), text_line(b, row, pools, &want)));
        }
    }
}

fn compare_text(t: &mut Tally, r: &mut Rng, count: u64) {
    inputs::all_texts(&mut |b| ask_texts(t, b));
    for i in 0..count {
        let b = inputs::random_small(r, i);
        ask_texts(t, &b);
        if !b.nodes.is_empty() {
            inputs::some_damages(&mut |b| ask_texts(t, b), r, &b, 4);
        }
    }
}

fn store_text(r: &mut Rng) -> Vec<Stored> {
    let mut out = vec![];
    for i in 0..12 {
        let b = inputs::small_batch(r, i % 3);
        let all = encodings(&b);
        let (row, pools) = (r.small(12), [[8, 8], [3, 8], [8, 3]][i as usize % 3]);
        out.push(Stored { what: "a text".to_string(), line: text_line(&b, row, pools, &text_of(&all, row, pools)) });
    }
    out
}

/// The bytes of a text that was found, none of another.
fn part_of(pools: [usize; 2], answer: &Answer) -> Vec<u32> {
    let (0, [1, pool, start, length]) = (answer.0, &answer.1[..]) else { return vec![] };
    let pool = &bytes(*pool as usize)[..pools[*pool as usize]];
    pool[*start as usize..][..*length as usize].iter().map(|x| *x as u32).collect()
}

/// What a text is, to have some of each.
fn kind(answer: &Answer) -> &'static str {
    match (answer.0, &answer.1[..]) {
        (0, [0, ..]) => "past the last row",
        (0, [_, _, _, 0]) => "an empty text",
        (0, [_, 0, ..]) => "a text of the tokens",
        (0, _) => "an added text",
        (14, _) => "a text outside its pool",
        _ => "a malformed batch",
    }
}

fn store_part(r: &mut Rng) -> Vec<Stored> {
    const EACH: usize = 3;
    let kinds = ["a text of the tokens", "an added text", "an empty text", "past the last row", "a text outside its pool", "a malformed batch"];
    let mut out: Vec<Stored> = vec![];
    for i in 0.. {
        let mut b = inputs::small_batch(r, i % 3);
        if i % 8 == 7 {
            b.rows.truncate(b.rows.len() - 1);
        }
        let all = encodings(&b);
        let (row, pools) = (r.small(8), [[8, 8], [3, 8], [8, 3]][i as usize % 3]);
        let answer = text_of(&all, row, pools);
        let kept = |what: &str| out.iter().filter(|s| s.what == what).count();
        if kept(kind(&answer)) < EACH {
            let line = pools_line(17, &b, row, pools).answer_list(&part_of(pools, &answer));
            out.push(Stored { what: kind(&answer).to_string(), line });
        }
        if out.len() == EACH * kinds.len() {
            break;
        }
    }
    out.sort_by_key(|s| kinds.iter().position(|kind| *kind == s.what));
    out
}

fn time_text() {
    let b = crate::lookups::bench_batch();
    let e = from_batch(&b.nodes, &b.rows).remove(0);
    let pool = bytes(0);
    let (ours, rust) = bench::both(|| ours::text(black_box(&b), 500, &pool, &pool), || e.get_tokens()[black_box(500)].as_ptr());
    bench::row("text, row 500 of 512", ours, "Rust's get_tokens", rust, "ours checks the batch in each call");
}

// ---- span

/// The least start and the greatest end over the encoding's own rows with special mask 0. Neither attention nor its windows
/// are looked at.
fn own_span(e: &Encoding) -> Option<(usize, usize)> {
    let rows = || e.get_offsets().iter().zip(e.get_special_tokens_mask()).filter(|(_, mask)| **mask == 0);
    let start = rows().map(|(offsets, _)| offsets.0).min()?;
    let end = rows().map(|(offsets, _)| offsets.1).max()?;
    Some((start, end))
}

fn span_of(all: &Option<Vec<Encoding>>, node: u32) -> Answer {
    let Some(all) = all else { return (1, vec![BEFORE; 3]) };
    let span = all.get(node as usize).and_then(own_span);
    (0, span.map_or(vec![0; 3], |(start, end)| vec![1, start as u32, end as u32]))
}

fn span_line(b: &Batch, node: u32, answer: &Answer) -> Line {
    Line::of(15).list(&b.nodes).list(&b.rows).number(node).answer(answer.0, &answer.1)
}

fn ask_spans(t: &mut Tally, b: &Batch) {
    let all = encodings(b);
    let nodes = all.as_ref().map_or(1, Vec::len) as u32;
    for node in (0..=nodes + 1).chain([u32::MAX / 26 + 1, u32::MAX]) {
        let got = ours::span(b, node);
        let want = span_of(&all, node);
        t.case(got == want, || (format!("ours gave {got:?}"), span_line(b, node, &want)));
    }
}

/// The least start and the greatest end of the spans that were found, as an answer; a refusal, if there is one.
fn together(spans: &[Answer]) -> Answer {
    if let Some(refused) = spans.iter().find(|answer| answer.0 != 0) {
        return refused.clone();
    }
    let found = || spans.iter().map(|answer| &answer.1).filter(|span| span[0] == 1);
    match (found().map(|span| span[1]).min(), found().map(|span| span[2]).max()) {
        (Some(start), Some(end)) => (0, vec![1, start, end]),
        _ => (0, vec![0; 3]),
    }
}

/// Request 04 on cuts: our spans of all nodes that the Rust makes of an encoding, together, are our span of it before. Where
/// they are not, the line is the question for the span before, with the answer of the second reading.
fn ask_cut(t: &mut Tally, b: &Batch, cut: Cut) {
    let e = one(b).expect("one encoding");
    let after = to_batch(&[truncated(e, cut)]).expect("numbers of a batch");
    let nodes = (after.nodes.len() / NODE) as u32;
    let spans: Vec<Answer> = (0..nodes).map(|node| ours::span(&after, node)).collect();
    let (got, before) = (together(&spans), ours::span(b, 0));
    t.case(got == before && before.0 == 0, || {
        (format!("ours gave {before:?}, but {spans:?} after {cut:?}"), span_line(b, 0, &span_of(&encodings(b), 0)))
    });
}

/// Every cut at a max above 0 that cuts rows off.
fn ask_cuts(t: &mut Tally, b: &Batch) {
    let rows = b.nodes[0];
    for (max, stride) in (1..rows).flat_map(|max| (0..max).map(move |stride| (max, stride))) {
        [false, true].into_iter().for_each(|left| ask_cut(t, b, Cut { max, stride, left }));
    }
}

/// One such cut by chance of an encoding of up to 60 rows, from both sides.
fn ask_long_cut(t: &mut Tally, r: &mut Rng) {
    let b = random_batch(r, 1, Size { levels: 1, windows: 2, rows: 60, offset: 1 << 32 });
    let rows = b.nodes[0];
    if rows < 2 {
        return;
    }
    let max = 1 + r.small(rows as u64 - 1);
    let stride = r.small(max as u64);
    let free = inputs::with_free_spans(r, b.clone());
    for left in [false, true] {
        ask_cut(t, &b, Cut { max, stride, left });
        ask_cut(t, &free, Cut { max, stride, left });
    }
}

/// Random batches have only the masks 0 and 1, so each is asked for again with free ones.
fn ask_random_spans(t: &mut Tally, r: &mut Rng, i: u64) {
    let (small, large, single) = (inputs::random_small(r, i), inputs::random_large(r, i), inputs::random_one(r, i));
    if !small.nodes.is_empty() {
        inputs::some_damages(&mut |b| ask_spans(t, b), r, &small, 4);
    }
    ask_cuts(t, &single);
    ask_cuts(t, &inputs::with_free_spans(r, single));
    for b in [small, large] {
        ask_spans(t, &b);
        ask_spans(t, &inputs::with_free_spans(r, b));
    }
}

fn compare_span(t: &mut Tally, r: &mut Rng, count: u64) {
    inputs::all_spans(&mut |b| {
        ask_spans(t, b);
        ask_cuts(t, b);
    });
    timed_spans().iter().for_each(|(_, b, _)| ask_spans(t, b));
    for i in 0..count {
        ask_random_spans(t, r, i);
        ask_long_cut(t, r);
    }
}

/// A kind of stored span: its nodes as (row count, window count), its rows as offset start, offset end, special mask and
/// attention, and the node that is asked for.
type SpanKind = (&'static str, &'static [(u32, u32)], &'static [[u32; 4]], u32);

/// A row that is added at the start or the end of a log.
const ADDED: [u32; 4] = [0, 0, 1, 1];

const SPAN_KINDS: [SpanKind; 18] = [
    ("an added row at both ends", &[(4, 0)], &[ADDED, [3, 7, 0, 1], [7, 12, 0, 1], ADDED], 0),
    ("a row with mask 2 left out", &[(3, 0)], &[[5, 9, 0, 1], [1, 20, 2, 1], [9, 11, 0, 1]], 0),
    ("a row with mask 4294967295 left out", &[(3, 0)], &[[0, 99, u32::MAX, 1], [6, 8, 0, 1], [8, 9, 0, 1]], 0),
    ("start and end from two rows inside", &[(4, 0)], &[[6, 8, 0, 1], [2, 5, 0, 1], [7, 15, 0, 1], [9, 10, 0, 1]], 0),
    ("the end from an earlier row than the start", &[(4, 0)], &[[6, 8, 0, 1], [7, 15, 0, 1], [2, 5, 0, 1], [9, 10, 0, 1]], 0),
    ("a start above the end", &[(2, 0)], &[[9, 4, 0, 1], [8, 3, 0, 1]], 0),
    ("offsets at the ends of u32", &[(2, 0)], &[[u32::MAX, u32::MAX - 1, 0, 1], [u32::MAX - 1, 0, 0, 1]], 0),
    ("a span from 0 to 0", &[(2, 0)], &[[0, 0, 0, 1], [4, 9, 1, 1]], 0),
    ("only special rows", &[(3, 0)], &[ADDED, [4, 8, 2, 1], ADDED], 0),
    ("no rows", &[(0, 0), (1, 0)], &[[3, 7, 0, 1]], 0),
    ("after a node without rows", &[(0, 0), (1, 0)], &[[3, 7, 0, 1]], 1),
    ("past the last node", &[(1, 1), (1, 0)], &[[3, 7, 0, 1], [7, 9, 0, 1]], 2),
    ("a window's own span", &[(2, 1), (2, 0)], &[[3, 7, 0, 1], [7, 12, 0, 1], ADDED, [5, 6, 0, 1]], 1),
    ("a window with a wider span", &[(2, 1), (2, 0)], &[ADDED, [5, 6, 0, 1], [3, 7, 0, 1], [7, 12, 0, 1]], 0),
    ("the second encoding of a batch", &[(1, 1), (1, 0), (2, 0)], &[[3, 7, 0, 1], [7, 9, 0, 1], [4, 5, 0, 1], [5, 8, 0, 1]], 2),
    ("a row with attention 0 counted", &[(3, 0)], &[[5, 6, 0, 1], [2, 9, 0, 0], ADDED], 0),
    ("a malformed batch", &[(2, 0)], &[[3, 7, 0, 1]], 0),
    ("a malformed batch, past its last node", &[(0, 1)], &[], 1),
];

fn store_span(_: &mut Rng) -> Vec<Stored> {
    let stored = |(what, shape, rows, node): SpanKind| {
        let mut b = inputs::batch(shape, rows.len());
        b.rows.chunks_mut(ROW).zip(rows).for_each(|(row, last)| row[7..].copy_from_slice(last));
        Stored { what: what.to_string(), line: span_line(&b, node, &span_of(&encodings(&b), node)) }
    };
    SPAN_KINDS.into_iter().map(stored).collect()
}

/// One node of as many rows as there may be, every 16th of them special.
fn long_node() -> Batch {
    let mut b = inputs::exact(&[(MAX_ROWS as u32, 0)]);
    for (i, row) in b.rows.chunks_mut(ROW).enumerate() {
        row[7..10].copy_from_slice(&[5 * i as u32, 5 * i as u32 + 4, i.is_multiple_of(16) as u32]);
    }
    b
}

/// What is timed, with the node that is asked for.
fn timed_spans() -> [(&'static str, Batch, u32); 2] {
    [("span, node 127, 65,536 rows in all", inputs::large(128, MAX_ROWS), 127), ("span, one node of 65,536 rows", long_node(), 0)]
}

/// own_span in one pass, for the clock.
fn own_span_once(e: &Encoding) -> Option<(usize, usize)> {
    let rows = e.get_offsets().iter().zip(e.get_special_tokens_mask()).filter(|(_, mask)| **mask == 0);
    rows.map(|(offsets, _)| *offsets).reduce(|span, offsets| (span.0.min(offsets.0), span.1.max(offsets.1)))
}

fn time_span() {
    for (what, b, node) in timed_spans() {
        let all = encodings(&b).expect("a well-formed batch");
        let e = &all[node as usize];
        assert_eq!(own_span_once(e), own_span(e));
        let (ours, rust) = bench::both(|| ours::span(black_box(&b), node), || own_span_once(black_box(e)));
        let check = bench::alone(|| ours::check_batch(black_box(&b.nodes), &b.rows, &mut 0));
        bench::row(what, ours, "Rust's columns", rust, &format!("ours checks the batch in each call, for {check:.0} ns"));
    }
}

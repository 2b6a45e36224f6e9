//! process against the Rust's: one encoding and two with windows, templates over few parts, the limits of a result, and every
//! refusal beside every other. Where the Rust would panic, an independent reading says so first.
use crate::inputs::{self, chain, exact};
use crate::merging::{self, expected_fold, joined, stores, Joined, ALL_STORES, STORED};
use crate::ours::{self, Lent, Processed, Templates, BEFORE, NO_FAULT};
use crate::outputs::{counts, stored};
use crate::tables::{self, faulty_tables, table_of, Table};
use crate::tally::{Line, Stored, Tally, LENT};
use crate::template_inputs::{all_faults, all_of, both, random_texts, Texts, AT_FAULT, PAIR, SINGLE};
use crate::template_text::{self, characters, Refused, MAX_PARTS};
use crate::templates::bytes;
use crate::{bench, wellformed, Operation};
use std::hint::black_box;
use tokenizers::bridge::{from_batch, Batch, MAX_LEVELS, MAX_NODES, MAX_ROWS, NODE, ROW};
use tokenizers::processors::template::{probe, Template, TemplateProcessing, Tokens};
use tokenizers::rng::{random_batch, Rng, Size};
use tokenizers::{Encoding, PostProcessor, Token};

pub const OPERATION: Operation = Operation {
    name: "process",
    format: "26 nodes rows add single-set pair-set left part place entries members single pair added refusal nodes rows out-nodes out-rows (texts and pool as lists of bytes; left: what each number of the working store is after the call, which has 2,048 of each kind; part and place of the first part at fault of the template used, told with 19 to 21)",
    compare,
    store,
    bench: times,
};

// ---- What is expected

/// What is processed.
#[derive(Clone, Copy)]
struct Asked<'a> {
    batch: &'a Batch,
    templates: Templates<'a>,
    table: ours::Table<'a>,
    add: bool,
}

/// As many rows as the special id of a piece stands for.
fn special_rows(id: &str, tokens: &Tokens) -> Encoding {
    let rows = probe::count_added(&Template::try_from(vec![id]).expect("a special id"), Some(tokens));
    Encoding::from_tokens(vec![Token::new(0, "1,0,0".to_string(), (0, 0)); rows], 0)
}

/// Whether the fold of the pieces stays within the limits of nodes and rows, and its size: it can be far too large to build.
fn size(text: &[u8], pieces: &[template_text::Piece], encodings: &[Encoding], tokens: &Tokens, add: bool) -> Result<[usize; 2], u32> {
    let mut so_far = Encoding::default();
    for piece in pieces {
        let next = match piece.kind {
            2 if add => special_rows(&characters(piece.id(text)), tokens),
            2 => continue,
            i => encodings[i as usize].clone(),
        };
        so_far = joined(so_far, next, false)?.encoding;
    }
    Ok(counts(&[so_far]))
}

/// The Rust's result, or the refusal: 1, 15, 12, 8, 19 to 21 (the template used), 11, 10 only when special tokens are added, 2.
fn result(q: &Asked) -> Result<Joined, Refused> {
    let (Some(1 | 2), b) = (wellformed::top_encodings(&q.batch.nodes, &q.batch.rows), q.batch) else { return Err(1.into()) };
    let mut encodings = from_batch(&b.nodes, &b.rows);
    let is_pair = encodings.len() == 2;
    let tokens = tables::tokens(q.table)?;
    let text = match (is_pair, q.templates) {
        (false, t) => if t.single_set { t.single } else { b"$0" },
        (true, t) => if t.pair_set { t.pair } else { b"$A:0 $B:1" },
    };
    let (pieces, template) = template_text::read(text)?;
    if !is_pair && pieces.iter().any(|piece| piece.kind == 1) {
        return Err(11.into());
    }
    let known = |piece: &template_text::Piece| piece.kind != 2 || tokens.0.contains_key(&characters(piece.id(text)));
    if q.add && !pieces.iter().all(known) {
        return Err(10.into());
    }
    let size = size(text, &pieces, &encodings, &tokens, q.add)?;
    // a template that is not set stays the builder's own, and validate is not asked
    let mut processing = TemplateProcessing::builder().build().expect("valid");
    match is_pair {
        false if q.templates.single_set => processing.set_single(template),
        true if q.templates.pair_set => processing.set_pair(template),
        _ => {}
    }
    processing.set_special_tokens(tokens);
    let second = encodings.drain(1..).next();
    let encoding = processing.process(encodings.remove(0), second, q.add).expect("no error");
    assert_eq!(counts(std::slice::from_ref(&encoding)), size, "the Rust's process has another size than the fold of its pieces");
    Ok(Joined { encoding, fits: true })
}

/// The result or the number of the refusal, and the part at fault and its place.
fn told(q: &Asked) -> (Result<Joined, u32>, Option<[usize; 2]>) {
    match result(q) {
        Ok(joined) => (Ok(joined), None),
        Err(refused) => (Err(refused.number), refused.fault),
    }
}

/// What they leave in stores of these sizes and in the numbers of the fault, each `before` at first.
fn expected((result, fault): &(Result<Joined, u32>, Option<[usize; 2]>), sizes: [usize; 4], before: u32) -> Processed {
    Processed { folded: expected_fold(result, sizes, before), fault: fault.unwrap_or([before as usize; 2]) }
}

fn line(q: &Asked, want: &Processed) -> Line {
    let (b, templates, table) = (q.batch, q.templates, q.table);
    let (left, [part, place]) = (want.folded.working.nodes.first().copied().unwrap_or(0), want.fault);
    let line = Line::of(26).list(&b.nodes).list(&b.rows).number(q.add as u32).number(templates.single_set as u32).number(templates.pair_set as u32);
    let line = line.number(left).early(part as u32).early(place as u32).list(table.entries).list(table.members);
    stored(line.list(&bytes(templates.single)).list(&bytes(templates.pair)).list(&bytes(table.added)), &want.folded.output)
}

/// What validate accepts is refused only for its batch, for want of room, and for B where there is no second encoding.
fn as_validated(q: &Asked, refusal: u32) -> bool {
    let single = || wellformed::top_encodings(&q.batch.nodes, &q.batch.rows) == Some(1);
    [0, 1, 2].contains(&refusal) || ours::validate(q.templates, q.table).0 != 0 || (refusal == 11 && single())
}

fn case_one(t: &mut Tally, q: &Asked, which: &[usize]) {
    let told = told(q);
    for &i in which {
        let sizes = stores(&told.0, i);
        let got = ours::process(q.batch, q.templates, q.table, q.add, sizes);
        let want = expected(&told, sizes, BEFORE);
        let refusal = got.folded.output.refusal;
        let same = got == want && as_validated(q, refusal);
        t.case(same, || (format!("ours gave refusal {refusal}, fault {:?}", got.fault), line(q, &want)));
    }
}

/// With special tokens and without.
fn case(t: &mut Tally, batch: &Batch, texts: &Texts, table: &Table, which: &[usize]) {
    for add in [false, true] {
        case_one(t, &Asked { batch, templates: texts.lent(), table: table.lent(), add }, which);
    }
}

// ---- Inputs

/// A range of its own and words in each node, so that every number of a result tells where it comes from.
fn marked(shape: &[(u32, u32)]) -> Batch {
    let mut b = exact(shape);
    for (i, node) in b.nodes.chunks_mut(NODE).enumerate() {
        let (id, rows) = (i % 4, node[0]);
        node[2 + 3 * id..5 + 3 * id].copy_from_slice(&[1, rows.min(1), rows]);
    }
    for (i, row) in b.rows.chunks_mut(ROW).enumerate() {
        row[0] = 10 + i as u32;
        row[7..9].copy_from_slice(&[3 * i as u32 + 1, 5 * i as u32 + 2]);
    }
    b
}

/// One encoding without windows, with one, with two, with a window's window; and pairs of such.
fn shapes() -> Vec<Batch> {
    let alone: [&[(u32, u32)]; 6] = [&[(0, 0)], &[(2, 0)], &[(1, 1), (2, 0)], &[(2, 2), (0, 0), (1, 0)], &[(1, 1), (1, 1), (2, 0)], &[(0, 2), (1, 1), (1, 0), (1, 0)]];
    let pairs = alone.iter().flat_map(|first| alone.map(|second| [*first, second].concat()));
    alone.iter().map(|shape| shape.to_vec()).chain(pairs).map(|shape| marked(&shape)).collect()
}

/// Results at the limits and one beyond, with the text that leads there, and some that are far beyond.
fn at_limits() -> Vec<(Batch, String)> {
    let (nodes, rows, levels) = (MAX_NODES as u32, MAX_ROWS as u32, MAX_LEVELS);
    let star = |rows: u32, windows: u32| [vec![(rows, windows)], vec![(rows, 0); windows as usize]].concat();
    let mut out = vec![];
    let mut add = |shapes: &[&[(u32, u32)]], text: &str| out.push((exact(&shapes.concat()), text.to_string()));
    for more in [0, 1] {
        add(&[&[(rows - 2 + more, 0)]], SINGLE);
        add(&[&[(rows / 2 + more, 0)]], "$A $A");
        add(&[&[(rows / 2, 0)], &[(rows / 2 + more, 0)]], "$A $B:1");
        add(&[&[(rows / 2, 0)], &[(rows / 2 - 3 + more, 0)]], PAIR);
        add(&[&[(rows / MAX_PARTS as u32 + more, 0)]], &vec!["$A"; MAX_PARTS].join(" "));
        add(&[&star(14, nodes - 1 - more)], SINGLE);
        add(&[&star(14 + more, nodes - 1)], SINGLE);
        add(&[&star(0, 36 + more), &star(0, 36)], "$A [SEP] $B");
        add(&[&star(0, 36 + more)], "$A $A");
        add(&[&chain(levels + 1 + more as usize)], SINGLE);
        add(&[&chain(levels), &chain(1 + more as usize)], "$B $A");
        add(&[&chain(levels), &[(rows - 500 + 20 * more, 0)]], "$B");
    }
    for text in ["$A $A", "$A $A $A", "$A $A $A $A", "[CLS] $A $A [SEP] $A"] {
        add(&[&chain(9)], text);
        add(&[&star(1, 200)], text);
        add(&[&star(2, 30), &chain(4)], text);
    }
    out
}

const PARTS: [&str; 7] = ["$A", "$B:1", "$7", "[SEP]", "[CLS]:3", "", "$B"];

/// Parts at fault among others in the template used; the other one cannot be read either, and is not.
fn at_fault(t: &mut Tally) {
    let (one, two) = (marked(&[(2, 0)]), marked(&[(1, 0), (2, 0)]));
    for text in all_of(&["$A", "$B", "", "[SEP]", "x", "::", "x:", "$C"], 3) {
        case(t, &one, &both(&text, b"$x:1"), &tables::usual(), &[0]);
        case(t, &two, &both(b"$x:1", &text), &tables::usual(), &[0]);
    }
}

fn compare(t: &mut Tally, r: &mut Rng, count: u64) {
    let usual = tables::usual();
    let mut malformed = exact(&[(2, 0), (1, 0)]);
    malformed.rows[2] = 2;
    let batches = [malformed, Batch::default(), exact(&[(1, 0); 3]), marked(&[(2, 1), (1, 0)]), marked(&[(1, 0), (3, 1), (1, 0)])];
    for texts in all_faults() {
        for table in faulty_tables() {
            batches.iter().for_each(|b| case(t, b, &texts, &table, &[0]));
        }
    }
    at_fault(t);
    for (i, b) in shapes().iter().enumerate() {
        let most = if b.nodes.len() <= 3 * NODE { 4 } else { 3 };
        for (j, text) in all_of(&PARTS, most).iter().enumerate() {
            // each with one store, all eight in turn
            case(t, b, &both(text, text), &usual, &[(i + j) % 8]);
        }
    }
    for (b, text) in at_limits() {
        case(t, &b, &both(text.as_bytes(), text.as_bytes()), &usual, &ALL_STORES);
    }
    let many = Table { entries: vec![0, 1, 0, MAX_ROWS as u32, MAX_ROWS as u32], members: [9, 0, 1].repeat(MAX_ROWS), added: b"a".to_vec() };
    for (rows, text) in [(0, "$A a"), (1, "$A a"), (0, "a a"), (0, "a")] {
        case(t, &exact(&[(rows, 0)]), &both(text.as_bytes(), b""), &many, &ALL_STORES);
    }
    for i in 0..count {
        let levels = i % 3;
        let many = 1 + r.below(2);
        let b = random_batch(r, many, Size { levels, windows: 2, rows: 1 + i % 5, offset: [40, 1 << 32][(i % 2) as usize] });
        let mut table = tables::random(r);
        let texts = random_texts(r, 5 - levels, 25);
        case(t, &b, &texts, &table, &ALL_STORES);
        case(t, &b, &random_texts(r, 3, 100), &usual, &ALL_STORES);
        case(t, &inputs::random_small(r, i), &texts, &usual, &[i as usize % 8]);
        inputs::some_damages(&mut |b| case(t, b, &texts, &table, &[0]), r, &b, 2);
        tables::damage(r, &mut table);
        case(t, &b, &texts, &table, &[i as usize % 8]);
    }
}

// ---- Stored cases

/// Few enough numbers for a stored case.
fn is_small(result: &Result<Joined, u32>) -> bool {
    result.as_ref().map_or(true, |j| {
        let [nodes, rows] = counts(std::slice::from_ref(&j.encoding));
        (nodes + 1) * NODE <= STORED / 2 && (rows + 1) * ROW <= STORED / 2
    })
}

/// A case to store, unless it is too large.
fn kept(batch: &Batch, texts: &Texts, table: &Table, add: bool, which: usize) -> Option<Stored> {
    let q = Asked { batch, templates: texts.lent(), table: table.lent(), add };
    let told = told(&q);
    if !is_small(&told.0) {
        return None;
    }
    let [nodes, rows, _, _] = stores(&told.0, which);
    let want = expected(&told, [nodes, rows, STORED, STORED], LENT);
    let what = match want.folded.output.refusal {
        0 => format!("special tokens {}", if add { "added" } else { "left out" }),
        refusal => format!("refused with {refusal}"),
    };
    Some(Stored { what, line: line(&q, &want) })
}

fn store(r: &mut Rng) -> Vec<Stored> {
    let mut out = vec![];
    let mut keep = |batch: &Batch, texts: &Texts, table: &Table, add: bool, which: usize| out.extend(kept(batch, texts, table, add, which));
    let (one, two) = (marked(&[(2, 1), (1, 0)]), marked(&[(2, 1), (1, 0), (1, 2), (1, 0), (2, 0)]));
    let usual = tables::usual();
    for (i, b) in [&one, &two].into_iter().enumerate() {
        for add in [false, true] {
            keep(b, &both(SINGLE.as_bytes(), PAIR.as_bytes()), &usual, add, i);
            keep(b, &Texts { single: None, pair: None, unset: b"$C" }, &usual, add, 1 - i);
            keep(b, &both(b"", b""), &usual, add, 0);
            keep(b, &both(b"$B [SEP] $1", b"$B $B:2 x"), &usual, add, 1);
        }
        faulty_tables()[1..].iter().for_each(|table| keep(b, &both(SINGLE.as_bytes(), PAIR.as_bytes()), table, true, 0));
        keep(b, &both(SINGLE.as_bytes(), PAIR.as_bytes()), &usual, true, 2 + i);
    }
    // each reason for one encoding and for a pair in turn; the other template is not read
    for (i, text) in AT_FAULT.iter().enumerate() {
        match i / 3 % 2 {
            0 => keep(&exact(&[(1, 0)]), &both(text.as_bytes(), b"$A $B"), &usual, i % 2 == 0, 0),
            _ => keep(&exact(&[(1, 0); 2]), &both(b"$x:y", text.as_bytes()), &usual, i % 2 == 0, 0),
        }
    }
    keep(&exact(&[(1, 0); 3]), &both(b"$A", b"$A $B"), &usual, true, 0);
    keep(&one, &both(&b"$A ".repeat(MAX_PARTS), b""), &usual, false, 0);
    for i in 0..12 {
        let many = 1 + r.below(2);
        let b = random_batch(r, many, Size { levels: i % 3, windows: 2, rows: 2, offset: 50 });
        keep(&b, &random_texts(r, 3, 50), &tables::random(r), i % 2 == 0, [0, 1, 0, 1, 2, 3][i as usize % 6]);
    }
    out
}

// ---- Timing

fn times() {
    let with = |rows: u32, windows: u32| [vec![(rows, windows)], vec![(rows, 0); windows as usize]].concat();
    let pair = [with(254, 0), with(255, 0)].concat();
    let windowed = [with(254, 2), with(255, 2)].concat();
    let (table, rust) = table_of(2);
    let texts = both(SINGLE.as_bytes(), PAIR.as_bytes());
    let mut builder = TemplateProcessing::builder();
    let processing = builder.try_single(SINGLE).unwrap().try_pair(PAIR).unwrap().special_tokens(rust).build().unwrap();
    for (what, shape) in [("process 510 rows", with(510, 0)), ("process 254 and 255 rows", pair), ("process 254 and 255, 2 windows each", windowed)] {
        let b = exact(&shape);
        let encodings = from_batch(&b.nodes, &b.rows);
        let processed = |mut encodings: Vec<Encoding>| {
            let second = encodings.drain(1..).next();
            processing.process(encodings.remove(0), second, true).unwrap()
        };
        let [nodes, rows] = counts(&[processed(encodings.clone())]);
        let mut lent = Lent::new(nodes * NODE, rows * ROW);
        let mut working = Batch { nodes: vec![0; nodes * NODE], rows: vec![0; rows * ROW] };
        let mut fault = NO_FAULT;
        let ours = bench::alone(|| assert_eq!(lent.process(black_box(&b), texts.lent(), table.lent(), true, &mut working, &mut fault), 0));
        assert_eq!(fault, NO_FAULT);
        let rust = bench::once(&encodings, processed);
        let kept = bench::once(&(), |()| processed(encodings.clone()));
        merging::row(what, ours, rust, kept, rows);
    }
}

//! report_add and report_share, which the Rust does not have, against a reading of request 03. What a batch counts is held to what
//! the Rust's Encoding has of it.
use crate::inputs::{self, batch, exact, large, small_batch, DAMAGES};
use crate::tally::{halves, Line, Stored, Tally};
use crate::{bench, ours, wellformed, Operation};
use std::hint::black_box;
use std::mem;
use tokenizers::bridge::{from_batch, node_count, row_count, Batch, MAX_ROWS, NODE, ROW};
use tokenizers::rng::Rng;
use tokenizers::Encoding;

pub const REPORT_ADD: Operation = Operation {
    name: "report_add",
    format: "29 nodes rows report refusal report-after (each total as its low and its high 32 bits)",
    compare: compare_add,
    store: store_add,
    bench: time_add,
};

pub const REPORT_SHARE: Operation = Operation {
    name: "report_share",
    format: "30 report nothing refusal share (each number as its low and its high 32 bits)",
    compare: compare_share,
    store: store_share,
    bench: time_share,
};

/// The totals of a report, or what a batch adds to each of them.
pub type Report = [u64; 6];

/// The totals by name, in their order.
pub const TOTALS: [&str; 6] = ["encodings", "windows", "rows", "padding", "special", "rest"];

/// The places of the totals of which the share is made.
const ROWS: usize = 2;
const PADDING: usize = 3;

// ---- The second reading of adding

/// The places of a row's two masks.
const SPECIAL: usize = 9;
const ATTENTION: usize = 10;

/// Whether a row is of a kind, by its attention and its special mask.
type Kind = fn(u32, u32) -> bool;

/// Padding, special and the rest, each by itself.
const KINDS: [Kind; 3] =
    [|attention, _| attention == 0, |attention, special| attention != 0 && special != 0, |attention, special| attention != 0 && special == 0];

/// What a batch adds to each total; none if it is malformed.
fn counts(nodes: &[u32], rows: &[u32]) -> Option<Report> {
    let encodings = wellformed::top_encodings(nodes, rows)? as u64;
    // where the counts close, a window is there for each that some node asks for, and a row for each that some node has
    let asked = |at: usize| nodes.chunks(NODE).map(|node| node[at] as u64).sum();
    let [padding, special, rest] = KINDS.map(|is| rows.chunks(ROW).filter(|row| is(row[ATTENTION], row[SPECIAL])).count() as u64);
    Some([encodings, asked(1), asked(0), padding, special, rest])
}

/// The same of the Rust's encodings, which are walked for each total.
fn rust_counts(tops: &[Encoding]) -> Report {
    fn of_kind(e: &Encoding, is: Kind) -> usize {
        let masks = e.get_attention_mask().iter().zip(e.get_special_tokens_mask());
        masks.filter(|(attention, special)| is(**attention, **special)).count() + e.get_overflowing().iter().map(|w| of_kind(w, is)).sum::<usize>()
    }
    let all = |of: &dyn Fn(&Encoding) -> usize| tops.iter().map(of).sum::<usize>() as u64;
    let [padding, special, rest] = KINDS.map(|is| all(&|e| of_kind(e, is)));
    [tops.len() as u64, all(&|e| node_count(e) - 1), all(&row_count), padding, special, rest]
}

/// What a batch adds to each total, which must be what the Rust's encodings have; the kinds are all the rows.
fn counted(b: &Batch) -> Option<Report> {
    let counts = counts(&b.nodes, &b.rows)?;
    assert_eq!(counts, rust_counts(&from_batch(&b.nodes, &b.rows)), "the reading counts other things than the Rust has");
    assert_eq!(counts[ROWS], counts[PADDING..].iter().sum::<u64>(), "the kinds are not all the rows");
    Some(counts)
}

/// A report with these counts added to it, or the refusal: 1, then 22.
fn with_counts(report: &Report, counts: Option<Report>) -> Result<Report, u32> {
    let counts = counts.ok_or(1u32)?;
    let sums: [u128; 6] = std::array::from_fn(|i| report[i] as u128 + counts[i] as u128);
    if sums.iter().all(|sum| *sum <= u64::MAX as u128) { Ok(sums.map(|sum| sum as u64)) } else { Err(22) }
}

/// A report with a batch added to it, or the refusal.
pub fn added(report: &Report, nodes: &[u32], rows: &[u32]) -> Result<Report, u32> {
    with_counts(report, counts(nodes, rows))
}

// ---- Cases of adding

/// The refusal, 0 for none, and the report after it.
type Told = (u32, Report);

/// What must be told: a refusal leaves the report as it was.
fn told(before: &Report, counts: Option<Report>) -> Told {
    with_counts(before, counts).map_or_else(|refusal| (refusal, *before), |after| (0, after))
}

fn add_line(b: &Batch, before: &Report, (refusal, after): Told) -> Line {
    Line::of(29).list(&b.nodes).list(&b.rows).list(&halves(before)).answer_left(refusal, &halves(&after))
}

fn case(t: &mut Tally, b: &Batch, counts: Option<Report>, before: &Report) {
    let mut report = *before;
    let refusal = ours::report_add(&b.nodes, &b.rows, &mut report);
    let want = told(before, counts);
    t.case((refusal, report) == want, || (format!("ours gave {refusal} and {report:?}"), add_line(b, before, want)));
}

/// Totals of all magnitudes, with room for any batch.
fn any_report(r: &mut Rng) -> Report {
    std::array::from_fn(|_| r.next() >> (1 + r.below(63)))
}

/// Such a report, one total of which can grow by no more than this.
fn with_room(r: &mut Rng, total: usize, room: u64) -> Report {
    let mut report = any_report(r);
    report[total] = u64::MAX - room;
    report
}

/// Room for one less than this, for this, and for one more.
fn rooms(count: u64) -> [u64; 3] {
    [count.saturating_sub(1), count, count + 1]
}

/// Added to one report, in which one total has little room or none.
fn in_one_report(t: &mut Tally, r: &mut Rng, b: &Batch) {
    let counts = counted(b);
    let total = r.below(6) as usize;
    let room = rooms(counts.unwrap_or_default()[total])[r.below(3) as usize];
    case(t, b, counts, &with_room(r, total, room));
}

/// Added to many: the empty one, the full one, one that it fills, and those in which one total has little room or none.
fn in_many_reports(t: &mut Tally, r: &mut Rng, b: &Batch) {
    let counts = counted(b);
    let adds = counts.unwrap_or_default();
    for before in [[0; 6], [u64::MAX; 6], adds.map(|count| u64::MAX - count)] {
        case(t, b, counts, &before);
    }
    for (total, count) in adds.into_iter().enumerate() {
        for room in rooms(count) {
            case(t, b, counts, &with_room(r, total, room));
        }
    }
}

/// Two additions in turn, in one order of 0 and 1: both refusals, and the report after them.
fn in_turn(before: &Report, order: [usize; 2], mut add: impl FnMut(usize, &mut Report) -> u32) -> ([u32; 2], Report) {
    let mut report = *before;
    let refusals = order.map(|i| add(i, &mut report));
    (refusals, report)
}

/// In either order each addition is what it must be, and both orders give the same report unless an addition is refused.
fn in_either_order(t: &mut Tally, batches: [&Batch; 2], before: &Report) {
    const ORDERS: [[usize; 2]; 2] = [[0, 1], [1, 0]];
    let counts = batches.map(counted);
    let got = ORDERS.map(|order| in_turn(before, order, |i, report| ours::report_add(&batches[i].nodes, &batches[i].rows, report)));
    let want = ORDERS.map(|order| in_turn(before, order, |i, report| {
        let (refusal, after) = told(report, counts[i]);
        *report = after;
        refusal
    }));
    let refused = got.iter().any(|(refusals, _)| *refusals != [0, 0]);
    t.case(got == want && (refused || got[0] == got[1]), || {
        let lines = [0, 1].map(|i| add_line(batches[i], before, told(before, counts[i])).to_string());
        (format!("in the two orders ours gave {got:?} and not {want:?}"), lines.join("\n"))
    });
}

// ---- Inputs of adding

/// What a mask may be: only 0 matters, and every other number is not 0.
const MASKS: [u32; 4] = [0, 1, 2, u32::MAX];

/// The batch with other masks in every row.
pub fn with_masks(mut b: Batch, r: &mut Rng) -> Batch {
    for row in b.rows.chunks_exact_mut(ROW) {
        row[SPECIAL] = MASKS[r.below(4) as usize];
        row[ATTENTION] = MASKS[r.below(4) as usize];
    }
    b
}

/// Every pair of masks in each of up to three rows: the first is the top's, the others are its window's.
fn all_masks(visit: &mut impl FnMut(&Batch)) {
    for rows in 0..=3u32 {
        for code in 0..16usize.pow(rows) {
            let mut b = exact(&[(rows.min(1), 1), (rows.saturating_sub(1), 0)]);
            for (i, row) in b.rows.chunks_mut(ROW).enumerate() {
                let pair = code >> (4 * i);
                (row[SPECIAL], row[ATTENTION]) = (MASKS[pair % 4], MASKS[pair / 4 % 4]);
            }
            visit(&b);
        }
    }
}

/// A batch of 16 rows with all pairs of masks, which adds to every total.
fn of_all_pairs() -> Batch {
    let mut b = exact(&[(7, 2), (4, 0), (3, 0), (2, 0)]);
    for (i, row) in b.rows.chunks_mut(ROW).enumerate() {
        (row[SPECIAL], row[ATTENTION]) = (MASKS[i % 4], MASKS[i / 4]);
    }
    b
}

fn every_small(t: &mut Tally, r: &mut Rng) {
    let masks = &mut Rng(r.next());
    let visit = &mut |b: &Batch| {
        let b = with_masks(b.clone(), masks);
        in_one_report(t, masks, &b)
    };
    inputs::exhaustive(visit, r);
    all_masks(&mut |b| in_many_reports(t, r, b));
}

fn compare_add(t: &mut Tally, r: &mut Rng, count: u64) {
    every_small(t, r);
    let reports = &mut Rng(r.next());
    for i in 0..count {
        let small = with_masks(inputs::random_small(r, i), r);
        in_many_reports(t, r, &small);
        inputs::all_damages(&mut |b| in_one_report(t, reports, b), &small);
        let large = with_masks(inputs::random_large(r, i), r);
        in_many_reports(t, r, &large);
        inputs::some_damages(&mut |b| in_one_report(t, reports, b), r, &large, 40);
        in_either_order(t, [&small, &large], &[0; 6]);
        let total = r.below(6) as usize;
        let both = counted(&small).unwrap()[total] + counted(&large).unwrap()[total];
        for room in rooms(both) {
            in_either_order(t, [&small, &large], &with_room(r, total, room));
        }
        inputs::some_damages(&mut |b| in_either_order(t, [&small, b], &any_report(reports)), r, &large, 4);
    }
}

fn store_add(r: &mut Rng) -> Vec<Stored> {
    let mut out = vec![];
    let mut keep = |what: &str, b: &Batch, before: &Report, refusal: u32| {
        let told = told(before, counted(b));
        assert_eq!(told.0, refusal, "{what}");
        out.push(Stored { what: what.to_string(), line: add_line(b, before, told) });
    };
    let (empty, full) = ([0; 6], [u64::MAX; 6]);
    keep("no encoding, an empty report", &Batch::default(), &empty, 0);
    keep("no encoding, a full report", &Batch::default(), &full, 0);
    keep("the empty encoding", &exact(&[(0, 0)]), &empty, 0);
    keep("windows without rows", &exact(&[(0, 2), (0, 1), (0, 0), (0, 0)]), &[1, 2, 3, 4, 5, 6], 0);
    let pairs = of_all_pairs();
    let filled = counted(&pairs).unwrap().map(|count| u64::MAX - count);
    keep("all pairs of masks", &pairs, &empty, 0);
    keep("every low half passes into its high half", &pairs, &[u32::MAX as u64; 6], 0);
    keep("every total becomes the largest", &pairs, &filled, 0);
    for (i, total) in TOTALS.iter().enumerate() {
        let mut before = filled;
        before[i] += 1;
        keep(&format!("only the total of {total} would pass the largest"), &pairs, &before, 22);
    }
    keep("rows and no node, a full report", &batch(&[], 1), &full, 1);
    for (what, damage) in DAMAGES.iter().step_by(4) {
        let mut b = with_masks(small_batch(r, 1), r);
        damage(r, &mut b);
        keep(what, &b, &any_report(r), 1);
    }
    for levels in 0..4 {
        let b = with_masks(small_batch(r, levels), r);
        keep("windows and masks", &b, &any_report(r), 0);
    }
    out
}

fn time_add() {
    for nodes in [1, 128] {
        let b = with_masks(large(nodes, MAX_ROWS), &mut Rng(5));
        let add = || {
            let mut report = [0; 6];
            assert_eq!(ours::report_add(black_box(&b.nodes), black_box(&b.rows), &mut report), 0);
            report
        };
        let check = || {
            let mut encodings = 0;
            assert_eq!(ours::check_batch(black_box(&b.nodes), black_box(&b.rows), &mut encodings), 0);
            encodings
        };
        let what = format!("report_add, {MAX_ROWS} rows in {nodes} nodes");
        let (ours, other) = bench::both(add, check);
        bench::row(&what, ours, "check_batch", other, &format!("{:.2} ns per row", ours / MAX_ROWS as f64));
        let (ours, other) = bench::both(add, || added(&[0; 6], black_box(&b.nodes), black_box(&b.rows)));
        bench::row(&what, ours, "second reading", other, "");
    }
}

// ---- The second reading of the share

/// Up to this, all divisors are tried.
const FEW: u64 = 300;

/// The greatest number that divides both, of which one is not 0, by trying all.
fn tried(a: u64, b: u64) -> u64 {
    (1..=a.max(b)).rev().find(|d| a.is_multiple_of(*d) && b.is_multiple_of(*d)).expect("1 divides both")
}

/// The same by halving and taking away, with no division.
fn halved(a: u64, b: u64) -> u64 {
    if a == 0 || b == 0 {
        return a + b;
    }
    let odd = |x: u64| x >> x.trailing_zeros();
    let (mut more, mut less) = (odd(a), odd(b));
    while more != less {
        if more < less {
            mem::swap(&mut more, &mut less);
        }
        more = odd(more - less);
    }
    more << a.trailing_zeros().min(b.trailing_zeros())
}

/// Padding over rows in lowest terms, 0 of 0 without rows.
pub fn share(report: &Report) -> [u64; 2] {
    let (padding, rows) = (report[PADDING], report[ROWS]);
    if rows == 0 {
        return [0, 0];
    }
    let greatest = halved(padding, rows);
    if padding.max(rows) <= FEW {
        assert_eq!(greatest, tried(padding, rows), "{padding} and {rows}: halving finds another divisor than trying all");
    }
    [padding / greatest, rows / greatest]
}

/// Whether a share has the ratio of padding to rows and nothing divides both its numbers; 0 of 0 is that without rows.
fn is_lowest(padding: u64, rows: u64, [part, whole]: [u64; 2]) -> bool {
    let same_ratio = part as u128 * rows as u128 == whole as u128 * padding as u128;
    if rows == 0 { [part, whole] == [0, 0] } else { same_ratio && whole > 0 && halved(part, whole) == 1 }
}

// ---- Cases of the share

fn share_line(report: &Report) -> Line {
    Line::of(30).list(&halves(report)).list(&[]).answer_left(0, &halves(&share(report)))
}

/// A report with these two totals; the others are any numbers.
fn with_share(r: &mut Rng, padding: u64, rows: u64) -> Report {
    let mut report = [0; 6].map(|_| r.next());
    (report[PADDING], report[ROWS]) = (padding, rows);
    report
}

fn case_share(t: &mut Tally, r: &mut Rng, padding: u64, rows: u64) {
    /// what each number of the share holds before the call
    const BEFORE: u64 = 0xDEAD_BEEF_0BAD_F00D;
    let report = with_share(r, padding, rows);
    let mut got = [BEFORE; 2];
    let refusal = ours::report_share(&report, &mut got);
    let same = (refusal, got) == (0, share(&report)) && is_lowest(padding, rows, got);
    t.case(same, || (format!("ours gave {refusal} and {got:?}"), share_line(&report)));
}

/// The largest neighbours among the Fibonacci numbers, for which Euclid's division takes the most steps.
const FIBONACCI: [u64; 2] = [7_540_113_804_746_346_429, 12_200_160_415_121_876_738];

/// Numbers at which a product, a sum or a sign could go wrong.
const EDGES: [u64; 18] = [
    0, 1, 2, 3, (1 << 31) - 1, 1 << 31, (1 << 32) - 1, 1 << 32, (1 << 32) + 1, (1 << 53) + 1, (1 << 62) - 1, (1 << 63) - 1, 1 << 63, (1 << 63) + 1,
    FIBONACCI[0], FIBONACCI[1], u64::MAX - 1, u64::MAX,
];

/// Pairs with nothing in common, each again with both numbers as many times as large: the share is known without a division.
fn multiples(t: &mut Tally, r: &mut Rng) {
    for (part, whole) in (0..=40).flat_map(|part| (1..=40).map(move |whole| (part, whole))).filter(|(part, whole)| tried(*part, *whole) == 1) {
        let most = u64::MAX / part.max(whole);
        for times in [most, most - 1, (most >> r.below(58)).max(1), 1 + r.below(most)] {
            let report = with_share(r, times * part, times * whole);
            assert_eq!(share(&report), [part, whole], "{part} of {whole}, {times} times");
            case_share(t, r, times * part, times * whole);
        }
    }
}

fn compare_share(t: &mut Tally, r: &mut Rng, count: u64) {
    for (padding, rows) in (0..=200).flat_map(|padding| (0..=200).map(move |rows| (padding, rows))) {
        case_share(t, r, padding, rows);
    }
    for (padding, rows) in EDGES.iter().flat_map(|padding| EDGES.map(|rows| (*padding, rows))) {
        case_share(t, r, padding, rows);
    }
    let (mut less, mut more) = (0u64, 1u64);
    while let Some(next) = less.checked_add(more) {
        case_share(t, r, less, more);
        case_share(t, r, more, less);
        (less, more) = (more, next);
    }
    multiples(t, r);
    for _ in 0..20 * count {
        let [a, b] = [0; 2].map(|_| r.next() >> r.below(64));
        case_share(t, r, a, b);
        case_share(t, r, a.min(b), a.max(b));
        let times = 1 + r.below(u64::MAX / a.max(b).max(1));
        case_share(t, r, a * times, b * times);
    }
}

fn store_share(r: &mut Rng) -> Vec<Stored> {
    let cases: [(&str, u64, u64); 18] = [
        ("no rows", 0, 0),
        ("padding and no rows", 5, 0),
        ("the most padding and no rows", u64::MAX, 0),
        ("no padding", 0, 7),
        ("no padding in the most rows", 0, u64::MAX),
        ("all padding", 7, 7),
        ("all padding, the most rows", u64::MAX, u64::MAX),
        ("nothing in common", 3, 7),
        ("one divides the other", 6, 18),
        ("a common divisor", 12, 18),
        ("more padding than rows", 9, 6),
        ("one row in the most", 1, u64::MAX),
        ("the most padding in one row", u64::MAX, 1),
        ("half of almost the most rows", 1 << 63, u64::MAX - 1),
        ("common high halves", 3 << 33, 5 << 34),
        ("neighbours", u64::MAX - 1, u64::MAX),
        ("the largest Fibonacci numbers, more padding", FIBONACCI[1], FIBONACCI[0]),
        ("the largest Fibonacci numbers", FIBONACCI[0], FIBONACCI[1]),
    ];
    cases.iter().map(|(what, padding, rows)| Stored { what: what.to_string(), line: share_line(&with_share(r, *padding, *rows)) }).collect()
}

fn time_share() {
    for (what, [padding, rows]) in [("Fibonacci numbers", FIBONACCI), ("3 of 10 parts", [3 << 60, 5 << 61])] {
        let report = with_share(&mut Rng(5), padding, rows);
        let mut lent = [0; 2];
        let ask = || {
            assert_eq!(ours::report_share(black_box(&report), &mut lent), 0);
            lent
        };
        let (ours, other) = bench::both(ask, || share(black_box(&report)));
        bench::row(&format!("report_share, {what}"), ours, "second reading", other, "");
    }
}

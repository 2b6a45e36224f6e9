//! bytes_to_chars and chars_to_bytes, which the Rust's four files do not have, against a reading of the text by its `str`.
use crate::ours::{self, Output, BEFORE};
use crate::outputs::{outputs, stored};
use crate::tally::{Line, Stored, Tally, LENT};
use crate::{bench, inputs, wellformed, Operation};
use std::hint::black_box;
use tokenizers::bridge::{Batch, MAX_ROWS, NODE, ROW};
use tokenizers::rng::Rng;

pub const BYTES_TO_CHARS: Operation = Operation {
    name: "bytes_to_chars",
    format: "27 nodes rows text refusal nodes rows out-nodes out-rows (the text as a list of bytes)",
    compare: |t, r, count| compare(t, r, count, Way::ToChars),
    store: |r| store(r, Way::ToChars),
    bench: || time(Way::ToChars),
};

pub const CHARS_TO_BYTES: Operation = Operation {
    name: "chars_to_bytes",
    format: "28 nodes rows text refusal nodes rows out-nodes out-rows (the text as a list of bytes)",
    compare: |t, r, count| compare(t, r, count, Way::ToBytes),
    store: |r| store(r, Way::ToBytes),
    bench: || time(Way::ToBytes),
};

#[derive(Clone, Copy, PartialEq)]
pub enum Way {
    ToChars,
    ToBytes,
}

/// The places of a row's two offsets.
const OFFSETS: [usize; 2] = [7, 8];

// ---- The second reading

/// The byte places of a text's characters, and then its length; none if it is not UTF-8.
fn places(text: &[u8]) -> Option<Vec<usize>> {
    let text = std::str::from_utf8(text).ok()?;
    Some(text.char_indices().map(|(place, _)| place).chain([text.len()]).collect())
}

fn converted(offset: u32, places: &[usize], way: Way) -> Result<u32, u32> {
    let offset = offset as usize;
    match way {
        Way::ToChars if offset > places[places.len() - 1] => Err(17),
        Way::ToChars => places.binary_search(&offset).map(|i| i as u32).map_err(|_| 18),
        Way::ToBytes => places.get(offset).map(|place| *place as u32).ok_or(17),
    }
}

/// The rows with their offsets converted, or the refusal.
fn rows_of(b: &Batch, text: &[u8], way: Way) -> Result<Vec<u32>, u32> {
    wellformed::top_encodings(&b.nodes, &b.rows).ok_or(1u32)?;
    let places = places(text).ok_or(16u32)?;
    let mut rows = b.rows.clone();
    for row in rows.chunks_mut(ROW) {
        for at in OFFSETS {
            row[at] = converted(row[at], &places, way)?;
        }
    }
    Ok(rows)
}

/// What is left in an output of so many numbers, each `before` at first.
fn left(b: &Batch, result: &Result<Vec<u32>, u32>, nodes: usize, rows: usize, before: u32) -> Output {
    let mut out = Batch { nodes: vec![before; nodes], rows: vec![before; rows] };
    let refusal = match result {
        Err(refusal) => *refusal,
        Ok(_) if nodes < b.nodes.len() || rows < b.rows.len() => 2,
        Ok(_) => 0,
    };
    if refusal != 0 {
        return Output { refusal, counts: [BEFORE as usize; 2], out };
    }
    out.nodes[..b.nodes.len()].copy_from_slice(&b.nodes);
    out.rows[..b.rows.len()].copy_from_slice(result.as_ref().unwrap());
    Output { refusal, counts: [b.nodes.len() / NODE, b.rows.len() / ROW], out }
}

// ---- Cases

fn line(b: &Batch, text: &[u8], way: Way, nodes: usize, rows: usize) -> Line {
    let bytes: Vec<u32> = text.iter().map(|x| *x as u32).collect();
    let number = if way == Way::ToChars { 27 } else { 28 };
    stored(Line::of(number).list(&b.nodes).list(&b.rows).list(&bytes), &left(b, &rows_of(b, text, way), nodes, rows, LENT))
}

fn case(t: &mut Tally, b: &Batch, text: &[u8], way: Way) {
    let result = rows_of(b, text, way);
    for (nodes, rows) in outputs(b.nodes.len(), b.rows.len()) {
        let got = ours::convert_offsets(b, text, way, nodes, rows);
        let want = left(b, &result, nodes, rows, BEFORE);
        t.case(got == want, || (format!("ours gave refusal {}", got.refusal), line(b, text, way, nodes, rows)));
    }
}

/// Only whether a text is UTF-8: the batch is empty.
fn case_text(t: &mut Tally, text: &[u8], way: Way) {
    let empty = Batch { nodes: vec![], rows: vec![] };
    let got = ours::convert_offsets(&empty, text, way, 0, 0).refusal;
    let want = if std::str::from_utf8(text).is_ok() { 0 } else { 16 };
    t.case(got == want, || (format!("ours gave refusal {got}"), line(&empty, text, way, 0, 0)));
}

/// A batch with just these offsets, in one encoding.
fn with_offsets(offsets: &[(u32, u32)]) -> Batch {
    let mut b = inputs::exact(&[(offsets.len() as u32, 0)]);
    for (row, (start, end)) in b.rows.chunks_mut(ROW).zip(offsets) {
        (row[7], row[8]) = (*start, *end);
    }
    b
}

/// All texts of up to three bytes, and those of four and five over the bytes at which RFC 3629 changes its mind.
fn every_text(t: &mut Tally, way: Way) {
    case_text(t, &[], way);
    for a in 0..=255 {
        case_text(t, &[a], way);
        for b in 0..=255 {
            case_text(t, &[a, b], way);
            (0..=255).for_each(|c| case_text(t, &[a, b, c], way));
        }
    }
    for i in 0..BORDERS.len().pow(4) {
        let byte = |k: u32| BORDERS[i / BORDERS.len().pow(k) % BORDERS.len()];
        let four = [byte(0), byte(1), byte(2), byte(3)];
        case_text(t, &four, way);
        case_text(t, &[four[0], four[1], four[2], four[3], b'a'], way);
        case_text(t, &[0x7F, four[0], four[1], four[2], four[3]], way);
    }
}

const BORDERS: [u8; 24] = [
    0x00, 0x7F, 0x80, 0x8F, 0x90, 0x9F, 0xA0, 0xBF, 0xC0, 0xC1, 0xC2, 0xDF, 0xE0, 0xE1, 0xEC, 0xED, 0xEE, 0xEF, 0xF0, 0xF1, 0xF3, 0xF4, 0xF5, 0xFF,
];

/// Characters of each width, the first and the last of it among them.
const CHARACTERS: [char; 13] =
    ['\0', 'a', '\u{7F}', '\u{80}', 'é', '\u{7FF}', '\u{800}', '\u{D7FF}', '\u{E000}', '\u{FEFF}', '\u{FFFF}', '\u{10000}', '\u{10FFFF}'];

fn random_text(r: &mut Rng, characters: u64) -> Vec<u8> {
    let ascii = r.below(3);
    let one = |r: &mut Rng| if r.below(3) < ascii { 'x' } else { CHARACTERS[r.below(CHARACTERS.len() as u64) as usize] };
    (0..characters).map(|_| one(r)).collect::<String>().into_bytes()
}

/// An offset into a text: most are in it and at a character.
fn random_offset(r: &mut Rng, places: &[usize], way: Way, wild: bool) -> u32 {
    let last = places.len() as u64 - 1;
    let place = r.below(last + 1);
    match (wild, r.below(4), way) {
        (true, 0, _) => r.small(1 << 32),
        (true, 1, Way::ToChars) => r.below(places[last as usize] as u64 + 3) as u32,
        (true, 1, Way::ToBytes) => r.below(last + 3) as u32,
        (_, _, Way::ToChars) => places[place as usize] as u32,
        (_, _, Way::ToBytes) => place as u32,
    }
}

/// The batch with other offsets, at most one in so many rows of which is wild.
fn scatter(r: &mut Rng, b: &mut Batch, places: &[usize], way: Way, wild: u64) {
    for at in 0..b.rows.len() / ROW {
        for offset in OFFSETS {
            let any = wild > 0 && r.below(wild) == 0;
            b.rows[at * ROW + offset] = random_offset(r, places, way, any);
        }
    }
}

/// The batch with its offsets in the order of the text, each behind the last: most are then found from there on.
fn put_in_order(b: &mut Batch) {
    let places: Vec<usize> = (0..b.rows.len() / ROW).flat_map(|row| OFFSETS.map(|offset| row * ROW + offset)).collect();
    let mut offsets: Vec<u32> = places.iter().map(|place| b.rows[*place]).collect();
    offsets.sort();
    places.iter().zip(offsets).for_each(|(place, offset)| b.rows[*place] = offset);
}

fn damaged(r: &mut Rng, text: &[u8]) -> Vec<u8> {
    let mut text = text.to_vec();
    let at = r.below(text.len() as u64 + 1) as usize;
    match r.below(3) {
        0 => text.truncate(at),
        1 => text.insert(at, BORDERS[r.below(BORDERS.len() as u64) as usize]),
        _ if at < text.len() => text[at] = BORDERS[r.below(BORDERS.len() as u64) as usize],
        _ => {}
    }
    text
}

fn compare(t: &mut Tally, r: &mut Rng, count: u64, way: Way) {
    every_text(t, way);
    for text in ["", "a", "é", "aé", "éa", "€", "\u{10FFFF}", "a€é\u{10000}b", "\u{FEFF}x\0"] {
        let beyond = text.len() as u32 + 2;
        for start in (0..=beyond).chain([u32::MAX]) {
            for end in (0..=beyond).chain([u32::MAX]) {
                case(t, &with_offsets(&[(start, end)]), text.as_bytes(), way);
                case(t, &with_offsets(&[(0, 0), (start, end), (beyond, 1)]), text.as_bytes(), way);
            }
        }
    }
    for i in 0..count {
        let characters = r.below([4, 40, 400][i as usize % 3]);
        let text = random_text(r, characters);
        let places = places(&text).expect("a text of characters");
        let mut b = inputs::random_small(r, i);
        let wild = [0, 0, 30, 4][i as usize % 4];
        scatter(r, &mut b, &places, way, wild);
        case(t, &b, &text, way);
        case(t, &b, &damaged(r, &text), way);
        if !b.nodes.is_empty() {
            inputs::some_damages(&mut |b| case(t, b, &text, way), r, &b, 2);
        }
    }
    around_blocks(t, r, way);
    in_stretches(t, r, way);
    // A text that is too long is refused by its length, before a byte of it is read.
    t.case(ours::text_of_length(1 << 32, way) == 16, || ("a text of 2^32 bytes is taken".to_string(), String::new()));
}

/// Texts whose lengths lie around those at which a table of places has to be coarser, with offsets all over them.
fn around_blocks(t: &mut Tally, r: &mut Rng, way: Way) {
    for length in (10..=20).flat_map(|k| [(1usize << k) - 1, 1 << k, (1 << k) + 1, (1 << k) * 3 / 2]) {
        let mut text = random_text(r, length as u64 / 3);
        text.resize(length.max(text.len()), b'z');
        let places = places(&text).expect("a text of characters");
        let mut b = inputs::exact(&[(200, 1), (100, 0)]);
        scatter(r, &mut b, &places, way, 0);
        case(t, &b, &text, way);
        put_in_order(&mut b);
        case(t, &b, &text, way);
        scatter(r, &mut b, &places, way, 200);
        case(t, &b, &text, way);
    }
}

/// Offsets in order, so many characters apart: each row begins where the last one ends.
fn in_steps(places: &[usize], step: usize, way: Way) -> Batch {
    let last = places.len() - 1;
    let offset = |i: usize| if way == Way::ToChars { places[i.min(last)] as u32 } else { i.min(last) as u32 };
    let offsets: Vec<(u32, u32)> = (0..=last).step_by(step).map(|i| (offset(i), offset(i + step))).collect();
    with_offsets(&offsets)
}

/// Texts with plain characters side by side, around as many as are converted together, and with few longer ones among them.
fn in_stretches(t: &mut Tally, r: &mut Rng, way: Way) {
    let mut texts: Vec<Vec<u8>> =
        (0..=50).chain(500..=540).map(|plain| format!("é{}€{}", "x".repeat(plain), "y".repeat(20)).into_bytes()).collect();
    for one_in in [3, 10, 30, 100, 300, 1000] {
        texts.extend((0..10).map(|_| {
            let bytes = 600 + r.below(6000) as usize;
            sparse_text(r, bytes, one_in)
        }));
    }
    for text in texts {
        let places = places(&text).expect("a text of characters");
        for step in [1, 2, 7, 16, 40, 70, 600] {
            let mut b = in_steps(&places, step, way);
            case(t, &b, &text, way);
            let row = r.below((b.rows.len() / ROW) as u64) as usize;
            b.rows[row * ROW + OFFSETS[r.below(2) as usize]] = random_offset(r, &places, way, true);
            case(t, &b, &text, way);
        }
    }
}

/// The longest text that is taken, whose last character has two bytes. What comes of it is known, so it is not read a second time.
pub fn longest() -> bool {
    let end = u32::MAX;
    let mut text = vec![0; end as usize];
    text[end as usize - 2..].copy_from_slice("é".as_bytes());
    let places = [0, 1, 1 << 31, end - 2, end];
    let characters = [0, 1, 1 << 31, end - 2, end - 1];
    let [bytes, chars] = [places, characters].map(|offsets| with_offsets(&offsets.map(|offset| (offset, offset))));
    let converted = |b: &Batch, way| ours::convert_offsets(b, &text, way, b.nodes.len(), b.rows.len());
    let there = converted(&bytes, Way::ToChars);
    let back = converted(&chars, Way::ToBytes);
    let inside = converted(&with_offsets(&[(end, end - 1)]), Way::ToChars).refusal;
    let past = converted(&with_offsets(&[(end, end - 1)]), Way::ToBytes).refusal;
    let good = (there.refusal, there.out.rows) == (0, chars.rows) && (back.refusal, back.out.rows) == (0, bytes.rows) && (inside, past) == (18, 17);
    println!("offsets over a text of {end} bytes: {}", if good { "as they should" } else { "NOT AS THEY SHOULD" });
    good
}

fn store(r: &mut Rng, way: Way) -> Vec<Stored> {
    let mut out = vec![];
    let texts = ["", "aé€", "é\u{10000}b", "\u{7FF}\u{800}\u{FFFF}", "plain"];
    for i in 0..14usize {
        let text = texts[i % texts.len()].as_bytes();
        let places = places(text).expect("a text");
        let mut b = inputs::random_small(r, i as u64);
        scatter(r, &mut b, &places, way, [0, 0, 6][i % 3]);
        let text = if i % 7 == 6 { damaged(r, text) } else { text.to_vec() };
        let (nodes, rows) = outputs(b.nodes.len(), b.rows.len())[i % 4];
        out.push(Stored { what: format!("a text of {} bytes", text.len()), line: line(&b, &text, way, nodes, rows) });
    }
    for text in [&[0xC0u8, 0x80][..], &[0xE0, 0x80, 0x80], &[0xED, 0xA0, 0x80], &[0xF4, 0x90, 0x80, 0x80], &[0xE2, 0x82]] {
        let b = with_offsets(&[(0, 0)]);
        out.push(Stored { what: "not UTF-8".to_string(), line: line(&b, text, way, b.nodes.len(), b.rows.len()) });
    }
    out
}

// ---- Times

/// The texts that are timed: how many characters there are to a longer one, 0 for none.
const TEXTS: [(&str, u64); 6] = [
    ("1 in 3 longer", 3),
    ("1 in 30 longer", 30),
    ("1 in 100 longer", 100),
    ("1 in 300 longer", 300),
    ("1 in 1000 longer", 1000),
    ("none longer", 0),
];

/// A text of about so many bytes, with one longer character in so many.
fn sparse_text(r: &mut Rng, bytes: usize, one_in: u64) -> Vec<u8> {
    let mut text = String::new();
    while text.len() < bytes {
        let longer = one_in > 0 && r.below(one_in) == 0;
        text.push(if longer { CHARACTERS[3 + r.below(CHARACTERS.len() as u64 - 3) as usize] } else { 'x' });
    }
    text.into_bytes()
}

/// All rows that a batch may have, in windows of 512, their offsets over a text in order.
fn ordered(places: &[usize], way: Way) -> Batch {
    let mut shape = vec![(512, 127)];
    shape.extend(vec![(512, 0); 127]);
    let mut b = inputs::exact(&shape);
    let step = (places.len() - 2) as f64 / MAX_ROWS as f64;
    for (i, row) in b.rows.chunks_mut(ROW).enumerate() {
        let place = |k: f64| (k * step) as usize;
        let (start, end) = (place(i as f64), place(i as f64 + 1.0));
        (row[7], row[8]) = if way == Way::ToChars { (places[start] as u32, places[end] as u32) } else { (start as u32, end as u32) };
    }
    b
}

fn time_text(r: &mut Rng, way: Way, what: &str, text: &[u8]) {
    let places = places(text).expect("a text");
    let ordered = ordered(&places, way);
    let mut random = ordered.clone();
    scatter(r, &mut random, &places, way, 0);
    let mut to = ordered.rows.clone();
    for (order, b) in [("in order", &ordered), ("at random", &random)] {
        let mut lent = ours::Lent::new(b.nodes.len(), b.rows.len());
        // one after the other, so that both find the text and the rows where such a call leaves them
        let mut check_and_copy = || {
            to.copy_from_slice(black_box(&b.rows));
            std::str::from_utf8(black_box(text)).is_ok()
        };
        let (ours, least) = bench::both(|| lent.convert_offsets(black_box(b), black_box(text), way), &mut check_and_copy);
        let second = bench::few(11, || rows_of(black_box(b), black_box(text), way));
        let name = format!("{}, {MAX_ROWS} rows, 1 MB, {what}, {order}", name(way));
        bench::row(&name, ours, "second reading", second, "");
        bench::row(&name, ours, "check and copy", least, "from_utf8 of the text, memory copy of the rows");
    }
}

fn name(way: Way) -> &'static str {
    if way == Way::ToChars { BYTES_TO_CHARS.name } else { CHARS_TO_BYTES.name }
}

/// As many rows as there may be over a text of a megabyte, and 512 over one of 2 KB.
fn time(way: Way) {
    let mut r = Rng(5);
    for (what, one_in) in TEXTS {
        let text = sparse_text(&mut r, (1 << 20) - 4, one_in);
        time_text(&mut r, way, what, &text);
    }
    let small = sparse_text(&mut r, 2044, 3);
    let few = places(&small).expect("a text");
    let mut b = inputs::exact(&[(512, 0)]);
    scatter(&mut r, &mut b, &few, way, 0);
    let mut lent = ours::Lent::new(b.nodes.len(), b.rows.len());
    let ours = bench::alone(|| lent.convert_offsets(black_box(&b), black_box(&small), way));
    let second = bench::alone(|| rows_of(black_box(&b), black_box(&small), way));
    bench::row(&format!("{}, 512 rows, 2 KB, 1 in 3 longer, at random", name(way)), ours, "second reading", second, "");
}

//! read_template against the Rust's reading: every short text, the limits, bytes that are no UTF-8. Of a part that cannot be read
//! the Rust says only what it is: the reason, its number and its place are the second reading's.
use crate::ours::{self, BEFORE, NO_FAULT, PIECES};
use crate::tally::{Line, Stored, Tally, LENT};
use crate::template_inputs::{all_of, unreadable, AT_FAULT};
use crate::template_text::{self, Refused, MAX_BYTES, MAX_PARTS};
use crate::{bench, Operation};
use std::hint::black_box;
use tokenizers::processors::template::Template;
use tokenizers::rng::Rng;

pub const OPERATION: Operation = Operation {
    name: "read_template",
    format: "23 text nothing refusal count part place pieces (the text as a list of bytes; part and place of the first part at fault, told with 19 to 21; four numbers a piece, 64 pieces)",
    compare,
    store,
    bench: times,
};

/// What is told of a text, each lent number `before` at first.
fn expected(text: &[u8], before: u32) -> ours::Template {
    match template_text::read(text) {
        Err(refused) => {
            let fault = refused.fault_after(before);
            ours::Template { refusal: refused.number, count: before as usize, pieces: vec![before; PIECES], fault }
        }
        Ok((pieces, _)) => {
            let mut numbers: Vec<u32> = pieces.iter().flat_map(|piece| piece.numbers()).collect();
            numbers.resize(PIECES, 0);
            ours::Template { refusal: 0, count: pieces.len(), pieces: numbers, fault: [before as usize; 2] }
        }
    }
}

/// A text or a pool as it is stored.
pub fn bytes(text: &[u8]) -> Vec<u32> {
    text.iter().map(|byte| *byte as u32).collect()
}

fn line(text: &[u8]) -> Line {
    let want = expected(text, LENT);
    let [part, place] = want.fault;
    let left = [want.count, part, place].map(|n| n as u32);
    Line::of(23).list(&bytes(text)).list(&[]).answer_left(want.refusal, &left).list(&want.pieces)
}

fn case(t: &mut Tally, text: &[u8]) {
    let got = ours::read_template(text);
    t.case(got == expected(text, BEFORE), || (format!("ours gave {got:?}"), line(text)));
}

/// Every text of up to so many bytes, each one of these.
fn all_texts(t: &mut Tally, alphabet: &[u8], most: u32) {
    let base = alphabet.len() as u32;
    for length in 0..=most {
        for code in 0..base.pow(length) {
            let text: Vec<u8> = (0..length).map(|i| alphabet[(code / base.pow(i) % base) as usize]).collect();
            case(t, &text);
        }
    }
}

/// Numbers as they may be written, some of them wrongly.
const NUMBERS_WRITTEN: [&str; 24] = [
    "", "+", "-", "0", "7", "00", "+0", "-0", "++1", "+-1", "1+", "1 ", "0x1", "1_0", "１", "4294967294", "4294967295", "4294967296", "+4294967295",
    "+4294967296", "04294967295", "9999999999", "42949672950", "18446744073709551617",
];

fn all_numbers(t: &mut Tally) {
    let zeros = "0".repeat(MAX_BYTES - 7);
    let long = ["", "1", "4294967295"].map(|end| format!("{}{end}", &zeros[..zeros.len() - end.len()]));
    for number in NUMBERS_WRITTEN.into_iter().chain(long.iter().map(String::as_str)) {
        for before in ["$", "$A:", "$b:", "$7:", "x:", ":", "$x:", "$:", "[a]", "$$"] {
            case(t, format!("{before}{number}").as_bytes());
            case(t, format!("$A {before}{number}").as_bytes());
        }
        NUMBERS_WRITTEN.iter().for_each(|first| case(t, format!("${first}:{number}").as_bytes()));
    }
}

const GOOD: [&str; 16] = ["$", "$A", "$a", "$B", "$b", "$0", "$1", "$A:1", "$B:1", "$3:4", "[CLS]", "[SEP]:1", "", ":2", "é:9", "a+b"];

/// One part by chance, one in so many of them unreadable.
fn part(r: &mut Rng, bad: u64) -> Vec<u8> {
    if r.below(bad) == 0 { unreadable(r) } else { GOOD[r.below(GOOD.len() as u64) as usize].as_bytes().to_vec() }
}

/// So many parts, of them one in so many unreadable, some with empty parts before it.
pub fn parts(r: &mut Rng, parts: u64, bad: u64) -> Vec<u8> {
    (0..parts).map(|_| part(r, bad)).collect::<Vec<_>>().join(&b' ')
}

/// Texts with the refusal, the part and its place that the words of document 02 give for each: the Rust has nothing to hold the
/// second reading's reasons to.
const TRAPS: [(&str, u32, usize, usize); 18] = [
    (":", 20, 0, 0),
    ("$:", 20, 0, 0),
    ("::", 19, 0, 0),
    ("a:b:1", 19, 0, 0),
    ("$x:1:1", 19, 0, 0),
    ("$x:y", 20, 0, 0),
    ("$x:1", 21, 0, 0),
    ("$C", 21, 0, 0),
    ("$4294967296", 21, 0, 0),
    ("$A:4294967296", 20, 0, 0),
    ("x: a:b:c", 20, 0, 0),
    ("$C x: a:b:c", 21, 0, 0),
    ("$A a:1:2 $x:y", 19, 1, 3),
    ("a  $C", 21, 2, 3),
    ("  $a:", 20, 2, 2),
    (" $A:1 ::", 19, 2, 6),
    ("é $x", 21, 1, 3),
    ("[CLS] $A [SEP] $B:+ [SEP]:1", 20, 3, 15),
];

/// These texts, the second reading held to what is said of each.
fn traps() -> [&'static str; TRAPS.len()] {
    TRAPS.map(|(text, number, part, place)| {
        assert_eq!(template_text::pieces(text.as_bytes()), Err(Refused { number, fault: Some([part, place]) }), "{text:?}");
        text
    })
}

/// Parts at fault alone, before and after others.
fn at_fault(t: &mut Tally) {
    for (i, text) in AT_FAULT.iter().enumerate() {
        assert_eq!(template_text::pieces(text.as_bytes()).err().map(|refused| refused.number), Some(19 + i as u32 % 3), "{text:?}");
    }
    for text in traps().iter().chain(&AT_FAULT) {
        for text in [text.to_string(), format!("$A  {text}"), format!("{text} ::"), format!("{text} :"), format!("{text} $C")] {
            case(t, text.as_bytes());
        }
    }
    for text in all_of(&["$A", "", "x:1", "::", "x:", "$C", "$x:y", "$x:1", "a:b:1"], 4) {
        case(t, &text);
    }
}

/// With an id put in at some place that makes it so many bytes long.
fn lengthened(r: &mut Rng, text: Vec<u8>, length: usize) -> Vec<u8> {
    let id = vec![b'x'; length.saturating_sub(text.len() + 1)];
    let spaces = text.iter().enumerate().filter(|(_, byte)| **byte == b' ').map(|(i, _)| i).chain([text.len()]);
    let spaces: Vec<usize> = spaces.collect();
    let at = spaces[r.below(spaces.len() as u64) as usize];
    [&text[..at], b" ", &id, &text[at..]].concat()
}

/// Around the limits of parts and of bytes, apart and together.
fn random_long(r: &mut Rng) -> Vec<u8> {
    let many = [1 + r.below(70), 62 + r.below(5)][r.below(2) as usize];
    let bad = [30, 1 << 20][r.below(2) as usize];
    let text = parts(r, many, bad);
    let length = [0, MAX_BYTES - 2 + r.below(5) as usize, r.below(6_000) as usize][r.below(3) as usize];
    if length == 0 { text } else { lengthened(r, text, length) }
}

/// With a byte put in, changed or left out.
fn damaged(r: &mut Rng, mut text: Vec<u8>) -> Vec<u8> {
    let (at, byte) = (r.below(text.len() as u64 + 1) as usize, [r.below(256) as u8, b" $:+"[r.below(4) as usize]][r.below(2) as usize]);
    match text.get_mut(at) {
        Some(place) if r.below(2) == 0 => *place = byte,
        Some(_) if r.below(2) == 0 => drop(text.remove(at)),
        _ => text.insert(at, byte),
    }
    text
}

/// At the limits of parts and of bytes and behind them, readable or not.
fn at_limits(t: &mut Tally) {
    for parts in 1..=MAX_PARTS + 2 {
        for part in ["$A", "", "[CLS]:1", "$C", ":"] {
            case(t, vec![part; parts].join(" ").as_bytes());
            // the last is unreadable, for each reason
            for last in ["a:b", "a:b:1", "$x"] {
                case(t, [vec![part; parts - 1], vec![last]].concat().join(" ").as_bytes());
            }
        }
    }
    for length in MAX_BYTES - 2..=MAX_BYTES + 3 {
        for byte in *b"x$ :0\xff" {
            case(t, &vec![byte; length]);
            case(t, &[b"$A ", &vec![byte; length - 3][..]].concat());
            case(t, &[&vec![byte; length - 3][..], b" $C"].concat());
        }
    }
}

fn compare(t: &mut Tally, r: &mut Rng, count: u64) {
    all_texts(t, b" $1:AB+", 6);
    all_texts(t, b" $09:AaBbCx[+-\t\n\0\xc3\xa9\xff", 4);
    all_numbers(t);
    at_fault(t);
    at_limits(t);
    for _ in 0..50 * count {
        let text = random_long(r);
        case(t, &text);
        case(t, &damaged(r, text));
        let short = 1 + r.below(6);
        let text = parts(r, short, 12);
        case(t, &damaged(r, text));
    }
}

fn store(r: &mut Rng) -> Vec<Stored> {
    let mut out = vec![];
    let mut keep = |what: &str, text: &[u8]| out.push(Stored { what: what.to_string(), line: line(text) });
    for text in ["", " ", "$A", "[CLS] $A [SEP]", "[CLS] $A [SEP] $B:1 [SEP]:1", "$+7", ":1", "$ $a $b:4294967295 $12:3", "é:2"] {
        keep("readable", text.as_bytes());
    }
    for text in traps() {
        keep("unreadable", text.as_bytes());
    }
    for bytes in [&b"\xff\xfe:7 $A"[..], b"$\xc3\xa9", b"\0 $B \xa9"] {
        keep("no UTF-8, or a byte of 0", bytes);
    }
    for parts in [MAX_PARTS, MAX_PARTS + 1] {
        keep("as many parts as there may be, or one more", vec!["$B:2"; parts].join(" ").as_bytes());
        keep("the same, the last unreadable", [vec![""; parts - 1], vec!["$x"]].concat().join(" ").as_bytes());
    }
    for bytes in [MAX_BYTES, MAX_BYTES + 1] {
        keep("as many bytes as there may be, or one more", &vec![b'x'; bytes]);
    }
    for i in 0..6 {
        keep("random", &parts(r, 2 + i, 12));
    }
    out
}

fn times() {
    let long = vec!["[SEP]:1 $A $B:1 [CLS]"; MAX_PARTS / 4].join(" ");
    for (parts, text) in [(3, "[CLS] $A [SEP]"), (5, "[CLS] $A [SEP] $B:1 [SEP]:1"), (MAX_PARTS, &long[..])] {
        let mut lent = vec![0; PIECES];
        let ours = || assert_eq!(ours::read_template_into(black_box(text.as_bytes()), &mut lent), (0, parts, NO_FAULT));
        let (ours, rust) = bench::both(ours, || Template::try_from(black_box(text)));
        bench::row(&format!("read_template, {parts} parts"), ours, "Rust", rust, "which allocates");
    }
    // the dearest refusal: all but the last part are read before it is found
    let place = long.len() - "[CLS]".len();
    let at_fault = format!("{}$C", &long[..place]);
    let want = (21, BEFORE as usize, [MAX_PARTS - 1, place]);
    let mut lent = vec![0; PIECES];
    let ours = || assert_eq!(ours::read_template_into(black_box(at_fault.as_bytes()), &mut lent), want);
    let (ours, rust) = bench::both(ours, || assert!(Template::try_from(black_box(&at_fault[..])).is_err()));
    bench::row(&format!("read_template, {MAX_PARTS} parts, last at fault"), ours, "Rust", rust, "which allocates, and tells no reason");
}

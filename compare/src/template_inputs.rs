//! Templates to compare on, for every operation that takes a special table beside them.
use crate::ours::Templates;
use crate::tables::LETTERS;
use crate::template_text::{MAX_BYTES, MAX_PARTS};
use tokenizers::rng::Rng;

/// The two templates, each set or not.
#[derive(Clone)]
pub struct Texts {
    pub single: Option<Vec<u8>>,
    pub pair: Option<Vec<u8>>,
    /// what stands in the place of a text that is not set, and must not matter
    pub unset: &'static [u8],
}

impl Texts {
    pub fn lent(&self) -> Templates<'_> {
        let (single, pair) = (self.single.as_deref(), self.pair.as_deref());
        Templates { single_set: single.is_some(), single: single.unwrap_or(self.unset), pair_set: pair.is_some(), pair: pair.unwrap_or(self.unset) }
    }
}

pub const SINGLE: &str = "[CLS] $A [SEP]";
pub const PAIR: &str = "[CLS] $A [SEP] $B:1 [SEP]:1";

/// Both set, with these texts.
pub fn both(single: &[u8], pair: &[u8]) -> Texts {
    Texts { single: Some(single.to_vec()), pair: Some(pair.to_vec()), unset: b"" }
}

const UNSET: [&[u8]; 4] = [b"$C", b"", b"[unknown]", b"$B:7"];

/// A text too long in bytes, and one of too many parts that are unreadable besides.
pub fn too_long() -> [Vec<u8>; 2] {
    [vec![b'a'; MAX_BYTES + 1], b"$C ".repeat(MAX_PARTS)]
}

/// Texts with a part at fault, in turn for 19, 20 and 21: in the first part and in a later one, after an empty part, before another
/// fault, and beside what would be refused later.
pub const AT_FAULT: [&str; 12] = [
    "a:b:1", "[CLS] [SEP]: x", "$C",
    "$A $B ::", "$a:x", "$A $B $C",
    "$A  $x:1:1", "x: a:b:c", "x $B $C",
    "[SEP] a:1:2 :", "$B $x:y", "a  $x:1",
];

/// Parts that cannot be read: for each reason, and for several of which the first decides.
const UNREADABLE: [&[u8]; 18] = [
    b"a:b:1", b"a:1:2", b"::", b"$x:1:1", b"$A:1:", b"$C::x", b"a:b", b":", b"$:", b"$x:y", b"$A:", b"$B:-1", b"$C", b"$x:1", b"$-1", b"$4294967296",
    b"$\xff", b"$$:0",
];

/// One of them by chance, now and then after empty parts.
pub fn unreadable(r: &mut Rng) -> Vec<u8> {
    let empty = r.below(6).saturating_sub(3) as usize;
    [&b" ".repeat(empty)[..], UNREADABLE[r.below(UNREADABLE.len() as u64) as usize]].concat()
}

fn special_id(r: &mut Rng) -> Vec<u8> {
    (0..r.below(3)).map(|_| LETTERS[r.below(LETTERS.len() as u64) as usize]).collect()
}

/// A part: A, B or a special id, one in so many unreadable.
fn part(r: &mut Rng, bad: u64) -> Vec<u8> {
    if r.below(bad) == 0 {
        return unreadable(r);
    }
    let id = match r.below(8) {
        0 | 1 => b"$A".to_vec(),
        2 => b"$B".to_vec(),
        3 => b"$".to_vec(),
        _ => special_id(r),
    };
    if r.below(3) == 0 { [id, format!(":{}", r.below(4)).into_bytes()].concat() } else { id }
}

/// A text of up to so many parts, every second time with A and B before them; now and then too long.
pub fn random_text(r: &mut Rng, most: u64, bad: u64) -> Vec<u8> {
    if r.below(2 * bad) == 0 {
        return too_long()[r.below(2) as usize].clone();
    }
    let mut parts: Vec<Vec<u8>> = (0..1 + r.below(most)).map(|_| part(r, bad)).collect();
    if r.below(2) == 0 {
        parts.splice(..0, [b"$A".to_vec(), b"$B:1".to_vec()]);
    }
    parts.join(&b' ')
}

/// Both, most often set.
pub fn random_texts(r: &mut Rng, most: u64, bad: u64) -> Texts {
    let mut text = || (r.below(6) != 0).then(|| random_text(r, most, bad));
    let (single, pair) = (text(), text());
    Texts { single, pair, unset: UNSET[r.below(4) as usize] }
}

/// Every text of up to so many of these parts.
pub fn all_of(parts: &[&str], most: usize) -> Vec<Vec<u8>> {
    let mut out = vec![];
    let mut last: Vec<Vec<&str>> = vec![vec![]];
    for _ in 0..most {
        last = last.iter().flat_map(|text| parts.iter().map(move |part| [&text[..], &[*part]].concat())).collect();
        out.extend(last.iter().map(|text| text.join(" ").into_bytes()));
    }
    out
}

/// No text, these, those with a part at fault, and those that are too long.
fn with_faults(texts: &[&str]) -> Vec<Option<Vec<u8>>> {
    let texts = texts.iter().chain(&AT_FAULT).map(|text| text.as_bytes().to_vec());
    std::iter::once(None).chain(texts.chain(too_long()).map(Some)).collect()
}

/// A text of every fault and none for one encoding: not set, good, of an unknown id, empty, unreadable, too long.
pub fn singles() -> Vec<Option<Vec<u8>>> {
    with_faults(&["$A", "[CLS] $A [SEP]:1", "[CLS]", "x $0", ""])
}

/// The same for a pair, also without A, without B or without both.
pub fn pairs() -> Vec<Option<Vec<u8>>> {
    with_faults(&["$A $B", "[CLS] $A [SEP] $B:1 [SEP]:1", "$B:1 $0 $b", "$A", "$B [SEP]", "x $B", "$A $B x", "[CLS]", ""])
}

/// Every pair of these, with each text in the place of one that is not set.
pub fn all_faults() -> Vec<Texts> {
    let mut out = vec![];
    for single in singles() {
        for pair in pairs() {
            let unsets = if single.is_none() || pair.is_none() { &UNSET[..] } else { &UNSET[..1] };
            out.extend(unsets.iter().map(|unset| Texts { single: single.clone(), pair: pair.clone(), unset }));
        }
    }
    out
}

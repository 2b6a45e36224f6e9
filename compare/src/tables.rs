//! Special tables to compare on, good and malformed, and what the Rust makes of one.
use crate::ours;
use crate::template_text::characters;
use tokenizers::processors::template::{SpecialToken, Tokens};
use tokenizers::rng::Rng;

pub const ENTRY: usize = 5;
pub const MEMBER: usize = 3;
pub const MAX_ENTRIES: usize = 64;

/// The numbers of a special table.
#[derive(Clone, Default, Debug)]
pub struct Table {
    pub entries: Vec<u32>,
    pub members: Vec<u32>,
    pub added: Vec<u8>,
}

impl Table {
    pub fn lent(&self) -> ours::Table<'_> {
        ours::Table { entries: &self.entries, members: &self.members, added: &self.added }
    }
}

/// Document 01's 15: the clauses in its order, each the other way round.
fn well_made(t: ours::Table) -> bool {
    let members = (t.members.len() / MEMBER) as u64;
    let inside = |start: u32, length: u32| start as u64 + length as u64 <= t.added.len() as u64;
    t.entries.len().is_multiple_of(ENTRY)
        && t.members.len().is_multiple_of(MEMBER)
        && t.entries.chunks(ENTRY).all(|e| inside(e[0], e[1]))
        && t.members.chunks(MEMBER).all(|m| inside(m[1], m[2]))
        && t.entries.chunks(ENTRY).all(|e| e[2] as u64 + e[3] as u64 <= members)
        && t.entries.len() / ENTRY <= MAX_ENTRIES
}

/// One entry for the Rust, none where it finds that ids and texts differ in number. A text travels as the bridge's.
fn special(t: ours::Table, e: &[u32]) -> Option<SpecialToken> {
    let members = t.members.chunks(MEMBER).skip(e[2] as usize).take(e[3] as usize);
    let ids = members.clone().map(|m| m[0]).collect();
    // of far too many texts one too many is enough
    let texts = members.map(|m| format!("1,{},{}", m[1], m[2])).chain(std::iter::once(String::new()));
    let id = characters(&t.added[e[0] as usize..][..e[1] as usize]);
    SpecialToken::new(id, ids, texts.take(e[4] as usize).collect()).ok()
}

/// The Rust's tokens, whose ids are `characters`, or the refusal: 15, then 12.
pub fn tokens(t: ours::Table) -> Result<Tokens, u32> {
    if !well_made(t) {
        return Err(15);
    }
    let all: Option<Vec<SpecialToken>> = t.entries.chunks(ENTRY).map(|e| special(t, e)).collect();
    all.map(Tokens::from).ok_or(12)
}

// ---- Tables made

/// `[CLS]`, `[SEP]` with the ids 101 and 102, and a third entry that stands for two tokens and for the empty id.
pub fn usual() -> Table {
    let added = b"[CLS][SEP]xy".to_vec();
    let members = vec![101, 0, 5, 102, 5, 5, 7, 10, 1, 8, 11, 1];
    Table { entries: vec![0, 5, 0, 1, 1, 5, 5, 1, 1, 1, 10, 0, 2, 2, 2], members, added }
}

/// Tables of every fault and none: good ones, none, 15, 12, both.
pub fn faulty_tables() -> Vec<Table> {
    let good = usual();
    let mut short = good.clone();
    short.members.pop();
    let mut differ = good.clone();
    differ.entries[4] += 1;
    let mut both = differ.clone();
    both.entries[5] = u32::MAX;
    vec![good, Table::default(), short, differ, both]
}

/// So many entries of one token each, the ids `[CLS]`, `[SEP]`, then others; and the same for the Rust.
pub fn table_of(entries: usize) -> (Table, Vec<SpecialToken>) {
    let ids: Vec<String> = ["[CLS]", "[SEP]"].into_iter().map(String::from).chain((2..entries).map(|i| format!("[x{i:02}]"))).collect();
    let (mut table, mut rust) = (Table::default(), vec![]);
    for (i, id) in ids.iter().enumerate() {
        let (start, length) = (table.added.len() as u32, id.len() as u32);
        table.entries.extend([start, length, i as u32, 1, 1]);
        table.members.extend([i as u32, start, length]);
        table.added.extend(id.bytes());
        rust.push(SpecialToken::from((id.clone(), i as u32)));
    }
    (table, rust)
}

/// The bytes of pools and ids: few, so that ids at different places are often equal.
pub const LETTERS: &[u8] = b"ab\xff";

/// The start and length of some part of so many things.
fn within(r: &mut Rng, length: usize, most: u64) -> [u32; 2] {
    let start = r.small(length as u64 + 1);
    [start, r.small((length as u64 - start as u64).min(most) + 1)]
}

/// A good table: repeated and empty ids, ids and members that overlap, members that no entry has.
pub fn random(r: &mut Rng) -> Table {
    let added: Vec<u8> = (0..r.below(9)).map(|_| LETTERS[r.below(LETTERS.len() as u64) as usize]).collect();
    let members = r.below(6) as usize;
    let entries = [r.below(7), 60 + r.below(5)][(r.below(12) == 0) as usize];
    let mut t = Table { added, ..Table::default() };
    for _ in 0..members {
        let [start, length] = within(r, t.added.len(), 9);
        t.members.extend([r.small(1 << 32), start, length]);
    }
    for _ in 0..entries {
        let ([start, length], [first, ids]) = (within(r, t.added.len(), 2), within(r, members, 9));
        t.entries.extend([start, length, first, ids, ids]);
    }
    t
}

/// Sets one number of some entry, from the numbers of that entry.
fn set_entry(r: &mut Rng, t: &mut Table, change: fn(&mut [u32], added: u32, members: u32)) {
    let at = r.below((t.entries.len() / ENTRY) as u64) as usize * ENTRY;
    change(&mut t.entries[at..at + ENTRY], t.added.len() as u32, (t.members.len() / MEMBER) as u32);
}

fn set_member(r: &mut Rng, t: &mut Table, change: fn(&mut [u32], added: u32)) {
    let at = r.below((t.members.len() / MEMBER) as u64) as usize * MEMBER;
    change(&mut t.members[at..at + MEMBER], t.added.len() as u32);
}

/// A kind of damage; the table has an entry and a member, and no numbers left over.
type Damage = (&'static str, fn(&mut Rng, &mut Table));

/// Every clause of 15, then those of 12.
const DAMAGES: [Damage; 19] = [
    ("entries some numbers short", |r, t| t.entries.truncate(t.entries.len() - 1 - r.below(4) as usize)),
    ("some numbers after the entries", |r, t| t.entries.extend(vec![0; 1 + r.below(4) as usize])),
    ("members some numbers short", |r, t| t.members.truncate(t.members.len() - 1 - r.below(2) as usize)),
    ("some numbers after the members", |r, t| t.members.extend(vec![0; 1 + r.below(2) as usize])),
    ("an id that starts behind its pool", |r, t| set_entry(r, t, |e, added, _| e[..2].copy_from_slice(&[added + 1, 0]))),
    ("an id one byte too long", |r, t| set_entry(r, t, |e, added, _| e[1] = added + 1 - e[0])),
    ("an id whose end wraps around", |r, t| set_entry(r, t, |e, _, _| e[..2].copy_from_slice(&[u32::MAX, 1]))),
    ("an id far too long", |r, t| set_entry(r, t, |e, _, _| e[1] = u32::MAX)),
    ("a text one byte too long", |r, t| set_member(r, t, |m, added| m[2] = added + 1 - m[1])),
    ("a text that starts behind its pool", |r, t| set_member(r, t, |m, added| m[1..].copy_from_slice(&[added + 1, 0]))),
    ("a text whose end wraps around", |r, t| set_member(r, t, |m, _| m[1..].copy_from_slice(&[2, u32::MAX - 1]))),
    ("an entry of one member too many", |r, t| set_entry(r, t, |e, _, members| e[2..].copy_from_slice(&[1, members, members]))),
    ("a first member behind the last", |r, t| set_entry(r, t, |e, _, members| e[2..].copy_from_slice(&[members + 1, 0, 0]))),
    ("members whose end wraps around", |r, t| set_entry(r, t, |e, _, _| e[2..].copy_from_slice(&[u32::MAX, 1, 1]))),
    ("an entry too many", |_, t| t.entries = t.entries[..ENTRY].repeat(MAX_ENTRIES + 1)),
    ("one text more than ids", |r, t| set_entry(r, t, |e, _, _| e[4] = e[3] + 1)),
    ("no text, but ids", |r, t| set_entry(r, t, |e, _, members| e[2..].copy_from_slice(&[0, members, 0]))),
    ("one id more than texts", |r, t| set_entry(r, t, |e, _, members| e[2..].copy_from_slice(&[0, members, members - 1]))),
    ("far more texts than ids", |r, t| set_entry(r, t, |e, _, _| e[4] = u32::MAX)),
];

/// One of them by chance, where it can be done.
pub fn damage(r: &mut Rng, t: &mut Table) {
    let whole = t.entries.len().is_multiple_of(ENTRY) && t.members.len().is_multiple_of(MEMBER);
    if whole && !t.entries.is_empty() && !t.members.is_empty() {
        let (_, damage) = DAMAGES[r.below(DAMAGES.len() as u64) as usize];
        damage(r, t);
    }
}

/// Every table of up to two entries over small numbers with up to two members, in a pool of two bytes.
pub fn all_small(visit: &mut impl FnMut(&Table)) {
    for members in [vec![], vec![5, 0, 1], vec![5, 1, 1, 6, 0, 2]] {
        for code in 0..4u32.pow(ENTRY as u32) {
            let entry: Vec<u32> = (0..ENTRY as u32).map(|i| code / 4u32.pow(i) % 4).collect();
            for before in [&[][..], &[0, 1, 0, 0, 0], &[1, 1, 0, 1, 1]] {
                visit(&Table { entries: [before, &entry].concat(), members: members.clone(), added: b"ab".to_vec() });
            }
        }
        for code in 0..16 {
            let member = [vec![5, code / 4, code % 4], members.clone()].concat();
            visit(&Table { entries: vec![0, 1, 0, 1, 1], members: member, added: b"ab".to_vec() });
        }
    }
}

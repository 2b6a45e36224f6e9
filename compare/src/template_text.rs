//! A template text read from documents 01 and 02 independently of the library, and held to the Rust's reading of the same text.
use tokenizers::processors::template::{self, probe, Sequence, Template};

pub const MAX_BYTES: usize = 4_096;
pub const MAX_PARTS: usize = 64;

/// "A piece is kind (0 A, 1 B, 2 special), type, id start and length in the text (0 for A, B)"
#[derive(Clone, Copy, PartialEq, Debug)]
pub struct Piece {
    pub kind: u32,
    pub type_id: u32,
    pub start: usize,
    pub length: usize,
}

impl Piece {
    pub fn numbers(&self) -> [u32; 4] {
        [self.kind, self.type_id, self.start as u32, self.length as u32]
    }

    pub fn id<'a>(&self, text: &'a [u8]) -> &'a [u8] {
        &text[self.start..][..self.length]
    }
}

/// "a u32 as Rust reads it"
fn number(word: &[u8]) -> Option<u32> {
    std::str::from_utf8(word).ok()?.parse().ok()
}

/// Why a text is refused: the number, and of a part at fault its own number and the place of its first byte, both from 0.
#[derive(Clone, Copy, PartialEq, Debug)]
pub struct Refused {
    pub number: u32,
    pub fault: Option<[usize; 2]>,
}

impl Refused {
    /// What the two numbers of the fault are after the call, each `before` at first.
    pub fn fault_after(&self, before: u32) -> [usize; 2] {
        self.fault.unwrap_or([before as usize; 2])
    }
}

/// Any refusal but for a part at fault "carries only its number".
impl From<u32> for Refused {
    fn from(number: u32) -> Refused {
        Refused { number, fault: None }
    }
}

/// The sequence that an id with a dollar sign in front names, and the type that goes with it.
fn sequence(id: &[u8]) -> Option<Piece> {
    let piece = |kind, type_id| Piece { kind, type_id, start: 0, length: 0 };
    match id {
        b"$" | b"$A" | b"$a" => Some(piece(0, 0)),
        b"$B" | b"$b" => Some(piece(1, 0)),
        _ => number(&id[1..]).map(|type_id| piece(0, type_id)),
    }
}

/// The piece of a part that starts at such a place, or why there is none: "19 more than one colon, 20 bad type number, 21 unknown
/// sequence name"; "Inside a part the order is colons, type number, sequence name"
fn piece(part: &[u8], start: usize) -> Result<Piece, u32> {
    let fields: Vec<&[u8]> = part.split(|byte| *byte == b':').collect();
    if fields.len() > 2 {
        return Err(19);
    }
    let after = match fields.get(1) {
        Some(word) => Some(number(word).ok_or(20u32)?),
        None => None,
    };
    let id = fields[0];
    let read = match id.starts_with(b"$") {
        true => sequence(id).ok_or(21u32)?,
        false => Piece { kind: 2, type_id: 0, start, length: id.len() },
    };
    Ok(Piece { type_id: after.unwrap_or(read.type_id), ..read })
}

/// "8 above 4,096 bytes or 64 parts", then the first part at fault
pub fn pieces(text: &[u8]) -> Result<Vec<Piece>, Refused> {
    let parts: Vec<&[u8]> = text.split(|byte| *byte == b' ').collect();
    if text.len() > MAX_BYTES || parts.len() > MAX_PARTS {
        return Err(8.into());
    }
    let (mut out, mut place) = (vec![], 0);
    for (i, part) in parts.iter().enumerate() {
        out.push(piece(part, place).map_err(|number| Refused { number, fault: Some([i, place]) })?);
        place += part.len() + 1;
    }
    Ok(out)
}

/// Any bytes as a text for the Rust, which takes only UTF-8: each byte as the character of the same number. Those that
/// mean something in a template stay as they are.
pub fn characters(bytes: &[u8]) -> String {
    bytes.iter().map(|byte| *byte as char).collect()
}

fn same(ours: &Piece, rust: &template::Piece, id: &str) -> bool {
    match rust {
        template::Piece::Sequence { id, type_id } => ours.numbers() == [(*id == Sequence::B) as u32, *type_id, 0, 0],
        template::Piece::SpecialToken { id: rust, type_id } => (ours.kind, ours.type_id, id) == (2, *type_id, rust),
    }
}

/// The part that starts at a place.
fn part_at(text: &[u8], place: usize) -> &[u8] {
    text[place..].split(|byte| *byte == b' ').next().expect("a part, if an empty one")
}

/// Whether the Rust reads a text in the same way; `shown` is what it has in the place of some bytes. Of a part at fault it says what
/// the part is, but not why: any of the three reasons is its one error.
fn same_reading(text: &[u8], ours: &Result<Vec<Piece>, Refused>, rust: &Result<Template, String>, shown: impl Fn(&[u8]) -> String) -> bool {
    match (ours, rust) {
        (Err(Refused { number: 19..=21, fault: Some([_, place]) }), Err(said)) => {
            *said == format!("Cannot build Piece from string \"{}\"", shown(part_at(text, *place)))
        }
        (Ok(ours), Ok(rust)) => {
            let rust = probe::pieces(rust);
            ours.len() == rust.len() && ours.iter().zip(rust).all(|(ours, rust)| same(ours, rust, &shown(ours.id(text))))
        }
        _ => false,
    }
}

/// The pieces of a text and the Rust's template, whose special ids are `characters`; or the refusal.
pub fn read(text: &[u8]) -> Result<(Vec<Piece>, Template), Refused> {
    let ours = pieces(text);
    if ours == Err(8.into()) {
        return Err(8.into());
    }
    if let Ok(utf8) = std::str::from_utf8(text) {
        let shown = |bytes: &[u8]| String::from_utf8(bytes.to_vec()).expect("a part of UTF-8, between ASCII bytes");
        assert!(same_reading(text, &ours, &Template::try_from(utf8), shown), "{utf8:?}: the reading is not the Rust's");
    }
    let rust = Template::try_from(&characters(text)[..]);
    assert!(same_reading(text, &ours, &rust, characters), "{text:?}: the reading is not the Rust's");
    Ok((ours?, rust.expect("pieces are the Rust's")))
}

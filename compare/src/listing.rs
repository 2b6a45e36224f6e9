//! What the window lister prints, read from document 01 independently of it. Where the rows are few the windows are those
//! that the Rust's truncate leaves; the plain rule beside it, which gives the others, is held to them.
use std::panic::catch_unwind;
use tokenizers::bridge::MAX_ROWS;
use tokenizers::{Encoding, Token, TruncationDirection};

/// Up to so many rows the Rust cuts; it makes an encoding of each window.
const FEW: u64 = 300;

pub struct Request {
    pub rows: u64,
    pub max: u64,
    pub stride: u64,
    pub left: bool,
}

/// "Three decimal numbers of 1 to 10 digits up to 4,294,967,295"
fn number(word: &[u8]) -> Option<u64> {
    if !(1..=10).contains(&word.len()) || !word.iter().all(u8::is_ascii_digit) {
        return None;
    }
    let value: u64 = std::str::from_utf8(word).ok()?.parse().ok()?;
    (value <= 4_294_967_295).then_some(value)
}

/// What a line asks for, none of a bad one: "rows at most 65,536, single spaces".
pub fn read(line: &[u8]) -> Option<Request> {
    let words: Vec<&[u8]> = line.split(|byte| *byte == b' ').collect();
    let [rows, max, stride, side] = words[..] else { return None };
    let left = match side {
        b"L" => true,
        b"R" => false,
        _ => return None,
    };
    let request = Request { rows: number(rows)?, max: number(max)?, stride: number(stride)?, left };
    (request.rows <= MAX_ROWS as u64).then_some(request)
}

/// The first row of a window and the row after its last.
type Window = [u64; 2];

#[derive(PartialEq, Debug)]
pub enum Cut {
    Whole,
    Refused,
    /// the kept one first
    Windows(Vec<Window>),
}

/// The rule of document 01's truncate.
fn plain(q: &Request) -> Cut {
    if q.max >= q.rows {
        return Cut::Whole;
    }
    if q.max == 0 {
        return Cut::Windows(vec![[0, 0], [0, q.rows]]);
    }
    if q.stride >= q.max {
        return Cut::Refused;
    }
    let step = q.max - q.stride;
    if q.left {
        let ends = (0..).map(|i| q.rows - i * step);
        let windows = ends.map(|end| [end.saturating_sub(q.max), end]);
        return Cut::Windows(up_to(windows, |[start, _]| *start == 0));
    }
    let windows = (0..).map(|i| [i * step, q.rows.min(i * step + q.max)]);
    Cut::Windows(up_to(windows, |[_, end]| *end == q.rows))
}

/// The windows up to the first that is the last, that one too.
fn up_to(windows: impl Iterator<Item = Window>, last: impl Fn(&Window) -> bool) -> Vec<Window> {
    let mut out = vec![];
    for window in windows {
        out.push(window);
        if last(&window) {
            break;
        }
    }
    out
}

/// The Rust's cut of rows whose ids are their numbers; it panics at a stride that is refused.
fn rust(q: &Request) -> Cut {
    let whole = Encoding::from_tokens((0..q.rows as u32).map(|i| Token::new(i, String::new(), (0, 0))).collect(), 0);
    let direction = if q.left { TruncationDirection::Left } else { TruncationDirection::Right };
    let cut = catch_unwind(|| {
        let mut e = whole.clone();
        e.truncate(q.max as usize, q.stride as usize, direction);
        e
    });
    let span = |e: &Encoding| {
        let first = e.get_ids().first().map_or(0, |id| *id as u64);
        assert!(e.get_ids().iter().zip(first..).all(|(id, row)| *id as u64 == row), "a window is not a run of rows");
        [first, first + e.len() as u64]
    };
    match cut {
        Err(_) => Cut::Refused,
        Ok(e) if e == whole => Cut::Whole,
        Ok(e) => Cut::Windows(std::iter::once(&e).chain(e.get_overflowing()).map(span).collect()),
    }
}

/// The Rust's cut, which must be that of the plain rule.
pub fn rust_and_plain(q: &Request) -> Cut {
    let cut = rust(q);
    assert_eq!(plain(q), cut, "{} rows, max {}, stride {}, left {}: the plain rule is not the Rust's", q.rows, q.max, q.stride, q.left);
    cut
}

fn printed(cut: Cut) -> String {
    let windows = match cut {
        Cut::Whole => return "whole\n".to_string(),
        Cut::Refused => return "refused 3\n".to_string(),
        Cut::Windows(windows) => windows,
    };
    let mut out = format!("windows {}\n", windows.len());
    for (i, [start, end]) in windows.iter().enumerate() {
        out += &format!("{i} {start} {end}\n");
    }
    out
}

/// What is printed of a line, by the plain rule alone.
pub fn plain_answer(line: &[u8]) -> String {
    read(line).map_or("bad line\n".to_string(), |q| printed(plain(&q)))
}

/// What is printed of a line.
pub fn answer(line: &[u8]) -> String {
    match read(line) {
        Some(q) if q.rows <= FEW => printed(rust_and_plain(&q)),
        _ => plain_answer(line),
    }
}

/// The lines of an input: the last may lack its newline.
pub fn lines(input: &[u8]) -> Vec<&[u8]> {
    let mut lines: Vec<&[u8]> = input.split(|byte| *byte == b'\n').collect();
    // after a last newline, and in an empty input, no line begins
    lines.pop_if(|last| last.is_empty());
    lines
}

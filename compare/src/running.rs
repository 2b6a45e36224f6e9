//! Running a program of the repository, which is named by its path from the root of it, where `run` builds it: its input through
//! a pipe or piece by piece, and its time over a file.
use crate::bench;
use std::fs::{self, File};
use std::io::{Read, Write};
use std::os::fd::OwnedFd;
use std::os::unix::net::UnixDatagram;
use std::process::{Child, Command, Stdio};
use std::thread;
use tokenizers::rng::Rng;

/// What it prints, or how it ended if not well.
pub type Printed = Result<Vec<u8>, String>;

fn start(path: &str, input: impl Into<Stdio>) -> Child {
    Command::new(path).stdin(input).stdout(Stdio::piped()).spawn().unwrap_or_else(|e| panic!("{path}: {e}"))
}

fn printed(mut child: Child) -> Printed {
    let mut out = vec![];
    child.stdout.take().unwrap().read_to_end(&mut out).expect("its output");
    let status = child.wait().expect("its end");
    if status.success() { Ok(out) } else { Err(status.to_string()) }
}

/// Through a pipe, written piece by piece; it may read some of them at once.
pub fn through_pipe(path: &str, pieces: &[&[u8]]) -> Printed {
    let mut child = start(path, Stdio::piped());
    let mut pipe = child.stdin.take().unwrap();
    thread::scope(|s| {
        // it may end before it has read all: its output will show that
        s.spawn(move || pieces.iter().try_for_each(|piece| pipe.write_all(piece)));
        printed(child)
    })
}

/// Through a socket that keeps pieces apart, so that it reads just one at a time. None may be empty: that is the end. Nor may one
/// be longer than what the program asks for in a read: the socket throws the rest of it away.
pub fn piece_by_piece(path: &str, pieces: &[&[u8]]) -> Printed {
    let (from, to) = UnixDatagram::pair().expect("a pair of sockets");
    let child = start(path, OwnedFd::from(to));
    thread::scope(|s| {
        s.spawn(move || pieces.iter().chain([&&b""[..]]).try_for_each(|piece| from.send(piece).map(drop)));
        printed(child)
    })
}

/// An input in pieces of up to `most` bytes.
pub fn in_pieces<'a>(r: &mut Rng, mut input: &'a [u8], most: u64) -> Vec<&'a [u8]> {
    let mut out = vec![];
    while !input.is_empty() {
        let (piece, rest) = input.split_at((1 + r.below(most) as usize).min(input.len()));
        out.push(piece);
        input = rest;
    }
    out
}

/// What is read or printed, as it can be shown.
pub fn shown(bytes: &[u8]) -> String {
    let end = bytes.len().min(80);
    format!("`{}`{}", bytes[..end].escape_ascii(), if end < bytes.len() { format!(" and {} bytes more", bytes.len() - end) } else { String::new() })
}

/// Its time in ns over a file, what it prints thrown away: the middle of five runs.
pub fn time(path: &str, input: &[u8]) -> f64 {
    let file = std::env::temp_dir().join(format!("compare.{}", std::process::id()));
    fs::write(&file, input).expect("a file to read");
    let run = || {
        let input = File::open(&file).expect("the file to read");
        let status = Command::new(path).stdin(input).stdout(Stdio::null()).status();
        assert!(status.is_ok_and(|s| s.success()), "{path} ended badly");
    };
    let time = bench::few(5, run);
    fs::remove_file(&file).expect("the file is there");
    time
}

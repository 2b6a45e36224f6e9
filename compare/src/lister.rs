//! The window lister, a program of the repository: its whole output, byte for byte, beside an independent listing of the
//! same lines.
use crate::running::{self, in_pieces, shown, Printed};
use crate::tally::Tally;
use crate::{bench, listing, Program};
use tokenizers::rng::Rng;

pub const PROGRAM: Program = Program { name: "window_lister", compare, bench: times };

const PATH: &str = "target/bin/window_lister";

// ---- Comparing

/// One case for each line, and one for what is printed after all of them.
fn case(t: &mut Tally, input: &[u8], got: Printed) {
    let got = match got {
        Ok(got) => got,
        Err(end) => return t.case(false, || (format!("it ended with {end}"), shown(input))),
    };
    let mut rest = &got[..];
    for line in listing::lines(input) {
        let want = listing::answer(line);
        let (head, tail) = rest.split_at(want.len().min(rest.len()));
        t.case(head == want.as_bytes(), || (format!("it printed {}", shown(head)), format!("{}\n{want}", shown(line))));
        rest = tail;
    }
    t.case(rest.is_empty(), || (format!("after the last line it printed {}", shown(rest)), shown(input)));
}

fn at_once(t: &mut Tally, input: &[u8]) {
    case(t, input, running::through_pipe(PATH, &[input]));
}

/// With and without its last newline.
fn both_ends(t: &mut Tally, lines: &[u8]) {
    at_once(t, lines);
    at_once(t, &[lines, b"\n"].concat());
}

// ---- Lines

fn all_small() -> String {
    let mut out = String::new();
    for (rows, max) in (0..=12).flat_map(|rows| (0..=14).map(move |max| (rows, max))) {
        for stride in 0..=14 {
            out += &format!("{rows} {max} {stride} L\n{rows} {max} {stride} R\n");
        }
    }
    out
}

/// Numbers at the edges of what is read.
const EDGES: [u64; 15] =
    [0, 1, 2, 9, 10, 255, 256, 65_535, 65_536, 65_537, 4_294_967_295, 4_294_967_296, 9_999_999_999, 10_000_000_000, 99_999_999_999];

/// A number as it is written, every second time with zeros before it, up to twelve digits in all.
fn written(r: &mut Rng, number: u64) -> String {
    let digits = [0, r.below(13) as usize][r.below(2) as usize];
    format!("{number:0digits$}")
}

/// Most often a line that can be read, with numbers close to one another or at the edges.
fn random_line(r: &mut Rng) -> String {
    let near = |r: &mut Rng, x: u64| [x, x.saturating_sub(1), x + 1, x / 2, r.below(x + 1), r.below(20)][r.below(6) as usize];
    let edge = |r: &mut Rng| EDGES[r.below(EDGES.len() as u64) as usize];
    let rows = [r.below(20), r.below(65_540), edge(r)][r.below(3) as usize];
    let max = [near(r, rows), near(r, rows), edge(r)][r.below(3) as usize];
    let stride = [near(r, max), near(r, max), edge(r)][r.below(3) as usize];
    let side = ['L', 'R'][r.below(2) as usize];
    format!("{} {} {} {side}\n", written(r, rows), written(r, max), written(r, stride))
}

/// Whether a line asks for more windows than are worth comparing often.
fn asks_for_many(line: &str) -> bool {
    let request = listing::read(line.trim_end().as_bytes());
    request.is_some_and(|q| q.stride < q.max && q.max < q.rows && q.rows / (q.max - q.stride) > 1_000)
}

/// So many random lines, most of them good.
fn random_lines(r: &mut Rng, count: u64) -> Vec<u8> {
    let mut out = String::new();
    for _ in 0..count {
        let line = random_line(r);
        if !asks_for_many(&line) {
            out += &line;
        }
    }
    out.into_bytes()
}

/// What is put into a line or in the place of one of its bytes.
const DAMAGES: &[u8] = b" \t\r\n\0+-lrLRxX09.,\x0b\x7f\x80\xc2\xff";

/// Random lines, each of them with up to three bytes put in, changed, left out or doubled.
fn damaged_lines(r: &mut Rng, count: u64) -> Vec<u8> {
    let mut out = vec![];
    for _ in 0..count {
        let mut line = random_line(r).into_bytes();
        if asks_for_many(&String::from_utf8_lossy(&line)) {
            continue;
        }
        for _ in 0..1 + r.below(3) {
            let (at, byte) = (r.below(line.len() as u64) as usize, DAMAGES[r.below(DAMAGES.len() as u64) as usize]);
            match r.below(6) {
                0 | 1 => line.insert(at, byte),
                2 => line[at] = byte,
                3 => line.insert(at, line[at]),
                4 => line.truncate(at + 1),
                _ if line.len() > 1 => drop(line.remove(at)),
                _ => {}
            }
        }
        out.extend(line);
    }
    out
}

const GOOD: [&str; 5] = ["10 4 1 R", "10 10 0 L", "12 5 5 R", "65536 4294967295 1 L", "0000000010 4294967295 0000000000 R"];

/// Each good line with every byte put in at every place, or in the place of another; with each byte left out or doubled.
fn all_damages() -> Vec<u8> {
    let mut out = vec![];
    let mut add = |parts: [&[u8]; 3]| out.extend([parts.concat(), b"\n".to_vec()].concat());
    for line in GOOD.map(str::as_bytes) {
        for at in 0..=line.len() {
            (0..=255).for_each(|byte| add([&line[..at], &[byte], &line[at..]]));
        }
        for at in 0..line.len() {
            (0..=255).for_each(|byte| add([&line[..at], &[byte], &line[at + 1..]]));
            add([&line[..at], b"", &line[at + 1..]]);
            add([&line[..at], &[line[at]; 2], &line[at + 1..]]);
        }
    }
    out
}

/// Lines of every length up to 140 bytes and some far longer: one byte again and again, alone, before and after a good line.
fn long_lines() -> Vec<u8> {
    let mut out = vec![];
    let lengths = (0..=140).chain([4_095, 4_096, 65_534, 65_535, 65_536, 65_537, 131_072, 1_000_000]);
    for (length, byte) in lengths.flat_map(|n| [(n, b'0'), (n, b' '), (n, b'R'), (n, 0)]) {
        let many = vec![byte; length];
        for line in [&[][..], b"10 4 1 R"] {
            out.extend([&many[..], line, b"\n", line, &many[..], b"\n"].concat());
        }
        out.extend(b"10 4 1 R\n");
    }
    out
}

fn compare(t: &mut Tally, r: &mut Rng, count: u64) {
    // the Rust panics where a stride is refused; what it would print of that is left out
    let hook = std::panic::take_hook();
    std::panic::set_hook(Box::new(|info| if !info.to_string().contains("`stride`") { eprintln!("{info}") }));
    at_once(t, all_small().as_bytes());
    at_once(t, &all_damages());
    at_once(t, &long_lines());
    for lines in [&b""[..], b"\n\n\n", b"10 4 1 R", b"10 4 1", b"10 4 1 R\n10 4 1 R\r", b"\0", b" ", b"10 4 1 R\n\n10 4 1 L"] {
        both_ends(t, lines);
    }
    both_ends(t, &vec![b'0'; 1_000_000]);
    both_ends(t, &[&vec![b' '; 1_000_000][..], b"10 4 1 R"].concat());
    for request in ["65536 2 1", "65536 1 0", "65535 3 1", "65536 65535 65534", "65536 0 0", "65536 65536 0", "65536 32768 32767", "65537 2 1"] {
        at_once(t, format!("{request} R\n{request} L\n").as_bytes());
    }
    for request in ["65536 2 1 R", "65536 2 1 L", "65535 3 1 R", "65535 3 1 L", "65536 65535 65534 L"] {
        listing::rust_and_plain(&listing::read(request.as_bytes()).unwrap());
    }
    at_once(t, &random_lines(r, 20 * count));
    at_once(t, &damaged_lines(r, 20 * count));
    for i in 0..count / 10 {
        let input = [random_lines(r, 30), damaged_lines(r, 30), b"10 4 1 R".repeat((i % 2) as usize)].concat();
        let pieces = in_pieces(r, &input, 1 + i % 70);
        case(t, &input, running::piece_by_piece(PATH, &pieces));
        case(t, &input, running::through_pipe(PATH, &pieces));
    }
    std::panic::set_hook(hook);
}

// ---- Timing

fn times() {
    for (what, line, times) in [("20 MB of lines that print whole", "10 10 0 R\n", 2_000_000), ("20 MB of lines of three windows", "10 4 1 R\n", 2_222_222), ("65,535 windows", "65536 2 1 R\n", 1)] {
        let input = line.repeat(times);
        let ours = running::time(PATH, input.as_bytes());
        let reading = || listing::lines(input.as_bytes()).into_iter().map(listing::plain_answer).collect::<String>();
        let printed = reading().len() as f64;
        let other = bench::few(5, reading);
        let note = format!("{:.1} MB/s read, {:.1} MB/s printed; the reading runs in memory", input.len() as f64 * 1e3 / ours, printed * 1e3 / ours);
        bench::row(&format!("window_lister, {what}"), ours, "reading", other, &note);
    }
}

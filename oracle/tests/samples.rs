//! Document 01's bench samples on the Rust: where the paper and the given source could disagree, this shows it.
//! Run with `cargo test --offline` in oracle/.
use std::panic::{catch_unwind, AssertUnwindSafe};
use tokenizers::bridge::{from_batch, node_count, to_batch};
use tokenizers::encoding::probe::{ranges, sequence_range};
use tokenizers::processors::template::{probe, Piece, Template, TemplateProcessing, Tokens};
use tokenizers::*;
use TruncationDirection::{Left, Right};
use TruncationStrategy::{LongestFirst, OnlyFirst};

/// n rows with ids 0 to n - 1.
fn rows(n: usize) -> Encoding {
    Encoding::from_tokens((0..n).map(|i| Token::new(i as u32, "0,0,1".into(), (10 * i, 10 * i + 9))).collect(), 0)
}

fn span(e: &Encoding) -> String {
    e.get_ids().first().map_or("empty".into(), |first| format!("{first}-{}", *first as usize + e.len()))
}

/// The kept part and the windows as `first-end`, or `panic`.
fn cut(n: usize, max: usize, stride: usize, direction: TruncationDirection) -> String {
    let done = catch_unwind(|| {
        let mut e = rows(n);
        e.truncate(max, stride, direction);
        std::iter::once(&e).chain(e.get_overflowing()).map(span).collect::<Vec<_>>().join(" ")
    });
    done.unwrap_or("panic".into())
}

#[test]
fn truncate() {
    assert_eq!(cut(10, 4, 1, Right), "0-4 3-7 6-10");
    assert_eq!(cut(10, 4, 1, Left), "6-10 3-7 0-4");
    assert_eq!(cut(9, 4, 1, Left), "5-9 2-6 0-3");
    assert_eq!(cut(10, 4, 4, Right), "panic"); // refused with 3
    assert_eq!(cut(10, 4, 3, Right).split(' ').count(), 7);
    assert_eq!(cut(10, 0, 9, Right), "empty 0-10");
    assert_eq!(cut(10, 10, 50, Right), "0-10");
}

#[test]
fn max_0_keeps_the_former_encoding_whole() {
    let mut e = rows(10);
    e.set_sequence_id(3);
    e.set_overflowing(vec![rows(2)]);
    let before = e.clone();
    e.truncate(0, 9, Left);
    assert_eq!(e.get_overflowing()[..], [before]);
    assert!(e.is_empty() && ranges(&e).is_empty());
}

/// The two lengths, or what is refused.
fn pair(a: usize, b: usize, max_length: usize, stride: usize, strategy: TruncationStrategy) -> String {
    let params = TruncationParams { direction: Right, max_length, strategy, stride };
    match catch_unwind(AssertUnwindSafe(|| truncate_encodings(rows(a), Some(rows(b)), &params))) {
        Ok(Ok((x, y))) => format!("{} and {}", x.len(), y.unwrap().len()),
        Ok(Err(_)) => "error".into(),
        Err(_) => "panic".into(),
    }
}

#[test]
fn truncate_pair() {
    assert_eq!(pair(10, 10, 7, 0, LongestFirst), "3 and 4");
    assert_eq!(pair(10, 8, 7, 0, LongestFirst), "4 and 3");
    assert_eq!(pair(2, 10, 7, 0, LongestFirst), "2 and 5");
    assert_eq!(pair(5, 5, 1, 0, LongestFirst), "0 and 1");
    assert_eq!(pair(5, 5, 1, 1, LongestFirst), "panic"); // refused with 3
    assert_eq!(pair(2, 10, 7, 0, OnlyFirst), "error"); // refused with 5
}

fn piece(text: &str) -> String {
    match Piece::try_from(text) {
        Ok(Piece::Sequence { id, type_id }) => format!("{id:?} {type_id}"),
        Ok(Piece::SpecialToken { id, type_id }) => format!("special '{id}' {type_id}"),
        Err(_) => "unreadable".into(),
    }
}

#[test]
fn template_text() {
    for (text, want) in [("$+7", "A 7"), (":1", "special '' 1"), ("$", "A 0"), ("$a", "A 0"), ("$b", "B 0")] {
        assert_eq!(piece(text), want, "{text}");
    }
    assert_eq!((piece("$007"), piece("$5:+06")), ("A 7".into(), "A 6".into()));
    for text in ["$C", "a:b:1", "$4294967296", "$+", "$-1", "x:", "$A:", ":"] {
        assert_eq!(piece(text), "unreadable", "{text}");
    }
    let count = |text: &str| probe::pieces(&Template::try_from(text).unwrap()).len();
    assert_eq!((count(""), count("$A  $B")), (1, 3));
}

#[test]
fn lookups() {
    let mut e = rows(3);
    e.get_word_ids_mut().copy_from_slice(&[Some(1), Some(3), Some(1)]);
    assert_eq!(e.word_to_tokens(1, 0), Some((0, 1)));
    assert_eq!(sequence_range(&e, 5), 0..3);
    assert_eq!([2, 3, 4].map(|i| e.token_to_sequence(i)), [Some(0), Some(0), None]);
    let mut b = to_batch(&[rows(3)]).unwrap();
    b.nodes[5..8].copy_from_slice(&[1, 0, 2]); // only range id 1, start 0, end 2
    let e = &from_batch(&b.nodes, &b.rows)[0];
    assert_eq!((e.token_to_sequence(0), e.token_to_sequence(2)), (Some(1), None));
    assert_eq!(e.get_sequence_ids(), [Some(0); 3]);
    assert_eq!(to_batch(&[e.clone()]), Ok(b));
}

/// An encoding of one row whose text is the name.
fn named(name: &str, windows: Vec<Encoding>) -> Encoding {
    let mut e = Encoding::from_tokens(vec![Token::new(0, name.into(), (0, 1))], 0);
    e.set_overflowing(windows);
    e
}

fn join(mut a: Encoding, b: Encoding) -> Encoding {
    a.merge_with(b, false);
    a
}

fn windows(e: &Encoding) -> String {
    e.get_overflowing().iter().map(|w| w.get_tokens().concat()).collect::<Vec<_>>().join(" ")
}

#[test]
fn joins() {
    let with = |name: &str, window: &str| named(name, vec![named(window, vec![])]);
    let e = join(with("S", "s"), with("P", "p"));
    assert_eq!((windows(&e).as_str(), node_count(&e)), ("sP sp Sp", 6));
    let (s, p, q) = (with("S", "c"), with("P", "d"), with("Q", "e"));
    let left = join(join(s.clone(), p.clone()), q.clone());
    assert_eq!(windows(&left), "cPQ cPe cdQ cde SdQ Sde SPe");
    assert_eq!(windows(&join(s, join(p, q))), "cPQ cdQ cde cPe SdQ Sde SPe");
}

#[test]
fn special_table() {
    let known = Tokens::from(vec![("yes", 1)]);
    assert_eq!(probe::count_added(&Template::try_from("no yes").unwrap(), Some(&known)), 1);
    let mut builder = TemplateProcessing::builder();
    assert_eq!(probe::validate(&builder), Ok(())); // unset templates
    assert!(probe::validate(builder.try_pair("$A").unwrap()).is_err()); // 9
    // 10: an empty text is one part with an empty id, and there is no such entry
    assert!(probe::validate(TemplateProcessing::builder().try_single("").unwrap()).is_err());
}

//! validate and count_added against the Rust's builder: small tables with small templates, and every refusal beside every
//! other.
use crate::ours::{self, Templates, BEFORE, NO_FAULT};
use crate::tables::{self, faulty_tables, table_of, Table};
use crate::tally::{Line, Stored, Tally, LENT};
use crate::template_inputs::{all_faults, all_of, both, random_text, random_texts, singles, Texts, PAIR, SINGLE};
use crate::template_text::{self, Refused, MAX_BYTES, MAX_PARTS};
use crate::templates::bytes;
use crate::{bench, Operation};
use std::hint::black_box;
use tokenizers::processors::template::{probe, Template, TemplateProcessing, TemplateProcessingBuilder, Tokens};
use tokenizers::rng::Rng;

pub const VALIDATE: Operation = Operation {
    name: "validate",
    format: "24 entries members single-set pair-set single pair added refusal template part place (texts and pool as lists of bytes; template, 0 the single and 1 the pair, part and place of the first part at fault, told with 19 to 21)",
    compare: compare_validate,
    store: store_validate,
    bench: time_validate,
};

pub const COUNT_ADDED: Operation = Operation {
    name: "count_added",
    format: "25 entries members set is-pair text added refusal count part place (text and pool as lists of bytes; part and place of the first part at fault, told with 19 to 21)",
    compare: compare_count,
    store: store_count,
    bench: time_count,
};

// ---- validate

/// The Rust's builder, with a template only where one is set.
fn builder(single: Option<Template>, pair: Option<Template>, tokens: Tokens) -> TemplateProcessingBuilder {
    let mut builder = TemplateProcessing::builder();
    builder.special_tokens(tokens);
    if let Some(template) = single {
        builder.single(template);
    }
    if let Some(template) = pair {
        builder.pair(template);
    }
    builder
}

/// A refusal, and where a part is at fault its template, 0 the single and 1 the pair, its number and its place.
type Why = (u32, Option<[usize; 3]>);

/// The Rust's template, where this one of the two is set.
fn read(which: usize, set: bool, text: &[u8]) -> Result<Option<Template>, Why> {
    if !set {
        return Ok(None);
    }
    let why = |refused: Refused| (refused.number, refused.fault.map(|[part, place]| [which, part, place]));
    template_text::read(text).map(|(_, template)| Some(template)).map_err(why)
}

/// The table, then the single, then the pair, then what the Rust says.
fn refusal(templates: Templates, table: ours::Table) -> Result<(), Why> {
    let tokens = tables::tokens(table).map_err(|number| (number, None))?;
    let single = read(0, templates.single_set, templates.single)?;
    let pair = read(1, templates.pair_set, templates.pair)?;
    probe::validate(&builder(single, pair, tokens)).map_err(|e| match &e[..] {
        "Template for `pair` must use both sequences" => (9, None),
        e if e.starts_with("Missing SpecialToken(s)") => (10, None),
        e => unreachable!("an error that validate does not have: {e}"),
    })
}

/// The refusal, 0 for none, and the numbers of the fault, each `before` at first.
fn validity(templates: Templates, table: ours::Table, before: u32) -> (u32, [usize; 3]) {
    let (refusal, fault) = refusal(templates, table).err().unwrap_or((0, None));
    (refusal, fault.unwrap_or([before as usize; 3]))
}

fn validate_line(templates: Templates, table: ours::Table) -> Line {
    let (refusal, fault) = validity(templates, table, LENT);
    let line = Line::of(24).list(table.entries).list(table.members).number(templates.single_set as u32).number(templates.pair_set as u32);
    let line = line.list(&bytes(templates.single)).list(&bytes(templates.pair)).list(&bytes(table.added));
    line.answer_left(refusal, &fault.map(|n| n as u32))
}

fn case_validate(t: &mut Tally, texts: &Texts, table: &Table) {
    let (templates, table) = (texts.lent(), table.lent());
    let got = ours::validate(templates, table);
    t.case(got == validity(templates, table, BEFORE), || (format!("ours gave {got:?}"), validate_line(templates, table)));
}

const PARTS: [&str; 10] = ["$A", "$B", "$0:2", "a", "b:1", "", "ab", "::", "a:", "$C"];

fn compare_validate(t: &mut Tally, r: &mut Rng, count: u64) {
    for texts in all_faults() {
        faulty_tables().iter().for_each(|table| case_validate(t, &texts, table));
    }
    tables::all_small(&mut |table| {
        for (single, pair) in [("a", "$A $B"), ("", "$A b $B"), ("$A ab", "$A $B a:1"), ("$C", "$A $B"), ("b ba", "$A")] {
            case_validate(t, &both(single.as_bytes(), pair.as_bytes()), table);
        }
    });
    let mut few = tables::usual();
    few.added = b"ab[SEP]xy  bb".to_vec();
    few.entries = vec![0, 1, 0, 1, 1, 1, 1, 0, 2, 2, 4, 0, 0, 0, 0];
    few.members.truncate(2 * tables::MEMBER);
    for (single, pair) in all_of(&PARTS, 2).iter().flat_map(|single| all_of(&PARTS, 3).into_iter().map(move |pair| (single, pair))) {
        case_validate(t, &both(single, &pair), &few);
    }
    for _ in 0..50 * count {
        let texts = random_texts(r, 4, 20);
        let mut table = tables::random(r);
        case_validate(t, &texts, &table);
        case_validate(t, &random_texts(r, 70, 1_000), &table);
        for _ in 0..2 {
            tables::damage(r, &mut table);
            case_validate(t, &texts, &table);
        }
    }
}

/// Random short templates with a table, good or damaged, of which this holds.
fn found(r: &mut Rng, wanted: impl Fn(&Texts, &Table) -> bool) -> (Texts, Table) {
    loop {
        let (texts, mut table) = (random_texts(r, 3, 20), tables::random(r));
        if r.below(2) == 0 {
            tables::damage(r, &mut table);
        }
        let is_short = texts.single.iter().chain(&texts.pair).all(|text| text.len() < 100);
        if is_short && wanted(&texts, &table) {
            return (texts, table);
        }
    }
}

/// Both templates with a part at fault in one of them, or in both: in the single, then in the pair, for each reason.
const FAULTS: [(&str, &str); 7] = [
    ("$A  a:b:1", PAIR),
    ("x: a:b:c", "$A"),
    ("[CLS] $x:1", "$A $B ::"),
    (SINGLE, "$A $B ::"),
    ("x", "$B  $:"),
    ("", "$A $4294967296 $x:1:1"),
    ("$x:1:1", "$x:y"),
];

fn store_validate(r: &mut Rng) -> Vec<Stored> {
    let mut out = vec![];
    let mut keep = |what: &str, texts: &Texts, table: &Table| {
        let line = validate_line(texts.lent(), table.lent());
        out.push(Stored { what: format!("{what}: {}", validity(texts.lent(), table.lent(), LENT).0), line });
    };
    for (single, pair) in [(SINGLE, PAIR), ("", "$B $A"), ("x", "$A $B"), ("$A", "[CLS]"), ("$A:", "$B")] {
        keep("both set", &both(single.as_bytes(), pair.as_bytes()), &tables::usual());
        faulty_tables()[1..].iter().take(2).for_each(|table| keep("another table", &both(single.as_bytes(), pair.as_bytes()), table));
    }
    for (single, pair) in FAULTS {
        keep("a part at fault", &both(single.as_bytes(), pair.as_bytes()), &Table::default());
    }
    keep("none set", &Texts { single: None, pair: None, unset: b"$C" }, &tables::usual());
    keep("only the single set", &Texts { pair: None, ..both(b"x", b"") }, &Table::default());
    keep("a text too long", &both(&vec![b'a'; MAX_BYTES + 1], b"$C"), &tables::usual());
    keep("too many parts", &both(b"$A", &b"$B ".repeat(MAX_PARTS)), &tables::usual());
    keep("too many parts after a part at fault", &both(b"$A $C", &b"$B ".repeat(MAX_PARTS)), &tables::usual());
    for want in [0, 19, 20, 21, 9, 10, 12, 15].repeat(3) {
        let (texts, table) = found(r, |texts, table| validity(texts.lent(), table.lent(), LENT).0 == want);
        keep("random", &texts, &table);
    }
    out
}

fn time_validate() {
    let long = vec!["[SEP]:1 $A $B:1 [CLS]"; MAX_PARTS / 4].join(" ");
    for (what, single, pair, entries) in [("3 and 5 parts, 2 entries", SINGLE, PAIR, 2), ("64 and 64 parts, 64 entries", &long, &long, 64)] {
        let (table, rust) = table_of(entries);
        let texts = both(single.as_bytes(), pair.as_bytes());
        let ours = || assert_eq!(ours::validate(black_box(texts.lent()), table.lent()).0, 0);
        let build = || {
            let mut builder = TemplateProcessing::builder();
            builder.try_single(black_box(single)).unwrap().try_pair(black_box(pair)).unwrap().special_tokens(rust.clone());
            builder.build().unwrap()
        };
        let (ours, built) = bench::both(ours, build);
        bench::row(&format!("validate, {what}"), ours, "Rust", built, "texts read, templates kept, added tokens counted");
        let mut builder = TemplateProcessing::builder();
        builder.try_single(single).unwrap().try_pair(pair).unwrap().special_tokens(rust.clone());
        let alone = bench::alone(|| probe::validate(black_box(&builder)).unwrap());
        bench::row(&format!("validate, {what}"), ours, "Rust", alone, "once all is read and kept; ours reads in each call");
    }
}

// ---- count_added

/// What a template adds, by the Rust; that of one that is not set is the builder's own.
fn added(template: Option<&[u8]>, is_pair: bool, table: ours::Table) -> Result<u64, Refused> {
    let tokens = tables::tokens(table)?;
    let Some(text) = template else {
        let built = builder(None, None, tokens).build().expect("valid");
        return Ok(if is_pair { built.get_added_pair() } else { built.get_added_single() } as u64);
    };
    let (_, template) = template_text::read(text)?;
    Ok(probe::count_added(&template, Some(&tokens)) as u64)
}

/// Stands in the place of a text that is not set, and must not matter.
const UNSET: &[u8] = b"[CLS] $C";

/// The refusal, 0 for none, the count and the numbers of the fault, each `before` at first.
fn counted(text: &Option<Vec<u8>>, is_pair: bool, table: ours::Table, before: u32) -> (u32, u64, [usize; 2]) {
    match added(text.as_deref(), is_pair, table) {
        Ok(count) => (0, count, [before as usize; 2]),
        Err(refused) => (refused.number, before as u64, refused.fault_after(before)),
    }
}

fn count_line(text: &Option<Vec<u8>>, is_pair: bool, table: ours::Table) -> Line {
    let (refusal, count, [part, place]) = counted(text, is_pair, table, LENT);
    let line = Line::of(25).list(table.entries).list(table.members).number(text.is_some() as u32).number(is_pair as u32);
    let line = line.list(&bytes(text.as_deref().unwrap_or(UNSET))).list(&bytes(table.added));
    line.answer_left(refusal, &[count as u32, part as u32, place as u32])
}

fn case_count(t: &mut Tally, text: &Option<Vec<u8>>, table: &Table) {
    for is_pair in [false, true] {
        let got = ours::count_added(text.is_some(), text.as_deref().unwrap_or(UNSET), is_pair, table.lent());
        let same = got == counted(text, is_pair, table.lent(), BEFORE);
        t.case(same, || (format!("ours gave {got:?}"), count_line(text, is_pair, table.lent())));
    }
}

fn compare_count(t: &mut Tally, r: &mut Rng, count: u64) {
    for text in singles() {
        faulty_tables().iter().for_each(|table| case_count(t, &text, table));
    }
    tables::all_small(&mut |table| {
        for text in ["a", "", "a b ab", "$C", "b b $A b"] {
            case_count(t, &Some(text.as_bytes().to_vec()), table);
        }
    });
    for text in all_of(&PARTS, 4) {
        case_count(t, &Some(text), &tables::usual());
    }
    for _ in 0..50 * count {
        let text = (r.below(9) != 0).then(|| random_text(r, 6, 40));
        let mut table = tables::random(r);
        case_count(t, &text, &table);
        case_count(t, &Some(random_text(r, 66, 1_000)), &table);
        for _ in 0..2 {
            tables::damage(r, &mut table);
            case_count(t, &text, &table);
        }
    }
    // as many tokens as 64 parts of 100,000 members have
    let members = [9, 0, 1].repeat(100_000);
    let table = Table { entries: vec![0, 1, 0, 100_000, 100_000], members, added: b"a".to_vec() };
    case_count(t, &Some(vec!["a"; MAX_PARTS].join(" ").into_bytes()), &table);
}

fn store_count(r: &mut Rng) -> Vec<Stored> {
    let mut out = vec![];
    let mut keep = |text: &Option<Vec<u8>>, is_pair: bool, table: &Table| {
        let want = added(text.as_deref(), is_pair, table.lent());
        let what = want.map_or_else(|refused| format!("refused with {}", refused.number), |count| format!("{count} added"));
        out.push(Stored { what, line: count_line(text, is_pair, table.lent()) });
    };
    for (i, text) in singles().iter().enumerate().filter(|(_, text)| text.as_ref().is_none_or(|text| text.len() < 1_000)) {
        keep(text, i % 2 == 0, &tables::usual());
    }
    keep(&None, true, &tables::usual());
    faulty_tables()[1..].iter().for_each(|table| keep(&Some(b"[CLS] $A".to_vec()), false, table));
    for i in 0..14 {
        let (texts, table) = found(r, |texts, table| match added(texts.single.as_deref(), false, table.lent()) {
            Ok(count) => count > i / 2,
            Err(refused) => i > 9 && refused.number != 15,
        });
        keep(&texts.single, i % 2 == 0, &table);
    }
    out
}

fn time_count() {
    let (table, rust) = table_of(2);
    let tokens = Tokens::from(rust);
    let ours = || assert_eq!(ours::count_added(true, black_box(PAIR.as_bytes()), true, table.lent()), (0, 3, NO_FAULT));
    let (ours, rust) = bench::both(ours, || probe::count_added(&Template::try_from(black_box(PAIR)).unwrap(), Some(&tokens)));
    bench::row("count_added, 5 parts, 2 entries", ours, "Rust", rust, "the text read in each call");
    let template = Template::try_from(PAIR).unwrap();
    let alone = bench::alone(|| probe::count_added(black_box(&template), Some(&tokens)));
    bench::row("count_added, 5 parts, 2 entries", ours, "Rust", alone, "once it is read");
}

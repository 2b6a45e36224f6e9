//! The library under test: a safe function over each declaration that build.rs made from its source.
use crate::offsets::Way;
use tokenizers::bridge::{Batch, NODE};

mod bindings {
    include!(concat!(env!("OUT_DIR"), "/bindings.rs"));
}

/// What a lent number holds before a call, and must hold after it where nothing is told through it.
pub const BEFORE: u32 = 0xDEAD_BEEF;

/// A part at fault and its place, as they are where none is told.
pub const NO_FAULT: [usize; 2] = [BEFORE as usize; 2];

/// The refusal, 0 for none, and the lent numbers after the call.
pub type Answer = (u32, Vec<u32>);

/// The refusal, 0 for none. `encodings` becomes the number of top encodings, unless refused.
pub fn check_batch(nodes: &[u32], rows: &[u32], encodings: &mut usize) -> u32 {
    // SAFETY: here and below, all that is lent is lent for the call, and no contract has a requirement.
    unsafe { bindings::noddrefyr_check_batch(nodes.as_ptr(), nodes.len(), rows.as_ptr(), rows.len(), encodings) }
}

/// An operation that writes: its output, lent with BEFORE in every number, and the two counts that it tells.
#[derive(Clone, PartialEq, Eq, Debug)]
pub struct Output {
    pub refusal: u32,
    pub counts: [usize; 2],
    pub out: Batch,
}

/// What is lent to an operation that writes; it can be lent again and again.
pub struct Lent {
    out: Batch,
    counts: [usize; 2],
}

impl Lent {
    /// So many numbers for nodes and for rows.
    pub fn new(nodes: usize, rows: usize) -> Lent {
        Lent { out: Batch { nodes: vec![BEFORE; nodes], rows: vec![BEFORE; rows] }, counts: [BEFORE as usize; 2] }
    }

    fn told(mut self, call: impl FnOnce(&mut Lent) -> u32) -> Output {
        let refusal = call(&mut self);
        Output { refusal, counts: self.counts, out: self.out }
    }

    pub fn from_tokens(&mut self, tokens: &[u32], type_id: u32) -> u32 {
        let (n, r) = (&mut self.out.nodes, &mut self.out.rows);
        let counts = self.counts.as_mut_ptr();
        unsafe { bindings::noddrefyr_from_tokens(tokens.as_ptr(), tokens.len(), type_id, n.as_mut_ptr(), n.len(), r.as_mut_ptr(), r.len(), counts) }
    }

    pub fn truncate(&mut self, b: &Batch, max: u32, stride: u32, left: bool) -> u32 {
        let (bn, br, n, r) = (&b.nodes, &b.rows, &mut self.out.nodes, &mut self.out.rows);
        let counts = self.counts.as_mut_ptr();
        unsafe { bindings::noddrefyr_truncate(bn.as_ptr(), bn.len(), br.as_ptr(), br.len(), max, stride, left, n.as_mut_ptr(), n.len(), r.as_mut_ptr(), r.len(), counts) }
    }

    pub fn merge_with(&mut self, a: &Batch, b: &Batch, growing: bool) -> u32 {
        let (n, r) = (&mut self.out.nodes, &mut self.out.rows);
        let counts = self.counts.as_mut_ptr();
        unsafe {
            bindings::noddrefyr_merge_with(
                a.nodes.as_ptr(), a.nodes.len(), a.rows.as_ptr(), a.rows.len(), b.nodes.as_ptr(), b.nodes.len(), b.rows.as_ptr(), b.rows.len(),
                growing, n.as_mut_ptr(), n.len(), r.as_mut_ptr(), r.len(), counts,
            )
        }
    }

    pub fn merge(&mut self, b: &Batch, growing: bool, working: &mut Batch) -> u32 {
        let (bn, br, n, r) = (&b.nodes, &b.rows, &mut self.out.nodes, &mut self.out.rows);
        let (wn, wr) = (&mut working.nodes, &mut working.rows);
        let counts = self.counts.as_mut_ptr();
        unsafe {
            bindings::noddrefyr_merge(
                bn.as_ptr(), bn.len(), br.as_ptr(), br.len(), growing, n.as_mut_ptr(), n.len(), r.as_mut_ptr(), r.len(),
                wn.as_mut_ptr(), wn.len(), wr.as_mut_ptr(), wr.len(), counts,
            )
        }
    }

    /// A second without a length is left whole.
    pub fn cut_pair(&mut self, b: &Batch, first: u32, second: Option<u32>, stride: u32, left: bool) -> u32 {
        let (bn, br, n, r) = (&b.nodes, &b.rows, &mut self.out.nodes, &mut self.out.rows);
        let counts = self.counts.as_mut_ptr();
        // what is handed over for a length that there is not is passed over
        let (has_second, second) = (second.is_some(), second.unwrap_or(BEFORE));
        unsafe {
            bindings::noddrefyr_cut_pair(
                bn.as_ptr(), bn.len(), br.as_ptr(), br.len(), first, has_second, second, stride, left, n.as_mut_ptr(), n.len(), r.as_mut_ptr(), r.len(), counts,
            )
        }
    }

    /// The lengths of a pair and the cut to them, in turn: a caller looks at 1 itself, before it asks for lengths. Where a second is
    /// not cut its length may be left out.
    pub fn cut_in_turn(&mut self, b: &Batch, max_length: u32, stride: u32, strategy: u32, left: bool, leave_out: bool) -> u32 {
        let mut encodings = 0;
        if check_batch(&b.nodes, &b.rows, &mut encodings) != 0 || !(1..=2).contains(&encodings) {
            return 1;
        }
        let second = (encodings == 2).then(|| b.nodes[second_node(&b.nodes)]);
        let (refusal, kept) = pair_lengths(b.nodes[0], second, max_length, strategy);
        if refusal != 0 {
            return refusal;
        }
        let handed = second.is_some() && !(leave_out && kept[2] == 0);
        self.cut_pair(b, kept[1], handed.then_some(kept[3]), stride, left)
    }

    pub fn pad(&mut self, b: &Batch, length: u64, pad: Pad, added: &[u8]) -> u32 {
        let (bn, br, n, r) = (&b.nodes, &b.rows, &mut self.out.nodes, &mut self.out.rows);
        let counts = self.counts.as_mut_ptr();
        unsafe {
            bindings::noddrefyr_pad(
                bn.as_ptr(), bn.len(), br.as_ptr(), br.len(), added.as_ptr(), added.len(), length,
                pad.id, pad.type_id, pad.text_start, pad.text_length, pad.left, n.as_mut_ptr(), n.len(), r.as_mut_ptr(), r.len(), counts,
            )
        }
    }

    pub fn pad_encodings(&mut self, b: &Batch, lengths: Lengths, pad: Pad, added: &[u8]) -> u32 {
        let (bn, br, n, r) = (&b.nodes, &b.rows, &mut self.out.nodes, &mut self.out.rows);
        let counts = self.counts.as_mut_ptr();
        unsafe {
            bindings::noddrefyr_pad_encodings(
                bn.as_ptr(), bn.len(), br.as_ptr(), br.len(), added.as_ptr(), added.len(), lengths.fixed, lengths.length, lengths.multiple,
                pad.id, pad.type_id, pad.text_start, pad.text_length, pad.left, n.as_mut_ptr(), n.len(), r.as_mut_ptr(), r.len(), counts,
            )
        }
    }

    pub fn process(&mut self, b: &Batch, templates: Templates, table: Table, add_special_tokens: bool, working: &mut Batch, fault: &mut [usize; 2]) -> u32 {
        let (bn, br, n, r) = (&b.nodes, &b.rows, &mut self.out.nodes, &mut self.out.rows);
        let (single, pair, wn, wr) = (templates.single, templates.pair, &mut working.nodes, &mut working.rows);
        let Table { entries, members, added } = table;
        let counts = self.counts.as_mut_ptr();
        unsafe {
            bindings::noddrefyr_process(
                bn.as_ptr(), bn.len(), br.as_ptr(), br.len(), templates.single_set, single.as_ptr(), single.len(), templates.pair_set, pair.as_ptr(), pair.len(),
                entries.as_ptr(), entries.len(), members.as_ptr(), members.len(), added.as_ptr(), added.len(), add_special_tokens,
                n.as_mut_ptr(), n.len(), r.as_mut_ptr(), r.len(), wn.as_mut_ptr(), wn.len(), wr.as_mut_ptr(), wr.len(), counts, fault.as_mut_ptr(),
            )
        }
    }

    pub fn convert_offsets(&mut self, b: &Batch, text: &[u8], way: Way) -> u32 {
        let (bn, br, n, r) = (&b.nodes, &b.rows, &mut self.out.nodes, &mut self.out.rows);
        let counts = self.counts.as_mut_ptr();
        let call = match way {
            Way::ToChars => bindings::noddrefyr_bytes_to_chars,
            Way::ToBytes => bindings::noddrefyr_chars_to_bytes,
        };
        unsafe { call(bn.as_ptr(), bn.len(), br.as_ptr(), br.len(), text.as_ptr(), text.len(), n.as_mut_ptr(), n.len(), r.as_mut_ptr(), r.len(), counts) }
    }

    pub fn set_sequence_id(&mut self, b: &Batch, id: u32) -> u32 {
        let (bn, br, n, r) = (&b.nodes, &b.rows, &mut self.out.nodes, &mut self.out.rows);
        let counts = self.counts.as_mut_ptr();
        unsafe { bindings::noddrefyr_set_sequence_id(bn.as_ptr(), bn.len(), br.as_ptr(), br.len(), id, n.as_mut_ptr(), n.len(), r.as_mut_ptr(), r.len(), counts) }
    }
}

pub fn convert_offsets(b: &Batch, text: &[u8], way: Way, nodes: usize, rows: usize) -> Output {
    Lent::new(nodes, rows).told(|lent| lent.convert_offsets(b, text, way))
}

/// The refusal of a text of this length, of which only the first byte is there: a length above 32 bits is refused by itself.
pub fn text_of_length(length: usize, way: Way) -> u32 {
    assert!(length > u32::MAX as usize);
    let (byte, mut counts) = (0u8, [0usize; 2]);
    let (none, out) = (std::ptr::NonNull::<u32>::dangling().as_ptr(), std::ptr::NonNull::<u32>::dangling().as_ptr());
    let call = match way {
        Way::ToChars => bindings::noddrefyr_bytes_to_chars,
        Way::ToBytes => bindings::noddrefyr_chars_to_bytes,
    };
    // SAFETY: no byte of a text that is too long is read.
    unsafe { call(none, 0, none, 0, &byte, length, out, 0, out, 0, counts.as_mut_ptr()) }
}

pub fn truncate(b: &Batch, max: u32, stride: u32, left: bool, nodes: usize, rows: usize) -> Output {
    Lent::new(nodes, rows).told(|lent| lent.truncate(b, max, stride, left))
}

/// Where the node of the second encoding of a batch stands: after the first's node and all its windows.
fn second_node(nodes: &[u32]) -> usize {
    let (mut node, mut left) = (0, 1);
    while left > 0 {
        left += nodes[node + 1] as usize;
        left -= 1;
        node += NODE;
    }
    node
}

/// The second is missing, whatever is handed over as its row count, or has so many rows.
pub fn pair_lengths(first: u32, second: Option<u32>, max_length: u32, strategy: u32) -> Answer {
    let mut kept = vec![BEFORE; 4];
    let refusal = pair_lengths_into(first, second, max_length, strategy, &mut kept);
    (refusal, kept)
}

/// The same, in numbers that can be lent again and again.
pub fn pair_lengths_into(first: u32, second: Option<u32>, max_length: u32, strategy: u32, kept: &mut [u32]) -> u32 {
    assert_eq!(kept.len(), 4);
    unsafe { bindings::noddrefyr_pair_lengths(first, second.is_some(), second.unwrap_or(BEFORE), max_length, strategy, kept.as_mut_ptr()) }
}

pub fn cut_pair(b: &Batch, first: u32, second: Option<u32>, stride: u32, left: bool, nodes: usize, rows: usize) -> Output {
    Lent::new(nodes, rows).told(|lent| lent.cut_pair(b, first, second, stride, left))
}

pub fn cut_in_turn(b: &Batch, max_length: u32, stride: u32, strategy: u32, left: bool, leave_out: bool, nodes: usize, rows: usize) -> Output {
    Lent::new(nodes, rows).told(|lent| lent.cut_in_turn(b, max_length, stride, strategy, left, leave_out))
}

/// What is added in padding, and on which side.
#[derive(Clone, Copy, Debug)]
pub struct Pad {
    pub id: u32,
    pub type_id: u32,
    pub text_start: u32,
    pub text_length: u32,
    pub left: bool,
}

/// How long the encodings of a batch become.
#[derive(Clone, Copy, Debug)]
pub struct Lengths {
    pub fixed: bool,
    pub length: u64,
    pub multiple: u64,
}

/// With an added pool of so many bytes.
pub fn pad(b: &Batch, length: u64, pad: Pad, pool: usize, nodes: usize, rows: usize) -> Output {
    Lent::new(nodes, rows).told(|lent| lent.pad(b, length, pad, &vec![0; pool]))
}

pub fn pad_encodings(b: &Batch, lengths: Lengths, pad: Pad, pool: usize, nodes: usize, rows: usize) -> Output {
    Lent::new(nodes, rows).told(|lent| lent.pad_encodings(b, lengths, pad, &vec![0; pool]))
}

pub fn merge_with(a: &Batch, b: &Batch, growing: bool, nodes: usize, rows: usize) -> Output {
    Lent::new(nodes, rows).told(|lent| lent.merge_with(a, b, growing))
}

/// What an operation with a working store leaves in both.
#[derive(Clone, PartialEq, Eq, Debug)]
pub struct Folded {
    pub output: Output,
    pub working: Batch,
}

/// The fold, in an output and a working store of so many numbers.
pub fn merge(b: &Batch, growing: bool, sizes: [usize; 4]) -> Folded {
    let mut working = Batch { nodes: vec![BEFORE; sizes[2]], rows: vec![BEFORE; sizes[3]] };
    let output = Lent::new(sizes[0], sizes[1]).told(|lent| lent.merge(b, growing, &mut working));
    Folded { output, working }
}

pub fn from_tokens(tokens: &[u32], type_id: u32, nodes: usize, rows: usize) -> Output {
    Lent::new(nodes, rows).told(|lent| lent.from_tokens(tokens, type_id))
}

pub fn set_sequence_id(b: &Batch, id: u32, nodes: usize, rows: usize) -> Output {
    Lent::new(nodes, rows).told(|lent| lent.set_sequence_id(b, id))
}

/// The sequence column, in an output of so many numbers: the refusal, the number of rows, the output.
pub fn get_sequence_ids(b: &Batch, length: usize) -> (u32, usize, Vec<u32>) {
    let mut out = vec![BEFORE; length];
    let (refusal, rows) = get_sequence_ids_into(b, &mut out);
    (refusal, rows, out)
}

/// The same, in an output that can be lent again and again.
pub fn get_sequence_ids_into(b: &Batch, out: &mut [u32]) -> (u32, usize) {
    let (bn, br) = (&b.nodes, &b.rows);
    let mut rows = BEFORE as usize;
    let refusal = unsafe {
        bindings::noddrefyr_get_sequence_ids(bn.as_ptr(), bn.len(), br.as_ptr(), br.len(), out.as_mut_ptr(), out.len(), &mut rows)
    };
    (refusal, rows)
}

/// A lookup of so many lent numbers with the two slices of the batch and the options named.
macro_rules! lookup {
    ($name:ident, $call:ident, $numbers:literal, $($option:ident),*) => {
        pub fn $name(b: &Batch $(, $option: u32)*) -> Answer {
            let mut answer = vec![BEFORE; $numbers];
            let (bn, br) = (&b.nodes, &b.rows);
            let refusal = unsafe {
                bindings::$call(bn.as_ptr(), bn.len(), br.as_ptr(), br.len() $(, $option)*, answer.as_mut_ptr())
            };
            (refusal, answer)
        }
    };
}

lookup!(sequence_range, noddrefyr_sequence_range, 2, sequence_id);
lookup!(n_sequences, noddrefyr_n_sequences, 1,);
lookup!(token_to_sequence, noddrefyr_token_to_sequence, 3, token);
lookup!(word_to_tokens, noddrefyr_word_to_tokens, 3, word, sequence_id);
lookup!(word_to_chars, noddrefyr_word_to_chars, 3, word, sequence_id);
lookup!(char_to_token, noddrefyr_char_to_token, 2, place, sequence_id);
lookup!(token_to_chars, noddrefyr_token_to_chars, 5, token);
lookup!(token_to_word, noddrefyr_token_to_word, 4, token);
lookup!(char_to_word, noddrefyr_char_to_word, 2, place, sequence_id);
lookup!(span, noddrefyr_span, 3, node);
lookup!(check_profile, noddrefyr_check_profile, 3,);

pub fn text(b: &Batch, row: u32, tokens: &[u8], added: &[u8]) -> Answer {
    let mut answer = vec![BEFORE; 4];
    let (bn, br) = (&b.nodes, &b.rows);
    let refusal = unsafe {
        bindings::noddrefyr_text(bn.as_ptr(), bn.len(), br.as_ptr(), br.len(), row, tokens.as_ptr(), tokens.len(), added.as_ptr(), added.len(), answer.as_mut_ptr())
    };
    (refusal, answer)
}

/// What reading a template gives: the refusal, the number of pieces and the numbers of all that there is room for; the part at
/// fault and its place.
#[derive(Clone, PartialEq, Eq, Debug)]
pub struct Template {
    pub refusal: u32,
    pub count: usize,
    pub pieces: Vec<u32>,
    pub fault: [usize; 2],
}

/// The numbers of the pieces that a template may have.
pub const PIECES: usize = 256;

pub fn read_template(text: &[u8]) -> Template {
    let mut pieces = vec![BEFORE; PIECES];
    let (refusal, count, fault) = read_template_into(text, &mut pieces);
    Template { refusal, count, pieces, fault }
}

/// The same, in pieces that can be lent again and again.
pub fn read_template_into(text: &[u8], pieces: &mut [u32]) -> (u32, usize, [usize; 2]) {
    assert_eq!(pieces.len(), PIECES);
    let (mut count, mut fault) = (BEFORE as usize, NO_FAULT);
    let refusal = unsafe { bindings::noddrefyr_read_template(text.as_ptr(), text.len(), pieces.as_mut_ptr(), &mut count, fault.as_mut_ptr()) };
    (refusal, count, fault)
}

/// A special table with the pool of its texts.
#[derive(Clone, Copy, Debug)]
pub struct Table<'a> {
    pub entries: &'a [u32],
    pub members: &'a [u32],
    pub added: &'a [u8],
}

/// The template for one encoding and the one for a pair, each set or not.
#[derive(Clone, Copy, Debug)]
pub struct Templates<'a> {
    pub single_set: bool,
    pub single: &'a [u8],
    pub pair_set: bool,
    pub pair: &'a [u8],
}

/// The refusal, 0 for none, and the template, its part at fault and that part's place.
pub fn validate(templates: Templates, table: Table) -> (u32, [usize; 3]) {
    let (single, pair) = (templates.single, templates.pair);
    let Table { entries, members, added } = table;
    let mut fault = [BEFORE as usize; 3];
    let refusal = unsafe {
        bindings::noddrefyr_validate(
            templates.single_set, single.as_ptr(), single.len(), templates.pair_set, pair.as_ptr(), pair.len(),
            entries.as_ptr(), entries.len(), members.as_ptr(), members.len(), added.as_ptr(), added.len(), fault.as_mut_ptr(),
        )
    };
    (refusal, fault)
}

/// The refusal, 0 for none, the number of tokens that a template adds, and the part at fault and its place.
pub fn count_added(set: bool, text: &[u8], is_pair: bool, table: Table) -> (u32, u64, [usize; 2]) {
    let Table { entries, members, added } = table;
    let (mut count, mut fault) = (BEFORE as u64, NO_FAULT);
    let refusal = unsafe {
        bindings::noddrefyr_count_added(
            set, text.as_ptr(), text.len(), is_pair, entries.as_ptr(), entries.len(), members.as_ptr(), members.len(), added.as_ptr(), added.len(), &mut count,
            fault.as_mut_ptr(),
        )
    };
    (refusal, count, fault)
}

/// The refusal, 0 for none. Each total of the report grows by what the batch has of it, unless refused.
pub fn report_add(nodes: &[u32], rows: &[u32], report: &mut [u64; 6]) -> u32 {
    unsafe { bindings::noddrefyr_report_add(nodes.as_ptr(), nodes.len(), rows.as_ptr(), rows.len(), report.as_mut_ptr()) }
}

/// The refusal, always 0. `share` becomes the two numbers of the report's padding share.
pub fn report_share(report: &[u64; 6], share: &mut [u64; 2]) -> u32 {
    unsafe { bindings::noddrefyr_report_share(report.as_ptr(), share.as_mut_ptr()) }
}

/// What processing leaves in the output and the working store, and the part at fault of the template used and its place.
#[derive(Clone, PartialEq, Eq, Debug)]
pub struct Processed {
    pub folded: Folded,
    pub fault: [usize; 2],
}

/// In an output and a working store of so many numbers.
pub fn process(b: &Batch, templates: Templates, table: Table, add_special_tokens: bool, sizes: [usize; 4]) -> Processed {
    let mut working = Batch { nodes: vec![BEFORE; sizes[2]], rows: vec![BEFORE; sizes[3]] };
    let mut fault = NO_FAULT;
    let output = Lent::new(sizes[0], sizes[1]).told(|lent| lent.process(b, templates, table, add_special_tokens, &mut working, &mut fault));
    Processed { folded: Folded { output, working }, fault }
}

//! What an operation that writes must leave in its output, for every such operation.
use crate::ours::{Output, BEFORE};
use crate::tally::Line;
use tokenizers::bridge::{node_count, row_count, to_batch, Batch, MAX_LEVELS, MAX_NODES, MAX_ROWS, NODE, ROW};
use tokenizers::Encoding;

/// The levels of windows below an encoding.
fn levels(e: &Encoding) -> usize {
    e.get_overflowing().iter().map(|w| 1 + levels(w)).max().unwrap_or(0)
}

/// The nodes and rows of encodings, their windows included.
pub fn counts(encodings: &[Encoding]) -> [usize; 2] {
    [encodings.iter().map(node_count).sum(), encodings.iter().map(row_count).sum()]
}

/// Whether encodings are within the limits and have room in an output of so many numbers.
pub fn has_room(encodings: &[Encoding], nodes: usize, rows: usize) -> bool {
    let [n, r] = counts(encodings);
    n <= MAX_NODES && r <= MAX_ROWS && n * NODE <= nodes && r * ROW <= rows && encodings.iter().all(|e| levels(e) <= MAX_LEVELS)
}

/// What is left in an output of so many numbers, each `before` at first: a refusal, or the result.
pub fn output(result: Result<&[Encoding], u32>, nodes: usize, rows: usize, before: u32) -> Output {
    let mut out = Batch { nodes: vec![before; nodes], rows: vec![before; rows] };
    let refused = |refusal, out| Output { refusal, counts: [BEFORE as usize; 2], out };
    let encodings = match result {
        Err(refusal) => return refused(refusal, out),
        Ok(encodings) => encodings,
    };
    if !has_room(encodings, nodes, rows) {
        return refused(2, out);
    }
    let b = to_batch(encodings).expect("numbers of a batch");
    out.nodes[..b.nodes.len()].copy_from_slice(&b.nodes);
    out.rows[..b.rows.len()].copy_from_slice(&b.rows);
    Output { refusal: 0, counts: counts(encodings), out }
}

/// A case of an operation that writes, with its answers: the refusal, the two counts and the output as it is after the call.
pub fn stored(line: Line, want: &Output) -> Line {
    line.answer(want.refusal, &want.counts.map(|n| n as u32)).list(&want.out.nodes).list(&want.out.rows)
}

/// Outputs of just enough numbers, of some more, and of one number too few for the nodes and for the rows.
pub fn outputs(nodes: usize, rows: usize) -> [(usize, usize); 4] {
    [(nodes, rows), (nodes + 3, rows + 4), (nodes.saturating_sub(1), rows), (nodes, rows.saturating_sub(1))]
}

/// The same around the size of a result, which may pass the limits; one node and one row where there is none.
pub fn outputs_around(result: Result<&[Encoding], u32>) -> [(usize, usize); 4] {
    let [n, r] = result.map_or([1, 1], counts);
    outputs(n.min(MAX_NODES + 1) * NODE, r.min(MAX_ROWS + 1) * ROW)
}

//! Document 01's 'well-formed', read from the paper independently of the library.
use tokenizers::bridge::{MAX_LEVELS, MAX_NODES, MAX_ROWS, NODE, ROW};

/// The number of top encodings that the two slices store, or none if they are no well-formed batch.
pub fn top_encodings(nodes: &[u32], rows: &[u32]) -> Option<usize> {
    if !nodes.len().is_multiple_of(NODE) || !rows.len().is_multiple_of(ROW) {
        return None;
    }
    if nodes.len() / NODE > MAX_NODES || rows.len() / ROW > MAX_ROWS {
        return None;
    }
    let (mut nodes, mut rows) = (nodes, rows);
    let mut tops = 0;
    while !nodes.is_empty() {
        (nodes, rows) = after_encoding(nodes, rows, 0)?;
        tops += 1;
    }
    rows.is_empty().then_some(tops)
}

/// What is left of both slices after the encoding at their front, which stands `level` levels below the top.
fn after_encoding<'a>(nodes: &'a [u32], rows: &'a [u32], level: usize) -> Option<(&'a [u32], &'a [u32])> {
    let (node, mut nodes) = nodes.split_at_checked(NODE)?;
    let (own, mut rows) = rows.split_at_checked(node[0] as usize * ROW)?;
    let ranges_fine = node[2..].chunks(3).all(|r| range_fine(node[0], [r[0], r[1], r[2]]));
    if level > MAX_LEVELS || !ranges_fine || !own.chunks(ROW).all(row_fine) {
        return None;
    }
    for _ in 0..node[1] {
        (nodes, rows) = after_encoding(nodes, rows, level + 1)?;
    }
    Some((nodes, rows))
}

fn range_fine(row_count: u32, range: [u32; 3]) -> bool {
    match range {
        [0, start, end] => start == 0 && end == 0,
        [1, start, end] => start <= end && end <= row_count,
        _ => false,
    }
}

fn row_fine(row: &[u32]) -> bool {
    let (pool, word_mark, word) = (row[2], row[5], row[6]);
    pool <= 1 && (word_mark == 1 || (word_mark == 0 && word == 0))
}

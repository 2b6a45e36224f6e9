//! Between document 01's batch (two lists of u32) and the Rust's Encoding. A row's text (pool, start, length)
//! travels through the Rust as the token string "pool,start,length": the Rust only copies token strings.
use crate::encoding::probe::ranges;
use crate::{Encoding, Offsets};
use ahash::AHashMap;

pub const ROW: usize = 11;
pub const NODE: usize = 26;
pub const SEQUENCES: usize = 8;
pub const MAX_NODES: usize = 4_096;
pub const MAX_ROWS: usize = 65_536;
pub const MAX_LEVELS: usize = 16;

/// The numbers of a batch.
#[derive(Clone, Default, PartialEq, Eq, Debug)]
pub struct Batch {
    pub nodes: Vec<u32>,
    pub rows: Vec<u32>,
}

pub fn node_count(e: &Encoding) -> usize {
    1 + e.get_overflowing().iter().map(node_count).sum::<usize>()
}

pub fn row_count(e: &Encoding) -> usize {
    e.len() + e.get_overflowing().iter().map(row_count).sum::<usize>()
}

/// The Rust counts in usize, document 01 in u32: a number above that has no place in a batch.
fn number(x: usize) -> Result<u32, String> {
    u32::try_from(x).map_err(|_| format!("{x} passes u32"))
}

fn write_node(e: &Encoding, nodes: &mut Vec<u32>) -> Result<(), String> {
    let mut node = [0u32; NODE];
    node[0] = number(e.len())?;
    node[1] = number(e.get_overflowing().len())?;
    for (id, r) in ranges(e) {
        if id >= SEQUENCES {
            return Err(format!("sequence id {id} has no place"));
        }
        node[2 + 3 * id..5 + 3 * id].copy_from_slice(&[1, number(r.start)?, number(r.end)?]);
    }
    nodes.extend(node);
    Ok(())
}

fn write_rows(e: &Encoding, rows: &mut Vec<u32>) -> Result<(), String> {
    for i in 0..e.len() {
        let text: Result<Vec<u32>, _> = e.get_tokens()[i].split(',').map(str::parse).collect();
        let text = text.map_err(|_| format!("row {i} has a text that is not the bridge's"))?;
        let word = e.get_word_ids()[i];
        let (start, end) = e.get_offsets()[i];
        rows.extend([e.get_ids()[i], e.get_type_ids()[i], text[0], text[1], text[2]]);
        rows.extend([word.is_some() as u32, word.unwrap_or(0), number(start)?, number(end)?]);
        rows.extend([e.get_special_tokens_mask()[i], e.get_attention_mask()[i]]);
    }
    Ok(())
}

pub fn to_batch(encodings: &[Encoding]) -> Result<Batch, String> {
    fn go(e: &Encoding, b: &mut Batch) -> Result<(), String> {
        write_node(e, &mut b.nodes)?;
        write_rows(e, &mut b.rows)?;
        e.get_overflowing().iter().try_for_each(|w| go(w, b))
    }
    let mut b = Batch::default();
    encodings.iter().try_for_each(|e| go(e, &mut b))?;
    Ok(b)
}

/// One encoding from the front of the two slices, which move on past it.
fn read_encoding(nodes: &mut &[u32], rows: &mut &[u32]) -> Encoding {
    let (node, rest) = nodes.split_at(NODE);
    let (own, rest_rows) = rows.split_at(node[0] as usize * ROW);
    (*nodes, *rows) = (rest, rest_rows);
    let column = |c: usize| own.chunks(ROW).map(|r| r[c]).collect::<Vec<u32>>();
    let mut ranges = AHashMap::new();
    for (id, r) in node[2..].chunks(3).enumerate().filter(|(_, r)| r[0] == 1) {
        ranges.insert(id, r[1] as usize..r[2] as usize);
    }
    let texts = own.chunks(ROW).map(|r| format!("{},{},{}", r[2], r[3], r[4])).collect();
    let words = own.chunks(ROW).map(|r| (r[5] == 1).then_some(r[6])).collect();
    let offsets: Vec<Offsets> = own.chunks(ROW).map(|r| (r[7] as usize, r[8] as usize)).collect();
    let windows = (0..node[1]).map(|_| read_encoding(nodes, rows)).collect();
    Encoding::new(column(0), column(1), texts, words, offsets, column(9), column(10), windows, ranges)
}

/// The batch must be well-formed.
pub fn from_batch(nodes: &[u32], rows: &[u32]) -> Vec<Encoding> {
    let (mut nodes, mut rows) = (nodes, rows);
    let mut out = vec![];
    while !nodes.is_empty() {
        out.push(read_encoding(&mut nodes, &mut rows));
    }
    assert!(rows.is_empty(), "rows left over: the batch is not well-formed");
    out
}

//! Numbers and well-formed batches by chance, so that a run repeats from its seed.
use crate::bridge::{Batch, SEQUENCES};

/// splitmix64.
pub struct Rng(pub u64);

impl Rng {
    pub fn next(&mut self) -> u64 {
        self.0 = self.0.wrapping_add(0x9E37_79B9_7F4A_7C15);
        let mut z = self.0;
        z = (z ^ (z >> 30)).wrapping_mul(0xBF58_476D_1CE4_E5B9);
        z = (z ^ (z >> 27)).wrapping_mul(0x94D0_49BB_1331_11EB);
        z ^ (z >> 31)
    }

    /// 0 to n - 1.
    pub fn below(&mut self, n: u64) -> u64 {
        self.next() % n
    }

    /// 0 to n - 1, as a number of a batch.
    pub fn small(&mut self, n: u64) -> u32 {
        self.below(n) as u32
    }
}

/// How large an encoding made by chance may become.
#[derive(Clone, Copy)]
pub struct Size {
    /// levels of windows below it
    pub levels: u64,
    /// windows of a node
    pub windows: u64,
    /// rows of a node
    pub rows: u64,
    /// offsets are below this
    pub offset: u64,
}

/// Adds one well-formed encoding to the batch. Small numbers, so that equal words, ids and ranges are frequent.
pub fn add_encoding(r: &mut Rng, size: Size, b: &mut Batch) {
    let rows = r.small(size.rows + 1);
    let windows = if size.levels == 0 { 0 } else { r.small(size.windows + 1) };
    b.nodes.extend([rows, windows]);
    for _ in 0..SEQUENCES {
        if r.below(3) == 0 {
            let start = r.small(rows as u64 + 1);
            let end = start + r.small((rows - start) as u64 + 1);
            b.nodes.extend([1, start, end]);
        } else {
            b.nodes.extend([0, 0, 0]);
        }
    }
    for _ in 0..rows {
        let mark = (r.below(4) != 0) as u32;
        b.rows.extend([r.small(3), r.small(3), r.small(2), r.small(5), r.small(5), mark, mark * r.small(4)]);
        b.rows.extend([r.small(size.offset), r.small(size.offset), r.small(2), r.small(2)]);
    }
    for _ in 0..windows {
        add_encoding(r, Size { levels: size.levels - 1, ..size }, b);
    }
}

pub fn random_batch(r: &mut Rng, encodings: u64, size: Size) -> Batch {
    let mut b = Batch::default();
    (0..encodings).for_each(|_| add_encoding(r, size, &mut b));
    b
}

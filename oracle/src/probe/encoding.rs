
// Not part of encoding.rs: all above is that file, byte for byte; build.rs adds this after its end.
/// A child module sees its parent's private items.
#[doc(hidden)]
pub mod probe {
    use super::{Encoding, Range};
    pub fn sequence_range(e: &Encoding, id: usize) -> Range<usize> {
        e.sequence_range(id)
    }
    /// All sequence ranges of the top encoding, by id: the field is private and has no getter.
    pub fn ranges(e: &Encoding) -> Vec<(usize, Range<usize>)> {
        let mut v: Vec<_> = e.sequence_ranges.iter().map(|(k, r)| (*k, r.clone())).collect();
        v.sort_by_key(|x| x.0);
        v
    }
}

//! Stands in for crate::parallelism, whose file is not among the given ones and needs rayon. Document 01 leaves
//! parallel loops out: here they run one after another, as the original's do with TOKENIZERS_PARALLELISM=false.
pub trait MaybeParallelRefIterator<'d> {
    type Iter: Iterator;
    fn maybe_par_iter(&'d self) -> Self::Iter;
}
impl<'d, T: 'd> MaybeParallelRefIterator<'d> for [T] {
    type Iter = std::slice::Iter<'d, T>;
    fn maybe_par_iter(&'d self) -> Self::Iter {
        self.iter()
    }
}
pub trait MaybeParallelRefMutIterator<'d> {
    type Iter: Iterator;
    fn maybe_par_iter_mut(&'d mut self) -> Self::Iter;
}
impl<'d, T: 'd> MaybeParallelRefMutIterator<'d> for [T] {
    type Iter = std::slice::IterMut<'d, T>;
    fn maybe_par_iter_mut(&'d mut self) -> Self::Iter {
        self.iter_mut()
    }
}

//! The given utils/padding.rs and utils/truncation.rs once more, unchanged (the build of the oracle checks them), over encodings
//! that only count their rows and remember the length that they are padded or cut to. So the Rust's own rounding, and what it
//! keeps of a pair, can be run on lengths that no memory holds.
pub use tokenizers::parallelism;

pub mod tokenizer {
    use crate::padding::PaddingDirection;
    use crate::truncation::TruncationDirection;
    pub use tokenizers::Result;

    #[derive(Clone)]
    pub struct Encoding {
        /// of no size, so that any number of them takes no memory
        ids: Vec<()>,
        padded_to: Option<usize>,
        cut_to: Option<usize>,
    }

    impl Encoding {
        pub fn of(rows: usize) -> Encoding {
            Encoding { ids: vec![(); rows], padded_to: None, cut_to: None }
        }

        pub fn padded_to(&self) -> Option<usize> {
            self.padded_to
        }

        pub fn cut_to(&self) -> Option<usize> {
            self.cut_to
        }

        pub fn get_ids(&self) -> &[()] {
            &self.ids
        }

        pub fn pad(&mut self, target_length: usize, _id: u32, _type_id: u32, _token: &str, _direction: PaddingDirection) {
            self.padded_to = Some(target_length);
        }

        pub fn truncate(&mut self, max_len: usize, _stride: usize, _direction: TruncationDirection) {
            self.cut_to = Some(max_len);
        }
    }
}

#[path = "../../given/utils/padding.rs"]
pub mod padding;
#[path = "../../given/utils/truncation.rs"]
#[allow(unexpected_cfgs)]
pub mod truncation;

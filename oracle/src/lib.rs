//! The oracle: the given files of tokenizers 0.23.2, unchanged. build.rs checks them and puts them in OUT_DIR;
//! new here are this file, `bridge`, `parallelism`, `rng` and the probes that build.rs adds after two files' ends.
#[macro_use]
extern crate derive_builder;

pub mod bridge;
pub mod parallelism;
pub mod rng;

pub mod tokenizer {
    include!(concat!(env!("OUT_DIR"), "/tokenizer/modules.rs"));
    include!(concat!(env!("OUT_DIR"), "/tokenizer/mod.rs"));
    pub use encoding::*;
}
pub mod utils {
    include!(concat!(env!("OUT_DIR"), "/utils/modules.rs"));
}
pub mod processors {
    include!(concat!(env!("OUT_DIR"), "/processors/modules.rs"));
}
pub use tokenizer::*;

//! Makes the Rust declarations and the C header of the library's interface from the sources of the crates that export it, so
//! that neither can drift from them, and names the static library to the linker.
#[path = "interface.rs"]
mod interface;

use interface::{Function, Lengths};
use std::path::{Path, PathBuf};
use std::{env, fs};

/// The functions, after `noddrefyr_`, in the order of the header.
const ORDER: [&str; 31] = [
    "check_batch",
    "from_tokens",
    "set_sequence_id",
    "sequence_range",
    "n_sequences",
    "token_to_sequence",
    "get_sequence_ids",
    "word_to_tokens",
    "word_to_chars",
    "char_to_token",
    "token_to_chars",
    "token_to_word",
    "char_to_word",
    "text",
    "span",
    "truncate",
    "merge_with",
    "merge",
    "pair_lengths",
    "cut_pair",
    "pad",
    "pad_encodings",
    "read_template",
    "validate",
    "count_added",
    "process",
    "bytes_to_chars",
    "chars_to_bytes",
    "report_add",
    "report_share",
    "check_profile",
];

/// Where the crates stand.
const CRATES: &str = "../crates";

/// Where the lengths of arrays stand that a signature gives by name.
const LENGTHS: &str = "../crates/template_text/src/lib.rt";

/// Where the numbers of the refusals stand.
const REFUSALS: &str = "../crates/record/src/lib.rt";

/// What `compare/archive` writes.
const LIBRARY: &str = "../target/libnoddrefyr.a";

fn watched(path: &str) -> &str {
    println!("cargo:rerun-if-changed={path}");
    path
}

fn source(path: &str) -> String {
    fs::read_to_string(path).unwrap_or_else(|e| panic!("{path}: {e}"))
}

/// The sources of the crates of the C interface, which all are called `c_` and what they export.
fn sources() -> Vec<PathBuf> {
    let crates = fs::read_dir(watched(CRATES)).unwrap_or_else(|e| panic!("{CRATES}: {e}")).map(|c| c.unwrap());
    let exporting = crates.filter(|c| c.file_name().to_str().is_some_and(|name| name.starts_with("c_")));
    exporting.map(|c| c.path().join("src/lib.rt")).collect()
}

fn functions(lengths: &Lengths) -> Vec<Function> {
    let mut found = vec![];
    for path in sources() {
        let path = path.to_str().unwrap();
        found.extend(interface::read(&source(path), lengths).unwrap_or_else(|e| panic!("{path}: {e}")));
    }
    let place = |f: &Function| f.name.strip_prefix("noddrefyr_").and_then(|name| ORDER.iter().position(|n| *n == name));
    if let Some(f) = found.iter().find(|f| place(f).is_none()) {
        panic!("{} has no place in the order of the header", f.name);
    }
    found.sort_by_key(place);
    assert_eq!(found.len(), ORDER.len(), "the functions of the header and those of the crates differ");
    found
}

fn main() {
    for path in ["build.rs", "interface.rs"] {
        watched(path);
    }
    let lengths = interface::lengths(&source(LENGTHS)).unwrap_or_else(|e| panic!("{LENGTHS}: {e}"));
    let functions = functions(&lengths);
    let refusals = interface::refusals(&source(watched(REFUSALS)));
    let found = fs::canonicalize(watched(LIBRARY)).unwrap_or_else(|e| panic!("{LIBRARY}: {e}; run compare/archive"));
    println!("cargo:rustc-link-search=native={}", found.parent().unwrap().display());
    println!("cargo:rustc-link-lib=static=noddrefyr");
    let out = env::var("OUT_DIR").unwrap();
    fs::write(Path::new(&out).join("bindings.rs"), interface::bindings(&functions)).unwrap();
    fs::write(Path::new(&out).join("noddrefyr.h"), interface::header(&functions, &refusals)).unwrap();
}

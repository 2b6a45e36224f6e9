//! Checks that the files under given/ are the published ones, byte for byte, and writes what the crate compiles
//! to OUT_DIR: each given file as it is, two of them with a probe module after their end, and the parts of
//! tokenizer/mod.rs that `process` needs, cut out verbatim.
#[path = "sha256.rs"]
mod sha256;

use std::{env, fs, path::Path};

struct Given {
    path: &'static str,
    sha256: &'static str,
    /// goes after its end
    probe: Option<&'static str>,
}

#[rustfmt::skip]
const GIVEN: [Given; 5] = [
    Given { path: "tokenizer/encoding.rs", probe: Some("src/probe/encoding.rs"),
        sha256: "9159a79055fbc06c561616a76c74ef67193965c478b38b128a9f218541a63034" },
    Given { path: "tokenizer/mod.rs", probe: None,
        sha256: "e42759579341c3396a6293488cdea631f38dd8f3712872283e48aa690d7a6171" },
    Given { path: "utils/truncation.rs", probe: None,
        sha256: "9ed02697ec5ce90f98aed4309948e3a4bbb78902155765d278468a8c4e9bda92" },
    Given { path: "utils/padding.rs", probe: None,
        sha256: "2048e98c95dd1a3c0cd6ab4244ce8db38081db00440aac0604cc6712236f75ba" },
    Given { path: "processors/template.rs", probe: Some("src/probe/template.rs"),
        sha256: "91d0edc07b54490e6f32c1c807ee6466d7bf6c2559554e3ecf73520d2779b0f0" },
];

/// The modules that the crate takes from each folder. A file with inner documentation cannot be included, only named
/// as a module; a #[path] in an included file is taken from that file's own folder.
const MODULES: [(&str, &[&str]); 3] =
    [("tokenizer", &["encoding"]), ("utils", &["truncation", "padding"]), ("processors", &["template"])];

/// First and last line of each part that is cut out of tokenizer/mod.rs, and what these two lines must say.
const PARTS: [(usize, usize, &str, &str); 4] = [
    (42, 45, "pub use crate::utils::padding::{pad_encodings, PaddingDirection, PaddingParams, PaddingStrategy};", "};"),
    (51, 53, "pub type Error = Box<dyn std::error::Error + Send + Sync>;", "pub type Offsets = (usize, usize);"),
    (120, 180, "/// A `PostProcessor` has the responsibility to post process an encoded output of the `Tokenizer`.", "}"),
    (209, 219, "#[derive(Debug, Clone, PartialEq, Eq)]", "}"),
];

fn read(path: &str) -> String {
    println!("cargo:rerun-if-changed={path}");
    fs::read_to_string(path).unwrap_or_else(|e| panic!("{path}: {e}"))
}

fn parts_of_mod(text: &str) -> String {
    let lines: Vec<&str> = text.lines().collect();
    let mut out = String::new();
    for (first, last, head, tail) in PARTS {
        let part = &lines[first - 1..last];
        let same = part[0] == head && part[part.len() - 1] == tail;
        assert!(same, "tokenizer/mod.rs: lines {first} to {last} are not what they were");
        out += &part.join("\n");
        out += "\n\n";
    }
    out
}

fn main() {
    println!("cargo:rerun-if-changed=build.rs");
    println!("cargo:rerun-if-changed=sha256.rs");
    sha256::self_test();
    let out = env::var("OUT_DIR").unwrap();
    let out = Path::new(&out);
    for given in GIVEN {
        let mut text = read(&format!("given/{}", given.path));
        assert_eq!(sha256::hex(text.as_bytes()), given.sha256, "given/{} is not the published file", given.path);
        if given.path == "tokenizer/mod.rs" {
            text = parts_of_mod(&text);
        }
        text += &given.probe.map_or(String::new(), read);
        let to = out.join(given.path);
        fs::create_dir_all(to.parent().unwrap()).unwrap();
        fs::write(to, text).unwrap();
    }
    for (folder, names) in MODULES {
        let module = |m| format!("#[path = \"{m}.rs\"]\n#[allow(dead_code)]\npub mod {m};\n");
        let text: String = names.iter().map(module).collect();
        fs::write(out.join(folder).join("modules.rs"), text).unwrap();
    }
}

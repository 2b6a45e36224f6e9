//! The exported functions of Rattle sources, as Rust declarations and as a C header.
use std::collections::HashMap;

pub struct Function {
    /// the comment lines directly above it, without their `//`
    doc: Vec<String>,
    pub name: String,
    parameters: Vec<(String, Type)>,
    result: Option<Type>,
}

/// A type that crosses the interface: a number, a lent number, a lent array (a pointer to its first number), or a lent
/// slice (a pointer and then a length).
struct Type {
    number: &'static Number,
    shape: Shape,
    mutable: bool,
}

#[derive(PartialEq)]
enum Shape {
    Value,
    Reference,
    Array(usize),
    Slice,
}

struct Number {
    rust: &'static str,
    c: &'static str,
}

const NUMBERS: [Number; 5] = [
    Number { rust: "u8", c: "uint8_t" },
    Number { rust: "u32", c: "uint32_t" },
    Number { rust: "u64", c: "uint64_t" },
    Number { rust: "usize", c: "size_t" },
    Number { rust: "bool", c: "bool" },
];

/// The lengths that a signature may give by name, as `Template::PIECES`.
pub type Lengths = HashMap<String, usize>;

/// A number, a length that is known by name, or a product of such.
fn read_length(text: &str, known: &Lengths) -> Result<usize, String> {
    let one = |t: &str| t.replace('_', "").parse().ok().or_else(|| known.get(t).copied()).ok_or(format!("not a length: {t}"));
    text.split('*').map(|t| one(t.trim())).product()
}

/// The lengths that the `impl` blocks of a source declare.
pub fn lengths(source: &str) -> Result<Lengths, String> {
    let mut known = Lengths::new();
    let mut owner = "";
    for line in source.lines().map(str::trim) {
        if let Some(name) = line.strip_prefix("impl ") {
            owner = name.trim_end_matches('{').trim();
        }
        let declared = line.strip_prefix("pub const ").and_then(|t| t.trim_end_matches(';').split_once(": usize = "));
        if let Some((name, value)) = declared {
            let value = read_length(value, &known)?;
            known.insert(format!("{owner}::{name}"), value);
        }
    }
    Ok(known)
}

fn read_type(text: &str, lengths: &Lengths) -> Result<Type, String> {
    let text = text.trim();
    let behind = text.strip_prefix('&').map(|t| if t.starts_with('\'') { t.split_once(' ').map_or("", |(_, t)| t) } else { t });
    let (lent, mutable, inner) = match (behind, behind.and_then(|t| t.strip_prefix("mut "))) {
        (_, Some(inner)) => (true, true, inner.trim()),
        (Some(inner), None) => (true, false, inner.trim()),
        (None, None) => (false, false, text),
    };
    let elements = inner.strip_prefix('[').and_then(|t| t.strip_suffix(']'));
    let (element, length) = match elements.and_then(|t| t.split_once(';')) {
        Some((element, n)) => (Some(element), Some(read_length(n, lengths)?)),
        None => (elements, None),
    };
    let shape = match (lent, element, length) {
        (false, None, _) => Shape::Value,
        (true, None, _) => Shape::Reference,
        (true, Some(_), None) => Shape::Slice,
        (true, Some(_), Some(n)) => Shape::Array(n),
        (false, Some(_), _) => return Err(format!("an array cannot cross by value: {text}")),
    };
    let word = element.unwrap_or(inner).trim();
    let number = NUMBERS.iter().find(|n| n.rust == word).ok_or(format!("a type that is not known here: {text}"))?;
    Ok(Type { number, shape, mutable })
}

fn read_parameters(text: &str, lengths: &Lengths) -> Result<Vec<(String, Type)>, String> {
    let one = |p: &str| {
        let (name, t) = p.split_once(':').ok_or(format!("not a parameter: {p}"))?;
        Ok((name.trim().trim_start_matches("mut ").to_string(), read_type(t, lengths)?))
    };
    text.split(',').filter(|p| !p.trim().is_empty()).map(one).collect()
}

/// The function whose signature begins at the front of `text`, after `fn`.
fn read_signature(doc: Vec<String>, text: &str, lengths: &Lengths) -> Result<Function, String> {
    let (name, rest) = text.split_once('(').ok_or("a signature without parameters")?;
    // lifetimes say nothing of how a function is called
    let name = name.split('<').next().unwrap().trim().to_string();
    let (parameters, rest) = rest.split_once(')').ok_or(format!("{name}: parameters without an end"))?;
    // What follows is the result, a contract clause or the body.
    let result = match rest.trim_start().strip_prefix("->") {
        Some(t) => Some(read_type(t.split_whitespace().next().unwrap_or("").trim_end_matches('{'), lengths)?),
        None => None,
    };
    if result.as_ref().is_some_and(|t| t.shape != Shape::Value) {
        return Err(format!("{name}: a result must be a number"));
    }
    let parameters = read_parameters(parameters, lengths).map_err(|e| format!("{name}: {e}"))?;
    Ok(Function { doc, name, parameters, result })
}

/// Every `#[unsafe(no_mangle)] pub extern "C" fn` of the source, in its order.
pub fn read(source: &str, lengths: &Lengths) -> Result<Vec<Function>, String> {
    const HEAD: &str = "pub extern \"C\" fn ";
    let lines: Vec<&str> = source.lines().map(str::trim).collect();
    let mut functions = vec![];
    for (i, line) in lines.iter().enumerate().filter(|(_, l)| !l.starts_with("//")) {
        let Some((before, _)) = line.split_once(HEAD) else { continue };
        let attributes = lines[..i].iter().rev().take_while(|l| l.starts_with("#[")).count();
        let marked = before.contains("#[unsafe(no_mangle)]") || lines[i - attributes..i].contains(&"#[unsafe(no_mangle)]");
        if !marked {
            return Err(format!("line {}: an exported function without #[unsafe(no_mangle)]", i + 1));
        }
        let above = lines[..i - attributes].iter().rev().take_while(|l| l.starts_with("//"));
        let mut doc: Vec<String> = above.map(|l| l.trim_start_matches('/').trim_start().to_string()).collect();
        doc.reverse();
        let text: String = lines[i..].iter().map(|l| format!("{}\n", l.split("//").next().unwrap())).collect();
        let signature = text.split_once(HEAD).unwrap().1;
        functions.push(read_signature(doc, signature, lengths).map_err(|e| format!("line {}: {e}", i + 1))?);
    }
    let marks = lines.iter().filter(|l| l.starts_with("#[unsafe(no_mangle)]")).count();
    if marks != functions.len() {
        return Err(format!("{marks} functions marked #[unsafe(no_mangle)], {} understood", functions.len()));
    }
    Ok(functions)
}

fn rust_parameter((name, t): &(String, Type)) -> String {
    let pointer = if t.mutable { "*mut" } else { "*const" };
    match t.shape {
        Shape::Value => format!("{name}: {}", t.number.rust),
        Shape::Reference | Shape::Array(_) => format!("{name}: {pointer} {}", t.number.rust),
        Shape::Slice => format!("{name}: {pointer} {}, {name}_len: usize", t.number.rust),
    }
}

/// The declarations for Rust.
pub fn bindings(functions: &[Function]) -> String {
    let mut out = String::from("extern \"C\" {\n");
    for f in functions {
        let parameters: Vec<String> = f.parameters.iter().map(rust_parameter).collect();
        let result = f.result.as_ref().map_or(String::new(), |t| format!(" -> {}", t.number.rust));
        out += &format!("    pub fn {}({}){result};\n", f.name, parameters.join(", "));
    }
    out + "}\n"
}

fn c_parameter((name, t): &(String, Type)) -> String {
    let constant = if t.mutable { "" } else { "const " };
    match t.shape {
        Shape::Value => format!("{} {name}", t.number.c),
        Shape::Reference => format!("{constant}{} *{name}", t.number.c),
        Shape::Array(n) => format!("{constant}{} {name}[{n}]", t.number.c),
        Shape::Slice => format!("{constant}{} *{name}, size_t {name}_len", t.number.c),
    }
}

const HEADER_START: &str = "\
/* The C interface of noddrefyr: encodings of tokens and their windows, in proved functions. Made by
   `compare/run header` from the sources of the crates c_* and record; link target/libnoddrefyr.a, which
   `compare/archive` writes.

   A batch is lent as two slices of uint32_t, nodes and rows, each as a pointer and its length in numbers (README.md
   draws them): a node is 26 numbers, a row 11. A special table is lent as three slices: entries of 5 numbers (id start and
   length in the added texts, first member, number of ids, number of texts), members of 3 (id, text start and length in the
   added texts), and the added texts. The library keeps no pointer, allocates nothing, and takes any
   numbers whatever; it needs only that each pointer is valid for its length, not null even where the length is 0,
   and that what it may write overlaps nothing else that it is lent.

   Each function returns 0, or the number of its refusal, unless its comment says otherwise. */
#ifndef NODDREFYR_H
#define NODDREFYR_H

#include <stdbool.h>
#include <stddef.h>
#include <stdint.h>

#ifdef __cplusplus
extern \"C\" {
#endif
";
const HEADER_END: &str = "
#ifdef __cplusplus
}
#endif

#endif
";

/// The refusals and their numbers, in the order of these, from the lines `Refusal::Name => number,` of a source, and from
/// `Why::Name => number,` for the one that has several.
pub fn refusals(source: &str) -> Vec<(String, u32)> {
    let arms = source.lines().map(str::trim).filter_map(|line| {
        let named = line.strip_prefix("Refusal::").or_else(|| line.strip_prefix("Why::"))?;
        named.strip_suffix(',')?.split_once(" => ")
    });
    let mut all: Vec<_> = arms.filter_map(|(name, number)| Some((name.to_string(), number.parse().ok()?))).collect();
    all.sort_by_key(|(_, number)| *number);
    all
}

/// `NameOfARefusal` as C writes a constant.
fn c_constant(name: &str) -> String {
    let mut out = String::from("NODDREFYR");
    for letter in name.chars() {
        if letter.is_uppercase() {
            out.push('_');
        }
        out.push(letter.to_ascii_uppercase());
    }
    out
}

/// The C header.
pub fn header(functions: &[Function], refusals: &[(String, u32)]) -> String {
    let mut out = String::from(HEADER_START);
    out += "\n/* What a function returns that refuses. README.md says each in words. */\nenum noddrefyr_refusal {\n";
    for (name, number) in refusals {
        out += &format!("    {} = {number},\n", c_constant(name));
    }
    out += "};\n";
    for f in functions {
        out.push('\n');
        if !f.doc.is_empty() {
            out += &format!("/* {} */\n", f.doc.join("\n   ").replace("*/", "* /"));
        }
        let parameters: Vec<String> = f.parameters.iter().map(c_parameter).collect();
        let parameters = if parameters.is_empty() { "void".to_string() } else { parameters.join(",\n    ") };
        out += &format!("{} {}(\n    {parameters});\n", f.result.as_ref().map_or("void", |t| t.number.c), f.name);
    }
    out + HEADER_END
}

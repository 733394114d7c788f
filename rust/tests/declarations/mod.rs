//! Declarations of the library's functions and structs, read off their text: each argument or field in its order, as C
//! declares it, type and name, and last the type that a function answers.
//!
//! The names are the same in C, Rust and Rattle, by two rules. `register` is a keyword of C, and is `reg` there. A slice
//! of Rattle is a pointer of its name and a length: `length` for the register's, for another's with its name before it, as
//! `sheet_length`.
#![allow(dead_code)]

use std::collections::BTreeMap;

/// By the name of a function or struct.
pub type Declarations = BTreeMap<String, Vec<String>>;

/// From the header: `type name(type name, ..);` and `struct name { type name; .. };`
pub fn of_c(text: &str) -> Declarations {
    let text = &without_comments(text, "/*", "*/");
    let functions = functions(text).filter(|function| function.after.starts_with(';')).map(|function| {
        let answer = function.before.rsplit(['\n', ';', '}']).next().unwrap_or("").trim().to_string();
        (function.name.to_string(), parts(function.arguments, ',').map(spaced).chain([answer]).collect())
    });
    functions.chain(structs(text).map(|(name, fields)| (name, parts(fields, ';').map(spaced).collect()))).collect()
}

/// From Rust or Rattle: `fn name(name: type, ..) -> type`, or without an arrow where nothing is answered, and
/// `struct Name { pub name: type, .. }`
pub fn of_rust(text: &str) -> Declarations {
    let text = &without_comments(text, "//", "\n");
    let functions = functions(text).filter(|function| function.before.ends_with("fn ")).map(|function| {
        let answer = function.after.trim_start().strip_prefix("->").unwrap_or("void").trim_start();
        let answer = c_type(answer.split([';', '\n', ' ']).next().unwrap_or(""));
        (function.name.to_string(), parts(function.arguments, ',').flat_map(in_c).chain([answer]).collect())
    });
    let structs = structs(text).map(|(name, fields)| (name, parts(fields, ',').flat_map(in_c).collect()));
    functions.chain(structs).collect()
}

/// An argument's or a field's type and its name, as C declares it: `const uint8_t *` and `reg`.
pub fn type_and_name(declared: &str) -> (&str, &str) {
    let at = declared.rfind(|c: char| !c.is_alphanumeric() && c != '_').map_or(0, |at| at + 1);
    (declared[..at].trim(), &declared[at..])
}

// ---- From Rust to C ----

/// `name: type` as C declares it, once or, for a slice, twice.
fn in_c(declared: &str) -> Vec<String> {
    let (name, of) = declared.split_once(':').unwrap_or((declared, ""));
    let (name, of) = (name.trim().trim_start_matches("pub "), of.trim());
    let Some((lent, element)) = of.strip_suffix(']').and_then(|slice| slice.split_once('[')) else {
        return vec![joined(&c_type(of), c_name(name))];
    };
    let length = if name == "register" { "length".to_string() } else { format!("{name}_length") };
    vec![joined(&c_type(&format!("{lent}{element}")), c_name(name)), joined("size_t", &length)]
}

fn c_name(name: &str) -> &str {
    match name {
        "register" => "reg",
        other => other,
    }
}

fn c_type(of: &str) -> String {
    if let Some(lent) = of.strip_prefix("&mut ").or(of.strip_prefix("*mut ")) {
        return format!("{} *", c_type(lent));
    }
    if let Some(lent) = of.strip_prefix("*const ").or(of.strip_prefix('&')) {
        return format!("const {} *", c_type(lent));
    }
    match of {
        "void" => "void".to_string(),
        "usize" => "size_t".to_string(),
        "u8" | "u16" | "u32" | "u64" => format!("uint{}_t", &of[1..]),
        "i8" | "i16" | "i32" | "i64" => format!("int{}_t", &of[1..]),
        _ if of.starts_with(char::is_uppercase) => format!("struct necktureen_{}", of.to_lowercase()),
        _ => panic!("no C type for '{of}'"),
    }
}

fn joined(of: &str, name: &str) -> String {
    let space = if of.ends_with('*') { "" } else { " " };
    format!("{of}{space}{name}")
}

// ---- The texts ----

fn without_comments(text: &str, start: &str, end: &str) -> String {
    let mut pieces = text.split(start);
    let code = pieces.next().unwrap_or("").to_string();
    pieces.fold(code, |code, piece| code + piece.split_once(end).map_or("", |parts| parts.1))
}

fn parts(list: &str, mark: char) -> impl Iterator<Item = &str> {
    list.split(mark).map(str::trim).filter(|part| !part.is_empty())
}

/// With one space where there are more, or an end of a line.
fn spaced(text: &str) -> String {
    text.split_whitespace().collect::<Vec<_>>().join(" ")
}

/// A function's name and arguments, and what stands before and after them.
struct Function<'a> {
    before: &'a str,
    name: &'a str,
    arguments: &'a str,
    after: &'a str,
}

/// Each name with arguments in brackets.
fn functions(text: &str) -> impl Iterator<Item = Function<'_>> {
    text.match_indices("necktureen_").filter_map(|(at, _)| {
        let (before, rest) = text.split_at(at);
        let (name, rest) = rest.split_once('(')?;
        let (arguments, after) = rest.split_once(')')?;
        let is_name = name.bytes().all(|b| b.is_ascii_lowercase() || b == b'_');
        is_name.then_some(Function { before, name, arguments, after })
    })
}

/// Each struct by its name in C, with the text of its fields; one without fields is none.
fn structs(text: &str) -> impl Iterator<Item = (String, &str)> {
    text.split("struct ").skip(1).filter_map(|rest| {
        let (name, rest) = rest.split_once(" {")?;
        let (fields, _) = rest.split_once('}')?;
        let is_name = name.bytes().all(|b| b.is_ascii_alphabetic() || b == b'_');
        let is_of_c = name.starts_with("necktureen_");
        is_name.then(|| (if is_of_c { format!("struct {name}") } else { c_type(name) }, fields))
    })
}

//! What a document names is there. A reference is a link, or stands in backticks and has one of two shapes:
//! - a path, which may leave out `crates/`, alone or with names that the file declares:
//!   `journal/specs/Sound.antt: is_sound, is_head`. Words in quotes after a test's path are labels in its file. A path
//!   with a word in capitals is a pattern and names nothing.
//! - an item of a crate by its file: `register::head::Head`, and `place::locate` for one in `lib.rt` or `main.rt`.

mod text;

use std::collections::BTreeSet;
use std::path::{Path, PathBuf};
use text::{repository, text};

/// What was looked for, and what is not there.
#[derive(Default)]
struct Findings {
    looked_for: usize,
    faults: Vec<String>,
}

impl Findings {
    fn expect(&mut self, is_there: bool, place: &str, what: &str) {
        self.looked_for += 1;
        if !is_there {
            self.faults.push(format!("{place}: {what}"));
        }
    }

    fn assert_none(&self) {
        println!("{} looked for", self.looked_for);
        assert!(self.faults.is_empty(), "{} of {}:\n{}", self.faults.len(), self.looked_for, self.faults.join("\n"));
    }
}

// ---- The files ----

/// The names in a folder of the repository, without their endings; none where there is no folder.
fn names_in(folder: &str) -> BTreeSet<String> {
    let entries = std::fs::read_dir(repository().join(folder)).into_iter().flatten();
    let paths = entries.map(|entry| PathBuf::from(entry.expect("an entry").file_name()));
    paths.map(|path| path.file_stem().expect("a name").to_string_lossy().into_owned()).collect()
}

/// The README and the pages of these folders.
fn documents() -> Vec<String> {
    let pages = |folder| names_in(folder).into_iter().map(move |name| format!("{folder}/{name}.md"));
    let docs = ["docs", "docs/guide"].into_iter().flat_map(pages).filter(|page| repository().join(page).is_file());
    docs.chain(["README.md".to_string()]).collect()
}

/// A file by its path, which may leave out `crates/`.
fn found(path: &str) -> Option<String> {
    let paths = [format!("crates/{path}"), path.to_string()];
    paths.into_iter().find(|path| repository().join(path).is_file())
}

fn is_word(word: &str) -> bool {
    !word.is_empty() && word.chars().all(|c| c.is_alphanumeric() || c == '_')
}

/// A definition is its words, its name and a colon; a record may have parameters before the colon.
fn defines(line: &str, name: &str) -> bool {
    let mut words =
        line.split_whitespace().skip_while(|word| ["abbrev", "unfoldable", "pub"].contains(word)).peekable();
    let is_record = words.next_if_eq(&"record").is_some();
    words.next() == Some(name) && (is_record || words.next() == Some(":"))
}

/// An item of the code is its keyword and its name.
fn has_item(code: &str, name: &str) -> bool {
    let words: Vec<&str> = code.split(|c: char| !c.is_alphanumeric() && c != '_').collect();
    words.windows(2).any(|pair| ["fn", "struct", "enum", "const"].contains(&pair[0]) && pair[1] == name)
}

fn declares(file: &str, name: &str) -> bool {
    let contents = text(file);
    if file.ends_with(".antt") {
        return contents.lines().any(|line| defines(line, name));
    }
    has_item(&contents, name)
}

// ---- The references ----

/// What stands in backticks in a line, each with the text after it.
fn spans(line: &str) -> Vec<(&str, &str)> {
    let parts: Vec<&str> = line.split('`').collect();
    parts[1..].chunks(2).map(|pair| (pair[0], *pair.get(1).unwrap_or(&""))).collect()
}

/// Words in quotes, with commas between them, at the start of a text.
fn labels(after: &str) -> Vec<&str> {
    let Some((label, rest)) = after.trim_start_matches([' ', ',']).strip_prefix('"').and_then(|a| a.split_once('"'))
    else {
        return Vec::new();
    };
    [vec![label], labels(rest)].concat()
}

fn is_path(path: &str) -> bool {
    let endings = [".antt", ".edit", ".rt", ".rs", ".md", ".c", ".h"];
    let is_pattern = path.split('/').any(|word| is_word(word) && word == word.to_uppercase());
    path.contains('/') && !path.contains([' ', '*']) && !is_pattern && endings.iter().any(|end| path.ends_with(end))
}

fn check_path(reference: &str, after: &str, place: &str, findings: &mut Findings) {
    let (path, names) = reference.split_once(": ").unwrap_or((reference, ""));
    if !is_path(path) {
        return;
    }
    let file = found(path);
    findings.expect(file.is_some(), place, path);
    let Some(file) = file else { return };
    for name in names.split(", ").filter(|name| !name.is_empty()) {
        findings.expect(declares(&file, name), place, &format!("{path}: {name}"));
    }
    if path.starts_with("rust/tests/") {
        for label in labels(after) {
            findings.expect(text(&file).contains(&format!("\"{label}\"")), place, &format!("{path} \"{label}\""));
        }
    }
}

/// A method or a constant of a type is looked for in the type's file.
fn check_item(reference: &str, place: &str, findings: &mut Findings) {
    let parts: Vec<&str> = reference.split("::").collect();
    let is_item = parts.len() > 1 && parts.iter().all(|part| is_word(part)) && parts[0] == parts[0].to_lowercase();
    if !is_item {
        return;
    }
    let source = |name: &str| found(&format!("{}/src/{name}.rt", parts[0]));
    let (file, items) = match source(parts[1]) {
        Some(file) => (Some(file), &parts[2..]),
        None => (source("lib").or(source("main")), &parts[1..]),
    };
    let is_there = |file: String| items.iter().all(|item| declares(&file, item));
    findings.expect(file.is_some_and(is_there), place, reference);
}

/// A link within the repository leads on from the document's folder.
fn check_links(line: &str, document: &str, place: &str, findings: &mut Findings) {
    let folder = repository().join(Path::new(document).parent().expect("a folder"));
    let targets = line.split("](").skip(1).filter_map(|rest| Some(rest.split_once(')')?.0));
    for target in targets.filter(|target| !target.contains("://")) {
        findings.expect(folder.join(target).exists(), place, target);
    }
}

fn check_text(document: &str, text: &str, findings: &mut Findings) {
    for (number, line) in text.lines().enumerate() {
        let place = format!("{document}:{}", number + 1);
        check_links(line, document, &place, findings);
        for (reference, after) in spans(line) {
            check_path(reference, after, &place, findings);
            check_item(reference, &place, findings);
        }
    }
}

#[test]
fn what_the_documents_name_is_there() {
    let mut findings = Findings::default();
    for document in documents() {
        check_text(&document, &text(&document), &mut findings);
    }
    findings.assert_none();
}

/// A wrong reference of each shape is seen, and a right one is not called wrong.
#[test]
fn a_wrong_reference_is_seen() {
    let right = [
        "`calls/specs/Calls.antt: step, Done, register`, `calls/must-fail/refusal_writes.edit`",
        "`CRATE/must-fail/NAME.edit`, `register::head::Head`, `place::locate`, `register::area::Layout::AREAS`",
        "`rust/tests/damage.rs: damaged` \"day 0\", \"two F\", [README](README.md)",
    ];
    let wrong = [
        "`calls/specs/Call.antt`",
        "`call/specs/Calls.antt`",
        "`calls/specs/Calls.antt: step, steps`",
        "`calls/specs/Calls.antt: record`",
        "`calls/must-fail/refusal.edit`",
        "`register::head::Tail`",
        "`registers::head::Head`",
        "`place::find`",
        "`register::area::Layout::NONE`",
        "`rust/tests/damage.rs: undamaged`",
        "`rust/tests/damage.rs` \"day 0\", \"day 70,000\"",
        "[README](README)",
    ];
    let mut findings = Findings::default();
    check_text("right", &right.join("\n"), &mut findings);
    assert_eq!((findings.looked_for, findings.faults.len()), (13, 0), "{:?}", findings.faults);
    check_text("wrong", &wrong.join("\n"), &mut findings);
    let lines: Vec<&str> = findings.faults.iter().filter_map(|fault| fault.split(": ").next()).collect();
    assert_eq!(lines, (1..=wrong.len()).map(|line| format!("wrong:{line}")).collect::<Vec<_>>());
}

// ---- The tables ----

/// The rows of a table under a heading, each with its line and its cells.
fn rows<'a>(document: &'a str, heading: &'a str) -> impl Iterator<Item = (usize, Vec<&'a str>)> {
    let lines = document.lines().enumerate().skip_while(move |(_, line)| *line != heading).skip(1);
    let section = lines.take_while(|(_, line)| !line.starts_with("## "));
    section.filter(|(_, line)| line.starts_with("| `")).map(|(at, line)| (at + 1, line.split('|').skip(1).collect()))
}

fn names_of(cell: &str) -> Vec<&str> {
    spans(cell).into_iter().map(|span| span.0).collect()
}

/// Each edit of the table is kept in the crate of its row, and each that is kept has its place in the table.
#[test]
fn the_edits_that_must_fail_are_those_of_the_table() {
    let proofs = text("docs/PROOFS.md");
    let mut findings = Findings::default();
    let mut named = BTreeSet::new();
    for (line, cells) in rows(&proofs, "## Must-fail edits") {
        let part = names_of(cells[0])[0];
        for name in names_of(cells[1]) {
            let edit = format!("{part}/must-fail/{name}.edit");
            findings.expect(found(&edit).is_some(), &format!("docs/PROOFS.md:{line}"), &edit);
            named.insert(edit);
        }
    }
    for part in names_in("crates") {
        for name in names_in(&format!("crates/{part}/must-fail")) {
            let edit = format!("{part}/must-fail/{name}.edit");
            findings.expect(named.contains(&edit), "not in docs/PROOFS.md", &edit);
        }
    }
    findings.assert_none();
}

#[test]
fn every_crate_has_a_row() {
    let (readme, proofs) = (text("README.md"), text("docs/PROOFS.md"));
    let mut findings = Findings::default();
    for (document, heading, row) in [(&readme, "## Where things are", "crates/"), (&proofs, "## The crates", "")] {
        let named: Vec<&str> = rows(document, heading).flat_map(|(_, cells)| names_of(cells[0])).collect();
        for part in names_in("crates") {
            findings.expect(named.contains(&format!("{row}{part}").as_str()), heading, &part);
        }
    }
    findings.assert_none();
}

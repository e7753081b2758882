//! The documents against what is there: a name, a path, a link or a must-fail
//! edit that a document says and that does not exist is a fault, and so is a
//! function or an edit that docs/PROMISES.md leaves out.
//!
//! Checked are README.md, CONTRIBUTING.md and docs/, but not docs/CHANGES.md, docs/PORT.md and
//! docs/DESIGN-PASS.md, which tell what was.

pub mod markdown;
pub mod promises;
pub mod repository;

use markdown::{links, spans, unclosed, Span};
use repository::Repository;
use std::collections::BTreeSet;
use std::fmt;

#[derive(Clone, Debug, PartialEq, Eq, PartialOrd, Ord)]
pub struct Fault {
    pub file: String,
    pub line: usize,
    pub text: String,
}

impl fmt::Display for Fault {
    fn fmt(&self, f: &mut fmt::Formatter) -> fmt::Result {
        write!(f, "{}:{}: {}", self.file, self.line, self.text)
    }
}

pub(crate) fn fault(file: &str, line: usize, text: String) -> Fault {
    Fault {
        file: file.to_string(),
        line,
        text,
    }
}

/// Everything that is checked.
pub fn faults(there: &Repository) -> Vec<Fault> {
    let mut faults = names(there);
    faults.extend(crates_named(there));
    faults.extend(promises::edits_named(there));
    faults.extend(promises::functions_promised(there));
    faults.extend(promises::two_wrong_programs(there));
    faults.extend(promises::public_calls(there));
    faults.extend(edits_in_form(there));
    faults.extend(edits_explained(there));
    faults.extend(refusals_made_elsewhere(there));
    faults.sort();
    faults
}

/// The documents that are checked, by path.
pub fn documents(there: &Repository) -> Vec<(&str, &str)> {
    let checked = |path: &str| match path {
        "README.md" | "CONTRIBUTING.md" => true,
        "docs/CHANGES.md" | "docs/PORT.md" | "docs/DESIGN-PASS.md" => false,
        other => other.starts_with("docs/") && other.ends_with(".md"),
    };
    there
        .files
        .iter()
        .filter(|(path, _)| checked(path))
        .map(|(path, text)| (path.as_str(), text.as_str()))
        .collect()
}

/// Names, paths and links that are not there.
pub fn names(there: &Repository) -> Vec<Fault> {
    let mut faults = Vec::new();
    for (file, text) in documents(there) {
        for line in unclosed(text) {
            faults.push(fault(file, line, "a backtick without its pair".to_string()));
        }
        let spans = spans(text);
        for (i, span) in spans.iter().enumerate() {
            let before = i.checked_sub(1).map(|j| &spans[j]);
            if let Some(text) = missing(there, before, span) {
                faults.push(fault(file, span.line, text));
            }
        }
        for (line, target) in links(text) {
            if let Some(text) = broken(there, file, &target) {
                faults.push(fault(file, line, text));
            }
        }
    }
    faults
}

/// Folders that a path in a document may begin with.
const FOLDERS: [&str; 8] = [
    "crates/",
    "docs/",
    "include/",
    "examples/",
    "samples/",
    "bench/",
    "bindings/",
    "reference/",
];

/// Folders of every crate.
const CRATE_FOLDERS: [&str; 4] = ["src/", "specs/", "proofs/", "must-fail/"];

const FILES: [&str; 12] = [
    "md", "antt", "rt", "rs", "txt", "toml", "edit", "page", "pbm", "c", "h", "a",
];

/// What is wrong with a code span, if it says a name.
fn missing(there: &Repository, before: Option<&Span>, span: &Span) -> Option<String> {
    let text = span.text.as_str();
    let first = text.split_whitespace().next()?;
    if FOLDERS.iter().any(|folder| first.starts_with(folder)) {
        return (!there.has(first)).then(|| format!("no file or folder `{first}`"));
    }
    if let Some(folder) = CRATE_FOLDERS.iter().find(|f| first.starts_with(*f)) {
        let known = first == *folder || there.has(&format!("crates/NAME/{first}"));
        return (!known).then(|| format!("no crate has `{first}`"));
    }
    if text.contains("::") {
        return missing_item(there, text);
    }
    if let Some((module, name)) = text.split_once('.') {
        if is_module_name(module) && !name.contains(char::is_whitespace) && !FILES.contains(&name) {
            let of = before
                .filter(|b| span.follows() && there.crates.contains(&b.text))
                .map(|b| b.text.as_str());
            return missing_name(there, of, module, name);
        }
        return None;
    }
    let word = |c: char| c.is_alphanumeric() || c == '_' || c == '-';
    if text.chars().all(word) && text.starts_with(char::is_alphabetic) {
        return (!there.words.contains(text)).then(|| format!("no code has `{text}`"));
    }
    if text.contains('*') && text.chars().all(|c| word(c) || c == '*') {
        let known = there.crates.iter().any(|name| matches(text, name))
            || there.edits.iter().any(|edit| matches(text, &edit.name));
        return (!known).then(|| format!("no crate and no edit is `{text}`"));
    }
    None
}

fn is_module_name(word: &str) -> bool {
    word.starts_with(|c: char| c.is_ascii_uppercase()) && word.chars().all(|c| c.is_alphanumeric())
}

/// `crate::item`, `crate::module::item`, `crate::From<A> for B` or `Type::Case`.
fn missing_item(there: &Repository, text: &str) -> Option<String> {
    let path = match text.contains("::From<") {
        true => text,
        false => text.split(['(', ' ', '{']).next()?,
    };
    let parts: Vec<&str> = path.split("::").collect();
    if parts.iter().any(|part| part.is_empty()) || parts[0] == "crate" {
        return None;
    }
    if is_module_name(parts[0]) {
        let known = there
            .types
            .iter()
            .any(|t| t.name == parts[0] && t.members.contains(parts[1]));
        return (!known).then(|| format!("no type has `{path}`"));
    }
    if !there.crates.contains(parts[0]) {
        return Some(format!("no crate `{}`", parts[0]));
    }
    let known = there.has_item(parts[0], &parts[1..]);
    (!known).then(|| format!("crate `{}` has no `{}`", parts[0], parts[1..].join("::")))
}

/// `Module.name` or `Type.member`, of a crate where one is said.
fn missing_name(there: &Repository, of: Option<&str>, module: &str, name: &str) -> Option<String> {
    let here = |other: &str| of.is_none_or(|of| of == other);
    let in_module = there
        .modules
        .iter()
        .any(|m| here(&m.of) && m.name == module && m.names.contains(name));
    let in_type = there
        .types
        .iter()
        .any(|t| here(&t.of) && t.name == module && t.members.contains(name));
    if in_module || in_type {
        return None;
    }
    Some(match of {
        Some(of) => format!("crate `{of}` has no `{module}.{name}`"),
        None => format!("no crate has `{module}.{name}`"),
    })
}

/// What is wrong with a link's target, if it is a path.
fn broken(there: &Repository, file: &str, target: &str) -> Option<String> {
    let path = target.split('#').next().unwrap_or("");
    if path.is_empty() || path.contains("://") || path.starts_with("mailto:") {
        return None;
    }
    let mut parts: Vec<&str> = file.split('/').collect();
    parts.pop();
    for part in path.split('/') {
        match part {
            "" | "." => {}
            ".." => {
                parts.pop();
            }
            other => parts.push(other),
        }
    }
    let path = parts.join("/");
    (!there.has(&path)).then(|| format!("a link to `{path}`, which is not there"))
}

/// Whether a pattern with stars names this.
pub(crate) fn matches(pattern: &str, name: &str) -> bool {
    match pattern.split_once('*') {
        None => pattern == name,
        Some((front, rest)) => match name.strip_prefix(front) {
            None => false,
            Some(name) => (0..=name.len())
                .filter(|i| name.is_char_boundary(*i))
                .any(|i| matches(rest, &name[i..])),
        },
    }
}

/// Documents that name every crate, each by itself or by a pattern.
const MAPS: [&str; 2] = ["README.md", "docs/ARCHITECTURE.md"];

/// Crates that a map of the crates leaves out.
pub fn crates_named(there: &Repository) -> Vec<Fault> {
    let mut faults = Vec::new();
    for file in MAPS {
        let Some(text) = there.files.get(file) else {
            faults.push(fault(file, 1, "there is no such document".to_string()));
            continue;
        };
        let cut = |c: char| !(c.is_ascii_lowercase() || c.is_ascii_digit() || "_*".contains(c));
        let words: BTreeSet<&str> = text.split(cut).filter(|w| !w.starts_with('*')).collect();
        for name in &there.crates {
            if !words.iter().any(|word| matches(word, name)) {
                faults.push(fault(file, 1, format!("crate `{name}` is not named")));
            }
        }
    }
    faults
}

/// Edits of anything but code or definitions.
pub fn edits_in_form(there: &Repository) -> Vec<Fault> {
    let mut faults = Vec::new();
    for edit in &there.edits {
        let named = |(i, line): (usize, &str)| {
            line.strip_prefix("file:")
                .map(|file| (i + 1, file.trim().to_string()))
        };
        let text = &there.files[&edit.file];
        let Some((line, file)) = text.lines().enumerate().find_map(named) else {
            faults.push(fault(&edit.file, 1, "no line `file:`".to_string()));
            continue;
        };
        let place = file.starts_with("src/") || file.starts_with("specs/");
        if !place || !there.has(&format!("crates/{}/{file}", edit.of)) {
            let text = format!("`{file}` is no file of src/ or specs/");
            faults.push(fault(&edit.file, line, text));
        }
    }
    faults
}

/// Edits whose first line is not `# ` and a sentence.
pub fn edits_explained(there: &Repository) -> Vec<Fault> {
    let said = |edit: &&repository::Edit| {
        let first = there.files[&edit.file].lines().next().unwrap_or("");
        !first.strip_prefix("# ").is_some_and(is_sentence)
    };
    let unsaid = there.edits.iter().filter(said);
    unsaid
        .map(|edit| {
            let text = "the first line does not say in a sentence what it tries".to_string();
            fault(&edit.file, 1, text)
        })
        .collect()
}

/// Faults and refusals put together by code of another crate than `refusal`,
/// which has a function for each.
pub fn refusals_made_elsewhere(there: &Repository) -> Vec<Fault> {
    let is_code = |path: &str| {
        repository::in_crate(path)
            .is_some_and(|(of, file)| of != "refusal" && file.starts_with("src/"))
    };
    let code = there.files.iter().filter(|(path, _)| is_code(path));
    let made = code.flat_map(|(path, text)| {
        text.lines()
            .enumerate()
            .filter(|(_, line)| makes_refusal(repository::without_comment(line)))
            .map(move |(i, _)| {
                let text = "a refusal is made by `refusal::at_record` alone".to_string();
                fault(path, i + 1, text)
            })
    });
    made.collect()
}

fn makes_refusal(line: &str) -> bool {
    ["Refusal {", "Fault {"].iter().any(|made| {
        line.match_indices(made)
            .any(|(at, _)| !line[..at].ends_with(|c: char| c.is_alphanumeric()))
    })
}

fn is_sentence(text: &str) -> bool {
    text.starts_with(|c: char| c.is_uppercase() || c.is_ascii_digit())
        && text.ends_with('.')
        && text.split_whitespace().count() > 2
}

#[cfg(test)]
mod tests {
    use super::*;
    use std::collections::BTreeMap;
    use std::path::Path;

    fn here() -> Repository {
        let root = Path::new(env!("CARGO_MANIFEST_DIR")).join("..");
        Repository::read(&root).expect("the repository can be read")
    }

    fn none(faults: Vec<Fault>) {
        let lines: Vec<String> = faults.iter().map(Fault::to_string).collect();
        assert!(lines.is_empty(), "\n{}", lines.join("\n"));
    }

    #[test]
    fn documents_say_names_that_are_there() {
        none(names(&here()));
    }

    #[test]
    fn every_crate_is_on_the_maps() {
        none(crates_named(&here()));
    }

    #[test]
    fn edits_and_promises_name_each_other() {
        none(promises::edits_named(&here()));
    }

    #[test]
    fn functions_that_crates_share_are_promised() {
        none(promises::functions_promised(&here()));
    }

    #[test]
    fn each_promise_stops_two_wrong_programs() {
        none(promises::two_wrong_programs(&here()));
    }

    #[test]
    fn public_calls_are_listed_and_require_nothing() {
        none(promises::public_calls(&here()));
    }

    #[test]
    fn edits_are_of_code_or_definitions() {
        none(edits_in_form(&here()));
    }

    #[test]
    fn edits_say_what_they_try() {
        none(edits_explained(&here()));
    }

    #[test]
    fn refusals_are_made_in_one_place() {
        none(refusals_made_elsewhere(&here()));
    }

    // ---- the checker itself, on small texts

    pub(crate) fn small(files: &[(&str, &str)]) -> Repository {
        let own = |(path, text): &(&str, &str)| (path.to_string(), text.to_string());
        Repository::of(files.iter().map(own).collect::<BTreeMap<_, _>>())
    }

    const SOURCE: &str =
        "pub enum End {\n    Open,\n}\n\npub fn read() -> End\n{\n    End::Open\n}\n";

    fn said(text: &str) -> Vec<String> {
        let there = small(&[
            ("crates/part/src/lib.rt", SOURCE),
            (
                "crates/part/src/find.rt",
                "pub fn column() -> u8\n{\n    0\n}\n",
            ),
            (
                "crates/part/specs/Call.antt",
                "pub readPart : ℕ\npub record Demand3 : Type 0 where\n  pub refuses : ℕ\n",
            ),
            ("crates/part/must-fail/one_less.edit", "file: src/lib.rt\n"),
            ("crates/page/specs/Form.antt", "pub rows : ℕ\n"),
            ("docs/OTHER.md", ""),
            ("docs/CHANGES.md", "`part::gone`"),
            ("docs/TRIED.md", text),
        ]);
        names(&there).iter().map(Fault::to_string).collect()
    }

    #[test]
    fn names_that_are_there_pass() {
        let text = "`Call.readPart`, `part` `Call.readPart`, `Demand3.refuses`, `End.Open`,\n`part::read`, `part::End`, \
                    `part::find::column`, `End::Open`, `one_less`, `one_*`, `read`, `README.md`,\n`crates/part/specs/Call.antt`, \
                    `specs/Call.antt`, `crates/NAME/must-fail/`, `docs/`, [other](OTHER.md), [up](../docs/OTHER.md#top)";
        assert_eq!(said(text), Vec::<String>::new());
    }

    #[test]
    fn names_that_are_not_there_are_faults() {
        for (text, expected) in [
            ("`Call.gone`", "no crate has `Call.gone`"),
            ("`Gone.readPart`", "no crate has `Gone.readPart`"),
            (
                "`page` `Call.readPart`",
                "crate `page` has no `Call.readPart`",
            ),
            ("`Demand3.answers`", "no crate has `Demand3.answers`"),
            ("`part::gone`", "crate `part` has no `gone`"),
            ("`part::column`", "crate `part` has no `column`"),
            ("`gone::read`", "no crate `gone`"),
            ("`End::Shut`", "no type has `End::Shut`"),
            ("`one_more`", "no code has `one_more`"),
            ("`two_*`", "no crate and no edit is `two_*`"),
            (
                "`crates/part/specs/Gone.antt`",
                "no file or folder `crates/part/specs/Gone.antt`",
            ),
            ("`specs/Gone.antt`", "no crate has `specs/Gone.antt`"),
            (
                "[gone](GONE.md)",
                "a link to `docs/GONE.md`, which is not there",
            ),
            ("`open", "a backtick without its pair"),
        ] {
            assert_eq!(
                said(&format!("\n{text}")),
                [format!("docs/TRIED.md:2: {expected}")]
            );
        }
    }

    #[test]
    fn a_crate_that_a_map_leaves_out_is_a_fault() {
        let there = small(&[
            ("crates/part/src/lib.rt", ""),
            ("crates/tool_a/src/lib.rt", ""),
            ("README.md", "`part`, `tool_*`"),
            ("docs/ARCHITECTURE.md", "`part`"),
        ]);
        let seen: Vec<_> = crates_named(&there).iter().map(Fault::to_string).collect();
        assert_eq!(
            seen,
            ["docs/ARCHITECTURE.md:1: crate `tool_a` is not named"]
        );
    }

    #[test]
    fn edits_of_proofs_and_edits_that_say_nothing_are_faults() {
        let there = small(&[
            ("crates/a/src/lib.rt", ""),
            (
                "crates/a/must-fail/fine.edit",
                "# The end is left out.\nfile: src/lib.rt\nold: a\nnew: b\n",
            ),
            (
                "crates/a/must-fail/proof.edit",
                "# proof\nfile: proofs/A.antt\n",
            ),
        ]);
        assert_eq!(edits_in_form(&there).len(), 1);
        assert_eq!(edits_explained(&there).len(), 1);
        assert_eq!(
            edits_explained(&there)[0].file,
            "crates/a/must-fail/proof.edit"
        );
    }

    #[test]
    fn refusals_of_another_crate_are_faults() {
        let made =
            "    // Refusal {\n    let r = Refusal { reason, bit: 0 };\n    let p = PbmFault {};\n";
        let there = small(&[
            ("crates/refusal/src/lib.rt", made),
            ("crates/a/specs/A.antt", made),
            ("crates/a/src/lib.rt", made),
        ]);
        let seen: Vec<(String, usize)> = refusals_made_elsewhere(&there)
            .into_iter()
            .map(|fault| (fault.file, fault.line))
            .collect();
        assert_eq!(seen, [("crates/a/src/lib.rt".to_string(), 2)]);
    }

    #[test]
    fn patterns() {
        assert!(matches("arc_*", "arc_bw"));
        assert!(matches("*_a", "arc_a"));
        assert!(!matches("arc_*", "ark_bw"));
        assert!(!matches("arc", "arc_bw"));
    }
}

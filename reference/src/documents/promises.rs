//! docs/PROMISES.md: a row for each function that other crates use, with the
//! edits that try it; and the list of public calls.

use super::markdown::{headings, spans, spans_in, tables, Row, Span, Table};
use super::repository::{in_crate, qualified, without_comment, Function, Repository};
use super::{fault, matches, Fault};
use std::collections::{BTreeMap, BTreeSet};

pub const PROMISES: &str = "docs/PROMISES.md";
pub const DEMANDS: &str = "docs/DEMANDS.md";

/// The heading that the list of public calls stands under.
pub const PUBLIC: &str = "Public calls";

/// The calls that a user of the library makes, beside those of the crate
/// `exports`. Who adds one adds it here.
pub const CALLS: [&str; 19] = [
    "part::read_part",
    "reader::read_page",
    "reader_judge::judge_page",
    "writer::write_page",
    "words_write::words_of_bitmap",
    "words_write::words_of_lines",
    "words_read::bitmap_of_words",
    "words_read::line_of_words",
    "pbm_reader::bitmap_of_pbm",
    "pbm_writer::pbm_of_bitmap",
    "png_writer::png_of_bitmap",
    "listing::list",
    "walker::new",
    "walker::next",
    "walker::place",
    "walker::nth",
    "record_found::step_at",
    "capture_find::find_frames",
    "capture_records::records_of_frames",
];

/// Programs, and the crates that are parts of one: they promise nothing to
/// others.
fn is_program(of: &str) -> bool {
    [
        "d450",
        "list",
        "vectors",
        "run_octets",
        "system",
        "tool_*",
        "vector_*",
    ]
    .iter()
    .any(|pattern| matches(pattern, of))
}

/// A function that a cell names. Behind `crate::one` a bare `two` is of the same
/// crate and module.
fn functions_in(row: &Row, cell: &str) -> Vec<(String, String, String)> {
    let mut found = Vec::new();
    let mut held: Option<(String, String)> = None;
    for span in spans_in(row.line, cell) {
        let parts: Vec<&str> = span.text.split("::").collect();
        let (name, path) = parts.split_last().expect("a split has a part");
        match (path.split_first(), &held) {
            (Some((of, path)), _) => {
                held = Some((of.to_string(), path.join("::")));
            }
            (None, Some(_)) => {}
            (None, None) => continue,
        }
        let (of, path) = held.clone().expect("a crate is named");
        found.push((of, path, name.to_string()));
    }
    found
}

/// A row on functions, or on definitions, and what it says of wrong programs.
struct Promise {
    line: usize,
    functions: Vec<(String, String, String)>,
    /// The edits that it names: the crate and the name, which may be a pattern.
    edits: Vec<(usize, String, String)>,
    /// The functions to whose rows it refers.
    others: Vec<String>,
}

fn of_kind(table: &Table, kind: &str) -> bool {
    table.header.cells.first().is_some_and(|cell| cell == kind)
}

fn promises(there: &Repository, text: &str) -> Vec<Promise> {
    let mut promises = Vec::new();
    for table in tables(text).iter().filter(|t| of_kind(t, "function")) {
        for row in &table.rows {
            let functions = functions_in(row, &row.cells[0]);
            let last = row.cells.last().expect("a row has cells");
            let spans = spans_in(row.line, last);
            let of = functions.first().map(|(of, _, _)| of.clone());
            promises.push(Promise {
                line: row.line,
                edits: edits_in(there, of, &spans),
                others: spans
                    .iter()
                    .filter(|s| refers(s))
                    .map(|s| s.text.clone())
                    .collect(),
                functions,
            });
        }
    }
    promises
}

/// Whether a span stands behind words that refer to another row.
fn refers(span: &Span) -> bool {
    span.before.ends_with("as ") || span.before.ends_with("those of ")
}

/// The edits that spans in brackets name: `edit`, `crate` `edit` or `crate/edit`.
fn edits_in(
    there: &Repository,
    of: Option<String>,
    spans: &[Span],
) -> Vec<(usize, String, String)> {
    let mut edits = Vec::new();
    let mut named: Option<&str> = None;
    for span in spans {
        let text = span.text.as_str();
        let before = named.take();
        if span.depth == 0 || refers(span) {
            continue;
        }
        if there.crates.contains(text) {
            named = Some(text);
            continue;
        }
        if there.crates.iter().any(|name| matches(text, name)) {
            continue;
        }
        let word = |c: char| c.is_ascii_lowercase() || c.is_ascii_digit() || "_*".contains(c);
        let is_edit = |text: &str| text.contains('_') && text.chars().all(word);
        let (krate, name) = match (text.split_once('/'), before.filter(|_| span.follows())) {
            (Some((krate, name)), _) if is_edit(name) => (krate.to_string(), name),
            (Some(_), _) => continue,
            (None, Some(krate)) if is_edit(text) => (krate.to_string(), text),
            (None, None) if is_edit(text) => match &of {
                Some(of) => (of.clone(), text),
                None => continue,
            },
            _ => continue,
        };
        edits.push((span.line, krate, name.to_string()));
    }
    edits
}

/// The edits of rows and of text on guarded definitions, where the crate is that
/// of the cell in front, or the last one that the text names.
fn named_edits(there: &Repository, text: &str) -> Vec<(usize, String, String)> {
    let mut edits: Vec<_> = promises(there, text)
        .into_iter()
        .flat_map(|promise| promise.edits)
        .collect();
    for table in tables(text).iter().filter(|t| of_kind(t, "definition")) {
        for row in &table.rows {
            let crates = spans_in(row.line, &row.cells[0]);
            let of = crates
                .into_iter()
                .map(|s| s.text)
                .find(|s| there.crates.contains(s));
            let last = row.cells.last().expect("a row has cells");
            edits.extend(edits_in(there, of, &spans_in(row.line, last)));
        }
    }
    let tabled = |span: &Span| {
        let line = text.lines().nth(span.line - 1).unwrap_or("");
        line.trim_start().starts_with('|')
    };
    let mut of: Option<String> = None;
    for span in spans(text).iter().filter(|span| !tabled(span)) {
        if there.crates.contains(&span.text) {
            of = Some(span.text.clone());
        } else {
            let one = std::slice::from_ref(span);
            edits.extend(edits_in(there, of.clone(), one));
        }
    }
    edits
}

/// Edits that are named and not there, and edits that are there and not named.
pub fn edits_named(there: &Repository) -> Vec<Fault> {
    let text = there.files.get(PROMISES).map_or("", String::as_str);
    let named = named_edits(there, text);
    let mut faults = Vec::new();
    for (line, of, name) in &named {
        let known = there
            .edits
            .iter()
            .any(|edit| edit.of == *of && matches(name, &edit.name));
        if !known {
            faults.push(fault(
                PROMISES,
                *line,
                format!("crate `{of}` has no edit `{name}`"),
            ));
        }
    }
    for edit in &there.edits {
        let said = named
            .iter()
            .any(|(_, of, name)| edit.of == *of && matches(name, &edit.name));
        if !said {
            faults.push(fault(&edit.file, 1, format!("{PROMISES} does not name it")));
        }
    }
    faults
}

/// The functions that the code of other crates uses, by full name, each with a
/// crate that does.
fn used(there: &Repository) -> BTreeMap<String, String> {
    let mut used = BTreeMap::new();
    for (file, text) in &there.files {
        let Some((user, inner)) = in_crate(file) else {
            continue;
        };
        if !inner.starts_with("src/") {
            continue;
        }
        for line in text.lines().map(without_comment) {
            let cut = |c: char| !(c.is_alphanumeric() || c == '_' || c == ':');
            for path in line.split(cut) {
                let of = path.split("::").next().unwrap_or("");
                if path.contains("::") && of != user && there.crates.contains(of) {
                    used.entry(path.trim_end_matches(':').to_string())
                        .or_insert_with(|| user.to_string());
                }
            }
        }
    }
    used
}

/// Rows that name no function that is there, and functions that other crates use
/// and no row names.
pub fn functions_promised(there: &Repository) -> Vec<Fault> {
    let text = there.files.get(PROMISES).map_or("", String::as_str);
    let mut faults = Vec::new();
    let mut rows = BTreeSet::new();
    for promise in promises(there, text) {
        if promise.functions.is_empty() {
            faults.push(fault(
                PROMISES,
                promise.line,
                "the row names no function".to_string(),
            ));
        }
        for (of, path, name) in &promise.functions {
            let full = qualified(of, path, name);
            match there.function(of, path, name) {
                None => faults.push(fault(
                    PROMISES,
                    promise.line,
                    format!("no function `{full}`"),
                )),
                Some(f) if !f.public => faults.push(fault(
                    PROMISES,
                    promise.line,
                    format!("`{full}` is not public"),
                )),
                Some(_) => {}
            }
            rows.insert(full);
        }
    }
    let used = used(there);
    for function in &there.functions {
        let full = function.full();
        let Some(user) = used.get(&full).filter(|_| function.public) else {
            continue;
        };
        if !is_program(&function.of) && !rows.contains(&full) {
            let text = format!("`{full}` is used by `{user}` and has no row in {PROMISES}");
            faults.push(fault(&function.file, function.line, text));
        }
    }
    faults
}

/// Rows with fewer than two wrong programs: two edits, or one and a row that it
/// refers to.
pub fn two_wrong_programs(there: &Repository) -> Vec<Fault> {
    let text = there.files.get(PROMISES).map_or("", String::as_str);
    let promises = promises(there, text);
    let rows: BTreeSet<String> = promises
        .iter()
        .flat_map(|p| &p.functions)
        .map(|(of, path, name)| qualified(of, path, name))
        .collect();
    let mut faults = Vec::new();
    for promise in &promises {
        for other in promise.others.iter().filter(|other| !rows.contains(*other)) {
            let text = format!("refers to `{other}`, which has no row");
            faults.push(fault(PROMISES, promise.line, text));
        }
        let tried: BTreeSet<(&str, &str)> = there
            .edits
            .iter()
            .filter(|edit| {
                let named = |(_, of, name): &(usize, String, String)| {
                    edit.of == *of && matches(name, &edit.name)
                };
                promise.edits.iter().any(named)
            })
            .map(|edit| (edit.of.as_str(), edit.name.as_str()))
            .collect();
        if tried.len() >= 2 || (tried.len() == 1 && !promise.others.is_empty()) {
            continue;
        }
        let names: Vec<String> = promise
            .functions
            .iter()
            .map(|(of, path, name)| qualified(of, path, name))
            .collect();
        let text = format!("fewer than two wrong programs for `{}`", names.join("`, `"));
        faults.push(fault(PROMISES, promise.line, text));
    }
    faults
}

/// The one list of public calls: each has a row, whole, and no `requires`.
pub fn public_calls(there: &Repository) -> Vec<Fault> {
    let mut faults = Vec::new();
    let mut listed: BTreeSet<String> = BTreeSet::new();
    let mut lists = 0;
    for file in [PROMISES, DEMANDS] {
        let text = there.files.get(file).map_or("", String::as_str);
        lists += headings(text)
            .iter()
            .filter(|(_, _, title)| title == PUBLIC)
            .count();
        for table in tables(text).iter().filter(|t| t.heading == PUBLIC) {
            for row in &table.rows {
                if row.cells.len() != table.header.cells.len()
                    || row.cells.iter().any(String::is_empty)
                {
                    faults.push(fault(file, row.line, "the row is not whole".to_string()));
                }
                let defined = row.cells.last().is_some_and(|cell| {
                    spans_in(row.line, cell)
                        .iter()
                        .any(|span| span.text.contains('.'))
                });
                if !defined {
                    faults.push(fault(
                        file,
                        row.line,
                        "the row names no definition".to_string(),
                    ));
                }
                for (of, path, name) in functions_in(row, &row.cells[0]) {
                    let full = qualified(&of, &path, &name);
                    if let Some(text) = unfit(there.function(&of, &path, &name), &full) {
                        faults.push(fault(file, row.line, text));
                    }
                    listed.insert(full);
                }
            }
        }
    }
    if lists != 1 {
        let text = format!("{lists} lists headed \"{PUBLIC}\" here and in {DEMANDS}, not one");
        faults.push(fault(PROMISES, 1, text));
    }
    let exported = there
        .functions
        .iter()
        .filter(|f| f.exported)
        .map(Function::full);
    for call in CALLS.iter().map(|call| call.to_string()).chain(exported) {
        if !listed.contains(&call) {
            faults.push(fault(
                PROMISES,
                1,
                format!("public call `{call}` is not in the list"),
            ));
        }
    }
    faults
}

fn unfit(function: Option<&Function>, full: &str) -> Option<String> {
    match function {
        None => Some(format!("no function `{full}`")),
        Some(f) if !f.public => Some(format!("`{full}` is not public")),
        Some(f) if f.requires => Some(format!("`{full}` has a `requires`")),
        Some(_) => None,
    }
}

#[cfg(test)]
mod tests {
    use super::super::tests::small;
    use super::*;

    const USED: &str = "pub fn one() -> u8\n{\n    1\n}\n\npub fn two(n: u8) -> u8\n    requires { ⌜ n < 2 ⌝ }\n{\n    n\n}\n";

    fn there(promises: &str) -> Repository {
        small(&[
            ("crates/a/src/lib.rt", USED),
            ("crates/a/must-fail/one_less.edit", ""),
            ("crates/a/must-fail/one_more.edit", ""),
            (
                "crates/b/src/lib.rt",
                "use a::one;\n// a::gone\npub fn three() -> u8\n{\n    a::two(1)\n}\n",
            ),
            ("crates/b/must-fail/three_less.edit", ""),
            (
                "crates/tool_a/src/lib.rt",
                "use b::three;\npub fn four() -> u8\n{\n    3\n}\n",
            ),
            ("crates/d450/src/main.rt", "use tool_a::four;\n"),
            (PROMISES, promises),
        ])
    }

    fn shown(faults: Vec<Fault>) -> Vec<String> {
        faults.iter().map(Fault::to_string).collect()
    }

    const WHOLE: &str = "| function | promise | wrong |\n|---|---|---|\n\
        | `a::one`, `two` | p | x (`one_less`); y (`one_more`) |\n\
        | `b::three` | p | x (`three_less`); and those of `a::two` |\n";

    #[test]
    fn whole_promises_pass() {
        let there = there(WHOLE);
        assert_eq!(shown(edits_named(&there)), Vec::<String>::new());
        assert_eq!(shown(functions_promised(&there)), Vec::<String>::new());
        assert_eq!(shown(two_wrong_programs(&there)), Vec::<String>::new());
    }

    #[test]
    fn edits_may_be_named_by_crate_by_pattern_and_in_the_text() {
        let there = there(
            "| function | promise | wrong |\n|---|---|---|\n| `b::three` | p | x (`a` `one_*`) |\n\n`b`: less (`three_less`).\n",
        );
        assert_eq!(shown(edits_named(&there)), Vec::<String>::new());
        assert_eq!(shown(two_wrong_programs(&there)), Vec::<String>::new());
    }

    #[test]
    fn an_edit_that_is_not_there_and_one_that_is_not_named_are_faults() {
        let there = there("| function | promise | wrong |\n|---|---|---|\n| `a::one` | p | x (`one_less`); y (`one_gone`), z (`b/three_less`) |\n");
        assert_eq!(
            shown(edits_named(&there)),
            [
                "docs/PROMISES.md:3: crate `a` has no edit `one_gone`",
                "crates/a/must-fail/one_more.edit:1: docs/PROMISES.md does not name it",
            ]
        );
    }

    #[test]
    fn a_function_without_a_row_and_a_row_without_a_function_are_faults() {
        let there =
            there("| function | promise | wrong |\n|---|---|---|\n| `a::one`, `gone` | p | x |\n");
        assert_eq!(
            shown(functions_promised(&there)),
            [
                "docs/PROMISES.md:3: no function `a::gone`",
                "crates/a/src/lib.rt:6: `a::two` is used by `b` and has no row in docs/PROMISES.md",
                "crates/b/src/lib.rt:3: `b::three` is used by `tool_a` and has no row in docs/PROMISES.md",
            ]
        );
    }

    #[test]
    fn one_wrong_program_is_too_few() {
        let there = there(
            "| function | promise | wrong |\n|---|---|---|\n| `a::one` | p | x (`one_less`) |\n| `b::three` | p | x (`three_less`; as `a::two`) |\n",
        );
        assert_eq!(
            shown(two_wrong_programs(&there)),
            [
                "docs/PROMISES.md:3: fewer than two wrong programs for `a::one`",
                "docs/PROMISES.md:4: refers to `a::two`, which has no row",
            ]
        );
    }

    #[test]
    fn a_public_call_that_requires_something_is_a_fault() {
        let text =
            "## Public calls\n\n| call | judges | leaves | definition |\n|---|---|---|---|\n\
                    | `a::one`, `two` | n | all | `Call.one` |\n| `b::gone` | n |  | none |\n";
        let there = there(text);
        let missing = |line: &String| line.contains("is not in the list");
        let (missed, others): (Vec<_>, Vec<_>) =
            shown(public_calls(&there)).into_iter().partition(missing);
        assert_eq!(missed.len(), CALLS.len());
        assert_eq!(
            others,
            [
                "docs/PROMISES.md:5: `a::two` has a `requires`",
                "docs/PROMISES.md:6: the row is not whole",
                "docs/PROMISES.md:6: the row names no definition",
                "docs/PROMISES.md:6: no function `b::gone`",
            ]
        );
    }

    #[test]
    fn two_lists_of_public_calls_are_one_too_many() {
        let there = there("## Public calls\n\n## Public calls\n");
        assert!(shown(public_calls(&there))[0].contains("2 lists"));
    }
}

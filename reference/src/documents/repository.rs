//! What is there: the files, and the names that the crates define. It is found
//! line by line, which is enough for names; nothing here understands the
//! languages.

use std::collections::{BTreeMap, BTreeSet};
use std::fs;
use std::io;
use std::path::Path;

/// A file of definitions or laws: `specs/NAME.antt` or `proofs/NAME.antt`.
#[derive(Debug)]
pub struct Module {
    pub of: String,
    pub name: String,
    pub names: BTreeSet<String>,
}

/// A record or data type of a module, a struct or an enum of the code.
#[derive(Debug)]
pub struct Type {
    pub of: String,
    pub name: String,
    /// Its fields, or its cases.
    pub members: BTreeSet<String>,
}

/// A function of the code: `of::path::name`. A type's function has the type behind the modules, and a
/// conversion is named as its `impl` is, `From<A> for B`.
#[derive(Debug)]
pub struct Function {
    pub of: String,
    /// The modules that it stands in, joined by `::`; empty at the crate's root.
    pub path: String,
    pub name: String,
    pub public: bool,
    /// Whether it is one that C calls.
    pub exported: bool,
    pub requires: bool,
    pub file: String,
    pub line: usize,
}

impl Function {
    pub fn full(&self) -> String {
        qualified(&self.of, &self.path, &self.name)
    }
}

pub fn qualified(of: &str, path: &str, name: &str) -> String {
    match path {
        "" => format!("{of}::{name}"),
        path => format!("{of}::{path}::{name}"),
    }
}

#[derive(Debug)]
pub struct Edit {
    pub of: String,
    pub name: String,
    pub file: String,
}

#[derive(Debug, Default)]
pub struct Repository {
    /// Every file by its path, and its text; that of a file that is no text is empty.
    pub files: BTreeMap<String, String>,
    pub crates: BTreeSet<String>,
    pub modules: Vec<Module>,
    pub types: Vec<Type>,
    pub functions: Vec<Function>,
    pub edits: Vec<Edit>,
    /// Every word of the code. Comments are left out in the crates and in Rust.
    pub words: BTreeSet<String>,
}

impl Repository {
    /// The repository that stands in a folder. What is built there is left out.
    pub fn read(root: &Path) -> io::Result<Repository> {
        let mut files = BTreeMap::new();
        gather(root, "", &mut files)?;
        Ok(Repository::of(files))
    }

    pub fn of(files: BTreeMap<String, String>) -> Repository {
        let mut there = Repository::default();
        for path in files.keys() {
            if let Some((of, _)) = in_crate(path) {
                there.crates.insert(of.to_string());
                there.words.insert(of.to_string());
            }
        }
        for (path, text) in &files {
            match in_crate(path) {
                Some((of, inner)) => there.take(of, inner, path, text),
                None if !path.ends_with(".md") => {
                    there.take_all(path);
                    there.take_words(path, text);
                }
                None => {}
            }
        }
        there.files = files;
        there
    }

    fn take(&mut self, of: &str, inner: &str, path: &str, text: &str) {
        if let Some(name) = stem(inner, "must-fail/", ".edit") {
            self.words.insert(name.to_string());
            self.edits.push(Edit {
                of: of.to_string(),
                name: name.to_string(),
                file: path.to_string(),
            });
        } else if inner.ends_with(".antt") {
            self.take_module(of, inner, text);
        } else if let Some(module) = stem(inner, "src/", ".rt") {
            let module = match module {
                "lib" | "main" => String::new(),
                other => other.replace('/', "::"),
            };
            self.take_source(of, &module, path, text);
        }
    }

    fn take_module(&mut self, of: &str, inner: &str, text: &str) {
        for line in text.lines().map(uncommented) {
            let cut = |c: char| c.is_whitespace() || "(){}[];,.\"«»".contains(c);
            self.words.extend(line.split(cut).map(str::to_string));
        }
        let name = stem(inner, "specs/", ".antt").or(stem(inner, "proofs/", ".antt"));
        let Some(name) = name.filter(|name| !name.contains('/')) else {
            return;
        };
        self.words.insert(name.to_string());
        let (names, types) = declared(text);
        self.modules.push(Module {
            of: of.to_string(),
            name: name.to_string(),
            names,
        });
        self.types
            .extend(types.into_iter().map(|(name, members)| Type {
                of: of.to_string(),
                name,
                members,
            }));
    }

    fn take_source(&mut self, of: &str, path: &str, file: &str, text: &str) {
        let lines: Vec<&str> = text.lines().map(without_comment).collect();
        for line in &lines {
            let cut = |c: char| !(c.is_alphanumeric() || c == '_');
            self.words.extend(line.split(cut).map(str::to_string));
        }
        let mut owner = None;
        for (i, line) in lines.iter().enumerate() {
            if !line.starts_with(' ') && !line.is_empty() {
                owner = type_of_impl(line);
            }
            let inner = line.strip_prefix("    ").filter(|_| owner.is_some());
            let path = match owner {
                Some(name) if path.is_empty() || is_of_root(&lines, name) => name.to_string(),
                Some(name) => format!("{path}::{name}"),
                None => path.to_string(),
            };
            let head = inner.unwrap_or(line);
            if let Some(name) = function_name(head).or(conversion(line)) {
                self.functions.push(Function {
                    of: of.to_string(),
                    path,
                    name: name.to_string(),
                    public: head.starts_with("pub ") || conversion(line).is_some(),
                    exported: line.contains("extern \"C\""),
                    requires: has_requires(&lines[i..]),
                    file: file.to_string(),
                    line: i + 1,
                });
                let of_type = |t: &&mut Type| t.of == of && Some(t.name.as_str()) == owner;
                if let Some(owned) = self.types.iter_mut().find(of_type) {
                    owned.members.insert(name.to_string());
                }
            } else if let Some((name, members)) = type_at(&lines[i..]) {
                self.types.push(Type {
                    of: of.to_string(),
                    name,
                    members,
                });
            }
        }
    }

    /// The words of a file outside the crates. A Rust file's comments are no code.
    fn take_words(&mut self, path: &str, text: &str) {
        if path.ends_with(".rs") {
            for line in text.lines().map(without_comment) {
                self.take_all(line);
            }
        } else {
            self.take_all(text);
        }
    }

    fn take_all(&mut self, text: &str) {
        let cut = |c: char| !(c.is_alphanumeric() || c == '_' || c == '-');
        self.words.extend(text.split(cut).map(str::to_string));
        let cut = |c: char| !(c.is_alphanumeric() || c == '_');
        self.words.extend(text.split(cut).map(str::to_string));
    }

    /// Whether a file or a folder is there. A part in capitals, as NAME, stands
    /// for any.
    pub fn has(&self, path: &str) -> bool {
        let wanted: Vec<&str> = path.trim_end_matches('/').split('/').collect();
        let any = |part: &str| !part.is_empty() && part.chars().all(|c| c.is_ascii_uppercase());
        self.files.keys().any(|file| {
            let parts: Vec<&str> = file.split('/').collect();
            parts.len() >= wanted.len()
                && wanted
                    .iter()
                    .zip(&parts)
                    .all(|(w, p)| w == p || any(w) || any(stem(w, "", ".antt").unwrap_or("")))
        })
    }

    /// The functions of a crate by the rest of a path, as `find::column`.
    pub fn function(&self, of: &str, path: &str, name: &str) -> Option<&Function> {
        self.functions
            .iter()
            .find(|f| f.of == of && f.path == path && f.name == name)
    }

    /// Whether `crate::..` names a function, a type, a case of one or a module.
    pub fn has_item(&self, of: &str, parts: &[&str]) -> bool {
        let Some((last, path)) = parts.split_last() else {
            return false;
        };
        let path_is = |path: &[&str]| {
            path.is_empty() || self.has(&format!("crates/{of}/src/{}.rt", path.join("/")))
        };
        let is_type = |name: &str| self.types.iter().any(|t| t.of == of && t.name == name);
        let case_of = |name: &str| {
            self.types
                .iter()
                .any(|t| t.of == of && t.name == name && t.members.contains(*last))
        };
        self.function(of, &path.join("::"), last).is_some()
            || (path_is(path) && is_type(last))
            || path_is(parts)
            || path.last().is_some_and(|name| case_of(name))
    }

    pub fn is_edit(&self, of: &str, name: &str) -> bool {
        self.edits.iter().any(|e| e.of == of && e.name == name)
    }
}

/// Reads the files under a folder, but for what is built or is git's.
fn gather(root: &Path, under: &str, files: &mut BTreeMap<String, String>) -> io::Result<()> {
    for entry in fs::read_dir(root.join(under))? {
        let entry = entry?;
        let name = entry.file_name().to_string_lossy().into_owned();
        let path = match under {
            "" => name.clone(),
            under => format!("{under}/{name}"),
        };
        if name == "target" || name == ".git" {
            continue;
        }
        if entry.file_type()?.is_dir() {
            gather(root, &path, files)?;
        } else {
            let text = String::from_utf8(fs::read(entry.path())?).unwrap_or_default();
            files.insert(path, text);
        }
    }
    Ok(())
}

/// A path under `crates/` as the crate and the rest.
pub fn in_crate(path: &str) -> Option<(&str, &str)> {
    path.strip_prefix("crates/")?.split_once('/')
}

fn stem<'a>(path: &'a str, front: &str, back: &str) -> Option<&'a str> {
    path.strip_prefix(front)?.strip_suffix(back)
}

fn uncommented(line: &str) -> &str {
    match line.find("--") {
        Some(at) if at == 0 || line[..at].ends_with(' ') => &line[..at],
        _ => line,
    }
}

pub fn without_comment(line: &str) -> &str {
    line.find("//").map_or(line, |at| &line[..at])
}

/// The names that a module declares, and its types with their members.
fn declared(text: &str) -> (BTreeSet<String>, Vec<(String, BTreeSet<String>)>) {
    let mut names = BTreeSet::new();
    let mut types: Vec<(String, BTreeSet<String>)> = Vec::new();
    // The indentation of the type whose members these lines are.
    let mut body: Option<usize> = None;
    for line in text.lines().map(uncommented) {
        if line.trim().is_empty() {
            continue;
        }
        let indent = line.len() - line.trim_start().len();
        if body.is_some_and(|outer| indent <= outer) {
            body = None;
        }
        let head = unmarked(line.trim());
        if let Some(name) = ["record ", "data "]
            .iter()
            .find_map(|k| head.strip_prefix(k))
        {
            let name = name.split_whitespace().next().unwrap_or("");
            if is_name(name) {
                names.insert(name.to_string());
                types.push((name.to_string(), BTreeSet::new()));
                body = Some(indent);
            }
            continue;
        }
        for name in declared_on(head) {
            names.insert(name.to_string());
            if let (Some(_), Some((_, members))) = (body, types.last_mut()) {
                members.insert(name.to_string());
            }
        }
    }
    (names, types)
}

/// A line without the words that mark a declaration.
fn unmarked(line: &str) -> &str {
    let marks = ["pub ", "abbrev ", "unfoldable ", "mutual "];
    match marks.iter().find_map(|mark| line.strip_prefix(mark)) {
        Some(rest) => unmarked(rest.trim_start()),
        None => line,
    }
}

/// The names in front of a colon, if nothing but names stands there.
fn declared_on(head: &str) -> Vec<&str> {
    let Some((front, _)) = head
        .split_once(" : ")
        .or(head.strip_suffix(" :").map(|f| (f, "")))
    else {
        return Vec::new();
    };
    let front: Vec<&str> = front.split_whitespace().collect();
    let others = ["use", "module", "open", "let", "in", "infixr", "where"];
    let plain = front.iter().all(|name| is_name(name)) && !front.iter().any(|n| others.contains(n));
    if plain {
        front
    } else {
        Vec::new()
    }
}

fn is_name(word: &str) -> bool {
    !word.is_empty() && !word.contains(|c: char| "(){}[]=→∷,.λ;\"".contains(c))
}

/// The name of the function that a line of code begins.
fn function_name(line: &str) -> Option<&str> {
    let rest = line.strip_prefix("pub ").unwrap_or(line);
    let rest = rest.strip_prefix("extern \"C\" ").unwrap_or(rest);
    let name = rest.strip_prefix("fn ")?;
    let end = name.find(|c: char| !(c.is_alphanumeric() || c == '_'))?;
    Some(&name[..end])
}

/// The type whose own functions a line of code begins, without its parameters.
fn type_of_impl(line: &str) -> Option<&str> {
    let rest = line.strip_prefix("impl")?.strip_suffix(" {")?;
    let rest = match rest.strip_prefix('<') {
        Some(parameters) => &parameters[parameters.find("> ")? + 1..],
        None => rest,
    };
    let name = rest.strip_prefix(' ')?;
    let name = match name.strip_suffix('>') {
        Some(with) => &with[..with.find('<')?],
        None => name,
    };
    name.chars().all(char::is_alphanumeric).then_some(name)
}

/// Whether a file takes a name from the root of its crate: a type's functions
/// go by the place of the type, whatever file they stand in.
fn is_of_root(lines: &[&str], name: &str) -> bool {
    lines
        .iter()
        .filter_map(|line| line.strip_prefix("use crate::")?.strip_suffix(';'))
        .map(|names| names.trim_matches(['{', '}']))
        .any(|names| names.split(", ").any(|one| one == name))
}

/// The conversion that a line of code begins.
fn conversion(line: &str) -> Option<&str> {
    let name = line.strip_prefix("impl ")?.strip_suffix(" {")?;
    name.starts_with("From<").then_some(name)
}

/// Whether the function that begins on the first line has a `requires`, which
/// stands before its body.
fn has_requires(lines: &[&str]) -> bool {
    lines
        .iter()
        .skip(1)
        .take_while(|line| {
            !["{", "}"].contains(&line.trim_start()) && function_name(line).is_none()
        })
        .any(|line| line.trim_start().starts_with("requires"))
}

/// The struct or enum that the first line begins, and its fields or cases.
fn type_at(lines: &[&str]) -> Option<(String, BTreeSet<String>)> {
    let head = lines[0].strip_prefix("pub ").unwrap_or(lines[0]);
    let rest = ["struct ", "enum "]
        .iter()
        .find_map(|k| head.strip_prefix(k))?;
    let end = rest.find(|c: char| !(c.is_alphanumeric() || c == '_'))?;
    let mut members = BTreeSet::new();
    if lines[0].ends_with('{') {
        for line in lines[1..].iter().take_while(|line| **line != "}") {
            let member = line
                .strip_prefix("    ")
                .filter(|line| !line.starts_with(' '));
            let Some(member) = member else { continue };
            let member = member.strip_prefix("pub ").unwrap_or(member);
            let end = member.find(|c: char| !(c.is_alphanumeric() || c == '_'));
            let name = &member[..end.unwrap_or(member.len())];
            if !name.is_empty() {
                members.insert(name.to_string());
            }
        }
    }
    Some((rest[..end].to_string(), members))
}

#[cfg(test)]
mod tests {
    use super::*;

    #[test]
    fn names_of_a_module() {
        let text = "-- told : nothing\nuse a.{b}\nabbrev pub longer : ℕ → ℕ\nlonger n = n\n\
                    pub record Page (n : ℕ) : Type 0 where\n  -- a field\n  pub lines : ℕ\n\n\
                    pub data Bit : Type 0 where\n  O I : Bit\n\nmodule _ (n : ℕ) where\n  law-one :\n    (h : n ≡ n) → ⊥\n";
        let (names, types) = declared(text);
        let expected = ["Bit", "I", "O", "Page", "law-one", "lines", "longer"];
        assert_eq!(
            names.iter().map(String::as_str).collect::<Vec<_>>(),
            expected
        );
        assert_eq!(types.len(), 2);
        assert!(types[0].1.contains("lines") && types[0].1.len() == 1);
        assert!(types[1].1.contains("I") && types[1].1.len() == 2);
    }

    #[test]
    fn types_of_impls() {
        assert_eq!(type_of_impl("impl Bits {"), Some("Bits"));
        assert_eq!(
            type_of_impl("impl<'a, T: Copy> Cursor<'a, T> {"),
            Some("Cursor")
        );
        assert_eq!(type_of_impl("impl<'a> Cursor<'a, u8> {"), Some("Cursor"));
        assert_eq!(type_of_impl("impl From<Bits> for usize {"), None);
        assert_eq!(type_of_impl("impl<T> Shown for Cursor<T> {"), None);
        assert_eq!(type_of_impl("fn four() {"), None);
    }

    #[test]
    fn names_of_the_root() {
        let lines = ["use crate::{Bits, one};", "use crate::find::End;"];
        assert!(is_of_root(&lines, "Bits") && is_of_root(&lines, "one"));
        assert!(!is_of_root(&lines, "End") && !is_of_root(&lines, "Bit"));
        assert!(is_of_root(&["use crate::Bits;"], "Bits"));
    }

    #[test]
    fn names_of_a_source() {
        let text = "// fn none(\npub struct Bits(pub usize);\n\npub enum End {\n    At(State),\n    // gone\n    Open,\n}\n\n\
                    pub fn one(n: usize) -> usize\n    requires { ⌜ n < 2 ⌝ }\n{\n    n\n}\n\nfn two() -> u8 {\n    1\n}\n\n\
                    pub extern \"C\" fn three(\n    n: u64,\n) -> u64\n    ensures { ⌜ x ⌝ }\n{\n    n\n}\n\n\
                    impl Bits {\n    pub fn four(&self) -> usize\n        ensures { ⌜ x ⌝ }\n    {\n        1\n    }\n}\n\n\
                    impl From<Bits> for usize {\n    fn from(bits: Bits) -> usize {\n        bits.0\n    }\n}\n";
        let files = BTreeMap::from([("crates/a/src/find.rt".to_string(), text.to_string())]);
        let there = Repository::of(files);
        let seen: Vec<_> = there
            .functions
            .iter()
            .map(|f| (f.full(), f.public, f.exported, f.requires, f.line))
            .collect();
        assert_eq!(
            seen,
            [
                ("a::find::one".to_string(), true, false, true, 10),
                ("a::find::two".to_string(), false, false, false, 16),
                ("a::find::three".to_string(), true, true, false, 20),
                ("a::find::Bits::four".to_string(), true, false, false, 29),
                (
                    "a::find::From<Bits> for usize".to_string(),
                    true,
                    false,
                    false,
                    36
                ),
            ]
        );
        assert!(there.has_item("a", &["find", "Bits", "four"]));
        assert!(there.has_item("a", &["find", "From<Bits> for usize"]));
        assert!(there.has_item("a", &["find", "one"]));
        assert!(there.has_item("a", &["find", "End", "Open"]));
        assert!(there.has_item("a", &["find"]));
        assert!(!there.has_item("a", &["one"]));
        assert!(!there.has_item("a", &["find", "End", "gone"]));
        assert!(!there.words.contains("gone"));
    }
}

//! The names on the evidence page: statements, must-fail edits and files, each looked up in the
//! repository.

use std::collections::BTreeSet;

/// The page.
pub const PAGE: &str = "docs/EVIDENCE.md";

/// The folders at the root of the repository in which the page names files.
const FOLDERS: [&str; 6] = [".ci/", "crates/", "docs/", "include/", "rust/", "examples/"];

/// What may stand before a name that a file declares.
const MODIFIERS: [&str; 8] = [
    "pub",
    "abbrev",
    "unfoldable",
    "record",
    "data",
    "fn",
    "extern",
    "\"C\"",
];

/// The names on the page.
pub struct Page {
    pub statements: Vec<Statement>,
    /// Must-fail edits, each as its crate and its label with a `/` between them.
    edits: Vec<String>,
    pub files: BTreeSet<String>,
}

/// A statement or a function, and the file that declares it.
pub struct Statement {
    pub name: String,
    pub file: String,
}

/// Gives the text of a file by its path from the root of the repository, if there is such a file.
pub type TextOf<'a> = dyn Fn(&str) -> Option<String> + 'a;

impl Page {
    pub fn new(text: &str) -> Page {
        Page {
            statements: find_all(text, statement),
            edits: find_all(text, edit),
            files: find_all(text, file).into_iter().collect(),
        }
    }

    /// How many names there are on the page.
    pub fn count(&self) -> usize {
        self.statements.len() + self.edits.len() + self.files.len()
    }

    /// The names that the repository doesn't have, and that there is none on the page.
    pub fn errors(&self, text_of: &TextOf) -> Vec<String> {
        let statements = self.statements.iter();
        let edits = self.edits.iter().filter(|edit| !has_edit(edit, text_of));
        let files = self.files.iter().filter(|file| text_of(file).is_none());
        let none = (self.count() == 0).then(|| format!("{PAGE}: no names were found on the page"));
        statements
            .filter_map(|statement| statement_error(statement, text_of))
            .chain(edits.map(|edit| format!("{PAGE}: there is no must-fail edit {edit}")))
            .chain(files.map(|file| format!("{PAGE}: there is no {file}")))
            .chain(none)
            .collect()
    }
}

/// That the file of a statement isn't there or doesn't declare it.
fn statement_error(statement: &Statement, text_of: &TextOf) -> Option<String> {
    let Statement { name, file } = statement;
    match text_of(file) {
        None => Some(format!("{PAGE}: there is no {file}")),
        Some(text) if text.lines().any(|line| declares(line, name)) => None,
        Some(_) => Some(format!("{PAGE}: {file} declares no {name}")),
    }
}

/// Whether there is a must-fail edit.
fn has_edit(edit: &str, text_of: &TextOf) -> bool {
    let folder = edit.split('/').next().unwrap_or(edit);
    let label = edit.rsplit('/').next().unwrap_or(edit);
    text_of(&format!("crates/{folder}/must-fail/{label}.edit")).is_some()
}

/// Whether a line declares a name: modifiers, the name, and then a blank, a parenthesis or the end.
fn declares(line: &str, name: &str) -> bool {
    let line = line.trim_start_matches(' ');
    let is_declared = |rest: &str| rest.is_empty() || rest.starts_with([' ', '(']);
    let declares_after = |rest: &str| rest.starts_with(' ') && declares(rest, name);
    let mut after_modifiers = MODIFIERS.iter().filter_map(|word| line.strip_prefix(word));
    line.strip_prefix(name).is_some_and(is_declared) || after_modifiers.any(declares_after)
}

/// All that a function finds in a text, from left to right. Of any text it reads the start, and
/// gives what follows.
fn find_all<T>(text: &str, read: impl Fn(&str) -> Option<(T, &str)>) -> Vec<T> {
    let mut all = Vec::new();
    let mut rest = text;
    while let Some(first) = rest.chars().next() {
        rest = match read(rest) {
            Some((one, after)) => {
                all.push(one);
                after
            }
            None => &rest[first.len_utf8()..],
        };
    }
    all
}

/// A statement: `NAME` in `FILE`.
fn statement(text: &str) -> Option<(Statement, &str)> {
    let (name, rest) = code(text)?;
    let (file, rest) = code(rest.strip_prefix(" in ")?)?;
    let statement = Statement {
        name: name.to_string(),
        file: file.to_string(),
    };
    Some((statement, rest))
}

/// A must-fail edit: edit `CRATE/LABEL`.
fn edit(text: &str) -> Option<(String, &str)> {
    let (edit, rest) = code(text.strip_prefix("edit ")?)?;
    Some((edit.to_string(), rest))
}

/// A file: `PATH` with a folder in it.
fn file(text: &str) -> Option<(String, &str)> {
    let (file, rest) = code(text)?;
    let mut names = FOLDERS.iter().filter_map(|word| file.strip_prefix(word));
    let is_path = names.any(|name| !name.is_empty());
    is_path.then(|| (file.to_string(), rest))
}

/// A word between backticks.
fn code(text: &str) -> Option<(&str, &str)> {
    let (word, rest) = text.strip_prefix('`')?.split_once('`')?;
    let is_word = !word.is_empty() && !word.contains([' ', '\n']);
    is_word.then_some((word, rest))
}

#[cfg(test)]
mod tests {
    use super::*;

    const TEXT: &str = "| the rate | `rate` in `crates/r/specs/R.antt`, `fn f` in `x` |\n\
                        Ruled out: a fixed rate (edit `r/fixed_rate`); see `docs/A.md`,\n\
                        `docs/A.md`, `docs/`, `r` `in` `A.md`, and `crates/r/specs/R.antt`.";

    /// The text of a file of a small repository.
    fn text_of(file: &str) -> Option<String> {
        let text = match file {
            "crates/r/specs/R.antt" => "abbrev pub rate : ℕ",
            "crates/r/must-fail/fixed_rate.edit" | "docs/A.md" => "",
            _ => return None,
        };
        Some(text.to_string())
    }

    #[test]
    fn names_on_the_page_are_found() {
        let page = Page::new(TEXT);
        let statements = page.statements.iter();
        let statements: Vec<(&str, &str)> = statements
            .map(|statement| (statement.name.as_str(), statement.file.as_str()))
            .collect();
        assert_eq!(statements, [("rate", "crates/r/specs/R.antt")]);
        assert_eq!(page.edits, ["r/fixed_rate"]);
        let files: Vec<&String> = page.files.iter().collect();
        assert_eq!(files, ["crates/r/specs/R.antt", "docs/A.md"]);
        assert_eq!(page.count(), 4);
        assert!(page.errors(&text_of).is_empty());
    }

    #[test]
    fn names_that_are_not_in_the_repository_are_errors() {
        let text = "`most` in `crates/r/specs/R.antt`, `a` in `crates/b.rt`, edit `r/none`";
        assert_eq!(
            Page::new(text).errors(&text_of),
            [
                "docs/EVIDENCE.md: crates/r/specs/R.antt declares no most",
                "docs/EVIDENCE.md: there is no crates/b.rt",
                "docs/EVIDENCE.md: there is no must-fail edit r/none",
                "docs/EVIDENCE.md: there is no crates/b.rt",
            ]
        );
    }

    #[test]
    fn a_page_without_names_is_an_error() {
        assert_eq!(
            Page::new("nothing").errors(&text_of),
            ["docs/EVIDENCE.md: no names were found on the page"]
        );
    }

    #[test]
    fn a_name_is_declared_after_modifiers_alone() {
        for line in [
            "rate : ℕ",
            "  unfoldable pub rate : ℕ",
            "pub record rate (b : Bill)",
            "pub extern \"C\" fn rate(x: u32)",
            "rate",
        ] {
            assert!(declares(line, "rate"), "{line}");
        }
        for line in [
            "pub rates : ℕ",
            "use rate",
            "-- rate",
            "pubrate : ℕ",
            "rate: u32",
        ] {
            assert!(!declares(line, "rate"), "{line}");
        }
    }
}

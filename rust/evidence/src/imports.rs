//! The `use` lines of antt's files, and the `ghost use` lines of Rattle's.

use crate::tokens::Token;

/// What a `use` line brings.
#[derive(Debug, PartialEq)]
pub enum Import {
    /// An item of a module, under a name. A public import passes it on.
    Item {
        module: String,
        item: String,
        name: String,
        public: bool,
    },
    /// A module: its items are written behind the name.
    Module { module: String, name: String },
}

/// The imports of a line, from what follows `use`.
pub fn imports(line: &[Token], public: bool) -> Vec<Import> {
    let [module, rest @ ..] = line else {
        return Vec::new();
    };
    let module = module.text;
    match rest {
        [_, brace, list @ ..] if brace.text == "{" => list
            .split(|token| matches!(token.text, "," | "}"))
            .filter_map(|item| imported_item(module, item, public))
            .collect(),
        [_, name, ..] => vec![imported_module(module, name.text)],
        _ => vec![imported_module(module, module)],
    }
}

/// An item in the braces of a line: `name` or `name as other`, perhaps behind a module below.
fn imported_item(module: &str, words: &[Token], public: bool) -> Option<Import> {
    let path = format!("{module}.{}", words.first()?.text);
    let (module, item) = path.rsplit_once('.')?;
    let name = words.get(2).map_or(item, |name| name.text);
    Some(Import::Item {
        module: module.to_string(),
        item: item.to_string(),
        name: name.to_string(),
        public,
    })
}

/// A module under a name or under the last part of a path.
fn imported_module(module: &str, path: &str) -> Import {
    let name = path.rsplit('.').next().unwrap_or(path);
    Import::Module {
        module: module.to_string(),
        name: name.to_string(),
    }
}

/// An import of an item that isn't passed on, for tests.
#[cfg(test)]
pub fn item(module: &str, item: &str, name: &str) -> Import {
    Import::Item {
        module: module.to_string(),
        item: item.to_string(),
        name: name.to_string(),
        public: false,
    }
}

#[cfg(test)]
mod tests {
    use super::*;
    use crate::tokens::Tokens;

    /// Holds the imports of a line to those expected.
    fn expect(line: &str, expected: &[Import]) {
        let tokens: Vec<Token> = Tokens::new(line).collect();
        assert_eq!(imports(&tokens, false), expected, "of {line}");
    }

    #[test]
    fn items_come_under_their_names_or_others() {
        expect("A.B.{a}", &[item("A.B", "a", "a")]);
        expect(
            "A.{a, ◌∷◌ as ◌before◌,\n  b,\n}",
            &[
                item("A", "a", "a"),
                item("A", "◌∷◌", "◌before◌"),
                item("A", "b", "b"),
            ],
        );
        expect("A.{B.c as d}", &[item("A.B", "c", "d")]);
    }

    #[test]
    fn modules_come_under_their_last_names_or_others() {
        let module = |name: &str| Import::Module {
            module: "A.B".to_string(),
            name: name.to_string(),
        };
        expect("A.B", &[module("B")]);
        expect("A.B as b", &[module("b")]);
    }
}

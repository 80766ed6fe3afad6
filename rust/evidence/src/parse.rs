//! A file of antt: the modules that it declares, its imports, and its definitions with the names in
//! their text.
//!
//! The text is read by its layout. An item of a block begins where a line begins at the block's
//! column, and goes on over the lines that stand further right. So a `where` block, a record's
//! fields and a data type's constructors are parts of one item. A declaration begins a definition;
//! its `unfolding` line and its clauses are the items that follow.

use crate::imports::{imports, Import};
use crate::tokens::{Token, Tokens};
use std::iter;

/// What may stand before a declaration, `use` or `mod`.
const MODIFIERS: [&str; 5] = ["pattern", "unfoldable", "abbrev", "axiom", "pub"];

/// The words that begin a declaration whose name comes next.
const KINDS: [&str; 3] = ["record", "data", "ruleset"];

/// A file of antt.
#[derive(Default)]
pub struct Source {
    /// The names in its `mod` lines.
    pub modules: Vec<String>,
    pub imports: Vec<Import>,
    pub definitions: Vec<Definition>,
}

/// A definition.
pub struct Definition {
    pub name: String,
    /// The line of its declaration, from 1 on.
    pub line: usize,
    pub public: bool,
    /// The constructors of a data type.
    pub constructors: Vec<String>,
    /// The names that its text uses, with the headers of the modules that it stands in.
    pub references: Vec<String>,
}

impl Definition {
    /// The names by which a text refers to the definition: its own and its constructors'.
    pub fn names(&self) -> impl Iterator<Item = &String> {
        iter::once(&self.name).chain(&self.constructors)
    }
}

impl Source {
    pub fn new(text: &str) -> Source {
        let tokens: Vec<Token> = Tokens::new(text).collect();
        let mut source = Source::default();
        source.read_block(&tokens, &[]);
        source
    }

    /// Reads a block, which stands below the headers of modules.
    fn read_block(&mut self, block: &[Token], headers: &[Token]) {
        for item in items(block) {
            self.read_item(item, headers);
        }
    }

    fn read_item(&mut self, item: &[Token], headers: &[Token]) {
        let is_modifier = |token: &&Token| MODIFIERS.contains(&token.text);
        let (modifiers, item) = item.split_at(item.iter().take_while(is_modifier).count());
        let public = modifiers.iter().any(|token| token.text == "pub");
        let [first, rest @ ..] = item else { return };
        match first.text {
            "use" => self.imports.extend(imports(rest, public)),
            "mod" => self.modules.extend(names(rest)),
            "infix" | "infixl" | "infixr" => {}
            "mutual" => self.read_block(rest, headers),
            "module" => {
                let (header, body) = split_at_where(rest);
                self.read_block(body, &[headers, header].concat());
            }
            _ => self.read_definition(item, headers, public),
        }
    }

    /// Reads a declaration, or more of the definition that was declared last.
    fn read_definition(&mut self, item: &[Token], headers: &[Token], public: bool) {
        if let Some(name) = declared_name(item) {
            self.definitions.push(Definition {
                name: name.text.to_string(),
                line: name.line + 1,
                public,
                constructors: constructors(item),
                references: references(headers),
            });
        }
        if let Some(definition) = self.definitions.last_mut() {
            definition.references.extend(references(item));
        }
    }
}

/// The items of a block. A bracket that closes belongs to the item that it stands under.
fn items<'a>(block: &'a [Token<'a>]) -> impl Iterator<Item = &'a [Token<'a>]> {
    let column = block.first().map_or(0, |first| first.column);
    block.chunk_by(move |before, token| {
        token.line == before.line || token.column > column || matches!(token.text, "}" | ")")
    })
}

/// What stands before the first `where`, and what after it.
fn split_at_where<'a>(item: &'a [Token<'a>]) -> (&'a [Token<'a>], &'a [Token<'a>]) {
    match item.iter().position(|token| token.text == "where") {
        Some(at) => (&item[..at], &item[at + 1..]),
        None => (item, &[]),
    }
}

/// The name that an item declares: after `record`, `data` or `ruleset`, or before a colon, where
/// levels in braces may stand between the two.
fn declared_name<'a>(item: &'a [Token<'a>]) -> Option<&'a Token<'a>> {
    let [first, rest @ ..] = item else {
        return None;
    };
    if KINDS.contains(&first.text) {
        return rest.first().filter(|name| name.is_name());
    }
    let levels = match rest {
        [brace, ..] if brace.text == "{" => rest.iter().position(|token| token.text == "}")? + 1,
        _ => 0,
    };
    let is_declared = rest.get(levels).is_some_and(|token| token.text == ":");
    (first.is_name() && is_declared).then_some(first)
}

/// The constructors of an item that declares a data type: the names before the colons.
fn constructors(item: &[Token]) -> Vec<String> {
    if item.first().is_none_or(|first| first.text != "data") {
        return Vec::new();
    }
    let (_, body) = split_at_where(item);
    let before_colons = items(body).filter_map(|line| line.split(|token| token.text == ":").next());
    before_colons.flat_map(names).collect()
}

fn names(tokens: &[Token]) -> Vec<String> {
    let names = tokens.iter().filter(|token| token.is_name());
    names.map(|token| token.text.to_string()).collect()
}

/// The names that a text uses. A name before a colon is declared or bound there, and one between
/// `{` or `;` and `=` is the label of a field or of an argument: neither is used.
///
/// A local variable or a parameter that is spelled as a definition counts as a use of it: to tell
/// one from the other, scopes would have to be read as the prover reads them.
pub fn references(tokens: &[Token]) -> Vec<String> {
    let text_at = |at: usize| tokens.get(at).map_or("", |token| token.text);
    let is_used = |at: usize| match text_at(at + 1) {
        ":" => false,
        "=" => at == 0 || !matches!(text_at(at - 1), "{" | ";"),
        _ => true,
    };
    let used = (0..tokens.len()).filter(|&at| tokens[at].is_name() && is_used(at));
    used.map(|at| tokens[at].text.to_string()).collect()
}

#[cfg(test)]
mod tests {
    use super::*;

    /// Holds the definitions of a text, each with its references, to those expected.
    fn expect(text: &str, expected: &[(&str, &str)]) {
        let source = Source::new(text);
        let definitions: Vec<(&str, String)> = (source.definitions.iter())
            .map(|definition| (definition.name.as_str(), definition.references.join(" ")))
            .collect();
        let expected: Vec<(&str, String)> = (expected.iter())
            .map(|(name, references)| (*name, references.to_string()))
            .collect();
        assert_eq!(definitions, expected, "of {text}");
    }

    #[test]
    fn each_kind_of_declaration_is_found() {
        expect("law : A", &[("law", "A")]);
        expect("abbrev pub size : A", &[("size", "A")]);
        expect("unfoldable pub at'-1 :\n    A", &[("at'-1", "A")]);
        expect("pattern abbrev two : A", &[("two", "A")]);
        expect("levels {ℓ} : A ℓ", &[("levels", "levels ℓ A ℓ")]);
        expect("pub record Row : A where", &[("Row", "record A where")]);
        expect("pub data Call : A where", &[("Call", "data A where")]);
        expect("pub ruleset r = (a, b)", &[("r", "ruleset r a b")]);
        expect("infix 4 ◌on◌\n◌on◌ : A", &[("◌on◌", "A")]);
        expect("mutual\n  e : A\n  o : A", &[("e", "A"), ("o", "A")]);
    }

    #[test]
    fn a_declaration_has_its_line_and_may_be_public() {
        let source = Source::new("-- a law\npub law : A\nlaw = b\n\nhelp : A\nhelp = b");
        let places: Vec<(usize, bool)> = (source.definitions.iter())
            .map(|definition| (definition.line, definition.public))
            .collect();
        assert_eq!(places, [(2, true), (5, false)]);
    }

    #[test]
    fn clauses_and_the_unfolding_line_are_of_the_definition() {
        expect(
            "law : P x\nunfolding size\nlaw a = f (\n  b\n) c\n\nother : Q",
            &[("law", "P x unfolding size law a f b c"), ("other", "Q")],
        );
        expect("◌on◌ : A\nc on s = d", &[("◌on◌", "A c on s d")]);
    }

    #[test]
    fn a_where_block_is_of_its_definition() {
        expect(
            "law : A\nlaw = go\n  where\n    go : B\n    go = c",
            &[("law", "A law go where B go c")],
        );
    }

    #[test]
    fn definitions_in_modules_have_their_headers() {
        expect(
            "module _ (R : Rules)\n    (o : Ok R) where\n  one : A\n  one = b\n\n  \
             module _ {x : X} where\n    two : C\n\n  three : D\n\nfour : E",
            &[
                ("one", "_ Rules Ok R A one b"),
                ("two", "_ Rules Ok R _ X C"),
                ("three", "_ Rules Ok R D"),
                ("four", "E"),
            ],
        );
    }

    #[test]
    fn the_header_of_a_module_may_close_at_its_column() {
        expect(
            "module _ (\n  R : Rules\n) where\n  one : A",
            &[("one", "_ Rules A")],
        );
    }

    #[test]
    fn a_record_has_its_fields_types_and_not_their_names() {
        expect(
            "record Row (b : Bill) : A where\n  pub amount : ℕ\n  low : amount ≤ most",
            &[("Row", "record Row Bill A where pub ℕ amount ≤ most")],
        );
    }

    #[test]
    fn labels_and_projections_behind_parentheses_are_not_used() {
        expect(
            "row : Row\nrow = record { amount = rate; low = f {A = ℕ} (g x).low }",
            &[("row", "Row row record rate f ℕ g x")],
        );
        expect(
            "row : Row\nrow = record {\n  amount = s.rate;\n}",
            &[("row", "Row row record s.rate")],
        );
    }

    #[test]
    fn the_type_of_a_let_is_used() {
        expect(
            "n : ℕ\nn = let e : a ≡ b = c in e",
            &[("n", "ℕ n let a ≡ b c in e")],
        );
    }

    #[test]
    fn comments_quoted_texts_and_fixities_are_not_used() {
        expect("a : A -- see b\ninfix 6 _c_\na = \"d\"", &[("a", "A a")]);
    }

    #[test]
    fn constructors_are_of_their_data_type() {
        let source = Source::new("data Call : A where\n  ◌with◌ : A → Call\n  none no : Call");
        let constructors = &source.definitions[0].constructors;
        assert_eq!(constructors, &["◌with◌", "none", "no"]);
    }

    #[test]
    fn the_header_has_imports_and_modules() {
        let source =
            Source::new("use A.{\n  a,\n}\npub use B.{b, c}\npub mod Laws\nmod Bits\na : A");
        assert_eq!(source.imports.len(), 3);
        assert_eq!(source.modules, ["Laws", "Bits"]);
        assert_eq!(source.definitions.len(), 1);
    }
}

//! A file of Rattle: what its `ghost use` lines bring, the names in its functions' contracts and
//! ghost members, and what its attributes give to the tactics.
//!
//! The text is read by its layout, which the gate holds to the formatter's: a `ghost use`, a clause,
//! a ghost member and an attribute each begin a line.

use crate::imports::{imports, Import};
use crate::parse::references;
use crate::tokens::{Token, Tokens};
use std::iter;

/// The words that begin a clause of a contract or a ghost member; what stands in its braces is
/// antt's text.
const CLAUSES: [&str; 3] = ["requires", "ensures", "ghost"];

/// What may stand before a ghost member.
const MODIFIERS: [&str; 2] = ["pub ", "pub(crate) "];

/// What begins an attribute that gives lemmas and definitions to the tactics.
const TACTICS: [&str; 2] = ["#[tactic(", "#![tactic("];

/// The contracts of a file.
#[derive(Default)]
pub struct Contracts {
    pub imports: Vec<Import>,
    /// The names in the clauses and the ghost members.
    pub references: Vec<String>,
    /// The paths in the attributes, as `crate::proofs::Laws::law`.
    pub tactics: Vec<String>,
}

impl Contracts {
    pub fn new(text: &str) -> Contracts {
        let mut contracts = Contracts::default();
        for lines in iter::successors(Some(text), |lines| Some(lines.split_once('\n')?.1)) {
            contracts.read(lines.trim_start_matches(' '));
        }
        contracts
    }

    /// Reads the `ghost use` line, the clause, the ghost member or the attribute that a text begins
    /// with, if it does.
    fn read(&mut self, text: &str) {
        let member = MODIFIERS.iter().find_map(|word| text.strip_prefix(word));
        let is_clause = |text| CLAUSES.iter().any(|word| begins_with(text, word));
        if let Some(line) = text.strip_prefix("ghost use ") {
            let line = Tokens::new(line).take_while(|token| token.text != ";");
            let line: Vec<Token> = line.collect();
            self.imports.extend(imports(&line, false));
        } else if is_clause(text) || member.is_some_and(|text| begins_with(text, "ghost")) {
            self.references.extend(references(&clause(text)));
        } else if let Some(list) = TACTICS.iter().find_map(|word| text.strip_prefix(word)) {
            self.tactics.extend(paths(list));
        }
    }
}

/// Whether a text begins with a word and a blank, or with a word, a star and a blank.
fn begins_with(text: &str, word: &str) -> bool {
    let rest = text.strip_prefix(word);
    rest.is_some_and(|rest| rest.trim_start_matches('*').starts_with(' '))
}

/// The tokens from the first brace of a text to the one that closes it; of a ghost member with a
/// type, to the one that closes the value behind `=`, or the proof behind `by`.
fn clause(text: &str) -> Vec<Token<'_>> {
    let tokens: Vec<Token> = Tokens::new(text).collect();
    let mut braces = Vec::new();
    let mut rest = from_brace(&tokens);
    loop {
        let (group, after) = rest.split_at(length_of_group(rest));
        braces.extend(group);
        rest = match after {
            [between, brace, ..] if matches!(between.text, "=" | "by") && brace.text == "{" => {
                &after[1..]
            }
            _ => return braces,
        };
    }
}

/// What begins with the first brace.
fn from_brace<'a, 'b>(tokens: &'b [Token<'a>]) -> &'b [Token<'a>] {
    let first = tokens.iter().position(|token| token.text == "{");
    &tokens[first.unwrap_or(tokens.len())..]
}

/// The number of tokens before the brace that closes the first.
fn length_of_group(tokens: &[Token]) -> usize {
    let mut depth = 0;
    let closes = |token: &Token| {
        match token.text {
            "{" => depth += 1,
            "}" => depth -= 1,
            _ => {}
        }
        depth == 0
    };
    let last = tokens.iter().position(closes);
    last.map_or(tokens.len(), |last| last + 1)
}

/// The paths in the parentheses of an attribute, up to the bracket that closes it.
fn paths(list: &str) -> impl Iterator<Item = String> + '_ {
    let tokens = Tokens::new(list).take_while(|token| token.text != "]");
    let paths = tokens.filter(|token| token.text.contains("::"));
    paths.map(|token| token.text.to_string())
}

#[cfg(test)]
mod tests {
    use super::*;
    use crate::imports::item;

    fn expect_references(text: &str, expected: &[&str]) {
        assert_eq!(Contracts::new(text).references, expected, "of {text}");
    }

    #[test]
    fn clauses_are_read_and_code_is_not() {
        expect_references(
            "// ensures { no }\npub fn f(x: u8) -> u8\n    requires { low x }\n    \
             ensures { Meets x.now result }\n{\n    g(x)\n}",
            &["low", "x", "Meets", "x.now", "result"],
        );
    }

    #[test]
    fn a_clause_may_have_a_name_a_star_braces_and_many_lines() {
        expect_references(
            "ensures met { (λ r. a)\n  { b }\n  c } d",
            &["λ", "r", "a", "b", "c"],
        );
        expect_references("    requires* owned { T }", &["T"]);
        expect_references("    ghost { T }", &["T"]);
    }

    #[test]
    fn ghost_members_are_read_with_their_types_and_their_values() {
        expect_references(
            "    ghost low: { x ≤ most },\n    x: u8,",
            &["x", "≤", "most"],
        );
        expect_references("    pub ghost low: { Low x },", &["Low", "x"]);
        expect_references(
            "    ghost sum: { A → B } = { λ a. b };\n{ c }",
            &["A", "→", "B", "λ", "a", "b"],
        );
        expect_references(
            "    ghost ended: { Ended b } by { law b },\n    c: C,",
            &["Ended", "b", "law", "b"],
        );
    }

    #[test]
    fn ghost_use_lines_are_imports() {
        let text = "use a::b;\nghost use A.B.{x as y};\nghost use C.{\n    ◌with◌,\n};\n\
                    ghost use D.E;\nfn f() {}";
        let contracts = Contracts::new(text);
        let module = Import::Module {
            module: "D.E".to_string(),
            name: "E".to_string(),
        };
        let expected = [item("A.B", "x", "y"), item("C", "◌with◌", "◌with◌"), module];
        assert_eq!(contracts.imports, expected);
        assert!(contracts.references.is_empty());
    }

    #[test]
    fn attributes_give_their_paths_to_the_tactics() {
        let text = "#![tactic(auto)]\n\n#[tactic(auto, using(crate::proofs::A::law, b::proofs::B::step),\n    \
                    unfolding(crate::specs::A::size))]\nfn f() {}\n// #[tactic(auto, using(no::no))]";
        let contracts = Contracts::new(text);
        let expected = [
            "crate::proofs::A::law",
            "b::proofs::B::step",
            "crate::specs::A::size",
        ];
        assert_eq!(contracts.tactics, expected);
        assert!(contracts.references.is_empty());
    }
}

//! What the names in a file's text mean: the definitions that they refer to.

use crate::imports::Import;
use crate::parse::Definition;
use crate::repository::{Node, Repository};
use std::collections::{BTreeMap, BTreeSet};

/// What marks the places of an operator's arguments in its name.
const PLACE: char = '◌';

/// The names of a file.
pub struct Scope<'a> {
    repository: &'a Repository,
    /// The definitions that a word refers to: those so named, and operators that have the word.
    words: BTreeMap<&'a str, BTreeSet<Node<'a>>>,
    /// The modules whose items stand behind a name.
    modules: BTreeMap<&'a str, &'a str>,
}

impl<'a> Scope<'a> {
    /// The names that imports bring.
    pub fn new(repository: &'a Repository, imports: &'a [Import]) -> Scope<'a> {
        let mut scope = Scope {
            repository,
            words: BTreeMap::new(),
            modules: BTreeMap::new(),
        };
        for import in imports {
            scope.add_import(import);
        }
        scope
    }

    /// The same with a file's own definitions.
    pub fn with_definitions(mut self, file: &'a str, definitions: &'a [Definition]) -> Scope<'a> {
        let names = definitions.iter().flat_map(|definition| {
            let name = &definition.name;
            definition
                .names()
                .map(move |word| (word, Node { file, name }))
        });
        for (name, node) in names {
            self.add_name(name, node);
        }
        self
    }

    fn add_import(&mut self, import: &'a Import) {
        match import {
            Import::Item {
                module, item, name, ..
            } => {
                if let Some(node) = self.repository.definition_of(module, item) {
                    self.add_name(name, node);
                }
            }
            Import::Module { module, name } => {
                self.modules.insert(name, module);
            }
        }
    }

    /// Adds a name, with the words of an operator: of `◌on◌gives◌`, `on` and `gives`.
    fn add_name(&mut self, name: &'a str, node: Node<'a>) {
        let parts = name.split(PLACE).filter(|part| !part.is_empty());
        for word in parts.chain([name]) {
            self.words.entry(word).or_default().insert(node);
        }
    }

    /// The definitions that the names of a text refer to.
    pub fn resolve(&self, references: &[String]) -> BTreeSet<Node<'a>> {
        let resolved = references.iter().flat_map(|name| self.resolve_name(name));
        resolved.collect()
    }

    /// A name behind a module is that module's item, with or without projections. Any other name with
    /// a dot has projections or is a constructor behind its type: what stands before the first dot is
    /// referred to. An operator without one of its arguments keeps the place of that one, as in
    /// `(◌on s gives n)`.
    fn resolve_name(&self, name: &str) -> BTreeSet<Node<'a>> {
        if let Some(node) = self.resolve_behind_module(name) {
            return BTreeSet::from([node]);
        }
        let word = name.split('.').next().unwrap_or(name);
        let found = [word, word.trim_matches(PLACE)].map(|word| self.words.get(word));
        found.into_iter().flatten().flatten().copied().collect()
    }

    /// The item that a name such as `Sheet.step` or `Sheet.opened.rows` is or begins with, where
    /// `Sheet` is the name of a module here or begins the whole path of one. The longest path of a
    /// module counts.
    fn resolve_behind_module(&self, name: &str) -> Option<Node<'a>> {
        let dots = name.rmatch_indices('.').map(|(at, _)| at);
        let (mut paths, first) = (dots.map(|at| name.split_at(at)), name.split('.').next()?);
        paths.find_map(|(path, rest)| {
            let module = match self.modules.get(first) {
                Some(module) => path.replacen(first, module, 1),
                None => path.to_string(),
            };
            let item = rest[1..].split('.').next()?;
            self.repository.definition_of(&module, item)
        })
    }
}

#[cfg(test)]
mod tests {
    use super::*;
    use crate::repository::repository;

    const SHEET: &str = "crates/m/specs/Sheet.antt";

    /// Holds the definitions of the sheet's file that a text in another file refers to, to those
    /// expected.
    fn expect_resolved(imports: &str, text: &str, expected: &[&str]) {
        let sheet = "record Sheet : Type 0 where\n  rows : A\n\nstep : A\n\nrows : A\n\n\
                     data Call : Type 0 where\n  ◌with◌ : Call\n\n◌on◌gives◌ : A";
        let user = format!("{imports}\nuser : A\nuser = {text}");
        let repository = repository(&[(SHEET, sheet), ("crates/m/proofs/User.antt", &user)]);
        let source = &repository.sources["crates/m/proofs/User.antt"];
        let scope = Scope::new(&repository, &source.imports);
        let resolved = scope.resolve(&source.definitions[0].references);
        let names: Vec<&str> = resolved.iter().map(|node| node.name).collect();
        assert_eq!(names, expected, "of {text}");
    }

    #[test]
    fn an_imported_name_is_found_by_the_name_it_has_here() {
        expect_resolved("use Rattle.m.specs.Sheet.{step}", "step", &["step"]);
        expect_resolved("use Rattle.m.specs.Sheet.{step as s}", "s", &["step"]);
        expect_resolved("use Rattle.m.specs.Sheet.{step as s}", "step", &[]);
    }

    #[test]
    fn an_import_alone_is_no_use() {
        expect_resolved("use Rattle.m.specs.Sheet.{step}", "x", &[]);
    }

    #[test]
    fn a_name_behind_a_module_is_no_projection() {
        let imports = "use Rattle.m.specs.Sheet\nuse Rattle.m.specs.Sheet.{Sheet, rows}";
        expect_resolved(imports, "Sheet.step", &["step"]);
        expect_resolved(imports, "x.rows", &[]);
        expect_resolved(imports, "(f x).rows", &[]);
        expect_resolved("use Rattle.m.specs.Sheet as s", "s.step", &["step"]);
        expect_resolved("", "Rattle.m.specs.Sheet.step", &["step"]);
    }

    #[test]
    fn a_name_behind_a_module_may_have_projections() {
        let imports = "use Rattle.m.specs.Sheet";
        expect_resolved(imports, "Sheet.step.rows.0", &["step"]);
        expect_resolved("", "Rattle.m.specs.Sheet.step.rows", &["step"]);
        expect_resolved(imports, "Sheet.Call.Open", &["Call"]);
        expect_resolved("use Rattle.m.specs.Sheet.{step}", "step.rows.0", &["step"]);
    }

    #[test]
    fn a_constructor_is_its_data_type() {
        expect_resolved("use Rattle.m.specs.Sheet.{◌with◌}", "c with b", &["Call"]);
        expect_resolved("use Rattle.m.specs.Sheet.{Call}", "Call.Open", &["Call"]);
    }

    #[test]
    fn an_operator_is_found_by_any_of_its_words() {
        let imports = "use Rattle.m.specs.Sheet.{◌on◌gives◌}";
        for text in ["c on s gives n", "(◌on s)", "◌on◌gives◌ c s n", "gives"] {
            expect_resolved(imports, text, &["◌on◌gives◌"]);
        }
        expect_resolved(imports, "c upon s _", &[]);
    }

    #[test]
    fn a_file_sees_its_own_definitions() {
        let repository = repository(&[(SHEET, "step : A\n\ndata Call : A where\n  ◌with◌ : Call")]);
        let scope = Scope::new(&repository, &[])
            .with_definitions(SHEET, &repository.sources[SHEET].definitions);
        let resolved = scope.resolve(&["step".to_string(), "with".to_string()]);
        let names: Vec<&str> = resolved.iter().map(|node| node.name).collect();
        assert_eq!(names, ["Call", "step"]);
    }
}

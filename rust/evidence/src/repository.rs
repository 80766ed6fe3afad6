//! The files of the crates: which file a module is, where an item is defined, which files no `mod`
//! line declares, and which hold the proof of a function.

use crate::contracts::Contracts;
use crate::imports::Import;
use crate::parse::{Definition, Source};
use std::collections::BTreeMap;

/// The files that hold the proof of a function, in the function's folder: what is chosen for it and
/// the answers to its goals, or all of it.
const PROOF_FILES: [&str; 3] = ["Invariants.antt", "Answers.antt", "Proof.antt"];

/// The crate that asks, from outside the product, for what is established and promised. What it asks
/// for isn't reached by that.
const ASKED: &str = "crates/asked/";

/// The files of the crates, by their paths from the root of the repository.
#[derive(Default)]
pub struct Repository {
    /// The files of antt: specs/ and proofs/.
    pub sources: BTreeMap<String, Source>,
    /// The files of Rattle: src/.
    pub contracts: BTreeMap<String, Contracts>,
}

/// A definition by its file and its name.
#[derive(Clone, Copy, Debug, PartialEq, Eq, PartialOrd, Ord)]
pub struct Node<'a> {
    pub file: &'a str,
    pub name: &'a str,
}

impl Repository {
    /// Reads files, given by their paths and texts.
    pub fn new(texts: impl IntoIterator<Item = (String, String)>) -> Repository {
        let mut repository = Repository::default();
        for (file, text) in texts {
            if file.ends_with(".rt") {
                repository.contracts.insert(file, Contracts::new(&text));
            } else {
                repository.sources.insert(file, Source::new(&text));
            }
        }
        repository
    }

    /// All definitions but those of the crate that asks.
    pub fn product_definitions(&self) -> impl Iterator<Item = (Node<'_>, &Definition)> {
        let definitions = self.definitions();
        definitions.filter(|(node, _)| !is_asked(node.file))
    }

    /// All definitions.
    fn definitions(&self) -> impl Iterator<Item = (Node<'_>, &Definition)> {
        self.sources.iter().flat_map(|(file, source)| {
            source.definitions.iter().map(move |definition| {
                let name = &definition.name;
                (Node { file, name }, definition)
            })
        })
    }

    /// All imports, with the files that they stand in.
    pub fn imports(&self) -> impl Iterator<Item = (&str, &Import)> {
        let sources = (self.sources.iter()).map(|(file, source)| (file, &source.imports));
        let contracts = (self.contracts.iter()).map(|(file, read)| (file, &read.imports));
        let files = sources.chain(contracts);
        files.flat_map(|(file, imports)| imports.iter().map(move |import| (file.as_str(), import)))
    }

    /// The file of a module: `Rattle.CRATE.specs.A.B` is crates/CRATE/specs/A/B.antt; so of proofs. A
    /// module that the toolchain brings or generates has no file.
    pub fn file_of(&self, module: &str) -> Option<&str> {
        let file = format!(
            "crates/{}.antt",
            module.strip_prefix("Rattle.")?.replace('.', "/")
        );
        self.sources
            .get_key_value(&file)
            .map(|(file, _)| file.as_str())
    }

    /// The definition that an item of a module is: one that the module's file declares, or one that
    /// the file passes on. The prover refuses imports that go round in a circle.
    pub fn definition_of(&self, module: &str, item: &str) -> Option<Node<'_>> {
        let file = self.file_of(module)?;
        let source = &self.sources[file];
        let is_item = |definition: &&Definition| definition.names().any(|name| name == item);
        match source.definitions.iter().find(is_item) {
            Some(Definition { name, .. }) => Some(Node { file, name }),
            None => (source.imports.iter()).find_map(|import| self.passed_on(import, item)),
        }
    }

    /// The definition that an import passes on under a name.
    fn passed_on(&self, import: &Import, wanted: &str) -> Option<Node<'_>> {
        match import {
            Import::Item {
                module,
                item,
                name,
                public: true,
            } if name == wanted => self.definition_of(module, item),
            _ => None,
        }
    }

    /// What the proofs of functions give to the prover: the public definitions of their files. What
    /// else stands there is reached from these, or dead like any other definition.
    pub fn function_proofs(&self) -> impl Iterator<Item = Node<'_>> {
        let given = self
            .product_definitions()
            .filter(|(node, definition)| definition.public && is_proof_file(node.file));
        given.map(|(node, _)| node)
    }

    /// The files outside functions' folders that no `mod` line declares, so that the prover doesn't
    /// read them; each with the file where the line is missing.
    pub fn undeclared_files(&self) -> Vec<(&str, String)> {
        let files = self
            .sources
            .keys()
            .filter(|file| !self.is_of_function(file));
        let parents = files.map(|file| (file.as_str(), parent_of(file)));
        parents
            .filter(|(file, parent)| file != parent && !self.is_declared(file, parent))
            .collect()
    }

    /// Whether a file stands in or below the folder of a function.
    fn is_of_function(&self, file: &str) -> bool {
        let folders = file.match_indices('/').map(|(end, _)| &file[..end]);
        let mut files =
            folders.flat_map(|folder| PROOF_FILES.map(|name| format!("{folder}/{name}")));
        files.any(|file| self.sources.contains_key(&file))
    }

    fn is_declared(&self, file: &str, parent: &str) -> bool {
        let modules = self.sources.get(parent).map(|source| &source.modules);
        modules.is_some_and(|modules| modules.iter().any(|module| module == module_name(file)))
    }
}

/// Whether a file is of the crate that asks.
pub fn is_asked(file: &str) -> bool {
    file.starts_with(ASKED)
}

/// Whether a file holds the proof of a function.
fn is_proof_file(file: &str) -> bool {
    let name = file.rsplit('/').next();
    name.is_some_and(|name| PROOF_FILES.contains(&name))
}

/// The file whose `mod` line declares a file: Lib.antt of crates/CRATE/specs/A.antt, and
/// crates/CRATE/specs/A.antt of crates/CRATE/specs/A/B.antt; so of proofs. Lib.antt is its own.
fn parent_of(file: &str) -> String {
    let folder = file.rsplit_once('/').map_or("", |(folder, _)| folder);
    if folder.matches('/').count() > 2 {
        format!("{folder}.antt")
    } else {
        format!("{folder}/Lib.antt")
    }
}

/// The name of a file in its `mod` line.
pub fn module_name(file: &str) -> &str {
    let name = file.rsplit('/').next().unwrap_or(file);
    name.strip_suffix(".antt").unwrap_or(name)
}

/// Files given by their paths and texts, for tests.
#[cfg(test)]
pub fn repository(texts: &[(&str, &str)]) -> Repository {
    let owned = |(file, text): &(&str, &str)| (file.to_string(), text.to_string());
    Repository::new(texts.iter().map(owned))
}

#[cfg(test)]
mod tests {
    use super::*;

    #[test]
    fn a_module_of_a_crate_has_its_file() {
        let repository = repository(&[
            ("crates/a/specs/B/C.antt", ""),
            ("crates/a/proofs/D.antt", ""),
        ]);
        let file = Some("crates/a/specs/B/C.antt");
        assert_eq!(repository.file_of("Rattle.a.specs.B.C"), file);
        let file = Some("crates/a/proofs/D.antt");
        assert_eq!(repository.file_of("Rattle.a.proofs.D"), file);
        assert_eq!(repository.file_of("Rattle.a.specs.declared.B"), None);
        assert_eq!(repository.file_of("Rattle.std.specs.Prelude"), None);
        assert_eq!(repository.file_of("mathlib.Core.List"), None);
    }

    #[test]
    fn an_item_is_declared_or_passed_on() {
        let call = "data Call : Type 0 where\n  ◌with◌ : Call";
        let imports = "pub use Rattle.a.specs.A.{◌with◌ as ◌and◌}\n\
                       use Rattle.a.specs.A.{Call}";
        let repository = repository(&[
            ("crates/a/specs/A.antt", call),
            ("crates/a/specs/B.antt", imports),
        ]);
        let call = Some(Node {
            file: "crates/a/specs/A.antt",
            name: "Call",
        });
        assert_eq!(repository.definition_of("Rattle.a.specs.A", "◌with◌"), call);
        assert_eq!(repository.definition_of("Rattle.a.specs.B", "◌and◌"), call);
        assert_eq!(repository.definition_of("Rattle.a.specs.B", "Call"), None);
    }

    #[test]
    fn undeclared_files_are_found() {
        let repository = repository(&[
            ("crates/a/proofs/Lib.antt", "pub mod A\nmod B"),
            ("crates/a/proofs/A.antt", "mod Below"),
            ("crates/a/proofs/A/Below.antt", ""),
            ("crates/a/proofs/A/Other.antt", ""),
            ("crates/a/proofs/B.antt", ""),
            ("crates/a/proofs/C.antt", ""),
            ("crates/a/proofs/f/Proof.antt", ""),
            ("crates/a/proofs/f/Proof/Laws.antt", ""),
            ("crates/a/proofs/m/g/Answers.antt", ""),
            ("crates/a/proofs/m/h/Invariants.antt", ""),
            ("crates/a/proofs/m/h/Answers/Laws.antt", ""),
            ("crates/a/specs/D.antt", ""),
        ]);
        let missing = |file, parent: &str| (file, parent.to_string());
        assert_eq!(
            repository.undeclared_files(),
            [
                missing("crates/a/proofs/A/Other.antt", "crates/a/proofs/A.antt"),
                missing("crates/a/proofs/C.antt", "crates/a/proofs/Lib.antt"),
                missing("crates/a/specs/D.antt", "crates/a/specs/Lib.antt"),
            ]
        );
    }
}

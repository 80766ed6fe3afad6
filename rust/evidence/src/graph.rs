//! Which definitions the text of each definition and of the contracts refers to, and which are
//! reached from some of them.

use crate::parse::Source;
use crate::repository::{is_asked, Node, Repository};
use crate::scope::Scope;
use std::collections::{BTreeMap, BTreeSet};

/// The references between definitions.
pub struct Graph<'a> {
    references: BTreeMap<Node<'a>, BTreeSet<Node<'a>>>,
    /// The definitions that the contracts of functions refer to.
    pub contracts: BTreeSet<Node<'a>>,
    /// The definitions that attributes give to the tactics, for the proofs of functions.
    pub tactics: BTreeSet<Node<'a>>,
}

impl<'a> Graph<'a> {
    pub fn new(repository: &'a Repository) -> Graph<'a> {
        let sources = repository.sources.iter();
        let contracts = repository.contracts.iter();
        let contracts = contracts.filter(|(file, _)| !is_asked(file));
        let tactics = contracts.clone().flat_map(|(file, read)| {
            let paths = read.tactics.iter();
            paths.filter_map(|path| given_to_tactics(repository, file, path))
        });
        Graph {
            references: sources
                .flat_map(|(file, source)| references(repository, file, source))
                .collect(),
            tactics: tactics.collect(),
            contracts: contracts
                .flat_map(|(_, read)| {
                    Scope::new(repository, &read.imports).resolve(&read.references)
                })
                .collect(),
        }
    }

    /// Whether there is such a definition.
    pub fn has(&self, node: Node) -> bool {
        self.references.contains_key(&node)
    }

    /// Whether the text of a definition refers to another.
    pub fn refers(&self, from: Node, to: Node) -> bool {
        let references = self.references.get(&from);
        references.is_some_and(|references| references.contains(&to))
    }

    /// The definitions that are reached from some, these among them.
    pub fn reached(&self, from: impl IntoIterator<Item = Node<'a>>) -> BTreeSet<Node<'a>> {
        let mut reached = BTreeSet::new();
        let mut waiting: Vec<Node> = from.into_iter().collect();
        while let Some(node) = waiting.pop() {
            if reached.insert(node) {
                waiting.extend(self.references.get(&node).into_iter().flatten());
            }
        }
        reached
    }
}

/// The definition that a path in an attribute names, as `crate::proofs::Laws::law` in a crate's file.
fn given_to_tactics<'a>(repository: &'a Repository, file: &str, path: &str) -> Option<Node<'a>> {
    let own = file.split('/').nth(1)?;
    let (name, rest) = path.split_once("::")?;
    let name = if name == "crate" { own } else { name };
    let path = format!("Rattle.{name}.{}", rest.replace("::", "."));
    let (module, item) = path.rsplit_once('.')?;
    repository.definition_of(module, item)
}

/// The definitions of a file, each with those that its text refers to.
fn references<'a>(
    repository: &'a Repository,
    file: &'a str,
    source: &'a Source,
) -> impl Iterator<Item = (Node<'a>, BTreeSet<Node<'a>>)> {
    let definitions = &source.definitions;
    let scope = Scope::new(repository, &source.imports).with_definitions(file, definitions);
    definitions.iter().map(move |definition| {
        let name = &definition.name;
        (Node { file, name }, scope.resolve(&definition.references))
    })
}

#[cfg(test)]
mod tests {
    use super::*;
    use crate::repository::repository;

    const LAWS: &str = "crates/a/proofs/Laws.antt";

    fn node(name: &str) -> Node<'_> {
        Node { file: LAWS, name }
    }

    #[test]
    fn what_is_reached_is_reached_by_any_number_of_steps() {
        let text =
            "one : A\none = two\n\ntwo : A\ntwo = three one\n\nthree : A\n\nfour : A\nfour = one";
        let repository = repository(&[(LAWS, text)]);
        let graph = Graph::new(&repository);
        let reached = graph.reached([node("one")]);
        assert_eq!(
            reached,
            BTreeSet::from([node("one"), node("two"), node("three")])
        );
        assert!(graph.refers(node("one"), node("two")));
        assert!(!graph.refers(node("one"), node("three")));
        assert!(graph.has(node("four")) && !graph.has(node("five")));
    }

    #[test]
    fn contracts_refer_to_what_their_clauses_name() {
        let contract = "ghost use Rattle.a.proofs.Laws.{one as law, two};\n\
                        fn f()\n    ensures { law result }\n{\n    two();\n}";
        let repository = repository(&[
            (LAWS, "one : A\n\ntwo : A"),
            ("crates/b/src/lib.rt", contract),
        ]);
        let graph = Graph::new(&repository);
        assert_eq!(graph.contracts, BTreeSet::from([node("one")]));
        assert!(graph.tactics.is_empty());
    }

    #[test]
    fn attributes_give_what_their_paths_name() {
        let own =
            "#[tactic(auto, using(crate::proofs::Laws::one, std::proofs::Laws::two))]\nfn f() {}";
        let other = "#[tactic(auto, unfolding(a::proofs::Laws::three))]\nfn g() {}";
        let repository = repository(&[
            (LAWS, "one : A\n\ntwo : A\n\nthree : A"),
            ("crates/a/src/lib.rt", own),
            ("crates/b/src/lib.rt", other),
        ]);
        let graph = Graph::new(&repository);
        assert_eq!(graph.tactics, BTreeSet::from([node("one"), node("three")]));
        assert!(graph.contracts.is_empty());
    }

    #[test]
    fn what_the_crate_asked_asks_for_is_no_contract() {
        let asked = "ghost use Rattle.a.proofs.Laws.{one};\nfn f()\n    ensures { one }\n{\n}";
        let repository = repository(&[(LAWS, "one : A"), ("crates/asked/src/lib.rt", asked)]);
        assert!(Graph::new(&repository).contracts.is_empty());
    }
}

//! What must hold of the crates' statements and proofs; where it doesn't, the error.

use crate::graph::Graph;
use crate::imports::Import;
use crate::page::{Page, Statement, PAGE};
use crate::repository::{module_name, Node, Repository};
use std::collections::BTreeSet;

/// The record whose fields are what is established.
const RECORD: Node<'static> = Node {
    file: "crates/established/specs/Established.antt",
    name: "Established",
};

/// The value of that record, which has the proof of each field.
const VALUE: Node<'static> = Node {
    file: "crates/established/proofs/Established.antt",
    name: "all-established",
};

/// The value again, which the crate that asks has from the other, by the record's name.
const ASKED: Node<'static> = Node {
    file: "crates/asked/proofs/Asked.antt",
    name: "asked",
};

/// What is wrong with a statement on the page.
const UNREACHED: &str = "is reached neither from the record Established nor from a contract";

/// What is wrong with a definition.
const DEAD: &str = "is reached neither from what is established nor from a function";

/// All errors of the crates.
pub fn errors(page: &Page, repository: &Repository) -> Vec<String> {
    let graph = Graph::new(repository);
    [
        unknown_imports(repository),
        undeclared_files(repository),
        not_established(&graph),
        not_asked(&graph),
        unreached_statements(page, &graph),
        unread_files(page, &graph),
        dead_definitions(repository, &graph),
    ]
    .concat()
}

/// Imports of what no file declares. The prover refuses them too; here they show that a declaration
/// was not read, so that what it needs could wrongly seem dead.
fn unknown_imports(repository: &Repository) -> Vec<String> {
    let unknown = repository.imports().filter_map(|(file, import)| {
        let Import::Item { module, item, .. } = import else {
            return None;
        };
        let declaring = repository.file_of(module)?;
        let is_unknown = repository.definition_of(module, item).is_none();
        is_unknown.then(|| format!("{file}: {declaring} declares no {item}"))
    });
    unknown.collect()
}

/// Files that the prover doesn't read.
fn undeclared_files(repository: &Repository) -> Vec<String> {
    let undeclared = repository.undeclared_files().into_iter();
    undeclared
        .map(|(file, parent)| format!("{file}: {parent} has no line `mod {}`", module_name(file)))
        .collect()
}

/// That the record or its value isn't there, or that the value's text doesn't name the record.
fn not_established(graph: &Graph) -> Vec<String> {
    let missing = [RECORD, VALUE].into_iter().filter(|node| !graph.has(*node));
    let mut errors: Vec<String> = missing
        .map(|Node { file, name }| format!("{file} declares no {name}"))
        .collect();
    if errors.is_empty() && !graph.refers(VALUE, RECORD) {
        let Node { file, name } = VALUE;
        errors.push(format!("{file}: {name} is no value of {}", RECORD.name));
    }
    errors
}

/// That the crate that asks doesn't ask for the record, or doesn't have it from the value.
fn not_asked(graph: &Graph) -> Vec<String> {
    let Node { file, name } = ASKED;
    let asks = [RECORD, VALUE]
        .iter()
        .all(|node| graph.refers(ASKED, *node));
    let error = format!(
        "{file}: {name} isn't {} of type {}",
        VALUE.name, RECORD.name
    );
    if asks {
        Vec::new()
    } else {
        vec![error]
    }
}

/// Statements on the page that are reached neither from the record nor from a contract.
fn unreached_statements(page: &Page, graph: &Graph) -> Vec<String> {
    let reached = graph.reached(graph.contracts.iter().copied().chain([RECORD]));
    let unreached = page.statements.iter().filter(|Statement { name, file }| {
        file.contains("/specs/") && !reached.contains(&Node { file, name })
    });
    unreached
        .map(|Statement { name, file }| format!("{PAGE}: {name} in {file} {UNREACHED}"))
        .collect()
}

/// Files that a reader of the record has to read, and that the page doesn't name: those of the
/// definitions that are reached from it.
fn unread_files(page: &Page, graph: &Graph) -> Vec<String> {
    let reached = graph.reached([RECORD]).into_iter();
    let files: BTreeSet<&str> = reached.map(|node| node.file).collect();
    let unread = files.into_iter().filter(|file| !page.files.contains(*file));
    unread
        .map(|file| format!("{PAGE}: {file} is reached from the record and isn't on the page"))
        .collect()
}

/// Definitions that are reached neither from the record and its value nor from the contract or the
/// proof of a function. What attributes give to the tactics is of proofs.
fn dead_definitions(repository: &Repository, graph: &Graph) -> Vec<String> {
    let contracts = graph.contracts.iter().chain(&graph.tactics).copied();
    let functions = contracts.chain(repository.function_proofs());
    let reached = graph.reached(functions.chain([RECORD, VALUE]));
    let definitions = repository.product_definitions();
    let dead = definitions.filter(|(node, _)| !reached.contains(node));
    dead.map(|(Node { file, name }, definition)| {
        let line = definition.line;
        format!("{file}:{line}: {name} {DEAD}")
    })
    .collect()
}

#[cfg(test)]
mod tests {
    use super::*;
    use crate::repository::repository;

    /// A statement with its proof, the record and its value, functions with their proofs, and a crate
    /// that asks for the record.
    const FILES: [(&str, &str); 15] = [
        ("crates/a/specs/Lib.antt", "pub mod Sums"),
        (
            "crates/a/specs/Sums.antt",
            "pub SumsMeet : A\n\npub spare : A",
        ),
        ("crates/a/proofs/Lib.antt", "pub mod Sums\nmod Steps"),
        (
            "crates/a/proofs/Sums.antt",
            "use Rattle.a.specs.Sums.{SumsMeet}\n\
             pub sums-meet : SumsMeet\nsums-meet = help\n\nhelp : A",
        ),
        ("crates/a/proofs/Steps.antt", "pub step : A\n\npub turn : A"),
        (
            "crates/a/proofs/f/Proof.antt",
            "use Rattle.a.proofs.Steps.{step}\n\
             returns : A\nreturns = step\n\npub f_spec : A\nf_spec = returns",
        ),
        (
            "crates/a/proofs/m/g/Invariants.antt",
            "use Rattle.a.proofs.m.g.Given as goal\n\
             abbrev pub invariant-loop-i : goal.invariant-loop-i\ninvariant-loop-i l = most l.i\n\n\
             most : A",
        ),
        (
            "crates/a/proofs/m/g/Answers.antt",
            "use Rattle.a.proofs.Sums.{sums-meet}\nuse Rattle.a.proofs.m.g.Goals as goal\n\
             pub returns : goal.returns\nreturns c = kept c.loop-i.invariant\n\nkept : A",
        ),
        (
            "crates/a/src/lib.rt",
            "ghost use Rattle.a.specs.Sums.{spare};\n\
             fn f()\n    ensures { spare }\n{\n}\n\n\
             #[tactic(auto, using(crate::proofs::Steps::turn))]\nfn h() {}",
        ),
        ("crates/established/specs/Lib.antt", "pub mod Established"),
        (
            RECORD.file,
            "use Rattle.a.specs.Sums.{SumsMeet}\n\
             pub record Established : Type 0 where\n  pub sums : SumsMeet",
        ),
        ("crates/established/proofs/Lib.antt", "pub mod Established"),
        (
            VALUE.file,
            "use Rattle.a.proofs.Sums.{sums-meet}\n\
             use Rattle.established.specs.Established.{Established}\n\
             pub all-established : Established\nall-established = record { sums = sums-meet }",
        ),
        ("crates/asked/proofs/Lib.antt", "pub mod Asked"),
        (
            ASKED.file,
            "use Rattle.established.specs.Established.{Established}\n\
             use Rattle.established.proofs.Established.{all-established}\n\
             pub asked : Established\nasked = all-established\n\npub sums : A\nsums = asked.sums",
        ),
    ];

    const TEXT: &str = "`SumsMeet` in `crates/a/specs/Sums.antt`, `spare` in \
                        `crates/a/specs/Sums.antt`, `f` in `crates/a/src/lib.rt`, \
                        `crates/established/specs/Established.antt`";

    /// Holds the errors of the files, with a change in one of them, to those expected.
    fn expect(file: &str, from: &str, to: &str, expected: &[String]) {
        expect_of_all(&[(file, from, to)], expected);
    }

    /// Holds the errors of the files, with changes in some of them, to those expected.
    fn expect_of_all(changes: &[(&str, &str, &str)], expected: &[String]) {
        let changed = FILES.map(|(path, text)| {
            let change = changes.iter().find(|(file, ..)| *file == path);
            let text = change.map_or(text.to_string(), |(file, from, to)| {
                assert!(text.contains(from), "{from} in {file}");
                text.replace(from, to)
            });
            (path.to_string(), text)
        });
        let errors = errors(&Page::new(TEXT), &Repository::new(changed));
        assert_eq!(errors, expected, "of {changes:?}");
    }

    #[test]
    fn nothing_is_wrong_with_the_files() {
        assert!(errors(&Page::new(TEXT), &repository(&FILES)).is_empty());
    }

    #[test]
    fn a_law_that_is_used_no_more_is_dead() {
        let file = "crates/a/proofs/Sums.antt";
        expect(
            file,
            "= help",
            "= refl",
            &[format!("{file}:5: help {DEAD}")],
        );
    }

    #[test]
    fn a_law_that_is_only_imported_is_dead() {
        let dead = format!("crates/a/proofs/Steps.antt:1: step {DEAD}");
        expect("crates/a/proofs/f/Proof.antt", "= step", "= refl", &[dead]);
    }

    #[test]
    fn what_a_function_s_proof_leaves_behind_is_dead() {
        let file = "crates/a/proofs/f/Proof.antt";
        expect(
            file,
            "= returns",
            "= step",
            &[format!("{file}:2: returns {DEAD}")],
        );
        let file = "crates/a/proofs/m/g/Answers.antt";
        expect(file, "= kept", "=", &[format!("{file}:6: kept {DEAD}")]);
        let file = "crates/a/proofs/m/g/Invariants.antt";
        expect(file, "= most", "=", &[format!("{file}:5: most {DEAD}")]);
    }

    #[test]
    fn a_law_that_no_attribute_gives_to_the_tactics_any_more_is_dead() {
        let dead = format!("crates/a/proofs/Steps.antt:3: turn {DEAD}");
        expect(
            "crates/a/src/lib.rt",
            "using(crate::proofs::Steps::turn)",
            "",
            &[dead],
        );
    }

    #[test]
    fn a_proof_that_the_value_has_no_more_is_dead() {
        let file = "crates/a/proofs/Sums.antt";
        let dead = [
            format!("{file}:2: sums-meet {DEAD}"),
            format!("{file}:5: help {DEAD}"),
        ];
        expect(VALUE.file, "= sums-meet", "= refl", &dead);
    }

    #[test]
    fn a_statement_that_the_record_has_no_more_is_unreached() {
        let unreached = format!("{PAGE}: SumsMeet in crates/a/specs/Sums.antt {UNREACHED}");
        expect(RECORD.file, ": SumsMeet", ": A", &[unreached]);
    }

    #[test]
    fn a_statement_that_no_contract_names_any_more_is_unreached() {
        let file = "crates/a/specs/Sums.antt";
        let errors = [
            format!("{PAGE}: spare in {file} {UNREACHED}"),
            format!("{file}:3: spare {DEAD}"),
        ];
        expect("crates/a/src/lib.rt", "spare }", "A }", &errors);
        // also where the crate that asks names it
        let asked = "use Rattle.a.specs.Sums.{spare}\npub asked : Established × spare";
        let files = [
            ("crates/a/src/lib.rt", "spare }", "A }"),
            (ASKED.file, "pub asked : Established", asked),
        ];
        expect_of_all(&files, &errors);
    }

    #[test]
    fn a_file_that_the_page_leaves_out_is_unread() {
        let page = Page::new("`spare` in `crates/a/specs/Sums.antt`");
        let error = format!(
            "{PAGE}: {} is reached from the record and isn't on the page",
            RECORD.file
        );
        assert_eq!(errors(&page, &repository(&FILES)), [error]);
    }

    #[test]
    fn a_file_that_no_mod_line_declares_is_found() {
        let (file, lib) = ("crates/a/proofs/Steps.antt", "crates/a/proofs/Lib.antt");
        let error = format!("{file}: {lib} has no line `mod Steps`");
        expect(lib, "\nmod Steps", "", &[error]);
    }

    #[test]
    fn a_value_of_another_type_establishes_nothing() {
        let error = format!("{}: all-established is no value of Established", VALUE.file);
        expect(VALUE.file, "shed : Established", "shed : A", &[error]);
    }

    #[test]
    fn a_record_that_is_gone_is_found() {
        let files = FILES.into_iter().filter(|(file, _)| *file != RECORD.file);
        let repository = repository(&files.collect::<Vec<_>>());
        let error = format!("{} declares no Established", RECORD.file);
        assert_eq!(not_established(&Graph::new(&repository)), [error]);
    }

    #[test]
    fn a_value_that_is_not_asked_for_is_found() {
        let error = format!(
            "{}: asked isn't all-established of type Established",
            ASKED.file
        );
        expect(
            ASKED.file,
            "asked = all-established",
            "asked = refl",
            &[error.clone()],
        );
        expect(ASKED.file, "asked : Established", "asked : A", &[error]);
    }

    #[test]
    fn an_import_of_what_is_not_declared_is_found() {
        let file = "crates/a/src/lib.rt";
        let error = format!("{file}: crates/a/specs/Sums.antt declares no other");
        expect(file, "{spare}", "{spare, other}", &[error]);
    }
}

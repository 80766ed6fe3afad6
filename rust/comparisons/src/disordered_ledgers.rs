//! Calls on ledgers whose rows are out of order or share a day, while nothing else is wrong: each
//! is refused by number 2. With the rows in order, none is.

use crate::counts::Findings;
use crate::disorders::DISORDERS;
use crate::each_call::{compare_each_call, Subject, NAMES};
use crate::random::Random;
use crate::searched_ledgers::{searched_facts, shapes_and_sizes, Shape};
use calculator::packed::{pack, Facts};

const KIND: &str = "disordered ledgers";

/// The ledgers before they are disordered.
const IN_ORDER: &str = "rows in order";

/// Every sort.
pub fn sorts() -> Vec<String> {
    let kinds = DISORDERS.iter().map(|disorder| disorder.kind);
    kinds.chain([IN_ORDER]).map(str::to_string).collect()
}

/// Compares the calls on a ledger of every shape and number of rows, in order and in every kind of
/// disorder.
pub fn compare(findings: &mut Findings, seed: u64) {
    for (shape, rows) in shapes_and_sizes() {
        compare_ledger(findings, seed, shape, rows);
    }
}

fn compare_ledger(findings: &mut Findings, seed: u64, shape: &Shape, rows: usize) {
    let part = format!("{KIND}, {}", shape.name);
    let mut random = Random::new(seed, &part, rows as u64);
    let facts = searched_facts(&mut random, shape, rows);
    let place = format!("seed {seed}, {part}, {rows} rows");
    compare_rows(findings, &mut random, &facts, IN_ORDER, &place);
    for disorder in &DISORDERS {
        for rows in (disorder.disordered)(&mut random, &facts) {
            let disordered = Facts {
                rows,
                ..facts.clone()
            };
            compare_rows(findings, &mut random, &disordered, disorder.kind, &place);
        }
    }
}

/// Compares each call on the ledger of the facts, and counts it where each is as it must be.
fn compare_rows(
    findings: &mut Findings,
    random: &mut Random,
    facts: &Facts,
    sort: &str,
    place: &str,
) {
    findings.library.count_run(KIND);
    let place = format!("{place}, {sort}");
    let subject = Subject {
        ledger: &pack(facts),
        facts,
        refused: sort != IN_ORDER,
    };
    let names = compare_each_call(findings, random, &subject, &place);
    if names.len() == NAMES.len() {
        findings.disordered_ledgers.count(sort);
    }
}

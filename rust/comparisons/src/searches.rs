//! Calls that look for rows and for places among them, on ledgers of many numbers of rows: beside
//! every row of few and beside some of many, on every open contract. Each call gets the ledger as
//! it was made.

use crate::compared_calls::{compare_call, LedgerCall};
use crate::counts::Findings;
use crate::generator::contract_numbers;
use crate::places_met::count_call;
use crate::random::Random;
use crate::rows_met::rows_of;
use crate::searched_ledgers::{searched_facts, shapes_and_sizes, Shape, ALWAYS_OPEN};
use crate::searching_calls::{
    calls_beside_row, calls_on_contract, calls_on_row, calls_without_rows,
};
use calculator::book::BOOK_ENTRIES;
use calculator::calls::Call;
use calculator::packed::{pack, Facts, Row};
use std::collections::BTreeSet;

const KIND: &str = "searched ledgers";

/// The price of every entry of the book: none is missing.
const PRICE: u32 = 40_000;

/// The most rows of a ledger on which calls are made beside every row.
const FEW_ROWS: usize = 17;

/// The rows that are drawn from those of a larger ledger, and how many of the calls beside each of
/// them are.
const ROWS_DRAWN: usize = 50;
const CALLS_DRAWN: usize = 4;

/// Compares the calls on a ledger of every shape and number of rows.
pub fn compare(findings: &mut Findings, seed: u64) {
    for (shape, rows) in shapes_and_sizes() {
        compare_ledger(findings, seed, shape, rows);
    }
}

fn compare_ledger(findings: &mut Findings, seed: u64, shape: &Shape, rows: usize) {
    findings.library.count_run(KIND);
    let part = format!("{KIND}, {}", shape.name);
    let mut random = Random::new(seed, &part, rows as u64);
    let facts = searched_facts(&mut random, shape, rows);
    let ledger = pack(&facts);
    for call in calls(&mut random, &facts) {
        let ledger_call = LedgerCall {
            ledger: &ledger,
            book: &[PRICE; BOOK_ENTRIES],
            call: &call,
        };
        let expected = compare_call(findings, &ledger_call, || {
            format!("seed {seed}, {part}, {rows} rows")
        });
        let searches = &mut findings.searches;
        count_call(searches, &facts.rows, &call, &expected.outcome);
    }
}

/// The calls on the ledger of the facts.
fn calls(random: &mut Random, facts: &Facts) -> Vec<Call> {
    let rows = &facts.rows;
    let mut calls = Vec::new();
    for place in places(random, rows) {
        calls.extend(calls_beside_row(random, facts, place));
    }
    if rows.len() > FEW_ROWS {
        for _ in 0..ROWS_DRAWN {
            let place = random.below(rows.len());
            calls.extend(calls_drawn(random, facts, place));
        }
    }
    for contract in contract_numbers(facts, true) {
        calls.extend(calls_on_contract(random, contract));
    }
    for contract in ALWAYS_OPEN {
        if rows_of(facts, contract).next().is_none() {
            calls.extend(calls_without_rows(random, facts, contract));
        }
    }
    calls
}

/// The calls on a row, and a few that are drawn from those beside it.
fn calls_drawn(random: &mut Random, facts: &Facts, place: usize) -> Vec<Call> {
    let mut calls = calls_on_row(random, facts, &facts.rows[place]).to_vec();
    let mut beside = calls_beside_row(random, facts, place);
    for _ in 0..CALLS_DRAWN {
        calls.push(beside.swap_remove(random.below(beside.len())));
    }
    calls
}

/// The places of all rows where they are few; else the first two, the middle one and the last two
/// of all rows and of those of a contract.
fn places(random: &mut Random, rows: &[Row]) -> BTreeSet<usize> {
    let all = 0..rows.len();
    if rows.len() <= FEW_ROWS {
        return all.collect();
    }
    let contract = random.one_of(rows).contract;
    let all: Vec<usize> = all.collect();
    let mut of_contract = all.clone();
    of_contract.retain(|&place| rows[place].contract == contract);
    let places = landmarks(&all).into_iter();
    places.chain(landmarks(&of_contract)).collect()
}

/// The first two, the middle one and the last two.
fn landmarks(places: &[usize]) -> [usize; 5] {
    let last = places.len() - 1;
    let landmarks = [0, last.min(1), last / 2, last.saturating_sub(1), last];
    landmarks.map(|landmark| places[landmark])
}

#[cfg(test)]
mod tests {
    use super::{calls, landmarks, places};
    use crate::random::Random;
    use crate::searched_ledgers::{searched_facts, SHAPES};
    use calculator::calls::Call;

    #[test]
    fn all_places_of_few_rows_and_some_of_many() {
        let mut random = Random::new(1, "places", 0);
        let mut places_of = |rows| {
            let [.., shape] = &SHAPES;
            let facts = searched_facts(&mut random, shape, rows);
            places(&mut random, &facts.rows)
        };
        assert!(places_of(0).is_empty());
        assert!(places_of(17).into_iter().eq(0..17));
        let of_many = places_of(1_023);
        for place in [0, 1, 511, 1_021, 1_022] {
            assert!(of_many.contains(&place), "{place}");
        }
    }

    #[test]
    fn the_first_two_the_middle_one_and_the_last_two() {
        assert_eq!(landmarks(&[5, 6, 7, 8, 9, 10]), [5, 6, 7, 9, 10]);
        assert_eq!(landmarks(&[5, 6]), [5, 6, 5, 5, 6]);
        assert_eq!(landmarks(&[5]), [5; 5]);
    }

    /// Of few rows each is cancelled and rebilled by its own name and span.
    #[test]
    fn every_row_of_few_is_named() {
        for shape in &SHAPES {
            let mut random = Random::new(1, shape.name, 0);
            let facts = searched_facts(&mut random, shape, 17);
            let calls = calls(&mut random, &facts);
            for row in &facts.rows {
                let (contract, (first, last)) = (row.contract, row.bill.span());
                assert!(calls.contains(&Call::Cancel { contract, first }));
                let rebilled = calls.iter().any(|call| match call {
                    Call::Rebill(numbers) => {
                        (numbers.contract, numbers.first, numbers.last) == (contract, first, last)
                    }
                    _ => false,
                });
                assert!(rebilled, "{row:?}");
            }
        }
    }
}

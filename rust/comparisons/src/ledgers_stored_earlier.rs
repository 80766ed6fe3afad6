//! Calls on ledgers as they were stored before amounts were by day (document 02, paper 3): a row
//! has all its kWh at the rates of its first day. Where the amount is then another, the ledger is
//! malformed from now on; without a change inside any bill it is taken.

use crate::changes_inside::{amount_by_first_day, stretches};
use crate::changing_calls::CHANGING;
use crate::counts::Findings;
use crate::damaged_ledgers::random_facts;
use crate::each_call::{compare_each_call, Subject, NAMES};
use crate::random::Random;
use crate::rows_met::contract_of;
use calculator::codes::Territory;
use calculator::packed::{pack, Facts, Row};

const KIND: &str = "ledgers stored earlier";

/// How many ledgers are drawn; each is stored in three ways.
const LEDGERS: u64 = 1_200;

/// The calls that leave the facts of a ledger.
const CALLS_BEFORE: usize = 160;

/// How a ledger is stored.
struct Stored {
    name: &'static str,
    /// The facts as they are stored, or `None` where they can't be stored that way.
    facts: fn(&mut Random, &Facts) -> Option<Facts>,
    /// Whether every call is refused by number 2.
    refused: bool,
}

const STORED: [Stored; 3] = [
    Stored {
        name: "one amount by the first day",
        facts: with_one_amount_by_first_day,
        refused: true,
    },
    Stored {
        name: "all amounts by the first day",
        facts: with_all_amounts_by_first_day,
        refused: true,
    },
    Stored {
        name: "no change inside a bill",
        facts: without_changes,
        refused: false,
    },
];

/// Every sort.
pub fn sorts() -> Vec<String> {
    let mut sorts = Vec::new();
    for stored in &STORED {
        sorts.extend(NAMES.map(|name| sort(stored, name)));
    }
    sorts
}

/// Compares every call on the ledgers.
pub fn compare(findings: &mut Findings, seed: u64) {
    for number in 0..LEDGERS {
        compare_ledger(findings, seed, number);
    }
}

/// Compares every call on a ledger, in each way in which it can be stored.
fn compare_ledger(findings: &mut Findings, seed: u64, number: u64) {
    let mut random = Random::new(seed, KIND, number);
    let facts = random_facts(&mut random, territory(number), CHANGING, CALLS_BEFORE);
    for stored in &STORED {
        if let Some(facts) = (stored.facts)(&mut random, &facts) {
            findings.library.count_run(KIND);
            let place = format!("seed {seed}, {KIND}, number {number}, {}", stored.name);
            let subject = Subject {
                ledger: &pack(&facts),
                facts: &facts,
                refused: stored.refused,
            };
            for name in compare_each_call(findings, &mut random, &subject, &place) {
                let sort = sort(stored, name);
                findings.ledgers_stored_earlier.count(&sort);
            }
        }
    }
}

/// The territories in turn.
fn territory(number: u64) -> Territory {
    match number % 2 {
        0 => Territory::GreatBritain,
        _ => Territory::NorthernIreland,
    }
}

fn sort(stored: &Stored, name: &str) -> String {
    let outcome = if stored.refused { "refused" } else { "taken" };
    format!("{}, {name} {outcome}", stored.name)
}

/// The row with its amount by the first day, if that is another.
fn by_first_day(facts: &Facts, row: &Row) -> Option<Row> {
    let amount = amount_by_first_day(&contract_of(facts, row), &row.bill);
    (amount != row.amount).then_some(Row { amount, ..*row })
}

fn with_one_amount_by_first_day(random: &mut Random, facts: &Facts) -> Option<Facts> {
    let places = (0..facts.rows.len()).map(|place| (place, &facts.rows[place]));
    let others = places.filter_map(|(place, row)| Some((place, by_first_day(facts, row)?)));
    let others: Vec<(usize, Row)> = others.collect();
    if others.is_empty() {
        return None;
    }
    let (place, row) = random.one_of(&others);
    let mut stored = facts.clone();
    stored.rows[place] = row;
    Some(stored)
}

fn with_all_amounts_by_first_day(_: &mut Random, facts: &Facts) -> Option<Facts> {
    let rows = facts.rows.iter();
    let rows = rows.map(|row| by_first_day(facts, row).unwrap_or(*row));
    let stored = Facts {
        rows: rows.collect(),
        ..facts.clone()
    };
    (stored != *facts).then_some(stored)
}

/// The facts with the rows alone that have one stretch.
fn without_changes(_: &mut Random, facts: &Facts) -> Option<Facts> {
    let rows = facts.rows.iter();
    let rows = rows.filter(|row| stretches(&contract_of(facts, row), &row.bill) == 1);
    let stored = Facts {
        rows: rows.copied().collect(),
        ..facts.clone()
    };
    (!stored.rows.is_empty()).then_some(stored)
}

#[cfg(test)]
mod tests {
    use super::STORED;
    use crate::changing_calls::CHANGING;
    use crate::damaged_ledgers::random_facts;
    use crate::random::Random;
    use calculator::codes::Territory;
    use calculator::packed::{pack, unpack, Facts};

    fn drawn_facts(random: &mut Random) -> Facts {
        random_facts(random, Territory::GreatBritain, CHANGING, 200)
    }

    #[test]
    fn a_ledger_is_refused_just_where_an_amount_is_another() {
        let mut times = [0; 3];
        for number in 0..20 {
            let mut random = Random::new(1, "stored earlier", number);
            let facts = drawn_facts(&mut random);
            for (stored, times) in STORED.iter().zip(&mut times) {
                if let Some(facts) = (stored.facts)(&mut random, &facts) {
                    let well_formed = unpack(&pack(&facts)).is_some();
                    assert_eq!(well_formed, !stored.refused, "{}", stored.name);
                    *times += 1;
                }
            }
        }
        assert!(times.iter().all(|&times| times > 10), "{times:?}");
    }

    #[test]
    fn one_amount_or_all_are_by_the_first_day() {
        let mut most = 0;
        for number in 0..20 {
            let mut random = Random::new(1, "stored earlier", number);
            let facts = drawn_facts(&mut random);
            let mut others = |place: usize| {
                let stored = (STORED[place].facts)(&mut random, &facts)?;
                let rows = stored.rows.iter().zip(&facts.rows);
                Some(rows.filter(|(stored, row)| stored != row).count())
            };
            let (one, all) = (others(0), others(1));
            assert_eq!(one, all.map(|_| 1));
            most = most.max(all.unwrap_or_default());
        }
        assert!(most > 3);
    }
}

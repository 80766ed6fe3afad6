//! Histories on ledgers that hold rows which no call makes, so that the ledgers are packed from
//! facts. The calls on such rows are counted by what they do to them.

use crate::books::random_book;
use crate::call_made::CallMade;
use crate::counts::Findings;
use crate::damaged_ledgers::random_facts;
use crate::generator::{random_call, Profile, BILLING};
use crate::library_histories::History;
use crate::random::Random;
use crate::rows_met::contract_of;
use crate::sorts::Sorts;
use crate::stored_row_events::{concerns, event, sort};
use calculator::calls::{BillNumbers, Call};
use calculator::codes::Territory;
use calculator::facts::CONTRACTS;
use calculator::packed::{pack, Facts, Row};
use std::collections::BTreeSet;

/// Rows of one sort that no call makes.
pub struct StoredRows {
    /// The kind of the histories on ledgers that hold them.
    pub kind: &'static str,
    /// How many histories there are.
    pub histories: u64,
    /// Draws the facts of a ledger that holds such rows.
    pub draw_facts: fn(&mut Random) -> Facts,
    /// Whether a held row is one of them.
    pub includes: fn(&Facts, &Row) -> bool,
    /// The calls on them and on their contracts.
    pub profile: &'static Profile,
    /// The name under which a row is counted.
    pub name_of: fn(&Facts, &Row) -> String,
    /// What a rebill of a row does.
    pub event_of_rebill: fn(&CallMade, BillNumbers) -> Option<&'static str>,
    /// Where the calls are counted.
    pub sorts_in: fn(&mut Findings) -> &mut Sorts,
}

/// The ledgers' territories; index contracts are for Northern Ireland only.
const TERRITORIES: [Territory; 3] = [
    Territory::GreatBritain,
    Territory::NorthernIreland,
    Territory::NorthernIreland,
];

/// The most calls on a ledger.
const CALLS: usize = 200;

/// The facts that random calls leave, of which there are that many, before rows are altered.
pub fn facts_before(random: &mut Random, calls: usize) -> Facts {
    let territory = random.one_of(&TERRITORIES);
    random_facts(random, territory, BILLING, calls)
}

impl StoredRows {
    /// Compares the histories.
    pub fn compare(&self, findings: &mut Findings, seed: u64) {
        for number in 0..self.histories {
            self.compare_history(findings, seed, number);
        }
    }

    /// A history ends where no such row is left.
    fn compare_history(&self, findings: &mut Findings, seed: u64, number: u64) {
        let kind = self.kind;
        findings.library.count_run(kind);
        let mut random = Random::new(seed, kind, number);
        let facts = (self.draw_facts)(&mut random);
        let mut history = History {
            ledger: pack(&facts),
            facts,
        };
        for step in 0..CALLS {
            let aimed_at = self.alone(&history.facts);
            if aimed_at.rows.is_empty() {
                break;
            }
            let call = random_call(&mut random, &aimed_at, self.profile);
            let place = || format!("seed {seed}, {kind}, number {number}, call {step}");
            let book = random_book(&mut random, &call);
            let count = |findings: &mut Findings, made: &CallMade| {
                for sort in self.sorts_of_call(made) {
                    (self.sorts_in)(findings).count(&sort);
                }
            };
            history.compare_next_call(findings, &book, &call, count, place);
        }
    }

    /// The facts with such rows and their contracts alone, on which calls are drawn that meet them.
    fn alone(&self, facts: &Facts) -> Facts {
        let rows = facts.rows.iter();
        let rows = rows.filter(|row| (self.includes)(facts, row));
        let rows: Vec<Row> = rows.copied().collect();
        let mut contracts = [None; CONTRACTS];
        for row in &rows {
            contracts[row.contract as usize] = Some(contract_of(facts, row));
        }
        Facts {
            contracts,
            rows,
            ..*facts
        }
    }

    /// The sorts that a call met.
    fn sorts_of_call(&self, made: &CallMade) -> BTreeSet<String> {
        let rows = made.before.rows.iter();
        let rows = rows.filter(|row| concerns(made.call, row) && (self.includes)(made.before, row));
        let met = rows.filter_map(|row| {
            let event = match *made.call {
                Call::Rebill(numbers) => (self.event_of_rebill)(made, numbers),
                _ => event(made, row),
            };
            Some(sort(&(self.name_of)(made.before, row), event?))
        });
        met.collect()
    }
}

#[cfg(test)]
pub mod tests {
    use super::StoredRows;
    use crate::call_made::of_call;
    use crate::counts::Findings;
    use crate::larger_rows::LARGER_ROWS;
    use crate::random::Random;
    use crate::rows_across_months::ROWS_ACROSS_MONTHS;
    use crate::rows_met::row_of;
    use calculator::codes::Territory;
    use calculator::packed::{pack, unpack, Facts};
    use calculator::postings::PostingModule;
    use calculator::rates::{Bill, Certificate, Contract, Fuel, Kind};

    /// The contract, the span, the kWh and the ETII share of a row.
    pub type TestRow = (u32, (u32, u32), i64, i64);

    /// The facts of two electricity contracts, 5 and 6, of these kinds, with rows at R 31,980 and S
    /// 67,030.
    pub fn facts_of_rows(kinds: [Kind; 2], rows: &[TestRow]) -> Facts {
        let mut facts = Facts::fresh(Territory::GreatBritain);
        for (number, kind) in (5..).zip(kinds) {
            facts.contracts[number] = Some(Contract {
                fuel: Fuel::Electricity,
                kind,
                certificate: Certificate::None,
                amendment: None,
            });
        }
        for &(contract, (first_day, last_day), kwh, etii_share) in rows {
            let bill = Bill {
                first_day,
                last_day,
                kwh,
                etii_share,
                qhs_share: 0,
                reference_price: 31_980,
                supply_price: 67_030,
            };
            facts.rows.push(row_of(&facts, contract, bill));
        }
        facts
    }

    impl StoredRows {
        /// The sorts that a call of a name and its numbers meets on the facts, with a book in which
        /// every price is 31,980; each is one of those that are counted.
        pub fn met_by_call(&self, facts: &Facts, name: &str, numbers: &[u32]) -> Vec<String> {
            let mut module = PostingModule::from_facts(facts);
            let met = of_call(&mut module, &[31_980; 1_740], (name, numbers), |made| {
                self.sorts_of_call(made)
            });
            let mut findings = Findings::new();
            for sort in &met {
                (self.sorts_in)(&mut findings).count(sort);
            }
            met.into_iter().collect()
        }

        /// The facts of that many ledgers.
        pub fn drawn_facts(&self, ledgers: u64) -> Vec<Facts> {
            let random = |number| Random::new(1, self.kind, number);
            let facts = (0..ledgers).map(|number| (self.draw_facts)(&mut random(number)));
            facts.collect()
        }
    }

    #[test]
    fn the_ledgers_are_well_formed() {
        for rows in [ROWS_ACROSS_MONTHS, LARGER_ROWS] {
            for facts in rows.drawn_facts(20) {
                assert_eq!(unpack(&pack(&facts)), Some(facts));
            }
        }
    }
}

//! Calls on ledgers with one fault in what document 02, paper 5, asks of well-formed contracts and
//! rows, while nothing else is wrong: each is refused by number 2. Without a fault, none is.

use crate::amending_calls::AMENDING;
use crate::counts::Findings;
use crate::damaged_ledgers::random_facts;
use crate::damages::{edited, one_if_any};
use crate::each_call::{compare_each_call, Subject, NAMES};
use crate::generator::{contract_day, contract_of_number};
use crate::random::Random;
use crate::rows_met::{contract_of, row_of, rows_of};
use calculator::codes::{Territory, SCHEME_FIRST_DAY};
use calculator::dates::LAST_DAY;
use calculator::facts::CONTRACTS;
use calculator::layout::{AmendmentNumbers, ContractNumbers};
use calculator::packed::{pack, Facts, Row};
use calculator::rates::{Amendment, Contract, Kind};

const KIND: &str = "damaged amendments";

/// How many ledgers there are, each with every fault for which it has a place.
const LEDGERS: u64 = 400;

/// The calls that leave the facts of a ledger.
const CALLS_BEFORE: usize = 160;

/// The highest value of a day's 10 bits.
const HIGHEST_VALUE: u32 = (1 << 10) - 1;

/// The highest value of a contract's five last bits.
const HIGHEST_ZEROS: u32 = (1 << 5) - 1;

/// A fault in the amendment of one contract.
struct Fault {
    name: &'static str,
    /// Whether the contract of a number may get it.
    has_place: fn(&Facts, u32) -> bool,
    amendment: fn(&mut Random) -> AmendmentNumbers,
}

const FAULTS: [Fault; 11] = [
    Fault {
        name: "clear flag with three days",
        has_place: is_unamended,
        amendment: |random| AmendmentNumbers {
            amended: false,
            ..any_amendment(random)
        },
    },
    Fault {
        name: "clear flag with an original end day",
        has_place: is_unamended,
        amendment: |random| AmendmentNumbers {
            original_end_day: random.within(1..=LAST_DAY),
            ..AmendmentNumbers::default()
        },
    },
    Fault {
        name: "clear flag with a price-fix day",
        has_place: is_unamended,
        amendment: |random| AmendmentNumbers {
            price_fix_day: random.within(1..=LAST_DAY),
            ..AmendmentNumbers::default()
        },
    },
    Fault {
        name: "clear flag with an entry day",
        has_place: is_unamended,
        amendment: |random| AmendmentNumbers {
            entry_day: random.within(1..=LAST_DAY),
            ..AmendmentNumbers::default()
        },
    },
    Fault {
        name: "set flag with three zero days",
        has_place: is_fixed_without_rows,
        amendment: |_| AmendmentNumbers {
            amended: true,
            ..AmendmentNumbers::default()
        },
    },
    Fault {
        name: "amendment of a contract that isn't fixed",
        has_place: is_other_without_rows,
        amendment: any_amendment,
    },
    Fault {
        name: "amendment of a contract that isn't open",
        has_place: |facts, number| contract_of_number(facts, number).is_none(),
        amendment: any_amendment,
    },
    Fault {
        name: "original end day below 486",
        has_place: is_fixed_without_rows,
        amendment: |random| AmendmentNumbers {
            original_end_day: below_486(random),
            ..any_amendment(random)
        },
    },
    Fault {
        name: "original end day above 851",
        has_place: is_fixed_without_rows,
        amendment: |random| AmendmentNumbers {
            original_end_day: above_851(random),
            ..any_amendment(random)
        },
    },
    Fault {
        name: "price-fix day above 851",
        has_place: is_fixed_without_rows,
        amendment: |random| AmendmentNumbers {
            price_fix_day: above_851(random),
            ..any_amendment(random)
        },
    },
    Fault {
        name: "entry day above 851",
        has_place: is_fixed_without_rows,
        amendment: |random| AmendmentNumbers {
            entry_day: above_851(random),
            ..any_amendment(random)
        },
    },
];

/// The faults of other fields.
const LAST_BITS: &str = "last bits of an amended contract not zeros";
const ROW_ACROSS_END: &str = "row across the original end";

/// The ledgers before they are damaged.
const UNDAMAGED: &str = "undamaged";

/// Every sort.
pub fn sorts() -> Vec<String> {
    let names = FAULTS.iter().map(|fault| fault.name);
    let names = names.chain([LAST_BITS, ROW_ACROSS_END, UNDAMAGED]);
    names.map(str::to_string).collect()
}

/// Compares each call on the ledgers, undamaged and with every fault.
pub fn compare(findings: &mut Findings, seed: u64) {
    for number in 0..LEDGERS {
        let mut random = Random::new(seed, KIND, number);
        let territory = random.one_of(&[Territory::GreatBritain, Territory::NorthernIreland]);
        let facts = random_facts(&mut random, territory, AMENDING, CALLS_BEFORE);
        for (sort, ledger) in ledgers(&mut random, &facts) {
            findings.library.count_run(KIND);
            let place = format!("seed {seed}, {KIND}, number {number}, {sort}");
            let subject = Subject {
                ledger: &ledger,
                facts: &facts,
                refused: sort != UNDAMAGED,
            };
            let names = compare_each_call(findings, &mut random, &subject, &place);
            if names.len() == NAMES.len() {
                findings.damaged_amendments.count(sort);
            }
        }
    }
}

/// The ledger of the facts, and with every fault for which it has a place.
fn ledgers(random: &mut Random, facts: &Facts) -> Vec<(&'static str, Vec<u8>)> {
    let mut ledgers = vec![(UNDAMAGED, Some(pack(facts)))];
    for fault in &FAULTS {
        let amendment = (fault.amendment)(random);
        let ledger = with_contract(random, facts, fault.has_place, |numbers| {
            numbers.amendment = amendment;
        });
        ledgers.push((fault.name, ledger));
    }
    let zeros = any_last_bits(random);
    let ledger = with_contract(random, facts, is_amended, |numbers| numbers.zeros = zeros);
    ledgers.push((LAST_BITS, ledger));
    let ledger = with_row_across_end(random, facts).map(|facts| pack(&facts));
    ledgers.push((ROW_ACROSS_END, ledger));
    let ledgers = ledgers.into_iter();
    ledgers
        .filter_map(|(sort, ledger)| Some((sort, ledger?)))
        .collect()
}

/// The ledger with the fields of a contract edited that may be, if there is any.
fn with_contract(
    random: &mut Random,
    facts: &Facts,
    has_place: fn(&Facts, u32) -> bool,
    edit: impl FnOnce(&mut ContractNumbers),
) -> Option<Vec<u8>> {
    let numbers = (0..CONTRACTS as u32).filter(|&number| has_place(facts, number));
    let number = one_if_any(random, numbers)?;
    let ledger = pack(facts);
    Some(edited(&ledger, |numbers, _| {
        edit(&mut numbers.contracts[number as usize]);
    }))
}

/// The facts with an original end inside a row of a fixed contract. The amendment's entry day is the
/// original one, so that every row has its amount by either.
fn with_row_across_end(random: &mut Random, facts: &Facts) -> Option<Facts> {
    let rows = facts.rows.iter().filter(|row| {
        let (first, last) = row.bill.span();
        first < last && contract_of(facts, row).kind.is_fixed()
    });
    let row = one_if_any(random, rows)?;
    let (first, last) = row.bill.span();
    let contract = contract_of(facts, row);
    let (_, _, entry_day) = contract.kind.numbers();
    let mut across = facts.clone();
    across.contracts[row.contract as usize] = Some(Contract {
        amendment: Some(Amendment {
            original_end_day: random.within(first..=last - 1),
            price_fix_day: contract_day(random),
            entry_day,
        }),
        ..contract
    });
    let rated_anew = |row: &Row| row_of(&across, row.contract, row.bill);
    across.rows = facts.rows.iter().map(rated_anew).collect();
    Some(across)
}

/// An amendment that a fixed contract may have.
fn any_amendment(random: &mut Random) -> AmendmentNumbers {
    AmendmentNumbers {
        amended: true,
        original_end_day: random.within(SCHEME_FIRST_DAY..=LAST_DAY),
        price_fix_day: contract_day(random),
        entry_day: contract_day(random),
    }
}

/// A contract's five last bits: one of them, or all.
fn any_last_bits(random: &mut Random) -> u32 {
    let bit = 1 << random.below(5);
    random.one_of(&[bit, bit, HIGHEST_ZEROS])
}

fn below_486(random: &mut Random) -> u32 {
    let any = random.within(0..=SCHEME_FIRST_DAY - 1);
    random.one_of(&[0, SCHEME_FIRST_DAY - 1, any])
}

/// A value of a day's bits above the highest day.
fn above_851(random: &mut Random) -> u32 {
    let any = random.within(LAST_DAY + 1..=HIGHEST_VALUE);
    random.one_of(&[LAST_DAY + 1, HIGHEST_VALUE, any])
}

fn is_amended(facts: &Facts, number: u32) -> bool {
    let contract = contract_of_number(facts, number);
    contract.is_some_and(|contract| contract.amendment.is_some())
}

fn is_unamended(facts: &Facts, number: u32) -> bool {
    contract_of_number(facts, number).is_some() && !is_amended(facts, number)
}

fn is_fixed_without_rows(facts: &Facts, number: u32) -> bool {
    is_kind_without_rows(facts, number, Kind::is_fixed)
}

fn is_other_without_rows(facts: &Facts, number: u32) -> bool {
    is_kind_without_rows(facts, number, |kind| !kind.is_fixed())
}

/// A contract has no row whose amount a fault in its amendment could alter too.
fn is_kind_without_rows(facts: &Facts, number: u32, wanted: fn(Kind) -> bool) -> bool {
    let contract = contract_of_number(facts, number);
    contract.is_some_and(|contract| wanted(contract.kind))
        && rows_of(facts, number).next().is_none()
}

#[cfg(test)]
mod tests {
    use super::{ledgers, sorts, AMENDING, CALLS_BEFORE, UNDAMAGED};
    use crate::damaged_ledgers::random_facts;
    use crate::random::Random;
    use calculator::codes::Territory;
    use calculator::layout::LedgerNumbers;
    use calculator::packed::{pack, unpack};
    use std::collections::BTreeSet;

    #[test]
    fn a_ledger_with_a_fault_is_not_well_formed() {
        let mut met = BTreeSet::new();
        for number in 0..20 {
            let mut random = Random::new(1, "faults", number);
            let territory = Territory::NorthernIreland;
            let facts = random_facts(&mut random, territory, AMENDING, CALLS_BEFORE);
            for (sort, ledger) in ledgers(&mut random, &facts) {
                assert_eq!(unpack(&ledger).is_some(), sort == UNDAMAGED, "{sort}");
                met.insert(sort.to_string());
            }
        }
        assert!(sorts().into_iter().all(|sort| met.contains(&sort)));
    }

    /// One contract's fields differ, or with them the amounts of its rows.
    #[test]
    fn a_fault_is_in_one_contract() {
        let mut random = Random::new(1, "faults", 0);
        let facts = random_facts(&mut random, Territory::GreatBritain, AMENDING, CALLS_BEFORE);
        let undamaged = LedgerNumbers::read(&pack(&facts));
        for (sort, ledger) in ledgers(&mut random, &facts) {
            let damaged = LedgerNumbers::read(&ledger);
            let contracts = undamaged.contracts.iter().zip(&damaged.contracts);
            let others = contracts.filter(|(before, after)| before != after).count();
            assert_eq!(others, usize::from(sort != UNDAMAGED), "{sort}");
        }
    }
}

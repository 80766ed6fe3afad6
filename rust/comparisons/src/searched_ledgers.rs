//! Ledgers whose rows are searched: of many numbers of rows, which are spread over contracts and
//! days in several ways.

use crate::changing_calls::{prices_that_show_changes, shares_with_qhs};
use crate::generator::contract_day;
use crate::random::Random;
use crate::rows_met::row_of;
use calculator::codes::{Territory, QHS_FIRST_DAY, SCHEME_FIRST_DAY};
use calculator::dates::LAST_DAY;
use calculator::facts::CONTRACTS;
use calculator::packed::{Facts, Row};
use calculator::rates::{Bill, Certificate, Contract, Fuel, Kind};

/// How many rows a ledger has: few, about as many as a power of two, and as many as there can be.
const SIZES: [usize; 15] = [0, 1, 2, 3, 4, 5, 7, 8, 9, 15, 16, 17, 255, 1_023, 1_024];

/// The contracts that are open in every ledger, with or without rows: the first three, two in the
/// middle and the last two.
pub const ALWAYS_OPEN: [u32; 7] = [0, 1, 2, 31, 32, 62, 63];

/// The days of the scheme.
const DAYS: u32 = LAST_DAY - SCHEME_FIRST_DAY + 1;

/// The most days that a row and the gap before it have.
const MOST_DAYS: u32 = 40;

/// One row in that many may have shares.
const SHARES_ONCE_IN: usize = 4;

/// The spans of so many rows of a contract, ascending.
type Spans = fn(&mut Random, u32) -> Vec<(u32, u32)>;

/// How the rows of a ledger are spread.
pub struct Shape {
    pub name: &'static str,
    /// The contracts that may have rows, ascending.
    contracts: fn() -> Vec<u32>,
    /// The contracts of so many rows, each one of those given, ascending.
    contracts_of_rows: fn(&mut Random, &[u32], usize) -> Vec<u32>,
    /// The days of a contract's rows.
    spans: Spans,
}

/// All shapes. Where rows are few, some of the contracts that may have rows have none.
pub const SHAPES: [Shape; 9] = [
    Shape {
        name: "contract 0 alone",
        contracts: || vec![0],
        contracts_of_rows: evenly,
        spans: from_the_first_day,
    },
    Shape {
        name: "contract 63 alone",
        contracts: || vec![63],
        contracts_of_rows: evenly,
        spans: to_the_last_day,
    },
    Shape {
        name: "contracts 0 and 63",
        contracts: || vec![0, 63],
        contracts_of_rows: evenly,
        spans: with_gaps,
    },
    Shape {
        name: "contracts 31 and 32",
        contracts: || vec![31, 32],
        contracts_of_rows: evenly,
        spans: from_the_first_day,
    },
    Shape {
        name: "contracts 0, 1 and 63",
        contracts: || vec![0, 1, 63],
        contracts_of_rows: evenly,
        spans: with_gaps,
    },
    Shape {
        name: "three contracts",
        contracts: || vec![20, 31, 40],
        contracts_of_rows: evenly,
        spans: with_gaps,
    },
    Shape {
        name: "every third contract",
        contracts: || (1..CONTRACTS as u32).step_by(3).collect(),
        contracts_of_rows: evenly,
        spans: with_gaps,
    },
    Shape {
        name: "every contract",
        contracts: || (0..CONTRACTS as u32).collect(),
        contracts_of_rows: evenly,
        spans: to_the_last_day,
    },
    Shape {
        name: "contracts drawn from all but 31",
        contracts: || {
            (0..CONTRACTS as u32)
                .filter(|&number| number != 31)
                .collect()
        },
        contracts_of_rows: drawn,
        spans: of_any_days,
    },
];

/// Every shape, with every number of rows for which it has room.
pub fn shapes_and_sizes() -> impl Iterator<Item = (&'static Shape, usize)> {
    let shapes: &'static [Shape] = &SHAPES;
    let sizes = |shape: &'static Shape| SIZES.map(|rows| (shape, rows));
    let all = shapes.iter().flat_map(sizes);
    all.filter(|(shape, rows)| shape.has_room(*rows))
}

impl Shape {
    /// Whether a ledger of the shape has room for so many rows.
    fn has_room(&self, rows: usize) -> bool {
        rows <= (self.contracts)().len() * DAYS as usize
    }
}

/// The facts of a ledger of the shape with so many rows, for which it has room.
pub fn searched_facts(random: &mut Random, shape: &Shape, rows: usize) -> Facts {
    let contracts = (shape.contracts)();
    let mut facts = Facts::fresh(Territory::GreatBritain);
    for &number in contracts.iter().chain(&ALWAYS_OPEN) {
        facts.contracts[number as usize] = Some(any_contract(random));
    }
    let contracts_of_rows = (shape.contracts_of_rows)(random, &contracts, rows);
    for number in contracts {
        let of_contract = contracts_of_rows.iter().filter(|&&row| row == number);
        for span in (shape.spans)(random, of_contract.count() as u32) {
            let row = any_row(random, &facts, number, span);
            facts.rows.push(row);
        }
    }
    facts
}

/// A flexible or fixed contract, whose bills may touch several months.
fn any_contract(random: &mut Random) -> Contract {
    let fixed = Kind::Fixed {
        price_fix_day: contract_day(random),
        entry_day: contract_day(random),
    };
    let certificates = [
        Certificate::None,
        Certificate::Etii {
            effective_day: random.within(SCHEME_FIRST_DAY..=LAST_DAY),
        },
        Certificate::Qhs {
            effective_day: random.within(QHS_FIRST_DAY..=LAST_DAY),
        },
    ];
    Contract {
        fuel: random.one_of(&[Fuel::Electricity, Fuel::Gas]),
        kind: random.one_of(&[Kind::Flexible, fixed]),
        certificate: random.one_of(&certificates),
        amendment: None,
    }
}

/// A row of an open contract, at prices at which each class has a rate of its own.
fn any_row(random: &mut Random, facts: &Facts, contract: u32, span: (u32, u32)) -> Row {
    let open = facts.contracts[contract as usize].expect("the contract is open");
    let (supply_price, reference_price) = prices_that_show_changes(random, open.fuel);
    let kwh = random.within(1_000..=99_999);
    let (etii_share, qhs_share) = if random.once_in(SHARES_ONCE_IN) {
        shares_with_qhs(random, kwh)
    } else {
        (0, 0)
    };
    let bill = Bill {
        first_day: span.0,
        last_day: span.1,
        kwh: kwh.into(),
        etii_share: etii_share.into(),
        qhs_share: qhs_share.into(),
        reference_price: reference_price.into(),
        supply_price: supply_price.into(),
    };
    row_of(facts, contract, bill)
}

/// Each contract has as many rows as any other, or one more.
fn evenly(_: &mut Random, contracts: &[u32], rows: usize) -> Vec<u32> {
    let contract = |row| contracts[row * contracts.len() / rows];
    (0..rows).map(contract).collect()
}

fn drawn(random: &mut Random, contracts: &[u32], rows: usize) -> Vec<u32> {
    let mut drawn: Vec<u32> = (0..rows).map(|_| random.one_of(contracts)).collect();
    drawn.sort();
    drawn
}

/// Rows of one day without gaps, from the scheme's first day on.
fn from_the_first_day(_: &mut Random, rows: u32) -> Vec<(u32, u32)> {
    let days = SCHEME_FIRST_DAY..SCHEME_FIRST_DAY + rows;
    days.map(|day| (day, day)).collect()
}

/// Rows of one day without gaps, up to the scheme's last day.
fn to_the_last_day(random: &mut Random, rows: u32) -> Vec<(u32, u32)> {
    moved_to_the_last_day(from_the_first_day(random, rows))
}

/// Rows of one day and of many, with gaps of no day, of one and of many before them; half of the
/// times up to the scheme's last day.
fn with_gaps(random: &mut Random, rows: u32) -> Vec<(u32, u32)> {
    let mut free = SCHEME_FIRST_DAY;
    let mut spans = Vec::new();
    for rows_left in (1..=rows).rev() {
        let most = MOST_DAYS.min((LAST_DAY + 1 - free) / rows_left);
        let days = random.within(1..=most);
        let days = random.one_of(&[1, days]);
        let gap = random.within(0..=most - days);
        let gap = random.one_of(&[0, gap.min(1), gap]);
        let first = free + gap;
        free = first + days;
        spans.push((first, free - 1));
    }
    if random.once_in(2) {
        moved_to_the_last_day(spans)
    } else {
        spans
    }
}

fn of_any_days(random: &mut Random, rows: u32) -> Vec<(u32, u32)> {
    let spans: [Spans; 3] = [from_the_first_day, to_the_last_day, with_gaps];
    random.one_of(&spans)(random, rows)
}

/// The spans as many days later as it takes for the last one to end with the scheme.
fn moved_to_the_last_day(spans: Vec<(u32, u32)>) -> Vec<(u32, u32)> {
    let days = spans.last().map_or(0, |(_, last)| LAST_DAY - last);
    let spans = spans.into_iter();
    spans
        .map(|(first, last)| (first + days, last + days))
        .collect()
}

#[cfg(test)]
mod tests {
    use super::{searched_facts, shapes_and_sizes, ALWAYS_OPEN, SIZES};
    use crate::random::Random;
    use calculator::packed::{pack, unpack, Facts};
    use std::collections::BTreeSet;

    /// The facts of a ledger of every shape and size, after the name of the shape and the size.
    fn drawn_facts() -> Vec<(&'static str, usize, Facts)> {
        let facts = shapes_and_sizes().map(|(shape, rows)| {
            let mut random = Random::new(1, shape.name, rows as u64);
            (shape.name, rows, searched_facts(&mut random, shape, rows))
        });
        facts.collect()
    }

    #[test]
    fn the_ledgers_are_well_formed_and_have_their_rows() {
        for (name, rows, facts) in drawn_facts() {
            assert_eq!(facts.rows.len(), rows, "{name}");
            assert!(unpack(&pack(&facts)) == Some(facts), "{name}, {rows} rows");
        }
    }

    #[test]
    fn a_ledger_of_every_size_is_drawn() {
        let sizes: BTreeSet<usize> = drawn_facts().iter().map(|&(_, rows, _)| rows).collect();
        assert!(sizes.into_iter().eq(SIZES));
        let alone = |contract: u32| {
            drawn_facts().into_iter().any(|(_, rows, facts)| {
                rows == 255 && facts.rows.iter().all(|row| row.contract == contract)
            })
        };
        assert!(alone(0) && alone(63));
    }

    /// Open contracts without rows before the first row, between rows and after the last row.
    #[test]
    fn contracts_without_rows_are_drawn() {
        let mut drawn = [0; 3];
        for (_, _, facts) in drawn_facts() {
            let with_rows: BTreeSet<u32> = facts.rows.iter().map(|row| row.contract).collect();
            let (Some(first), Some(last)) = (with_rows.first(), with_rows.last()) else {
                continue;
            };
            for number in ALWAYS_OPEN {
                assert!(facts.contracts[number as usize].is_some());
                if !with_rows.contains(&number) {
                    drawn[usize::from(*first < number) + usize::from(*last < number)] += 1;
                }
            }
        }
        assert!(drawn.iter().all(|&times| times > 50), "{drawn:?}");
    }

    #[test]
    fn rows_and_gaps_of_one_day_and_of_many_are_drawn() {
        let mut days = BTreeSet::new();
        let mut gaps = BTreeSet::new();
        let mut at_ends = BTreeSet::new();
        for (_, _, facts) in drawn_facts() {
            for row in &facts.rows {
                let (first, last) = row.bill.span();
                days.insert(last - first + 1);
                at_ends.extend(
                    [first, last]
                        .into_iter()
                        .filter(|day| [486, 851].contains(day)),
                );
            }
            let neighbours = facts.rows.windows(2);
            let of_contract = neighbours.filter(|rows| rows[0].contract == rows[1].contract);
            gaps.extend(of_contract.map(|rows| rows[1].bill.first_day - rows[0].bill.last_day - 1));
        }
        for few in [1, 2, 3] {
            assert!(days.contains(&few) && gaps.contains(&few), "{few}");
        }
        assert!(gaps.contains(&0));
        assert!(days.len() > 20 && gaps.len() > 20);
        assert!(at_ends.into_iter().eq([486, 851]));
    }
}

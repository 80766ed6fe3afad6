//! Random calls that give bills a change inside (document 02, paper 3): bills across the effective
//! day of their contract's certificate, across day 792 or across both, rebills of them with and
//! without a QHS share, and certificates that begin inside them.

use crate::generator::{
    amend, bill_numbers, cancel, cert, claim, contract_day, contract_of_number, day_of_span,
    free_number, free_span, held_row, open_contract, rebill, report, total, Profile,
};
use crate::random::Random;
use crate::rows_met::rows_of;
use calculator::calls::{BillNumbers, Call};
use calculator::codes::{QHS_FIRST_DAY, SCHEME_FIRST_DAY};
use calculator::dates::LAST_DAY;
use calculator::packed::{Facts, Row};
use calculator::rates::{Fuel, Kind, NEW_QHS_MINIMUM_DAY};

/// Few contracts, whose bills are rated again and again.
pub const CHANGING: &Profile = &[
    (8, open_by_minimum),
    (30, bill_across_changes),
    (60, rebill_to_show_changes),
    (50, cert_inside),
    (8, cancel),
    (2, rebill),
    (2, cert),
    (1, claim),
    (2, report),
    (1, total),
    (1, amend),
];

/// The last day of the old QHS minimum.
const LAST_DAY_OF_OLD_MINIMUM: u32 = NEW_QHS_MINIMUM_DAY - 1;

/// The most days that a bill across changes has before the first of them, and from the last on.
const MOST_DAYS_BESIDE_CHANGES: u32 = 20;

/// One bill in that many is drawn as any other is.
const OTHER_BILL_ONCE_IN: usize = 6;

/// One row in that many is drawn from all rows, and not from those across day 792.
const OTHER_ROW_ONCE_IN: usize = 8;

/// One contract to bill in that many is drawn from all open ones, and not from those without rows.
const OTHER_CONTRACT_ONCE_IN: usize = 8;

/// An open of a contract that is mostly flexible or fixed, for others have no bill across day
/// 792.
fn open_by_minimum(random: &mut Random, facts: &Facts) -> Call {
    let kind = random.one_of(&[0, 0, 0, 1, 2, 2, 2, 2]);
    open_of_kind(random, facts, kind)
}

/// A day of entry that is before day 792 as often as it isn't.
pub fn entry_day_by_minimum(random: &mut Random) -> u32 {
    let entry_days = [
        random.within(0..=LAST_DAY_OF_OLD_MINIMUM),
        LAST_DAY_OF_OLD_MINIMUM,
        NEW_QHS_MINIMUM_DAY,
        random.within(NEW_QHS_MINIMUM_DAY..=LAST_DAY),
    ];
    random.one_of(&entry_days)
}

/// An open of a contract of the kind.
pub fn open_of_kind(random: &mut Random, facts: &Facts, kind: u32) -> Call {
    let (price_fix_day, entry_day) = match kind {
        0 => (contract_day(random), entry_day_by_minimum(random)),
        _ => (0, 0),
    };
    Call::Open {
        contract: free_number(random, facts),
        fuel: random.within(0..=1),
        kind,
        price_fix_day,
        entry_day,
    }
}

/// A bill across the days on which its class or its QHS minimum may change, mostly of a contract
/// without rows.
fn bill_across_changes(random: &mut Random, facts: &Facts) -> Call {
    let contract = contract_to_bill(random, facts);
    let days = days_of_changes(facts, contract);
    let draw = |random: &mut Random| span_across(random, &days);
    let span = free_span(random, facts, contract, draw);
    Call::Bill(numbers_that_show_changes(random, facts, contract, span))
}

/// The rebill of a row, which keeps its span, at prices that mostly show changes.
fn rebill_to_show_changes(random: &mut Random, facts: &Facts) -> Call {
    let Some(row) = row_across_changes(random, facts, |_| true) else {
        return bill_across_changes(random, facts);
    };
    let span = row.bill.span();
    Call::Rebill(numbers_that_show_changes(random, facts, row.contract, span))
}

/// A certificate that begins inside a row without shares or at an edge of it. One of a QHS may
/// also begin before the row, and mostly begins before day 792.
fn cert_inside(random: &mut Random, facts: &Facts) -> Call {
    let Some(row) = row_across_changes(random, facts, |row| !row.bill.has_shares()) else {
        return cert(random, facts);
    };
    let span = row.bill.span();
    let class = random.one_of(&[0, 1, 2, 2, 2, 2, 2]);
    let effective_day = match class {
        0 => 0,
        1 => day_of_span(random, span),
        _ => effective_day_of_qhs(random, span),
    };
    Call::Cert {
        contract: row.contract,
        class,
        effective_day,
    }
}

/// The effective day of a QHS certificate for a row of the span.
fn effective_day_of_qhs(random: &mut Random, span: (u32, u32)) -> u32 {
    let (first, _) = span;
    match random.below(5) {
        0 if QHS_FIRST_DAY < first => random.within(QHS_FIRST_DAY..=first),
        1..4 if first < LAST_DAY_OF_OLD_MINIMUM => {
            random.within(first + 1..=LAST_DAY_OF_OLD_MINIMUM)
        }
        _ => day_of_span(random, span),
    }
}

/// An open contract, mostly one without rows.
fn contract_to_bill(random: &mut Random, facts: &Facts) -> u32 {
    let numbered = (0..).zip(&facts.contracts);
    let open = numbered.filter_map(|(number, contract)| contract.map(|_| number));
    let free = open.filter(|&number| rows_of(facts, number).next().is_none());
    let free: Vec<u32> = free.collect();
    let one = random.mostly_one_of(&free, OTHER_CONTRACT_ONCE_IN);
    one.unwrap_or_else(|| open_contract(random, facts))
}

fn rows_across_day_792(facts: &Facts) -> impl Iterator<Item = &Row> {
    facts.rows.iter().filter(|row| {
        let (first, last) = row.bill.span();
        first < NEW_QHS_MINIMUM_DAY && NEW_QHS_MINIMUM_DAY <= last
    })
}

/// A held row, mostly one across day 792 that is wanted.
fn row_across_changes(
    random: &mut Random,
    facts: &Facts,
    wanted: impl Fn(&Row) -> bool,
) -> Option<Row> {
    let rows: Vec<Row> = rows_across_day_792(facts)
        .filter(|row| wanted(row))
        .copied()
        .collect();
    let one = random.mostly_one_of(&rows, OTHER_ROW_ONCE_IN);
    one.or_else(|| held_row(random, facts))
}

/// The days on which the class or the QHS minimum of the contract's bills may change: day 792,
/// twice as likely, and the effective day of its certificate, if it has one.
fn days_of_changes(facts: &Facts, contract: u32) -> Vec<u32> {
    let certificate = contract_of_number(facts, contract).map(|contract| contract.certificate);
    let effective_day = certificate.map(|certificate| certificate.numbers().1);
    let effective_day = effective_day.filter(|&day| day != 0);
    let days = [NEW_QHS_MINIMUM_DAY; 2].into_iter();
    days.chain(effective_day).collect()
}

/// A span of the scheme across one of the days or across two: some start with the first of them
/// or the day before it, and some end with the last of them or the day before it.
fn span_across(random: &mut Random, days: &[u32]) -> (u32, u32) {
    let (one, other) = (random.one_of(days), random.one_of(days));
    let beside = |random: &mut Random| {
        let any = random.within(0..=MOST_DAYS_BESIDE_CHANGES);
        random.one_of(&[0, 0, 1, any, any, any, any, any, any])
    };
    let first = (one.min(other) - beside(random)).max(SCHEME_FIRST_DAY);
    let last = (one.max(other) + beside(random) - 1).min(LAST_DAY);
    (first, last.max(first))
}

/// The numbers of a bill, mostly at prices that show a change inside in the amount; then half of
/// the bills have a QHS share and the others no shares.
pub fn numbers_that_show_changes(
    random: &mut Random,
    facts: &Facts,
    contract: u32,
    span: (u32, u32),
) -> BillNumbers {
    let numbers = bill_numbers(random, facts, contract, span);
    let open = contract_of_number(facts, contract);
    let Some(contract) = open.filter(|_| !random.once_in(OTHER_BILL_ONCE_IN)) else {
        return numbers;
    };
    let kwh = numbers.kwh.max(1);
    let (etii_share, qhs_share) = shares_with_qhs(random, kwh);
    let (supply, reference) = prices_that_show_changes(random, contract.fuel);
    BillNumbers {
        kwh,
        supply,
        wap: match contract.kind {
            Kind::Flexible => reference,
            Kind::Fixed { .. } | Kind::Variable | Kind::DayAheadIndex => numbers.wap,
        },
        etii_share,
        qhs_share,
        ..numbers
    }
}

/// No shares, a QHS share, or that and an ETII share of a bill of that many kWh.
pub fn shares_with_qhs(random: &mut Random, kwh: u32) -> (u32, u32) {
    let qhs_share = random.within(1..=kwh);
    let etii_share = random.within(0..=kwh - qhs_share);
    random.one_of(&[(0, 0), (0, 0), (0, qhs_share), (etii_share, qhs_share)])
}

/// S and R at which every class and, but for a few S, either QHS minimum has a rate of its own:
/// the baseline and the ETII part have their maximum, and R is above the margins over both QHS
/// minimums.
pub fn prices_that_show_changes(random: &mut Random, fuel: Fuel) -> (u32, u32) {
    match fuel {
        Fuel::Electricity => (
            random.within(34_001..=42_000),
            random.within(34_001..=80_000),
        ),
        Fuel::Gas => (
            random.within(13_900..=17_000),
            random.within(13_900..=30_000),
        ),
    }
}

#[cfg(test)]
mod tests {
    use super::{prices_that_show_changes, span_across, CHANGING};
    use crate::changes_inside::{change_shown, Change};
    use crate::damaged_ledgers::random_facts;
    use crate::random::Random;
    use crate::rows_met::contract_of;
    use calculator::codes::Territory;
    use calculator::packed::{Facts, Row};
    use calculator::rates::{rate, Bill, Certificate, Contract, Fuel, Kind};
    use std::collections::BTreeSet;

    #[test]
    fn spans_at_every_edge_of_the_days_are_drawn() {
        let mut random = Random::new(1, "spans", 0);
        let drawn: BTreeSet<(u32, u32)> = (0..20_000)
            .map(|_| span_across(&mut random, &[792, 785]))
            .collect();
        assert!(drawn.iter().all(|&(first, last)| first <= last));
        for span in [
            (792, 792),
            (791, 792),
            (792, 800),
            (785, 792),
            (784, 792),
            (780, 791),
            (780, 800),
            (785, 785),
            (780, 784),
        ] {
            assert!(drawn.contains(&span), "{span:?}");
        }
    }

    #[test]
    fn every_class_and_either_minimum_has_a_rate_of_its_own() {
        let mut random = Random::new(1, "prices", 0);
        for fuel in [Fuel::Electricity, Fuel::Gas] {
            let (supply_price, reference_price) = prices_that_show_changes(&mut random, fuel);
            let rate_on = |first_day, certificate| {
                let contract = Contract {
                    fuel,
                    kind: Kind::Flexible,
                    certificate,
                    amendment: None,
                };
                let bill = Bill {
                    first_day,
                    reference_price: reference_price.into(),
                    supply_price: supply_price.into(),
                    ..Bill::default()
                };
                rate(&contract, &bill)
            };
            let rates = BTreeSet::from([
                rate_on(792, Certificate::None),
                rate_on(792, Certificate::Etii { effective_day: 486 }),
                rate_on(791, Certificate::Qhs { effective_day: 511 }),
                rate_on(792, Certificate::Qhs { effective_day: 511 }),
            ]);
            assert_eq!(rates.len(), 4, "{fuel:?} {supply_price} {reference_price}");
        }
    }

    /// The rows that histories leave have every change.
    #[test]
    fn bills_with_every_change_are_drawn() {
        let change = |facts: &Facts, row: &Row| change_shown(&contract_of(facts, row), &row.bill);
        let mut drawn = Vec::new();
        for number in 0..60 {
            let mut random = Random::new(1, "changes", number);
            let facts = random_facts(&mut random, Territory::GreatBritain, CHANGING, 200);
            drawn.extend(facts.rows.iter().filter_map(|row| change(&facts, row)));
        }
        for change in Change::ALL {
            assert!(drawn.contains(&change), "{change:?}");
        }
    }
}

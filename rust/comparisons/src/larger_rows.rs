//! Rows of more kWh than a bill may give. No call makes such a row, but one that is stored stands
//! and is re-rated like others (document 02, paper 6).

use crate::call_made::CallMade;
use crate::generator::{
    amend, bill, bill_numbers, cancel, cert, claim, held_row, rebill, report, shares_within, total,
    Profile,
};
use crate::most_kwh_met::is_refused_for_kwh;
use crate::random::Random;
use crate::rows_met::row_of;
use crate::stored_row_events;
use crate::stored_rows::{facts_before, StoredRows};
use calculator::calls::{BillNumbers, Call};
use calculator::codes::{MOST_KWH_GIVEN, MOST_KWH_STORED};
use calculator::packed::{Facts, Row};
use calculator::rates::Bill;

pub const LARGER_ROWS: StoredRows = StoredRows {
    kind: "histories of stored rows of more kWh than a bill may give",
    histories: 350,
    draw_facts: stored_facts,
    includes: is_larger,
    profile: ON_LARGER_ROWS,
    name_of: |_, row| name(row.bill.kwh).to_string(),
    event_of_rebill,
    sorts_in: |findings| &mut findings.larger_rows,
};

/// Calls on the rows and on their contracts. Rebills with the most kWh and with more have draws of
/// their own, since other rebills seldom have either.
const ON_LARGER_ROWS: &Profile = &[
    (2, amend),
    (11, bill),
    (18, rebill),
    (12, rebill_with_most_kwh),
    (12, rebill_with_more_kwh),
    (23, cert),
    (12, cancel),
    (3, claim),
    (7, report),
    (3, total),
];

/// The calls that leave the facts of a ledger before rows are given more kWh.
const CALLS_BEFORE: usize = 100;

/// The fewest kWh of a larger row.
const FEWEST_KWH: u32 = MOST_KWH_GIVEN + 1;

const FEWEST: &str = "row of 40,000,001 kWh";
const ONE_BELOW_MOST: &str = "row of 99,999,999 kWh";
const MOST: &str = "row of 100,000,000 kWh";
const BETWEEN: &str = "row of 40,000,002 to 99,999,998 kWh";

/// A row by its kWh.
const NAMES: [&str; 4] = [FEWEST, BETWEEN, ONE_BELOW_MOST, MOST];

const REBILL_REFUSED: &str = "rebilled with more than 40,000,000 kWh and refused by 8";
const REBILLED_WITH_MOST: &str = "rebilled with 40,000,000 kWh";
const REBILLED_WITH_FEWER: &str = "rebilled with fewer kWh";

const EVENTS_OF_REBILL: [&str; 3] = [REBILL_REFUSED, REBILLED_WITH_MOST, REBILLED_WITH_FEWER];

/// One row in that many has no more kWh than a bill may give.
const OTHER_ROW_ONCE_IN: usize = 6;

/// Every sort.
pub fn sorts() -> Vec<String> {
    let names = NAMES.map(str::to_string);
    stored_row_events::sorts(&names, &EVENTS_OF_REBILL)
}

/// Whether a row has more kWh than a bill may give.
fn is_larger(_: &Facts, row: &Row) -> bool {
    row.bill.kwh > MOST_KWH_GIVEN.into()
}

/// The name of a larger row of that many kWh.
fn name(kwh: i64) -> &'static str {
    match kwh {
        40_000_001 => FEWEST,
        99_999_999 => ONE_BELOW_MOST,
        100_000_000 => MOST,
        _ => BETWEEN,
    }
}

fn event_of_rebill(made: &CallMade, numbers: BillNumbers) -> Option<&'static str> {
    match made.outcome {
        Ok(_) if numbers.kwh == MOST_KWH_GIVEN => Some(REBILLED_WITH_MOST),
        Ok(_) if numbers.kwh < MOST_KWH_GIVEN => Some(REBILLED_WITH_FEWER),
        Ok(_) => None,
        Err(_) => is_refused_for_kwh(made, numbers).then_some(REBILL_REFUSED),
    }
}

/// The facts that random calls leave, in which most rows are given more kWh.
fn stored_facts(random: &mut Random) -> Facts {
    let mut facts = facts_before(random, CALLS_BEFORE);
    for place in 0..facts.rows.len() {
        if !random.once_in(OTHER_ROW_ONCE_IN) {
            facts.rows[place] = enlarged(random, &facts, &facts.rows[place]);
        }
    }
    facts
}

/// The row with kWh of a larger one, shares of them, and the amount of the larger bill.
fn enlarged(random: &mut Random, facts: &Facts, row: &Row) -> Row {
    let kwh = larger_kwh(random);
    let (etii_share, qhs_share) = shares_within(random, kwh);
    let bill = Bill {
        kwh: kwh.into(),
        etii_share: etii_share.into(),
        qhs_share: qhs_share.into(),
        ..row.bill
    };
    row_of(facts, row.contract, bill)
}

/// The kWh of a larger row: the fewest, the most, one less, or any.
fn larger_kwh(random: &mut Random) -> u32 {
    let any = random.within(FEWEST_KWH..=MOST_KWH_STORED);
    random.one_of(&[FEWEST_KWH, MOST_KWH_STORED - 1, MOST_KWH_STORED, any])
}

/// The rebill of a held row, which keeps its span, with the most kWh that it may give.
fn rebill_with_most_kwh(random: &mut Random, facts: &Facts) -> Call {
    rebill_with_kwh(random, facts, |_, _| MOST_KWH_GIVEN)
}

/// The rebill of a held row, which keeps its span, with its own kWh or those of another larger row.
fn rebill_with_more_kwh(random: &mut Random, facts: &Facts) -> Call {
    rebill_with_kwh(random, facts, |random, row| {
        let own = u32::try_from(row.bill.kwh).expect("a row's kWh have 27 bits");
        let other = larger_kwh(random);
        random.one_of(&[own, own, FEWEST_KWH, other])
    })
}

fn rebill_with_kwh(random: &mut Random, facts: &Facts, kwh: fn(&mut Random, &Row) -> u32) -> Call {
    let Some(row) = held_row(random, facts) else {
        return bill(random, facts);
    };
    let numbers = bill_numbers(random, facts, row.contract, row.bill.span());
    let kwh = kwh(random, &row);
    let (etii_share, qhs_share) = shares_within(random, kwh);
    Call::Rebill(BillNumbers {
        kwh,
        etii_share,
        qhs_share,
        ..numbers
    })
}

#[cfg(test)]
mod tests {
    use super::{is_larger, name, LARGER_ROWS, NAMES};
    use crate::rows_met::{contract_name, contract_of};
    use crate::stored_rows::tests::{facts_of_rows, TestRow};
    use calculator::codes::Territory;
    use calculator::packed::{Facts, Row};
    use calculator::rates::Kind;
    use std::collections::BTreeSet;

    const ROWS: [TestRow; 6] = [
        (5, (500, 509), 40_000_001, 0),
        (5, (520, 529), 100_000_000, 3),
        (5, (540, 549), 40_000_000, 0),
        (5, (560, 569), 70_000_000, 0),
        (5, (580, 589), 99_999_999, 0),
        (6, (500, 509), 40_000_000, 0),
    ];

    /// The facts of the rows; both contracts are flexible.
    fn facts() -> Facts {
        facts_of_rows([Kind::Flexible; 2], &ROWS)
    }

    /// A call on the facts meets these sorts and no other.
    fn expect(name: &str, numbers: &[u32], expected: &[&str]) {
        let met = LARGER_ROWS.met_by_call(&facts(), name, numbers);
        let met: Vec<&str> = met.iter().map(String::as_str).collect();
        assert_eq!(met, expected, "{name} {numbers:?}");
    }

    #[test]
    fn rows_by_their_kwh() {
        expect(
            "cert",
            &[5, 1, 486],
            &[
                "row of 100,000,000 kWh, left by a certificate for its shares",
                "row of 40,000,001 kWh, re-rated by a certificate",
                "row of 40,000,002 to 99,999,998 kWh, re-rated by a certificate",
                "row of 99,999,999 kWh, re-rated by a certificate",
            ],
        );
        expect("cert", &[6, 1, 486], &[]);
        expect("cancel", &[5, 500], &["row of 40,000,001 kWh, cancelled"]);
        expect("cancel", &[5, 540], &[]);
    }

    #[test]
    fn claims_and_totals_without_the_amount_of_a_row() {
        let mut facts = facts();
        for row in &mut facts.rows {
            (row.bill.supply_price, row.amount) = (0, 0);
        }
        for name in ["claim", "total"] {
            assert_eq!(LARGER_ROWS.met_by_call(&facts, name, &[]).len(), 0);
        }
    }

    #[test]
    fn rebills_of_a_row() {
        let rebill = |first, last, kwh, supply, sorts: &[&str]| {
            expect("rebill", &[5, first, last, kwh, supply, 1, 0, 0], sorts);
        };
        let refused =
            "row of 100,000,000 kWh, rebilled with more than 40,000,000 kWh and refused by 8";
        for kwh in [40_000_001, 100_000_000, 4_294_967_295] {
            rebill(520, 529, kwh, 1, &[refused]);
            rebill(520, 529, kwh, 999_999, &[refused]);
            rebill(520, 529, kwh, 1_000_000, &[]);
            rebill(520, 852, kwh, 1, &[]);
            rebill(521, 529, kwh, 1, &[]);
            rebill(540, 549, kwh, 1, &[]);
        }
        let with_most = "row of 99,999,999 kWh, rebilled with 40,000,000 kWh";
        rebill(580, 589, 40_000_000, 1, &[with_most]);
        let with_fewer = "row of 40,000,002 to 99,999,998 kWh, rebilled with fewer kWh";
        rebill(560, 569, 39_999_999, 1, &[with_fewer]);
        rebill(560, 569, 1, 1_000_000, &[]);
        rebill(560, 580, 40_000_000, 1, &[]);
        rebill(540, 549, 40_000_000, 1, &[]);
    }

    /// By contract, kWh and shares, in both territories; beside them rows of fewer kWh.
    #[test]
    fn rows_of_every_sort_are_drawn() {
        let sort = |facts: &Facts, row: &Row| {
            let contract = contract_name(&contract_of(facts, row));
            (contract, name(row.bill.kwh), row.bill.has_shares())
        };
        let mut drawn = BTreeSet::new();
        let mut territories = Vec::new();
        for facts in LARGER_ROWS.drawn_facts(30) {
            let rows = facts.rows.iter();
            let larger = rows.clone().filter(|row| is_larger(&facts, row));
            assert!(larger.clone().count() < rows.count());
            drawn.extend(larger.map(|row| sort(&facts, row)));
            territories.push(facts.territory);
        }
        let contracts: BTreeSet<&String> = drawn.iter().map(|(contract, ..)| contract).collect();
        assert_eq!(contracts.len(), 7);
        assert_eq!(drawn.len(), 7 * NAMES.len() * 2);
        for territory in [Territory::GreatBritain, Territory::NorthernIreland] {
            assert!(territories.contains(&territory));
        }
    }
}

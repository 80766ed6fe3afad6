//! Rows of variable and index contracts that touch two months or three. No call makes such a
//! row, but one that is stored stands (document 02, paper 2).

use crate::call_made::CallMade;
use crate::generator::ON_ROWS;
use crate::months::{month_end, months_touched};
use crate::random::Random;
use crate::rows_met::{contract_name, contract_of, row_of};
use crate::stored_row_events;
use crate::stored_rows::{facts_before, StoredRows};
use calculator::calls::BillNumbers;
use calculator::codes::spans_share_a_day;
use calculator::dates::LAST_DAY;
use calculator::packed::{Facts, Row};
use calculator::rates::Bill;
use calculator::refusals::SPAN_TOUCHES_TWO_MONTHS;

pub const ROWS_ACROSS_MONTHS: StoredRows = StoredRows {
    kind: "histories of stored rows across months",
    histories: 1_000,
    draw_facts: stored_facts,
    includes: is_across_months,
    profile: ON_ROWS,
    name_of: |facts, row| {
        let contract = contract_name(&contract_of(facts, row));
        name(&contract, months_touched(row.bill.span()))
    },
    event_of_rebill,
    sorts_in: |findings| &mut findings.rows_across_months,
};

/// The calls that leave the facts of a ledger before rows are made longer.
const CALLS_BEFORE: usize = 200;

/// The contracts with monthly prices by kind and fuel.
const CONTRACTS: [&str; 3] = ["variable electricity", "variable gas", "index electricity"];

/// How many months a row touches.
const MONTHS: [u32; 2] = [2, 3];

const REBILL_REFUSED: &str = "rebilled across months and refused by 15";
const REBILLED: &str = "rebilled within one month";

/// Every sort.
pub fn sorts() -> Vec<String> {
    let mut names = Vec::new();
    for contract in CONTRACTS {
        names.extend(MONTHS.map(|months| name(contract, months)));
    }
    stored_row_events::sorts(&names, &[REBILL_REFUSED, REBILLED])
}

fn name(contract: &str, months: u32) -> String {
    format!("{contract} across {months} months")
}

/// Whether a held row touches more than one month and its contract has monthly prices.
fn is_across_months(facts: &Facts, row: &Row) -> bool {
    contract_of(facts, row).kind.has_monthly_prices() && months_touched(row.bill.span()) > 1
}

fn event_of_rebill(made: &CallMade, numbers: BillNumbers) -> Option<&'static str> {
    match made.outcome {
        &Err(SPAN_TOUCHES_TWO_MONTHS) => Some(REBILL_REFUSED),
        Ok(_) if months_touched((numbers.first, numbers.last)) == 1 => Some(REBILLED),
        _ => None,
    }
}

/// The facts that random calls leave, with rows made longer. A row that then shares a day with
/// the one before it is left out.
fn stored_facts(random: &mut Random) -> Facts {
    let mut facts = facts_before(random, CALLS_BEFORE);
    let mut rows: Vec<Row> = Vec::new();
    for row in &facts.rows {
        let taken = rows.last().is_some_and(|before| {
            before.contract == row.contract
                && spans_share_a_day(before.bill.span(), row.bill.span())
        });
        if !taken {
            rows.push(lengthened(random, &facts, row));
        }
    }
    facts.rows = rows;
    facts
}

/// The row with a last day in its first month or, mostly, in one of the next two: the first or
/// the last day of that month, or any. Its amount is that of the longer bill.
fn lengthened(random: &mut Random, facts: &Facts, row: &Row) -> Row {
    let mut earliest = row.bill.first_day;
    for _ in 0..random.one_of(&[0, 1, 1, 1, 2, 2, 2, 2]) {
        earliest = (month_end(earliest) + 1).min(LAST_DAY);
    }
    let latest = month_end(earliest);
    let any = random.within(earliest..=latest);
    let bill = Bill {
        last_day: random.one_of(&[earliest, latest, any]),
        ..row.bill
    };
    row_of(facts, row.contract, bill)
}

#[cfg(test)]
mod tests {
    use super::{is_across_months, ROWS_ACROSS_MONTHS};
    use crate::months::{month_end, months_touched};
    use crate::rows_met::{contract_name, contract_of};
    use crate::stored_rows::tests::{facts_of_rows, TestRow};
    use calculator::packed::{Facts, Row};
    use calculator::rates::Kind;
    use std::collections::BTreeSet;

    /// Rows of 10 kWh.
    const ROWS: [TestRow; 5] = [
        (5, (500, 520), 10, 0),
        (5, (540, 580), 10, 3),
        (5, (600, 601), 10, 0),
        (5, (640, 670), 10, 0),
        (6, (500, 520), 10, 0),
    ];

    /// The facts of the rows; contract 5 is variable and contract 6 flexible.
    fn facts() -> Facts {
        facts_of_rows([Kind::Variable, Kind::Flexible], &ROWS)
    }

    /// A call on the facts meets these sorts of contract 5 and no other.
    fn expect(name: &str, numbers: &[u32], expected: &[&str]) {
        let met = ROWS_ACROSS_MONTHS.met_by_call(&facts(), name, numbers);
        let expected = expected
            .iter()
            .map(|sort| format!("variable electricity across {sort}"));
        assert!(
            met.iter().cloned().eq(expected),
            "{name} {numbers:?}: {met:?}"
        );
    }

    #[test]
    fn certificates_that_change_the_class_of_a_row() {
        expect(
            "cert",
            &[5, 1, 486],
            &[
                "2 months, re-rated by a certificate",
                "3 months, left by a certificate for its shares",
            ],
        );
        expect(
            "cert",
            &[5, 1, 540],
            &[
                "2 months, re-rated by a certificate",
                "3 months, left by a certificate for its shares",
            ],
        );
        expect(
            "cert",
            &[5, 1, 640],
            &["2 months, re-rated by a certificate"],
        );
        expect(
            "cert",
            &[5, 1, 670],
            &["2 months, re-rated by a certificate"],
        );
        expect("cert", &[5, 1, 671], &[]);
        expect("cert", &[5, 0, 0], &[]);
        expect("cert", &[5, 1, 485], &[]);
        expect("cert", &[6, 1, 486], &[]);
    }

    #[test]
    fn cancellations_of_a_row() {
        expect("cancel", &[5, 500], &["2 months, cancelled"]);
        expect("cancel", &[5, 540], &["3 months, cancelled"]);
        expect("cancel", &[5, 501], &[]);
        expect("cancel", &[5, 600], &[]);
        expect("cancel", &[6, 500], &[]);
    }

    #[test]
    fn reports_claims_totals_and_bills_beside_a_row() {
        let reported = ["2 months, in a report", "3 months, in a report"];
        expect("report", &[5], &reported);
        expect("report", &[6], &[]);
        let claimed = ["2 months, in a claim", "3 months, in a claim"];
        expect("claim", &[], &claimed);
        let totalled = ["2 months, in a total", "3 months, in a total"];
        expect("total", &[], &totalled);
        let beside = ["2 months, beside a new bill", "3 months, beside a new bill"];
        expect("bill", &[5, 700, 700, 1, 1, 0, 0, 0], &beside);
        expect("bill", &[5, 520, 520, 1, 1, 0, 0, 0], &[]);
        expect("bill", &[6, 700, 700, 1, 1, 1, 0, 0], &[]);
    }

    #[test]
    fn rebills_of_a_row() {
        let rebill = |contract, first, last, kwh, sorts: &[&str]| {
            expect("rebill", &[contract, first, last, kwh, 1, 0, 0, 0], sorts);
        };
        rebill(
            5,
            500,
            520,
            1,
            &["2 months, rebilled across months and refused by 15"],
        );
        rebill(
            5,
            540,
            547,
            1,
            &["3 months, rebilled across months and refused by 15"],
        );
        rebill(5, 500, 515, 1, &["2 months, rebilled within one month"]);
        rebill(5, 540, 546, 1, &["3 months, rebilled within one month"]);
        rebill(5, 500, 515, 40_000_001, &[]);
        rebill(5, 501, 520, 1, &[]);
        rebill(5, 600, 639, 1, &[]);
        rebill(6, 500, 515, 1, &[]);
    }

    /// By contract, months and shares; beside them rows without monthly prices.
    #[test]
    fn rows_of_every_sort_are_drawn() {
        let sort = |facts: &Facts, row: &Row| {
            let contract = contract_name(&contract_of(facts, row));
            let months = months_touched(row.bill.span());
            (contract, months, row.bill.has_shares())
        };
        let mut drawn = BTreeSet::new();
        for facts in ROWS_ACROSS_MONTHS.drawn_facts(20) {
            drawn.extend(facts.rows.iter().map(|row| sort(&facts, row)));
        }
        for contract in ["variable electricity", "variable gas", "index electricity"] {
            for months in 1..=3 {
                for shares in [false, true] {
                    let sort = (contract.to_string(), months, shares);
                    assert!(drawn.contains(&sort), "{sort:?}");
                }
            }
        }
        for kind in ["fixed", "flexible"] {
            let mut contracts = drawn.iter().map(|(contract, ..)| contract);
            assert!(contracts.any(|contract| contract.starts_with(kind)));
        }
    }

    #[test]
    fn rows_end_with_the_first_and_with_the_last_day_of_a_month() {
        let mut last_days = BTreeSet::new();
        for facts in ROWS_ACROSS_MONTHS.drawn_facts(20) {
            let rows = facts.rows.iter();
            let rows = rows.filter(|row| is_across_months(&facts, row));
            last_days.extend(rows.map(|row| row.bill.last_day));
        }
        let month_ends = last_days.iter().filter(|&&day| day == month_end(day));
        assert!(month_ends.count() > 6);
        let month_starts = last_days
            .iter()
            .filter(|&&day| month_end(day - 1) == day - 1);
        assert!(month_starts.count() > 6);
    }
}

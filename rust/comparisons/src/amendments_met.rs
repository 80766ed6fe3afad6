//! How often contracts were amended, and how often amended contracts were billed, rebilled and
//! certified on either side of their original end (document 02, paper 5). Bills and rows are counted
//! only where R or the amount shows the price-fix and entry days that they take: with the original
//! days and the amendment's exchanged it would be another.

use crate::call_made::CallMade;
use crate::generator::{contract_of_number, original_end};
use crate::rows_met::{contract_name, rows_of};
use crate::sorts::Sorts;
use calculator::book::entry_needed;
use calculator::calls::{BillNumbers, Call};
use calculator::packed::{Facts, Row};
use calculator::rates::{amount, new_qhs_minimum_applies, Amendment, Contract, Kind};
use calculator::refusals::{
    CONTRACT_NOT_FIXED_OR_AMENDED_ALREADY, ROW_ENDS_AFTER_ORIGINAL_END, SPAN_CROSSES_ORIGINAL_END,
};
use std::cmp::Ordering;
use std::collections::BTreeSet;

const BEFORE_END: &str = "before the end";
const ON_END: &str = "on the end";
const AFTER_END: &str = "after the end";

/// Where a bill starts.
const STARTS: [&str; 3] = [BEFORE_END, ON_END, AFTER_END];

const BILL: &str = "bill";
const REBILL: &str = "rebill";
const CERTIFICATE: &str = "certificate";

/// The calls that look R up.
const BILLING: [&str; 2] = [BILL, REBILL];

/// The calls that rate a row.
const RATING: [&str; 3] = [BILL, REBILL, CERTIFICATE];

const OLD_MINIMUM: &str = "old QHS minimum";
const NEW_MINIMUM: &str = "new QHS minimum";

const MINIMUMS: [&str; 2] = [OLD_MINIMUM, NEW_MINIMUM];

const BOTH_SIDES: &str = "certificate that re-rates rows on both sides of the end";

const FROM_END: &str = "from the end on";
const TO_DAY_AFTER: &str = "up to the day after the end";
const FROM_BEFORE: &str = "from before the end to later";

/// The spans that cross an original end.
const CROSSING: [&str; 3] = [FROM_END, TO_DAY_AFTER, FROM_BEFORE];

const AMENDED_WITHOUT_ROWS: &str = "amended, no row held";
const AMENDED_ON_LAST_DAY: &str = "amended, a row ends on the end";
const AMENDED_LATER: &str = "amended, rows end before the end";
const AMENDED_ALREADY: &str = "refused by 16, amended already";
const ROW_ACROSS: &str = "refused by 18, a row across the end";
const ROW_AFTER: &str = "refused by 18, a row after the end alone";

/// The outcomes of an amendment of a fixed contract.
const AMENDMENTS: [&str; 6] = [
    AMENDED_WITHOUT_ROWS,
    AMENDED_ON_LAST_DAY,
    AMENDED_LATER,
    AMENDED_ALREADY,
    ROW_ACROSS,
    ROW_AFTER,
];

/// The contracts that can't be amended, by kind and fuel.
const NOT_FIXED: [&str; 5] = [
    "variable electricity",
    "variable gas",
    "flexible electricity",
    "flexible gas",
    "index electricity",
];

/// Every sort.
pub fn sorts() -> Vec<String> {
    let mut sorts: Vec<String> = AMENDMENTS.map(str::to_string).to_vec();
    sorts.extend(NOT_FIXED.map(not_fixed));
    for name in BILLING {
        sorts.extend(CROSSING.map(|span| crossing(name, span)));
        sorts.extend(STARTS.map(|start| shown_by_price(name, start)));
    }
    for name in RATING {
        for start in STARTS {
            sorts.extend(MINIMUMS.map(|minimum| shown_by_minimum(name, start, minimum)));
        }
    }
    sorts.push(BOTH_SIDES.to_string());
    sorts
}

/// Counts the sorts of a call.
pub fn count_call(sorts: &mut Sorts, made: &CallMade) {
    for sort in sorts_of_call(made) {
        sorts.count(&sort);
    }
}

fn sorts_of_call(made: &CallMade) -> Vec<String> {
    match *made.call {
        Call::Amend {
            contract,
            original_end_day,
            ..
        } => sort_of_amend(made, contract, original_end_day)
            .into_iter()
            .collect(),
        Call::Bill(numbers) => sorts_of_bill(made, BILL, numbers),
        Call::Rebill(numbers) => sorts_of_bill(made, REBILL, numbers),
        Call::Cert { contract, .. } => sorts_of_cert(made, contract),
        Call::Start { .. }
        | Call::Open { .. }
        | Call::Cancel { .. }
        | Call::Claim
        | Call::Report { .. }
        | Call::Total => Vec::new(),
    }
}

fn not_fixed(contract: &str) -> String {
    format!("refused by 16, {contract}")
}

fn crossing(name: &str, span: &str) -> String {
    format!("{name} refused by 17, {span}")
}

fn shown_by_price(name: &str, start: &str) -> String {
    format!("{name} that starts {start}, shown by R")
}

fn shown_by_minimum(name: &str, start: &str, minimum: &str) -> String {
    format!("{name} of a row that starts {start}, shown by the {minimum}")
}

fn sort_of_amend(made: &CallMade, contract: u32, end: u32) -> Option<String> {
    let open = contract_of_number(made.before, contract)?;
    let mut rows = rows_of(made.before, contract);
    let crosses = |row: &Row| row.bill.first_day <= end && end < row.bill.last_day;
    let sort = match made.outcome {
        &Err(CONTRACT_NOT_FIXED_OR_AMENDED_ALREADY) if !open.kind.is_fixed() => {
            return Some(not_fixed(&contract_name(&open)));
        }
        &Err(CONTRACT_NOT_FIXED_OR_AMENDED_ALREADY) => AMENDED_ALREADY,
        &Err(ROW_ENDS_AFTER_ORIGINAL_END) if rows.any(crosses) => ROW_ACROSS,
        &Err(ROW_ENDS_AFTER_ORIGINAL_END) => ROW_AFTER,
        Ok(_) => match rows.map(|row| row.bill.last_day).max() {
            None => AMENDED_WITHOUT_ROWS,
            Some(last) if last == end => AMENDED_ON_LAST_DAY,
            Some(_) => AMENDED_LATER,
        },
        Err(_) => return None,
    };
    Some(sort.to_string())
}

/// The sorts of a bill or rebill of an amended contract.
fn sorts_of_bill(made: &CallMade, name: &str, numbers: BillNumbers) -> Vec<String> {
    let Some((contract, end)) = amended(made.before, numbers.contract) else {
        return Vec::new();
    };
    match *made.outcome {
        Err(SPAN_CROSSES_ORIGINAL_END) => {
            let span = span_across(numbers.first, numbers.last, end);
            vec![crossing(name, span)]
        }
        Err(_) => Vec::new(),
        Ok(_) => {
            let start = start(numbers.first, end);
            let by_price = price_is_shown(&contract, made.book, numbers.first)
                .then(|| shown_by_price(name, start));
            let mut rows = rows_of(made.after, numbers.contract);
            let row = rows.find(|row| row.bill.first_day == numbers.first);
            let by_minimum = row.and_then(|row| sort_by_minimum(name, &contract, row, end));
            by_price.into_iter().chain(by_minimum).collect()
        }
    }
}

/// The sorts of a certificate of an amended contract, by the rows whose amount it changed, each sort
/// once.
fn sorts_of_cert(made: &CallMade, number: u32) -> Vec<String> {
    let Some((contract, end)) = amended(made.after, number) else {
        return Vec::new();
    };
    let re_rated = rows_of(made.after, number).filter(|row| !made.before.rows.contains(row));
    let mut sorts = BTreeSet::new();
    let mut sides = BTreeSet::new();
    for row in re_rated {
        if let Some(sort) = sort_by_minimum(CERTIFICATE, &contract, row, end) {
            sides.insert(row.bill.first_day > end);
            sorts.insert(sort);
        }
    }
    let both = (sides.len() == 2).then(|| BOTH_SIDES.to_string());
    sorts.into_iter().chain(both).collect()
}

/// The contract of the number and its original end, if it is amended.
fn amended(facts: &Facts, number: u32) -> Option<(Contract, u32)> {
    let end = original_end(facts, number)?;
    Some((contract_of_number(facts, number)?, end))
}

fn start(first: u32, end: u32) -> &'static str {
    match first.cmp(&end) {
        Ordering::Less => BEFORE_END,
        Ordering::Equal => ON_END,
        Ordering::Greater => AFTER_END,
    }
}

fn span_across(first: u32, last: u32, end: u32) -> &'static str {
    if first == end {
        FROM_END
    } else if last == end + 1 {
        TO_DAY_AFTER
    } else {
        FROM_BEFORE
    }
}

/// The contract with its original price-fix and entry days and those of its amendment exchanged.
fn exchanged(contract: &Contract) -> Contract {
    let Some(amendment) = contract.amendment else {
        return *contract;
    };
    let (_, price_fix_day, entry_day) = contract.kind.numbers();
    Contract {
        kind: Kind::Fixed {
            price_fix_day: amendment.price_fix_day,
            entry_day: amendment.entry_day,
        },
        amendment: Some(Amendment {
            price_fix_day,
            entry_day,
            ..amendment
        }),
        ..*contract
    }
}

/// Whether a bill that starts on the day would find another price by the other price-fix day.
fn price_is_shown(contract: &Contract, book: &[u32], first_day: u32) -> bool {
    let price = |contract| entry_needed(contract, first_day).map(|entry| book[entry]);
    price(contract) != price(&exchanged(contract))
}

/// The sort of a row that would have another amount by the other entry day.
fn sort_by_minimum(name: &str, contract: &Contract, row: &Row, end: u32) -> Option<String> {
    if amount(&exchanged(contract), &row.bill) == row.amount {
        return None;
    }
    let minimum = if new_qhs_minimum_applies(contract, row.bill.last_day) {
        NEW_MINIMUM
    } else {
        OLD_MINIMUM
    };
    let start = start(row.bill.first_day, end);
    Some(shown_by_minimum(name, start, minimum))
}

#[cfg(test)]
mod tests {
    use super::sorts_of_call;
    use crate::call_made::of_call;
    use calculator::codes::Territory;
    use calculator::postings::PostingModule;

    /// A name and numbers.
    type Line<'a> = (&'a str, &'a [u32]);

    /// Contract 5 is fixed electricity, entered on day 791, and contract 6 flexible.
    const OPENED: [Line; 2] = [("open", &[5, 0, 0, 300, 791]), ("open", &[6, 0, 2, 0, 0])];

    /// Entered again on day 792, and with day 800 as the original end.
    const AMENDED: Line = ("amend", &[5, 800, 540, 792]);

    /// The sorts of the last of the calls, which come after those of `OPENED`. The prices of days 300
    /// and 540 are published; at S 50,000 and either of them each QHS minimum has its rate.
    fn sorts_of_last(lines: &[Line]) -> Vec<String> {
        let mut book = [0; 1_740];
        (book[300], book[540]) = (45_000, 31_200);
        let mut module = PostingModule::new(Territory::GreatBritain);
        let mut sorts = Vec::new();
        for &line in OPENED.iter().chain(lines) {
            sorts = of_call(&mut module, &book, line, sorts_of_call);
        }
        sorts
    }

    #[test]
    fn amendments_by_their_outcome() {
        let bill: Line = ("bill", &[5, 700, 729, 10, 50_000, 0, 0, 0]);
        for (lines, expected) in [
            (&[AMENDED][..], "amended, no row held"),
            (&[AMENDED, AMENDED], "refused by 16, amended already"),
            (
                &[("amend", &[6, 800, 540, 792])],
                "refused by 16, flexible electricity",
            ),
            (&[bill, AMENDED], "amended, rows end before the end"),
            (
                &[bill, ("amend", &[5, 729, 540, 792])],
                "amended, a row ends on the end",
            ),
            (
                &[bill, ("amend", &[5, 728, 540, 792])],
                "refused by 18, a row across the end",
            ),
            (
                &[bill, ("amend", &[5, 699, 540, 792])],
                "refused by 18, a row after the end alone",
            ),
        ] {
            assert_eq!(sorts_of_last(lines), [expected]);
        }
        let none: [&[Line]; 3] = [
            &[("amend", &[5, 852, 540, 792])],
            &[("amend", &[7, 800, 540, 792])],
            &[("amend", &[64, 800, 540, 792])],
        ];
        for lines in none {
            assert_eq!(sorts_of_last(lines).len(), 0, "{lines:?}");
        }
    }

    #[test]
    fn spans_across_the_end() {
        for (name, first, last, expected) in [
            ("bill", 800, 801, "bill refused by 17, from the end on"),
            (
                "bill",
                790,
                801,
                "bill refused by 17, up to the day after the end",
            ),
            (
                "rebill",
                790,
                802,
                "rebill refused by 17, from before the end to later",
            ),
        ] {
            let numbers = [5, first, last, 10, 50_000, 0, 0, 0];
            assert_eq!(sorts_of_last(&[AMENDED, (name, &numbers)]), [expected]);
        }
    }

    /// Before day 792 either entry day gives the old minimum.
    #[test]
    fn bills_beside_the_end() {
        let by_price = |start| format!("bill that starts {start}, shown by R");
        let by_minimum = |start, minimum| {
            format!("bill of a row that starts {start}, shown by the {minimum} QHS minimum")
        };
        for (first, qhs_share, expected) in [
            (791, 10, vec![by_price("before the end")]),
            (
                799,
                10,
                vec![
                    by_price("before the end"),
                    by_minimum("before the end", "old"),
                ],
            ),
            (
                800,
                10,
                vec![by_price("on the end"), by_minimum("on the end", "old")],
            ),
            (800, 0, vec![by_price("on the end")]),
            (
                801,
                10,
                vec![
                    by_price("after the end"),
                    by_minimum("after the end", "new"),
                ],
            ),
        ] {
            let numbers = [5, first, first, 10, 50_000, 0, 0, qhs_share];
            let sorts = sorts_of_last(&[AMENDED, ("bill", &numbers)]);
            assert_eq!(sorts, expected, "{first}");
        }
    }

    /// The other price-fix day has the same price, the contract is unamended, or the bill is refused.
    #[test]
    fn bills_that_show_nothing() {
        let amended: Line = ("amend", &[5, 800, 300, 792]);
        let bill: Line = ("bill", &[5, 801, 801, 10, 50_000, 0, 0, 0]);
        assert_eq!(sorts_of_last(&[amended, bill]).len(), 0);
        assert_eq!(sorts_of_last(&[bill]).len(), 0);
        assert_eq!(sorts_of_last(&[AMENDED, bill, bill]).len(), 0);
    }

    #[test]
    fn certificates_by_the_rows_that_they_re_rate() {
        let before: Line = ("bill", &[5, 799, 799, 10, 50_000, 0, 0, 0]);
        let after: Line = ("bill", &[5, 801, 801, 10, 50_000, 0, 0, 0]);
        let certificate: Line = ("cert", &[5, 2, 511]);
        let old = "certificate of a row that starts before the end, shown by the old QHS minimum";
        let new = "certificate of a row that starts after the end, shown by the new QHS minimum";
        let both = "certificate that re-rates rows on both sides of the end";
        let sorts = sorts_of_last(&[AMENDED, before, certificate]);
        assert_eq!(sorts, [old]);
        let sorts = sorts_of_last(&[AMENDED, before, after, certificate]);
        assert_eq!(sorts, [new, old, both]);
        let etii: Line = ("cert", &[5, 1, 486]);
        assert_eq!(sorts_of_last(&[AMENDED, before, after, etii]).len(), 0);
        let again = sorts_of_last(&[AMENDED, before, after, certificate, certificate]);
        assert_eq!(again.len(), 0);
    }
}

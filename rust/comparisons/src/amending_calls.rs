//! Random calls on amended contracts (document 02, paper 5): bills and rebills on either side of
//! the original end and across it, certificates that re-rate rows on both sides, and amendments
//! whose entry day is on either side of day 792.

use crate::changing_calls::{entry_day_by_minimum, numbers_that_show_changes, open_of_kind};
use crate::generator::{
    amend, cancel, cert, claim, contract_day, contract_numbers, free_span, held_row, open,
    open_contract, original_end, report, span_beside_end, total, unamended_numbers, Profile,
};
use crate::random::Random;
use crate::rows_met::rows_of;
use calculator::calls::Call;
use calculator::codes::QHS_FIRST_DAY;
use calculator::dates::LAST_DAY;
use calculator::packed::{Facts, Row};
use std::ops::RangeInclusive;

/// Few contracts, which have rows on both sides of their original end.
pub const AMENDING: &Profile = &[
    (3, open_to_amend),
    (1, open),
    (6, amend_before_bills),
    (4, amend),
    (40, bill_beside_end),
    (24, rebill_beside_end),
    (24, cert_of_both_sides),
    (14, cancel),
    (2, cert),
    (1, claim),
    (2, report),
    (1, total),
];

/// Original ends about day 792 and after it, so that bills on either side may have either QHS
/// minimum.
const ENDS: RangeInclusive<u32> = 786..=846;

/// The most days of a bill beside an original end.
const MOST_DAYS: u32 = 8;

/// One contract or row in that many is any, and not one of an amended contract.
const OTHER_ONCE_IN: usize = 8;

/// An open of a contract that is mostly fixed.
fn open_to_amend(random: &mut Random, facts: &Facts) -> Call {
    let kind = random.one_of(&[0, 0, 0, 0, 0, 1, 2]);
    open_of_kind(random, facts, kind)
}

/// The amendment of a contract that has no rows yet.
fn amend_before_bills(random: &mut Random, facts: &Facts) -> Call {
    let mut unbilled = unamended_numbers(facts);
    unbilled.retain(|&number| rows_of(facts, number).next().is_none());
    if unbilled.is_empty() {
        return amend(random, facts);
    }
    Call::Amend {
        contract: random.one_of(&unbilled),
        original_end_day: random.within(ENDS),
        price_fix_day: contract_day(random),
        entry_day: entry_day_by_minimum(random),
    }
}

/// A bill beside the original end, mostly of an amended contract.
fn bill_beside_end(random: &mut Random, facts: &Facts) -> Call {
    let contract = amended_contract(random, facts);
    let end = original_end(facts, contract);
    let draw = |random: &mut Random| {
        let end = end.unwrap_or_else(|| random.within(ENDS));
        span_beside_end(random, end, MOST_DAYS)
    };
    let span = free_span(random, facts, contract, draw);
    Call::Bill(numbers_that_show_changes(random, facts, contract, span))
}

/// The rebill of a row, mostly one of an amended contract: it mostly keeps its span, and at times
/// ends with the original end or after it.
fn rebill_beside_end(random: &mut Random, facts: &Facts) -> Call {
    let Some(row) = row_of_amended(random, facts) else {
        return bill_beside_end(random, facts);
    };
    let (first, last) = row.bill.span();
    let end = original_end(facts, row.contract).unwrap_or(last);
    let later = (end + random.within(1..=MOST_DAYS)).min(LAST_DAY);
    let last = random.one_of(&[last, last, last, end, end + 1, later]);
    let span = (first, last.max(first));
    Call::Rebill(numbers_that_show_changes(random, facts, row.contract, span))
}

/// A certificate, mostly of a QHS, that begins before the rows of an amended contract or with one.
fn cert_of_both_sides(random: &mut Random, facts: &Facts) -> Call {
    let Some(row) = row_of_amended(random, facts) else {
        return cert(random, facts);
    };
    let first = row.bill.first_day;
    let class = random.one_of(&[0, 0, 1, 2, 2, 2]);
    let effective_day = match class {
        0 => 0,
        _ => random.one_of(&[QHS_FIRST_DAY, QHS_FIRST_DAY, first]),
    };
    Call::Cert {
        contract: row.contract,
        class,
        effective_day,
    }
}

/// An open contract, mostly an amended one.
fn amended_contract(random: &mut Random, facts: &Facts) -> u32 {
    let mut amended = contract_numbers(facts, true);
    amended.retain(|&number| original_end(facts, number).is_some());
    let one = random.mostly_one_of(&amended, OTHER_ONCE_IN);
    one.unwrap_or_else(|| open_contract(random, facts))
}

/// A held row, mostly one of an amended contract.
fn row_of_amended(random: &mut Random, facts: &Facts) -> Option<Row> {
    let rows = facts.rows.iter();
    let rows = rows.filter(|row| original_end(facts, row.contract).is_some());
    let rows: Vec<Row> = rows.copied().collect();
    let one = random.mostly_one_of(&rows, OTHER_ONCE_IN);
    one.or_else(|| held_row(random, facts))
}

#[cfg(test)]
mod tests {
    use super::AMENDING;
    use crate::damaged_ledgers::random_facts;
    use crate::generator::original_end;
    use crate::random::Random;
    use calculator::codes::Territory;
    use calculator::packed::{Facts, Row};
    use std::cmp::Ordering;

    /// Where the row starts beside the original end of its contract, if that is amended.
    fn start(facts: &Facts, row: &Row) -> Option<Ordering> {
        let end = original_end(facts, row.contract)?;
        Some(row.bill.first_day.cmp(&end))
    }

    #[test]
    fn histories_leave_rows_before_on_and_after_the_end() {
        let mut random = Random::new(1, "ends", 0);
        let facts = random_facts(&mut random, Territory::GreatBritain, AMENDING, 400);
        let starts = facts.rows.iter().filter_map(|row| start(&facts, row));
        let starts: Vec<Ordering> = starts.collect();
        for side in [Ordering::Less, Ordering::Equal, Ordering::Greater] {
            assert!(starts.contains(&side), "{side:?}");
        }
    }
}

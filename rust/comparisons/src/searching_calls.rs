//! Calls that look for a row, for the rows of a contract or for the place of a new row, beside the
//! rows that are held.

use crate::generator::bill_numbers;
use crate::random::Random;
use calculator::calls::{BillNumbers, Call};
use calculator::codes::{span_in_range, QHS_FIRST_DAY, SCHEME_FIRST_DAY};
use calculator::dates::LAST_DAY;
use calculator::packed::{Facts, Row};
use std::collections::BTreeSet;

/// First days at the ends of the scheme and outside it.
const ENDS: [u32; 6] = [0, 485, 486, 851, 852, u32::MAX];

/// The first and the last day of the scheme, and all its days.
const SPANS_AT_ENDS: [(u32, u32); 3] = [(486, 486), (851, 851), (486, 851)];

/// The values of a day, and of a contract and a day together, in the bits that a row has for them.
const DAY_VALUES: u32 = 1 << 10;
const KEY_VALUES: u32 = 1 << 16;

/// Days at a row's edges and beside them, and at the edges of the gaps before it and after it.
struct DaysBeside {
    first: u32,
    /// Where a span may begin.
    begins: BTreeSet<u32>,
    /// Where a span may end.
    ends: BTreeSet<u32>,
}

/// The cancellation and the rebill of a row, which keeps its span.
pub fn calls_on_row(random: &mut Random, facts: &Facts, row: &Row) -> [Call; 2] {
    calls_naming(random, facts, row.contract, row.bill.span())
}

/// The calls beside the row at a place: cancellations and rebills that name it or a day or contract
/// beside it, cancellations that would name it if a day ran over its bits, and bills and rebills of
/// spans beside it. A rebill that doesn't name it has a last day that is drawn.
pub fn calls_beside_row(random: &mut Random, facts: &Facts, place: usize) -> Vec<Call> {
    let row = &facts.rows[place];
    let days = DaysBeside::of_row(&facts.rows, place);
    let mut calls = Vec::new();
    for (contract, first) in names_beside(row, &days) {
        let last = days.any_end(random, first);
        calls.extend(calls_naming(random, facts, contract, (first, last)));
    }
    for (contract, first) in names_run_over(row) {
        calls.push(Call::Cancel { contract, first });
    }
    for span in days.spans() {
        calls.push(Call::Bill(numbers(random, facts, row.contract, span)));
        if span.0 == days.first {
            calls.push(Call::Rebill(numbers(random, facts, row.contract, span)));
        }
    }
    calls
}

/// The calls of a contract without rows, on the days of the row before it and of the row after it,
/// and at the ends of the scheme.
pub fn calls_without_rows(random: &mut Random, facts: &Facts, contract: u32) -> Vec<Call> {
    let before = facts.rows.iter().rfind(|row| row.contract < contract);
    let after = facts.rows.iter().find(|row| row.contract > contract);
    let rows = [before, after].into_iter().flatten();
    let spans = rows.map(|row| row.bill.span()).chain(SPANS_AT_ENDS);
    let spans: BTreeSet<(u32, u32)> = spans.collect();
    let mut calls = Vec::new();
    for day in ENDS {
        calls.extend(calls_naming(random, facts, contract, (day, day)));
    }
    for span in spans {
        calls.extend(calls_naming(random, facts, contract, span));
        calls.push(Call::Bill(numbers(random, facts, contract, span)));
    }
    calls
}

/// The report of a contract, and a certificate of each class and none.
pub fn calls_on_contract(random: &mut Random, contract: u32) -> [Call; 4] {
    let cert = |class, effective_day| Call::Cert {
        contract,
        class,
        effective_day,
    };
    [
        Call::Report { contract },
        cert(0, 0),
        cert(1, SCHEME_FIRST_DAY),
        cert(2, random.within(QHS_FIRST_DAY..=LAST_DAY)),
    ]
}

/// The cancellation of a contract's row by the first day of the span, and the rebill of the span.
fn calls_naming(random: &mut Random, facts: &Facts, contract: u32, span: (u32, u32)) -> [Call; 2] {
    [
        Call::Cancel {
            contract,
            first: span.0,
        },
        Call::Rebill(numbers(random, facts, contract, span)),
    ]
}

/// The numbers of a bill of the contract and span, without shares.
fn numbers(random: &mut Random, facts: &Facts, contract: u32, span: (u32, u32)) -> BillNumbers {
    BillNumbers {
        etii_share: 0,
        qhs_share: 0,
        ..bill_numbers(random, facts, contract, span)
    }
}

/// A row's contract with days beside it, at the ends of the scheme and outside it; the contracts
/// beside its own with its first day.
fn names_beside(row: &Row, days: &DaysBeside) -> BTreeSet<(u32, u32)> {
    let contracts = [row.contract.wrapping_sub(1), row.contract + 1];
    let of_contracts = contracts.map(|contract| (contract, days.first));
    let begins = days.begins.iter().copied().chain(ENDS);
    let of_days = begins.map(|day| (row.contract, day));
    of_days.chain(of_contracts).collect()
}

/// Contracts and first days that would come to those of the row if a day were cut to its bits, or
/// were added to the contract's and ran over them.
fn names_run_over(row: &Row) -> [(u32, u32); 4] {
    let (contract, first) = (row.contract, row.bill.first_day);
    [
        (contract, first + DAY_VALUES),
        (contract, first + KEY_VALUES),
        (contract.wrapping_sub(1), first + DAY_VALUES),
        (contract + 1, first.wrapping_sub(DAY_VALUES)),
    ]
}

impl DaysBeside {
    /// The days beside the row at a place. Where its contract has no row before it or after it, the
    /// gap goes to the end of the scheme.
    fn of_row(rows: &[Row], place: usize) -> DaysBeside {
        let row = &rows[place];
        let of_contract = |other: &&Row| other.contract == row.contract;
        let before = rows[..place].last().filter(of_contract);
        let after = rows.get(place + 1).filter(of_contract);
        let (first, last) = row.bill.span();
        let free_from = before.map_or(SCHEME_FIRST_DAY, |before| before.bill.last_day + 1);
        let free_to = after.map_or(LAST_DAY, |after| after.bill.first_day - 1);
        let end_of_next = after.map_or(LAST_DAY, |after| after.bill.last_day);
        DaysBeside {
            first,
            begins: BTreeSet::from([
                free_from - 1,
                free_from,
                first - 1,
                first,
                first + 1,
                last,
                last + 1,
            ]),
            ends: BTreeSet::from([
                first - 1,
                first,
                last - 1,
                last,
                last + 1,
                free_to,
                free_to + 1,
                end_of_next,
            ]),
        }
    }

    /// A day on which a span may end that begins on the day.
    fn any_end(&self, random: &mut Random, begin: u32) -> u32 {
        let ends: Vec<u32> = self.ends.range(begin..).copied().collect();
        if ends.is_empty() {
            begin
        } else {
            random.one_of(&ends)
        }
    }

    /// Every span of the scheme.
    fn spans(&self) -> impl Iterator<Item = (u32, u32)> + '_ {
        let spans = self.begins.iter();
        let spans = spans.flat_map(|&begin| self.ends.iter().map(move |&end| (begin, end)));
        spans.filter(|&(begin, end)| span_in_range(begin, end))
    }
}

#[cfg(test)]
mod tests {
    use super::{names_beside, names_run_over, DaysBeside};
    use calculator::packed::Row;
    use calculator::rates::Bill;
    use std::collections::BTreeSet;

    /// The contract and the span of each row.
    const ROWS: [(u32, (u32, u32)); 4] = [
        (4, (500, 509)),
        (5, (500, 509)),
        (5, (520, 529)),
        (5, (532, 532)),
    ];

    fn rows() -> Vec<Row> {
        let row = |(contract, (first_day, last_day))| Row {
            contract,
            bill: Bill {
                first_day,
                last_day,
                ..Bill::default()
            },
            amount: 0,
        };
        ROWS.map(row).to_vec()
    }

    /// All spans beside the row at a place.
    fn spans(place: usize) -> BTreeSet<(u32, u32)> {
        DaysBeside::of_row(&rows(), place).spans().collect()
    }

    #[test]
    fn spans_beside_a_row_between_others() {
        let spans = spans(2);
        for (span, what) in [
            ((519, 519), "it ends the day before"),
            ((519, 520), "it ends on the first day"),
            ((529, 530), "it begins on the last day"),
            ((530, 530), "it begins on the day after"),
            ((521, 528), "it lies inside"),
            ((520, 529), "it is the row's"),
            ((519, 530), "it covers the row"),
            ((519, 532), "it covers two rows"),
            ((509, 532), "it shares a day with three rows"),
            ((510, 519), "it is the gap before"),
            ((530, 531), "it is the gap after"),
            ((529, 532), "it shares a day with the row and with the next"),
            ((509, 519), "it shares a day with the row before"),
        ] {
            assert!(spans.contains(&span), "{what}");
        }
    }

    /// The gaps before a contract's first row and after its last one go to the ends of the scheme.
    #[test]
    fn spans_beside_the_first_and_the_last_row() {
        for span in [(486, 499), (486, 500), (499, 499), (486, 529)] {
            assert!(spans(1).contains(&span), "{span:?}");
        }
        for span in [(530, 531), (533, 851), (532, 851), (533, 533)] {
            assert!(spans(3).contains(&span), "{span:?}");
        }
        for place in 0..ROWS.len() {
            let mut spans = spans(place).into_iter();
            assert!(spans.all(|(first, last)| 486 <= first && first <= last && last <= 851));
        }
    }

    #[test]
    fn names_beside_a_row() {
        let rows = rows();
        let days = DaysBeside::of_row(&rows, 2);
        let expected = [
            (4, 520),
            (5, 0),
            (5, 485),
            (5, 486),
            (5, 509),
            (5, 510),
            (5, 519),
            (5, 520),
            (5, 521),
            (5, 529),
            (5, 530),
            (5, 851),
            (5, 852),
            (5, u32::MAX),
            (6, 520),
        ];
        assert!(names_beside(&rows[2], &days).into_iter().eq(expected));
    }

    /// The first day, 520, in the last 10 bits and in the last 16; contract × 1,024 + first day, which
    /// is 5,640 of the row, in 32 bits.
    #[test]
    fn names_that_run_over() {
        let names = names_run_over(&rows()[2]);
        let expected = [(5, 1_544), (5, 66_056), (4, 1_544), (6, 4_294_966_792)];
        assert_eq!(names, expected);
        let in_bits = names.map(|(contract, first)| {
            let together = contract.wrapping_mul(1_024).wrapping_add(first);
            [first % 1_024, first % 65_536, together]
        });
        assert_eq!(in_bits[0][0], 520);
        assert_eq!(in_bits[1][1], 520);
        assert_eq!([in_bits[2][2], in_bits[3][2]], [5_640; 2]);
    }
}

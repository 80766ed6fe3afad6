//! Bills of variable and index contracts, which start and end in one scheme month (document
//! 02, paper 2), and rows stored across months, which stand.

mod common;
mod desk;

use calculator::codes::Territory;
use calculator::packed::{pack, unpack, Facts, Row};
use calculator::postings::PostingModule;
use calculator::rates::{Bill, Certificate, Contract, Fuel, Kind};
use desk::Desk;

/// The first and the last day of every scheme month, April 2023 to March 2024.
const MONTHS: [(u32, u32); 12] = [
    (486, 515),
    (516, 546),
    (547, 576),
    (577, 607),
    (608, 638),
    (639, 668),
    (669, 699),
    (700, 729),
    (730, 760),
    (761, 791),
    (792, 820),
    (821, 851),
];

/// The contracts of `five_contracts` with monthly prices, each with the book entry of its
/// price in April 2023.
const MONTHLY: [(u32, u32); 3] = [(0, 1_704), (1, 1_704 + 12), (2, 1_728)];

/// The contracts of `five_contracts` without monthly prices, each with its R and its WAP.
const OTHERS: [(u32, i64, u32); 2] = [(3, 8, 0), (4, 9, 9)];

/// In Northern Ireland, contracts 0 and 1 variable electricity and gas, 2 index, 3
/// electricity fixed on day 7, 4 flexible gas. The price of each book entry is its index
/// plus 1, at which every rate is 0.
fn five_contracts() -> Desk {
    let mut desk = Desk::new(Territory::NorthernIreland);
    desk.book = (1..=1_740).collect();
    for line in [
        "open 0 0 1 0 0",
        "open 1 1 1 0 0",
        "open 2 0 3 0 0",
        "open 3 0 0 7 7",
        "open 4 1 2 0 0",
    ] {
        desk.expect(line, &[]);
    }
    desk
}

/// Spans across months: for each of the eleven month ends the shortest, of two days; a whole
/// month with a day of the next or of the one before; as many days as a month has, from its
/// second day on; two whole months. The longest is the whole scheme.
fn spans_across_months() -> Vec<(u32, u32)> {
    let mut spans = vec![(486, 851)];
    for (month, next) in MONTHS.iter().zip(&MONTHS[1..]) {
        spans.extend([
            (month.1, next.0),
            (month.0, month.1 + 1),
            (next.0 - 1, next.1),
            (month.0 + 1, month.1 + 1),
            (month.0, next.1),
        ]);
    }
    spans
}

#[test]
fn a_whole_month_and_each_end_of_it_are_accepted() {
    for (month, (first, last)) in (0..).zip(MONTHS) {
        for (first, last) in [(first, last), (first, first), (last, last)] {
            let mut desk = five_contracts();
            for (contract, april) in MONTHLY {
                let price = i64::from(april + month + 1);
                let numbers = format!("{contract} {first} {last} 1 1 0 0 0");
                desk.expect(&format!("bill {numbers}"), &[price, 0, 0]);
                desk.expect(&format!("rebill {numbers}"), &[price, 0, 0]);
            }
        }
    }
}

#[test]
fn a_span_over_the_end_of_a_month_is_refused() {
    let mut desk = five_contracts();
    for (contract, _) in MONTHLY {
        for (first, last) in spans_across_months() {
            let numbers = format!("{contract} {first} {last} 1 1 0 0 0");
            desk.expect_refusal(&format!("bill {numbers}"), 15);
            desk.expect_refusal(&format!("rebill {numbers}"), 15);
        }
    }
}

#[test]
fn a_standing_bill_is_not_rebilled_over_the_end_of_a_month() {
    for (first, last) in spans_across_months() {
        let mut desk = five_contracts();
        for (contract, _) in MONTHLY {
            let bill = format!("bill {contract} {first} {first} 1 1 0 0 0");
            assert!(desk.outcome(&bill).is_ok(), "{bill}");
            let rebill = format!("rebill {contract} {first} {last} 1 1 0 0 0");
            desk.expect_refusal(&rebill, 15);
        }
    }
}

#[test]
fn fixed_and_flexible_contracts_are_billed_over_the_end_of_a_month() {
    for (first, last) in spans_across_months() {
        let mut desk = five_contracts();
        for (contract, price, wap) in OTHERS {
            let numbers = format!("{contract} {first} {last} 1 1 {wap} 0 0");
            desk.expect(&format!("bill {numbers}"), &[price, 0, 0]);
            desk.expect(&format!("rebill {numbers}"), &[price, 0, 0]);
        }
    }
}

/// Every span of the scheme. Without a published price one within a month meets 11.
#[test]
fn a_span_is_refused_just_where_no_month_holds_it() {
    let mut desk = five_contracts();
    desk.book.fill(0);
    for first in 486..=851 {
        for last in first..=851 {
            let mut months = MONTHS.iter();
            let held = months.any(|month| month.0 <= first && last <= month.1);
            let number = if held { 11 } else { 15 };
            let line = format!("bill 2 {first} {last} 1 1 0 0 0");
            assert_eq!(desk.outcome(&line), Err(number), "{line}");
        }
    }
}

/// Spans that meet 7, with days in two months and numbers that meet the later tests.
#[test]
fn a_wrong_day_is_refused_before_two_months() {
    let mut desk = five_contracts();
    for (contract, _) in MONTHLY {
        for span in [
            "485 486",
            "485 516",
            "851 852",
            "516 515",
            "851 486",
            "0 851",
            "486 4294967295",
            "4294967295 486",
            "4294967295 4294967295",
        ] {
            let numbers = format!("{contract} {span} 40000001 1000000 1 40000001 1");
            desk.expect_refusal(&format!("bill {numbers}"), 7);
            desk.expect_refusal(&format!("rebill {numbers}"), 7);
        }
    }
}

#[test]
fn the_book_and_the_contract_are_tested_before_two_months() {
    let mut desk = five_contracts();
    for name in ["bill", "rebill"] {
        desk.expect_refusal(&format!("{name} 64 515 516 1 1 0 0 0"), 4);
        desk.expect_refusal(&format!("{name} 63 515 516 1 1 0 0 0"), 5);
    }
    desk.book.pop();
    for name in ["bill", "rebill"] {
        desk.expect_refusal(&format!("{name} 0 515 516 1 1 0 0 0"), 3);
    }
}

/// Lines whose last day is 515 or 516, each with the number that refuses it where it is 515.
/// The days 514 and 515 have a row each of contracts 0 and 2, and no price is published.
const REFUSED_LATER: [(&str, u32); 19] = [
    ("bill 0 514 LAST 40000001 1 0 40000001 1", 8),
    ("bill 1 514 LAST 1 1000000 0 1 1", 8),
    ("bill 2 514 LAST 1 1 1 1 1", 8),
    ("bill 0 514 LAST 1 1 0 1 1", 14),
    ("bill 2 514 LAST 1 1 0 4294967295 1", 14),
    ("bill 0 514 LAST 1 1 0 0 0", 10),
    ("bill 2 514 LAST 1 1 0 0 0", 10),
    ("bill 1 514 LAST 1 1 0 0 0", 11),
    ("rebill 0 513 LAST 40000001 1 0 40000001 1", 8),
    ("rebill 1 513 LAST 1 1000000 0 1 1", 8),
    ("rebill 2 513 LAST 1 1 1 1 1", 8),
    ("rebill 0 513 LAST 1 1 0 1 1", 14),
    ("rebill 2 513 LAST 1 1 0 1 4294967295", 14),
    ("rebill 0 513 LAST 1 1 0 0 0", 9),
    ("rebill 2 513 LAST 1 1 0 0 0", 9),
    ("rebill 0 514 LAST 1 1 0 0 0", 10),
    ("rebill 2 514 LAST 1 1 0 0 0", 10),
    ("rebill 0 515 LAST 1 1 0 0 0", 11),
    ("rebill 2 515 LAST 1 1 0 0 0", 11),
];

#[test]
fn two_months_are_refused_before_all_later_tests() {
    let mut desk = five_contracts();
    for contract in [0, 2] {
        for day in [514, 515] {
            let bill = format!("bill {contract} {day} {day} 1 1 0 0 0");
            assert!(desk.outcome(&bill).is_ok(), "{bill}");
        }
    }
    desk.book.fill(0);
    for (line, number) in REFUSED_LATER {
        desk.expect_refusal(&line.replace("LAST", "515"), number);
        desk.expect_refusal(&line.replace("LAST", "516"), 15);
    }
}

/// The rows are used up by 256 bills of each of four flexible contracts.
#[test]
fn two_months_are_refused_before_the_row_after_1_024() {
    let mut desk = five_contracts();
    for contract in 5..9 {
        desk.expect(&format!("open {contract} 0 2 0 0"), &[]);
        for day in 486..742 {
            let bill = format!("bill {contract} {day} {day} 1 1 1 0 0");
            desk.expect(&bill, &[1, 0, 0]);
        }
    }
    for (contract, _) in MONTHLY {
        desk.expect_refusal(&format!("bill {contract} 515 515 1 1 0 0 0"), 12);
        desk.expect_refusal(&format!("bill {contract} 515 516 1 1 0 0 0"), 15);
    }
}

/// A contract with monthly prices, R and S of its rows, and the ticks that a kWh then has in
/// the baseline class, in ETII and in QHS before day 792.
struct Stored {
    fuel: Fuel,
    kind: Kind,
    prices: (i64, i64),
    rates: [i64; 3],
}

const STORED: [Stored; 3] = [
    Stored {
        fuel: Fuel::Electricity,
        kind: Kind::Variable,
        prices: (31_980, 67_030),
        rates: [17_800, 67_640, 319_800],
    },
    Stored {
        fuel: Fuel::Gas,
        kind: Kind::Variable,
        prices: (11_170, 15_190),
        rates: [4_700, 10_300, 73_600],
    },
    Stored {
        fuel: Fuel::Electricity,
        kind: Kind::DayAheadIndex,
        prices: (31_980, 67_030),
        rates: [17_800, 67_640, 319_800],
    },
];

/// A span across months.
struct StoredSpan {
    days: (u32, u32),
    /// The last day of its first month.
    month_end: u32,
    /// Of 1,000 kWh those on its first day: the floor of 1,000 divided by the count of its
    /// days.
    kwh_on_first_day: i64,
}

/// Spans across two months and across three, the shortest and whole months: 2, 61, 33 and 92
/// days.
const STORED_SPANS: [StoredSpan; 4] = [
    StoredSpan {
        days: (515, 516),
        month_end: 515,
        kwh_on_first_day: 500,
    },
    StoredSpan {
        days: (516, 576),
        month_end: 546,
        kwh_on_first_day: 16,
    },
    StoredSpan {
        days: (515, 547),
        month_end: 515,
        kwh_on_first_day: 30,
    },
    StoredSpan {
        days: (577, 668),
        month_end: 607,
        kwh_on_first_day: 10,
    },
];

impl Stored {
    /// The facts of a Northern Ireland ledger with contract 7 alone, without a certificate,
    /// and its row of 1,000 kWh. A span with a QHS share doesn't reach day 792.
    fn facts(&self, span: (u32, u32), shares: (i64, i64)) -> Facts {
        let [baseline, etii, qhs] = self.rates;
        let rest = 1_000 - shares.0 - shares.1;
        let row = Row {
            contract: 7,
            bill: Bill {
                first_day: span.0,
                last_day: span.1,
                kwh: 1_000,
                etii_share: shares.0,
                qhs_share: shares.1,
                reference_price: self.prices.0,
                supply_price: self.prices.1,
            },
            amount: rest * baseline + shares.0 * etii + shares.1 * qhs,
        };
        let mut facts = Facts::fresh(Territory::NorthernIreland);
        facts.contracts[7] = Some(Contract {
            fuel: self.fuel,
            kind: self.kind,
            certificate: Certificate::None,
            amendment: None,
        });
        facts.rows.push(row);
        facts
    }

    /// A desk with the ledger as it is stored. R would be 10 mils higher by its book.
    fn desk(&self, span: (u32, u32), shares: (i64, i64)) -> Desk {
        let facts = unpack(&pack(&self.facts(span, shares))).expect("the ledger is well formed");
        let price = u32::try_from(self.prices.0 + 10).expect("a price is in range");
        Desk {
            module: PostingModule::from_facts(&facts),
            book: vec![price; 1_740],
        }
    }
}

#[test]
fn stored_rows_across_months_are_well_formed() {
    let spans = STORED_SPANS.map(|span| span.days);
    for stored in STORED {
        for span in spans.into_iter().chain([(486, 576), (486, 791)]) {
            for shares in [(0, 0), (300, 0), (0, 200), (300, 200)] {
                let facts = stored.facts(span, shares);
                assert_eq!(unpack(&pack(&facts)), Some(facts));
            }
        }
        for shares in [(0, 0), (300, 0)] {
            let facts = stored.facts((486, 851), shares);
            assert_eq!(unpack(&pack(&facts)), Some(facts));
        }
    }
}

/// Of 366 days 306 are before day 792: floor(200 × 306 / 366) = 167 kWh of the QHS share have
/// the old minimum and 33 the new one. At the new one a kWh of the gas contract has
/// 10 × (15,190 − 6,500) = 86,900 ticks; R bounds those of the others at either minimum.
#[test]
fn a_stored_row_over_all_months_has_both_qhs_minimums() {
    for (stored, new_qhs) in STORED.iter().zip([319_800, 86_900, 319_800]) {
        let [baseline, etii, qhs] = stored.rates;
        for (rest, etii_share) in [(800, 0), (500, 300)] {
            let mut facts = stored.facts((486, 851), (etii_share, 200));
            facts.rows[0].amount = rest * baseline + etii_share * etii + 167 * qhs + 33 * new_qhs;
            assert_eq!(unpack(&pack(&facts)), Some(facts));
        }
    }
}

#[test]
fn stored_rows_across_months_take_certificates_and_cancellation() {
    for stored in STORED {
        let [baseline, etii, qhs] = stored.rates.map(|rate| 1_000 * rate);
        for span in STORED_SPANS {
            let mut desk = stored.desk(span.days, (0, 0));
            let (first, next) = (span.days.0, span.days.0 + 1);
            desk.expect("report 7", &[1, 1_000, baseline]);
            desk.expect(&format!("cert 7 1 {first}"), &[etii - baseline, 1]);
            desk.expect("report 7", &[1, 1_000, etii]);
            desk.expect(&format!("cert 7 2 {first}"), &[qhs - etii, 1]);
            desk.expect("total", &[qhs, qhs]);
            let change = span.kwh_on_first_day * (stored.rates[0] - stored.rates[2]);
            desk.expect(&format!("cert 7 2 {next}"), &[change, 1]);
            desk.expect("total", &[qhs + change, qhs + change]);
            desk.expect("cert 7 0 0", &[baseline - qhs - change, 1]);
            assert_eq!(desk.module.facts(), stored.facts(span.days, (0, 0)));
            desk.expect(&format!("cancel 7 {first}"), &[-baseline]);
            desk.expect("report 7", &[0, 0, 0]);
        }
    }
}

#[test]
fn stored_rows_across_months_with_shares_are_cancelled_too() {
    for stored in STORED {
        let [baseline, etii, qhs] = stored.rates;
        let due = 500 * baseline + 300 * etii + 200 * qhs;
        for StoredSpan { days, .. } in STORED_SPANS {
            let mut desk = stored.desk(days, (300, 200));
            desk.expect(&format!("cert 7 1 {}", days.0), &[0, 0]);
            desk.expect(&format!("cert 7 1 {}", days.1), &[0, 0]);
            desk.expect("report 7", &[1, 1_000, due]);
            desk.expect(&format!("cancel 7 {}", days.0), &[-due]);
        }
    }
}

#[test]
fn a_stored_row_across_months_is_rebilled_within_one_month_only() {
    for stored in STORED {
        for StoredSpan {
            days, month_end, ..
        } in STORED_SPANS
        {
            let mut desk = stored.desk(days, (0, 0));
            let (first, next_month) = (days.0, month_end + 1);
            let (price, supply) = (stored.prices.0 + 10, stored.prices.1);
            let rate = stored.rates[0] + 100;
            let bill = format!("bill 7 {next_month} {next_month} 1000 {supply} 0 0 0");
            for last in [days.1, next_month] {
                let rebill = format!("rebill 7 {first} {last} 1000 {supply} 0 0 0");
                desk.expect_refusal(&rebill, 15);
            }
            desk.expect_refusal(&bill, 10);
            desk.expect(
                &format!("rebill 7 {first} {month_end} 1000 {supply} 0 0 0"),
                &[price, rate, 1_000 * 100],
            );
            desk.expect(&bill, &[price, rate, 1_000 * rate]);
            desk.expect("report 7", &[2, 2_000, 2_000 * rate]);
        }
    }
}

//! Amended contracts (document 02, paper 5): the price-fix and entry day that each bill takes,
//! what an amendment leaves as it was, and numbers 7, 16, 17 and 18.
//!
//! At R 40,000 and S 50,000 mils of electricity a kWh has 10 × 1,961 = 19,610 ticks in the
//! baseline class, 10 × (50,000 − 34,000) = 160,000 in QHS at the old minimum and
//! 10 × (50,000 − 28,240) = 217,600 at the new one.

mod common;
mod desk;

use calculator::codes::Territory;
use calculator::rates::{cap, Amendment, Bill, Certificate, Contract, Fuel, Kind};
use desk::Desk;

const BASELINE: i64 = 19_610;
const OLD_QHS: i64 = 160_000;
const NEW_QHS: i64 = 217_600;

/// The answers of a bill of 1 kWh at S 99,999 with the original and with the amendment's
/// price-fix day of `fixed_contract`: 30,300 and 30,400 less 30,200 mils.
const ORIGINAL: [i64; 3] = [30_300, 1_000, 1_000];
const AMENDED: [i64; 3] = [30_400, 2_000, 2_000];

/// A desk with contract 0, electricity fixed on day 7 and entered on day 8. R is 30,300 on day 7
/// and 30,400 on day 530.
fn fixed_contract() -> Desk {
    let mut desk = Desk::new(Territory::GreatBritain);
    (desk.book[7], desk.book[530]) = (30_300, 30_400);
    desk.expect("open 0 0 0 7 8", &[]);
    desk
}

/// The same, amended with price-fix day 530 and entry day 531.
fn amended_contract(original_end_day: u32) -> Desk {
    let mut desk = fixed_contract();
    desk.expect(&format!("amend 0 {original_end_day} 530 531"), &[]);
    desk
}

/// A desk with contract 0, electricity fixed on day 7 and entered on the first day of the pair,
/// and amended with the end, price-fix day 530 and the second day as its entry day. R is 40,000
/// on both price-fix days.
fn contract_entered_on((original, amended): (u32, u32), original_end_day: u32) -> Desk {
    let mut desk = Desk::new(Territory::GreatBritain);
    (desk.book[7], desk.book[530]) = (40_000, 40_000);
    desk.expect(&format!("open 0 0 0 7 {original}"), &[]);
    desk.expect(&format!("amend 0 {original_end_day} 530 {amended}"), &[]);
    desk
}

/// The line of a bill or rebill of contract 0: 1 kWh at S 99,999.
fn of_1_kwh(name: &str, first: u32, last: u32) -> String {
    format!("{name} 0 {first} {last} 1 99999 0 0 0")
}

/// The line of a bill or rebill of contract 0: 1,000 kWh at S 50,000.
fn of_1_000_kwh(name: &str, first: u32, last: u32) -> String {
    format!("{name} 0 {first} {last} 1000 50000 0 0 0")
}

#[test]
fn a_bill_takes_the_original_days_up_to_the_original_end() {
    for end in [486, 487, 600, 850, 851] {
        let mut desk = amended_contract(end);
        desk.expect(&of_1_kwh("bill", end, end), &ORIGINAL);
    }
}

#[test]
fn a_bill_takes_the_amended_days_from_the_day_after_the_original_end() {
    for end in [486, 487, 600, 850] {
        let mut desk = amended_contract(end);
        desk.expect(&of_1_kwh("bill", end + 1, end + 1), &AMENDED);
    }
}

#[test]
fn a_bill_may_end_on_the_original_end_and_the_next_one_start_after_it() {
    let mut desk = amended_contract(600);
    desk.expect(&of_1_kwh("bill", 486, 600), &ORIGINAL);
    desk.expect(&of_1_kwh("bill", 601, 851), &AMENDED);
    desk.expect("report 0", &[2, 2, 3_000]);
}

#[test]
fn an_original_end_of_851_leaves_every_bill_the_original_days() {
    let mut desk = amended_contract(851);
    desk.expect(&of_1_kwh("bill", 486, 850), &ORIGINAL);
    desk.expect(&of_1_kwh("bill", 851, 851), &ORIGINAL);
}

#[test]
fn a_rebill_takes_the_days_of_its_first_day() {
    let mut desk = amended_contract(600);
    desk.expect(&of_1_kwh("bill", 600, 600), &ORIGINAL);
    desk.expect(&of_1_kwh("bill", 601, 601), &AMENDED);
    (desk.book[7], desk.book[530]) = (30_500, 30_700);
    desk.expect(&of_1_kwh("rebill", 600, 600), &[30_500, 3_000, 2_000]);
    desk.expect(&of_1_kwh("rebill", 601, 700), &[30_700, 5_000, 3_000]);
    desk.expect("total", &[8_000, 8_000]);
}

#[test]
fn a_gas_contract_takes_the_prices_of_gas() {
    let mut desk = Desk::new(Territory::NorthernIreland);
    (desk.book[852 + 7], desk.book[852 + 530]) = (10_800, 10_900);
    desk.expect("open 0 1 0 7 8", &[]);
    desk.expect("amend 0 600 530 531", &[]);
    desk.expect(&of_1_kwh("bill", 600, 600), &[10_800, 1_000, 1_000]);
    desk.expect(&of_1_kwh("bill", 601, 601), &[10_900, 2_000, 2_000]);
}

#[test]
fn only_the_price_of_the_chosen_day_is_needed() {
    let mut desk = amended_contract(600);
    desk.book[530] = 0;
    desk.expect(&of_1_kwh("bill", 600, 600), &ORIGINAL);
    desk.expect_refusal(&of_1_kwh("bill", 601, 601), 11);
    (desk.book[7], desk.book[530]) = (0, 30_400);
    desk.expect_refusal(&of_1_kwh("bill", 599, 599), 11);
    desk.expect_refusal(&of_1_kwh("rebill", 600, 600), 11);
    desk.expect(&of_1_kwh("bill", 601, 601), &AMENDED);
}

#[test]
fn another_contract_keeps_its_days() {
    let mut desk = amended_contract(600);
    desk.expect("open 1 0 0 7 8", &[]);
    desk.expect("bill 1 600 601 1 99999 0 0 0", &ORIGINAL);
    desk.expect("bill 1 602 602 1 99999 0 0 0", &ORIGINAL);
}

/// Original and amended entry days, with the ticks of a kWh on day 792 or later up to the
/// original end and after it.
const ENTRY_DAYS: [((u32, u32), i64, i64); 6] = [
    ((791, 792), OLD_QHS, NEW_QHS),
    ((792, 791), NEW_QHS, OLD_QHS),
    ((791, 791), OLD_QHS, OLD_QHS),
    ((792, 792), NEW_QHS, NEW_QHS),
    ((0, 851), OLD_QHS, NEW_QHS),
    ((851, 0), NEW_QHS, OLD_QHS),
];

#[test]
fn bills_and_rebills_take_the_qhs_minimum_of_their_entry_day() {
    for (entry_days, until_end, after_end) in ENTRY_DAYS {
        let mut desk = contract_entered_on(entry_days, 800);
        desk.expect("cert 0 2 511", &[0, 0]);
        for (first, last, rate) in [(792, 800, until_end), (801, 810, after_end)] {
            let line = of_1_000_kwh("bill", first, last);
            desk.expect(&line, &[40_000, rate, 1_000 * rate]);
            let line = of_1_000_kwh("rebill", first, last);
            desk.expect(&line, &[40_000, rate, 0]);
        }
    }
}

#[test]
fn a_certificate_re_rates_each_row_by_its_entry_day() {
    for (entry_days, until_end, after_end) in ENTRY_DAYS {
        let mut desk = contract_entered_on(entry_days, 800);
        for (first, last) in [(792, 800), (801, 810)] {
            let line = of_1_000_kwh("bill", first, last);
            desk.expect(&line, &[40_000, BASELINE, 1_000 * BASELINE]);
        }
        let change = 1_000 * (until_end + after_end - 2 * BASELINE);
        desk.expect("cert 0 2 511", &[change, 2]);
        // of the 10 days from 801 on 4 are before day 805
        let fewer = 400 * (BASELINE - after_end) + 1_000 * (BASELINE - until_end);
        desk.expect("cert 0 2 805", &[fewer, 2]);
        desk.expect("cancel 0 801", &[-(400 * BASELINE + 600 * after_end)]);
    }
}

/// Of 10 kWh 4 are the QHS share and 6 the rest.
#[test]
fn a_qhs_share_has_the_minimum_of_the_bills_entry_day() {
    for (entry_days, until_end, after_end) in ENTRY_DAYS {
        let mut desk = contract_entered_on(entry_days, 800);
        for (first, rate) in [(800, until_end), (801, after_end)] {
            let line = format!("bill 0 {first} {first} 10 50000 0 0 4");
            desk.expect(&line, &[40_000, BASELINE, 6 * BASELINE + 4 * rate]);
        }
        desk.expect("cert 0 2 511", &[0, 0]);
    }
}

/// Of 20 days 10 are before day 792: floor(999 × 10 / 20) = 499 kWh, and the other 500 from it
/// on. The contract was entered on day 8, before day 792.
#[test]
fn the_qhs_minimum_changes_inside_a_bill_by_the_amended_entry_day() {
    for (entry_day, amount) in [
        (792, 499 * OLD_QHS + 500 * NEW_QHS),
        (791, 999 * OLD_QHS),
        (0, 999 * OLD_QHS),
        (851, 499 * OLD_QHS + 500 * NEW_QHS),
    ] {
        let mut desk = contract_entered_on((8, entry_day), 781);
        desk.expect("cert 0 2 511", &[0, 0]);
        let line = "bill 0 782 801 999 50000 0 0 0";
        desk.expect(line, &[40_000, OLD_QHS, amount]);
    }
}

/// No QHS minimum changes before day 792, whatever the entry days.
#[test]
fn an_original_end_before_day_792() {
    for (entry_days, _, after_end) in ENTRY_DAYS {
        let mut desk = contract_entered_on(entry_days, 700);
        desk.expect("cert 0 2 511", &[0, 0]);
        for (first, last, rate) in [
            (600, 700, OLD_QHS),
            (701, 791, OLD_QHS),
            (792, 851, after_end),
        ] {
            let line = of_1_000_kwh("bill", first, last);
            desk.expect(&line, &[40_000, rate, 1_000 * rate]);
        }
    }
}

#[test]
fn the_cap_of_a_bill_is_by_its_entry_day() {
    let contract = Contract {
        fuel: Fuel::Electricity,
        kind: Kind::Fixed {
            price_fix_day: 7,
            entry_day: 791,
        },
        certificate: Certificate::Qhs { effective_day: 511 },
        amendment: Some(Amendment {
            original_end_day: 800,
            price_fix_day: 530,
            entry_day: 792,
        }),
    };
    for (day, expected) in [(791, OLD_QHS), (800, OLD_QHS), (801, NEW_QHS)] {
        let bill = Bill {
            first_day: day,
            last_day: day,
            kwh: 3,
            supply_price: 50_000,
            ..Bill::default()
        };
        assert_eq!(cap(&contract, &bill), 3 * expected, "{day}");
    }
}

/// The rows have a certificate that begins inside, day 792 inside, and a QHS share. With the
/// amendment's days they would have another R, and those from day 792 on another QHS minimum.
#[test]
fn an_amendment_alters_nothing_but_its_contract() {
    let mut desk = fixed_contract();
    for line in [
        "cert 0 2 600",
        "bill 0 590 610 1000 50000 0 0 0",
        "bill 0 780 800 1000 50000 0 0 0",
        "bill 0 801 820 1000 50000 0 300 200",
        "claim",
    ] {
        assert!(desk.outcome(line).is_ok(), "{line}");
    }
    let (report, total) = (desk.outcome("report 0"), desk.outcome("total"));
    let mut expected = desk.module.facts();
    desk.expect("amend 0 820 530 851", &[]);
    let contract = expected.contracts[0].as_mut().expect("contract 0 is open");
    contract.amendment = Some(Amendment {
        original_end_day: 820,
        price_fix_day: 530,
        entry_day: 851,
    });
    assert_eq!(desk.module.facts(), expected);
    assert_eq!(desk.outcome("report 0"), report);
    assert_eq!(desk.outcome("total"), total);
    // a certificate again re-rates no row
    desk.expect("cert 0 2 600", &[0, 0]);
}

#[test]
fn a_certificate_keeps_the_amendment() {
    let amendment = Amendment {
        original_end_day: 600,
        price_fix_day: 530,
        entry_day: 531,
    };
    let mut desk = amended_contract(600);
    for line in ["cert 0 1 486", "cert 0 2 511", "cert 0 1 601", "cert 0 0 0"] {
        desk.expect(line, &[0, 0]);
        let contract = desk.module.facts().contracts[0].expect("contract 0 is open");
        assert_eq!(contract.amendment, Some(amendment), "{line}");
    }
    desk.expect(&of_1_kwh("bill", 600, 600), &ORIGINAL);
    desk.expect(&of_1_kwh("bill", 601, 601), &AMENDED);
}

#[test]
fn the_original_end_is_486_to_851() {
    let mut desk = fixed_contract();
    for end in [0, 1, 485, 852, 1_023, 1_024 + 600, u32::MAX] {
        desk.expect_refusal(&format!("amend 0 {end} 530 531"), 7);
    }
    for end in [486, 487, 850, 851] {
        amended_contract(end);
    }
}

#[test]
fn the_price_fix_and_entry_day_of_an_amendment_are_at_most_851() {
    for day in [852, 1_023, 1_024, u32::MAX] {
        let mut desk = fixed_contract();
        desk.expect_refusal(&format!("amend 0 600 {day} 0"), 7);
        desk.expect_refusal(&format!("amend 0 600 0 {day}"), 7);
    }
    for days in [
        "0 0", "0 485", "485 0", "486 0", "0 486", "851 0", "0 851", "851 851",
    ] {
        let mut desk = fixed_contract();
        desk.expect(&format!("amend 0 600 {days}"), &[]);
    }
}

#[test]
fn no_order_among_the_days_is_asked() {
    for days in [
        "486 851 851",
        "486 851 0",
        "486 0 851",
        "851 0 0",
        "600 700 650",
        "600 6 7",
        "600 7 8",
    ] {
        let mut desk = fixed_contract();
        desk.expect(&format!("amend 0 {days}"), &[]);
    }
}

#[test]
fn only_a_fixed_contract_is_amended() {
    let mut desk = Desk::new(Territory::NorthernIreland);
    for (contract, fuel_and_kind) in (0..).zip(["0 1", "1 1", "0 2", "1 2", "0 3"]) {
        desk.expect(&format!("open {contract} {fuel_and_kind} 0 0"), &[]);
        desk.expect_refusal(&format!("amend {contract} 600 530 531"), 16);
        desk.expect_refusal(&format!("amend {contract} 851 0 0"), 16);
    }
    desk.expect("open 63 1 0 0 0", &[]);
    desk.expect("amend 63 600 530 531", &[]);
}

#[test]
fn a_contract_is_amended_once() {
    for end in [486, 600, 851] {
        let mut desk = amended_contract(end);
        desk.expect_refusal(&format!("amend 0 {end} 530 531"), 16);
        desk.expect_refusal("amend 0 851 0 0", 16);
        desk.expect("cert 0 1 486", &[0, 0]);
        desk.expect_refusal("amend 0 486 851 851", 16);
    }
}

#[test]
fn a_refused_amendment_leaves_the_contract_to_be_amended() {
    let mut desk = fixed_contract();
    desk.expect(&of_1_kwh("bill", 600, 601), &ORIGINAL);
    desk.expect_refusal("amend 0 852 530 531", 7);
    desk.expect_refusal("amend 0 600 530 531", 18);
    desk.expect("cancel 0 600", &[-1_000]);
    desk.expect("amend 0 600 530 531", &[]);
    desk.expect(&of_1_kwh("bill", 601, 601), &AMENDED);
}

/// A row with an original end, and whether the row ends after it; where it starts after it too,
/// the row is wholly after the end.
const ROWS_AND_ENDS: [((u32, u32), u32, bool); 13] = [
    ((500, 520), 486, true),
    ((500, 520), 499, true),
    ((500, 520), 500, true),
    ((500, 520), 519, true),
    ((500, 520), 520, false),
    ((500, 520), 851, false),
    ((486, 486), 486, false),
    ((487, 487), 486, true),
    ((486, 851), 486, true),
    ((486, 851), 850, true),
    ((486, 851), 851, false),
    ((851, 851), 850, true),
    ((851, 851), 851, false),
];

#[test]
fn no_standing_row_ends_after_the_original_end() {
    for ((first, last), end, ends_after) in ROWS_AND_ENDS {
        let mut desk = fixed_contract();
        desk.expect(&of_1_kwh("bill", first, last), &ORIGINAL);
        let line = format!("amend 0 {end} 530 531");
        if ends_after {
            desk.expect_refusal(&line, 18);
        } else {
            desk.expect(&line, &[]);
        }
    }
}

#[test]
fn every_row_of_the_contract_counts() {
    let mut desk = fixed_contract();
    for (first, last) in [(500, 510), (520, 530), (540, 550)] {
        desk.expect(&of_1_kwh("bill", first, last), &ORIGINAL);
    }
    for end in [499, 509, 510, 529, 530, 549] {
        desk.expect_refusal(&format!("amend 0 {end} 530 531"), 18);
    }
    desk.expect("cancel 0 540", &[-1_000]);
    desk.expect_refusal("amend 0 529 530 531", 18);
    desk.expect(&of_1_kwh("rebill", 520, 529), &[30_300, 1_000, 0]);
    desk.expect("amend 0 529 530 531", &[]);
}

#[test]
fn rows_of_other_contracts_do_not_count() {
    let mut desk = fixed_contract();
    for contract in [1, 2] {
        desk.expect(&format!("open {contract} 0 0 7 8"), &[]);
    }
    for contract in [0, 2] {
        let line = format!("bill {contract} 700 710 1 99999 0 0 0");
        desk.expect(&line, &ORIGINAL);
    }
    desk.expect("bill 1 600 600 1 99999 0 0 0", &ORIGINAL);
    desk.expect("amend 1 600 530 531", &[]);
    desk.expect_refusal("amend 0 600 530 531", 18);
    desk.expect_refusal("amend 2 600 530 531", 18);
}

/// Every span of the scheme: it crosses the end where the end and the day after it are among its
/// days. Without a published price one that doesn't meets 11.
#[test]
fn a_span_is_refused_just_where_it_crosses_the_original_end() {
    for end in [486, 600, 850, 851] {
        let mut desk = amended_contract(end);
        desk.book.fill(0);
        for first in 486..=851 {
            for last in first..=851 {
                let days = first..=last;
                let crosses = days.contains(&end) && days.contains(&(end + 1));
                let number = if crosses { 17 } else { 11 };
                let line = of_1_kwh("bill", first, last);
                assert_eq!(desk.outcome(&line), Err(number), "{line} end {end}");
            }
        }
    }
}

#[test]
fn a_standing_bill_is_not_rebilled_across_the_original_end() {
    for end in [486, 600, 850] {
        let mut desk = amended_contract(end);
        desk.expect(&of_1_kwh("bill", end, end), &ORIGINAL);
        desk.expect_refusal(&of_1_kwh("rebill", end, end + 1), 17);
        desk.expect_refusal(&of_1_kwh("rebill", end, 851), 17);
        desk.expect(&of_1_kwh("rebill", end, end), &[30_300, 1_000, 0]);
    }
}

/// Contract 0 fixed with a row of days 590 to 610, contract 1 flexible, contract 2 amended with
/// original end 600 and rows of days 599, 600 and 601, contract 3 amended with original end 600.
/// No price is published any more.
fn four_contracts() -> Desk {
    let mut desk = fixed_contract();
    desk.expect(&of_1_kwh("bill", 590, 610), &ORIGINAL);
    desk.expect("open 1 0 2 0 0", &[]);
    for contract in [2, 3] {
        desk.expect(&format!("open {contract} 0 0 7 8"), &[]);
        desk.expect(&format!("amend {contract} 600 530 531"), &[]);
    }
    for day in [599, 600] {
        desk.expect(&format!("bill 2 {day} {day} 1 99999 0 0 0"), &ORIGINAL);
    }
    desk.expect("bill 2 601 601 1 99999 0 0 0", &AMENDED);
    desk.book.fill(0);
    desk
}

/// Amendments on the four contracts, each with the number that refuses it: it fails that test
/// and, where it can, the tests after it.
const REFUSED_AMENDMENTS: [(&str, u32); 14] = [
    ("amend 64 0 852 852", 4),
    ("amend 4294967295 600 0 0", 4),
    ("amend 63 0 852 852", 5),
    ("amend 63 600 0 0", 5),
    ("amend 1 0 852 852", 16),
    ("amend 1 600 0 4294967295", 16),
    ("amend 2 485 0 0", 16),
    ("amend 2 600 852 0", 16),
    ("amend 2 600 0 0", 16),
    ("amend 0 0 0 0", 7),
    ("amend 0 485 0 0", 7),
    ("amend 0 609 852 0", 7),
    ("amend 0 609 0 852", 7),
    ("amend 0 609 0 0", 18),
];

#[test]
fn the_first_number_that_fits_refuses_an_amendment() {
    let mut desk = four_contracts();
    for (line, number) in REFUSED_AMENDMENTS {
        desk.expect_refusal(line, number);
    }
    desk.expect("amend 0 610 0 0", &[]);
}

/// Lines whose last day is 600 or 601, each with the number that refuses it where it is 600.
const REFUSED_LATER: [(&str, u32); 14] = [
    ("bill 2 599 LAST 40000001 1 0 40000001 1", 8),
    ("bill 2 599 LAST 1 1000000 0 1 1", 8),
    ("bill 3 599 LAST 1 1 1 1 1", 8),
    ("bill 2 599 LAST 1 1 0 1 1", 14),
    ("bill 3 599 LAST 1 1 0 4294967295 1", 14),
    ("bill 2 599 LAST 1 1 0 0 0", 10),
    ("bill 3 599 LAST 1 1 0 0 0", 11),
    ("rebill 2 598 LAST 40000001 1 0 40000001 1", 8),
    ("rebill 2 598 LAST 1 1 1 1 1", 8),
    ("rebill 2 598 LAST 1 1 0 1 1", 14),
    ("rebill 2 598 LAST 1 1 0 0 0", 9),
    ("rebill 3 599 LAST 1 1 0 0 0", 9),
    ("rebill 2 599 LAST 1 1 0 0 0", 10),
    ("rebill 2 600 LAST 1 1 0 0 0", 11),
];

#[test]
fn a_span_across_the_original_end_is_refused_before_all_later_tests() {
    let mut desk = four_contracts();
    for (line, number) in REFUSED_LATER {
        desk.expect_refusal(&line.replace("LAST", "600"), number);
        desk.expect_refusal(&line.replace("LAST", "601"), 17);
    }
}

#[test]
fn the_book_the_contract_and_the_days_are_tested_before_the_original_end() {
    let mut desk = four_contracts();
    for name in ["bill", "rebill"] {
        desk.expect_refusal(&format!("{name} 64 600 601 1 1 0 0 0"), 4);
        desk.expect_refusal(&format!("{name} 63 600 601 1 1 0 0 0"), 5);
        for span in ["485 601", "0 851", "600 852", "600 4294967295"] {
            desk.expect_refusal(&format!("{name} 2 {span} 1 1 0 0 0"), 7);
        }
    }
    desk.book.pop();
    for name in ["bill", "rebill"] {
        desk.expect_refusal(&format!("{name} 2 600 601 1 1 0 0 0"), 3);
    }
}

/// The rows are used up by 256 bills of each of four flexible contracts.
#[test]
fn a_span_across_the_original_end_is_refused_before_the_row_after_1_024() {
    let mut desk = amended_contract(600);
    for contract in 1..5 {
        desk.expect(&format!("open {contract} 0 2 0 0"), &[]);
        for day in 486..742 {
            let bill = format!("bill {contract} {day} {day} 1 1 1 0 0");
            desk.expect(&bill, &[1, 0, 0]);
        }
    }
    desk.expect_refusal(&of_1_kwh("bill", 600, 600), 12);
    desk.expect_refusal(&of_1_kwh("bill", 600, 601), 17);
}

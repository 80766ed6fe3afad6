//! The posting module's answers to the calls of document 01.

mod common;
mod desk;
mod paper_run;

use calculator::calls::{BillNumbers, Call};
use calculator::codes::Territory;
use calculator::postings::PostingModule;
use common::call;
use desk::Desk;
use paper_run::paper_run;

fn great_britain() -> Desk {
    Desk::new(Territory::GreatBritain)
}

/// Contract 0 flexible electricity, with a bill of days 486 to 515; contract 1 variable gas.
fn two_contracts() -> Desk {
    let mut desk = great_britain();
    desk.expect("open 0 0 2 0 0", &[]);
    desk.expect("bill 0 486 515 1 1 1 0 0", &[1, 0, 0]);
    desk.expect("open 1 1 1 0 0", &[]);
    desk
}

#[test]
fn the_papers_run() {
    let mut desk = great_britain();
    for (line, outcome) in paper_run() {
        assert_eq!(desk.outcome(line), outcome, "{line}");
    }
}

#[test]
fn prices_come_from_the_entry_of_the_kind_fuel_and_month() {
    let mut desk = Desk::new(Territory::NorthernIreland);
    // electricity fixed on day 7, gas fixed on day 851, gas variable in May 2023,
    // electricity variable in March 2024, index in April 2023
    for (entry, price) in [
        (7, 30_201),
        (852 + 851, 10_702),
        (1_704 + 12 + 1, 10_703),
        (1_704 + 11, 30_204),
        (1_728, 30_205),
    ] {
        desk.book[entry] = price;
    }
    desk.expect("open 0 0 0 7 0", &[]);
    desk.expect("bill 0 600 600 1 99999 0 0 0", &[30_201, 10, 10]);
    desk.expect("open 1 1 0 851 0", &[]);
    desk.expect("bill 1 600 600 1 99999 0 0 0", &[10_702, 20, 20]);
    desk.expect("open 2 1 1 0 0", &[]);
    desk.expect("bill 2 516 546 1 99999 0 0 0", &[10_703, 30, 30]);
    desk.expect("open 3 0 1 0 0", &[]);
    desk.expect("bill 3 851 851 1 99999 0 0 0", &[30_204, 40, 40]);
    desk.expect("open 4 0 3 0 0", &[]);
    desk.expect("bill 4 486 515 1 99999 0 0 0", &[30_205, 50, 50]);
    desk.book[1_728] = 0;
    desk.expect_refusal("bill 4 515 515 1 99999 0 0 0", 10);
    desk.expect_refusal("bill 4 516 516 1 99999 0 0 0", 11);
}

#[test]
fn a_later_book_alters_a_rebill_and_no_other_row() {
    let mut desk = great_britain();
    desk.expect("open 0 0 1 0 0", &[]);
    desk.book[1_704] = 30_300;
    desk.expect("bill 0 486 500 10 99999 0 0 0", &[30_300, 1_000, 10_000]);
    desk.expect("bill 0 501 515 10 99999 0 0 0", &[30_300, 1_000, 10_000]);
    desk.book[1_704] = 30_400;
    desk.expect("total", &[20_000, 20_000]);
    desk.expect("cert 0 0 0", &[0, 0]);
    desk.expect("rebill 0 486 500 10 99999 0 0 0", &[30_400, 2_000, 10_000]);
    desk.expect("report 0", &[2, 20, 30_000]);
}

#[test]
fn a_certificate_counts_the_rows_whose_amount_changed() {
    let mut desk = great_britain();
    desk.expect("open 0 0 2 0 0", &[]);
    desk.expect(
        "bill 0 486 515 1000 67030 31980 0 0",
        &[31_980, 17_800, 17_800_000],
    );
    desk.expect(
        "bill 0 516 546 1000 67030 31980 0 0",
        &[31_980, 17_800, 17_800_000],
    );
    desk.expect("bill 0 547 576 0 67030 31980 0 0", &[31_980, 17_800, 0]);
    desk.expect("cert 0 1 516", &[49_840_000, 1]);
    desk.expect("cert 0 1 486", &[49_840_000, 1]);
    desk.expect("cert 0 1 486", &[0, 0]);
    desk.expect("cert 0 0 0", &[-99_680_000, 2]);
    desk.expect("report 0", &[3, 2_000, 35_600_000]);
}

/// A bill of 1,000 kWh of flexible electricity, before the line's last two numbers, its
/// shares. A kWh has 17,800 ticks in the baseline class, 67,640 in ETII, 319,800 in QHS.
const APRIL: &str = "0 486 515 1000 67030 31980";

#[test]
fn the_rate_answered_is_the_baseline_one_where_the_shares_take_all_kwh() {
    for (shares, amount) in [
        ("1000 0", 67_640_000),
        ("0 1000", 319_800_000),
        ("400 600", 218_936_000),
    ] {
        let mut desk = great_britain();
        desk.expect("open 0 0 2 0 0", &[]);
        let line = format!("bill {APRIL} {shares}");
        desk.expect(&line, &[31_980, 17_800, amount]);
        desk.expect("report 0", &[1, 1_000, amount]);
    }
}

#[test]
fn a_rebill_replaces_both_shares() {
    let mut desk = great_britain();
    desk.expect("open 0 0 2 0 0", &[]);
    desk.expect("cert 0 1 486", &[0, 0]);
    desk.expect(
        &format!("bill {APRIL} 0 200"),
        &[31_980, 17_800, 78_200_000],
    );
    for (shares, rate, change) in [
        ("300 0", 17_800, 32_752_000 - 78_200_000),
        ("0 0", 67_640, 67_640_000 - 32_752_000),
        ("300 200", 17_800, 93_152_000 - 67_640_000),
        ("300 200", 17_800, 0),
    ] {
        let line = format!("rebill {APRIL} {shares}");
        desk.expect(&line, &[31_980, rate, change]);
    }
    desk.expect("cancel 0 486", &[-93_152_000]);
}

#[test]
fn a_certificate_leaves_rows_with_shares_and_does_not_count_them() {
    let mut desk = great_britain();
    desk.expect("open 0 0 2 0 0", &[]);
    for (days, shares, amount) in [
        ("516 546", "300 0", 32_752_000),
        ("547 576", "0 200", 78_200_000),
        ("577 607", "300 200", 93_152_000),
        ("608 638", "0 0", 17_800_000),
    ] {
        let line = format!("bill 0 {days} 1000 67030 31980 {shares}");
        desk.expect(&line, &[31_980, 17_800, amount]);
    }
    desk.expect("cert 0 1 486", &[49_840_000, 1]);
    desk.expect("cert 0 2 511", &[252_160_000, 1]);
    // of 31 days the first has floor(1,000 / 31) = 32 kWh, which fall to the baseline class
    desk.expect("cert 0 2 609", &[32 * (17_800 - 319_800), 1]);
    desk.expect("cancel 0 608", &[-310_136_000]);
    desk.expect("cert 0 1 486", &[0, 0]);
    desk.expect("report 0", &[3, 3_000, 204_104_000]);
}

/// Pairs of shares of 1,000 kWh; of the last three the sum needs more than 32 bits.
#[test]
fn shares_may_take_all_kwh_and_no_more() {
    let mut desk = two_contracts();
    for (day, shares) in (520..).zip(["1000 0", "0 1000", "500 500", "999 1", "1 999"]) {
        desk.expect(&format!("bill 0 {day} {day} 1000 1 1 {shares}"), &[1, 0, 0]);
    }
    for shares in [
        "1001 0",
        "0 1001",
        "500 501",
        "1000 1",
        "1 1000",
        "134217728 0",
        "0 134217728",
        "4294967295 0",
        "0 4294967295",
        "4294967295 1",
        "1 4294967295",
        "2147483648 2147483648",
    ] {
        desk.expect_refusal(&format!("bill 0 600 600 1000 1 1 {shares}"), 14);
        desk.expect_refusal(&format!("rebill 0 520 520 1000 1 1 {shares}"), 14);
    }
}

#[test]
fn shares_of_the_least_and_the_most_kwh() {
    let mut desk = two_contracts();
    desk.expect_refusal("bill 0 520 520 0 1 1 1 0", 14);
    desk.expect_refusal("bill 0 520 520 0 1 1 0 1", 14);
    desk.expect("bill 0 520 520 0 1 1 0 0", &[1, 0, 0]);
    desk.expect_refusal("bill 0 521 521 40000000 1 1 20000000 20000001", 14);
    desk.expect("bill 0 521 521 40000000 1 1 20000000 20000000", &[1, 0, 0]);
}

#[test]
fn each_claim_takes_the_floor_of_all_that_is_due() {
    let mut desk = great_britain();
    desk.expect("open 0 0 2 0 0", &[]);
    // 19,610 ticks a kWh: each claim's change rounded by itself would give 1 penny each
    desk.expect(
        "bill 0 486 486 1 99999 99999 0 0",
        &[99_999, 19_610, 19_610],
    );
    desk.expect("claim", &[1, 9_610]);
    desk.expect(
        "bill 0 487 487 1 99999 99999 0 0",
        &[99_999, 19_610, 19_610],
    );
    desk.expect("claim", &[2, 9_220]);
    desk.expect("claim", &[0, 9_220]);
    desk.expect("cancel 0 486", &[-19_610]);
    desk.expect("total", &[19_610, -10_390]);
    desk.expect("claim", &[-2, 9_610]);
}

#[test]
fn a_rebill_may_take_its_own_days_and_no_others() {
    let mut desk = two_contracts();
    desk.expect("bill 0 520 530 1 1 1 0 0", &[1, 0, 0]);
    desk.expect("rebill 0 486 519 1 1 1 0 0", &[1, 0, 0]);
    desk.expect_refusal("rebill 0 486 520 1 1 1 0 0", 10);
    desk.expect_refusal("rebill 0 486 520 1 1 1 1 1", 14);
    desk.expect("rebill 0 486 486 1 1 1 0 0", &[1, 0, 0]);
    desk.expect("bill 0 487 519 1 1 1 0 0", &[1, 0, 0]);
}

#[test]
fn start_gives_a_fresh_ledger() {
    let mut desk = two_contracts();
    desk.expect("claim", &[0, 0]);
    desk.expect_refusal("start 2", 6);
    desk.expect("start 1", &[]);
    let fresh = PostingModule::new(Territory::NorthernIreland);
    assert_eq!(desk.module.facts(), fresh.facts());
}

#[test]
fn a_book_of_a_wrong_length_or_with_a_high_price_is_refused() {
    let line = "bill 64 486 486 1 1 1 0 0";
    for length in [0, 1_739, 1_741] {
        let mut desk = two_contracts();
        desk.book = vec![0; length];
        desk.expect_refusal(line, 3);
        desk.expect_refusal("rebill 0 486 515 1 1 1 0 0", 3);
        desk.expect_refusal("report 64", 4);
    }
    for entry in [0, 900, 1_739] {
        let mut desk = two_contracts();
        desk.book[entry] = 999_999;
        desk.expect_refusal(line, 4);
        desk.book[entry] = 1_000_000;
        desk.expect_refusal(line, 3);
    }
}

/// Lines on the two contracts, each with the number that refuses it: it fails that test and,
/// where it can, the tests after it.
const REFUSED: [(&str, u32); 41] = [
    ("open 64 2 4 852 852", 4),
    ("open 4294967295 0 0 0 0", 4),
    ("cert 64 3 0", 4),
    ("cancel 64 0", 4),
    ("report 64", 4),
    ("rebill 64 0 0 40000001 0 0 40000001 1", 4),
    ("open 0 2 4 852 852", 5),
    ("cert 63 3 0", 5),
    ("cancel 63 0", 5),
    ("report 63", 5),
    ("bill 63 0 0 40000001 0 0 40000001 1", 5),
    ("open 2 2 0 852 0", 6),
    ("open 2 0 4 852 0", 6),
    ("open 2 0 3 1 0", 6),
    ("cert 0 3 0", 6),
    ("open 2 0 0 852 0", 7),
    ("open 2 0 0 0 852", 7),
    ("open 2 0 1 1 0", 7),
    ("open 2 0 2 0 1", 7),
    ("cert 0 0 1", 7),
    ("cert 0 1 485", 7),
    ("cert 0 1 852", 7),
    ("cert 0 2 510", 7),
    ("cert 0 2 852", 7),
    ("bill 0 485 486 40000001 0 0 40000001 1", 7),
    ("bill 0 851 852 40000001 0 0 40000001 1", 7),
    ("rebill 0 487 486 40000001 0 0 40000001 1", 7),
    ("bill 0 486 486 40000001 1 1 40000001 1", 8),
    ("bill 0 486 486 1 1000000 1 1 1", 8),
    ("bill 0 486 486 1 1 1000000 1 1", 8),
    ("bill 1 486 486 1 1 1 1 1", 8),
    ("rebill 0 487 500 40000001 1 1 40000001 1", 8),
    ("rebill 0 487 500 1 1 1 1 1", 14),
    ("rebill 0 486 515 1 1 1 1 1", 14),
    ("bill 0 515 515 1 1 1 1 1", 14),
    ("bill 1 486 486 1 1 0 1 1", 14),
    ("rebill 0 487 500 1 1 1 0 0", 9),
    ("cancel 0 4294967295", 9),
    ("cancel 1 486", 9),
    ("bill 0 515 515 1 1 1 0 0", 10),
    ("bill 1 486 486 1 1 0 0 0", 11),
];

#[test]
fn the_first_number_that_fits_refuses() {
    let mut desk = two_contracts();
    for (line, number) in REFUSED {
        desk.expect_refusal(line, number);
    }
}

#[test]
fn boundary_days_are_accepted() {
    let mut desk = two_contracts();
    desk.expect("open 2 0 0 851 851", &[]);
    desk.expect("open 3 1 0 0 0", &[]);
    desk.expect("cert 0 1 486", &[0, 0]);
    desk.expect("cert 0 1 851", &[0, 0]);
    desk.expect("cert 0 2 511", &[0, 0]);
    desk.expect("cert 0 2 851", &[0, 0]);
    desk.expect("bill 0 851 851 40000000 999999 999999 0 0", &{
        let rate = 10 * (999_999 - 28_240);
        [999_999, rate, 40_000_000 * rate]
    });
}

#[test]
fn an_index_contract_is_for_electricity_in_northern_ireland() {
    let mut desk = Desk::new(Territory::NorthernIreland);
    desk.expect_refusal("open 0 1 3 0 0", 6);
    desk.expect("open 0 0 3 0 0", &[]);
    desk.expect_refusal("bill 0 486 486 1 1 0 0 0", 11);
}

#[test]
fn the_row_after_1_024_is_refused_by_the_last_test() {
    let mut desk = great_britain();
    for contract in 0..64 {
        desk.expect(&format!("open {contract} 0 2 0 0"), &[]);
        for day in 500..516 {
            desk.expect(
                &format!("bill {contract} {day} {day} 1 1 1 0 0"),
                &[1, 0, 0],
            );
        }
    }
    desk.expect_refusal("bill 0 516 516 1 1 1 0 0", 12);
    desk.expect_refusal("bill 0 516 516 40000000 1 1 0 0", 12);
    desk.expect_refusal("bill 0 516 516 40000001 1 1 0 0", 8);
    desk.expect_refusal("bill 0 516 516 1 1 1 1 1", 14);
    desk.expect_refusal("bill 0 515 515 1 1 1 0 0", 10);
    desk.expect("rebill 0 515 520 1 1 1 0 0", &[1, 0, 0]);
    desk.expect("cancel 63 500", &[0]);
    desk.expect("bill 0 521 521 1 1 1 0 0", &[1, 0, 0]);
    desk.expect_refusal("bill 63 500 500 1 1 1 0 0", 12);
}

#[test]
fn the_claim_after_1_000_is_refused() {
    let mut desk = great_britain();
    for _ in 0..1_000 {
        desk.expect("claim", &[0, 0]);
    }
    desk.expect_refusal("claim", 13);
    desk.expect("total", &[0, 0]);
}

#[test]
fn the_numbers_of_a_bill_stand_in_the_papers_order() {
    let numbers = BillNumbers {
        contract: 1,
        first: 2,
        last: 3,
        kwh: 4,
        supply: 5,
        wap: 6,
        etii_share: 7,
        qhs_share: 8,
    };
    assert_eq!(call("bill 1 2 3 4 5 6 7 8"), Call::Bill(numbers));
    assert_eq!(call("rebill 1 2 3 4 5 6 7 8"), Call::Rebill(numbers));
}

#[test]
fn the_numbers_of_an_amendment_stand_in_the_papers_order() {
    let amend = Call::Amend {
        contract: 1,
        original_end_day: 2,
        price_fix_day: 3,
        entry_day: 4,
    };
    assert_eq!(call("amend 1 2 3 4"), amend);
}

#[test]
fn a_call_is_made_of_its_name_and_numbers() {
    for (line, _) in paper_run() {
        let call = call(line);
        assert_eq!(Call::of(call.name(), &call.numbers()), Some(call));
    }
    for line in [
        "start 1",
        "report 63",
        "bill 1 2 3 4 5 6 7 8",
        "amend 1 2 3 4",
    ] {
        let call = call(line);
        assert_eq!(Call::of(call.name(), &call.numbers()), Some(call));
    }
    assert_eq!(Call::of("claim", &[0]), None);
    for count in [0, 5, 6, 7, 9] {
        assert_eq!(Call::of("bill", &vec![0; count]), None);
        assert_eq!(Call::of("rebill", &vec![0; count]), None);
    }
    for count in [0, 3, 5] {
        assert_eq!(Call::of("amend", &vec![0; count]), None);
    }
    assert_eq!(Call::of("close", &[0]), None);
}

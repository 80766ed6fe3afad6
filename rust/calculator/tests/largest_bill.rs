//! The most kWh of a bill or rebill, 40,000,000, and stored rows of up to 100,000,000 (document
//! 02, paper 6): number 8 at its edges and in checking order, and the calls on stored rows of more
//! kWh than a bill may give.
//!
//! At R 31,980 and S 67,030 mils a kWh of electricity has 17,800 ticks in the baseline class,
//! 67,640 in ETII and 319,800 in QHS; one of gas has 6,970 in the baseline class.

mod common;
mod desk;
mod stored_rows;

use calculator::codes::Territory;
use calculator::packed::{pack, unpack};
use calculator::postings::PostingModule;
use desk::Desk;
use stored_rows::with_edited_bills;

const BASELINE: i64 = 17_800;
const ETII: i64 = 67_640;
const QHS: i64 = 319_800;

/// kWh that a bill or rebill may give.
const TAKEN: [u32; 4] = [0, 1, 39_999_999, 40_000_000];

/// kWh that number 8 refuses; a row's 27 bits have room for those up to 134,217,727.
const TOO_MANY: [u32; 8] = [
    40_000_001,
    99_999_999,
    100_000_000,
    100_000_001,
    134_217_727,
    134_217_728,
    2_147_483_648,
    4_294_967_295,
];

/// The contracts of `seven_contracts` in the order of their numbers: fuel, kind, the WAP of a bill
/// and its rate.
const CONTRACTS: [(u32, u32, u32, i64); 7] = [
    (0, 0, 0, BASELINE),
    (1, 0, 0, 6_970),
    (0, 1, 0, BASELINE),
    (1, 1, 0, 6_970),
    (0, 2, 31_980, BASELINE),
    (1, 2, 31_980, 6_970),
    (0, 3, 0, BASELINE),
];

/// A Northern Ireland desk with a contract of every kind and fuel; every price of the book is
/// 31,980.
fn seven_contracts() -> Desk {
    let mut desk = Desk::new(Territory::NorthernIreland);
    desk.book.fill(31_980);
    for (number, (fuel, kind, ..)) in (0..).zip(CONTRACTS) {
        let number: u32 = number;
        desk.expect(&format!("open {number} {fuel} {kind} 0 0"), &[]);
    }
    desk
}

#[test]
fn at_most_40_000_000_kwh_are_taken() {
    let mut desk = seven_contracts();
    for (number, (.., wap, rate)) in CONTRACTS.into_iter().enumerate() {
        let line = |name, kwh| format!("{name} {number} 500 515 {kwh} 67030 {wap} 0 0");
        for kwh in TAKEN {
            let amount = i64::from(kwh) * rate;
            desk.expect(&line("bill", kwh), &[31_980, rate, amount]);
            desk.expect(&format!("report {number}"), &[1, kwh.into(), amount]);
            let less = 1_000 * rate - amount;
            desk.expect(&line("rebill", 1_000), &[31_980, rate, less]);
            desk.expect(&line("rebill", kwh), &[31_980, rate, -less]);
            desk.expect(&format!("cancel {number} 500"), &[-amount]);
        }
    }
}

#[test]
fn more_kwh_are_refused() {
    let mut desk = seven_contracts();
    for (number, (.., wap, rate)) in CONTRACTS.into_iter().enumerate() {
        let line = |name, span, kwh| format!("{name} {number} {span} {kwh} 67030 {wap} 0 0");
        let held = line("bill", "500 515", 1_000);
        desk.expect(&held, &[31_980, rate, 1_000 * rate]);
        for kwh in TOO_MANY {
            desk.expect_refusal(&line("bill", "486 499", kwh), 8);
            desk.expect_refusal(&line("rebill", "500 515", kwh), 8);
        }
    }
}

/// Lines that a test before number 8 refuses, whatever their kWh.
const REFUSED_EARLIER: [(&str, u32); 10] = [
    ("bill 64 486 486 KWH 1 0 0 0", 4),
    ("rebill 64 486 486 KWH 1 0 0 0", 4),
    ("bill 63 486 486 KWH 1 0 0 0", 5),
    ("rebill 63 486 486 KWH 1 0 0 0", 5),
    ("bill 0 485 486 KWH 1 0 0 0", 7),
    ("rebill 0 500 852 KWH 1 0 0 0", 7),
    ("bill 2 515 516 KWH 1 0 0 0", 15),
    ("rebill 6 500 516 KWH 1 0 0 0", 15),
    ("bill 0 600 601 KWH 1 0 0 0", 17),
    ("rebill 0 500 601 KWH 1 0 0 0", 17),
];

/// Lines that a test after number 8 refuses, unless number 8 refuses their kWh.
const REFUSED_LATER: [(&str, u32); 8] = [
    ("bill 0 486 486 KWH 1 0 40000001 1", 14),
    ("rebill 0 500 500 KWH 1 0 40000001 1", 14),
    ("rebill 0 486 500 KWH 1 0 0 0", 9),
    ("bill 0 486 500 KWH 1 0 0 0", 10),
    ("rebill 0 500 510 KWH 1 0 0 0", 10),
    ("bill 0 486 486 KWH 1 0 0 0", 11),
    ("bill 6 486 486 KWH 1 0 0 0", 11),
    ("rebill 6 500 500 KWH 1 0 0 0", 11),
];

/// Contract 0 has rows of days 500 and 510 and the original end 600, contract 6 a row of day 500;
/// no price is published.
#[test]
fn number_8_in_checking_order() {
    let mut desk = seven_contracts();
    for row in ["0 500 500", "0 510 510", "6 500 500"] {
        desk.expect(&format!("bill {row} 1 1 0 0 0"), &[31_980, 0, 0]);
    }
    desk.expect("amend 0 600 0 0", &[]);
    desk.book.fill(0);
    for (line, number) in REFUSED_EARLIER {
        desk.expect_refusal(&line.replace("KWH", "40000000"), number);
        desk.expect_refusal(&line.replace("KWH", "40000001"), number);
    }
    for (line, number) in REFUSED_LATER {
        desk.expect_refusal(&line.replace("KWH", "40000000"), number);
        desk.expect_refusal(&line.replace("KWH", "40000001"), 8);
    }
    desk.book.pop();
    desk.expect_refusal("bill 0 486 486 40000001 1 0 0 0", 3);
    desk.expect_refusal("rebill 0 500 500 40000001 1 0 0 0", 3);
}

/// kWh of stored rows that no bill may give.
const STORED: [i64; 4] = [40_000_001, 70_000_003, 99_999_999, 100_000_000];

/// A desk with the ledger as it is stored: contract 4 is flexible electricity and has a row of 16
/// days, 500 to 515, with that many kWh.
fn desk_with_row(kwh: i64, (etii_share, qhs_share): (i64, i64)) -> Desk {
    let mut desk = seven_contracts();
    desk.expect("bill 4 500 515 0 67030 31980 0 0", &[31_980, BASELINE, 0]);
    let stored = with_edited_bills(&desk.module.facts(), |bill| {
        (bill.kwh, bill.etii_share, bill.qhs_share) = (kwh, etii_share, qhs_share);
    });
    let facts = unpack(&pack(&stored)).expect("the ledger is well formed");
    assert_eq!(facts, stored);
    desk.module = PostingModule::from_facts(&facts);
    desk
}

/// A certificate from the ninth day on leaves half of the kWh, rounded down, to the baseline class.
#[test]
fn a_stored_row_is_re_rated_claimed_and_cancelled() {
    for kwh in STORED {
        let mut desk = desk_with_row(kwh, (0, 0));
        let baseline = kwh * BASELINE;
        desk.expect("report 4", &[1, kwh, baseline]);
        desk.expect("total", &[baseline, baseline]);
        desk.expect("claim", &[baseline / 10_000, baseline % 10_000]);
        desk.expect("cert 4 1 500", &[kwh * (ETII - BASELINE), 1]);
        let in_first_half = kwh / 2;
        desk.expect("cert 4 1 508", &[in_first_half * (BASELINE - ETII), 1]);
        let by_half = in_first_half * BASELINE + (kwh - in_first_half) * ETII;
        desk.expect("report 4", &[1, kwh, by_half]);
        let change = by_half / 10_000 - baseline / 10_000;
        desk.expect("claim", &[change, by_half % 10_000]);
        desk.expect("total", &[by_half, by_half % 10_000]);
        desk.expect("cancel 4 500", &[-by_half]);
        desk.expect("report 4", &[0, 0, 0]);
    }
}

#[test]
fn a_stored_row_with_shares_is_left_by_certificates() {
    for kwh in STORED {
        let mut desk = desk_with_row(kwh, (30_000_000, 5_000_001));
        let rest = kwh - 35_000_001;
        let due = rest * BASELINE + 30_000_000 * ETII + 5_000_001 * QHS;
        desk.expect("cert 4 1 500", &[0, 0]);
        desk.expect("cert 4 2 511", &[0, 0]);
        desk.expect("report 4", &[1, kwh, due]);
        let rebill = format!("rebill 4 500 515 {kwh} 67030 31980 30000000 5000001");
        desk.expect_refusal(&rebill, 8);
        desk.expect("cancel 4 500", &[-due]);
    }
}

/// Its own kWh and the least that are too many are refused.
#[test]
fn a_stored_row_is_rebilled_with_at_most_40_000_000_kwh() {
    for kwh in STORED {
        let rebill = |kwh: i64| format!("rebill 4 500 515 {kwh} 67030 31980 0 0");
        for taken in TAKEN.map(i64::from) {
            let mut desk = desk_with_row(kwh, (0, 0));
            desk.expect_refusal(&rebill(kwh), 8);
            desk.expect_refusal(&rebill(40_000_001), 8);
            let change = (taken - kwh) * BASELINE;
            desk.expect(&rebill(taken), &[31_980, BASELINE, change]);
            desk.expect("report 4", &[1, taken, taken * BASELINE]);
        }
    }
}

#[test]
fn a_bill_beside_a_stored_row() {
    for kwh in STORED {
        let mut desk = desk_with_row(kwh, (0, 0));
        let bill = |first, last| format!("bill 4 {first} {last} 40000000 67030 31980 0 0");
        desk.expect_refusal(&bill(515, 516), 10);
        let amount = 40_000_000 * BASELINE;
        desk.expect(&bill(516, 516), &[31_980, BASELINE, amount]);
        let due = kwh * BASELINE + amount;
        desk.expect("report 4", &[2, kwh + 40_000_000, due]);
        desk.expect("amend 0 600 0 0", &[]);
        desk.expect("total", &[due, due]);
    }
}

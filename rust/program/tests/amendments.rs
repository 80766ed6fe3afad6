//! Sessions of amended contracts (document 02, paper 5). At S 50,000 a kWh of electricity has, in ticks: at the original R 45,000,
//! 10 × 1,961 = 19,610 as baseline and 3 × 1,961 + 7 × 8,900 = 68,183 as ETII; at the amendment's R 31,200, 10 × 1,000 = 10,000 and
//! 3 × 1,000 + 7 × 8,900 = 65,300; as QHS 10 × 16,000 = 160,000 by the old minimum, 10 × 21,760 = 217,600 by the new one.

use program::{expect, expect_lines};

#[test]
fn bills_on_either_side_of_the_original_end() {
    expect_lines(&[
        "price 300 45000: ok",
        "price 540 31200: ok",
        "open 1 0 0 300 290: ok",
        "bill 1 516 546 1000 50000 0 0 0: ok 45000 19610 19610000",
        "amend 1 668 540 545: ok",
        "report 1: ok 1 1000 19610000",
        // the original end itself, and the day after it
        "bill 1 668 668 1000 50000 0 0 0: ok 45000 19610 19610000",
        "bill 1 669 669 1000 50000 0 0 0: ok 31200 10000 10000000",
        // between rows that are held
        "bill 1 547 667 1000 50000 0 0 0: ok 45000 19610 19610000",
        "bill 1 670 851 1000 50000 0 0 0: ok 31200 10000 10000000",
        "total: ok 78830000 78830000",
    ]);
}

/// A later book alters no row; a rebill looks R up anew on its own side.
#[test]
fn rebills_cancellations_and_certificates_on_either_side() {
    expect_lines(&[
        "price 300 45000: ok",
        "price 540 31200: ok",
        "open 1 0 0 300 290: ok",
        "amend 1 668 540 545: ok",
        "bill 1 660 668 1000 50000 0 0 0: ok 45000 19610 19610000",
        "bill 1 669 677 1000 50000 0 0 0: ok 31200 10000 10000000",
        // 48,573,000 + 55,300,000
        "cert 1 1 486: ok 103873000 2",
        // the first five of nine days of the later row are baseline: 555 kWh of 1,000
        "cert 1 1 674: ok -79264500 2",
        "cert 1 0 0: ok -24608500 1",
        "price 300 31200: ok",
        "price 540 45000: ok",
        "report 1: ok 2 2000 29610000",
        "rebill 1 660 668 1000 50000 0 0 0: ok 31200 10000 -9610000",
        "rebill 1 669 677 1000 50000 0 0 0: ok 45000 19610 9610000",
        "cancel 1 660: ok -10000000",
        "cancel 1 669: ok -19610000",
        "total: ok 0 0",
    ]);
}

/// Contract 1 is entered on day 791 and amended with 792, contract 2 the other way round; the end of both is day 800.
#[test]
fn the_entry_day_of_the_qhs_minimum_on_either_side() {
    expect_lines(&[
        "price 300 45000: ok",
        "price 540 31200: ok",
        "open 1 0 0 300 791: ok",
        "amend 1 800 540 792: ok",
        "cert 1 2 511: ok 0 0",
        "bill 1 800 800 1000 50000 0 0 0: ok 45000 160000 160000000",
        "bill 1 801 801 1000 50000 0 0 0: ok 31200 217600 217600000",
        "open 2 0 0 300 792: ok",
        "amend 2 800 540 791: ok",
        "bill 2 800 800 1000 50000 0 0 0: ok 45000 19610 19610000",
        "bill 2 801 801 1000 50000 0 0 0: ok 31200 10000 10000000",
        // 217,600,000 - 19,610,000 + 160,000,000 - 10,000,000
        "cert 2 2 511: ok 347990000 2",
        "rebill 2 800 800 1000 50000 0 0 1000: ok 45000 19610 0",
        "rebill 2 801 801 1000 50000 0 0 1000: ok 31200 10000 0",
    ]);
}

/// Of days 781 to 800, which are after the end, 11 of 20 are before day 792: 550 kWh by the old minimum.
#[test]
fn day_792_inside_a_bill_after_the_end() {
    expect_lines(&[
        "price 540 31200: ok",
        "open 1 0 0 300 290: ok",
        "amend 1 780 540 792: ok",
        "cert 1 2 511: ok 0 0",
        // 550 × 160,000 + 450 × 217,600
        "bill 1 781 800 1000 50000 0 0 0: ok 31200 160000 185920000",
        // the original price isn't published
        "bill 1 770 780 1000 50000 0 0 0: refused 11",
    ]);
}

/// Gas has its entries of the book after those of electricity. A start takes the amendment away with its contract.
#[test]
fn gas_and_a_fresh_ledger() {
    expect_lines(&[
        "price 852 11050: ok",
        "price 1703 12000: ok",
        "open 63 1 0 0 0: ok",
        "amend 63 486 851 851: ok",
        "bill 63 486 486 10 20000 0 0 0: ok 11050 3500 35000",
        "bill 63 487 851 10 20000 0 0 0: ok 12000 6970 69700",
        "start 0: ok",
        "open 63 1 0 0 0: ok",
        "bill 63 486 851 10 20000 0 0 0: ok 11050 3500 35000",
    ]);
}

/// Every contract is amended, each once.
#[test]
fn sixty_four_amendments() {
    let mut input = String::from("price 300 45000\nprice 540 31200\n");
    let mut lines = vec!["ok"; 2];
    for contract in 0..64 {
        let opened = format!("open {contract} 0 0 300 290\namend {contract} 668 540 545\n");
        let billed = format!("bill {contract} 669 669 1 50000 0 0 0\n");
        let again = format!("amend {contract} 668 540 545\n");
        input += &[opened, billed, again].concat();
        lines.extend(["ok", "ok", "ok 31200 10000 10000", "refused 16"]);
    }
    input += "total\n";
    lines.push("ok 640000 640000");
    expect(input.as_bytes(), &lines);
}

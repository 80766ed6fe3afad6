//! Sessions of bills with an ETII share and a QHS share (document 02, paper 1). The bills of electricity for April and May 2023 are at
//! R 31,980 and S 67,030: in ticks a kWh, baseline 10 × 1,780 = 17,800, ETII 3 × 1,780 + 7 × 8,900 = 67,640, QHS 10 × 31,980 = 319,800.

use program::expect_lines;

/// The rate answered is the baseline one, even where the shares leave no rest.
#[test]
fn each_share_has_the_rate_of_its_class() {
    expect_lines(&[
        "open 0 0 2 0 0: ok",
        // 250 × 17,800 + 400 × 67,640 + 350 × 319,800
        "bill 0 486 486 1000 67030 31980 400 350: ok 31980 17800 143436000",
        // 600 × 17,800 + 400 × 67,640
        "bill 0 487 487 1000 67030 31980 400 0: ok 31980 17800 37736000",
        // 650 × 17,800 + 350 × 319,800
        "bill 0 488 488 1000 67030 31980 0 350: ok 31980 17800 123500000",
        "bill 0 489 489 1000 67030 31980 1000 0: ok 31980 17800 67640000",
        "bill 0 490 490 1000 67030 31980 0 1000: ok 31980 17800 319800000",
        "report 0: ok 5 5000 692112000",
    ]);
}

/// Gas at R 20,000 and S 30,000: 6,970 ticks at baseline, 30,091 for ETII (P12), 200,000 for QHS.
#[test]
fn shares_of_gas() {
    expect_lines(&[
        "price 1716 20000: ok",
        "open 0 1 1 0 0: ok",
        "bill 0 486 515 10 30000 0 3 2: ok 20000 6970 525123",
    ]);
}

/// 10 × (999,999 − 6,500) ticks a kWh, without a certificate.
#[test]
fn the_largest_amount_of_a_share() {
    expect_lines(&[
        "open 0 1 2 0 0: ok",
        "bill 0 792 792 40000000 999999 999999 0 40000000: ok 999999 6970 397399600000000",
    ]);
}

/// P9 to P11 as QHS shares, and a share before day 511, the first of a QHS certificate.
#[test]
fn a_qhs_share_has_its_minimum_on_every_day() {
    expect_lines(&[
        "price 300 40000: ok",
        "open 0 0 2 0 0: ok",
        "open 1 0 0 300 791: ok",
        "open 2 0 0 300 792: ok",
        "bill 0 486 486 1 50000 40000 0 1: ok 40000 19610 160000",
        "bill 0 791 791 1 50000 40000 0 1: ok 40000 19610 160000",
        "bill 0 792 792 1 50000 40000 0 1: ok 40000 19610 217600",
        "bill 1 792 792 1 50000 0 0 1: ok 40000 19610 160000",
        "bill 2 791 791 1 50000 0 0 1: ok 40000 19610 160000",
        "bill 2 792 792 1 50000 0 0 1: ok 40000 19610 217600",
    ]);
}

/// A certificate re-rates the bill of May, which has no shares, and it alone is counted.
#[test]
fn a_certificate_leaves_shares() {
    expect_lines(&[
        "open 0 0 2 0 0: ok",
        "bill 0 486 515 1000 67030 31980 400 350: ok 31980 17800 143436000",
        "bill 0 516 546 1000 67030 31980 0 0: ok 31980 17800 17800000",
        "cert 0 1 486: ok 49840000 1",
        "report 0: ok 2 2000 211076000",
        // under the certificate, too
        "bill 0 547 576 1000 67030 31980 400 350: ok 31980 17800 143436000",
        "cert 0 2 511: ok 252160000 1",
        "cancel 0 516: ok -319800000",
        "cert 0 0 0: ok 0 0",
        "report 0: ok 2 2000 286872000",
    ]);
}

/// A rebill without shares is rated by the certificate, and one with shares sets it aside again.
#[test]
fn a_rebill_replaces_both_shares() {
    expect_lines(&[
        "open 0 0 2 0 0: ok",
        "cert 0 1 486: ok 0 0",
        "bill 0 486 515 1000 67030 31980 400 350: ok 31980 17800 143436000",
        "rebill 0 486 515 1000 67030 31980 0 0: ok 31980 67640 -75796000",
        "rebill 0 486 515 1000 67030 31980 0 350: ok 31980 17800 55860000",
        "rebill 0 486 515 1000 67030 31980 400 350: ok 31980 17800 19936000",
        "report 0: ok 1 1000 143436000",
    ]);
}

#[test]
fn a_bill_with_shares_is_claimed_and_cancelled() {
    expect_lines(&[
        "open 0 0 2 0 0: ok",
        "bill 0 486 515 1000 67030 31980 400 350: ok 31980 17800 143436000",
        "claim: ok 14343 6000",
        "cancel 0 486: ok -143436000",
        "total: ok 0 -143430000",
        "claim: ok -14343 0",
        "total: ok 0 0",
    ]);
}

/// A refused rebill leaves the shares as they are.
#[test]
fn shares_that_are_refused_change_nothing() {
    expect_lines(&[
        "open 0 0 2 0 0: ok",
        "bill 0 486 515 1000 67030 31980 400 350: ok 31980 17800 143436000",
        "rebill 0 486 515 1000 67030 31980 650 351: refused 14",
        "bill 0 516 546 1000 67030 31980 4294967295 1: refused 14",
        "cert 0 1 486: ok 0 0",
        "report 0: ok 1 1000 143436000",
        "claim: ok 14343 6000",
    ]);
}

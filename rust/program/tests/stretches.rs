//! Sessions of bills in which the class or the QHS minimum changes on a day after the first (document 02, paper 3). Prices of
//! electricity, in ticks a kWh: at R 31,980 and S 67,030 baseline is 10 × 1,780 = 17,800 and ETII 3 × 1,780 + 7 × 8,900 = 67,640; at
//! R 40,000 and S 50,000 baseline is 10 × 1,961 = 19,610, ETII 3 × 1,961 + 7 × 8,900 = 68,183, and QHS 10 × 16,000 = 160,000 by the old
//! minimum, 10 × 21,760 = 217,600 by the new one.

use program::{expect, expect_lines};

/// The days from 486 to 515 are 30, so that 1,000 kWh are floor(1,000 × days / 30) in the days before the certificate.
#[test]
fn a_bill_under_a_certificate_that_begins_inside_it() {
    expect_lines(&[
        "open 0 0 2 0 0: ok",
        "open 1 0 2 0 0: ok",
        "open 2 0 2 0 0: ok",
        "open 3 0 2 0 0: ok",
        "open 4 0 2 0 0: ok",
        // its first day
        "cert 0 1 486: ok 0 0",
        "bill 0 486 515 1000 67030 31980 0 0: ok 31980 67640 67640000",
        // the day after: 33 at 17,800 and 967 at 67,640: 587,400 + 65,407,880
        "cert 1 1 487: ok 0 0",
        "bill 1 486 515 1000 67030 31980 0 0: ok 31980 17800 65995280",
        // 333 at 17,800 and 667 at 67,640: 5,927,400 + 45,115,880
        "cert 2 1 496: ok 0 0",
        "bill 2 486 515 1000 67030 31980 0 0: ok 31980 17800 51043280",
        // its last day: 966 at 17,800 and 34 at 67,640: 17,194,800 + 2,299,760
        "cert 3 1 515: ok 0 0",
        "bill 3 486 515 1000 67030 31980 0 0: ok 31980 17800 19494560",
        // the day after
        "cert 4 1 516: ok 0 0",
        "bill 4 486 515 1000 67030 31980 0 0: ok 31980 17800 17800000",
        // 67,640,000 + 65,995,280 + 51,043,280 + 19,494,560 + 17,800,000
        "total: ok 221973120 221973120",
    ]);
}

/// The same amounts by certificates that come after the bill.
#[test]
fn a_certificate_that_is_moved_within_a_bill() {
    expect_lines(&[
        "open 0 0 2 0 0: ok",
        "bill 0 486 515 1000 67030 31980 0 0: ok 31980 17800 17800000",
        "cert 0 1 516: ok 0 0",
        // 19,494,560 - 17,800,000
        "cert 0 1 515: ok 1694560 1",
        // 51,043,280 - 19,494,560
        "cert 0 1 496: ok 31548720 1",
        "cert 0 1 496: ok 0 0",
        // 65,995,280 - 51,043,280
        "cert 0 1 487: ok 14952000 1",
        // 67,640,000 - 65,995,280
        "cert 0 1 486: ok 1644720 1",
        "report 0: ok 1 1000 67640000",
        // 17,800,000 - 67,640,000
        "cert 0 0 0: ok -49840000 1",
        "report 0: ok 1 1000 17800000",
    ]);
}

/// The first of three bills is before the certificate, which begins inside the second.
#[test]
fn a_certificate_counts_the_rows_that_it_changes() {
    expect_lines(&[
        "open 0 0 2 0 0: ok",
        "bill 0 486 515 1000 67030 31980 0 0: ok 31980 17800 17800000",
        "bill 0 516 546 1000 67030 31980 0 0: ok 31980 17800 17800000",
        "bill 0 547 576 1000 67030 31980 0 0: ok 31980 17800 17800000",
        // floor(1,000 × 14 / 31) = 451 at 17,800 and 549 at 67,640 are 8,027,800 + 37,134,360 = 45,162,160: 27,362,160 + 49,840,000
        "cert 0 1 530: ok 77202160 2",
        // 17,800,000 + 45,162,160 + 67,640,000
        "report 0: ok 3 3000 130602160",
        "cancel 0 516: ok -45162160",
        "cert 0 0 0: ok -49840000 1",
    ]);
}

#[test]
fn a_certificate_that_begins_inside_a_bill_is_claimed() {
    expect_lines(&[
        "open 0 0 2 0 0: ok",
        "bill 0 486 515 1000 67030 31980 0 0: ok 31980 17800 17800000",
        "claim: ok 1780 0",
        // 51,043,280 - 17,800,000
        "cert 0 1 496: ok 33243280 1",
        "total: ok 51043280 33243280",
        "claim: ok 3324 3280",
        // floor(1,000 × 10 / 40) = 250 at 17,800 and 750 at 67,640 are 4,450,000 + 50,730,000 = 55,180,000, less 51,043,280
        "rebill 0 486 525 1000 67030 31980 0 0: ok 31980 17800 4136720",
        // 5,518 - 5,104
        "claim: ok 414 0",
        // 17,800,000 - 55,180,000
        "cert 0 0 0: ok -37380000 1",
        "claim: ok -3738 0",
        "total: ok 17800000 0",
    ]);
}

/// Of 777 kWh for the 20 days from 501 to 520, floor(777 × 10 / 20) = 388 are baseline and 389 QHS: 7,608,680 + 62,240,000.
#[test]
fn a_qhs_certificate_that_begins_inside_a_bill() {
    expect_lines(&[
        "open 0 0 2 0 0: ok",
        "bill 0 501 520 777 50000 40000 0 0: ok 40000 19610 15236970",
        // 69,848,680 - 15,236,970
        "cert 0 2 511: ok 54611710 1",
        "rebill 0 501 520 777 50000 40000 0 0: ok 40000 19610 0",
        "report 0: ok 1 777 69848680",
    ]);
}

/// 103 kWh, which are floor(103 × days / all days) in the days before day 792.
#[test]
fn day_792_inside_a_qhs_bill() {
    expect_lines(&[
        "open 0 0 2 0 0: ok",
        "open 1 0 2 0 0: ok",
        "open 2 0 2 0 0: ok",
        "open 3 0 2 0 0: ok",
        "cert 0 2 511: ok 0 0",
        "cert 1 2 511: ok 0 0",
        "cert 2 2 511: ok 0 0",
        "cert 3 2 511: ok 0 0",
        "bill 0 782 791 103 50000 40000 0 0: ok 40000 160000 16480000",
        // 92 at 160,000 and 11 at 217,600: 14,720,000 + 2,393,600
        "bill 1 783 792 103 50000 40000 0 0: ok 40000 160000 17113600",
        // 10 at 160,000 and 93 at 217,600: 1,600,000 + 20,236,800
        "bill 2 791 800 103 50000 40000 0 0: ok 40000 160000 21836800",
        "bill 3 792 801 103 50000 40000 0 0: ok 40000 217600 22412800",
        // ETII has no change on day 792: 103 at 68,183 are 7,022,849, less 17,113,600
        "cert 1 1 511: ok -10090751 1",
        // 16,480,000 + 7,022,849 + 21,836,800 + 22,412,800
        "total: ok 67752449 67752449",
    ]);
}

/// 100 kWh for the 7 days from 788 to 794: in the first 1 to 5 days floor(100 × days / 7) = 14, 28, 42, 57 and 71.
#[test]
fn a_qhs_certificate_and_day_792_inside_a_bill() {
    expect_lines(&[
        "open 0 0 2 0 0: ok",
        "cert 0 2 790: ok 0 0",
        // 28 at 19,610, 57 - 28 = 29 at 160,000 and 43 at 217,600: 549,080 + 4,640,000 + 9,356,800
        "bill 0 788 794 100 50000 40000 0 0: ok 40000 19610 14545880",
        // 57 at 160,000 and 43 at 217,600 are 9,120,000 + 9,356,800 = 18,476,800, less 14,545,880
        "cert 0 2 788: ok 3930920 1",
        // 42 at 19,610, 15 at 160,000 and 43 at 217,600 are 823,620 + 2,400,000 + 9,356,800 = 12,580,420, less 18,476,800
        "cert 0 2 791: ok -5896380 1",
        // 57 at 19,610 and 43 at 217,600 are 1,117,770 + 9,356,800 = 10,474,570, less 12,580,420
        "cert 0 2 792: ok -2105850 1",
        // 71 at 19,610 and 29 at 217,600 are 1,392,310 + 6,310,400 = 7,702,710, less 10,474,570
        "cert 0 2 793: ok -2771860 1",
        // 100 at 19,610, less 7,702,710
        "cert 0 2 795: ok -5741710 1",
        "total: ok 1961000 1961000",
    ]);
}

/// A contract entered on day 791 keeps the old minimum, so 100 kWh are at 160,000; of one entered on day 792, 57 at 160,000 and 43 at
/// 217,600 are 9,120,000 + 9,356,800.
#[test]
fn day_792_inside_bills_of_fixed_contracts() {
    expect_lines(&[
        "price 300 40000: ok",
        "open 0 0 0 300 791: ok",
        "open 1 0 0 300 792: ok",
        "cert 0 2 511: ok 0 0",
        "cert 1 2 511: ok 0 0",
        "bill 0 788 794 100 50000 0 0 0: ok 40000 160000 16000000",
        "bill 1 788 794 100 50000 0 0 0: ok 40000 160000 18476800",
        // 28 at 19,610 and 72 at 160,000 are 549,080 + 11,520,000 = 12,069,080, less 16,000,000
        "cert 0 2 790: ok -3930920 1",
        // 14,545,880 - 18,476,800
        "cert 1 2 790: ok -3930920 1",
        // 12,069,080 + 14,545,880
        "total: ok 26614960 26614960",
    ]);
}

/// Gas at R 20,000 and S 20,000, in ticks a kWh: baseline 6,970, ETII 30,091, QHS 121,700 by the old minimum and 135,000 by the new one.
#[test]
fn changes_inside_bills_of_gas() {
    expect_lines(&[
        "price 1716 20000: ok",
        "open 0 1 1 0 0: ok",
        "cert 0 1 501: ok 0 0",
        // floor(11 × 15 / 30) = 5 at 6,970 and 6 at 30,091: 34,850 + 180,546
        "bill 0 486 515 11 20000 0 0 0: ok 20000 6970 215396",
        "open 1 1 2 0 0: ok",
        "cert 1 2 790: ok 0 0",
        // 28 at 6,970, 29 at 121,700 and 43 at 135,000: 195,160 + 3,529,300 + 5,805,000
        "bill 1 788 794 100 20000 20000 0 0: ok 20000 6970 9529460",
    ]);
}

/// Each share is spread by itself. The certificate leaves such bills, and counts the one without shares.
#[test]
fn a_qhs_share_over_day_792() {
    expect_lines(&[
        "open 0 0 2 0 0: ok",
        // 6 at 19,610, floor(4 × 1 / 4) = 1 at 160,000 and 3 at 217,600: 117,660 + 160,000 + 652,800. The bill has
        // floor(10 × 1 / 4) = 2 kWh on day 791, of which floor(4 × 2 / 10) = 0 would be QHS.
        "bill 0 791 794 10 50000 40000 0 4: ok 40000 19610 930460",
        // 103 at 19,610
        "bill 0 781 790 103 50000 40000 0 0: ok 40000 19610 2019830",
        // floor(103 × 6 / 10) = 61 at 19,610 and 42 at 160,000 are 1,196,210 + 6,720,000 = 7,916,210, less 2,019,830
        "cert 0 2 787: ok 5896380 1",
        // without the share, floor(10 × 1 / 4) = 2 at 160,000 and 8 at 217,600 are 2,060,800, less 930,460
        "rebill 0 791 794 10 50000 40000 0 0: ok 40000 160000 1130340",
        "rebill 0 791 794 10 50000 40000 0 4: ok 40000 19610 -1130340",
        "cancel 0 781: ok -7916210",
        "cert 0 1 792: ok 0 0",
        // 8 at 19,610, 5 at 68,183, floor(7 × 3 / 10) = 2 at 160,000 and 5 at 217,600: 156,880 + 340,915 + 320,000 + 1,088,000
        "open 1 0 2 0 0: ok",
        "bill 1 789 798 20 50000 40000 5 7: ok 40000 19610 1905795",
    ]);
}

/// As above, of contracts entered on day 791 and on day 792: 6 at 19,610 with 4 at 160,000, or with 1 at 160,000 and 3 at 217,600.
#[test]
fn a_qhs_share_of_fixed_contracts_over_day_792() {
    expect_lines(&[
        "price 300 40000: ok",
        "open 0 0 0 300 791: ok",
        "open 1 0 0 300 792: ok",
        "bill 0 791 794 10 50000 0 0 4: ok 40000 19610 757660",
        "bill 1 791 794 10 50000 0 0 4: ok 40000 19610 930460",
    ]);
}

/// R 25,000 is below the baseline's support price. ETII is 7 × 6,500 = 45,500 ticks a kWh, QHS as at R 40,000.
#[test]
fn a_rate_of_0_beside_an_amount() {
    expect_lines(&[
        "open 0 0 2 0 0: ok",
        "cert 0 1 496: ok 0 0",
        // floor(1,000 × 10 / 30) = 333 at 0 and 667 at 45,500
        "bill 0 486 515 1000 50000 25000 0 0: ok 25000 0 30348500",
        // 6 at 0, 1 at 160,000 and 3 at 217,600
        "bill 0 791 794 10 50000 25000 0 4: ok 25000 0 812800",
    ]);
}

/// Bills of 30 days, and of one.
#[test]
fn few_kwh_and_few_days() {
    expect_lines(&[
        "open 0 0 2 0 0: ok",
        "cert 0 1 491: ok 0 0",
        "bill 0 486 515 0 67030 31980 0 0: ok 31980 17800 0",
        // floor(1 × 5 / 30) = 0 at 17,800 and 1 at 67,640
        "rebill 0 486 515 1 67030 31980 0 0: ok 31980 17800 67640",
        // floor(7 × 5 / 30) = 1 at 17,800 and 6 at 67,640 are 17,800 + 405,840 = 423,640, less 67,640
        "rebill 0 486 515 7 67030 31980 0 0: ok 31980 17800 356000",
        "cancel 0 486: ok -423640",
        "bill 0 490 490 1 67030 31980 0 0: ok 31980 17800 17800",
        "bill 0 491 491 1 67030 31980 0 0: ok 31980 67640 67640",
        // the bill of day 491 is baseline again: 17,800 - 67,640
        "cert 0 2 791: ok -49840 1",
        "bill 0 790 790 1 50000 40000 0 0: ok 40000 19610 19610",
        "bill 0 791 791 1 50000 40000 0 0: ok 40000 160000 160000",
        "bill 0 792 792 1 50000 40000 0 0: ok 40000 217600 217600",
    ]);
}

/// 40,000,000 kWh of each contract for all of the scheme, 366 days, at R and S 999,999: floor(40,000,000 × 114 / 366) = 12,459,016
/// before day 600, at 19,610; floor(40,000,000 × 306 / 366) - 12,459,016 = 20,983,606 before day 792, at 10 × 965,999; 6,557,378 from
/// then on, at 10 × 971,759. In ticks 244,321,303,760 + 202,701,424,123,940 + 63,721,910,879,020 = 266,667,656,306,720.
#[test]
fn the_largest_bill_of_every_contract() {
    let mut input = String::new();
    for contract in 0..64 {
        let bill = format!("bill {contract} 486 851 40000000 999999 999999 0 0");
        input += &format!("open {contract} 0 2 0 0\ncert {contract} 2 600\n{bill}\n");
    }
    let contract = ["ok", "ok 0 0", "ok 999999 19610 266667656306720"];
    let mut lines = contract.repeat(64);
    input += "total\nclaim\ncert 63 0 0\nclaim\n";
    lines.extend([
        // 64 × 266,667,656,306,720
        "ok 17066730003630080 17066730003630080",
        "ok 1706673000363 80",
        // 40,000,000 at 19,610 are 784,400,000,000, less 266,667,656,306,720
        "ok -265883256306720 1",
        // 17,066,730,003,630,080 - 265,883,256,306,720 = 16,800,846,747,323,360; 1,680,084,674,732 pence less 1,706,673,000,363
        "ok -26588325631 3360",
    ]);
    expect(input.as_bytes(), &lines);
}

#[test]
fn refused_lines_beside_a_change_inside() {
    expect_lines(&[
        "open 0 0 2 0 0: ok",
        "cert 0 1 496: ok 0 0",
        "bill 0 486 515 1000 67030 31980 0 0: ok 31980 17800 51043280",
        "bill 0 496 495 1000 67030 31980 0 0: refused 7",
        "rebill 0 486 485 1000 67030 31980 0 0: refused 7",
        "rebill 0 486 852 1000 67030 31980 0 0: refused 7",
        "bill 0 485 515 1000 67030 31980 0 0: refused 7",
        "bill 0 0 4294967295 1000 67030 31980 0 0: refused 7",
        "rebill 0 486 515 40000001 67030 31980 0 0: refused 8",
        "rebill 0 486 515 1000 67030 31980 0 1001: refused 14",
        "rebill 0 496 515 1000 67030 31980 0 0: refused 9",
        "bill 0 496 515 1000 67030 31980 0 0: refused 10",
        "cancel 0 496: refused 9",
        "cert 0 1 485: refused 7",
        "cert 0 2 510: refused 7",
        "cert 0 3 496: refused 6",
        "report 0: ok 1 1000 51043280",
        "total: ok 51043280 51043280",
    ]);
}

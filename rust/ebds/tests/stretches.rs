//! Bills in which the class or the QHS minimum changes on a day after the first (document 02, paper
//! 3): their amounts, the rate answered, certificates that begin inside a bill, refusals beside such
//! bills, and ledgers stored before the paper. That a refusal answers zeros is held by
//! [`ebds::calls`] itself.

mod row_fields;
mod stored_ledgers;

use ebds::{
    BillNumbers, Certificate, Certified, Claimed, Fuel, Kind, Ledger, Rebilled, Refusal, Reported,
    Territory, Totalled, BOOK_LENGTH,
};

/// A book in which every price is R 40,000.
const BOOK: [u32; BOOK_LENGTH] = [40_000; BOOK_LENGTH];

/// Electricity at R 31,980 and S 67,030: in ticks a kWh, baseline 10 × 1,780 = 17,800, ETII
/// 3 × 1,780 + 7 × 8,900 = 67,640, QHS 10 × 31,980 = 319,800 by either minimum.
const AT_31_980: BillNumbers = BillNumbers {
    contract: 0,
    first: 0,
    last: 0,
    kwh: 0,
    supply: 67_030,
    wap: 31_980,
    etii_share: 0,
    qhs_share: 0,
};

/// The same at R 40,000 and S 50,000: baseline 10 × 1,961 = 19,610, ETII 3 × 1,961 + 7 × 8,900 =
/// 68,183, QHS 10 × 16,000 = 160,000 by the old minimum and 10 × 21,760 = 217,600 by the new one.
const AT_40_000: BillNumbers = BillNumbers {
    supply: 50_000,
    wap: 40_000,
    ..AT_31_980
};

/// A bill at these prices.
const fn span(prices: BillNumbers, first: u32, last: u32, kwh: u32) -> BillNumbers {
    BillNumbers {
        first,
        last,
        kwh,
        ..prices
    }
}

/// The same bill with shares.
const fn shared(bill: BillNumbers, etii_share: u32, qhs_share: u32) -> BillNumbers {
    BillNumbers {
        etii_share,
        qhs_share,
        ..bill
    }
}

const fn etii(effective_day: u32) -> Certificate {
    Certificate::Etii { effective_day }
}

const fn qhs(effective_day: u32) -> Certificate {
    Certificate::Qhs { effective_day }
}

const FLEXIBLE: (Fuel, Kind) = (Fuel::Electricity, Kind::Flexible);

/// A contract of electricity, fixed with these days.
const fn fixed(price_fix_day: u32, entry_day: u32) -> (Fuel, Kind) {
    let kind = Kind::Fixed {
        price_fix_day,
        entry_day,
    };
    (Fuel::Electricity, kind)
}

/// A ledger of one contract with its certificate.
fn certified(contract: (Fuel, Kind), certificate: Certificate) -> Result<Ledger, Refusal> {
    let (fuel, kind) = contract;
    let mut ledger = Ledger::start(Territory::NorthernIreland)?;
    ledger.open(0, fuel, kind)?;
    ledger.cert(0, certificate)?;
    Ok(ledger)
}

/// What a certificate answers: the change, and one row where there is a change.
fn changed_by(change: i64) -> Certified {
    let rows = i64::from(change != 0);
    Certified { change, rows }
}

/// Holds a bill to the rate and the amount that it has under a certificate, and a certificate that
/// comes after the bill to the change from the amount without it: the bytes are then the same, and
/// those from before once it is taken away.
fn expect_rated(
    contract: (Fuel, Kind),
    bill: BillNumbers,
    without: i64,
    certificate: Certificate,
    (rate, amount): (i64, i64),
) -> Result<(), Refusal> {
    let case = format!("{contract:?}, {bill:?}, {certificate:?}");
    let mut under = certified(contract, certificate)?;
    let billed = under.bill(&BOOK, bill)?;
    assert_eq!((billed.rate, billed.amount), (rate, amount), "{case}");
    let mut ledger = certified(contract, Certificate::None)?;
    ledger.bill(&BOOK, bill)?;
    let before = ledger.clone();
    let change = amount - without;
    let answer = ledger.cert(0, certificate)?;
    assert_eq!(answer, changed_by(change), "{case}");
    assert_eq!(ledger, under, "{case}");
    let answer = ledger.cert(0, Certificate::None)?;
    assert_eq!(answer, changed_by(-change), "{case}");
    assert_eq!(ledger, before, "{case}");
    Ok(())
}

/// (effective day, rate, amount) of 1,000 kWh for the 30 days from 486 to 515, which have
/// 17,800,000 ticks at baseline.
const ETII_EDGES: [(u32, i64, i64); 5] = [
    // the first day: 1,000 kWh at 67,640
    (486, 67_640, 67_640_000),
    // the day after: floor(1,000 × 1 / 30) = 33 kWh at 17,800 and 967 at 67,640:
    // 587,400 + 65,407,880
    (487, 17_800, 65_995_280),
    // floor(1,000 × 10 / 30) = 333 kWh at 17,800 and 667 at 67,640: 5,927,400 + 45,115,880
    (496, 17_800, 51_043_280),
    // the last day: floor(1,000 × 29 / 30) = 966 kWh at 17,800 and 34 at 67,640:
    // 17,194,800 + 2,299,760
    (515, 17_800, 19_494_560),
    // the day after
    (516, 17_800, 17_800_000),
];

#[test]
fn an_etii_certificate_at_each_edge_of_a_bill() -> Result<(), Refusal> {
    let bill = span(AT_31_980, 486, 515, 1_000);
    for (effective_day, rate, amount) in ETII_EDGES {
        let certificate = etii(effective_day);
        expect_rated(FLEXIBLE, bill, 17_800_000, certificate, (rate, amount))?;
    }
    Ok(())
}

#[test]
fn a_certificate_that_is_moved_within_a_bill() -> Result<(), Refusal> {
    let mut ledger = certified(FLEXIBLE, Certificate::None)?;
    ledger.bill(&BOOK, span(AT_31_980, 486, 515, 1_000))?;
    for (certificate, change) in [
        // 19,494,560 - 17,800,000
        (etii(515), 1_694_560),
        // 51,043,280 - 19,494,560
        (etii(496), 31_548_720),
        (etii(496), 0),
        // floor(1,000 × 25 / 30) = 833 kWh at 17,800 and 167 at 319,800 are
        // 14,827,400 + 53,406,600 = 68,234,000, less 51,043,280
        (qhs(511), 17_190_720),
        // 65,995,280 - 68,234,000
        (etii(487), -2_238_720),
        // 17,800,000 - 65,995,280
        (etii(516), -48_195_280),
        (Certificate::None, 0),
    ] {
        let answer = ledger.cert(0, certificate)?;
        assert_eq!(answer, changed_by(change), "{certificate:?}");
    }
    Ok(())
}

/// The first of three bills is before the certificate, which begins inside the second; a bill of
/// another contract for the same days keeps its amount.
#[test]
fn a_certificate_counts_the_rows_that_it_changes() -> Result<(), Refusal> {
    let mut ledger = certified(FLEXIBLE, Certificate::None)?;
    ledger.open(1, Fuel::Electricity, Kind::Flexible)?;
    for (first, last) in [(486, 515), (516, 546), (547, 576)] {
        ledger.bill(&BOOK, span(AT_31_980, first, last, 1_000))?;
    }
    let other = BillNumbers {
        contract: 1,
        ..span(AT_31_980, 516, 546, 1_000)
    };
    ledger.bill(&BOOK, other)?;
    // of 516 to 546, floor(1,000 × 14 / 31) = 451 kWh at 17,800 and 549 at 67,640 are
    // 8,027,800 + 37,134,360 = 45,162,160: 27,362,160 more; of 547 to 576, 49,840,000 more
    let certified = Certified {
        change: 77_202_160,
        rows: 2,
    };
    assert_eq!(ledger.cert(0, etii(530))?, certified);
    // 17,800,000 + 45,162,160 + 67,640,000
    let due = 130_602_160;
    let (rows, kwh) = (3, 3_000);
    assert_eq!(ledger.report(0)?, Reported { rows, kwh, due });
    // with 17,800,000 of contract 1
    let (pence, rest) = (14_840, 2_160);
    assert_eq!(ledger.claim()?, Claimed { pence, rest });
    Ok(())
}

/// A rebill answers the change from the amount by day to the new one, and a cancellation minus it.
#[test]
fn a_bill_with_a_change_inside_is_rebilled_and_cancelled() -> Result<(), Refusal> {
    let mut ledger = certified(FLEXIBLE, etii(496))?;
    ledger.bill(&BOOK, span(AT_31_980, 486, 515, 1_000))?;
    for (last, change) in [
        // all before the certificate: 17,800,000 - 51,043,280
        (495, -33_243_280),
        // floor(1,000 × 10 / 11) = 909 kWh at 17,800 and 91 at 67,640:
        // 16,180,200 + 6,155,240 - 17,800,000
        (496, 4_535_440),
        // floor(1,000 × 10 / 40) = 250 kWh at 17,800 and 750 at 67,640:
        // 4,450,000 + 50,730,000 - 22,335,440
        (525, 32_844_560),
    ] {
        let rebilled = Rebilled {
            reference: 31_980,
            rate: 17_800,
            change,
        };
        let answer = ledger.rebill(&BOOK, span(AT_31_980, 486, last, 1_000))?;
        assert_eq!(answer, rebilled, "486 to {last}");
    }
    let (pence, rest) = (5_518, 0);
    assert_eq!(ledger.claim()?, Claimed { pence, rest });
    assert_eq!(ledger.cancel(0, 486)?.change, -55_180_000);
    let (due, unclaimed) = (0, -55_180_000);
    assert_eq!(ledger.total()?, Totalled { due, unclaimed });
    Ok(())
}

/// (effective day, amount) of 777 kWh for the 20 days from 501 to 520.
#[test]
fn a_qhs_certificate_that_begins_inside_a_bill() -> Result<(), Refusal> {
    let bill = span(AT_40_000, 501, 520, 777);
    // 777 kWh at 19,610
    let without = 15_236_970;
    for (effective_day, amount) in [
        // floor(777 × 10 / 20) = 388 kWh at 19,610 and 389 at 160,000: 7,608,680 + 62,240,000
        (511, 69_848_680),
        // floor(777 × 11 / 20) = 427 kWh at 19,610 and 350 at 160,000: 8,373,470 + 56,000,000
        (512, 64_373_470),
        // floor(777 × 19 / 20) = 738 kWh at 19,610 and 39 at 160,000: 14,472,180 + 6,240,000
        (520, 20_712_180),
        (521, without),
    ] {
        let rated = (19_610, amount);
        expect_rated(FLEXIBLE, bill, without, qhs(effective_day), rated)?;
    }
    // from the first day: 777 kWh at 160,000
    let bill = span(AT_40_000, 511, 530, 777);
    expect_rated(FLEXIBLE, bill, without, qhs(511), (160_000, 124_320_000))
}

/// (first day, last day, rate, amount) of 103 kWh of a contract that is QHS from day 511 on.
#[test]
fn day_792_inside_a_qhs_bill() -> Result<(), Refusal> {
    // 103 kWh at 19,610
    let without = 2_019_830;
    for (first, last, rate, amount) in [
        // 103 kWh at 160,000
        (782, 791, 160_000, 16_480_000),
        // floor(103 × 9 / 10) = 92 kWh at 160,000 and 11 at 217,600: 14,720,000 + 2,393,600
        (783, 792, 160_000, 17_113_600),
        // floor(103 × 1 / 10) = 10 kWh at 160,000 and 93 at 217,600: 1,600,000 + 20,236,800
        (791, 800, 160_000, 21_836_800),
        // floor(103 × 1 / 2) = 51 kWh at 160,000 and 52 at 217,600: 8,160,000 + 11,315,200
        (791, 792, 160_000, 19_475_200),
        // 103 kWh at 217,600
        (792, 801, 217_600, 22_412_800),
    ] {
        let bill = span(AT_40_000, first, last, 103);
        expect_rated(FLEXIBLE, bill, without, qhs(511), (rate, amount))?;
    }
    Ok(())
}

/// 100 kWh for the 7 days from 788 to 794, of which four are before day 792. In its first 1 to 6
/// days it has floor(100 × days / 7) = 14, 28, 42, 57, 71 and 85 kWh. At baseline it has 1,961,000
/// ticks.
const OVER_792: BillNumbers = span(AT_40_000, 788, 794, 100);

/// (effective day, rate, amount)
#[test]
fn a_qhs_certificate_and_day_792_inside_a_bill() -> Result<(), Refusal> {
    for (effective_day, rate, amount) in [
        // 57 kWh at 160,000 and 43 at 217,600: 9,120,000 + 9,356,800
        (788, 160_000, 18_476_800),
        // 14 at 19,610, 57 - 14 at 160,000 and 43 at 217,600: 274,540 + 6,880,000 + 9,356,800
        (789, 19_610, 16_511_340),
        // 28 at 19,610, 57 - 28 at 160,000 and 43 at 217,600: 549,080 + 4,640,000 + 9,356,800.
        // By themselves the two days from 790 have floor(100 × 2 / 7) = 28 kWh, one fewer.
        (790, 19_610, 14_545_880),
        // 42 at 19,610, 57 - 42 at 160,000 and 43 at 217,600: 823,620 + 2,400,000 + 9,356,800
        (791, 19_610, 12_580_420),
        // 57 at 19,610 and 43 at 217,600: 1,117,770 + 9,356,800
        (792, 19_610, 10_474_570),
        // 71 at 19,610 and 29 at 217,600: 1,392,310 + 6,310,400
        (793, 19_610, 7_702_710),
        // 85 at 19,610 and 15 at 217,600: 1,666,850 + 3,264,000
        (794, 19_610, 4_930_850),
        (795, 19_610, 1_961_000),
    ] {
        let rated = (rate, amount);
        expect_rated(FLEXIBLE, OVER_792, 1_961_000, qhs(effective_day), rated)?;
    }
    Ok(())
}

/// (price-fix day, entry day, effective day, rate, amount): the old minimum is that of a contract
/// entered before day 792, whenever its price was fixed.
#[test]
fn day_792_inside_a_fixed_contract_s_bill() -> Result<(), Refusal> {
    let bill = BillNumbers { wap: 0, ..OVER_792 };
    for (price_fix_day, entry_day, effective_day, rate, amount) in [
        // 100 kWh at 160,000
        (791, 791, 788, 160_000, 16_000_000),
        (792, 791, 511, 160_000, 16_000_000),
        // 28 kWh at 19,610 and 72 at 160,000: 549,080 + 11,520,000
        (791, 791, 790, 19_610, 12_069_080),
        // 57 kWh at 19,610 and 43 at 160,000: 1,117,770 + 6,880,000
        (791, 791, 792, 19_610, 7_997_770),
        // 71 kWh at 19,610 and 29 at 160,000: 1,392,310 + 4,640,000
        (791, 791, 793, 19_610, 6_032_310),
        // as a flexible contract's
        (792, 792, 788, 160_000, 18_476_800),
        (791, 792, 511, 160_000, 18_476_800),
        (792, 792, 790, 19_610, 14_545_880),
        (792, 792, 792, 19_610, 10_474_570),
        (792, 792, 793, 19_610, 7_702_710),
    ] {
        let contract = fixed(price_fix_day, entry_day);
        let rated = (rate, amount);
        expect_rated(contract, bill, 1_961_000, qhs(effective_day), rated)?;
    }
    Ok(())
}

#[test]
fn day_792_changes_no_other_class() -> Result<(), Refusal> {
    for (certificate, rate, amount) in [
        (Certificate::None, 19_610, 1_961_000),
        // 100 kWh at 68,183
        (etii(486), 68_183, 6_818_300),
        // 28 kWh at 19,610 and 72 at 68,183: 549,080 + 4,909,176
        (etii(790), 19_610, 5_458_256),
        // 57 kWh at 19,610 and 43 at 68,183: 1,117,770 + 2,931,869
        (etii(792), 19_610, 4_049_639),
    ] {
        expect_rated(FLEXIBLE, OVER_792, 1_961_000, certificate, (rate, amount))?;
    }
    Ok(())
}

/// Gas at R 20,000 and S 20,000: in ticks a kWh, baseline 10 × 697 = 6,970, ETII
/// 3 × 697 + 7 × 4,000 = 30,091, QHS 10 × 12,170 = 121,700 by the old minimum and
/// 10 × 13,500 = 135,000 by the new one.
#[test]
fn changes_inside_a_bill_of_gas() -> Result<(), Refusal> {
    let gas = (Fuel::Gas, Kind::Flexible);
    let bill = BillNumbers {
        supply: 20_000,
        wap: 20_000,
        ..OVER_792
    };
    // 28 kWh at 6,970 and 72 at 30,091: 195,160 + 2,166,552
    expect_rated(gas, bill, 697_000, etii(790), (6_970, 2_361_712))?;
    // 28 at 6,970, 29 at 121,700 and 43 at 135,000: 195,160 + 3,529,300 + 5,805,000
    expect_rated(gas, bill, 697_000, qhs(790), (6_970, 9_529_460))?;
    // 90 at 6,970, floor(10 × 4 / 7) = 5 at 121,700 and 5 at 135,000: 627,300 + 608,500 + 675,000
    let bill = shared(bill, 0, 10);
    expect_rated(gas, bill, 1_910_800, qhs(790), (6_970, 1_910_800))
}

/// 1,000 kWh for the 16 days from 500 to 515: floor(1,000 × 6 / 16) = 375 at 19,610 and 625 at
/// 68,183 are 7,353,750 + 42,614,375.
#[test]
fn a_certificate_that_begins_inside_a_variable_or_index_bill() -> Result<(), Refusal> {
    let bill = BillNumbers {
        wap: 0,
        ..span(AT_40_000, 500, 515, 1_000)
    };
    for kind in [Kind::Variable, Kind::Index] {
        let contract = (Fuel::Electricity, kind);
        expect_rated(contract, bill, 19_610_000, etii(506), (19_610, 49_968_125))?;
    }
    Ok(())
}

/// A variable contract has day 792, the first of a month, inside a bill only in a row stored before
/// number 15 came: it is billed of a flexible contract, whose kind's two bits then become 1.
#[test]
fn a_stored_row_across_months_is_rated_by_day() -> Result<(), Refusal> {
    let mut ledger = certified(FLEXIBLE, Certificate::None)?;
    ledger.bill(&BOOK, OVER_792)?;
    let mut bytes = ledger.as_bytes().to_vec();
    bytes[8] = bytes[8] & 0b1100_1111 | 1 << 4;
    let mut ledger = Ledger::from_bytes(&bytes)?;
    // 14,545,880 - 1,961,000
    assert_eq!(ledger.cert(0, qhs(790))?, changed_by(12_584_880));
    let across = BillNumbers { wap: 0, ..OVER_792 };
    assert_eq!(ledger.rebill(&BOOK, across), Err(Refusal::TwoMonths));
    // for the four days of January, 50 kWh at 19,610 and 50 at 160,000:
    // 980,500 + 8,000,000 - 14,545,880
    let rebilled = Rebilled {
        reference: 40_000,
        rate: 19_610,
        change: -5_565_380,
    };
    let within = BillNumbers {
        last: 791,
        ..across
    };
    assert_eq!(ledger.rebill(&BOOK, within)?, rebilled);
    Ok(())
}

/// Each share is spread by itself and the certificate is set aside: (first day, last day, kWh, ETII
/// share, QHS share, amount).
const SHARES_OVER_792: [(u32, u32, u32, u32, u32, i64); 8] = [
    // 6 kWh at 19,610 and 4 at 160,000: 117,660 + 640,000
    (788, 791, 10, 0, 4, 757_660),
    // 6 kWh at 19,610, floor(4 × 1 / 4) = 1 at 160,000 and 3 at 217,600: 117,660 + 160,000 +
    // 652,800. The bill has floor(10 × 1 / 4) = 2 kWh on day 791, of which floor(4 × 2 / 10) = 0
    // would be QHS.
    (791, 794, 10, 0, 4, 930_460),
    // 6 kWh at 19,610 and 4 at 217,600: 117,660 + 870,400
    (792, 795, 10, 0, 4, 988_060),
    // 8 kWh at 19,610, 5 at 68,183, floor(7 × 3 / 10) = 2 at 160,000 and 5 at 217,600:
    // 156,880 + 340,915 + 320,000 + 1,088,000
    (789, 798, 20, 5, 7, 1_905_795),
    // no rest: floor(3 × 1 / 2) = 1 kWh at 160,000 and 2 at 217,600
    (791, 792, 3, 0, 3, 595_200),
    // 1 kWh at 19,610, floor(1 × 1 / 3) = 0 at 160,000 and 1 at 217,600
    (791, 793, 2, 0, 1, 237_210),
    // 1 kWh at 19,610, floor(1 × 3 / 4) = 0 at 160,000 and 1 at 217,600
    (789, 792, 2, 0, 1, 237_210),
    // 6 kWh at 19,610 and 4 at 68,183: 117,660 + 272,732
    (791, 794, 10, 4, 0, 390_392),
];

#[test]
fn shares_over_day_792() -> Result<(), Refusal> {
    for (first, last, kwh, etii_share, qhs_share, amount) in SHARES_OVER_792 {
        let bill = shared(span(AT_40_000, first, last, kwh), etii_share, qhs_share);
        let expect = |certificate| {
            let rated = (19_610, amount);
            expect_rated(FLEXIBLE, bill, amount, certificate, rated)
        };
        expect(Certificate::None)?;
        expect(etii(792))?;
        expect(qhs(511))?;
        expect(qhs(792))?;
    }
    Ok(())
}

/// Contracts entered on day 791 and on day 792.
#[test]
fn a_qhs_share_of_a_fixed_contract_over_day_792() -> Result<(), Refusal> {
    let bill = BillNumbers {
        wap: 0,
        ..shared(span(AT_40_000, 791, 794, 10), 0, 4)
    };
    for (entry_day, amount) in [(791, 757_660), (792, 930_460)] {
        let contract = fixed(0, entry_day);
        expect_rated(contract, bill, amount, qhs(792), (19_610, amount))?;
    }
    Ok(())
}

#[test]
fn a_certificate_leaves_a_share_over_day_792() -> Result<(), Refusal> {
    let mut ledger = certified(FLEXIBLE, Certificate::None)?;
    let without_shares = span(AT_40_000, 791, 794, 10);
    let with_share = shared(without_shares, 0, 4);
    ledger.bill(&BOOK, with_share)?;
    ledger.bill(&BOOK, span(AT_40_000, 781, 790, 103))?;
    // the bill of 781 to 790 alone: floor(103 × 6 / 10) = 61 kWh at 19,610 and 42 at 160,000 are
    // 1,196,210 + 6,720,000 = 7,916,210, less 2,019,830
    assert_eq!(ledger.cert(0, qhs(787))?, changed_by(5_896_380));
    // 930,460 + 7,916,210
    let due = 8_846_670;
    let (rows, kwh) = (2, 113);
    assert_eq!(ledger.report(0)?, Reported { rows, kwh, due });
    let rebilled = |rate, change| Rebilled {
        reference: 40_000,
        rate,
        change,
    };
    // without the share, floor(10 × 1 / 4) = 2 kWh at 160,000 and 8 at 217,600 are
    // 320,000 + 1,740,800 = 2,060,800, less 930,460
    let answer = ledger.rebill(&BOOK, without_shares)?;
    assert_eq!(answer, rebilled(160_000, 1_130_340));
    let answer = ledger.rebill(&BOOK, with_share)?;
    assert_eq!(answer, rebilled(19_610, -1_130_340));
    assert_eq!(ledger.cancel(0, 791)?.change, -930_460);
    assert_eq!(ledger.total()?.due, 7_916_210);
    Ok(())
}

/// R 25,000 is below the baseline's support price. At S 50,000 ETII is 7 × 6,500 = 45,500 ticks a
/// kWh, QHS 160,000 by the old minimum and 217,600 by the new one.
#[test]
fn a_rate_of_0_beside_an_amount() -> Result<(), Refusal> {
    let at_25_000 = BillNumbers {
        wap: 25_000,
        ..AT_40_000
    };
    // 667 kWh at 45,500
    let bill = span(at_25_000, 486, 515, 1_000);
    expect_rated(FLEXIBLE, bill, 0, etii(496), (0, 30_348_500))?;
    // 57 - 28 kWh at 160,000 and 43 at 217,600: 4,640,000 + 9,356,800
    let bill = span(at_25_000, 788, 794, 100);
    expect_rated(FLEXIBLE, bill, 0, qhs(790), (0, 13_996_800))?;
    // 1 kWh of the share at 160,000 and 3 at 217,600
    let bill = shared(span(at_25_000, 791, 794, 10), 0, 4);
    expect_rated(FLEXIBLE, bill, 812_800, qhs(792), (0, 812_800))
}

/// At S 33,000 QHS is 0 by the old minimum and 10 × 4,760 = 47,600 ticks a kWh by the new one,
/// baseline 19,610.
#[test]
fn a_certificate_that_lowers_a_part_of_a_bill() -> Result<(), Refusal> {
    let at_33_000 = BillNumbers {
        supply: 33_000,
        ..AT_40_000
    };
    // 388 kWh at 19,610
    let bill = span(at_33_000, 501, 520, 777);
    expect_rated(FLEXIBLE, bill, 15_236_970, qhs(511), (19_610, 7_608_680))?;
    // 28 kWh at 19,610, 57 - 28 at 0 and 43 at 47,600: 549,080 + 2,046,800
    let bill = span(at_33_000, 788, 794, 100);
    expect_rated(FLEXIBLE, bill, 1_961_000, qhs(790), (19_610, 2_595_880))?;
    // 57 kWh at 0 and 43 at 47,600
    expect_rated(FLEXIBLE, bill, 1_961_000, qhs(788), (0, 2_046_800))
}

/// (kWh, effective day, amount) of a bill for the 30 days from 486 to 515. The first day's rate is
/// answered, even where no kWh has it.
#[test]
fn few_kwh() -> Result<(), Refusal> {
    for (kwh, effective_day, amount) in [
        (0, 487, 0),
        (0, 515, 0),
        // floor(1 × 1 / 30) and floor(1 × 29 / 30) are 0: 1 kWh at 67,640
        (1, 487, 67_640),
        (1, 515, 67_640),
        (1, 516, 17_800),
        // floor(7 × 4 / 30) = 0, and 7 kWh at 67,640
        (7, 490, 473_480),
        // floor(7 × 5 / 30) = 1 kWh at 17,800 and 6 at 67,640: 17,800 + 405,840
        (7, 491, 423_640),
        // floor(29 × 29 / 30) = 28 kWh at 17,800 and 1 at 67,640: 498,400 + 67,640
        (29, 515, 566_040),
        // floor(31 × 1 / 30) = 1 kWh at 17,800 and 30 at 67,640: 17,800 + 2,029,200
        (31, 487, 2_047_000),
    ] {
        let bill = span(AT_31_980, 486, 515, kwh);
        let without = i64::from(kwh) * 17_800;
        let rated = (17_800, amount);
        expect_rated(FLEXIBLE, bill, without, etii(effective_day), rated)?;
    }
    Ok(())
}

/// (day, certificate, rate) of 10 kWh on one day, which all have its class and minimum.
#[test]
fn bills_of_one_day() -> Result<(), Refusal> {
    for (day, certificate, rate) in [
        (496, etii(495), 68_183),
        (496, etii(496), 68_183),
        (496, etii(497), 19_610),
        (791, qhs(791), 160_000),
        (791, qhs(792), 19_610),
        (792, qhs(791), 217_600),
        (792, qhs(792), 217_600),
        (792, qhs(793), 19_610),
        (851, etii(851), 68_183),
    ] {
        let bill = span(AT_40_000, day, day, 10);
        expect_rated(FLEXIBLE, bill, 196_100, certificate, (rate, 10 * rate))?;
    }
    Ok(())
}

/// All of the scheme, 366 days, of which 306 are before day 792. At R and S 999,999 QHS is
/// 10 × 965,999 = 9,659,990 ticks a kWh by the old minimum and 10 × 971,759 = 9,717,590 by the new
/// one, baseline 19,610.
const LARGEST: BillNumbers = BillNumbers {
    supply: 999_999,
    wap: 999_999,
    ..span(AT_40_000, 486, 851, 40_000_000)
};

#[test]
fn the_largest_bill() -> Result<(), Refusal> {
    // floor(40,000,000 × 114 / 366) = 12,459,016 kWh at 19,610, floor(40,000,000 × 306 / 366) -
    // 12,459,016 = 20,983,606 at 9,659,990 and 6,557,378 at 9,717,590:
    // 244,321,303,760 + 202,701,424,123,940 + 63,721,910,879,020
    let amount = 266_667_656_306_720;
    let without = 784_400_000_000;
    expect_rated(FLEXIBLE, LARGEST, without, qhs(600), (19_610, amount))?;
    let mut ledger = certified(FLEXIBLE, qhs(600))?;
    ledger.bill(&BOOK, LARGEST)?;
    let (pence, rest) = (26_666_765_630, 6_720);
    assert_eq!(ledger.claim()?, Claimed { pence, rest });
    let (due, unclaimed) = (amount, 6_720);
    assert_eq!(ledger.total()?, Totalled { due, unclaimed });
    // from day 511: floor(40,000,000 × 25 / 366) = 2,732,240 kWh at 19,610, 33,442,622 - 2,732,240
    // = 30,710,382 at 9,659,990 and 6,557,378 at 9,717,590: 53,579,226,400 +
    // 296,661,983,016,180 + 63,721,910,879,020 = 360,437,473,121,600, less 266,667,656,306,720
    assert_eq!(ledger.cert(0, qhs(511))?, changed_by(93_769_816_814_880));
    let (pence, rest) = (9_376_981_682, 1_600);
    assert_eq!(ledger.claim()?, Claimed { pence, rest });
    Ok(())
}

/// 33,442,622 kWh at 9,659,990 and 6,557,378 at 9,717,590:
/// 323,055,394,093,780 + 63,721,910,879,020.
#[test]
fn the_largest_share() -> Result<(), Refusal> {
    let bill = shared(LARGEST, 0, 40_000_000);
    let amount = 386_777_304_972_800;
    expect_rated(FLEXIBLE, bill, amount, qhs(600), (19_610, amount))
}

/// Bills that are turned down, of which most have a certificate's day 511 or day 792 inside.
fn refused_bills() -> [(BillNumbers, Refusal); 14] {
    let inside = span(AT_40_000, 486, 515, 1_000);
    let over_792 = span(AT_40_000, 780, 800, 1_000);
    let days = |first, last| span(AT_40_000, first, last, 1_000);
    [
        (days(486, 852), Refusal::WrongDay),
        (days(485, 515), Refusal::WrongDay),
        (days(515, 486), Refusal::WrongDay),
        // spans of no day
        (days(511, 510), Refusal::WrongDay),
        (days(792, 791), Refusal::WrongDay),
        (days(1, 0), Refusal::WrongDay),
        // spans whose days, counted in 32 bits, are 0 and 4,294,966,810
        (days(0, u32::MAX), Refusal::WrongDay),
        (days(486, u32::MAX), Refusal::WrongDay),
        (span(inside, 486, 515, 40_000_001), Refusal::WrongQuantity),
        (span(inside, 486, 515, u32::MAX), Refusal::WrongQuantity),
        (shared(inside, 1_000, 1), Refusal::SharesExceedKwh),
        (shared(inside, 0, 1_001), Refusal::SharesExceedKwh),
        (shared(over_792, 0, u32::MAX), Refusal::SharesExceedKwh),
        (shared(over_792, u32::MAX, 1), Refusal::SharesExceedKwh),
    ]
}

#[test]
fn refused_bills_beside_a_change_inside() -> Result<(), Refusal> {
    let mut ledger = certified(FLEXIBLE, qhs(511))?;
    ledger.bill(&BOOK, span(AT_40_000, 501, 520, 777))?;
    ledger.bill(&BOOK, OVER_792)?;
    let before = ledger.clone();
    for (numbers, refusal) in refused_bills() {
        assert_eq!(ledger.bill(&BOOK, numbers), Err(refusal), "{numbers:?}");
        assert_eq!(ledger.rebill(&BOOK, numbers), Err(refusal), "{numbers:?}");
        assert_eq!(ledger, before, "{numbers:?}");
    }
    Ok(())
}

/// Certificates with a wrong day, a row that is missing and a day that is shared.
#[test]
fn other_refused_calls_beside_a_change_inside() -> Result<(), Refusal> {
    let mut ledger = certified(FLEXIBLE, qhs(511))?;
    ledger.bill(&BOOK, span(AT_40_000, 501, 520, 777))?;
    let before = ledger.clone();
    for certificate in [etii(485), etii(852), qhs(510), qhs(852), qhs(u32::MAX)] {
        let refused = ledger.cert(0, certificate);
        assert_eq!(refused, Err(Refusal::WrongDay), "{certificate:?}");
    }
    let from_the_certificate = span(AT_40_000, 511, 520, 777);
    let answer = ledger.bill(&BOOK, from_the_certificate);
    assert_eq!(answer, Err(Refusal::SharedDay));
    let answer = ledger.rebill(&BOOK, from_the_certificate);
    assert_eq!(answer, Err(Refusal::NoSuchRow));
    assert_eq!(ledger.cancel(0, 511), Err(Refusal::NoSuchRow));
    assert_eq!(ledger, before);
    Ok(())
}

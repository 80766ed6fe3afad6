//! Bills with an ETII share and a QHS share (document 02, paper 1): number 14 at its edges and in
//! checking order, amounts, and the calls on such bills. That a refusal answers zeros is held by
//! [`ebds::calls`] itself.

mod refused_bills;

use ebds::{
    BillNumbers, Billed, Certificate, Certified, Claimed, Fuel, Kind, Ledger, Rebilled, Refusal,
    Reported, Territory, Totalled, BOOK_LENGTH,
};
use refused_bills::{expect_no_bill, expect_no_rebill};

/// The day number of 1 April 2023.
const APRIL: u32 = 486;

const UNPUBLISHED: [u32; BOOK_LENGTH] = [0; BOOK_LENGTH];

/// Shares that exceed 1,000 kWh: (ETII share, QHS share).
const EXCEEDING: [(u32, u32); 14] = [
    (1_001, 0),
    (0, 1_001),
    (1_000, 1),
    (1, 1_000),
    (500, 501),
    (u32::MAX, 0),
    (0, u32::MAX),
    (u32::MAX, 1),
    (1, u32::MAX),
    // sums that wrapped at 32 bits would be 1,000, 0 and 4,294,967,294
    (u32::MAX, 1_001),
    (1_001, u32::MAX),
    (1 << 31, 1 << 31),
    (u32::MAX, u32::MAX),
    // a sum that wrapped at the 27 bits of a share would be 0
    (1 << 26, 1 << 26),
];

/// A bill of 1,000 kWh for April 2023, at R 31,980 and S 67,030: in ticks a kWh,
/// baseline 10 × 1,780 = 17,800, ETII 3 × 1,780 + 7 × 8,900 = 67,640, QHS 10 × 31,980 = 319,800.
fn april(etii_share: u32, qhs_share: u32) -> BillNumbers {
    BillNumbers {
        contract: 0,
        first: APRIL,
        last: 515,
        kwh: 1_000,
        supply: 67_030,
        wap: 31_980,
        etii_share,
        qhs_share,
    }
}

/// The same for May 2023.
fn may(etii_share: u32, qhs_share: u32) -> BillNumbers {
    BillNumbers {
        first: 516,
        last: 546,
        ..april(etii_share, qhs_share)
    }
}

/// A Northern Ireland ledger of one contract.
fn ledger_with(fuel: Fuel, kind: Kind) -> Result<Ledger, Refusal> {
    let mut ledger = Ledger::start(Territory::NorthernIreland)?;
    ledger.open(0, fuel, kind)?;
    Ok(ledger)
}

/// A ledger of a flexible electricity contract with one bill for April.
fn ledger_of(numbers: BillNumbers) -> Result<Ledger, Refusal> {
    let mut ledger = ledger_with(Fuel::Electricity, Kind::Flexible)?;
    ledger.bill(&UNPUBLISHED, numbers)?;
    Ok(ledger)
}

#[test]
fn shares_that_exceed_kwh_are_number_14() -> Result<(), Refusal> {
    let mut ledger = ledger_of(april(400, 350))?;
    for (etii_share, qhs_share) in EXCEEDING {
        let refusal = Refusal::SharesExceedKwh;
        expect_no_bill(
            &mut ledger,
            &UNPUBLISHED,
            may(etii_share, qhs_share),
            refusal,
        );
        expect_no_rebill(
            &mut ledger,
            &UNPUBLISHED,
            april(etii_share, qhs_share),
            refusal,
        );
    }
    Ok(())
}

/// Shares of exactly kWh: (kWh, ETII share, QHS share).
const EXACT: [(u32, u32, u32); 8] = [
    (0, 0, 0),
    (1_000, 1_000, 0),
    (1_000, 0, 1_000),
    (1_000, 400, 600),
    (1_000, 999, 1),
    (40_000_000, 40_000_000, 0),
    (40_000_000, 0, 40_000_000),
    (40_000_000, 20_000_000, 20_000_000),
];

/// They are taken, and refused with one kWh more in either.
#[test]
fn shares_of_exactly_kwh_are_taken() -> Result<(), Refusal> {
    for (kwh, etii_share, qhs_share) in EXACT {
        let numbers = BillNumbers {
            kwh,
            ..april(etii_share, qhs_share)
        };
        let mut ledger = ledger_of(april(0, 0))?;
        ledger.rebill(&UNPUBLISHED, numbers)?;
        assert_eq!(ledger_of(numbers)?, ledger, "{numbers:?}");
        let more_etii = BillNumbers {
            etii_share: etii_share + 1,
            ..numbers
        };
        expect_no_rebill(
            &mut ledger,
            &UNPUBLISHED,
            more_etii,
            Refusal::SharesExceedKwh,
        );
        let more_qhs = BillNumbers {
            qhs_share: qhs_share + 1,
            ..numbers
        };
        expect_no_rebill(
            &mut ledger,
            &UNPUBLISHED,
            more_qhs,
            Refusal::SharesExceedKwh,
        );
    }
    Ok(())
}

/// A change that makes a bill meet a number.
type Change = fn(&mut BillNumbers);

#[test]
fn numbers_up_to_8_come_before_14() -> Result<(), Refusal> {
    let changes: [(Change, Refusal); 7] = [
        (|bill| bill.contract = 64, Refusal::NoSuchContract),
        (|bill| bill.contract = 1, Refusal::WronglyOpen),
        (|bill| bill.first = 485, Refusal::WrongDay),
        (|bill| bill.kwh = 40_000_001, Refusal::WrongQuantity),
        (|bill| bill.kwh = u32::MAX, Refusal::WrongQuantity),
        (|bill| bill.supply = 1_000_000, Refusal::WrongQuantity),
        (|bill| bill.wap = 1_000_000, Refusal::WrongQuantity),
    ];
    let mut ledger = ledger_of(april(0, 0))?;
    for (change, refusal) in changes {
        let mut exceeding = april(u32::MAX, 1);
        change(&mut exceeding);
        expect_no_bill(&mut ledger, &UNPUBLISHED, exceeding, refusal);
        expect_no_rebill(&mut ledger, &UNPUBLISHED, exceeding, refusal);
    }
    Ok(())
}

/// Each call meets 9, 10 or 11 where its shares don't exceed its kWh.
#[test]
fn number_14_comes_before_the_numbers_of_rows() -> Result<(), Refusal> {
    let mut ledger = ledger_of(april(0, 0))?;
    ledger.bill(&UNPUBLISHED, may(0, 0))?;
    for (shares, unheld, shared) in [
        (1_000, Refusal::NoSuchRow, Refusal::SharedDay),
        (1_001, Refusal::SharesExceedKwh, Refusal::SharesExceedKwh),
    ] {
        let held = april(shares, 0);
        expect_no_rebill(
            &mut ledger,
            &UNPUBLISHED,
            BillNumbers { first: 487, ..held },
            unheld,
        );
        expect_no_bill(&mut ledger, &UNPUBLISHED, held, shared);
        expect_no_rebill(
            &mut ledger,
            &UNPUBLISHED,
            BillNumbers { last: 516, ..held },
            shared,
        );
    }
    let mut ledger = ledger_with(Fuel::Electricity, Kind::Variable)?;
    for (shares, unpriced) in [(1_000, Refusal::NoPrice), (1_001, Refusal::SharesExceedKwh)] {
        let numbers = BillNumbers {
            wap: 0,
            ..april(0, shares)
        };
        expect_no_bill(&mut ledger, &UNPUBLISHED, numbers, unpriced);
    }
    Ok(())
}

/// The amounts of 1,000 kWh, under no certificate and under an ETII one, which is set aside:
/// (ETII share, QHS share, amount).
#[test]
fn each_share_has_the_rate_of_its_class() -> Result<(), Refusal> {
    for (etii_share, qhs_share, amount) in [
        // 250 × 17,800 + 400 × 67,640 + 350 × 319,800
        (400, 350, 143_436_000),
        // 600 × 17,800 + 400 × 67,640
        (400, 0, 37_736_000),
        // 650 × 17,800 + 350 × 319,800
        (0, 350, 123_500_000),
        // no rest, whose rate is answered all the same
        (1_000, 0, 67_640_000),
        (0, 1_000, 319_800_000),
        (650, 350, 155_896_000),
    ] {
        for certificate in [
            Certificate::None,
            Certificate::Etii {
                effective_day: APRIL,
            },
        ] {
            let mut ledger = ledger_with(Fuel::Electricity, Kind::Flexible)?;
            ledger.cert(0, certificate)?;
            let billed = Billed {
                reference: 31_980,
                rate: 17_800,
                amount,
            };
            let answer = ledger.bill(&UNPUBLISHED, april(etii_share, qhs_share))?;
            assert_eq!(answer, billed, "{certificate:?}");
        }
    }
    Ok(())
}

/// The amounts of one kWh in the QHS share, at R and S of 40,000 and 50,000 for electricity, of
/// 20,000 and 20,000 for gas: S less the old minimum before day 792 and for a contract fixed before
/// it, or else less the new one. (Fuel, kind, first day, amount.)
const QHS_AMOUNTS: [(Fuel, Kind, u32, i64); 13] = [
    (Fuel::Electricity, Kind::Flexible, 486, 160_000),
    (Fuel::Electricity, Kind::Flexible, 510, 160_000),
    (Fuel::Electricity, Kind::Flexible, 791, 160_000),
    (Fuel::Electricity, Kind::Flexible, 792, 217_600),
    (Fuel::Electricity, fixed(791), 792, 160_000),
    (Fuel::Electricity, fixed(792), 791, 160_000),
    (Fuel::Electricity, fixed(792), 792, 217_600),
    (Fuel::Electricity, Kind::Variable, 792, 217_600),
    (Fuel::Electricity, Kind::Index, 792, 217_600),
    (Fuel::Gas, Kind::Variable, 486, 121_700),
    (Fuel::Gas, Kind::Variable, 791, 121_700),
    (Fuel::Gas, Kind::Variable, 792, 135_000),
    (Fuel::Gas, fixed(791), 851, 121_700),
];

/// A fixed contract with its day of entry.
const fn fixed(entry_day: u32) -> Kind {
    Kind::Fixed {
        price_fix_day: 0,
        entry_day,
    }
}

#[test]
fn a_qhs_share_has_its_minimum_on_every_day() -> Result<(), Refusal> {
    for (fuel, kind, first, amount) in QHS_AMOUNTS {
        let (reference, supply) = match fuel {
            Fuel::Electricity => (40_000, 50_000),
            Fuel::Gas => (20_000, 20_000),
        };
        let wap = match kind {
            Kind::Flexible => reference,
            Kind::Fixed { .. } | Kind::Variable | Kind::Index => 0,
        };
        let numbers = BillNumbers {
            first,
            last: first,
            kwh: 1,
            supply,
            wap,
            ..april(0, 1)
        };
        let billed = ledger_with(fuel, kind)?.bill(&[reference; BOOK_LENGTH], numbers)?;
        assert_eq!(billed.amount, amount, "{fuel:?}, {kind:?}, day {first}");
    }
    Ok(())
}

/// The bytes that hold the shares: the last 6 bits of kWh, the ETII share and the QHS share of 27
/// bits each, and the first 4 bits of R.
#[test]
fn the_etii_share_stands_before_the_qhs_share() -> Result<(), Refusal> {
    let ledger = ledger_of(april(400, 350))?;
    let mut bytes = [0; 8];
    bytes.copy_from_slice(&ledger.as_bytes()[590..598]);
    let bits = u64::from_be_bytes(bytes);
    assert_eq!(bits, (1_000 % 64) << 58 | 400 << 31 | 350 << 4);
    Ok(())
}

/// A certificate leaves a row with shares as it is and doesn't count it.
#[test]
fn a_certificate_leaves_shares() -> Result<(), Refusal> {
    let mut ledger = ledger_of(april(400, 350))?;
    ledger.bill(&UNPUBLISHED, may(0, 0))?;
    assert_eq!(due(&ledger)?, 143_436_000 + 17_800_000);
    let etii = Certificate::Etii {
        effective_day: APRIL,
    };
    let of_may = Certified {
        change: 49_840_000,
        rows: 1,
    };
    assert_eq!(ledger.cert(0, etii)?, of_may);
    assert_eq!(due(&ledger)?, 143_436_000 + 67_640_000);
    let qhs = Certificate::Qhs { effective_day: 511 };
    let of_may = Certified {
        change: 252_160_000,
        rows: 1,
    };
    assert_eq!(ledger.cert(0, qhs)?, of_may);
    assert_eq!(due(&ledger)?, 143_436_000 + 319_800_000);
    ledger.cancel(0, 516)?;
    let none = Certified { change: 0, rows: 0 };
    assert_eq!(ledger.cert(0, etii)?, none);
    assert_eq!(ledger.cert(0, Certificate::None)?, none);
    assert_eq!(ledger, ledger_of(april(400, 350))?);
    Ok(())
}

/// Due of a ledger.
fn due(ledger: &Ledger) -> Result<i64, Refusal> {
    Ok(ledger.total()?.due)
}

/// A rebill takes both shares away, upon which the certificate applies, and brings them back.
#[test]
fn a_rebill_replaces_both_shares() -> Result<(), Refusal> {
    let mut ledger = ledger_of(april(400, 350))?;
    ledger.cert(
        0,
        Certificate::Etii {
            effective_day: APRIL,
        },
    )?;
    let with_shares = ledger.clone();
    assert_eq!(
        ledger.rebill(&UNPUBLISHED, april(0, 0))?,
        rebilled(67_640, 67_640_000 - 143_436_000)
    );
    assert_eq!(
        ledger.rebill(&UNPUBLISHED, april(0, 350))?,
        rebilled(17_800, 123_500_000 - 67_640_000)
    );
    assert_eq!(
        ledger.rebill(&UNPUBLISHED, april(400, 350))?,
        rebilled(17_800, 143_436_000 - 123_500_000)
    );
    assert_eq!(ledger, with_shares);
    Ok(())
}

fn rebilled(rate: i64, change: i64) -> Rebilled {
    Rebilled {
        reference: 31_980,
        rate,
        change,
    }
}

#[test]
fn a_bill_with_shares_is_reported_claimed_and_cancelled() -> Result<(), Refusal> {
    let mut ledger = ledger_of(april(400, 350))?;
    let reported = Reported {
        rows: 1,
        kwh: 1_000,
        due: 143_436_000,
    };
    assert_eq!(ledger.report(0)?, reported);
    let claimed = Claimed {
        pence: 14_343,
        rest: 6_000,
    };
    assert_eq!(ledger.claim()?, claimed);
    assert_eq!(ledger.cancel(0, APRIL)?.change, -143_436_000);
    let totalled = Totalled {
        due: 0,
        unclaimed: -143_430_000,
    };
    assert_eq!(ledger.total()?, totalled);
    let given_back = Claimed {
        pence: -14_343,
        rest: 0,
    };
    assert_eq!(ledger.claim()?, given_back);
    Ok(())
}

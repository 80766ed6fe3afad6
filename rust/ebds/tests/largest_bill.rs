//! The most kWh of a bill or rebill, and stored rows of more (document 02, paper 6): number 8 at its
//! edges and in checking order, and the calls on rows of 40,000,001 to 100,000,000 kWh that a ledger
//! holds. That a refusal answers zeros is held by [`ebds::calls`] itself.

mod refused_bills;
mod row_fields;

use ebds::{
    BillNumbers, Billed, Cancelled, Certificate, Certified, Claimed, Fuel, Kind, Ledger, Rebilled,
    Refusal, Reported, Territory, Totalled, BOOK_LENGTH,
};
use refused_bills::{expect_no_bill, expect_no_rebill};
use row_fields::with_field;

/// R of every contract but those at the highest price.
const REFERENCE: u32 = 31_980;

/// A book in which every price is published.
const BOOK: [u32; BOOK_LENGTH] = [REFERENCE; BOOK_LENGTH];

const UNPUBLISHED: [u32; BOOK_LENGTH] = [0; BOOK_LENGTH];

/// A contract, with the ticks that a kWh of its bills has as baseline, ETII and QHS: at R 31,980 and
/// S 67,030 in electricity 10 × 1,780, 3 × 1,780 + 7 × 8,900 and 10 × 31,980, in gas 10 × 697,
/// 3 × 697 + 7 × 4,000 and 10 × 31,980.
#[derive(Clone, Copy, Debug)]
struct Contract {
    fuel: Fuel,
    kind: Kind,
    baseline: i64,
    etii: i64,
    qhs: i64,
}

const fn electricity(kind: Kind) -> Contract {
    Contract {
        fuel: Fuel::Electricity,
        kind,
        baseline: 17_800,
        etii: 67_640,
        qhs: 319_800,
    }
}

const fn gas(kind: Kind) -> Contract {
    Contract {
        fuel: Fuel::Gas,
        kind,
        baseline: 6_970,
        etii: 30_091,
        qhs: 319_800,
    }
}

const FIXED: Kind = Kind::Fixed {
    price_fix_day: 0,
    entry_day: 0,
};

/// A contract of each fuel and kind.
const CONTRACTS: [Contract; 7] = [
    electricity(FIXED),
    gas(FIXED),
    electricity(Kind::Variable),
    gas(Kind::Variable),
    electricity(Kind::Flexible),
    gas(Kind::Flexible),
    electricity(Kind::Index),
];

/// kWh that a bill or rebill may give.
const TAKEN: [u32; 4] = [0, 1, 39_999_999, 40_000_000];

/// kWh that number 8 turns down; a row's 27 bits have room for those up to 134,217,727.
const TOO_MANY: [u32; 8] = [
    40_000_001,
    99_999_999,
    100_000_000,
    100_000_001,
    134_217_727,
    134_217_728,
    1 << 31,
    u32::MAX,
];

/// kWh of stored rows that no bill may give.
const STORED: [u32; 4] = [40_000_001, 70_000_003, 99_999_999, 100_000_000];

impl Contract {
    /// A Northern Ireland ledger of this contract alone, with number 0.
    fn opened(self) -> Result<Ledger, Refusal> {
        let mut ledger = Ledger::start(Territory::NorthernIreland)?;
        ledger.open(0, self.fuel, self.kind)?;
        Ok(ledger)
    }

    /// A bill for April 2023.
    fn april(self, kwh: u32) -> BillNumbers {
        BillNumbers {
            contract: 0,
            first: 486,
            last: 515,
            kwh,
            supply: 67_030,
            wap: match self.kind {
                Kind::Flexible => REFERENCE,
                Kind::Fixed { .. } | Kind::Variable | Kind::Index => 0,
            },
            etii_share: 0,
            qhs_share: 0,
        }
    }

    /// The ledger with a bill for April.
    fn billed(self, kwh: u32) -> Result<Ledger, Refusal> {
        let mut ledger = self.opened()?;
        ledger.bill(&BOOK, self.april(kwh))?;
        Ok(ledger)
    }

    /// The ledger with a stored row for April.
    fn stored(self, kwh: u32, etii_share: u32, qhs_share: u32) -> Result<Ledger, Refusal> {
        let amount = self.amount(kwh, etii_share, qhs_share);
        let mut bytes = self.billed(0)?.as_bytes().to_vec();
        for (name, number) in [
            ("kWh", kwh.into()),
            ("ETII share", etii_share.into()),
            ("QHS share", qhs_share.into()),
            ("amount", amount.unsigned_abs()),
        ] {
            bytes = with_field(&bytes, 0, name, number);
        }
        Ledger::from_bytes(&bytes)
    }

    /// The amount of a bill for April without a certificate.
    fn amount(self, kwh: u32, etii_share: u32, qhs_share: u32) -> i64 {
        i64::from(kwh - etii_share - qhs_share) * self.baseline
            + i64::from(etii_share) * self.etii
            + i64::from(qhs_share) * self.qhs
    }
}

/// What a report answers of one row.
fn reported(kwh: u32, due: i64) -> Reported {
    Reported {
        rows: 1,
        kwh: kwh.into(),
        due,
    }
}

/// What a certificate answers that changes one row.
fn re_rated(change: i64) -> Certified {
    Certified { change, rows: 1 }
}

#[test]
fn at_most_40_000_000_kwh_are_taken() -> Result<(), Refusal> {
    let reference = i64::from(REFERENCE);
    for contract in CONTRACTS {
        for kwh in TAKEN {
            let (rate, amount) = (contract.baseline, contract.amount(kwh, 0, 0));
            let mut ledger = contract.opened()?;
            let answer = ledger.bill(&BOOK, contract.april(kwh))?;
            let billed = Billed {
                reference,
                rate,
                amount,
            };
            assert_eq!(answer, billed, "{contract:?}, {kwh}");
            assert_eq!(ledger.report(0)?, reported(kwh, amount));
            assert_eq!(ledger, contract.stored(kwh, 0, 0)?);
            let mut again = contract.billed(1_000)?;
            let answer = again.rebill(&BOOK, contract.april(kwh))?;
            let rebilled = Rebilled {
                reference,
                rate,
                change: amount - 1_000 * rate,
            };
            assert_eq!(answer, rebilled, "{contract:?}, {kwh}");
            assert_eq!(again, ledger);
        }
    }
    Ok(())
}

#[test]
fn more_kwh_are_number_8() -> Result<(), Refusal> {
    for contract in CONTRACTS {
        let mut opened = contract.opened()?;
        let mut billed = contract.billed(40_000_000)?;
        for kwh in TOO_MANY {
            let numbers = contract.april(kwh);
            expect_no_bill(&mut opened, &BOOK, numbers, Refusal::WrongQuantity);
            expect_no_rebill(&mut billed, &BOOK, numbers, Refusal::WrongQuantity);
        }
    }
    Ok(())
}

/// A change that makes a bill of any kWh meet a number.
type Change = fn(&mut BillNumbers);

/// The fixed contract 0 has the original end 600, and contract 1 is variable.
#[test]
fn the_tests_before_8_come_first() -> Result<(), Refusal> {
    let changes: [(Change, Refusal); 6] = [
        (|bill| bill.contract = 64, Refusal::NoSuchContract),
        (|bill| bill.contract = 2, Refusal::WronglyOpen),
        (|bill| bill.first = 485, Refusal::WrongDay),
        (|bill| bill.last = 852, Refusal::WrongDay),
        (
            |bill| (bill.contract, bill.last) = (1, 516),
            Refusal::TwoMonths,
        ),
        (|bill| bill.last = 601, Refusal::CrossesOriginalEnd),
    ];
    let contract = electricity(FIXED);
    let mut ledger = contract.billed(1_000)?;
    ledger.amend(0, 600, 0, 0)?;
    ledger.open(1, Fuel::Gas, Kind::Variable)?;
    for (change, refusal) in changes {
        for kwh in [40_000_000, 40_000_001] {
            let mut numbers = contract.april(kwh);
            change(&mut numbers);
            expect_no_bill(&mut ledger, &BOOK, numbers, refusal);
            expect_no_rebill(&mut ledger, &BOOK, numbers, refusal);
        }
    }
    let numbers = contract.april(40_000_001);
    expect_no_bill(&mut ledger, &BOOK[1..], numbers, Refusal::BadBook);
    expect_no_rebill(&mut ledger, &BOOK[1..], numbers, Refusal::BadBook);
    Ok(())
}

/// Each call meets 14, 9, 10 or 11 where its kWh are taken.
#[test]
fn number_8_comes_before_14_and_the_numbers_of_rows_and_prices() -> Result<(), Refusal> {
    let contract = electricity(Kind::Variable);
    let mut ledger = contract.billed(1_000)?;
    let number = |kwh, refusal| match kwh {
        40_000_000 => refusal,
        _ => Refusal::WrongQuantity,
    };
    for kwh in [40_000_000, 40_000_001] {
        let held = contract.april(kwh);
        let exceeding = BillNumbers {
            etii_share: 40_000_001,
            qhs_share: 1,
            ..held
        };
        let shares = number(kwh, Refusal::SharesExceedKwh);
        expect_no_bill(&mut ledger, &BOOK, exceeding, shares);
        expect_no_rebill(&mut ledger, &BOOK, exceeding, shares);
        let unheld = BillNumbers { first: 487, ..held };
        let row = number(kwh, Refusal::NoSuchRow);
        expect_no_rebill(&mut ledger, &BOOK, unheld, row);
        let day = number(kwh, Refusal::SharedDay);
        expect_no_bill(&mut ledger, &UNPUBLISHED, held, day);
        let price = number(kwh, Refusal::NoPrice);
        expect_no_rebill(&mut ledger, &UNPUBLISHED, held, price);
    }
    Ok(())
}

#[test]
fn number_8_comes_before_12() -> Result<(), Refusal> {
    let contract = electricity(Kind::Flexible);
    let mut ledger = contract.opened()?;
    let on_day = |number, day, kwh| BillNumbers {
        contract: number,
        first: day,
        last: day,
        ..contract.april(kwh)
    };
    for number in 0..4 {
        if number > 0 {
            ledger.open(number, contract.fuel, contract.kind)?;
        }
        for day in 486..742 {
            ledger.bill(&UNPUBLISHED, on_day(number, day, 1))?;
        }
    }
    let (taken, too_many) = (on_day(0, 742, 40_000_000), on_day(0, 742, 40_000_001));
    expect_no_bill(&mut ledger, &UNPUBLISHED, taken, Refusal::NoRoom);
    expect_no_bill(&mut ledger, &UNPUBLISHED, too_many, Refusal::WrongQuantity);
    Ok(())
}

/// Of the 30 days the first ten have floor(kWh × 10 / 30) kWh.
#[test]
fn a_stored_row_takes_certificates() -> Result<(), Refusal> {
    for contract in CONTRACTS {
        for kwh in STORED {
            let mut ledger = contract.stored(kwh, 0, 0)?;
            let before = ledger.clone();
            let whole = i64::from(kwh);
            let more = contract.etii - contract.baseline;
            let etii = |effective_day| Certificate::Etii { effective_day };
            assert_eq!(ledger.cert(0, etii(486))?, re_rated(whole * more));
            assert_eq!(ledger.report(0)?, reported(kwh, whole * contract.etii));
            let before_496 = whole * 10 / 30;
            assert_eq!(ledger.cert(0, etii(496))?, re_rated(-before_496 * more));
            let since_496 = whole - before_496;
            let answer = ledger.cert(0, Certificate::None)?;
            assert_eq!(answer, re_rated(-since_496 * more));
            assert_eq!(ledger, before, "{contract:?}, {kwh}");
        }
    }
    Ok(())
}

#[test]
fn a_stored_row_is_reported_claimed_totalled_and_cancelled() -> Result<(), Refusal> {
    for contract in CONTRACTS {
        for kwh in STORED {
            for (etii_share, qhs_share) in [(0, 0), (30_000_000, 10_000_001), (0, kwh)] {
                let mut ledger = contract.stored(kwh, etii_share, qhs_share)?;
                let due = contract.amount(kwh, etii_share, qhs_share);
                assert_eq!(ledger.report(0)?, reported(kwh, due));
                let unclaimed = due;
                assert_eq!(ledger.total()?, Totalled { due, unclaimed });
                let (pence, rest) = (due / 10_000, due % 10_000);
                assert_eq!(ledger.claim()?, Claimed { pence, rest });
                let unclaimed = rest;
                assert_eq!(ledger.total()?, Totalled { due, unclaimed });
                let cancelled = Cancelled { change: -due };
                assert_eq!(ledger.cancel(0, 486)?, cancelled);
                let (pence, rest) = (-pence, 0);
                assert_eq!(ledger.claim()?, Claimed { pence, rest });
            }
        }
    }
    Ok(())
}

#[test]
fn a_certificate_leaves_a_stored_row_with_shares() -> Result<(), Refusal> {
    for contract in CONTRACTS {
        for kwh in STORED {
            let mut ledger = contract.stored(kwh, 30_000_000, 10_000_001)?;
            let before = ledger.clone();
            let etii = Certificate::Etii { effective_day: 486 };
            let none = Certified { change: 0, rows: 0 };
            assert_eq!(ledger.cert(0, etii)?, none);
            assert_eq!(ledger.cert(0, Certificate::None)?, none);
            assert_eq!(ledger, before, "{contract:?}, {kwh}");
        }
    }
    Ok(())
}

/// Its own kWh are turned down, with its shares too.
#[test]
fn a_stored_row_is_billed_again_with_at_most_40_000_000_kwh() -> Result<(), Refusal> {
    for contract in CONTRACTS {
        for kwh in STORED {
            for (etii_share, qhs_share) in [(0, 0), (30_000_000, 10_000_001)] {
                let mut ledger = contract.stored(kwh, etii_share, qhs_share)?;
                let own = BillNumbers {
                    etii_share,
                    qhs_share,
                    ..contract.april(kwh)
                };
                expect_no_rebill(&mut ledger, &BOOK, own, Refusal::WrongQuantity);
                let least_refused = contract.april(40_000_001);
                expect_no_rebill(&mut ledger, &BOOK, least_refused, Refusal::WrongQuantity);
                let answer = ledger.rebill(&BOOK, contract.april(40_000_000))?;
                let old = contract.amount(kwh, etii_share, qhs_share);
                let rebilled = Rebilled {
                    reference: i64::from(REFERENCE),
                    rate: contract.baseline,
                    change: contract.amount(40_000_000, 0, 0) - old,
                };
                assert_eq!(answer, rebilled, "{contract:?}, {kwh}");
                assert_eq!(ledger, contract.billed(40_000_000)?);
            }
        }
    }
    Ok(())
}

#[test]
fn a_bill_beside_a_stored_row() -> Result<(), Refusal> {
    for contract in CONTRACTS {
        for kwh in STORED {
            let mut ledger = contract.stored(kwh, 0, 0)?;
            let held = contract.april(40_000_000);
            expect_no_bill(&mut ledger, &BOOK, held, Refusal::SharedDay);
            let may = BillNumbers {
                first: 516,
                last: 546,
                ..held
            };
            let amount = contract.amount(40_000_000, 0, 0);
            assert_eq!(ledger.bill(&BOOK, may)?.amount, amount);
            let reported = Reported {
                rows: 2,
                kwh: i64::from(kwh) + 40_000_000,
                due: contract.amount(kwh, 0, 0) + amount,
            };
            assert_eq!(ledger.report(0)?, reported, "{contract:?}");
        }
    }
    Ok(())
}

/// 100,000,000 kWh of all 366 days of the scheme, at R and S 999,999, of a flexible contract of
/// electricity: QHS is 10 × 965,999 = 9,659,990 ticks a kWh before day 792 and 10 × 971,759 =
/// 9,717,590 from then on, baseline 19,610. The row has that QHS share.
fn largest_row(qhs_share: u32, amount: u64) -> Result<Ledger, Refusal> {
    let contract = electricity(Kind::Flexible);
    let mut ledger = contract.opened()?;
    let without_kwh = BillNumbers {
        last: 851,
        supply: 999_999,
        wap: 999_999,
        ..contract.april(0)
    };
    ledger.bill(&UNPUBLISHED, without_kwh)?;
    let bytes = with_field(ledger.as_bytes(), 0, "kWh", 100_000_000);
    let bytes = with_field(&bytes, 0, "QHS share", qhs_share.into());
    Ledger::from_bytes(&with_field(&bytes, 0, "amount", amount))
}

#[test]
fn the_largest_stored_row_by_day() -> Result<(), Refusal> {
    let mut ledger = largest_row(0, 1_961_000_000_000)?;
    // floor(100,000,000 × 114 / 366) = 31,147,540 kWh at 19,610, floor(100,000,000 × 306 / 366) -
    // 31,147,540 = 52,459,017 at 9,659,990 and 16,393,443 at 9,717,590:
    // 610,803,259,400 + 506,753,579,629,830 + 159,304,757,762,370 = 666,669,140,651,600, less
    // 1,961,000,000,000
    let qhs = |effective_day| Certificate::Qhs { effective_day };
    let answer = ledger.cert(0, qhs(600))?;
    assert_eq!(answer, re_rated(664_708_140_651_600));
    let (pence, rest) = (66_666_914_065, 1_600);
    assert_eq!(ledger.claim()?, Claimed { pence, rest });
    // from day 511: floor(100,000,000 × 25 / 366) = 6,830,601 kWh at 19,610, 83,606,557 - 6,830,601
    // = 76,775,956 at 9,659,990 and 16,393,443 at 9,717,590: 133,948,085,610 +
    // 741,654,967,200,440 + 159,304,757,762,370 = 901,093,673,048,420, less 666,669,140,651,600
    let answer = ledger.cert(0, qhs(511))?;
    assert_eq!(answer, re_rated(234_424_532_396_820));
    let (due, unclaimed) = (901_093_673_048_420, 234_424_532_398_420);
    assert_eq!(ledger.total()?, Totalled { due, unclaimed });
    Ok(())
}

/// 83,606,557 kWh at 9,659,990 and 16,393,443 at 9,717,590:
/// 807,638,504,554,430 + 159,304,757,762,370. One tick more or less is number 2.
#[test]
fn the_largest_share_of_a_stored_row() -> Result<(), Refusal> {
    let amount = 966_943_262_316_800;
    for other in [amount - 1, amount + 1] {
        let refused = largest_row(100_000_000, other);
        assert_eq!(refused, Err(Refusal::NotWellFormed));
    }
    let mut ledger = largest_row(100_000_000, amount)?;
    let change = -966_943_262_316_800;
    assert_eq!(ledger.cancel(0, 486)?, Cancelled { change });
    Ok(())
}

/// 64 flexible gas contracts that are QHS from day 511, each with 16 rows of 100,000,000 kWh at the
/// highest R and S: 10 × (999,999 − 6,500) = 9,934,990 ticks a kWh.
fn full_ledger() -> Result<Ledger, Refusal> {
    let contract = gas(Kind::Flexible);
    let mut ledger = Ledger::start(Territory::GreatBritain)?;
    for number in 0..64 {
        ledger.open(number, contract.fuel, contract.kind)?;
        ledger.cert(number, Certificate::Qhs { effective_day: 511 })?;
        for day in 792..808 {
            let without_kwh = BillNumbers {
                contract: number,
                first: day,
                last: day,
                supply: 999_999,
                wap: 999_999,
                ..contract.april(0)
            };
            ledger.bill(&UNPUBLISHED, without_kwh)?;
        }
    }
    let mut bytes = ledger.as_bytes().to_vec();
    for row in 0..1_024 {
        bytes = with_field(&bytes, row, "kWh", 100_000_000);
        bytes = with_field(&bytes, row, "amount", 993_499_000_000_000);
    }
    Ledger::from_bytes(&bytes)
}

#[test]
fn the_largest_amounts_in_a_full_ledger() -> Result<(), Refusal> {
    let mut ledger = full_ledger()?;
    let (due, unclaimed) = (1_017_342_976_000_000_000, 1_017_342_976_000_000_000);
    assert_eq!(ledger.total()?, Totalled { due, unclaimed });
    let (pence, rest) = (101_734_297_600_000, 0);
    assert_eq!(ledger.claim()?, Claimed { pence, rest });
    let (rows, kwh, due) = (16, 1_600_000_000, 15_895_984_000_000_000);
    assert_eq!(ledger.report(63)?, Reported { rows, kwh, due });
    // baseline again: 6,970 ticks a kWh
    let (change, rows) = (-15_884_832_000_000_000, 16);
    let answer = ledger.cert(0, Certificate::None)?;
    assert_eq!(answer, Certified { change, rows });
    let (pence, rest) = (-1_588_483_200_000, 0);
    assert_eq!(ledger.claim()?, Claimed { pence, rest });
    let (due, unclaimed) = (1_001_458_144_000_000_000, 0);
    assert_eq!(ledger.total()?, Totalled { due, unclaimed });
    Ok(())
}

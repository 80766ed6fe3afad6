//! Bills and rebills of variable and index contracts within one scheme month (document 02, paper
//! 2): number 15 at every end of a month and in checking order, and the calls on rows across months
//! that a ledger holds. That a refusal answers zeros is held by [`ebds::calls`] itself.

use ebds::{
    BillNumbers, Billed, Cancelled, Certificate, Certified, Fuel, Kind, Ledger, Rebilled, Refusal,
    Reported, Territory, BOOK_LENGTH,
};

/// The first days of the scheme months, and the day after the last.
const MONTHS: [u32; 13] = [
    486, 516, 547, 577, 608, 639, 669, 700, 730, 761, 792, 821, 852,
];

/// R of every contract here.
const REFERENCE: u32 = 31_980;

/// A book in which every price is published.
const BOOK: [u32; BOOK_LENGTH] = [REFERENCE; BOOK_LENGTH];

const UNPUBLISHED: [u32; BOOK_LENGTH] = [0; BOOK_LENGTH];

const MONTHLY: [(Fuel, Kind); 3] = [
    (Fuel::Electricity, Kind::Variable),
    (Fuel::Gas, Kind::Variable),
    (Fuel::Electricity, Kind::Index),
];

/// A bill of 1,000 kWh.
fn span(first: u32, last: u32) -> BillNumbers {
    BillNumbers {
        contract: 0,
        first,
        last,
        kwh: 1_000,
        supply: 67_030,
        wap: 0,
        etii_share: 0,
        qhs_share: 0,
    }
}

/// A Northern Ireland ledger of one contract.
fn ledger_with(fuel: Fuel, kind: Kind) -> Result<Ledger, Refusal> {
    let mut ledger = Ledger::start(Territory::NorthernIreland)?;
    ledger.open(0, fuel, kind)?;
    Ok(ledger)
}

/// Whether a span is taken, billed, and billed again in place of a row of its first day; if not, by
/// which number both are turned down, with no byte changed.
fn taken(empty: &Ledger, book: &[u32], numbers: BillNumbers) -> Result<(), Refusal> {
    let mut billed = empty.clone();
    let bill = billed.bill(book, numbers);
    let mut rebilled = empty.clone();
    let held = rebilled.bill(&BOOK, span(numbers.first, numbers.first));
    let before = rebilled.clone();
    let rebill = rebilled.rebill(book, numbers);
    if bill.is_err() {
        assert_eq!(billed, *empty, "{numbers:?}");
        assert_eq!(rebilled, before, "{numbers:?}");
    }
    if held.is_ok() {
        assert_eq!(rebill.err(), bill.err(), "{numbers:?}");
    }
    bill.map(|_| ())
}

#[test]
fn a_month_is_taken_and_one_day_more_is_number_15() -> Result<(), Refusal> {
    for (fuel, kind) in MONTHLY {
        let ledger = ledger_with(fuel, kind)?;
        for month in MONTHS.windows(2) {
            let (begins, next) = (month[0], month[1]);
            assert_eq!(taken(&ledger, &BOOK, span(begins, next - 1)), Ok(()));
            let more = match next {
                852 => Refusal::WrongDay,
                _ => Refusal::TwoMonths,
            };
            for first in [begins, next - 1] {
                let refused = taken(&ledger, &BOOK, span(first, next));
                assert_eq!(refused, Err(more), "{first} to {next}");
            }
        }
    }
    Ok(())
}

/// 2 days, 31 days, three months and all of the scheme.
#[test]
fn spans_across_months_are_number_15_of_variable_and_index_contracts_alone() -> Result<(), Refusal>
{
    let fixed = Kind::Fixed {
        price_fix_day: 0,
        entry_day: 0,
    };
    for (first, last) in [(515, 516), (500, 530), (486, 576), (486, 851)] {
        for (fuel, kind) in MONTHLY {
            let refused = taken(&ledger_with(fuel, kind)?, &BOOK, span(first, last));
            assert_eq!(refused, Err(Refusal::TwoMonths), "{first} to {last}");
        }
        for kind in [fixed, Kind::Flexible] {
            taken(&ledger_with(Fuel::Gas, kind)?, &BOOK, span(first, last))?;
        }
    }
    Ok(())
}

/// A change that makes a bill meet a number.
type Change = fn(&mut BillNumbers);

#[test]
fn number_15_comes_after_7_and_before_8() -> Result<(), Refusal> {
    let changes: [(Change, Refusal); 9] = [
        (|bill| bill.contract = 64, Refusal::NoSuchContract),
        (|bill| bill.contract = 1, Refusal::WronglyOpen),
        (|bill| bill.first = 485, Refusal::WrongDay),
        (|bill| bill.last = 852, Refusal::WrongDay),
        (|bill| bill.last = u32::MAX, Refusal::WrongDay),
        (|bill| bill.kwh = 40_000_001, Refusal::TwoMonths),
        (|bill| bill.supply = 1_000_000, Refusal::TwoMonths),
        (|bill| bill.wap = 1, Refusal::TwoMonths),
        (|bill| bill.etii_share = u32::MAX, Refusal::TwoMonths),
    ];
    let ledger = ledger_with(Fuel::Gas, Kind::Variable)?;
    for (change, refusal) in changes {
        let mut numbers = span(515, 516);
        change(&mut numbers);
        assert_eq!(taken(&ledger, &BOOK, numbers), Err(refusal), "{numbers:?}");
        assert_eq!(ledger.clone().rebill(&BOOK, numbers), Err(refusal));
    }
    Ok(())
}

#[test]
fn a_wrong_book_comes_before_15() -> Result<(), Refusal> {
    let ledger = ledger_with(Fuel::Gas, Kind::Variable)?;
    for book in [&BOOK[1..], &[1_000_000; BOOK_LENGTH]] {
        let refused = taken(&ledger, book, span(515, 516));
        assert_eq!(refused, Err(Refusal::BadBook));
    }
    Ok(())
}

/// 9, 10 and 11 fit too: no row begins on that day, April's shares one, and no price is published.
#[test]
fn number_15_comes_before_the_numbers_of_rows_and_prices() -> Result<(), Refusal> {
    let mut ledger = ledger_with(Fuel::Gas, Kind::Variable)?;
    ledger.bill(&BOOK, span(486, 515))?;
    for (last, unheld, shared) in [
        (515, Refusal::NoSuchRow, Refusal::SharedDay),
        (516, Refusal::TwoMonths, Refusal::TwoMonths),
    ] {
        let before = ledger.clone();
        let numbers = span(515, last);
        assert_eq!(ledger.rebill(&UNPUBLISHED, numbers), Err(unheld));
        assert_eq!(ledger.bill(&UNPUBLISHED, numbers), Err(shared));
        assert_eq!(ledger, before);
    }
    let ledger = ledger_with(Fuel::Gas, Kind::Variable)?;
    for (last, refusal) in [(515, Refusal::NoPrice), (516, Refusal::TwoMonths)] {
        assert_eq!(taken(&ledger, &UNPUBLISHED, span(515, last)), Err(refusal));
    }
    Ok(())
}

/// A ledger that holds a row of electricity of the kind across months: it is billed of a flexible
/// contract, whose kind's two bits, in the first byte of its record, are then those of the kind.
fn stored(kind_bits: u8, first: u32, last: u32) -> Result<Ledger, Refusal> {
    let mut ledger = ledger_with(Fuel::Electricity, Kind::Flexible)?;
    let numbers = BillNumbers {
        wap: REFERENCE,
        ..span(first, last)
    };
    ledger.bill(&UNPUBLISHED, numbers)?;
    let mut bytes = ledger.as_bytes().to_vec();
    bytes[8] = bytes[8] & 0b1100_1111 | kind_bits << 4;
    Ledger::from_bytes(&bytes)
}

/// At R 31,980 and S 67,030 a kWh has 17,800 ticks as baseline and 67,640 as ETII.
#[test]
fn a_stored_row_across_months_takes_certificates_and_cancellation() -> Result<(), Refusal> {
    for kind_bits in [1, 3] {
        for (first, last) in [(515, 516), (486, 546), (486, 576), (500, 851)] {
            let mut ledger = stored(kind_bits, first, last)?;
            let effective_day = first;
            assert_eq!(
                ledger.cert(0, Certificate::Etii { effective_day })?,
                Certified {
                    change: 49_840_000,
                    rows: 1
                }
            );
            assert_eq!(
                ledger.report(0)?,
                Reported {
                    rows: 1,
                    kwh: 1_000,
                    due: 67_640_000
                }
            );
            let before = ledger.clone();
            let across = ledger.rebill(&BOOK, span(first, last));
            assert_eq!(across, Err(Refusal::TwoMonths));
            assert_eq!(ledger, before);
            assert_eq!(
                ledger.cancel(0, first)?,
                Cancelled {
                    change: -67_640_000
                }
            );
        }
    }
    Ok(())
}

#[test]
fn a_stored_row_is_billed_again_within_one_month() -> Result<(), Refusal> {
    let mut ledger = stored(1, 486, 576)?;
    assert_eq!(
        ledger.rebill(&BOOK, span(486, 515))?,
        Rebilled {
            reference: i64::from(REFERENCE),
            rate: 17_800,
            change: 0
        }
    );
    assert_eq!(
        ledger.bill(&BOOK, span(516, 546))?,
        Billed {
            reference: i64::from(REFERENCE),
            rate: 17_800,
            amount: 17_800_000
        }
    );
    Ok(())
}

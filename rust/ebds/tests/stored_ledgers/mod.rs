//! Ledgers stored before document 02's papers 3 and 5: their bytes are number 2 to every call for
//! their length. With the same facts in the present layout, one with an amount that differs by day is
//! number 2 to every call, and any other is taken as before.

mod bytes;

use crate::row_fields::with_field;
use crate::{changed_by, etii, shared, span, AT_31_980, AT_40_000, BOOK};
use bytes::{ChangedInside, CHANGED_INSIDE, SAME_AMOUNTS, WITHOUT_CHANGES};
use ebds::{
    calls, BillNumbers, Billed, Certificate, Claimed, Fuel, Kind, Ledger, Rebilled, Refusal,
    Reported, Territory, Totalled, BOOK_LENGTH,
};

/// What a call on bytes gives.
type Answer = Result<[i64; 3], Refusal>;

/// What a call gives on a copy of a ledger, and the copy as it leaves it.
fn on_copy(ledger: &[u8], call: impl FnOnce(&mut [u8]) -> Answer) -> (Answer, Vec<u8>) {
    let mut copy = ledger.to_vec();
    let answer = call(&mut copy);
    (answer, copy)
}

/// The same of open, bill, rebill, cert, cancel, claim, report and total, in this order. The bill
/// is that of a row; the contract whose number is one higher isn't open, and no row has day 600 or
/// one of the 29 days after it.
fn on_copies(ledger: &[u8], bill: BillNumbers) -> [(Answer, Vec<u8>); 8] {
    let contract = bill.contract;
    let next = span(bill, 600, 629, 1_000);
    [
        on_copy(ledger, |copy| calls::open(copy, contract + 1, 0, 2, 0, 0)),
        on_copy(ledger, |copy| calls::bill(copy, &BOOK, next)),
        on_copy(ledger, |copy| calls::rebill(copy, &BOOK, bill)),
        on_copy(ledger, |copy| calls::cert(copy, contract, 0, 0)),
        on_copy(ledger, |copy| calls::cancel(copy, contract, bill.first)),
        on_copy(ledger, calls::claim),
        on_copy(ledger, |copy| calls::report(copy, contract)),
        on_copy(ledger, |copy| calls::total(copy)),
    ]
}

/// Holds each call on a ledger to number 2, with no byte changed.
fn expect_not_well_formed(ledger: &[u8], bill: BillNumbers, description: &str) {
    let not_well_formed = Err(Refusal::NotWellFormed);
    for (place, (answer, left)) in on_copies(ledger, bill).into_iter().enumerate() {
        assert_eq!(answer, not_well_formed, "call {place}, {description}");
        assert!(left == ledger, "call {place}, {description}");
    }
}

/// Every amount is right by day, so that the length alone is wrong.
#[test]
fn the_bytes_of_the_earlier_layout_are_number_2() {
    let stored = WITHOUT_CHANGES.stored_bytes();
    expect_not_well_formed(&stored, AT_31_980, "25,928 bytes");
}

/// The stored ledger with an amount in the row in which something changes.
fn with_amount(case: &ChangedInside, amount: u32) -> Vec<u8> {
    let stored = case.stored.bytes();
    with_field(&stored, case.place, "amount", amount.into())
}

#[test]
fn an_amount_by_the_first_day_is_number_2() {
    for case in CHANGED_INSIDE {
        let ledger = case.stored.bytes();
        assert!(ledger == with_amount(&case, case.by_first_day));
        expect_not_well_formed(&ledger, case.bill, case.description);
        let refused = Ledger::from_bytes(&ledger);
        assert_eq!(refused, Err(Refusal::NotWellFormed));
    }
}

/// With the amount by day put into that row, and no other bit changed, each call is taken.
#[test]
fn the_amount_by_day_is_taken() {
    for case in CHANGED_INSIDE {
        let ledger = with_amount(&case, case.by_day);
        let answers = on_copies(&ledger, case.bill).map(|(answer, _)| answer);
        let taken = answers.iter().all(Result::is_ok);
        assert!(taken, "{}: {answers:?}", case.description);
        let [.., cancelled, _, _, totalled] = answers;
        let cancellation = [-i64::from(case.by_day), 0, 0];
        assert_eq!(cancelled, Ok(cancellation), "{}", case.description);
        let total = [case.due, case.unclaimed, 0];
        assert_eq!(totalled, Ok(total), "{}", case.description);
    }
}

#[test]
fn a_tick_more_or_less_than_the_amount_by_day_is_number_2() {
    for case in CHANGED_INSIDE {
        let less = with_amount(&case, case.by_day - 1);
        expect_not_well_formed(&less, case.bill, case.description);
        let more = with_amount(&case, case.by_day + 1);
        expect_not_well_formed(&more, case.bill, case.description);
    }
}

#[test]
fn a_ledger_without_changes_inside_is_taken() -> Result<(), Refusal> {
    let ledger = Ledger::from_bytes(&WITHOUT_CHANGES.bytes())?;
    for (contract, rows, kwh, due) in [
        // 1,000 × 17,800; 1,000 × 67,640; 700 × 19,610 + 300 × 68,183:
        // 17,800,000 + 67,640,000 + 34,181,900
        (0, 3, 3_000, 119_621_900),
        // 10 × 19,610; 1,000 × 160,000, as it was entered before day 792: 196,100 + 160,000,000
        (1, 2, 1_010, 160_196_100),
        // in gas 5 × 6,970 + 3 × 30,091 + 2 × 121,700, and with 2 × 135,000: 368,523 + 395,123
        (2, 2, 20, 763_646),
        // 1,000 × 17,800
        (63, 1, 1_000, 17_800_000),
    ] {
        let reported = ledger.report(contract)?;
        assert_eq!(reported, Reported { rows, kwh, due }, "{contract}");
    }
    // 3,560 pence of it are claimed
    let (due, unclaimed) = (298_381_646, 262_781_646);
    assert_eq!(ledger.total()?, Totalled { due, unclaimed });
    Ok(())
}

/// A bill of a contract that isn't flexible.
fn priced_by_the_book(contract: u32, bill: BillNumbers) -> BillNumbers {
    BillNumbers {
        contract,
        wap: 0,
        ..bill
    }
}

#[test]
fn a_ledger_without_changes_inside_takes_each_call() -> Result<(), Refusal> {
    let ledger = Ledger::from_bytes(&WITHOUT_CHANGES.bytes())?;
    ledger.clone().open(62, Fuel::Gas, Kind::Variable)?;
    let billed = Billed {
        reference: 40_000,
        rate: 19_610,
        amount: 19_610_000,
    };
    let march = priced_by_the_book(63, span(AT_40_000, 821, 851, 1_000));
    assert_eq!(ledger.clone().bill(&BOOK, march)?, billed);
    // 500 kWh at 160,000 in place of 1,000
    let rebilled = Rebilled {
        reference: 40_000,
        rate: 160_000,
        change: -80_000_000,
    };
    let half = priced_by_the_book(1, span(AT_40_000, 782, 811, 500));
    assert_eq!(ledger.clone().rebill(&BOOK, half)?, rebilled);
    // inside the bill of 486 to 515: 500 kWh at 17,800 and 500 at 67,640 are
    // 8,900,000 + 33,820,000 = 42,720,000, less 17,800,000
    let answer = ledger.clone().cert(0, etii(501))?;
    assert_eq!(answer, changed_by(24_920_000));
    let answer = ledger.clone().cert(0, Certificate::None)?;
    assert_eq!(answer, changed_by(17_800_000 - 67_640_000));
    assert_eq!(ledger.clone().cancel(2, 777)?.change, -368_523);
    // 29,838 - 3,560
    let (pence, rest) = (26_278, 1_646);
    assert_eq!(ledger.clone().claim()?, Claimed { pence, rest });
    Ok(())
}

/// The calls that made that ledger leave the same facts now.
#[test]
fn a_ledger_without_changes_inside_is_made_as_before() -> Result<(), Refusal> {
    let mut book = [0; BOOK_LENGTH];
    (book[300], book[1_738]) = (40_000, 31_980);
    let mut ledger = Ledger::start(Territory::NorthernIreland)?;
    ledger.open(0, Fuel::Electricity, Kind::Flexible)?;
    let fixed = Kind::Fixed {
        price_fix_day: 300,
        entry_day: 791,
    };
    ledger.open(1, Fuel::Electricity, fixed)?;
    ledger.open(2, Fuel::Gas, Kind::Flexible)?;
    ledger.open(63, Fuel::Electricity, Kind::Index)?;
    ledger.bill(&book, span(AT_31_980, 516, 546, 1_000))?;
    ledger.bill(&book, span(AT_31_980, 486, 515, 1_000))?;
    ledger.claim()?;
    ledger.cert(0, etii(516))?;
    ledger.cert(1, Certificate::Qhs { effective_day: 511 })?;
    let gas = BillNumbers {
        contract: 2,
        supply: 20_000,
        wap: 20_000,
        ..shared(AT_40_000, 3, 2)
    };
    for bill in [
        shared(span(AT_40_000, 782, 811, 1_000), 300, 0),
        priced_by_the_book(1, span(AT_40_000, 486, 510, 10)),
        priced_by_the_book(1, span(AT_40_000, 782, 811, 1_000)),
        span(gas, 777, 791, 10),
        span(gas, 792, 851, 10),
        priced_by_the_book(63, span(AT_31_980, 792, 820, 1_000)),
    ] {
        ledger.bill(&book, bill)?;
    }
    assert_eq!(ledger.as_bytes(), WITHOUT_CHANGES.bytes());
    Ok(())
}

#[test]
fn changes_inside_that_alter_no_amount_are_taken() -> Result<(), Refusal> {
    let mut ledger = Ledger::from_bytes(&SAME_AMOUNTS.bytes())?;
    let reported = |kwh, due| Reported { rows: 2, kwh, due };
    // at S 35,961, 1,000 × 19,610, as QHS by the old minimum is 10 × 1,961 too; 1,000 × 319,800 by
    // either minimum: 19,610,000 + 319,800,000
    assert_eq!(ledger.report(0)?, reported(2_000, 339_410_000));
    // no kWh; 600 × 17,800 + 400 × 319,800
    assert_eq!(ledger.report(1)?, reported(1_000, 138_600_000));
    let (due, unclaimed) = (478_010_000, 478_010_000);
    assert_eq!(ledger.total()?, Totalled { due, unclaimed });
    // of the row over day 792 alone: 17,800,000 - 319,800,000
    let answer = ledger.cert(0, Certificate::None)?;
    assert_eq!(answer, changed_by(-302_000_000));
    assert_eq!(ledger.cert(1, Certificate::None)?, changed_by(0));
    Ok(())
}

//! Bills and rebills of variable and index contracts within one scheme month (document 02, paper
//! 2): number 15, and the calls on a row across months that a ledger holds.

use twin::{BillNumbers, LEDGER_LENGTH};

/// A book in which every price is R 31,980.
const BOOK: [u32; 1_740] = [31_980; 1_740];

/// A bill of 1,000 kWh: at baseline 17,800 ticks a kWh, ETII 67,640.
fn span(first: u32, last: u32) -> BillNumbers {
    BillNumbers {
        contract: 0,
        first,
        last,
        kwh: 1_000,
        supply: 67_030,
        wap: 0,
        etii_share: 0,
        qhs_share: 0,
    }
}

/// A Northern Ireland ledger with a contract 0 of electricity, which has that kind.
fn opened(kind: u32) -> [u8; LEDGER_LENGTH] {
    let mut ledger = [0; LEDGER_LENGTH];
    twin::start(&mut ledger, 1).expect("a fresh ledger");
    twin::open(&mut ledger, 0, 0, kind, 0, 0).expect("an open contract");
    ledger
}

#[test]
fn a_span_of_two_months_is_number_15_of_variable_and_index_contracts() {
    for kind in [1, 3] {
        let ledger = opened(kind);
        for (first, last) in [(486, 516), (515, 516), (500, 530), (820, 821), (486, 851)] {
            let mut left = ledger;
            assert_eq!(twin::bill(&mut left, &BOOK, span(first, last)), Err(15));
            assert_eq!(twin::rebill(&mut left, &BOOK, span(first, last)), Err(15));
            assert_eq!(left, ledger);
        }
        for (first, last) in [(486, 515), (516, 546), (792, 820), (821, 851)] {
            let mut left = ledger;
            twin::bill(&mut left, &BOOK, span(first, last)).expect("a bill");
            twin::rebill(&mut left, &BOOK, span(first, first)).expect("a rebill");
        }
    }
    for kind in [0, 2] {
        twin::bill(&mut opened(kind), &BOOK, span(486, 851)).expect("a bill");
    }
}

#[test]
fn number_15_comes_after_7_and_before_8() {
    let mut ledger = opened(1);
    let too_late = span(486, 852);
    assert_eq!(twin::bill(&mut ledger, &BOOK, too_late), Err(7));
    let too_much = BillNumbers {
        kwh: 40_000_001,
        etii_share: u32::MAX,
        ..span(486, 516)
    };
    assert_eq!(twin::bill(&mut ledger, &BOOK, too_much), Err(15));
}

/// The quarter is billed of a flexible contract, whose kind's bits are then those of a variable one.
#[test]
fn a_stored_quarter_takes_certificates_and_cancellation() {
    let mut ledger = opened(2);
    let quarter = BillNumbers {
        wap: 31_980,
        ..span(486, 576)
    };
    twin::bill(&mut ledger, &BOOK, quarter).expect("a bill");
    ledger[8] ^= 0b0011_0000;
    assert_eq!(twin::cert(&mut ledger, 0, 1, 486), Ok([49_840_000, 1, 0]));
    assert_eq!(twin::rebill(&mut ledger, &BOOK, span(486, 576)), Err(15));
    assert_eq!(twin::report(&ledger, 0), Ok([1, 1_000, 67_640_000]));
    assert_eq!(twin::cancel(&mut ledger, 0, 486), Ok([-67_640_000, 0, 0]));
}

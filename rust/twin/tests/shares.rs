//! Bills with an ETII share and a QHS share (document 02, paper 1): number 14, amounts, calls on
//! such bills, and the rows that a well-formed ledger has of them.

mod april;

use april::april;
use twin::{BillNumbers, LEDGER_LENGTH};

/// The byte at which the first row begins.
const FIRST_ROW: usize = 584;

const BOOK: [u32; 1_740] = [0; 1_740];

/// 1,000 kWh for April with two shares.
fn shared(etii_share: u32, qhs_share: u32) -> BillNumbers {
    BillNumbers {
        etii_share,
        qhs_share,
        ..april(1_000)
    }
}

/// A Northern Ireland ledger with a contract 0 of electricity.
fn opened(kind: u32, entry_day: u32) -> [u8; LEDGER_LENGTH] {
    let mut ledger = [0; LEDGER_LENGTH];
    twin::start(&mut ledger, 1).expect("a fresh ledger");
    twin::open(&mut ledger, 0, 0, kind, 0, entry_day).expect("an open contract");
    ledger
}

/// The same with a flexible contract and a bill.
fn billed(numbers: BillNumbers) -> [u8; LEDGER_LENGTH] {
    let mut ledger = opened(2, 0);
    twin::bill(&mut ledger, &BOOK, numbers).expect("a bill");
    ledger
}

#[test]
fn shares_up_to_kwh_are_taken() {
    for (etii_share, qhs_share) in [(0, 0), (1_000, 0), (0, 1_000), (400, 600), (1, 998)] {
        let ledger = billed(shared(etii_share, qhs_share));
        let answer = twin::rebill(&mut ledger.clone(), &BOOK, shared(etii_share, qhs_share));
        assert_eq!(answer, Ok([31_980, 17_800, 0]), "{etii_share}, {qhs_share}");
    }
}

/// Number 14 turns a bill and a rebill down, and no byte changes.
#[test]
fn shares_above_kwh_are_number_14() {
    for (etii_share, qhs_share) in [
        (1_001, 0),
        (0, 1_001),
        (1_000, 1),
        (1, 1_000),
        (u32::MAX, 0),
        (0, u32::MAX),
        (u32::MAX, 1),
        (u32::MAX, u32::MAX),
    ] {
        let numbers = shared(etii_share, qhs_share);
        let mut ledger = opened(2, 0);
        let before = ledger;
        assert_eq!(twin::bill(&mut ledger, &BOOK, numbers), Err(14));
        assert_eq!(ledger, before, "{etii_share}, {qhs_share}");
        let before = billed(shared(400, 350));
        ledger = before;
        assert_eq!(twin::rebill(&mut ledger, &BOOK, numbers), Err(14));
        assert_eq!(ledger, before, "{etii_share}, {qhs_share}");
    }
}

/// 8 comes before 14, and 14 before 9, 10 and 11.
#[test]
fn number_14_in_checking_order() {
    let exceeding = shared(1_000, 1);
    let mut ledger = billed(shared(0, 0));
    let large = BillNumbers {
        kwh: 40_000_001,
        etii_share: u32::MAX,
        ..exceeding
    };
    assert_eq!(twin::bill(&mut ledger, &BOOK, large), Err(8));
    let unheld = BillNumbers {
        first: 487,
        ..exceeding
    };
    assert_eq!(twin::rebill(&mut ledger, &BOOK, unheld), Err(14));
    assert_eq!(twin::bill(&mut ledger, &BOOK, exceeding), Err(14));
    let unpriced = BillNumbers {
        wap: 0,
        ..exceeding
    };
    assert_eq!(twin::bill(&mut opened(1, 0), &BOOK, unpriced), Err(14));
}

/// (ETII share, QHS share, amount): the certificate is set aside where a share isn't 0.
#[test]
fn each_share_has_the_rate_of_its_class() {
    for (etii_share, qhs_share, amount) in [
        (400, 350, 143_436_000),
        (400, 0, 37_736_000),
        (0, 350, 123_500_000),
        (1_000, 0, 67_640_000),
        (0, 1_000, 319_800_000),
        (650, 350, 155_896_000),
    ] {
        for class in [0, 1] {
            let mut ledger = opened(2, 0);
            twin::cert(&mut ledger, 0, class, 486 * class).expect("a certificate");
            let answer = twin::bill(&mut ledger, &BOOK, shared(etii_share, qhs_share));
            assert_eq!(answer, Ok([31_980, 17_800, amount]), "class {class}");
        }
    }
}

/// The QHS minimum of a share: (kind, entry day, first day, amount of one kWh).
#[test]
fn a_qhs_share_on_either_side_of_day_792() {
    for (kind, entry_day, first, amount) in [
        (2, 0, 486, 160_000),
        (2, 0, 510, 160_000),
        (2, 0, 791, 160_000),
        (2, 0, 792, 217_600),
        (0, 791, 792, 160_000),
        (0, 792, 791, 160_000),
        (0, 792, 792, 217_600),
        (1, 0, 792, 217_600),
        (3, 0, 792, 217_600),
    ] {
        let numbers = BillNumbers {
            first,
            last: first,
            kwh: 1,
            supply: 50_000,
            wap: if kind == 2 { 40_000 } else { 0 },
            ..shared(0, 1)
        };
        let mut ledger = opened(kind, entry_day);
        let answer = twin::bill(&mut ledger, &[40_000; 1_740], numbers);
        assert_eq!(answer, Ok([40_000, 19_610, amount]), "{kind}, {first}");
    }
}

#[test]
fn calls_on_a_bill_with_shares() {
    let mut ledger = billed(shared(400, 350));
    let ledger = &mut ledger[..];
    let may = BillNumbers {
        first: 516,
        last: 546,
        ..shared(0, 0)
    };
    twin::bill(ledger, &BOOK, may).expect("a bill");
    assert_eq!(twin::claim(ledger), Ok([16_123, 6_000, 0]));
    // the bill of May alone: 1,000 kWh at 67,640 ticks instead of 17,800
    assert_eq!(twin::cert(ledger, 0, 1, 486), Ok([49_840_000, 1, 0]));
    assert_eq!(twin::report(ledger, 0), Ok([2, 2_000, 211_076_000]));
    let without = [31_980, 67_640, -75_796_000];
    assert_eq!(twin::rebill(ledger, &BOOK, shared(0, 0)), Ok(without));
    let again = [31_980, 17_800, 75_796_000];
    assert_eq!(twin::rebill(ledger, &BOOK, shared(400, 350)), Ok(again));
    assert_eq!(twin::cancel(ledger, 0, 486), Ok([-143_436_000, 0, 0]));
    assert_eq!(twin::claim(ledger), Ok([-9_359, 0, 0]));
    assert_eq!(twin::total(ledger), Ok([67_640_000, 0, 0]));
}

/// A bill of one kWh, all of whose rates are 0: its amount is 0 whatever its shares are.
fn without_discount() -> BillNumbers {
    BillNumbers {
        kwh: 1,
        supply: 1,
        wap: 1,
        ..shared(0, 0)
    }
}

/// Bits put into the bytes of a row whose amount stays right, and whether the ledger is then well
/// formed.
#[test]
fn a_row_keeps_its_shares_and_ends_in_zeros() {
    for (bits, well_formed) in [
        (&[(10, 0x80)][..], true),
        (&[(13, 0x10)], true),
        (&[(10, 0x80), (13, 0x10)], false),
        (&[(9, 0x01)], false),
        (&[(13, 0x20)], false),
        (&[(6, 0x02)], false),
        (&[(10, 0x40)], false),
        (&[(6, 0x02), (10, 0x40)], false),
        (&[(24, 0x01)], false),
        (&[(24, 0x02)], false),
    ] {
        let mut ledger = billed(without_discount());
        for (byte, set) in bits {
            ledger[FIRST_ROW + byte] |= set;
        }
        let expected = if well_formed { Ok([0; 3]) } else { Err(2) };
        assert_eq!(twin::total(&ledger), expected, "{bits:x?}");
    }
}

#[test]
fn a_ledger_without_room_for_shares_is_number_2() {
    assert_eq!(twin::total(&[0; 18_760]), Err(2));
    assert_eq!(twin::start(&mut [0; 18_760], 0), Err(2));
}

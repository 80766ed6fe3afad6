//! Numbers 2 and 3 of document 01 (section "Turned down, in checking order"), which the program
//! never meets: any bytes as the ledger and any list as the book. [`ebds::calls`] itself holds
//! the numbers answered with a refusal to zeros.

mod row_fields;

use ebds::{calls, BillNumbers, BOOK_LENGTH, LEDGER_LENGTH};
use row_fields::with_field;

/// A call on a ledger.
type Call = fn(&mut [u8]) -> Result<[i64; 3], ebds::Refusal>;

/// The book of every bill here, unless the test says otherwise: no price is published.
const BOOK: [u32; BOOK_LENGTH] = [0; BOOK_LENGTH];

/// The bill that the ledger of these tests holds.
const HELD: BillNumbers = BillNumbers {
    contract: 0,
    first: 486,
    last: 515,
    kwh: 1_000,
    supply: 67_030,
    wap: 31_980,
    etii_share: 0,
    qhs_share: 0,
};

/// A bill that the ledger of these tests takes.
const NEXT: BillNumbers = BillNumbers {
    first: 516,
    last: 545,
    ..HELD
};

/// The nine calls of a history, each with numbers that the ledger of these tests takes.
const CALLS: [(&str, Call); 9] = [
    ("open", |ledger| calls::open(ledger, 1, 0, 2, 0, 0)),
    ("bill", |ledger| calls::bill(ledger, &BOOK, NEXT)),
    ("rebill", |ledger| calls::rebill(ledger, &BOOK, HELD)),
    ("cert", |ledger| calls::cert(ledger, 0, 1, 486)),
    ("cancel", |ledger| calls::cancel(ledger, 0, 486)),
    ("claim", |ledger| calls::claim(ledger)),
    ("report", |ledger| calls::report(ledger, 0)),
    ("total", |ledger| calls::total(ledger)),
    ("amend", |ledger| calls::amend(ledger, 2, 851, 0, 0)),
];

/// A Great Britain ledger with a flexible electricity contract that has one bill, and a fixed one.
fn ledger() -> Vec<u8> {
    let mut ledger = vec![0; LEDGER_LENGTH];
    calls::start(&mut ledger, 0).expect("a fresh ledger");
    calls::open(&mut ledger, 0, 0, 2, 0, 0).expect("an open contract");
    calls::bill(&mut ledger, &BOOK, HELD).expect("a bill");
    calls::open(&mut ledger, 2, 0, 0, 0, 0).expect("an open contract");
    ledger
}

/// Holds every call of a history on these bytes to number 2, with no byte changed.
fn expect_not_well_formed(bytes: &[u8], damage: &str) {
    for (name, call) in CALLS {
        let mut left = bytes.to_vec();
        let number = call(&mut left).map_err(|refusal| refusal.number());
        assert_eq!(number, Err(2), "{name}, {damage}");
        assert_eq!(left, bytes, "{name}, {damage}");
    }
}

#[test]
fn the_ledger_of_these_tests_is_well_formed() {
    for (name, call) in CALLS {
        assert!(call(&mut ledger()).is_ok(), "{name}");
    }
}

/// One wrong bit in each part of the ledger: (byte, bit of the byte, what is wrong).
#[test]
fn a_damaged_ledger_is_number_2() {
    for (byte, bit, damage) in [
        (7, 0, "a penny without a claim"),
        (0, 6, "32,768 claims"),
        (8, 7, "a contract that isn't open and isn't zeros"),
        (12, 3, "an amendment of a contract that isn't fixed"),
        (12, 2, "an original end day of an unamended contract"),
        (
            13,
            0,
            "an amendment's price-fix day of an unamended contract",
        ),
        (16, 5, "an amendment's entry day of an unamended contract"),
        (16, 4, "a bit after a contract's fields"),
        (16, 0, "a contract's last bit"),
        (17, 0, "a day of a contract that isn't open"),
        (584, 1, "a row of a contract that isn't open"),
        (594, 7, "an ETII share that isn't in the amount"),
        (597, 4, "a QHS share that isn't in the amount"),
        (608, 2, "an amount that isn't the bill's"),
        (608, 1, "a bit after a row's fields"),
        (608, 0, "a row's last bit"),
        (609, 0, "bits of a row that isn't held"),
        (634, 7, "a row after one that isn't held"),
        (LEDGER_LENGTH - 1, 0, "the last bit"),
    ] {
        let mut bytes = ledger();
        bytes[byte] ^= 1 << bit;
        expect_not_well_formed(&bytes, damage);
    }
}

#[test]
fn two_rows_that_share_a_day_are_number_2() {
    let mut bytes = ledger();
    let (rows, free) = bytes[584..].split_at_mut(25);
    free[..25].copy_from_slice(rows);
    expect_not_well_formed(&bytes, "the same row twice");
}

/// The ledger of these tests with a row of 1 kWh whose rates are all 0, so that its amount is right
/// whatever its kWh and shares are.
fn ledger_without_discount() -> Vec<u8> {
    let without_discount = BillNumbers {
        kwh: 1,
        supply: 1,
        wap: 1,
        ..HELD
    };
    let mut whole = ledger();
    calls::rebill(&mut whole, &BOOK, without_discount).expect("a rebill");
    whole
}

/// A row may have more kWh than a bill may give.
#[test]
fn kwh_above_100_000_000_in_a_row_are_number_2() {
    let with = |kwh| with_field(&ledger_without_discount(), 0, "kWh", kwh);
    for kwh in [0, 40_000_000, 40_000_001, 99_999_999, 100_000_000] {
        assert_eq!(calls::total(&with(kwh)), Ok([0; 3]), "{kwh}");
    }
    for kwh in [100_000_001, 134_217_727] {
        expect_not_well_formed(&with(kwh), &format!("{kwh} kWh"));
    }
}

/// Damaged shares: (byte, bits put there).
#[test]
fn shares_above_kwh_in_a_row_are_number_2() {
    let whole = ledger_without_discount();
    let with = |bits: &[(usize, u8)]| {
        let mut bytes = whole.clone();
        for &(byte, set) in bits {
            bytes[byte] |= set;
        }
        bytes
    };
    let (etii_of_1, qhs_of_1) = ((594, 0x80), (597, 0x10));
    for taken in [etii_of_1, qhs_of_1] {
        assert_eq!(calls::total(&with(&[taken])), Ok([0; 3]), "{taken:?}");
    }
    let (etii_of_2, qhs_of_2) = ((593, 0x01), (597, 0x20));
    let (etii_highest_bit, qhs_highest_bit) = ((590, 0x02), (594, 0x40));
    for exceeding in [
        &[etii_of_1, qhs_of_1][..],
        &[etii_of_2],
        &[qhs_of_2],
        &[etii_highest_bit],
        &[qhs_highest_bit],
        &[etii_highest_bit, qhs_highest_bit],
    ] {
        expect_not_well_formed(&with(exceeding), &format!("{exceeding:?}"));
    }
}

#[test]
fn a_wrong_length_is_number_2() {
    let whole = ledger();
    // 18,760 bytes are a ledger of document 01, and 25,928 one with shares and no amendments
    for length in [
        0,
        1,
        7,
        8,
        584,
        609,
        18_760,
        25_928,
        LEDGER_LENGTH - 25,
        LEDGER_LENGTH - 1,
    ] {
        expect_not_well_formed(&whole[..length], "short");
    }
    expect_not_well_formed(&[whole, vec![0]].concat(), "long");
}

#[test]
fn start_takes_any_bytes_of_the_length_and_no_other() {
    let mut bytes = vec![255; LEDGER_LENGTH];
    assert_eq!(calls::start(&mut bytes, 1), Ok([0; 3]));
    assert_eq!(bytes[0], 0x80);
    assert!(bytes[1..].iter().all(|&byte| byte == 0));
    for length in [0, 18_760, 25_928, LEDGER_LENGTH - 1, LEDGER_LENGTH + 1] {
        let mut bytes = vec![255; length];
        // An unknown territory is number 6, which comes after number 2.
        let number = calls::start(&mut bytes, 2).map_err(|refusal| refusal.number());
        assert_eq!(number, Err(2), "{length} bytes");
        assert!(bytes.iter().all(|&byte| byte == 255), "{length} bytes");
    }
    let number = calls::start(&mut bytes, 2).map_err(|refusal| refusal.number());
    assert_eq!(number, Err(6));
}

/// The numbers that a bill and a rebill give on these bytes, with no byte changed.
fn numbers_with_book(bytes: &[u8], book: &[u32], contract: u32) -> [Result<[i64; 3], u32>; 2] {
    let bill = BillNumbers { contract, ..NEXT };
    let rebill = BillNumbers { contract, ..HELD };
    [
        unchanged(bytes, |left| calls::bill(left, book, bill)),
        unchanged(bytes, |left| calls::rebill(left, book, rebill)),
    ]
}

/// What a call that changes no byte gives.
fn unchanged(
    bytes: &[u8],
    call: impl FnOnce(&mut [u8]) -> Result<[i64; 3], ebds::Refusal>,
) -> Result<[i64; 3], u32> {
    let mut left = bytes.to_vec();
    let answer = call(&mut left).map_err(|refusal| refusal.number());
    assert_eq!(left, bytes);
    answer
}

/// Books that are number 3, with their descriptions.
fn bad_books() -> Vec<(&'static str, Vec<u32>)> {
    let with = |entry: usize, price: u32| {
        let mut book = BOOK.to_vec();
        book[entry] = price;
        book
    };
    vec![
        ("no entry", vec![]),
        ("one short", vec![0; BOOK_LENGTH - 1]),
        ("one too many", vec![0; BOOK_LENGTH + 1]),
        ("1,000,000 first", with(0, 1_000_000)),
        ("1,000,000 last", with(BOOK_LENGTH - 1, 1_000_000)),
        ("the highest number", with(870, u32::MAX)),
    ]
}

#[test]
fn a_bad_book_is_number_3() {
    for (damage, book) in bad_books() {
        assert_eq!(
            numbers_with_book(&ledger(), &book, 0),
            [Err(3); 2],
            "{damage}"
        );
    }
}

#[test]
fn a_book_of_the_highest_prices_is_taken() {
    let book = vec![999_999; BOOK_LENGTH];
    assert!(calls::bill(&mut ledger(), &book, NEXT).is_ok());
    assert!(calls::rebill(&mut ledger(), &book, HELD).is_ok());
}

#[test]
fn number_2_comes_before_3_and_3_before_4() {
    let whole = ledger();
    let short = &whole[1..];
    for (damage, book) in bad_books() {
        assert_eq!(numbers_with_book(short, &book, 64), [Err(2); 2], "{damage}");
        assert_eq!(
            numbers_with_book(&whole, &book, 64),
            [Err(3); 2],
            "{damage}"
        );
    }
    assert_eq!(numbers_with_book(&whole, &BOOK, 64), [Err(4); 2]);
}

/// The calendar's calls, which take no ledger.
#[test]
fn days_and_dates() {
    assert_eq!(calls::day(2024, 2, 29), Ok([820, 0, 0]));
    assert_eq!(calls::date(820), Ok([2024, 2, 29]));
    let number = calls::day(2023, 2, 29).map_err(|refusal| refusal.number());
    assert_eq!(number, Err(7));
    let number = calls::date(852).map_err(|refusal| refusal.number());
    assert_eq!(number, Err(7));
}

//! The most kWh of a bill or rebill, and stored rows of more (document 02, paper 6): number 8 at its
//! edges and in checking order, the rows that a well-formed ledger has, and the calls on them.

mod april;

use april::april;
use twin::{BillNumbers, LEDGER_LENGTH};

const BOOK: [u32; 1_740] = [0; 1_740];

/// kWh that number 8 turns down; a row's 27 bits have room for those up to 134,217,727.
const TOO_MANY: [u32; 7] = [
    40_000_001,
    99_999_999,
    100_000_000,
    100_000_001,
    134_217_727,
    134_217_728,
    u32::MAX,
];

/// kWh of stored rows that no bill may give.
const STORED: [u32; 3] = [40_000_001, 99_999_999, 100_000_000];

/// A ledger with a flexible contract 0 of electricity.
fn opened() -> [u8; LEDGER_LENGTH] {
    let mut ledger = [0; LEDGER_LENGTH];
    twin::open(&mut ledger, 0, 0, 2, 0, 0).expect("an open contract");
    ledger
}

/// The same with a bill for April.
fn billed(kwh: u32) -> [u8; LEDGER_LENGTH] {
    let mut ledger = opened();
    twin::bill(&mut ledger, &BOOK, april(kwh)).expect("a bill");
    ledger
}

/// Puts the bits of a row into the bytes of the first one.
fn put_row(ledger: &mut [u8], bits: &str) {
    assert_eq!(bits.len(), 200);
    for (place, byte) in ledger[584..609].iter_mut().enumerate() {
        let bits = &bits[8 * place..8 * (place + 1)];
        *byte = u8::from_str_radix(bits, 2).expect("eight bits");
    }
}

/// A ledger that holds a row for April.
fn stored(kwh: u32, [etii_share, qhs_share]: [u32; 2]) -> [u8; LEDGER_LENGTH] {
    let rest = u64::from(kwh - etii_share - qhs_share);
    let amount = rest * 17_800 + u64::from(etii_share) * 67_640 + u64::from(qhs_share) * 319_800;
    let days = format!("{:010b}{:010b}", 486, 515);
    let energy = format!("{kwh:027b}{etii_share:027b}{qhs_share:027b}");
    let prices = format!("{:020b}{:020b}", 31_980, 67_030);
    let mut ledger = opened();
    let row = format!("1000000{days}{energy}{prices}{amount:050b}00");
    put_row(&mut ledger, &row);
    ledger
}

#[test]
fn at_most_40_000_000_kwh_are_taken() {
    for kwh in [0, 1, 39_999_999, 40_000_000] {
        let amount = i64::from(kwh) * 17_800;
        let mut ledger = opened();
        let answer = twin::bill(&mut ledger, &BOOK, april(kwh));
        assert_eq!(answer, Ok([31_980, 17_800, amount]));
        assert_eq!(ledger, stored(kwh, [0, 0]));
        let mut ledger = billed(1_000);
        let answer = twin::rebill(&mut ledger, &BOOK, april(kwh));
        assert_eq!(answer, Ok([31_980, 17_800, amount - 17_800_000]));
        assert_eq!(ledger, stored(kwh, [0, 0]));
    }
}

#[test]
fn more_kwh_are_number_8() {
    for kwh in TOO_MANY {
        let mut ledger = opened();
        assert_eq!(twin::bill(&mut ledger, &BOOK, april(kwh)), Err(8));
        assert_eq!(ledger, opened(), "{kwh}");
        let mut ledger = billed(1_000);
        assert_eq!(twin::rebill(&mut ledger, &BOOK, april(kwh)), Err(8));
        assert_eq!(ledger, billed(1_000), "{kwh}");
    }
}

/// 7 comes before 8, and 8 before 9, 10 and 11; those of document 02 stand with their papers' tests.
#[test]
fn number_8_in_checking_order() {
    let mut ledger = billed(1_000);
    twin::open(&mut ledger, 1, 0, 1, 0, 0).expect("an open contract");
    for (kwh, number_of_row, number_of_day, number_of_price) in
        [(40_000_000, 9, 10, 11), (40_000_001, 8, 8, 8)]
    {
        let early = BillNumbers {
            first: 485,
            ..april(kwh)
        };
        assert_eq!(twin::bill(&mut ledger, &BOOK, early), Err(7));
        let unheld = BillNumbers {
            first: 487,
            ..april(kwh)
        };
        let answer = twin::rebill(&mut ledger, &BOOK, unheld);
        assert_eq!(answer, Err(number_of_row));
        let answer = twin::bill(&mut ledger, &BOOK, april(kwh));
        assert_eq!(answer, Err(number_of_day));
        let unpriced = BillNumbers {
            contract: 1,
            wap: 0,
            ..april(kwh)
        };
        let answer = twin::bill(&mut ledger, &BOOK, unpriced);
        assert_eq!(answer, Err(number_of_price));
    }
}

#[test]
fn a_row_of_at_most_100_000_000_kwh_is_well_formed() {
    for kwh in STORED.into_iter().chain([40_000_000]) {
        let due = i64::from(kwh) * 17_800;
        assert_eq!(twin::total(&stored(kwh, [0, 0])), Ok([due, due, 0]));
    }
    for kwh in [100_000_001, 134_217_727] {
        assert_eq!(twin::total(&stored(kwh, [0, 0])), Err(2));
    }
}

/// A row of gas of April 2023, at R 11,400 and S 67,030.
#[test]
fn the_bytes_of_a_row_of_more_kwh_than_a_bill() {
    let mut ledger = [0; LEDGER_LENGTH];
    twin::open(&mut ledger, 1, 1, 2, 0, 0).expect("an open contract");
    let without_rows = ledger;
    let row = concat!(
        "1",
        "000001",
        "0111100110",
        "1000000011",
        "101111101011110000011111111",
        "010011000100101101000000001",
        "010000101100000111011000011",
        "00000010110010001000",
        "00010000010111010110",
        "00000001000011111011010011111100011100000101111101",
        "00"
    );
    put_row(&mut ledger, row);
    // 24,999,995 kWh at 6,970 ticks, the ETII share of 40,000,001 at 12,591 and the QHS share of
    // 35,000,003 at 114,000
    let due = 4_667_890_319_741;
    assert_eq!(twin::report(&ledger, 1), Ok([1, 99_999_999, due]));
    assert_eq!(twin::cancel(&mut ledger, 1, 486), Ok([-due, 0, 0]));
    assert_eq!(ledger, without_rows);
}

#[test]
fn calls_on_a_stored_row() {
    for kwh in STORED {
        let mut ledger = stored(kwh, [0, 0]);
        let ledger = &mut ledger[..];
        let [baseline, etii] = [17_800, 67_640].map(|rate| i64::from(kwh) * rate);
        let answer = twin::cert(ledger, 0, 1, 486);
        assert_eq!(answer, Ok([etii - baseline, 1, 0]));
        // the first 10 of 30 days are at baseline
        let before = i64::from(kwh) * 10 / 30;
        let change = before * (17_800 - 67_640);
        assert_eq!(twin::cert(ledger, 0, 1, 496), Ok([change, 1, 0]));
        assert_eq!(twin::cert(ledger, 0, 1, 486), Ok([-change, 1, 0]));
        assert_eq!(twin::report(ledger, 0), Ok([1, i64::from(kwh), etii]));
        let claimed = [etii / 10_000, etii % 10_000, 0];
        assert_eq!(twin::claim(ledger), Ok(claimed));
        assert_eq!(twin::total(ledger), Ok([etii, etii % 10_000, 0]));
        assert_eq!(twin::rebill(ledger, &BOOK, april(kwh)), Err(8));
        let change = 40_000_000 * 67_640 - etii;
        let answer = twin::rebill(ledger, &BOOK, april(40_000_000));
        assert_eq!(answer, Ok([31_980, 67_640, change]));
        assert_eq!(twin::rebill(ledger, &BOOK, april(kwh)), Err(8));
    }
}

#[test]
fn calls_on_a_stored_row_with_shares() {
    for kwh in STORED {
        let mut ledger = stored(kwh, [30_000_000, 5_000_001]);
        let before = ledger;
        let [due, ..] = twin::total(&ledger).expect("a total");
        let shared = BillNumbers {
            etii_share: 30_000_000,
            qhs_share: 5_000_001,
            ..april(kwh)
        };
        assert_eq!(twin::rebill(&mut ledger, &BOOK, shared), Err(8));
        assert_eq!(ledger, before);
        assert_eq!(twin::cert(&mut ledger, 0, 1, 486), Ok([0; 3]));
        assert_eq!(twin::report(&ledger, 0), Ok([1, i64::from(kwh), due]));
        assert_eq!(twin::cancel(&mut ledger, 0, 486), Ok([-due, 0, 0]));
    }
}

//! The run of document 01 (section "The program and one run"), the bytes of one bill, a full
//! ledger, the last claim, and the landmark days.

mod april;

use april::april;
use twin::{BillNumbers, LEDGER_LENGTH};

const BOOK: [u32; 1_740] = [0; 1_740];

#[test]
fn the_run() {
    let mut ledger = [255; LEDGER_LENGTH];
    let ledger = &mut ledger[..];
    assert_eq!(twin::start(ledger, 0), Ok([0; 3]));
    assert_eq!(ledger, [0; LEDGER_LENGTH]);
    assert_eq!(twin::open(ledger, 0, 0, 2, 0, 0), Ok([0; 3]));
    assert_eq!(
        twin::bill(ledger, &BOOK, april(1_000)),
        Ok([31_980, 17_800, 17_800_000])
    );
    assert_eq!(twin::claim(ledger), Ok([1_780, 0, 0]));
    assert_eq!(twin::cert(ledger, 0, 1, 486), Ok([49_840_000, 1, 0]));
    assert_eq!(twin::claim(ledger), Ok([4_984, 0, 0]));
    assert_eq!(
        twin::rebill(ledger, &BOOK, april(901)),
        Ok([31_980, 67_640, -6_696_360])
    );
    assert_eq!(twin::report(ledger, 0), Ok([1, 901, 60_943_640]));
    assert_eq!(twin::claim(ledger), Ok([-670, 3_640, 0]));
    assert_eq!(twin::cancel(ledger, 0, 486), Ok([-60_943_640, 0, 0]));
    assert_eq!(twin::total(ledger), Ok([0, -60_940_000, 0]));
    let above = BillNumbers {
        contract: 64,
        ..april(1)
    };
    assert_eq!(twin::bill(ledger, &BOOK, above), Err(4));
}

#[test]
fn the_bytes_of_a_bill() {
    let mut ledger = [0; LEDGER_LENGTH];
    twin::start(&mut ledger, 1).expect("a fresh ledger");
    twin::open(&mut ledger, 1, 1, 2, 0, 0).expect("an open contract");
    let bill = BillNumbers {
        contract: 1,
        first: 486,
        last: 515,
        kwh: 39_999_999,
        supply: 67_030,
        wap: 11_400,
        etii_share: 16_000_001,
        qhs_share: 14_000_003,
    };
    // 9,999,995 kWh at 6,970 ticks, the ETII share at 12,591 and the QHS share at 114,000
    assert_eq!(
        twin::bill(&mut ledger, &BOOK, bill),
        Ok([11_400, 6_970, 1_867_156_319_741])
    );
    assert_eq!(ledger[..8], [0x80, 0, 0, 0, 0, 0, 0, 0]);
    assert_eq!(ledger[8..17], [0; 9]);
    assert_eq!(ledger[17..26], [0xE0, 0, 0, 0, 0, 0, 0, 0, 0]);
    assert_eq!(ledger[26..584], [0; 558]);
    let row = concat!(
        "1",
        "000001",
        "0111100110",
        "1000000011",
        "010011000100101100111111111",
        "000111101000010010000000001",
        "000110101011001111110000011",
        "00000010110010001000",
        "00010000010111010110",
        "00000000011011001010111011001100000110110111111101",
        "00"
    );
    let bits: String = ledger[584..609]
        .iter()
        .map(|byte| format!("{byte:08b}"))
        .collect();
    assert_eq!(bits, row);
    assert!(ledger[609..].iter().all(|&byte| byte == 0));
}

#[test]
fn a_full_ledger_takes_no_bill() {
    let mut ledger = [0; LEDGER_LENGTH];
    let bill_on = |ledger: &mut [u8], contract: u32, day: u32| {
        let bill = BillNumbers {
            contract,
            first: day,
            last: day,
            ..april(1)
        };
        twin::bill(ledger, &BOOK, bill)
    };
    for contract in 0..64 {
        twin::open(&mut ledger, contract, 0, 2, 0, 0).expect("an open contract");
        for day in 486..502 {
            bill_on(&mut ledger, contract, day).expect("a bill");
        }
    }
    let full = ledger;
    assert_eq!(bill_on(&mut ledger, 0, 502), Err(12));
    assert_eq!(bill_on(&mut ledger, 0, 501), Err(10));
    assert_eq!(ledger, full);
    assert_eq!(twin::total(&ledger), Ok([18_227_200, 18_227_200, 0]));
}

#[test]
fn a_thousand_claims_and_one_more() {
    let mut ledger = [0; LEDGER_LENGTH];
    for _ in 0..1_000 {
        assert_eq!(twin::claim(&mut ledger), Ok([0; 3]));
    }
    assert_eq!(twin::claim(&mut ledger), Err(13));
    assert_eq!(ledger[..8], [0x01, 0xF4, 0, 0, 0, 0, 0, 0]);
}

#[test]
fn landmark_days() {
    for (date, number) in [
        ([2021, 12, 1], 0),
        ([2023, 4, 1], 486),
        ([2023, 4, 26], 511),
        ([2024, 2, 1], 792),
        ([2024, 2, 29], 820),
        ([2024, 3, 31], 851),
    ] {
        let [year, month, day] = date;
        assert_eq!(twin::day(year, month, day), Ok([i64::from(number), 0, 0]));
        assert_eq!(twin::date(number), Ok(date.map(i64::from)));
    }
    assert_eq!(twin::day(2023, 2, 29), Err(7));
    assert_eq!(twin::day(2021, 11, 30), Err(7));
    assert_eq!(twin::date(852), Err(7));
}

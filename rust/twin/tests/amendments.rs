//! Amended contracts (document 02, paper 5): numbers 16, 17 and 18, the price-fix day and entry day
//! that a bill takes, the bytes of an amended contract, and the amended contracts and their rows
//! that a well-formed ledger has.

use twin::{BillNumbers, LEDGER_LENGTH};

const ELECTRICITY: u32 = 0;
const GAS: u32 = 1;

const FIXED: u32 = 0;
const VARIABLE: u32 = 1;
const FLEXIBLE: u32 = 2;
const INDEX: u32 = 3;

const NONE: u32 = 0;
const ETII: u32 = 1;
const QHS: u32 = 2;

/// The price-fix day of contract 0, and that of its amendment.
const ORIGINAL_FIX: u32 = 100;
const AMENDED_FIX: u32 = 300;

/// A book with the prices of these two days alone. At baseline electricity has 10 × (30,300 -
/// 30,200) = 1,000 ticks a kWh by the first and 3,000 by the second, gas 10 × (11,000 - 10,700) =
/// 3,000 and 5,000.
const BOOK: [u32; 1_740] = {
    let mut book = [0; 1_740];
    book[100] = 30_300;
    book[300] = 30_500;
    book[852 + 100] = 11_000;
    book[852 + 300] = 11_200;
    book
};

/// A bill of 1,000 kWh: QHS 160,000 ticks a kWh of electricity by the old minimum and 217,600 by
/// the new one.
fn span(first: u32, last: u32) -> BillNumbers {
    BillNumbers {
        contract: 0,
        first,
        last,
        kwh: 1_000,
        supply: 50_000,
        wap: 0,
        etii_share: 0,
        qhs_share: 0,
    }
}

/// A ledger with a fixed contract 0, unamended.
fn opened(fuel: u32, entry_day: u32) -> [u8; LEDGER_LENGTH] {
    let mut ledger = [0; LEDGER_LENGTH];
    twin::start(&mut ledger, 1).expect("a fresh ledger");
    twin::open(&mut ledger, 0, fuel, FIXED, ORIGINAL_FIX, entry_day).expect("an open contract");
    ledger
}

/// The same, amended.
fn amended(fuel: u32, end: u32, [original_entry, amended_entry]: [u32; 2]) -> [u8; LEDGER_LENGTH] {
    let mut ledger = opened(fuel, original_entry);
    let answer = twin::amend(&mut ledger, 0, end, AMENDED_FIX, amended_entry);
    assert_eq!(answer, Ok([0; 3]));
    ledger
}

/// An unamended contract with a bill.
fn billed(numbers: BillNumbers) -> [u8; LEDGER_LENGTH] {
    let mut ledger = opened(ELECTRICITY, 0);
    twin::bill(&mut ledger, &BOOK, numbers).expect("a bill");
    ledger
}

/// The rate and the amount answered for a bill, after which the ledger is well formed with that
/// amount due.
fn rate_and_amount(ledger: &mut [u8], numbers: BillNumbers) -> (i64, i64) {
    let [_, rate, amount] = twin::bill(ledger, &BOOK, numbers).expect("a bill");
    assert_eq!(twin::total(ledger), Ok([amount, amount, 0]), "{numbers:?}");
    (rate, amount)
}

/// (fuel, first day, last day, R, rate) of a contract whose original end is day 600.
#[test]
fn the_first_day_chooses_the_price_fix_day() {
    for (fuel, first, last, reference, rate) in [
        (ELECTRICITY, 486, 600, 30_300, 1_000),
        (ELECTRICITY, 600, 600, 30_300, 1_000),
        (ELECTRICITY, 601, 601, 30_500, 3_000),
        (ELECTRICITY, 851, 851, 30_500, 3_000),
        (GAS, 600, 600, 11_000, 3_000),
        (GAS, 601, 851, 11_200, 5_000),
    ] {
        let mut ledger = amended(fuel, 600, [0, 0]);
        let answer = twin::bill(&mut ledger, &BOOK, span(first, last));
        assert_eq!(answer, Ok([reference, rate, 1_000 * rate]), "from {first}");
        let fewer = BillNumbers {
            kwh: 400,
            ..span(first, last)
        };
        let answer = twin::rebill(&mut ledger, &BOOK, fewer);
        assert_eq!(answer, Ok([reference, rate, -600 * rate]), "from {first}");
        assert_eq!(twin::total(&ledger), Ok([400 * rate, 400 * rate, 0]));
    }
    let answer = twin::bill(&mut opened(ELECTRICITY, 0), &BOOK, span(600, 601));
    assert_eq!(answer, Ok([30_300, 1_000, 1_000_000]));
}

/// (original end day, the two entry days, first day, last day, rate, amount) of a bill of a
/// contract that is QHS from day 511 on; the certificate comes before the bill, or after it.
#[test]
fn the_first_day_chooses_the_entry_day() {
    for (end, entry_days, first, last, rate, amount) in [
        (799, [791, 792], 790, 799, 160_000, 160_000_000),
        (799, [791, 792], 800, 809, 217_600, 217_600_000),
        // floor(1,000 × 2 / 10) = 200 kWh at 160,000 and 800 at 217,600: 32,000,000 + 174,080,000
        (799, [792, 791], 790, 799, 160_000, 206_080_000),
        (799, [792, 791], 800, 809, 160_000, 160_000_000),
        // floor(1,000 × 10 / 30) = 333 kWh at 160,000 and 667 at 217,600: 53,280,000 + 145,139,200
        (781, [791, 792], 782, 811, 160_000, 198_419_200),
        (781, [792, 791], 782, 811, 160_000, 160_000_000),
        (791, [791, 792], 791, 791, 160_000, 160_000_000),
        (791, [791, 792], 792, 792, 217_600, 217_600_000),
    ] {
        let mut ledger = amended(ELECTRICITY, end, entry_days);
        let mut certified = ledger;
        twin::cert(&mut certified, 0, QHS, 511).expect("a certificate");
        let answered = rate_and_amount(&mut certified, span(first, last));
        assert_eq!(answered, (rate, amount), "{first}, {entry_days:?}");
        let (_, baseline) = rate_and_amount(&mut ledger, span(first, last));
        let answer = twin::cert(&mut ledger, 0, QHS, 511);
        assert_eq!(answer, Ok([amount - baseline, 1, 0]), "{first}");
        assert_eq!(ledger, certified);
    }
}

/// (the two entry days, first day, rate, amount) of a bill for ten days, half of it a QHS share, of
/// a contract whose original end is day 799.
#[test]
fn a_qhs_share_of_an_amended_contract() {
    for (entry_days, first, rate, amount) in [
        // 500 kWh at 1,000 and 500 at 160,000
        ([791, 792], 790, 1_000, 80_500_000),
        // 500 kWh at 3,000 and 500 at 217,600
        ([791, 792], 800, 3_000, 110_300_000),
        // 500 kWh at 1,000, floor(500 × 2 / 10) = 100 at 160,000 and 400 at 217,600:
        // 500,000 + 16,000,000 + 87,040,000
        ([792, 791], 790, 1_000, 103_540_000),
        // 500 kWh at 3,000 and 500 at 160,000
        ([792, 791], 800, 3_000, 81_500_000),
    ] {
        let mut ledger = amended(ELECTRICITY, 799, entry_days);
        let numbers = BillNumbers {
            qhs_share: 500,
            ..span(first, first + 9)
        };
        let answered = rate_and_amount(&mut ledger, numbers);
        assert_eq!(answered, (rate, amount), "{first}, {entry_days:?}");
    }
}

#[test]
fn calls_on_an_amended_contract() {
    let mut ledger = billed(span(790, 799));
    let ledger = &mut ledger[..];
    assert_eq!(twin::amend(ledger, 0, 799, AMENDED_FIX, 792), Ok([0; 3]));
    let second = [30_500, 3_000, 3_000_000];
    assert_eq!(twin::bill(ledger, &BOOK, span(800, 809)), Ok(second));
    assert_eq!(twin::claim(ledger), Ok([400, 0, 0]));
    // 160,000,000 + 217,600,000 - 4,000,000
    assert_eq!(twin::cert(ledger, 0, QHS, 511), Ok([373_600_000, 2, 0]));
    assert_eq!(twin::report(ledger, 0), Ok([2, 2_000, 377_600_000]));
    // 1,000,000, and of the second 500 kWh at 3,000 and 500 at 3 × 300 + 7 × 8,900 = 63,200:
    // 1,500,000 + 31,600,000; less 377,600,000
    assert_eq!(twin::cert(ledger, 0, ETII, 805), Ok([-343_500_000, 2, 0]));
    assert_eq!(twin::cancel(ledger, 0, 800), Ok([-33_100_000, 0, 0]));
    assert_eq!(twin::cert(ledger, 0, NONE, 0), Ok([0, 0, 0]));
    assert_eq!(twin::bill(ledger, &BOOK, span(800, 809)), Ok(second));
    assert_eq!(twin::total(ledger), Ok([4_000_000, 0, 0]));
}

/// A certificate keeps the amendment, and an amendment the certificate.
#[test]
fn the_bytes_of_an_amended_contract() {
    let mut ledger = [0; LEDGER_LENGTH];
    twin::open(&mut ledger, 1, GAS, FIXED, 700, 341).expect("an open contract");
    twin::cert(&mut ledger, 1, ETII, 600).expect("a certificate");
    let before = ledger;
    twin::amend(&mut ledger, 1, 851, 682, 5).expect("an amendment");
    let contract = |certificate: &str| {
        let terms = concat!("1", "1", "00", "1010111100", "0101010101");
        let amendment = concat!("1", "1101010011", "1010101010", "0000000101");
        format!("{terms}{certificate}{amendment}00000")
    };
    let bits = |ledger: &[u8]| -> String {
        let bytes = ledger[17..26].iter();
        bytes.map(|byte| format!("{byte:08b}")).collect()
    };
    assert_eq!(bits(&ledger), contract("011001011000"));
    assert_eq!(ledger[..17], before[..17]);
    assert_eq!(ledger[26..], before[26..]);
    twin::cert(&mut ledger, 1, QHS, 511).expect("a certificate");
    assert_eq!(bits(&ledger), contract("100111111111"));
    twin::cert(&mut ledger, 1, NONE, 0).expect("a certificate");
    assert_eq!(bits(&ledger), contract("000000000000"));
}

/// (contract, the three days, number): contract 0 is fixed and has a row from 500 to 520, 1 to 3
/// are of the other kinds, 4 is amended, and 5 isn't open.
#[test]
fn amendments_turned_down() {
    let mut ledger = billed(span(500, 520));
    for kind in [VARIABLE, FLEXIBLE, INDEX] {
        twin::open(&mut ledger, kind, ELECTRICITY, kind, 0, 0).expect("an open contract");
    }
    twin::open(&mut ledger, 4, ELECTRICITY, FIXED, 0, 0).expect("an open contract");
    twin::amend(&mut ledger, 4, 600, 0, 0).expect("an amendment");
    for (contract, [end, price_fix_day, entry_day], number) in [
        (64, [485, 852, 852], 4),
        (u32::MAX, [600, 0, 0], 4),
        (5, [485, 852, 852], 5),
        (1, [600, 0, 0], 16),
        (2, [600, 0, 0], 16),
        (3, [600, 0, 0], 16),
        (3, [485, 852, 852], 16),
        (4, [600, 0, 0], 16),
        (4, [485, 852, 852], 16),
        (0, [0, 0, 0], 7),
        (0, [485, 0, 0], 7),
        (0, [852, 0, 0], 7),
        (0, [u32::MAX, 0, 0], 7),
        (0, [600, 852, 0], 7),
        (0, [600, 0, 852], 7),
        (0, [519, u32::MAX, 0], 7),
        (0, [519, 0, u32::MAX], 7),
        (0, [486, 0, 0], 18),
        (0, [499, 0, 0], 18),
        (0, [519, 0, 0], 18),
    ] {
        let mut left = ledger;
        let answer = twin::amend(&mut left, contract, end, price_fix_day, entry_day);
        assert_eq!(answer, Err(number), "contract {contract}, end {end}");
        assert_eq!(left, ledger);
    }
    ledger[LEDGER_LENGTH - 1] = 1;
    assert_eq!(twin::amend(&mut ledger, 64, 600, 0, 0), Err(2));
}

/// The three days of an amendment in any order; contract 0 has a row up to day 520, and contract 1
/// one up to day 851.
#[test]
fn amendments_taken() {
    let mut ledger = billed(span(500, 520));
    twin::open(&mut ledger, 1, ELECTRICITY, FIXED, ORIGINAL_FIX, 0).expect("an open contract");
    let late = BillNumbers {
        contract: 1,
        ..span(486, 851)
    };
    twin::bill(&mut ledger, &BOOK, late).expect("a bill");
    for [end, price_fix_day, entry_day] in [
        [520, 0, 0],
        [520, 851, 851],
        [520, 519, 521],
        [600, 851, 0],
        [851, 0, 851],
    ] {
        let mut left = ledger;
        let answer = twin::amend(&mut left, 0, end, price_fix_day, entry_day);
        assert_eq!(answer, Ok([0; 3]), "end {end}");
        assert_eq!(left[17..], ledger[17..]);
        assert_eq!(twin::total(&left), Ok([2_000_000, 2_000_000, 0]));
    }
}

/// (original end day, first day, last day, whether the span crosses the end).
#[test]
fn a_span_that_crosses_the_original_end_is_number_17() {
    for (end, first, last, crosses) in [
        (600, 486, 600, false),
        (600, 600, 600, false),
        (600, 601, 601, false),
        (600, 601, 851, false),
        (600, 600, 601, true),
        (600, 486, 601, true),
        (600, 600, 851, true),
        (486, 486, 486, false),
        (486, 486, 487, true),
        (851, 486, 851, false),
    ] {
        let ledger = amended(ELECTRICITY, end, [0, 0]);
        let mut left = ledger;
        let answer = twin::bill(&mut left, &BOOK, span(first, last));
        if crosses {
            assert_eq!(answer, Err(17), "{first} to {last}, end {end}");
            assert_eq!(left, ledger);
            twin::bill(&mut left, &BOOK, span(first, first)).expect("a bill");
            let answer = twin::rebill(&mut left, &BOOK, span(first, last));
            assert_eq!(answer, Err(17), "{first} to {last}, end {end}");
        } else {
            assert!(answer.is_ok(), "{first} to {last}, end {end}");
        }
        twin::rebill(&mut left, &BOOK, span(first, first)).expect("a rebill");
    }
}

/// 7 comes before 17, and 17 before 8, 14, 9, 10 and 11.
#[test]
fn number_17_in_checking_order() {
    let mut ledger = amended(ELECTRICITY, 600, [0, 0]);
    let ledger = &mut ledger[..];
    assert_eq!(twin::bill(ledger, &BOOK, span(600, 852)), Err(7));
    let large = BillNumbers {
        kwh: 40_000_001,
        ..span(600, 601)
    };
    assert_eq!(twin::bill(ledger, &BOOK, large), Err(17));
    let exceeding = BillNumbers {
        etii_share: 1_001,
        ..span(600, 601)
    };
    assert_eq!(twin::bill(ledger, &BOOK, exceeding), Err(17));
    assert_eq!(twin::rebill(ledger, &BOOK, span(600, 601)), Err(17));
    assert_eq!(twin::bill(ledger, &[0; 1_740], span(600, 601)), Err(17));
    assert_eq!(twin::bill(ledger, &[0; 1_740], span(600, 600)), Err(11));
    twin::bill(ledger, &BOOK, span(600, 600)).expect("a bill");
    assert_eq!(twin::bill(ledger, &BOOK, span(600, 601)), Err(17));
    assert_eq!(twin::bill(ledger, &BOOK, span(600, 600)), Err(10));
}

/// Puts a flag and three days into the bytes of contract 0, which is unamended.
fn put_amendment(ledger: &mut [u8], flag: u64, [end, price_fix_day, entry_day]: [u64; 3]) {
    let bits = flag << 35 | end << 25 | price_fix_day << 15 | entry_day << 5;
    ledger[12] |= (bits >> 32) as u8;
    ledger[13..17].copy_from_slice(&(bits as u32).to_be_bytes());
}

/// (kind, flag, the three days, whether the ledger is then well formed).
#[test]
fn an_amended_contract_is_fixed_and_keeps_its_ranges() {
    for (kind, flag, days, well_formed) in [
        (FIXED, 0, [0, 0, 0], true),
        (FIXED, 1, [486, 0, 0], true),
        (FIXED, 1, [851, 851, 851], true),
        (FIXED, 1, [485, 0, 0], false),
        (FIXED, 1, [852, 0, 0], false),
        (FIXED, 1, [0, 0, 0], false),
        (FIXED, 1, [486, 852, 0], false),
        (FIXED, 1, [486, 0, 852], false),
        (FIXED, 0, [486, 0, 0], false),
        (FIXED, 0, [0, 1, 0], false),
        (FIXED, 0, [0, 0, 1], false),
        (VARIABLE, 1, [486, 0, 0], false),
        (FLEXIBLE, 1, [486, 0, 0], false),
        (INDEX, 1, [486, 0, 0], false),
        (FLEXIBLE, 0, [0, 0, 1], false),
    ] {
        let mut ledger = [0; LEDGER_LENGTH];
        twin::start(&mut ledger, 1).expect("a fresh ledger");
        twin::open(&mut ledger, 0, ELECTRICITY, kind, 0, 0).expect("an open contract");
        put_amendment(&mut ledger, flag, days);
        let expected = if well_formed { Ok([0; 3]) } else { Err(2) };
        assert_eq!(twin::total(&ledger), expected, "{kind}, {flag}, {days:?}");
    }
}

/// A contract that isn't open is nine zeros, and any other ends in five zero bits.
#[test]
fn the_zeros_of_a_contract() {
    for bit in 1..72 {
        let mut ledger = [0; LEDGER_LENGTH];
        ledger[8 + bit / 8] = 0x80 >> (bit % 8);
        assert_eq!(twin::total(&ledger), Err(2), "bit {bit}");
    }
    for bit in 67..72 {
        for ledger in [opened(GAS, 0), amended(GAS, 600, [0, 0])] {
            let mut damaged = ledger;
            damaged[8 + bit / 8] |= 0x80 >> (bit % 8);
            assert_eq!(twin::total(&damaged), Err(2), "bit {bit}");
            assert_eq!(twin::total(&ledger), Ok([0; 3]));
        }
    }
}

/// (original end day, whether the ledger is then well formed) of a row from 500 to 520.
#[test]
fn no_row_crosses_the_original_end() {
    for (end, well_formed) in [
        (499, true),
        (500, false),
        (510, false),
        (519, false),
        (520, true),
        (521, true),
    ] {
        let mut ledger = billed(span(500, 520));
        put_amendment(&mut ledger, 1, [end, 0, 0]);
        let expected = [1_000_000, 1_000_000, 0];
        let expected = if well_formed { Ok(expected) } else { Err(2) };
        assert_eq!(twin::total(&ledger), expected, "end {end}");
    }
}

/// (original end day, amended entry day, whether the ledger is then well formed) of a QHS row from
/// 800 to 809 at the old minimum, by the contract's entry day 791.
#[test]
fn the_amount_of_a_row_after_the_original_end() {
    for (end, entry_day, well_formed) in [
        (799, 791, true),
        (799, 792, false),
        (809, 792, true),
        (851, 792, true),
    ] {
        let mut ledger = opened(ELECTRICITY, 791);
        twin::cert(&mut ledger, 0, QHS, 511).expect("a certificate");
        twin::bill(&mut ledger, &BOOK, span(800, 809)).expect("a bill");
        put_amendment(&mut ledger, 1, [end, 0, entry_day]);
        let expected = [160_000_000, 160_000_000, 0];
        let expected = if well_formed { Ok(expected) } else { Err(2) };
        assert_eq!(twin::total(&ledger), expected, "{end}, {entry_day}");
    }
}

#[test]
fn a_ledger_without_room_for_amendments_is_number_2() {
    assert_eq!(LEDGER_LENGTH, 26_184);
    assert_eq!(twin::start(&mut [0; 25_928], 0), Err(2));
    assert_eq!(twin::total(&[0; 25_928]), Err(2));
    assert_eq!(twin::amend(&mut [0; 25_928], 64, 600, 0, 0), Err(2));
}

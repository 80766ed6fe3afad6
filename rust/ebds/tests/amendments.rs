//! Amendments of fixed contracts (document 02, paper 5): each number that amend takes at its edges,
//! the order of its refusals and of number 17, the price-fix and entry days that bills take on either
//! side of the original end, and the bytes of an amended contract. That a refusal answers zeros is
//! held by [`ebds::calls`] itself.

use ebds::{
    calls, BillNumbers, Billed, Certificate, Certified, Fuel, Kind, Ledger, Rebilled, Refusal,
    Reported, Territory, BOOK_LENGTH,
};

/// The original price-fix day, and the amendment's.
const ORIGINAL_FIX: u32 = 300;
const AMENDED_FIX: u32 = 540;

/// R of each of them; no other price is published.
const ORIGINAL_R: u32 = 45_000;
const AMENDED_R: u32 = 31_200;

/// Values of a day at the edges of its ranges and far outside them.
const EDGES: [u32; 6] = [0, 485, 486, 851, 852, u32::MAX];

/// QHS on every day on which a contract can be.
const QHS: Certificate = Certificate::Qhs { effective_day: 511 };

fn book() -> [u32; BOOK_LENGTH] {
    let mut book = [0; BOOK_LENGTH];
    book[ORIGINAL_FIX as usize] = ORIGINAL_R;
    book[AMENDED_FIX as usize] = AMENDED_R;
    book
}

/// A bill of 1,000 kWh at S 50,000. A kWh has, at the original R, 10 × 1,961 = 19,610 ticks as
/// baseline; at the amendment's, 10 × 1,000 = 10,000. As QHS it has at either R 10 × 16,000 =
/// 160,000 by the old minimum, and 10 × 21,760 = 217,600 by the new one.
fn span(first: u32, last: u32) -> BillNumbers {
    BillNumbers {
        contract: 0,
        first,
        last,
        kwh: 1_000,
        supply: 50_000,
        wap: 0,
        etii_share: 0,
        qhs_share: 0,
    }
}

/// A ledger whose contract 0 is fixed electricity with that entry day; contract 1 is variable and
/// contract 2 flexible.
fn unamended(entry_day: u32) -> Result<Ledger, Refusal> {
    let mut ledger = Ledger::start(Territory::GreatBritain)?;
    let price_fix_day = ORIGINAL_FIX;
    let fixed = Kind::Fixed {
        price_fix_day,
        entry_day,
    };
    for (contract, kind) in [(0, fixed), (1, Kind::Variable), (2, Kind::Flexible)] {
        ledger.open(contract, Fuel::Electricity, kind)?;
    }
    Ok(ledger)
}

/// The same with an amendment of contract 0.
fn amended(
    entry_day: u32,
    original_end_day: u32,
    amended_entry_day: u32,
) -> Result<Ledger, Refusal> {
    let mut ledger = unamended(entry_day)?;
    ledger.amend(0, original_end_day, AMENDED_FIX, amended_entry_day)?;
    Ok(ledger)
}

/// Holds a call to its refusal, with no byte changed.
fn expect_refused<T>(
    ledger: &Ledger,
    refusal: Refusal,
    call: impl Fn(&mut Ledger) -> Result<T, Refusal>,
    description: &str,
) {
    let mut left = ledger.clone();
    assert_eq!(call(&mut left).err(), Some(refusal), "{description}");
    assert!(left == *ledger, "{description}");
}

/// Holds an amendment to its refusal, or to none, on a ledger.
fn expect_amend(ledger: &Ledger, numbers: [u32; 4], refusal: Option<Refusal>) {
    let [contract, end, price_fix_day, entry_day] = numbers;
    let amend = |ledger: &mut Ledger| ledger.amend(contract, end, price_fix_day, entry_day);
    match refusal {
        Some(refusal) => expect_refused(ledger, refusal, amend, &format!("{numbers:?}")),
        None => assert_eq!(amend(&mut ledger.clone()), Ok(()), "{numbers:?}"),
    }
}

#[test]
fn each_day_at_its_edges() -> Result<(), Refusal> {
    let ledger = unamended(290)?;
    for day in EDGES {
        let of_scheme = (486..=851).contains(&day);
        let of_table = day <= 851;
        let unless = |taken: bool| (!taken).then_some(Refusal::WrongDay);
        expect_amend(&ledger, [0, day, 540, 545], unless(of_scheme));
        expect_amend(&ledger, [0, 668, day, 545], unless(of_table));
        expect_amend(&ledger, [0, 668, 540, day], unless(of_table));
        // no order among the days is asked
        expect_amend(&ledger, [0, 486, day, 0], unless(of_table));
        expect_amend(&ledger, [0, 486, 0, day], unless(of_table));
    }
    Ok(())
}

#[test]
fn the_contract_at_its_edges() -> Result<(), Refusal> {
    let mut ledger = unamended(290)?;
    let fixed = Kind::Fixed {
        price_fix_day: 0,
        entry_day: 0,
    };
    ledger.open(63, Fuel::Gas, fixed)?;
    for (contract, refusal) in [
        (0, None),
        (63, None),
        (1, Some(Refusal::NotAmendable)),
        (2, Some(Refusal::NotAmendable)),
        (62, Some(Refusal::WronglyOpen)),
        (64, Some(Refusal::NoSuchContract)),
        (u32::MAX, Some(Refusal::NoSuchContract)),
    ] {
        expect_amend(&ledger, [contract, 668, 540, 545], refusal);
    }
    let mut index = Ledger::start(Territory::NorthernIreland)?;
    index.open(0, Fuel::Electricity, Kind::Index)?;
    expect_amend(&index, [0, 668, 540, 545], Some(Refusal::NotAmendable));
    Ok(())
}

#[test]
fn an_amended_contract_is_amended_no_more() -> Result<(), Refusal> {
    let ledger = amended(290, 668, 545)?;
    for numbers in [[0, 668, 540, 545], [0, 851, 0, 0], [0, 852, 852, 852]] {
        expect_amend(&ledger, numbers, Some(Refusal::NotAmendable));
    }
    Ok(())
}

/// Each line meets its number and the later ones too.
#[test]
fn the_numbers_of_amend_in_order() -> Result<(), Refusal> {
    let mut ledger = unamended(290)?;
    ledger.bill(&book(), span(600, 629))?;
    for (numbers, refusal) in [
        ([64, 485, 852, 852], Refusal::NoSuchContract),
        ([3, 485, 852, 852], Refusal::WronglyOpen),
        ([1, 485, 852, 852], Refusal::NotAmendable),
        ([0, 485, 540, 545], Refusal::WrongDay),
        ([0, 600, 852, 545], Refusal::WrongDay),
        ([0, 600, 540, 852], Refusal::WrongDay),
        ([0, 600, 540, 545], Refusal::RowAfterOriginalEnd),
    ] {
        expect_amend(&ledger, numbers, Some(refusal));
    }
    Ok(())
}

/// Rows of days 600 to 629 and 700 to 729: (the end given, whether it is taken).
#[test]
fn a_row_that_ends_after_the_end_given_is_number_18() -> Result<(), Refusal> {
    let mut ledger = unamended(290)?;
    ledger.bill(&book(), span(600, 629))?;
    ledger.bill(&book(), span(700, 729))?;
    for (end, taken) in [
        (486, false),
        (599, false),
        (628, false),
        (629, false),
        (699, false),
        (700, false),
        (728, false),
        (729, true),
        (851, true),
    ] {
        let refusal = (!taken).then_some(Refusal::RowAfterOriginalEnd);
        expect_amend(&ledger, [0, end, 540, 545], refusal);
    }
    ledger.cancel(0, 700)?;
    expect_amend(&ledger, [0, 629, 540, 545], None);
    expect_amend(
        &ledger,
        [0, 628, 540, 545],
        Some(Refusal::RowAfterOriginalEnd),
    );
    Ok(())
}

/// Rows of other contracts on either side are no matter.
#[test]
fn rows_of_other_contracts_may_end_after_the_end() -> Result<(), Refusal> {
    let mut ledger = unamended(290)?;
    for contract in [3, 5] {
        ledger.open(contract, Fuel::Electricity, Kind::Flexible)?;
        let bill = BillNumbers {
            contract,
            ..span(800, 851)
        };
        ledger.bill(&book(), bill)?;
    }
    let fixed = Kind::Fixed {
        price_fix_day: 0,
        entry_day: 0,
    };
    ledger.open(4, Fuel::Electricity, fixed)?;
    expect_amend(&ledger, [4, 486, 0, 0], None);
    Ok(())
}

/// Holds a bill of the span, and the rebill of a row of its first day, to number 17 or to none.
fn expect_span(ledger: &Ledger, (first, last): (u32, u32), taken: bool) -> Result<(), Refusal> {
    let mut held = ledger.clone();
    held.bill(&book(), span(first, first))?;
    let description = format!("{first} to {last}");
    let bill = |ledger: &mut Ledger| ledger.bill(&book(), span(first, last)).map(|_| ());
    let rebill = |ledger: &mut Ledger| ledger.rebill(&book(), span(first, last)).map(|_| ());
    if taken {
        assert_eq!(bill(&mut ledger.clone()), Ok(()), "{description}");
        assert_eq!(rebill(&mut held), Ok(()), "{description}");
    } else {
        let refusal = Refusal::CrossesOriginalEnd;
        expect_refused(ledger, refusal, bill, &description);
        expect_refused(&held, refusal, rebill, &description);
    }
    Ok(())
}

#[test]
fn a_span_across_the_original_end_is_number_17() -> Result<(), Refusal> {
    for (end, first, last, taken) in [
        (668, 486, 668, true),
        (668, 668, 668, true),
        (668, 669, 669, true),
        (668, 669, 851, true),
        (668, 668, 669, false),
        (668, 486, 669, false),
        (668, 486, 851, false),
        (668, 667, 851, false),
        (486, 486, 486, true),
        (486, 486, 487, false),
        (486, 487, 851, true),
        (850, 851, 851, true),
        (850, 850, 851, false),
        (851, 486, 851, true),
    ] {
        expect_span(&amended(290, end, 545)?, (first, last), taken)?;
    }
    expect_span(&unamended(290)?, (486, 851), true)
}

/// Each bill or rebill meets number 17 and another one.
#[test]
fn number_17_comes_after_7_and_before_8() -> Result<(), Refusal> {
    let ledger = amended(290, 668, 545)?;
    let across = span(668, 669);
    let of_contract = |contract| BillNumbers { contract, ..across };
    let too_much = BillNumbers {
        kwh: 40_000_001,
        ..across
    };
    let weighted = BillNumbers { wap: 1, ..across };
    let shared = BillNumbers {
        qhs_share: 1_001,
        ..across
    };
    for (numbers, refusal) in [
        (of_contract(64), Refusal::NoSuchContract),
        (of_contract(3), Refusal::WronglyOpen),
        (span(485, 669), Refusal::WrongDay),
        (span(668, 852), Refusal::WrongDay),
        (too_much, Refusal::CrossesOriginalEnd),
        (weighted, Refusal::CrossesOriginalEnd),
        (shared, Refusal::CrossesOriginalEnd),
    ] {
        let description = format!("{numbers:?}");
        let bill = |ledger: &mut Ledger| ledger.bill(&book(), numbers);
        expect_refused(&ledger, refusal, bill, &description);
        let rebill = |ledger: &mut Ledger| ledger.rebill(&book(), numbers);
        expect_refused(&ledger, refusal, rebill, &description);
    }
    let bill = |ledger: &mut Ledger| ledger.bill(&[0], across);
    expect_refused(&ledger, Refusal::BadBook, bill, "a book of one price");
    Ok(())
}

/// 9, 10 and 11 fit too: no row begins on the first day, another row has it, and no price is
/// published.
#[test]
fn number_17_comes_before_the_numbers_of_rows_and_prices() -> Result<(), Refusal> {
    let mut ledger = amended(290, 668, 545)?;
    ledger.bill(&book(), span(660, 668))?;
    let unpublished = [0; BOOK_LENGTH];
    for (last, unheld, shared) in [
        (668, Refusal::NoSuchRow, Refusal::SharedDay),
        (
            669,
            Refusal::CrossesOriginalEnd,
            Refusal::CrossesOriginalEnd,
        ),
    ] {
        let rebill = |ledger: &mut Ledger| ledger.rebill(&unpublished, span(661, last));
        expect_refused(&ledger, unheld, rebill, "no row begins on day 661");
        let bill = |ledger: &mut Ledger| ledger.bill(&unpublished, span(661, last));
        expect_refused(&ledger, shared, bill, "a row has day 661");
    }
    for (last, refusal) in [(659, Refusal::NoPrice), (669, Refusal::CrossesOriginalEnd)] {
        let bill = |ledger: &mut Ledger| ledger.bill(&unpublished, span(650, last));
        expect_refused(&ledger, refusal, bill, "no price is published");
    }
    Ok(())
}

const fn billed(reference: u32, rate: i64) -> Billed {
    Billed {
        reference: reference as i64,
        rate,
        amount: 1_000 * rate,
    }
}

/// The price that a bill needs is that of its own side.
#[test]
fn the_price_of_the_other_side_is_not_needed() -> Result<(), Refusal> {
    let ledger = amended(290, 668, 545)?;
    for (price_fix_day, before, after) in [
        (ORIGINAL_FIX, Ok(billed(1, 0)), Err(Refusal::NoPrice)),
        (AMENDED_FIX, Err(Refusal::NoPrice), Ok(billed(1, 0))),
    ] {
        let mut book = [0; BOOK_LENGTH];
        book[price_fix_day as usize] = 1;
        assert_eq!(ledger.clone().bill(&book, span(668, 668)), before);
        assert_eq!(ledger.clone().bill(&book, span(669, 669)), after);
    }
    Ok(())
}

/// Original entry day 290, end 668, the amendment's entry day 792; bills of each side, of which the
/// first comes before the amendment: (first day, last day, answer).
const BILLS: [(u32, u32, Billed); 4] = [
    (516, 546, billed(ORIGINAL_R, 19_610)),
    (792, 820, billed(AMENDED_R, 10_000)),
    (600, 668, billed(ORIGINAL_R, 19_610)),
    (669, 699, billed(AMENDED_R, 10_000)),
];

/// The ledger of these bills.
fn billed_on_both_sides() -> Result<Ledger, Refusal> {
    let mut ledger = unamended(290)?;
    for (first, last, answer) in BILLS {
        assert_eq!(ledger.bill(&book(), span(first, last))?, answer, "{first}");
        if first == 516 {
            let before = ledger.report(0)?;
            ledger.amend(0, 668, AMENDED_FIX, 792)?;
            assert_eq!(ledger.report(0)?, before);
        }
    }
    Ok(ledger)
}

/// As QHS two rows go from 19,610 to 160,000, one from 10,000 to 160,000, and the last, by the new
/// minimum, from 10,000 to 217,600: 2 × 140,390,000 + 150,000,000 + 207,600,000.
#[test]
fn certificates_re_rate_both_sides_and_keep_the_amendment() -> Result<(), Refusal> {
    let mut ledger = billed_on_both_sides()?;
    let (change, rows) = (638_380_000, 4);
    assert_eq!(ledger.cert(0, QHS)?, Certified { change, rows });
    expect_amend(&ledger, [0, 851, 0, 0], Some(Refusal::NotAmendable));
    let change = -change;
    let taken_away = ledger.cert(0, Certificate::None)?;
    assert_eq!(taken_away, Certified { change, rows });
    assert!(ledger == billed_on_both_sides()?);
    Ok(())
}

/// 500 kWh in place of 1,000, as QHS.
#[test]
fn rebills_and_cancellations_of_both_sides() -> Result<(), Refusal> {
    let mut ledger = billed_on_both_sides()?;
    ledger.cert(0, QHS)?;
    for (first, last, reference, rate) in [
        (516, 546, 45_000, 160_000),
        (669, 699, 31_200, 160_000),
        (792, 820, 31_200, 217_600),
    ] {
        let rebilled = Rebilled {
            reference,
            rate,
            change: -500 * rate,
        };
        let half = BillNumbers {
            kwh: 500,
            ..span(first, last)
        };
        assert_eq!(ledger.rebill(&book(), half)?, rebilled, "{first}");
    }
    assert_eq!(ledger.cancel(0, 669)?.change, -80_000_000);
    assert_eq!(ledger.cancel(0, 600)?.change, -160_000_000);
    // 80,000,000 + 108,800,000
    let reported = Reported {
        rows: 2,
        kwh: 1_000,
        due: 188_800_000,
    };
    assert_eq!(ledger.report(0)?, reported);
    Ok(())
}

/// The end is day 800: (original entry day, amendment's entry day, ticks of a kWh in a bill that
/// starts on day 800, and in one that starts on day 801).
const MINIMUMS: [(u32, u32, i64, i64); 5] = [
    (791, 791, 160_000, 160_000),
    (791, 792, 160_000, 217_600),
    (792, 791, 217_600, 160_000),
    (792, 792, 217_600, 217_600),
    (0, 851, 160_000, 217_600),
];

#[test]
fn the_first_day_chooses_the_entry_day_of_the_qhs_minimum() -> Result<(), Refusal> {
    for (entry_day, amended_entry_day, on_end, after_end) in MINIMUMS {
        let ledger = amended(entry_day, 800, amended_entry_day)?;
        for (first, reference, rate) in [(800, ORIGINAL_R, on_end), (801, AMENDED_R, after_end)] {
            let mut certified = ledger.clone();
            certified.cert(0, QHS)?;
            let answer = certified.bill(&book(), span(first, first))?;
            assert_eq!(answer, billed(reference, rate), "{entry_day}, {first}");
            let mut re_rated = ledger.clone();
            re_rated.bill(&book(), span(first, first))?;
            re_rated.cert(0, QHS)?;
            assert!(re_rated == certified, "{entry_day}, {first}");
            // the certificate is set aside for a QHS share of all kWh
            let mut shared = ledger.clone();
            let share = BillNumbers {
                qhs_share: 1_000,
                ..span(first, first)
            };
            let amount = shared.bill(&book(), share)?.amount;
            assert_eq!(amount, 1_000 * rate, "{entry_day}, {first}");
        }
    }
    Ok(())
}

/// Day 792 is inside a bill after the end, which is day 780. Of 20 days, 11 are before day 792:
/// 550 kWh at 160,000 and 450 at 217,600, or all 1,000 at 160,000.
#[test]
fn day_792_inside_a_bill_after_the_end() -> Result<(), Refusal> {
    for (entry_day, amended_entry_day, amount) in [
        (791, 792, 185_920_000),
        (792, 792, 185_920_000),
        (792, 791, 160_000_000),
    ] {
        let mut ledger = amended(entry_day, 780, amended_entry_day)?;
        ledger.cert(0, QHS)?;
        let answer = ledger.bill(&book(), span(781, 800))?;
        assert_eq!((answer.rate, answer.amount), (160_000, amount));
    }
    Ok(())
}

/// The bytes of contract 0 with the price-fix day 300 and the entry day 290, which are 0100101100 and
/// 0100100010: without an amendment, and with one of the days 668, 540 and 545, which are 1010011100,
/// 1000011100 and 1000100001.
const UNAMENDED: [u8; 9] = [0x84, 0xB1, 0x22, 0, 0, 0, 0, 0, 0];
const AMENDED: [u8; 9] = [0x84, 0xB1, 0x22, 0x00, 0x0D, 0x39, 0x0E, 0x44, 0x20];

/// The bytes of contract 0: its last five are the end of the effective day, the flag, three days of 10
/// bits and five zero bits.
fn record(ledger: &Ledger) -> &[u8] {
    &ledger.as_bytes()[8..17]
}

/// QHS from day 511 is 10 0111111111.
#[test]
fn the_bytes_of_an_amended_contract() -> Result<(), Refusal> {
    let mut ledger = unamended(290)?;
    assert_eq!(record(&ledger), UNAMENDED);
    let mut expected = ledger.as_bytes().to_vec();
    expected[8..17].copy_from_slice(&AMENDED);
    ledger.amend(0, 668, AMENDED_FIX, 545)?;
    assert!(ledger.as_bytes() == expected);
    ledger.cert(0, QHS)?;
    let certified = [0x84, 0xB1, 0x22, 0x9F, 0xFD, 0x39, 0x0E, 0x44, 0x20];
    assert_eq!(record(&ledger), certified);
    ledger.cert(0, Certificate::None)?;
    assert!(ledger.as_bytes() == expected);
    Ok(())
}

/// The highest days: 851 is 1101010011.
#[test]
fn the_bytes_of_the_highest_days() -> Result<(), Refusal> {
    let mut ledger = unamended(290)?;
    ledger.amend(0, 851, 851, 851)?;
    let expected = [0x84, 0xB1, 0x22, 0x00, 0x0E, 0xA7, 0xA9, 0xEA, 0x60];
    assert_eq!(record(&ledger), expected);
    assert_eq!(Ledger::from_bytes(ledger.as_bytes())?, ledger);
    Ok(())
}

/// The total of a ledger with these bytes as its contract 0.
fn total_with(ledger: &Ledger, record: [u8; 9]) -> Result<[i64; 3], Refusal> {
    let mut bytes = ledger.as_bytes().to_vec();
    bytes[8..17].copy_from_slice(&record);
    calls::total(&bytes)
}

/// The record of the amended contract with bits exchanged, from its fifth byte on.
fn exchanged(bits: [u8; 5]) -> [u8; 9] {
    let mut record = AMENDED;
    for (byte, bits) in record[4..].iter_mut().zip(bits) {
        *byte ^= bits;
    }
    record
}

#[test]
fn stored_amendments_keep_the_ranges_of_amend() -> Result<(), Refusal> {
    let ledger = amended(290, 668, 545)?;
    for (bits, description) in [
        ([0x08, 0, 0, 0, 0], "the flag alone"),
        // 668 is 1010011100, 485 is 0111100101 and 852 is 1101010100
        ([0x06, 0xF2, 0, 0, 0], "the end 485"),
        ([0x03, 0x90, 0, 0, 0], "the end 852"),
        // 540 is 1000011100 and 852 is 1101010100
        ([0, 0, 0xA4, 0, 0], "the price-fix day 852"),
        // 545 is 1000100001 and 852 is 1101010100
        ([0, 0, 0, 0x2E, 0xA0], "the entry day 852"),
        ([0, 0, 0, 0, 0x10], "the first zero bit"),
        ([0, 0, 0, 0, 0x01], "the last zero bit"),
    ] {
        let refused = total_with(&ledger, exchanged(bits));
        assert_eq!(refused, Err(Refusal::NotWellFormed), "{description}");
    }
    for (bits, description) in [
        ([0; 5], "as it is"),
        // 486 is 0111100110 and 851 is 1101010011
        ([0x06, 0xF4, 0, 0, 0], "the end 486"),
        ([0x03, 0x9E, 0, 0, 0], "the end 851"),
        ([0, 0, 0xA7, 0x80, 0], "the price-fix day 851"),
        ([0, 0, 0, 0x2E, 0x40], "the entry day 851"),
    ] {
        let taken = total_with(&ledger, exchanged(bits));
        assert_eq!(taken, Ok([0; 3]), "{description}");
    }
    Ok(())
}

/// The record of a flexible contract, without an amendment and with one.
#[test]
fn only_a_fixed_contract_has_the_flag_set() -> Result<(), Refusal> {
    let ledger = unamended(290)?;
    let flexible = [0xA0, 0, 0, 0, 0, 0, 0, 0, 0];
    assert_eq!(total_with(&ledger, flexible), Ok([0; 3]));
    let amended = [0xA0, 0, 0, 0x00, 0x0D, 0x39, 0x0E, 0x44, 0x20];
    let refused = total_with(&ledger, amended);
    assert_eq!(refused, Err(Refusal::NotWellFormed));
    // fixed, with zeros as its price-fix and entry days
    let fixed = [0x80, 0, 0, 0x00, 0x0D, 0x39, 0x0E, 0x44, 0x20];
    assert_eq!(total_with(&ledger, fixed), Ok([0; 3]));
    Ok(())
}

/// The row is billed before the record gets the end 668. By either entry day it has the same amount.
#[test]
fn a_row_across_the_end_is_not_well_formed() -> Result<(), Refusal> {
    for (first, last, crosses) in [
        (660, 668, false),
        (669, 680, false),
        (668, 669, true),
        (486, 851, true),
    ] {
        let mut ledger = unamended(290)?;
        ledger.bill(&book(), span(first, last))?;
        let expected = match crosses {
            false => Ok([19_610_000, 19_610_000, 0]),
            true => Err(Refusal::NotWellFormed),
        };
        assert_eq!(total_with(&ledger, AMENDED), expected, "{first} to {last}");
    }
    Ok(())
}

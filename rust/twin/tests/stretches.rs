//! Bills in which the class or the QHS minimum changes on a day after the first (document 02,
//! paper 3): amounts over stretches, the rate answered, calls on such bills, and the amounts that
//! a well-formed ledger has of them.

use twin::{BillNumbers, LEDGER_LENGTH};

const FIXED: u32 = 0;
const FLEXIBLE: u32 = 2;

const NONE: u32 = 0;
const ETII: u32 = 1;
const QHS: u32 = 2;

/// A book in which every price is R 40,000.
const BOOK: [u32; 1_740] = [40_000; 1_740];

/// A bill of 1,000 kWh: at baseline 19,610 ticks a kWh, ETII 68,183, QHS 160,000 by the old
/// minimum and 217,600 by the new one.
fn span(first: u32, last: u32) -> BillNumbers {
    BillNumbers {
        contract: 0,
        first,
        last,
        kwh: 1_000,
        supply: 50_000,
        wap: 40_000,
        etii_share: 0,
        qhs_share: 0,
    }
}

/// The same of a fixed contract, which has no weighted price.
fn span_of_fixed(first: u32, last: u32) -> BillNumbers {
    BillNumbers {
        wap: 0,
        ..span(first, last)
    }
}

/// A ledger with a contract 0 of electricity, which has that kind and day of entry and a
/// certificate of that class.
fn certified(kind: u32, entry_day: u32, class: u32, effective_day: u32) -> [u8; LEDGER_LENGTH] {
    let mut ledger = [0; LEDGER_LENGTH];
    twin::start(&mut ledger, 0).expect("a fresh ledger");
    twin::open(&mut ledger, 0, 0, kind, 0, entry_day).expect("an open contract");
    twin::cert(&mut ledger, 0, class, effective_day).expect("a certificate");
    ledger
}

/// The same with a flexible contract.
fn flexible(class: u32, effective_day: u32) -> [u8; LEDGER_LENGTH] {
    certified(FLEXIBLE, 0, class, effective_day)
}

/// The rate and the amount answered for a bill, after which the ledger is well formed with that
/// amount due.
fn rate_and_amount(mut ledger: [u8; LEDGER_LENGTH], numbers: BillNumbers) -> (i64, i64) {
    let [_, rate, amount] = twin::bill(&mut ledger, &BOOK, numbers).expect("a bill");
    assert_eq!(twin::total(&ledger), Ok([amount, amount, 0]), "{numbers:?}");
    (rate, amount)
}

/// (class, effective day, rate, amount) of a bill for the 30 days from 486 to 515: a certificate
/// that takes effect on its first, second or last day, on another day of it, and after it.
#[test]
fn a_certificate_that_begins_inside_a_bill() {
    for (class, effective_day, rate, amount) in [
        // 1,000 kWh at 68,183
        (ETII, 486, 68_183, 68_183_000),
        // floor(1,000 × 1 / 30) = 33 kWh at 19,610 and 967 at 68,183: 647,130 + 65,932,961
        (ETII, 487, 19_610, 66_580_091),
        // floor(1,000 × 10 / 30) = 333 kWh at 19,610 and 667 at 68,183: 6,530,130 + 45,478,061
        (ETII, 496, 19_610, 52_008_191),
        // floor(1,000 × 29 / 30) = 966 kWh at 19,610 and 34 at 68,183: 18,943,260 + 2,318,222
        (ETII, 515, 19_610, 21_261_482),
        // 1,000 kWh at 19,610
        (ETII, 516, 19_610, 19_610_000),
        // floor(1,000 × 25 / 30) = 833 kWh at 19,610 and 167 at 160,000: 16,335,130 + 26,720,000
        (QHS, 511, 19_610, 43_055_130),
        // 966 kWh at 19,610 and 34 at 160,000: 18,943,260 + 5,440,000
        (QHS, 515, 19_610, 24_383_260),
        (QHS, 516, 19_610, 19_610_000),
    ] {
        let answered = rate_and_amount(flexible(class, effective_day), span(486, 515));
        assert_eq!(
            answered,
            (rate, amount),
            "class {class} from {effective_day}"
        );
    }
}

/// (first day, last day, rate, amount) of a bill of a contract that is QHS from day 511 on.
#[test]
fn a_qhs_minimum_that_changes_inside_a_bill() {
    for (first, last, rate, amount) in [
        // 1,000 kWh at 160,000
        (762, 791, 160_000, 160_000_000),
        // 966 kWh at 160,000 and 34 at 217,600: 154,560,000 + 7,398,400
        (763, 792, 160_000, 161_958_400),
        // 333 kWh at 160,000 and 667 at 217,600: 53,280,000 + 145,139,200
        (782, 811, 160_000, 198_419_200),
        // 33 kWh at 160,000 and 967 at 217,600: 5,280,000 + 210,419,200
        (791, 820, 160_000, 215_699_200),
        // floor(1,000 × 1 / 2) = 500 kWh of each: 80,000,000 + 108,800,000
        (791, 792, 160_000, 188_800_000),
        // 1,000 kWh at 217,600
        (792, 821, 217_600, 217_600_000),
    ] {
        let answered = rate_and_amount(flexible(QHS, 511), span(first, last));
        assert_eq!(answered, (rate, amount), "{first} to {last}");
    }
}

/// (effective day, rate, amount) of a QHS contract's bill for the 30 days from 782 to 811, of which
/// ten are before day 792.
#[test]
fn three_stretches() {
    for (effective_day, rate, amount) in [
        // 333 kWh at 160,000 and 667 at 217,600
        (782, 160_000, 198_419_200),
        // floor(1,000 × 5 / 30) = 166 kWh at 19,610, 333 - 166 = 167 at 160,000 and 667 at 217,600:
        // 3,255,260 + 26,720,000 + 145,139,200
        (787, 19_610, 175_114_460),
        // floor(1,000 × 9 / 30) = 300 kWh at 19,610, 33 at 160,000 and 667 at 217,600:
        // 5,883,000 + 5,280,000 + 145,139,200
        (791, 19_610, 156_302_200),
        // 333 kWh at 19,610 and 667 at 217,600: 6,530,130 + 145,139,200
        (792, 19_610, 151_669_330),
        // floor(1,000 × 11 / 30) = 366 kWh at 19,610 and 634 at 217,600: 7,177,260 + 137,958,400
        (793, 19_610, 145_135_660),
        // 966 kWh at 19,610 and 34 at 217,600: 18,943,260 + 7,398,400
        (811, 19_610, 26_341_660),
        (812, 19_610, 19_610_000),
    ] {
        let answered = rate_and_amount(flexible(QHS, effective_day), span(782, 811));
        assert_eq!(answered, (rate, amount), "from {effective_day}");
    }
}

/// (day of entry, amount) of a fixed QHS contract's bill for the 30 days from 782 to 811.
#[test]
fn a_fixed_contract_entered_before_day_792_has_no_change_on_it() {
    for (entry_day, amount) in [
        // 1,000 kWh at 160,000
        (791, 160_000_000),
        // 333 kWh at 160,000 and 667 at 217,600
        (792, 198_419_200),
    ] {
        let ledger = certified(FIXED, entry_day, QHS, 511);
        let answered = rate_and_amount(ledger, span_of_fixed(782, 811));
        assert_eq!(answered, (160_000, amount), "entered on {entry_day}");
    }
    // 166 kWh at 19,610 and 834 at 160,000: 3,255,260 + 133,440,000
    let ledger = certified(FIXED, 791, QHS, 787);
    let answered = rate_and_amount(ledger, span_of_fixed(782, 811));
    assert_eq!(answered, (19_610, 136_695_260));
}

/// (first day, ETII share, QHS share, amount) of a bill for 30 days: the shares are spread each by
/// itself, the rest is baseline, and the certificate is set aside.
#[test]
fn a_qhs_share_across_day_792() {
    for (first, etii_share, qhs_share, amount) in [
        // 200 kWh at 19,610, 300 at 68,183, floor(500 × 10 / 30) = 166 at 160,000 and 334 at
        // 217,600: 3,922,000 + 20,454,900 + 26,560,000 + 72,678,400
        (782, 300, 500, 123_615_300),
        // the same with floor(500 × 1 / 30) = 16 at 160,000 and 484 at 217,600:
        // 24,376,900 + 2,560,000 + 105,318,400
        (791, 300, 500, 132_255_300),
        // 500 at 217,600: 24,376,900 + 108,800,000
        (792, 300, 500, 133_176_900),
        // 500 at 160,000: 24,376,900 + 80,000,000
        (762, 300, 500, 104_376_900),
        // 333 kWh at 160,000 and 667 at 217,600
        (782, 0, 1_000, 198_419_200),
        // 999 kWh at 19,610 and floor(1 × 10 / 30) = 0 at 160,000, so 1 at 217,600
        (782, 0, 1, 19_807_990),
        // 700 kWh at 19,610 and 300 at 68,183: 13,727,000 + 20,454,900
        (782, 300, 0, 34_181_900),
    ] {
        for (class, effective_day) in [(NONE, 0), (ETII, 787), (QHS, 787)] {
            let numbers = BillNumbers {
                etii_share,
                qhs_share,
                ..span(first, first + 29)
            };
            let answered = rate_and_amount(flexible(class, effective_day), numbers);
            assert_eq!(answered, (19_610, amount), "class {class}, {numbers:?}");
        }
    }
}

#[test]
fn a_qhs_share_of_a_fixed_contract_entered_before_day_792() {
    let numbers = BillNumbers {
        qhs_share: 500,
        ..span_of_fixed(782, 811)
    };
    // 500 kWh at 19,610 and 500 at 160,000: 9,805,000 + 80,000,000
    let ledger = certified(FIXED, 791, NONE, 0);
    assert_eq!(rate_and_amount(ledger, numbers), (19_610, 89_805_000));
    // 500 kWh at 19,610, 166 at 160,000 and 334 at 217,600: 9,805,000 + 26,560,000 + 72,678,400
    let ledger = certified(FIXED, 792, NONE, 0);
    assert_eq!(rate_and_amount(ledger, numbers), (19_610, 109_043_400));
}

/// (kWh, class, effective day, amount) of a bill for all 366 days of the scheme.
#[test]
fn few_and_many_kwh() {
    for (kwh, class, effective_day, amount) in [
        (0, ETII, 500, 0),
        // floor(1 × 365 / 366) = 0 kWh before the last day, so 1 on it
        (1, ETII, 851, 68_183),
        // floor(39,999,999 × 14 / 366) = 1,530,054 kWh at 19,610 and 38,469,945 at 68,183:
        // 30,004,358,940 + 2,622,996,259,935
        (39_999_999, ETII, 500, 2_653_000_618_875),
        // floor(39,999,999 × 25 / 366) = 2,732,240 kWh at 19,610, floor(39,999,999 × 306 / 366) -
        // 2,732,240 = 30,710,382 at 160,000 and 6,557,377 at 217,600:
        // 53,579,226,400 + 4,913,661,120,000 + 1,426,885,235,200
        (39_999_999, QHS, 511, 6_394_125_581_600),
    ] {
        let numbers = BillNumbers {
            kwh,
            ..span(486, 851)
        };
        let answered = rate_and_amount(flexible(class, effective_day), numbers);
        assert_eq!(answered, (19_610, amount), "{kwh} kWh, class {class}");
    }
}

/// R 25,000 is below the baseline's support price: the rate of the first day is 0. ETII is
/// 7 × 6,500 = 45,500 ticks a kWh, of which there are 667.
#[test]
fn a_rate_of_0_beside_an_amount() {
    let numbers = BillNumbers {
        wap: 25_000,
        ..span(486, 515)
    };
    let answered = rate_and_amount(flexible(ETII, 496), numbers);
    assert_eq!(answered, (0, 30_348_500));
}

#[test]
fn calls_on_a_bill_with_a_change_inside() {
    let mut ledger = flexible(NONE, 0);
    let ledger = &mut ledger[..];
    twin::bill(ledger, &BOOK, span(486, 515)).expect("a bill");
    twin::bill(ledger, &BOOK, span(782, 811)).expect("a bill");
    // ETII begins inside the first, and the second is ETII on all its days:
    // 52,008,191 + 68,183,000 - 2 × 19,610,000
    assert_eq!(twin::cert(ledger, 0, ETII, 496), Ok([80_971_191, 2, 0]));
    // 52,008,191 + 68,183,000 = 120,191,191
    assert_eq!(twin::claim(ledger), Ok([12_019, 1_191, 0]));
    // 43,055,130 + 198,419,200 - 120,191,191
    assert_eq!(twin::cert(ledger, 0, QHS, 511), Ok([121_283_139, 2, 0]));
    assert_eq!(twin::report(ledger, 0), Ok([2, 2_000, 241_474_330]));
    // the first is before the certificate: 19,610,000 + 175,114,460 - 241,474,330
    assert_eq!(twin::cert(ledger, 0, QHS, 787), Ok([-46_749_870, 2, 0]));
    // 782 to 786 is before the certificate: 19,610,000 - 175,114,460
    let rebilled = [40_000, 19_610, -155_504_460];
    assert_eq!(twin::rebill(ledger, &BOOK, span(782, 786)), Ok(rebilled));
    let again = [40_000, 19_610, 155_504_460];
    assert_eq!(twin::rebill(ledger, &BOOK, span(782, 811)), Ok(again));
    assert_eq!(twin::cancel(ledger, 0, 782), Ok([-175_114_460, 0, 0]));
    assert_eq!(twin::total(ledger), Ok([19_610_000, -100_580_000, 0]));
    assert_eq!(twin::cert(ledger, 0, NONE, 0), Ok([0, 0, 0]));
}

/// The bytes of the class and the effective day are put beside a bill at baseline, as a
/// certificate would have left it before amounts were taken over stretches.
#[test]
fn an_amount_of_the_first_day_s_class_is_number_2() {
    let mut ledger = flexible(NONE, 0);
    twin::bill(&mut ledger, &BOOK, span(486, 515)).expect("a bill");
    // ETII from day 516, after the bill
    ledger[11..13].copy_from_slice(&[0x60, 0x40]);
    assert_eq!(twin::total(&ledger), Ok([19_610_000, 19_610_000, 0]));
    // ETII from day 515, the bill's last
    ledger[11..13].copy_from_slice(&[0x60, 0x30]);
    assert_eq!(twin::total(&ledger), Err(2));
    assert_eq!(twin::cert(&mut ledger, 0, NONE, 0), Err(2));
    assert_eq!(twin::cancel(&mut ledger, 0, 486), Err(2));
}

/// The same for a bill across day 792 at the old minimum: the day of entry, 791, becomes 792.
#[test]
fn an_amount_of_the_first_day_s_minimum_is_number_2() {
    let mut ledger = certified(FIXED, 791, QHS, 511);
    twin::bill(&mut ledger, &BOOK, span_of_fixed(782, 811)).expect("a bill");
    assert_eq!(twin::total(&ledger), Ok([160_000_000, 160_000_000, 0]));
    ledger[10] = 0x18;
    assert_eq!(twin::total(&ledger), Err(2));
}

//! The worked examples of the guidance, sections 3.4 and 3.5, each under its own title.
//!
//! The guidance's prices in p/kWh are written here in mils (30.2p is 30_200), its discounts
//! in ticks (1.961p is 19_610) and its pounds in ten-thousandths of a penny (£1 is 1_000_000).

use calculator::book::{entry_needed, BOOK_ENTRIES};
use calculator::dates::day_number;
use calculator::rates::{amount, rate, Amendment, Bill, Certificate, Contract, Fuel, Kind};

const SCHEME_START_DAY: u32 = 486;
const SCHEME_INTRODUCTION_DAY: u32 = 511;

/// The last day of April 2023, the billing period of the examples that name one.
const END_OF_APRIL: u32 = 515;

const ETII_FROM_START: Certificate = Certificate::Etii {
    effective_day: SCHEME_START_DAY,
};

/// A QHS certificate is effective from 26 April 2023 at the earliest (section 1.4).
const QHS_FROM_INTRODUCTION: Certificate = Certificate::Qhs {
    effective_day: SCHEME_INTRODUCTION_DAY,
};

/// The day number of a date in the range.
fn day(year: u32, month: u32, day: u32) -> u32 {
    day_number(year, month, day).expect("the day is in the range")
}

/// A fixed contract priced and entered on one date.
fn fixed_on(year: u32, month: u32, day_of_month: u32) -> Kind {
    let signed = day(year, month, day_of_month);
    Kind::Fixed {
        price_fix_day: signed,
        entry_day: signed,
    }
}

/// An amount in whole pence, rounded half up as the guidance prints it.
fn printed_pence(amount: i64) -> i64 {
    (amount + 5_000) / 10_000
}

/// Section 3.4, "Fixed price contract example – Baseline support": 1.961p/kWh.
#[test]
fn fixed_price_contract_baseline_support() {
    let contract = Contract {
        fuel: Fuel::Electricity,
        kind: fixed_on(2022, 12, 3),
        certificate: Certificate::None,
        amendment: None,
    };
    let bill = Bill {
        first_day: SCHEME_START_DAY,
        last_day: END_OF_APRIL,
        kwh: 1,
        reference_price: 43_810,
        supply_price: 91_200,
        ..Bill::default()
    };
    assert_eq!(rate(&contract, &bill), 19_610);
}

/// Section 3.4, "Fixed Price Contract example – ETII support": 0.5883 + 6.23 = 6.8183p/kWh,
/// which the guidance prints as 6.82. Its £275.60 for 4,041 kWh comes from the printed
/// 6.82; the formula's rate gives £275.53.
#[test]
fn fixed_price_contract_etii_support() {
    let contract = Contract {
        fuel: Fuel::Electricity,
        kind: fixed_on(2022, 10, 9),
        certificate: ETII_FROM_START,
        amendment: None,
    };
    let bill = Bill {
        first_day: SCHEME_START_DAY,
        last_day: END_OF_APRIL,
        kwh: 4_041,
        reference_price: 32_330,
        supply_price: 61_200,
        ..Bill::default()
    };
    let exact_rate = rate(&contract, &bill);
    assert_eq!(exact_rate, 5_883 + 62_300);
    let printed_rate = (exact_rate + 50) / 100 * 100;
    assert_eq!(printed_rate, 68_200);
    assert_eq!(printed_pence(bill.kwh * printed_rate), 27_560);
    assert_eq!(amount(&contract, &bill), 275_527_503);
    assert_eq!(printed_pence(amount(&contract, &bill)), 27_553);
}

/// Section 3.4, "Fixed price contract example – QHS support": 3.8p/kWh and £9,280.36 for
/// 244,220 kWh. The example discounts all of April 2023. A certificate is effective from
/// 26 April 2023 at the earliest, and the baseline class gets nothing at this reference
/// wholesale price: of a bill of April's 30 days, the first 25 have floor(244,220 × 25 / 30) =
/// 203,516 kWh, and the last 5 the other 40,704, which get 3.8p.
#[test]
fn fixed_price_contract_qhs_support() {
    let contract = Contract {
        fuel: Fuel::Gas,
        kind: fixed_on(2022, 12, 28),
        certificate: QHS_FROM_INTRODUCTION,
        amendment: None,
    };
    let bill = Bill {
        first_day: SCHEME_INTRODUCTION_DAY,
        last_day: END_OF_APRIL,
        kwh: 244_220,
        reference_price: 7_610,
        supply_price: 11_630,
        ..Bill::default()
    };
    assert_eq!(rate(&contract, &bill), 38_000);
    assert_eq!(amount(&contract, &bill), 9_280_360_000);
    let from_start = Bill {
        first_day: SCHEME_START_DAY,
        ..bill
    };
    assert_eq!(rate(&contract, &from_start), 0);
    assert_eq!(amount(&contract, &from_start), 1_546_752_000);
}

/// Section 3.4, "Variable Price contract example – QHS support": 3.50p/kWh, with the
/// minimum supply price of 1 February 2024.
#[test]
fn variable_price_contract_qhs_support() {
    let contract = Contract {
        fuel: Fuel::Gas,
        kind: Kind::Variable,
        certificate: QHS_FROM_INTRODUCTION,
        amendment: None,
    };
    let bill = Bill {
        first_day: day(2024, 2, 1),
        last_day: day(2024, 2, 29),
        kwh: 1,
        reference_price: 4_200,
        supply_price: 10_000,
        ..Bill::default()
    };
    assert_eq!(rate(&contract, &bill), 35_000);
}

/// Section 3.4, "Variable price contract example": the published baseline discount is zero,
/// so there is none, "even if the variable tariff increases". The reference wholesale price
/// is not printed; 30.2p/kWh is the highest with a published discount of zero.
#[test]
fn variable_price_contract_baseline_support() {
    let contract = Contract {
        fuel: Fuel::Electricity,
        kind: Kind::Variable,
        certificate: Certificate::None,
        amendment: None,
    };
    for reference_price in [0, 18_500, 30_199, 30_200] {
        for supply_price in [33_730, 40_000, 999_999] {
            let bill = Bill {
                first_day: SCHEME_START_DAY,
                last_day: END_OF_APRIL,
                kwh: 1,
                reference_price,
                supply_price,
                ..Bill::default()
            };
            assert_eq!(rate(&contract, &bill), 0);
        }
    }
}

/// Section 3.4, "Flexible price contract example – baseline support": 1.78p/kWh.
#[test]
fn flexible_price_contract_baseline_support() {
    let contract = Contract {
        fuel: Fuel::Electricity,
        kind: Kind::Flexible,
        certificate: Certificate::None,
        amendment: None,
    };
    let bill = Bill {
        first_day: SCHEME_START_DAY,
        last_day: END_OF_APRIL,
        kwh: 1,
        reference_price: 31_980,
        supply_price: 67_030,
        ..Bill::default()
    };
    assert_eq!(rate(&contract, &bill), 17_800);
}

/// Section 3.4, "Flexible price contract example – ETII support": 0.5883 + 6.23 =
/// 6.8183p/kWh, which the guidance prints as 6.82.
#[test]
fn flexible_price_contract_etii_support() {
    let contract = Contract {
        fuel: Fuel::Electricity,
        kind: Kind::Flexible,
        certificate: ETII_FROM_START,
        amendment: None,
    };
    let bill = Bill {
        first_day: SCHEME_START_DAY,
        last_day: END_OF_APRIL,
        kwh: 1,
        reference_price: 35_000,
        supply_price: 58_330,
        ..Bill::default()
    };
    assert_eq!(rate(&contract, &bill), 68_183);
}

/// R on 3 December 2022, when the contract of the blend and extend examples was fixed: that of
/// the fixed price contract example for baseline support.
const ORIGINAL_PRICE: u32 = 43_810;

/// R on 15 May 2023, when that contract was amended: 0.5p above the baseline support price.
const AMENDED_PRICE: u32 = 30_700;

/// The contract of the blend and extend examples, with its price-fix and entry days the day on
/// which it was agreed and the day on which it was amended.
fn blended_and_extended(original_end_day: u32) -> Contract {
    let amended = day(2023, 5, 15);
    Contract {
        fuel: Fuel::Electricity,
        kind: fixed_on(2022, 12, 3),
        certificate: Certificate::None,
        amendment: Some(Amendment {
            original_end_day,
            price_fix_day: amended,
            entry_day: amended,
        }),
    }
}

/// R and the rate of a month's bill at the supply price under the contract.
fn price_and_rate(contract: &Contract, (year, month): (u32, u32), supply_price: i64) -> (u32, i64) {
    let mut book = [0; BOOK_ENTRIES];
    book[day(2022, 12, 3) as usize] = ORIGINAL_PRICE;
    book[day(2023, 5, 15) as usize] = AMENDED_PRICE;
    let first_day = day(year, month, 1);
    let entry = entry_needed(contract, first_day).expect("a fixed contract needs an entry");
    let last_days = (28..=31).filter_map(|last| day_number(year, month, last));
    let bill = Bill {
        first_day,
        last_day: last_days.last().expect("the month is in the range"),
        kwh: 1,
        reference_price: book[entry].into(),
        supply_price,
        ..Bill::default()
    };
    (book[entry], rate(contract, &bill))
}

/// Checks a blend and extend from the supply price of the fixed price contract example to the
/// blended one from 1 June 2023 on. The original term lasts as long as the scheme, and then only
/// until 30 September 2023. The base discount is the original one, 43.81p − 30.2p, up to the
/// original end, and after it that of the amendment, 30.7p − 30.2p (sections 3.2 and 3.4).
fn check_blend_and_extend(blended: i64, until_original_end: i64, after_original_end: i64) {
    let scheme_end = blended_and_extended(day(2024, 3, 31));
    let september = blended_and_extended(day(2023, 9, 30));
    let original = (ORIGINAL_PRICE, until_original_end);
    let amended = (AMENDED_PRICE, after_original_end);
    for contract in [scheme_end, september] {
        let before_june = price_and_rate(&contract, (2023, 5), 91_200);
        assert_eq!(before_june, (ORIGINAL_PRICE, 19_610));
        for month in [(2023, 6), (2023, 9)] {
            assert_eq!(price_and_rate(&contract, month, blended), original);
        }
    }
    for month in [(2023, 10), (2024, 3)] {
        assert_eq!(price_and_rate(&scheme_end, month, blended), original);
        assert_eq!(price_and_rate(&september, month, blended), amended);
    }
}

/// Section 3.4, "Illustrative Examples", example 1 of blend and extend: the maximum discount
/// before and after 1 June 2023, "for the duration of the scheme" where the original term lasts
/// as long. The guidance's text gives the examples no price and no other date, so these are
/// chosen here.
#[test]
fn blend_and_extend_without_engaging_the_threshold() {
    check_blend_and_extend(60_000, 19_610, 5_000);
}

/// Example 2: below the threshold the discount is zero, "from 1 June 2023" on.
#[test]
fn blend_and_extend_to_below_the_threshold() {
    check_blend_and_extend(29_000, 0, 0);
}

/// Example 3: "from 1 June" on the supply price less the minimum supply price, 31.2p − 30.2p.
#[test]
fn blend_and_extend_to_near_the_threshold() {
    check_blend_and_extend(31_200, 10_000, 5_000);
}

/// Section 3.5, "Table 1: Breakdown of the Discount apportionment": the intermediary's
/// flexible gas contract, treated as three separate contracts. Each row has the certificate,
/// the kWh, the discount in ticks and the printed discount in pence.
#[test]
fn intermediary_discount_apportionment() {
    let table = [
        (Certificate::None, 808_750, 4_700, 380_113),
        (ETII_FROM_START, 1_294_000, 10_300, 1_332_820),
        (QHS_FROM_INTRODUCTION, 1_132_250, 73_600, 8_333_360),
    ];
    let mut total_kwh = 0;
    let mut total_amount = 0;
    for (certificate, kwh, expected_rate, expected_pence) in table {
        let contract = Contract {
            fuel: Fuel::Gas,
            kind: Kind::Flexible,
            certificate,
            amendment: None,
        };
        let bill = Bill {
            first_day: SCHEME_INTRODUCTION_DAY,
            last_day: END_OF_APRIL,
            kwh,
            reference_price: 11_170,
            supply_price: 15_190,
            ..Bill::default()
        };
        assert_eq!(rate(&contract, &bill), expected_rate);
        assert_eq!(printed_pence(amount(&contract, &bill)), expected_pence);
        total_kwh += kwh;
        total_amount += amount(&contract, &bill);
    }
    assert_eq!(total_kwh, 3_235_000);
    assert_eq!(printed_pence(total_amount), 10_046_293);
}

/// The same table as one bill with an ETII and a QHS share (document 02, paper 1).
#[test]
fn intermediary_discount_on_one_bill() {
    let contract = Contract {
        fuel: Fuel::Gas,
        kind: Kind::Flexible,
        certificate: Certificate::None,
        amendment: None,
    };
    let bill = Bill {
        first_day: SCHEME_INTRODUCTION_DAY,
        last_day: END_OF_APRIL,
        kwh: 3_235_000,
        etii_share: 1_294_000,
        qhs_share: 1_132_250,
        reference_price: 11_170,
        supply_price: 15_190,
    };
    assert_eq!(rate(&contract, &bill), 4_700);
    assert_eq!(amount(&contract, &bill), 100_462_925_000);
    assert_eq!(printed_pence(amount(&contract, &bill)), 10_046_293);
}

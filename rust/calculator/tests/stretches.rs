//! Bills with a change inside (document 02, paper 3): a certificate that begins inside, day
//! 792 inside a QHS bill or under a QHS share, and both. The expected kWh and amounts are
//! worked by hand in the comments.
//!
//! Unless a test says otherwise, R is 40,000 and S is 50,000 mils of electricity. A kWh then
//! has 10 × 1,961 = 19,610 ticks in the baseline class, 3 × 1,961 + 7 × 8,900 = 68,183 in
//! ETII, 10 × (50,000 − 34,000) = 160,000 in QHS at the old minimum and
//! 10 × (50,000 − 28,240) = 217,600 at the new one.

mod common;
mod desk;

use calculator::codes::Territory;
use calculator::rates::{
    amount, cap, class_of_bill, new_qhs_minimum_applies, rate, Bill, Certificate, Class, Contract,
    Fuel, Kind,
};
use desk::Desk;

const BASELINE: i64 = 19_610;
const ETII: i64 = 68_183;
const OLD_QHS: i64 = 160_000;
const NEW_QHS: i64 = 217_600;

const NO_SHARES: (i64, i64) = (0, 0);

const QHS_FROM_511: Certificate = Certificate::Qhs { effective_day: 511 };

const fn fixed_entered_on(entry_day: u32) -> Kind {
    Kind::Fixed {
        price_fix_day: 0,
        entry_day,
    }
}

/// An electricity contract.
fn contract(kind: Kind, certificate: Certificate) -> Contract {
    Contract {
        fuel: Fuel::Electricity,
        kind,
        certificate,
        amendment: None,
    }
}

fn flexible(certificate: Certificate) -> Contract {
    contract(Kind::Flexible, certificate)
}

/// A bill of the span and kWh, with an ETII and a QHS share.
fn bill((first_day, last_day): (u32, u32), kwh: i64, (etii_share, qhs_share): (i64, i64)) -> Bill {
    Bill {
        first_day,
        last_day,
        kwh,
        etii_share,
        qhs_share,
        reference_price: 40_000,
        supply_price: 50_000,
    }
}

/// Of 30 days 10 are before day 496: floor(1,000 × 10 / 30) = 333 kWh, and the other 667 from
/// it on. 333 × 19,610 = 6,530,130 and 667 × 68,183 = 45,478,061.
///
/// Misreadings: the kWh of the last 20 days rounded down, which would give 666 of them the
/// ETII rate; the effective day itself left in the baseline class, which would have 366.
#[test]
fn an_etii_certificate_begins_inside() {
    let contract = flexible(Certificate::Etii { effective_day: 496 });
    let bill = bill((486, 515), 1_000, NO_SHARES);
    assert_eq!(amount(&contract, &bill), 52_008_191);
    assert_eq!(rate(&contract, &bill), BASELINE);
}

/// Of 21 days 11 are before day 511: floor(1,000 × 11 / 21) = 523 kWh, and the other 477 from
/// it on. 523 × 19,610 = 10,256,030 and 477 × 160,000 = 76,320,000.
#[test]
fn a_qhs_certificate_begins_inside() {
    let contract = flexible(QHS_FROM_511);
    let bill = bill((500, 520), 1_000, NO_SHARES);
    assert_eq!(amount(&contract, &bill), 86_576_030);
    assert_eq!(rate(&contract, &bill), BASELINE);
}

/// Of 20 days 10 are before day 792: floor(999 × 10 / 20) = 499 kWh, and the other 500 from it
/// on. 499 × 160,000 = 79,840,000 and 500 × 217,600 = 108,800,000. A fixed contract entered
/// before day 792 keeps the old minimum: 999 × 160,000 = 159,840,000.
#[test]
fn the_qhs_minimum_changes_inside() {
    for (kind, expected) in [
        (Kind::Flexible, 188_640_000),
        (Kind::Variable, 188_640_000),
        (Kind::DayAheadIndex, 188_640_000),
        (fixed_entered_on(0), 159_840_000),
        (fixed_entered_on(791), 159_840_000),
        (fixed_entered_on(792), 188_640_000),
        (fixed_entered_on(851), 188_640_000),
    ] {
        let contract = contract(kind, QHS_FROM_511);
        let bill = bill((782, 801), 999, NO_SHARES);
        assert_eq!(amount(&contract, &bill), expected, "{kind:?}");
        assert_eq!(rate(&contract, &bill), OLD_QHS, "{kind:?}");
    }
}

/// The same days and kWh of gas, at R 25,000 and S 30,000: a kWh has
/// 10 × (30,000 − 7,830) = 221,700 ticks at the old minimum and 10 × (30,000 − 6,500) = 235,000
/// at the new one. 499 × 221,700 = 110,628,300 and 500 × 235,000 = 117,500,000.
#[test]
fn the_qhs_minimum_of_gas_changes_inside() {
    let contract = Contract {
        fuel: Fuel::Gas,
        ..flexible(QHS_FROM_511)
    };
    let bill = Bill {
        reference_price: 25_000,
        supply_price: 30_000,
        ..bill((782, 801), 999, NO_SHARES)
    };
    assert_eq!(amount(&contract, &bill), 228_128_300);
}

/// Of 21 days 5 are before day 785 and 12 before day 792: floor(100 × 5 / 21) = 23 and
/// floor(100 × 12 / 21) = 57. So 23 kWh are baseline, 57 − 23 = 34 have the old minimum and
/// 100 − 57 = 43 the new one: 451,030, 5,440,000 and 9,356,800. With the old minimum kept 77
/// have it: 12,320,000.
///
/// Misreading: each stretch's kWh rounded down by itself, which would give
/// floor(100 × 7 / 21) = 33 and floor(100 × 9 / 21) = 42 and lose 2.
#[test]
fn a_qhs_certificate_begins_and_its_minimum_changes_inside() {
    let certificate = Certificate::Qhs { effective_day: 785 };
    for (kind, expected) in [
        (Kind::Flexible, 15_247_830),
        (fixed_entered_on(792), 15_247_830),
        (fixed_entered_on(791), 12_771_030),
    ] {
        let contract = contract(kind, certificate);
        let bill = bill((780, 800), 100, NO_SHARES);
        assert_eq!(amount(&contract, &bill), expected, "{kind:?}");
        assert_eq!(rate(&contract, &bill), BASELINE, "{kind:?}");
    }
}

/// Of 21 days 12 are before day 792 and 17 before day 797. A certificate from day 797 on
/// leaves day 792 in the baseline class: floor(100 × 17 / 21) = 80 kWh are baseline and 20
/// have the new minimum; one from day 792 on: 57 and 43. An ETII certificate has no cut at day
/// 792 at all: from day 785 on, 23 kWh are baseline and 77 ETII.
#[test]
fn day_792_is_no_change_outside_qhs() {
    for (certificate, expected) in [
        (
            Certificate::Qhs { effective_day: 797 },
            80 * BASELINE + 20 * NEW_QHS,
        ),
        (
            Certificate::Qhs { effective_day: 792 },
            57 * BASELINE + 43 * NEW_QHS,
        ),
        (
            Certificate::Etii { effective_day: 785 },
            23 * BASELINE + 77 * ETII,
        ),
        (Certificate::Etii { effective_day: 486 }, 100 * ETII),
        (Certificate::None, 100 * BASELINE),
    ] {
        let bill = bill((780, 800), 100, NO_SHARES);
        let found = amount(&flexible(certificate), &bill);
        assert_eq!(found, expected, "{certificate:?}");
    }
}

/// Of 21 days 10 are before day 792: of a QHS share of 4 kWh floor(4 × 10 / 21) = 1 has the old
/// minimum and 3 the new one; where it is kept all 4 the old one. The ETII share of 3 kWh and
/// the rest of 3 keep their rates: 3 × 68,183 = 204,549 and 3 × 19,610 = 58,830. So
/// 263,379 + 160,000 + 652,800 = 1,076,179, or 263,379 + 640,000 = 903,379.
#[test]
fn the_minimum_of_a_qhs_share_changes_inside() {
    for certificate in [
        Certificate::None,
        QHS_FROM_511,
        Certificate::Qhs { effective_day: 785 },
        Certificate::Etii { effective_day: 790 },
    ] {
        for (kind, expected) in [
            (Kind::Flexible, 1_076_179),
            (fixed_entered_on(792), 1_076_179),
            (fixed_entered_on(791), 903_379),
        ] {
            let contract = contract(kind, certificate);
            let bill = bill((782, 802), 10, (3, 4));
            assert_eq!(amount(&contract, &bill), expected, "{contract:?}");
            assert_eq!(rate(&contract, &bill), BASELINE, "{contract:?}");
        }
    }
}

/// Two days, 791 and 792, of 7 kWh with a QHS share of 4: floor(4 / 2) = 2 kWh of the share on
/// each day, and the rest of 3: 58,830 + 320,000 + 435,200 = 814,030.
///
/// Misreading: the share as a portion of the bill's kWh of the day. The first day has
/// floor(7 / 2) = 3 kWh, of which floor(3 × 4 / 7) = 1 would be the share's; the other 3 would
/// have the new minimum: 871,630.
#[test]
fn a_share_is_spread_by_itself() {
    let bill = bill((791, 792), 7, (0, 4));
    assert_eq!(amount(&flexible(Certificate::None), &bill), 814_030);
}

/// An ETII share of 1 kWh is on the last of 30 days alone. On the other days, too, the rest of
/// 999 kWh is baseline and the certificate set aside: 19,590,390 + 68,183.
#[test]
fn a_certificate_is_set_aside_on_days_without_kwh_of_a_share() {
    for certificate in [
        Certificate::Etii { effective_day: 486 },
        Certificate::Etii { effective_day: 500 },
        QHS_FROM_511,
    ] {
        let bill = bill((486, 515), 1_000, (1, 0));
        let found = amount(&flexible(certificate), &bill);
        assert_eq!(found, 19_658_573, "{certificate:?}");
    }
}

/// The kWh of 1,000 before a cut of 30 days: none where it is the first day, floor(1,000 / 30) =
/// 33 where it is the second, floor(1,000 × 29 / 30) = 966 where it is the last, and all where
/// it is the day after the last.
const KWH_BEFORE_CUTS: [i64; 4] = [0, 33, 966, 1_000];

#[test]
fn a_certificate_from_the_first_and_the_last_days() {
    for (effective_day, before) in [486, 487, 515, 516].into_iter().zip(KWH_BEFORE_CUTS) {
        let contract = flexible(Certificate::Etii { effective_day });
        let bill = bill((486, 515), 1_000, NO_SHARES);
        let expected = before * BASELINE + (1_000 - before) * ETII;
        assert_eq!(amount(&contract, &bill), expected, "{effective_day}");
        let expected_rate = if before == 0 { ETII } else { BASELINE };
        assert_eq!(rate(&contract, &bill), expected_rate, "{effective_day}");
    }
}

#[test]
fn day_792_among_the_first_and_the_last_days() {
    for (first, before) in [792, 791, 763, 762].into_iter().zip(KWH_BEFORE_CUTS) {
        let contract = flexible(QHS_FROM_511);
        let minimums = before * OLD_QHS + (1_000 - before) * NEW_QHS;
        let all_qhs = bill((first, first + 29), 1_000, NO_SHARES);
        assert_eq!(amount(&contract, &all_qhs), minimums, "{first}");
        let share = bill((first, first + 29), 1_500, (0, 1_000));
        let expected = 500 * BASELINE + minimums;
        assert_eq!(amount(&contract, &share), expected, "{first}");
    }
}

/// 7 kWh over 30 days: floor(7 × j / 30) kWh in the first j days is 0 up to j = 4, 1 from
/// j = 5 on (35 / 30), 2 from j = 9 on (63 / 30), 6 at j = 29 (203 / 30).
#[test]
fn days_without_kwh() {
    for (effective_day, before) in [
        (486, 0),
        (487, 0),
        (490, 0),
        (491, 1),
        (494, 1),
        (495, 2),
        (515, 6),
        (516, 7),
    ] {
        let contract = flexible(Certificate::Etii { effective_day });
        let bill = bill((486, 515), 7, NO_SHARES);
        let expected = before * BASELINE + (7 - before) * ETII;
        assert_eq!(amount(&contract, &bill), expected, "{effective_day}");
    }
}

/// 1 kWh over all 366 days is on the last one.
#[test]
fn one_kwh_is_on_the_last_day() {
    for effective_day in [486, 487, 792, 850, 851] {
        let contract = flexible(Certificate::Etii { effective_day });
        let bill = bill((486, 851), 1, NO_SHARES);
        assert_eq!(amount(&contract, &bill), ETII, "{effective_day}");
    }
}

#[test]
fn a_bill_of_0_kwh_has_no_amount() {
    for effective_day in [511, 785, 792, 800] {
        let contract = flexible(Certificate::Qhs { effective_day });
        let bill = bill((780, 800), 0, NO_SHARES);
        assert_eq!(amount(&contract, &bill), 0, "{effective_day}");
        assert_eq!(cap(&contract, &bill), 0, "{effective_day}");
    }
}

#[test]
fn a_bill_of_one_day_has_no_change_inside() {
    for (day, expected) in [
        (784, BASELINE),
        (785, OLD_QHS),
        (791, OLD_QHS),
        (792, NEW_QHS),
    ] {
        let contract = flexible(Certificate::Qhs { effective_day: 785 });
        let bill = bill((day, day), 999, NO_SHARES);
        assert_eq!(amount(&contract, &bill), 999 * expected, "{day}");
        assert_eq!(rate(&contract, &bill), expected, "{day}");
    }
}

/// At R 30,201 and S 34,001 a kWh has 10 ticks in the baseline class and 10 in QHS at the old
/// minimum: every kWh is in one of the stretches, wherever the certificate begins.
#[test]
fn the_kwh_of_the_stretches_add_up() {
    for effective_day in 511..=792 {
        for kwh in [0, 1, 2, 3, 6, 7, 1_000, 99_999, 99_999_999, 100_000_000] {
            let contract = flexible(Certificate::Qhs { effective_day });
            let bill = Bill {
                reference_price: 30_201,
                supply_price: 34_001,
                ..bill((600, 606), kwh, NO_SHARES)
            };
            assert_eq!(amount(&contract, &bill), 10 * kwh, "{effective_day}");
        }
    }
}

/// The caps of a kWh are 19,610 in the baseline class, and 160,000 and 217,600 in QHS; those of
/// the three stretches of 23, 34 and 43 kWh are 451,030 + 5,440,000 + 9,356,800. At R 18,000
/// the baseline stretch has no amount, R leaves the old minimum's rate and bounds the new one's
/// at 180,000: 5,440,000 + 7,740,000.
#[test]
fn the_cap_is_taken_over_stretches() {
    let contract = flexible(Certificate::Qhs { effective_day: 785 });
    let at_its_cap = bill((780, 800), 100, NO_SHARES);
    assert_eq!(cap(&contract, &at_its_cap), 15_247_830);
    assert_eq!(amount(&contract, &at_its_cap), 15_247_830);
    let below_it = Bill {
        reference_price: 18_000,
        ..at_its_cap
    };
    assert_eq!(cap(&contract, &below_it), 15_247_830);
    assert_eq!(amount(&contract, &below_it), 13_180_000);
    let etii = flexible(Certificate::Etii { effective_day: 785 });
    assert_eq!(cap(&etii, &below_it), 23 * 19_610 + 77 * 68_183);
    let shares = bill((782, 802), 10, (3, 4));
    assert_eq!(cap(&contract, &shares), 1_076_179);
}

/// 100,000,000 kWh of all 366 days at the highest prices. 25 days are before day 511 and 306
/// before day 792: floor(100,000,000 × 25 / 366) = 6,830,601 kWh and
/// floor(100,000,000 × 306 / 366) = 83,606,557. So 6,830,601 kWh have 19,610 ticks,
/// 76,775,956 have 10 × (999,999 − 34,000) = 9,659,990 and 16,393,443 have
/// 10 × (999,999 − 28,240) = 9,717,590.
#[test]
fn the_most_kwh_over_the_most_days() {
    let highest = Bill {
        reference_price: 999_999,
        supply_price: 999_999,
        ..bill((486, 851), 100_000_000, NO_SHARES)
    };
    // 133,948,085,610 + 741,654,967,200,440 + 159,304,757,762,370
    let expected = 901_093_673_048_420;
    assert_eq!(amount(&flexible(QHS_FROM_511), &highest), expected);
    let share = Bill {
        qhs_share: 100_000_000,
        ..highest
    };
    // 83,606,557 × 9,659,990 + 16,393,443 × 9,717,590
    let expected = 966_943_262_316_800;
    assert_eq!(amount(&flexible(Certificate::None), &share), expected);
}

/// The class of a day of the bill, and whether the new QHS minimum applies to it.
fn class_and_minimum(contract: &Contract, bill: &Bill, day: u32) -> (Class, bool) {
    let class = if bill.has_shares() {
        Class::Baseline
    } else {
        class_of_bill(contract.certificate, day)
    };
    let has_qhs = class == Class::Qhs || bill.qhs_share != 0;
    let new_minimum = has_qhs && new_qhs_minimum_applies(contract, day);
    (class, new_minimum)
}

/// The days on which a stretch of the bill starts: its first day, and each on which the class
/// or the QHS minimum isn't that of the day before.
fn starts_of_stretches(contract: &Contract, bill: &Bill) -> Vec<u32> {
    let of_day = |day| class_and_minimum(contract, bill, day);
    let later_days = bill.first_day + 1..=bill.last_day;
    let changes = later_days.filter(|&day| of_day(day) != of_day(day - 1));
    [bill.first_day].into_iter().chain(changes).collect()
}

/// The ticks of a kWh of the rest, of the ETII share and of the QHS share on a day.
fn rates_on_day(contract: &Contract, bill: &Bill, day: u32) -> [i64; 3] {
    let without_shares = Bill {
        first_day: day,
        etii_share: 0,
        qhs_share: 0,
        ..*bill
    };
    let rate_of_share = |certificate| {
        let contract = Contract {
            certificate,
            ..*contract
        };
        rate(&contract, &without_shares)
    };
    let rest = Bill {
        first_day: day,
        ..*bill
    };
    [
        rate(contract, &rest),
        rate_of_share(Certificate::Etii { effective_day: day }),
        rate_of_share(Certificate::Qhs { effective_day: day }),
    ]
}

/// The kWh of a share before one of the bill's days, or before the day after its last.
fn kwh_before(kwh: i64, bill: &Bill, day: u32) -> i64 {
    let days = bill.last_day - bill.first_day + 1;
    let days_before = day - bill.first_day;
    kwh * i64::from(days_before) / i64::from(days)
}

/// The paper's own form: each stretch gets the difference between its two ends, and the amount
/// is the sum over stretches.
fn amount_over_stretches(contract: &Contract, bill: &Bill) -> i64 {
    let rest = bill.kwh - bill.etii_share - bill.qhs_share;
    let shares = [rest, bill.etii_share, bill.qhs_share];
    let mut end = bill.last_day + 1;
    let mut sum = 0;
    for start in starts_of_stretches(contract, bill).into_iter().rev() {
        let rates = rates_on_day(contract, bill, start);
        let amounts = shares.into_iter().zip(rates).map(|(kwh, rate)| {
            let kwh_of_stretch = kwh_before(kwh, bill, end) - kwh_before(kwh, bill, start);
            kwh_of_stretch * rate
        });
        sum += amounts.sum::<i64>();
        end = start;
    }
    sum
}

/// Contracts of either fuel and three kinds whose certificate, if they have one, begins on the
/// day.
fn contracts_certified_from(effective_day: u32) -> impl Iterator<Item = Contract> {
    let kinds = [Kind::Flexible, fixed_entered_on(791), fixed_entered_on(792)];
    let certificates = [
        Certificate::None,
        Certificate::Etii { effective_day },
        Certificate::Qhs { effective_day },
    ];
    let electricity = kinds
        .into_iter()
        .flat_map(move |kind| certificates.map(|certificate| contract(kind, certificate)));
    electricity.flat_map(|electricity| {
        [Fuel::Electricity, Fuel::Gas].map(|fuel| Contract {
            fuel,
            ..electricity
        })
    })
}

/// Bills of a span: few and many kWh, with and without shares.
fn bills_of_span(span: (u32, u32)) -> [Bill; 8] {
    [
        (0, NO_SHARES),
        (5, NO_SHARES),
        (1_000, NO_SHARES),
        (99_999_999, NO_SHARES),
        (1_000, (301, 0)),
        (1_000, (0, 203)),
        (1_000, (499, 501)),
        (7, (2, 4)),
    ]
    .map(|(kwh, shares)| bill(span, kwh, shares))
}

/// Spans before day 792, up to it, across it and from it on, of different lengths.
const SPANS: [(u32, u32); 8] = [
    (600, 606),
    (762, 791),
    (762, 792),
    (780, 800),
    (791, 792),
    (791, 820),
    (792, 800),
    (760, 840),
];

/// Each span with certificates from every day, from ten days before it to ten days after it.
#[test]
fn the_sum_over_days_is_the_sum_over_stretches() {
    let cuts = |span: (u32, u32)| (span.0 - 10..=span.1 + 10).map(move |day| (span, day));
    for (span, effective_day) in SPANS.into_iter().flat_map(cuts) {
        for contract in contracts_certified_from(effective_day) {
            for bill in bills_of_span(span) {
                let found = amount(&contract, &bill);
                let expected = amount_over_stretches(&contract, &bill);
                assert_eq!(found, expected, "{contract:?} {bill:?}");
            }
        }
    }
}

#[test]
fn stretches_start_where_the_class_or_the_minimum_changes() {
    let certificate = Certificate::Qhs { effective_day: 785 };
    let starts =
        |contract: &Contract, shares| starts_of_stretches(contract, &bill((780, 800), 10, shares));
    assert_eq!(starts(&flexible(certificate), NO_SHARES), [780, 785, 792]);
    let kept = contract(fixed_entered_on(791), certificate);
    assert_eq!(starts(&kept, NO_SHARES), [780, 785]);
    assert_eq!(starts(&flexible(certificate), (3, 4)), [780, 792]);
    assert_eq!(starts(&flexible(certificate), (3, 0)), [780]);
    assert_eq!(starts(&flexible(QHS_FROM_511), NO_SHARES), [780, 792]);
}

/// A desk with flexible electricity contract 0.
fn desk_with_contract_0() -> Desk {
    let mut desk = Desk::new(Territory::GreatBritain);
    desk.expect("open 0 0 2 0 0", &[]);
    desk
}

/// The guidance's QHS example (section 3.4) as a bill of all April: 244,220 kWh of gas at R
/// 7,610 and S 11,630. Of 30 days 25 are before day 511: floor(244,220 × 25 / 30) = 203,516 kWh
/// without a discount, for R is below the baseline support price. The other 40,704 have
/// 10 × (11,630 − 7,830) = 38,000 ticks: 1,546,752,000.
#[test]
fn the_rate_answered_may_be_0_while_the_amount_is_not() {
    let mut desk = Desk::new(Territory::GreatBritain);
    desk.expect("open 0 1 2 0 0", &[]);
    desk.expect("cert 0 2 511", &[0, 0]);
    desk.expect(
        "bill 0 486 515 244220 11630 7610 0 0",
        &[7_610, 0, 1_546_752_000],
    );
    desk.expect("report 0", &[1, 244_220, 1_546_752_000]);
    desk.expect("claim", &[154_675, 2_000]);
}

/// Half the kWh of 20 days, 500, are before day 506. 500 × 19,610 = 9,805,000 and
/// 500 × 68,183 = 34,091,500, together 43,896,500. The rebill of 24 days has
/// floor(1,000 × 10 / 24) = 416 kWh before it and 584 from it on: 8,157,760 + 39,818,872 =
/// 47,976,632. As a landlord's bill it has the 300 kWh of the ETII share on all days:
/// 700 × 19,610 + 300 × 68,183 = 34,181,900.
#[test]
fn bills_and_rebills_have_the_amount_over_stretches() {
    let mut desk = desk_with_contract_0();
    desk.expect("cert 0 1 506", &[0, 0]);
    desk.expect(
        "bill 0 496 515 1000 50000 40000 0 0",
        &[40_000, BASELINE, 43_896_500],
    );
    desk.expect(
        "rebill 0 496 519 1000 50000 40000 0 0",
        &[40_000, BASELINE, 47_976_632 - 43_896_500],
    );
    desk.expect("total", &[47_976_632, 47_976_632]);
    desk.expect(
        "rebill 0 496 519 1000 50000 40000 300 0",
        &[40_000, BASELINE, 34_181_900 - 47_976_632],
    );
    desk.expect("cancel 0 496", &[-34_181_900]);
    desk.expect("total", &[0, 0]);
}

/// A certificate begins inside a month's bill of a variable contract: of January's 31 days 16
/// are before day 777, floor(1,000 × 16 / 31) = 516 kWh, and 484 have the old minimum:
/// 10,118,760 + 77,440,000. Day 792 starts a month, so that no such bill has it inside.
#[test]
fn a_variable_contract_is_billed_by_day_within_its_month() {
    let mut desk = Desk::new(Territory::GreatBritain);
    desk.book.fill(40_000);
    desk.expect("open 0 0 1 0 0", &[]);
    desk.expect("cert 0 2 777", &[0, 0]);
    desk.expect_refusal("bill 0 761 792 1000 50000 0 0 0", 15);
    desk.expect(
        "bill 0 761 791 1000 50000 0 0 0",
        &[40_000, BASELINE, 87_558_760],
    );
    desk.expect(
        "bill 0 792 820 1000 50000 0 0 0",
        &[40_000, NEW_QHS, 1_000 * NEW_QHS],
    );
}

/// Contract 0 with bills of April, May and June 2023, 30, 31 and 30 days of 1,000 kWh each,
/// and one of 2 kWh on the 31 days of July.
fn desk_with_four_months() -> Desk {
    let mut desk = desk_with_contract_0();
    for (days, kwh) in [
        ("486 515", 1_000),
        ("516 546", 1_000),
        ("547 576", 1_000),
        ("577 607", 2),
    ] {
        desk.expect(
            &format!("bill 0 {days} {kwh} 50000 40000 0 0"),
            &[40_000, BASELINE, kwh * BASELINE],
        );
    }
    desk
}

/// Up to day 530 there are 14 days of May, up to day 531 there are 15:
/// floor(1,000 × 14 / 31) = 451 kWh and floor(1,000 × 15 / 31) = 483. A kWh gains
/// 68,183 − 19,610 = 48,573 ticks in ETII. In July, 2 kWh of 31 days, the first one is
/// on the 16th day, 592 (2 × 16 / 31 = 1.03), and the second on the last, 607.
#[test]
fn a_certificate_that_moves_counts_the_rows_whose_amount_changed() {
    let gain = ETII - BASELINE;
    let mut desk = desk_with_four_months();
    desk.expect("cert 0 1 530", &[(549 + 1_000 + 2) * gain, 3]);
    desk.expect("cert 0 1 531", &[(451 - 483) * gain, 1]);
    desk.expect("cert 0 1 531", &[0, 0]);
    desk.expect("cert 0 1 547", &[-517 * gain, 1]);
    // floor(1,000 / 30) = 33 kWh on the first day of June
    desk.expect("cert 0 1 548", &[-33 * gain, 1]);
    desk.expect("cert 0 1 577", &[-967 * gain, 1]);
    // of July's first 15 days none has a kWh
    desk.expect("cert 0 1 592", &[0, 0]);
    desk.expect("cert 0 1 593", &[-gain, 1]);
    desk.expect("cert 0 1 607", &[0, 0]);
    desk.expect("report 0", &[4, 3_002, 3_002 * BASELINE + gain]);
    desk.expect("cert 0 1 608", &[-gain, 1]);
    desk.expect("cert 0 1 486", &[3_002 * gain, 4]);
}

#[test]
fn a_certificate_taken_away_leaves_the_amounts_of_before() {
    let mut desk = desk_with_four_months();
    let before = desk.module.facts();
    let gain = ETII - BASELINE;
    // floor(1,000 × 5 / 30) = 166 kWh of June's first five days
    let etii = (834 + 2) * gain;
    desk.expect("cert 0 1 552", &[etii, 2]);
    desk.expect("cert 0 0 0", &[-etii, 2]);
    assert_eq!(desk.module.facts(), before);
    // QHS in place of ETII: 160,000 − 68,183 = 91,817 ticks of a kWh
    desk.expect("cert 0 1 552", &[etii, 2]);
    desk.expect("cert 0 2 552", &[836 * 91_817, 2]);
    desk.expect("cert 0 0 0", &[-836 * (OLD_QHS - BASELINE), 2]);
    assert_eq!(desk.module.facts(), before);
}

/// Of 21 days 5 are before day 785, 12 before day 792 and 17 before day 797; of 100 kWh 23, 57
/// and 80. A certificate gives the row one, two and three stretches in turn.
#[test]
fn certificates_re_rate_a_row_across_day_792() {
    let mut desk = desk_with_contract_0();
    desk.expect(
        "bill 0 780 800 100 50000 40000 0 0",
        &[40_000, BASELINE, 100 * BASELINE],
    );
    let mut due = 100 * BASELINE;
    for (certificate, expected) in [
        ("2 780", 57 * OLD_QHS + 43 * NEW_QHS),
        ("2 785", 23 * BASELINE + 34 * OLD_QHS + 43 * NEW_QHS),
        ("2 792", 57 * BASELINE + 43 * NEW_QHS),
        ("2 797", 80 * BASELINE + 20 * NEW_QHS),
        ("1 797", 80 * BASELINE + 20 * ETII),
        ("1 785", 23 * BASELINE + 77 * ETII),
        ("2 511", 57 * OLD_QHS + 43 * NEW_QHS),
        ("0 0", 100 * BASELINE),
    ] {
        desk.expect(&format!("cert 0 {certificate}"), &[expected - due, 1]);
        desk.expect("report 0", &[1, 100, expected]);
        due = expected;
    }
}

//! Bills with an ETII or a QHS share (document 02, paper 1): the rate, the amount over the
//! three shares and the cap.

use calculator::rates::{amount, cap, rate, Bill, Certificate, Contract, Fuel, Kind};

const CERTIFICATES: [Certificate; 4] = [
    Certificate::None,
    Certificate::Etii { effective_day: 486 },
    Certificate::Qhs { effective_day: 511 },
    Certificate::Etii { effective_day: 851 },
];

const fn fixed_entered_on(entry_day: u32) -> Kind {
    Kind::Fixed {
        price_fix_day: 0,
        entry_day,
    }
}

/// A bill of 1,000 kWh of electricity on one day. R is 1,780 mils above the baseline support price and
/// above that of ETII by more than its maximum, 8,900. The margin over the old QHS minimum,
/// 33,030, is above R. So a kWh has 17,800 ticks in the baseline class,
/// 3 × 1,780 + 7 × 8,900 = 67,640 in ETII and 10 × 31,980 = 319,800 in QHS.
fn bill_of_1_000_kwh(first_day: u32, (etii_share, qhs_share): (i64, i64)) -> Bill {
    Bill {
        first_day,
        last_day: first_day,
        kwh: 1_000,
        etii_share,
        qhs_share,
        reference_price: 31_980,
        supply_price: 67_030,
    }
}

/// The certificate is set aside: it would apply to some of these bills. A QHS share is QHS
/// before day 511 too, though no QHS certificate is.
#[test]
fn each_share_has_its_class_and_the_rest_is_baseline() {
    let table = [
        ((1, 0), 999 * 17_800 + 67_640),
        ((300, 0), 700 * 17_800 + 300 * 67_640),
        ((1_000, 0), 1_000 * 67_640),
        ((0, 1), 999 * 17_800 + 319_800),
        ((0, 200), 800 * 17_800 + 200 * 319_800),
        ((0, 1_000), 1_000 * 319_800),
        ((300, 200), 500 * 17_800 + 300 * 67_640 + 200 * 319_800),
        ((400, 600), 400 * 67_640 + 600 * 319_800),
    ];
    for certificate in CERTIFICATES {
        let contract = Contract {
            fuel: Fuel::Electricity,
            kind: Kind::Flexible,
            certificate,
            amendment: None,
        };
        for first_day in [486, 510, 511, 791] {
            for (shares, expected) in table {
                let bill = bill_of_1_000_kwh(first_day, shares);
                assert_eq!(amount(&contract, &bill), expected, "{contract:?} {bill:?}");
                assert_eq!(rate(&contract, &bill), 17_800, "{contract:?} {bill:?}");
            }
        }
    }
}

#[test]
fn a_bill_without_shares_keeps_its_certificate() {
    let expected = [17_800, 67_640, 319_800, 17_800];
    for (certificate, expected) in CERTIFICATES.into_iter().zip(expected) {
        let contract = Contract {
            fuel: Fuel::Electricity,
            kind: Kind::Flexible,
            certificate,
            amendment: None,
        };
        let bill = bill_of_1_000_kwh(791, (0, 0));
        assert_eq!(rate(&contract, &bill), expected, "{certificate:?}");
        assert_eq!(
            amount(&contract, &bill),
            1_000 * expected,
            "{certificate:?}"
        );
    }
}

/// The QHS share's minimum supply price is the new one from day 792 on, but for a fixed
/// contract entered before that day.
#[test]
fn a_qhs_share_has_the_old_or_the_new_minimum() {
    // R and S; the rates of the baseline class, of QHS at the old and at the new minimum
    let fuels = [
        (
            Fuel::Electricity,
            (40_000, 50_000),
            19_610,
            160_000,
            217_600,
        ),
        (Fuel::Gas, (25_000, 30_000), 6_970, 221_700, 235_000),
    ];
    let bills = [
        (Kind::Flexible, 486, false),
        (Kind::Flexible, 791, false),
        (Kind::Flexible, 792, true),
        (Kind::Variable, 791, false),
        (Kind::Variable, 851, true),
        (Kind::DayAheadIndex, 791, false),
        (Kind::DayAheadIndex, 792, true),
        (fixed_entered_on(0), 792, false),
        (fixed_entered_on(791), 792, false),
        (fixed_entered_on(791), 851, false),
        (fixed_entered_on(792), 791, false),
        (fixed_entered_on(792), 792, true),
        (fixed_entered_on(851), 792, true),
    ];
    for (fuel, (reference_price, supply_price), baseline, old, new) in fuels {
        for (kind, first_day, new_minimum) in bills {
            let contract = Contract {
                fuel,
                kind,
                certificate: Certificate::None,
                amendment: None,
            };
            let bill = Bill {
                first_day,
                last_day: first_day,
                kwh: 10,
                qhs_share: 4,
                reference_price,
                supply_price,
                ..Bill::default()
            };
            let expected = 6 * baseline + 4 * if new_minimum { new } else { old };
            assert_eq!(amount(&contract, &bill), expected, "{contract:?} {bill:?}");
        }
    }
}

/// Misreading: the parts of the shares' rates held at zero only in the sum, or a share with
/// the larger of its class's rate and the baseline one.
#[test]
fn a_share_may_have_a_lower_rate_than_the_rest() {
    let contract = Contract {
        fuel: Fuel::Electricity,
        kind: Kind::Flexible,
        certificate: Certificate::None,
        amendment: None,
    };
    // S is 1 below the old QHS minimum, or 1 above it
    for (supply_price, qhs_rate) in [(33_999, 0), (34_001, 10)] {
        let bill = Bill {
            first_day: 791,
            last_day: 791,
            kwh: 10,
            qhs_share: 4,
            reference_price: 35_000,
            supply_price,
            ..Bill::default()
        };
        assert_eq!(amount(&contract, &bill), 6 * 19_610 + 4 * qhs_rate);
    }
}

/// The caps of a kWh: baseline 19,610 and 6,970; ETII 68,183 and 30,091; QHS 10 times the
/// supply price less the old minimum.
#[test]
fn the_cap_of_a_bill_is_the_sum_over_its_shares() {
    let expected = [
        (
            Fuel::Electricity,
            500 * 19_610 + 300 * 68_183 + 200 * 330_300,
        ),
        (Fuel::Gas, 500 * 6_970 + 300 * 30_091 + 200 * 592_000),
    ];
    for certificate in CERTIFICATES {
        for (fuel, expected) in expected {
            let contract = Contract {
                fuel,
                kind: Kind::Flexible,
                certificate,
                amendment: None,
            };
            let bill = bill_of_1_000_kwh(600, (300, 200));
            assert_eq!(cap(&contract, &bill), expected, "{contract:?}");
        }
    }
}

//! The class that a certificate gives a bill, and each class's prices and caps.

use calculator::dates::day_number;
use calculator::rates::{
    amount, cap, class_of_bill, rate, Bill, Certificate, Class, Contract, Fuel, Kind,
    NEW_QHS_MINIMUM_DAY,
};

const ETII: Certificate = Certificate::Etii { effective_day: 486 };
const QHS: Certificate = Certificate::Qhs { effective_day: 511 };

/// A certificate that begins inside the longest of the `bills_at`.
const QHS_FROM_791: Certificate = Certificate::Qhs { effective_day: 791 };

/// The old and the new QHS minimum supply price of each fuel.
const QHS_MINIMUM_PRICES: [(Fuel, i64, i64); 2] = [
    (Fuel::Electricity, 34_000, 28_240),
    (Fuel::Gas, 7_830, 6_500),
];

const fn fixed_entered_on(entry_day: u32) -> Kind {
    Kind::Fixed {
        price_fix_day: 0,
        entry_day,
    }
}

/// The cap of a flexible contract's bill of 1 kWh on day 600.
fn cap_of(fuel: Fuel, certificate: Certificate, supply_price: i64) -> i64 {
    let contract = Contract {
        fuel,
        kind: Kind::Flexible,
        certificate,
        amendment: None,
    };
    let bill = Bill {
        first_day: 600,
        last_day: 600,
        kwh: 1,
        reference_price: 0,
        supply_price,
        ..Bill::default()
    };
    cap(&contract, &bill)
}

/// The lowest supply price that earns a QHS a discount, less one mil: its minimum.
fn qhs_minimum_price(fuel: Fuel, kind: Kind, first_day: u32) -> i64 {
    let contract = Contract {
        fuel,
        kind,
        certificate: QHS,
        amendment: None,
    };
    let earns_a_discount = |supply_price: &i64| {
        let bill = Bill {
            first_day,
            last_day: first_day,
            kwh: 1,
            reference_price: 999_999,
            supply_price: *supply_price,
            ..Bill::default()
        };
        rate(&contract, &bill) > 0
    };
    (0..=999_999)
        .find(earns_a_discount)
        .expect("the highest supply price earns a QHS a discount")
        - 1
}

#[test]
fn a_certificate_applies_from_its_effective_day() {
    let etii = Certificate::Etii { effective_day: 600 };
    assert_eq!(class_of_bill(etii, 599), Class::Baseline);
    assert_eq!(class_of_bill(etii, 600), Class::Etii);
    assert_eq!(class_of_bill(etii, 851), Class::Etii);
    let qhs = Certificate::Qhs { effective_day: 600 };
    assert_eq!(class_of_bill(qhs, 599), Class::Baseline);
    assert_eq!(class_of_bill(qhs, 600), Class::Qhs);
    assert_eq!(class_of_bill(qhs, 851), Class::Qhs);
    assert_eq!(class_of_bill(Certificate::None, 851), Class::Baseline);
}

#[test]
fn a_bill_before_the_effective_day_has_the_baseline_rate_and_cap() {
    for certificate in [
        Certificate::Etii { effective_day: 600 },
        Certificate::Qhs { effective_day: 600 },
    ] {
        let contract = Contract {
            fuel: Fuel::Electricity,
            kind: Kind::Flexible,
            certificate,
            amendment: None,
        };
        let bill = Bill {
            first_day: 599,
            last_day: 599,
            kwh: 1,
            reference_price: 31_980,
            supply_price: 67_030,
            ..Bill::default()
        };
        assert_eq!(rate(&contract, &bill), 17_800);
        assert_eq!(cap(&contract, &bill), 19_610);
    }
}

#[test]
fn the_new_qhs_minimum_starts_on_1_february_2024() {
    assert_eq!(day_number(2024, 2, 1), Some(NEW_QHS_MINIMUM_DAY));
}

/// Guidance, section 3.1, "Minimum Supply Price": the old and new minimum by kind, day of
/// entry and day of supply.
#[test]
fn qhs_minimum_prices_by_kind_and_day() {
    let kinds = [
        (Kind::Variable, true),
        (Kind::Flexible, true),
        (Kind::DayAheadIndex, true),
        (fixed_entered_on(0), false),
        (fixed_entered_on(791), false),
        (fixed_entered_on(792), true),
        (fixed_entered_on(851), true),
    ];
    for (kind, takes_new_minimum) in kinds {
        for (fuel, old, new) in QHS_MINIMUM_PRICES {
            let later = if takes_new_minimum { new } else { old };
            for (first_day, expected) in [(511, old), (791, old), (792, later), (851, later)] {
                let found = qhs_minimum_price(fuel, kind, first_day);
                assert_eq!(found, expected, "{fuel:?} {kind:?} day {first_day}");
            }
        }
    }
}

/// Guidance, sections 3.1 and 3.3: one mil above the Government Support Price and the
/// Minimum Supply Price, which are equal in the baseline and ETII classes, earns the first
/// ticks; at either price there is none.
#[test]
fn baseline_and_etii_discounts_start_above_their_prices() {
    let table = [
        (Fuel::Electricity, Certificate::None, 30_200, 10),
        (Fuel::Gas, Certificate::None, 10_700, 10),
        (Fuel::Electricity, ETII, 18_500, 7),
        (Fuel::Gas, ETII, 9_900, 7),
    ];
    for (fuel, certificate, price, first_ticks) in table {
        let contract = Contract {
            fuel,
            kind: Kind::Flexible,
            certificate,
            amendment: None,
        };
        let rate_at = |reference_price, supply_price| {
            let bill = Bill {
                first_day: 600,
                last_day: 600,
                kwh: 1,
                reference_price,
                supply_price,
                ..Bill::default()
            };
            rate(&contract, &bill)
        };
        assert_eq!(rate_at(price, 999_999), 0, "{contract:?}");
        assert_eq!(rate_at(999_999, price), 0, "{contract:?}");
        assert_eq!(rate_at(price + 1, 999_999), first_ticks, "{contract:?}");
        assert_eq!(rate_at(999_999, price + 1), first_ticks, "{contract:?}");
    }
}

#[test]
fn caps_are_document_01_numbers() {
    assert_eq!(cap_of(Fuel::Electricity, Certificate::None, 67_030), 19_610);
    assert_eq!(cap_of(Fuel::Gas, Certificate::None, 67_030), 6_970);
    assert_eq!(cap_of(Fuel::Electricity, ETII, 67_030), 68_183);
    assert_eq!(cap_of(Fuel::Gas, ETII, 67_030), 30_091);
    assert_eq!(cap_of(Fuel::Electricity, QHS, 50_000), 160_000);
    assert_eq!(cap_of(Fuel::Electricity, QHS, 34_000), 0);
    assert_eq!(cap_of(Fuel::Electricity, QHS, 33_999), 0);
    assert_eq!(cap_of(Fuel::Gas, QHS, 7_831), 10);
    assert_eq!(cap_of(Fuel::Gas, QHS, 7_829), 0);
}

/// A flexible contract of each fuel with each certificate.
fn flexible_contracts() -> impl Iterator<Item = Contract> {
    [Fuel::Electricity, Fuel::Gas].into_iter().flat_map(|fuel| {
        [Certificate::None, ETII, QHS, QHS_FROM_791].map(|certificate| Contract {
            fuel,
            kind: Kind::Flexible,
            certificate,
            amendment: None,
        })
    })
}

/// Bills of 1,000 kWh with and without shares, before the change of the QHS minimum, after
/// it and across it.
fn bills_at(reference_price: i64, supply_price: i64) -> impl Iterator<Item = Bill> {
    let spans = [(791, 791), (792, 792), (790, 793)];
    spans.into_iter().flat_map(move |(first_day, last_day)| {
        let shares = [(0, 0), (300, 0), (0, 200), (300, 200), (400, 600)];
        shares.map(|(etii_share, qhs_share)| Bill {
            first_day,
            last_day,
            kwh: 1_000,
            etii_share,
            qhs_share,
            reference_price,
            supply_price,
        })
    })
}

/// Bills over a grid of prices.
fn grid_of_bills() -> impl Iterator<Item = Bill> {
    let prices = || (0..60_000).step_by(509).chain([999_999]);
    prices().flat_map(move |reference_price| {
        prices().flat_map(move |supply_price| bills_at(reference_price, supply_price))
    })
}

#[test]
fn no_amount_is_negative_or_above_its_cap() {
    for contract in flexible_contracts() {
        for bill in grid_of_bills() {
            let found = amount(&contract, &bill);
            assert!(found >= 0, "{contract:?} {bill:?}");
            assert!(found <= cap(&contract, &bill), "{contract:?} {bill:?}");
        }
    }
}

#[test]
fn the_highest_prices_reach_every_cap() {
    for contract in flexible_contracts() {
        for bill in bills_at(999_999, 999_999) {
            let reached = amount(&contract, &bill) == cap(&contract, &bill);
            assert!(reached, "{contract:?} {bill:?}");
        }
    }
}

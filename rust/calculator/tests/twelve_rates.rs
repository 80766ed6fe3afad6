//! Document 01's twelve rates, P1 to P12, and the misreadings that it shuts out.

use calculator::rates::{amount, rate, Bill, Certificate, Contract, Fuel, Kind};

const NONE: Certificate = Certificate::None;
const ETII: Certificate = Certificate::Etii { effective_day: 486 };
const QHS: Certificate = Certificate::Qhs { effective_day: 511 };

const FIXED_ON_791: Kind = Kind::Fixed {
    price_fix_day: 791,
    entry_day: 791,
};

/// A rate in ticks with all that decides it; the prices are in mils.
struct Case {
    name: &'static str,
    fuel: Fuel,
    kind: Kind,
    certificate: Certificate,
    first_day: u32,
    reference_price: i64,
    supply_price: i64,
    expected: i64,
}

impl Case {
    fn check(&self) {
        let contract = Contract {
            fuel: self.fuel,
            kind: self.kind,
            certificate: self.certificate,
            amendment: None,
        };
        let bill = Bill {
            first_day: self.first_day,
            last_day: self.first_day,
            kwh: 1,
            reference_price: self.reference_price,
            supply_price: self.supply_price,
            ..Bill::default()
        };
        assert_eq!(rate(&contract, &bill), self.expected, "{}", self.name);
    }
}

/// A case of a flexible electricity contract.
const fn flexible(
    name: &'static str,
    certificate: Certificate,
    first_day: u32,
    prices: (i64, i64),
    expected: i64,
) -> Case {
    Case {
        name,
        fuel: Fuel::Electricity,
        kind: Kind::Flexible,
        certificate,
        first_day,
        reference_price: prices.0,
        supply_price: prices.1,
        expected,
    }
}

const TWELVE_RATES: [Case; 12] = [
    flexible("P1", NONE, 486, (31_980, 67_030), 17_800),
    flexible("P2", NONE, 486, (30_200, 67_030), 0),
    flexible("P3", NONE, 486, (30_201, 67_030), 10),
    flexible("P4", NONE, 486, (32_160, 67_030), 19_600),
    flexible("P5", NONE, 486, (32_161, 67_030), 19_610),
    flexible("P6", NONE, 486, (35_000, 30_201), 10),
    flexible("P7", ETII, 486, (35_000, 58_330), 68_183),
    flexible("P8", ETII, 486, (35_000, 20_000), 10_500),
    flexible("P9", QHS, 791, (40_000, 50_000), 160_000),
    flexible("P10", QHS, 792, (40_000, 50_000), 217_600),
    Case {
        kind: FIXED_ON_791,
        ..flexible("P11", QHS, 792, (40_000, 50_000), 160_000)
    },
    Case {
        fuel: Fuel::Gas,
        ..flexible("P12", ETII, 486, (20_000, 30_000), 30_091)
    },
];

#[test]
fn rates_p1_to_p12() {
    for case in TWELVE_RATES {
        case.check();
    }
}

/// Misreading: the printed 6.82p used as the rate of P7, which would give 68,200,000.
#[test]
fn the_printed_etii_rate_is_not_used() {
    let contract = Contract {
        fuel: Fuel::Electricity,
        kind: Kind::Flexible,
        certificate: ETII,
        amendment: None,
    };
    let bill = Bill {
        first_day: 486,
        last_day: 515,
        kwh: 1_000,
        reference_price: 35_000,
        supply_price: 58_330,
        ..Bill::default()
    };
    assert_eq!(amount(&contract, &bill), 68_183_000);
}

/// Misreading: the ETII sum held at zero only at the end, which would give 0 in the first
/// two cases.
#[test]
fn etii_parts_are_each_held_at_zero() {
    flexible(
        "baseline base discount below 0",
        ETII,
        486,
        (20_000, 67_030),
        10_500,
    )
    .check();
    flexible(
        "baseline margin below 0",
        ETII,
        486,
        (67_030, 20_000),
        10_500,
    )
    .check();
    flexible(
        "both base discounts below 0",
        ETII,
        486,
        (18_499, 67_030),
        0,
    )
    .check();
    flexible("both margins below 0", ETII, 486, (67_030, 18_499), 0).check();
}

/// Misreading: baseline given to a QHS when it is larger.
#[test]
fn baseline_does_not_replace_a_smaller_qhs_rate() {
    flexible("QHS", QHS, 791, (35_000, 35_000), 10_000).check();
    flexible("baseline", NONE, 791, (35_000, 35_000), 19_610).check();
}

/// Misreading: S raised to the baseline minimum before the ETII part is taken, which would
/// give 62,300 below that minimum too.
#[test]
fn the_supply_price_is_not_raised_to_the_baseline_minimum() {
    flexible("below the minimum", ETII, 486, (35_000, 25_000), 45_500).check();
    flexible("at the minimum", ETII, 486, (35_000, 30_200), 62_300).check();
}

/// The reference wholesale price bounds a QHS rate: the supply price is not always brought
/// down to the minimum, though the guidance's prose says so (section 3.4, "Calculation of
/// Discount for QHS Customers").
#[test]
fn the_reference_price_bounds_a_qhs_rate() {
    flexible("R below the margin", QHS, 791, (5_000, 50_000), 50_000).check();
    flexible("R of 0", QHS, 791, (0, 50_000), 0).check();
}

//! The days on which a certificate begins or the QHS minimum changes, at the edges of a bill: its
//! first day and the one after it, its last day and the one after it.

use calculator::rates::{
    class_of_bill, new_qhs_minimum_applies, rate, Bill, Certificate, Class, Contract,
    NEW_QHS_MINIMUM_DAY,
};

const ETII_CERTIFICATE: &str = "ETII certificate";
const QHS_CERTIFICATE: &str = "QHS certificate";
const NEW_MINIMUM: &str = "new QHS minimum";

/// The cut of a bill with a QHS share.
pub const NEW_MINIMUM_OF_SHARE: &str = "new minimum of a QHS share";

/// All that begins on a cut.
pub const BEGINNINGS: [&str; 4] = [
    ETII_CERTIFICATE,
    QHS_CERTIFICATE,
    NEW_MINIMUM,
    NEW_MINIMUM_OF_SHARE,
];

const FIRST_DAY: &str = "first day";
const SECOND_DAY: &str = "second day";
const LAST_DAY: &str = "last day";
const DAY_AFTER: &str = "day after the last";

/// The edges of a bill.
pub const EDGES: [&str; 4] = [FIRST_DAY, SECOND_DAY, LAST_DAY, DAY_AFTER];

/// The fewest days of a bill whose four edges are different days.
const FEWEST_DAYS: u32 = 3;

/// A day on which something begins, and what a bill's amount depends on there.
struct Cut {
    beginning: &'static str,
    day: u32,
    /// The ticks of a kWh before the day and from it on.
    rates: (i64, i64),
    /// The kWh of the bill, or of its QHS share.
    kwh: i64,
}

/// What begins at which edge of the bill, where the amount shows it: the rates differ, and every
/// day has a kWh.
pub fn edges_shown(contract: &Contract, bill: &Bill) -> Vec<(&'static str, &'static str)> {
    let days = bill.last_day - bill.first_day + 1;
    // beside the bill too, its own price-fix and entry day count, and not those of the day
    let contract = &Contract {
        kind: contract.kind_of_bill(bill.first_day),
        amendment: None,
        ..*contract
    };
    let cuts = [certificate_cut(contract, bill), minimum_cut(contract, bill)];
    let shown = cuts.into_iter().flatten().filter(|cut| {
        let (before, after) = cut.rates;
        days >= FEWEST_DAYS && before != after && cut.kwh >= days.into()
    });
    shown
        .filter_map(|cut| Some((cut.beginning, edge(cut.day, bill)?)))
        .collect()
}

/// The edge of the bill that the day is.
fn edge(day: u32, bill: &Bill) -> Option<&'static str> {
    let edges = [
        (bill.first_day, FIRST_DAY),
        (bill.first_day + 1, SECOND_DAY),
        (bill.last_day, LAST_DAY),
        (bill.last_day + 1, DAY_AFTER),
    ];
    let mut edges = edges.into_iter();
    edges.find_map(|(edge, name)| (edge == day).then_some(name))
}

/// The effective day of the certificate, which a bill with shares sets aside.
fn certificate_cut(contract: &Contract, bill: &Bill) -> Option<Cut> {
    if bill.has_shares() {
        return None;
    }
    let (beginning, day) = match contract.certificate {
        Certificate::None => return None,
        Certificate::Etii { effective_day } => (ETII_CERTIFICATE, effective_day),
        Certificate::Qhs { effective_day } => (QHS_CERTIFICATE, effective_day),
    };
    let before = rate_of_day(contract, Certificate::None, bill, day);
    let after = rate_of_day(contract, contract.certificate, bill, day);
    Some(Cut {
        beginning,
        day,
        rates: (before, after),
        kwh: bill.kwh,
    })
}

/// Day 792, for a bill that is QHS on all days or has a QHS share, unless the old minimum is kept.
fn minimum_cut(contract: &Contract, bill: &Bill) -> Option<Cut> {
    let day = NEW_QHS_MINIMUM_DAY;
    if !new_qhs_minimum_applies(contract, day) {
        return None;
    }
    let class = class_of_bill(contract.certificate, bill.first_day);
    let (beginning, kwh) = match (bill.has_shares(), class) {
        (true, _) => (NEW_MINIMUM_OF_SHARE, bill.qhs_share),
        (false, Class::Qhs) => (NEW_MINIMUM, bill.kwh),
        (false, Class::Baseline | Class::Etii) => return None,
    };
    let qhs = Certificate::Qhs { effective_day: 0 };
    let before = rate_of_day(contract, qhs, bill, day - 1);
    let after = rate_of_day(contract, qhs, bill, day);
    Some(Cut {
        beginning,
        day,
        rates: (before, after),
        kwh,
    })
}

/// The ticks of a kWh without shares on a day, if the contract had the certificate.
fn rate_of_day(contract: &Contract, certificate: Certificate, bill: &Bill, day: u32) -> i64 {
    let contract = Contract {
        certificate,
        ..*contract
    };
    let of_day = Bill {
        first_day: day,
        etii_share: 0,
        qhs_share: 0,
        ..*bill
    };
    rate(&contract, &of_day)
}

#[cfg(test)]
mod tests {
    use super::*;
    use calculator::rates::{Fuel, Kind};

    /// A bill of 1,000 kWh at prices at which every class and either QHS minimum has a rate of its
    /// own.
    fn bill(first_day: u32, last_day: u32) -> Bill {
        Bill {
            first_day,
            last_day,
            kwh: 1_000,
            etii_share: 0,
            qhs_share: 0,
            reference_price: 40_000,
            supply_price: 50_000,
        }
    }

    fn flexible(certificate: Certificate) -> Contract {
        Contract {
            fuel: Fuel::Electricity,
            kind: Kind::Flexible,
            certificate,
            amendment: None,
        }
    }

    #[test]
    fn certificates_at_the_edges() {
        for (effective_day, edge) in [
            (600, Some(FIRST_DAY)),
            (601, Some(SECOND_DAY)),
            (609, Some(LAST_DAY)),
            (610, Some(DAY_AFTER)),
            (599, None),
            (602, None),
            (608, None),
            (611, None),
        ] {
            let bill = bill(600, 609);
            let etii = flexible(Certificate::Etii { effective_day });
            let expected: Vec<_> = edge
                .map(|edge| (ETII_CERTIFICATE, edge))
                .into_iter()
                .collect();
            assert_eq!(edges_shown(&etii, &bill), expected, "{effective_day}");
            let qhs = flexible(Certificate::Qhs { effective_day });
            let expected: Vec<_> = edge
                .map(|edge| (QHS_CERTIFICATE, edge))
                .into_iter()
                .collect();
            assert_eq!(edges_shown(&qhs, &bill), expected, "{effective_day}");
        }
    }

    #[test]
    fn day_792_at_the_edges() {
        for (first_day, edge) in [
            (792, Some(FIRST_DAY)),
            (791, Some(SECOND_DAY)),
            (783, Some(LAST_DAY)),
            (782, Some(DAY_AFTER)),
            (793, None),
            (790, None),
            (784, None),
            (781, None),
        ] {
            let contract = flexible(Certificate::Qhs { effective_day: 511 });
            let all_qhs = bill(first_day, first_day + 9);
            let expected: Vec<_> = edge.map(|edge| (NEW_MINIMUM, edge)).into_iter().collect();
            assert_eq!(edges_shown(&contract, &all_qhs), expected, "{first_day}");
            let share = Bill {
                qhs_share: 10,
                ..all_qhs
            };
            let expected: Vec<_> = edge
                .map(|edge| (NEW_MINIMUM_OF_SHARE, edge))
                .into_iter()
                .collect();
            assert_eq!(edges_shown(&contract, &share), expected, "{first_day}");
        }
    }

    /// Too few days or kWh, no other rate, the old minimum kept, another class, an ETII share alone.
    #[test]
    fn edges_that_the_amount_does_not_show() {
        let etii = flexible(Certificate::Etii { effective_day: 600 });
        let qhs = flexible(Certificate::Qhs { effective_day: 511 });
        let kept = Contract {
            kind: Kind::Fixed {
                price_fix_day: 0,
                entry_day: 791,
            },
            ..qhs
        };
        let etii_share = Bill {
            etii_share: 10,
            ..bill(792, 801)
        };
        for (contract, bill) in [
            (etii, bill(600, 601)),
            (
                etii,
                Bill {
                    kwh: 9,
                    ..bill(600, 609)
                },
            ),
            (
                etii,
                Bill {
                    supply_price: 0,
                    ..bill(600, 609)
                },
            ),
            (
                etii,
                Bill {
                    qhs_share: 10,
                    ..bill(600, 609)
                },
            ),
            (etii, bill(792, 801)),
            (kept, bill(792, 801)),
            (qhs, etii_share),
        ] {
            assert_eq!(edges_shown(&contract, &bill), [], "{contract:?} {bill:?}");
        }
    }
}

//! Bills whose class or QHS minimum changes inside (document 02, paper 3), by what changes, and
//! bills across day 792 whose contract keeps the old minimum.

use calculator::rates::{
    amount, new_qhs_minimum_applies, Bill, Certificate, Contract, Kind, NEW_QHS_MINIMUM_DAY,
};

/// What changes inside a bill, or would if its contract didn't keep the old QHS minimum.
#[derive(Clone, Copy, Debug, PartialEq, Eq)]
pub enum Change {
    EtiiBegins,
    QhsBegins,
    /// Day 792 is inside a QHS bill.
    MinimumChanges,
    /// Three stretches: baseline, QHS at the old minimum, QHS at the new one.
    QhsBeginsAndMinimumChanges,
    /// Day 792 is inside a bill with a QHS share.
    MinimumOfShareChanges,
    /// Day 792 is inside a QHS bill of a fixed contract entered before.
    MinimumKept,
    /// The certificate begins inside such a bill, before day 792.
    QhsBeginsAndMinimumKept,
    /// Day 792 is inside a bill with a QHS share, of a fixed contract entered before.
    MinimumOfShareKept,
}

impl Change {
    pub const ALL: [Change; 8] = [
        Change::EtiiBegins,
        Change::QhsBegins,
        Change::MinimumChanges,
        Change::QhsBeginsAndMinimumChanges,
        Change::MinimumOfShareChanges,
        Change::MinimumKept,
        Change::QhsBeginsAndMinimumKept,
        Change::MinimumOfShareKept,
    ];

    pub fn name(self) -> &'static str {
        match self {
            Change::EtiiBegins => "ETII begins",
            Change::QhsBegins => "QHS begins",
            Change::MinimumChanges => "QHS minimum changes",
            Change::QhsBeginsAndMinimumChanges => "QHS begins and its minimum changes",
            Change::MinimumOfShareChanges => "minimum of a QHS share changes",
            Change::MinimumKept => "old QHS minimum kept",
            Change::QhsBeginsAndMinimumKept => "QHS begins and the old minimum is kept",
            Change::MinimumOfShareKept => "old minimum of a QHS share kept",
        }
    }

    /// How many stretches such a bill, or its QHS share, has.
    pub fn stretches(self) -> u32 {
        match self {
            Change::MinimumKept | Change::MinimumOfShareKept => 1,
            Change::EtiiBegins
            | Change::QhsBegins
            | Change::MinimumChanges
            | Change::MinimumOfShareChanges
            | Change::QhsBeginsAndMinimumKept => 2,
            Change::QhsBeginsAndMinimumChanges => 3,
        }
    }

    /// Whether the bill has shares, which a certificate leaves as they are.
    pub fn is_of_share(self) -> bool {
        match self {
            Change::MinimumOfShareChanges | Change::MinimumOfShareKept => true,
            Change::EtiiBegins
            | Change::QhsBegins
            | Change::MinimumChanges
            | Change::QhsBeginsAndMinimumChanges
            | Change::MinimumKept
            | Change::QhsBeginsAndMinimumKept => false,
        }
    }
}

/// The change inside a bill of the contract, if there is one and the amount shows it: without
/// the change the amount would be another.
pub fn change_shown(contract: &Contract, bill: &Bill) -> Option<Change> {
    change_inside(contract, bill).filter(|&change| is_shown(change, contract, bill))
}

/// How many stretches a bill of the contract, or its QHS share, has.
pub fn stretches(contract: &Contract, bill: &Bill) -> u32 {
    change_inside(contract, bill).map_or(1, Change::stretches)
}

/// The amount by papers 1 and 2: all kWh at the rates of the first day, as of a bill that has no
/// other day.
pub fn amount_by_first_day(contract: &Contract, bill: &Bill) -> i64 {
    let of_first_day = Bill {
        last_day: bill.first_day,
        ..*bill
    };
    amount(contract, &of_first_day)
}

fn change_inside(contract: &Contract, bill: &Bill) -> Option<Change> {
    if bill.has_shares() {
        return change_of_share(contract, bill);
    }
    match contract.certificate {
        Certificate::None => None,
        Certificate::Etii { effective_day } => {
            is_inside(effective_day, bill).then_some(Change::EtiiBegins)
        }
        Certificate::Qhs { effective_day } => change_of_qhs(contract, bill, effective_day),
    }
}

fn change_of_share(contract: &Contract, bill: &Bill) -> Option<Change> {
    if bill.qhs_share == 0 || !is_inside(NEW_QHS_MINIMUM_DAY, bill) {
        return None;
    }
    Some(if takes_new_minimum(contract) {
        Change::MinimumOfShareChanges
    } else {
        Change::MinimumOfShareKept
    })
}

/// Day 792 is a change only where the day before it is QHS too.
fn change_of_qhs(contract: &Contract, bill: &Bill, effective_day: u32) -> Option<Change> {
    let begins = is_inside(effective_day, bill);
    let qhs_on_both_days =
        effective_day < NEW_QHS_MINIMUM_DAY && is_inside(NEW_QHS_MINIMUM_DAY, bill);
    match (begins, qhs_on_both_days, takes_new_minimum(contract)) {
        (false, false, _) => None,
        (true, false, _) => Some(Change::QhsBegins),
        (false, true, true) => Some(Change::MinimumChanges),
        (false, true, false) => Some(Change::MinimumKept),
        (true, true, true) => Some(Change::QhsBeginsAndMinimumChanges),
        (true, true, false) => Some(Change::QhsBeginsAndMinimumKept),
    }
}

/// Whether the day is one of the bill's and not its first.
fn is_inside(day: u32, bill: &Bill) -> bool {
    bill.first_day < day && day <= bill.last_day
}

/// Whether the new QHS minimum applies to the contract from day 792 on.
fn takes_new_minimum(contract: &Contract) -> bool {
    new_qhs_minimum_applies(contract, NEW_QHS_MINIMUM_DAY)
}

/// Whether the amount is another than by the first day's rates and, where day 792 is inside,
/// another than with the minimum that doesn't apply.
fn is_shown(change: Change, contract: &Contract, bill: &Bill) -> bool {
    let found = amount(contract, bill);
    let by_first_day = amount_by_first_day(contract, bill);
    let with_other_minimum = amount(&with_other_minimum(contract), bill);
    match change {
        Change::EtiiBegins
        | Change::QhsBegins
        | Change::MinimumChanges
        | Change::MinimumOfShareChanges => found != by_first_day,
        Change::MinimumKept | Change::MinimumOfShareKept => found != with_other_minimum,
        Change::QhsBeginsAndMinimumChanges | Change::QhsBeginsAndMinimumKept => {
            found != by_first_day && found != with_other_minimum
        }
    }
}

/// The contract as one that keeps the old QHS minimum if it takes the new one, and the other way
/// round.
fn with_other_minimum(contract: &Contract) -> Contract {
    let kind = if takes_new_minimum(contract) {
        Kind::Fixed {
            price_fix_day: 0,
            entry_day: 0,
        }
    } else {
        Kind::Flexible
    };
    Contract {
        kind,
        amendment: None,
        ..*contract
    }
}

#[cfg(test)]
mod tests {
    use super::{amount_by_first_day, change_inside, change_shown, Change};
    use calculator::rates::{Bill, Certificate, Contract, Fuel, Kind};

    const KEEPS: Kind = Kind::Fixed {
        price_fix_day: 0,
        entry_day: 791,
    };
    const ENTERED_SINCE: Kind = Kind::Fixed {
        price_fix_day: 0,
        entry_day: 792,
    };
    const ETII_FROM_785: Certificate = Certificate::Etii { effective_day: 785 };
    const QHS_FROM_511: Certificate = Certificate::Qhs { effective_day: 511 };

    /// A bill of 1,000 kWh on days 780 to 800, at prices at which every class and either QHS
    /// minimum has a rate of its own.
    const BILL: Bill = Bill {
        first_day: 780,
        last_day: 800,
        kwh: 1_000,
        etii_share: 0,
        qhs_share: 0,
        reference_price: 40_000,
        supply_price: 50_000,
    };

    fn contract(kind: Kind, certificate: Certificate) -> Contract {
        Contract {
            fuel: Fuel::Electricity,
            kind,
            certificate,
            amendment: None,
        }
    }

    fn qhs_from(effective_day: u32) -> Certificate {
        Certificate::Qhs { effective_day }
    }

    #[test]
    fn changes_of_bills_without_shares() {
        for (kind, certificate, expected) in [
            (Kind::Flexible, Certificate::None, None),
            (Kind::Flexible, ETII_FROM_785, Some(Change::EtiiBegins)),
            (KEEPS, ETII_FROM_785, Some(Change::EtiiBegins)),
            (Kind::Flexible, QHS_FROM_511, Some(Change::MinimumChanges)),
            (Kind::Flexible, qhs_from(780), Some(Change::MinimumChanges)),
            (ENTERED_SINCE, qhs_from(780), Some(Change::MinimumChanges)),
            (KEEPS, qhs_from(780), Some(Change::MinimumKept)),
            (
                Kind::Flexible,
                qhs_from(781),
                Some(Change::QhsBeginsAndMinimumChanges),
            ),
            (
                ENTERED_SINCE,
                qhs_from(791),
                Some(Change::QhsBeginsAndMinimumChanges),
            ),
            (KEEPS, qhs_from(791), Some(Change::QhsBeginsAndMinimumKept)),
            (Kind::Flexible, qhs_from(792), Some(Change::QhsBegins)),
            (KEEPS, qhs_from(792), Some(Change::QhsBegins)),
            (Kind::Flexible, qhs_from(800), Some(Change::QhsBegins)),
            (Kind::Flexible, qhs_from(801), None),
        ] {
            let contract = contract(kind, certificate);
            assert_eq!(change_inside(&contract, &BILL), expected, "{contract:?}");
            assert_eq!(change_shown(&contract, &BILL), expected, "{contract:?}");
        }
    }

    #[test]
    fn changes_of_bills_with_shares() {
        let change = |kind, etii_share, qhs_share| {
            let bill = Bill {
                etii_share,
                qhs_share,
                ..BILL
            };
            change_shown(&contract(kind, qhs_from(785)), &bill)
        };
        let (changes, kept) = (Change::MinimumOfShareChanges, Change::MinimumOfShareKept);
        assert_eq!(change(Kind::Flexible, 300, 200), Some(changes));
        assert_eq!(change(ENTERED_SINCE, 0, 200), Some(changes));
        assert_eq!(change(KEEPS, 0, 200), Some(kept));
        assert_eq!(change(Kind::Flexible, 300, 0), None);
    }

    #[test]
    fn bills_up_to_day_791_and_from_day_792_on() {
        for (first_day, last_day) in [(780, 791), (792, 800)] {
            for (kind, qhs_share) in [(Kind::Flexible, 0), (Kind::Flexible, 9), (KEEPS, 0)] {
                let bill = Bill {
                    first_day,
                    last_day,
                    qhs_share,
                    ..BILL
                };
                assert_eq!(change_inside(&contract(kind, QHS_FROM_511), &bill), None);
            }
        }
    }

    /// At S 30,000 a QHS has nothing at the old minimum, as has the baseline class; at R 1 it has
    /// the same at either minimum; at 0 kWh there is no amount at all.
    #[test]
    fn a_change_that_the_amount_does_not_show() {
        let shown = |certificate, bill| change_shown(&contract(Kind::Flexible, certificate), &bill);
        let at_supply = Bill {
            supply_price: 30_000,
            ..BILL
        };
        assert_eq!(shown(QHS_FROM_511, at_supply), Some(Change::MinimumChanges));
        let until_791 = Bill {
            last_day: 791,
            ..at_supply
        };
        assert_eq!(shown(qhs_from(785), until_791), None);
        let at_reference = Bill {
            reference_price: 1,
            ..BILL
        };
        assert_eq!(shown(QHS_FROM_511, at_reference), None);
        assert_eq!(shown(qhs_from(785), at_reference), None);
        assert_eq!(shown(ETII_FROM_785, Bill { kwh: 0, ..BILL }), None);
    }

    /// 19,610 ticks of a kWh in the baseline class and 160,000 in QHS at the old minimum.
    #[test]
    fn the_amount_by_the_first_day() {
        let amount =
            |certificate| amount_by_first_day(&contract(Kind::Flexible, certificate), &BILL);
        assert_eq!(amount(ETII_FROM_785), 19_610_000);
        assert_eq!(amount(QHS_FROM_511), 160_000_000);
    }
}

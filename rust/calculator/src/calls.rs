//! The calls with their numbers (document 01, section "Calls"; bill and rebill are those of
//! document 02, paper 1, and amend is that of its paper 5), and those that read no ledger.

use crate::dates::{date_of, day_number};
use crate::refusals::WRONG_DAY;

/// The numbers of a bill or rebill.
#[derive(Clone, Copy, Debug, PartialEq, Eq)]
pub struct BillNumbers {
    pub contract: u32,
    pub first: u32,
    pub last: u32,
    pub kwh: u32,
    /// S, the supply price in mils.
    pub supply: u32,
    /// The weighted price in mils, which is a flexible contract's R.
    pub wap: u32,
    /// The kWh in the ETII share.
    pub etii_share: u32,
    /// The kWh in the QHS share.
    pub qhs_share: u32,
}

/// A call on a ledger; any number may be given.
#[derive(Clone, Debug, PartialEq)]
pub enum Call {
    Start {
        territory: u32,
    },
    Open {
        contract: u32,
        fuel: u32,
        kind: u32,
        price_fix_day: u32,
        entry_day: u32,
    },
    Bill(BillNumbers),
    Rebill(BillNumbers),
    Cert {
        contract: u32,
        class: u32,
        effective_day: u32,
    },
    Cancel {
        contract: u32,
        first: u32,
    },
    Claim,
    Report {
        contract: u32,
    },
    Total,
    Amend {
        contract: u32,
        original_end_day: u32,
        /// The amendment's price-fix day.
        price_fix_day: u32,
        /// The amendment's entry day.
        entry_day: u32,
    },
}

/// The numbers answered, in the paper's order; or the refusal's number.
pub type Outcome = Result<Vec<i64>, u32>;

/// The call day: answers the day number of a date.
pub fn day(year: u32, month: u32, day: u32) -> Outcome {
    let number = day_number(year, month, day).ok_or(WRONG_DAY)?;
    Ok(vec![number.into()])
}

/// The call date: answers year, month and day of a day number.
pub fn date(day_number: u32) -> Outcome {
    let date = date_of(day_number).ok_or(WRONG_DAY)?;
    Ok([date.year, date.month, date.day].map(i64::from).to_vec())
}

impl BillNumbers {
    /// The numbers in the paper's order.
    fn of(numbers: &[u32]) -> Option<BillNumbers> {
        let &[contract, first, last, kwh, supply, wap, etii_share, qhs_share] = numbers else {
            return None;
        };
        Some(BillNumbers {
            contract,
            first,
            last,
            kwh,
            supply,
            wap,
            etii_share,
            qhs_share,
        })
    }

    /// The inverse of `of`.
    fn numbers(self) -> Vec<u32> {
        let BillNumbers {
            contract,
            first,
            last,
            kwh,
            supply,
            wap,
            etii_share,
            qhs_share,
        } = self;
        vec![
            contract, first, last, kwh, supply, wap, etii_share, qhs_share,
        ]
    }
}

impl Call {
    /// The call of a name with its numbers in the paper's order, or `None` for an unknown
    /// name or a wrong count of numbers.
    pub fn of(name: &str, numbers: &[u32]) -> Option<Call> {
        let call = match (name, numbers) {
            ("start", &[territory]) => Call::Start { territory },
            ("open", &[contract, fuel, kind, price_fix_day, entry_day]) => Call::Open {
                contract,
                fuel,
                kind,
                price_fix_day,
                entry_day,
            },
            ("bill", numbers) => Call::Bill(BillNumbers::of(numbers)?),
            ("rebill", numbers) => Call::Rebill(BillNumbers::of(numbers)?),
            ("cert", &[contract, class, effective_day]) => Call::Cert {
                contract,
                class,
                effective_day,
            },
            ("cancel", &[contract, first]) => Call::Cancel { contract, first },
            ("claim", &[]) => Call::Claim,
            ("report", &[contract]) => Call::Report { contract },
            ("total", &[]) => Call::Total,
            ("amend", &[contract, original_end_day, price_fix_day, entry_day]) => Call::Amend {
                contract,
                original_end_day,
                price_fix_day,
                entry_day,
            },
            _ => return None,
        };
        Some(call)
    }

    /// The call's name.
    pub fn name(&self) -> &'static str {
        match self {
            Call::Start { .. } => "start",
            Call::Open { .. } => "open",
            Call::Bill(_) => "bill",
            Call::Rebill(_) => "rebill",
            Call::Cert { .. } => "cert",
            Call::Cancel { .. } => "cancel",
            Call::Claim => "claim",
            Call::Report { .. } => "report",
            Call::Total => "total",
            Call::Amend { .. } => "amend",
        }
    }

    /// The call's numbers in the paper's order.
    pub fn numbers(&self) -> Vec<u32> {
        match *self {
            Call::Start { territory } => vec![territory],
            Call::Open {
                contract,
                fuel,
                kind,
                price_fix_day,
                entry_day,
            } => vec![contract, fuel, kind, price_fix_day, entry_day],
            Call::Bill(bill) | Call::Rebill(bill) => bill.numbers(),
            Call::Cert {
                contract,
                class,
                effective_day,
            } => vec![contract, class, effective_day],
            Call::Cancel { contract, first } => vec![contract, first],
            Call::Report { contract } => vec![contract],
            Call::Claim | Call::Total => vec![],
            Call::Amend {
                contract,
                original_end_day,
                price_fix_day,
                entry_day,
            } => vec![contract, original_end_day, price_fix_day, entry_day],
        }
    }
}

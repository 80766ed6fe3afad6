//! Codes of territories, fuels, kinds and classes, and the ranges of days, kWh, prices and
//! shares (document 01, sections "Contracts and the price book" and "Turned down, in
//! checking order", numbers 6 to 8; document 02, paper 1, number 14, paper 2, number 15,
//! paper 5, numbers 7, 16 and 17, and paper 6, number 8).

use crate::dates::{scheme_month, LAST_DAY};
use crate::rates::{Amendment, Certificate, Contract, Fuel, Kind};
use std::ops::RangeInclusive;

/// The territory of a ledger.
#[derive(Clone, Copy, Debug, PartialEq, Eq)]
pub enum Territory {
    GreatBritain,
    NorthernIreland,
}

/// The number of 1 April 2023, the scheme's first day.
pub const SCHEME_FIRST_DAY: u32 = 486;

/// The number of 26 April 2023, the earliest effective day of a QHS certificate.
pub const QHS_FIRST_DAY: u32 = 511;

/// Number 8: the most kWh that a bill or rebill may give.
pub const MOST_KWH_GIVEN: u32 = 40_000_000;

/// The most kWh of a held row; one stored earlier may have more than a bill may give (document
/// 02, paper 6).
pub const MOST_KWH_STORED: u32 = 100_000_000;

/// The highest price in mils.
pub const HIGHEST_PRICE: u32 = 999_999;

/// The code of a day-ahead index contract.
const INDEX_CODE: u32 = 3;

impl Territory {
    /// The territory of a code, or `None` for a code without meaning.
    pub fn of(code: u32) -> Option<Territory> {
        match code {
            0 => Some(Territory::GreatBritain),
            1 => Some(Territory::NorthernIreland),
            _ => None,
        }
    }

    /// The territory's code.
    pub fn code(self) -> u32 {
        match self {
            Territory::GreatBritain => 0,
            Territory::NorthernIreland => 1,
        }
    }
}

impl Fuel {
    /// The fuel of a code, or `None` for a code without meaning.
    pub fn of(code: u32) -> Option<Fuel> {
        match code {
            0 => Some(Fuel::Electricity),
            1 => Some(Fuel::Gas),
            _ => None,
        }
    }

    /// The fuel's code.
    pub fn code(self) -> u32 {
        match self {
            Fuel::Electricity => 0,
            Fuel::Gas => 1,
        }
    }
}

impl Kind {
    /// The kind of a code, with its days if it is fixed, or `None` for a code without
    /// meaning.
    pub fn of(code: u32, price_fix_day: u32, entry_day: u32) -> Option<Kind> {
        match code {
            0 => Some(Kind::Fixed {
                price_fix_day,
                entry_day,
            }),
            1 => Some(Kind::Variable),
            2 => Some(Kind::Flexible),
            INDEX_CODE => Some(Kind::DayAheadIndex),
            _ => None,
        }
    }

    /// The kind's code, price-fix day and entry day; the days are 0 unless it is fixed.
    pub fn numbers(self) -> (u32, u32, u32) {
        match self {
            Kind::Fixed {
                price_fix_day,
                entry_day,
            } => (0, price_fix_day, entry_day),
            Kind::Variable => (1, 0, 0),
            Kind::Flexible => (2, 0, 0),
            Kind::DayAheadIndex => (INDEX_CODE, 0, 0),
        }
    }

    /// Whether a contract of the kind is fixed, with its own price-fix and entry day.
    pub fn is_fixed(self) -> bool {
        match self {
            Kind::Fixed { .. } => true,
            Kind::Variable | Kind::Flexible | Kind::DayAheadIndex => false,
        }
    }

    /// Whether the kind's prices are published by the month: those of variable and index
    /// contracts are.
    pub fn has_monthly_prices(self) -> bool {
        match self {
            Kind::Variable | Kind::DayAheadIndex => true,
            Kind::Fixed { .. } | Kind::Flexible => false,
        }
    }
}

impl Certificate {
    /// The certificate of a class code and an effective day, or `None` for a code without
    /// meaning.
    pub fn of(class: u32, effective_day: u32) -> Option<Certificate> {
        match class {
            0 => Some(Certificate::None),
            1 => Some(Certificate::Etii { effective_day }),
            2 => Some(Certificate::Qhs { effective_day }),
            _ => None,
        }
    }

    /// The class code and the effective day, which is 0 without a certificate.
    pub fn numbers(self) -> (u32, u32) {
        match self {
            Certificate::None => (0, 0),
            Certificate::Etii { effective_day } => (1, effective_day),
            Certificate::Qhs { effective_day } => (2, effective_day),
        }
    }

    /// The effective days that a certificate may have; only 0 without one.
    fn effective_days(self) -> RangeInclusive<u32> {
        match self {
            Certificate::None => 0..=0,
            Certificate::Etii { .. } => SCHEME_FIRST_DAY..=LAST_DAY,
            Certificate::Qhs { .. } => QHS_FIRST_DAY..=LAST_DAY,
        }
    }
}

/// Number 6: whether a kind may be had by contracts of the fuel in the territory. Index
/// contracts are for electricity in a Northern Ireland ledger only.
pub(crate) fn kind_in_its_place(territory: Territory, fuel: Fuel, kind: Kind) -> bool {
    kind != Kind::DayAheadIndex
        || (fuel == Fuel::Electricity && territory == Territory::NorthernIreland)
}

/// Number 7: whether a contract's price-fix and entry day are at most 851, and 0 unless it
/// is fixed.
pub(crate) fn contract_days_in_range(kind: Kind, price_fix_day: u32, entry_day: u32) -> bool {
    let last_day = match kind {
        Kind::Fixed { .. } => LAST_DAY,
        Kind::Variable | Kind::Flexible | Kind::DayAheadIndex => 0,
    };
    price_fix_day <= last_day && entry_day <= last_day
}

/// Number 7: whether a certificate's effective day is one that its class may have.
pub(crate) fn effective_day_in_range(certificate: Certificate, effective_day: u32) -> bool {
    certificate.effective_days().contains(&effective_day)
}

/// Number 7: whether an amendment's original end is 486 to 851, and its price-fix and entry day
/// are at most 851.
pub(crate) fn amendment_days_in_range(amendment: Amendment) -> bool {
    (SCHEME_FIRST_DAY..=LAST_DAY).contains(&amendment.original_end_day)
        && amendment.price_fix_day <= LAST_DAY
        && amendment.entry_day <= LAST_DAY
}

/// Number 7: whether 486 ≤ first ≤ last ≤ 851.
pub fn span_in_range(first_day: u32, last_day: u32) -> bool {
    SCHEME_FIRST_DAY <= first_day && first_day <= last_day && last_day <= LAST_DAY
}

/// Number 15: whether a contract of the kind has monthly prices and the span, which is in
/// range, touches two scheme months.
pub(crate) fn touches_two_months(kind: Kind, first_day: u32, last_day: u32) -> bool {
    kind.has_monthly_prices() && scheme_month(first_day) != scheme_month(last_day)
}

/// Number 16: whether a contract may be amended: it is fixed and not amended yet.
pub(crate) fn may_be_amended(contract: &Contract) -> bool {
    contract.kind.is_fixed() && contract.amendment.is_none()
}

/// Number 17: whether the contract is amended and the span starts on or before its original end
/// and ends after it.
pub(crate) fn crosses_original_end(contract: &Contract, first_day: u32, last_day: u32) -> bool {
    contract.amendment.is_some_and(|amendment| {
        first_day <= amendment.original_end_day && amendment.original_end_day < last_day
    })
}

/// Number 14: whether the two shares exceed kWh. Their sum may need more than 32 bits.
pub(crate) fn shares_exceed_kwh(etii_share: u32, qhs_share: u32, kwh: u32) -> bool {
    u64::from(etii_share) + u64::from(qhs_share) > u64::from(kwh)
}

/// Whether two spans, each a first and a last day, share a day.
pub fn spans_share_a_day(
    (first_day, last_day): (u32, u32),
    (other_first_day, other_last_day): (u32, u32),
) -> bool {
    first_day <= other_last_day && other_first_day <= last_day
}

//! Contracts from their numbers, with the ranges of document 01 (sections "Contracts and the
//! price book" and "Turned down, in checking order") and of document 02, paper 5.

use crate::refusals::{NOT_AMENDABLE, WRONG_CODE, WRONG_DAY};

/// The greatest day number, 31 March 2024.
pub const LAST_DAY: u32 = 851;

/// The scheme's first day, 1 April 2023.
pub const FIRST_SCHEME_DAY: u32 = 486;

/// The first day on which a QHS certificate may take effect, 26 April 2023.
const FIRST_QHS_DAY: u32 = 511;

/// The territory of which an index contract may be.
const NORTHERN_IRELAND: u32 = 1;

#[derive(Clone, Copy, PartialEq, Eq)]
pub enum Fuel {
    Electricity,
    Gas,
}

#[derive(Clone, Copy, PartialEq, Eq)]
pub enum Kind {
    Fixed { price_fix_day: u32, entry_day: u32 },
    Variable,
    Flexible,
    Index,
}

#[derive(Clone, Copy, PartialEq, Eq)]
pub enum Certificate {
    None,
    Etii { effective_day: u32 },
    Qhs { effective_day: u32 },
}

/// The amendment of a fixed contract: a bill that begins after the original end takes this
/// price-fix day and entry day in place of the contract's.
#[derive(Clone, Copy)]
pub struct Amendment {
    pub original_end_day: u32,
    pub price_fix_day: u32,
    pub entry_day: u32,
}

impl Kind {
    /// Whether the kind's prices are published by the month.
    pub fn is_monthly(self) -> bool {
        match self {
            Kind::Variable | Kind::Index => true,
            Kind::Fixed { .. } | Kind::Flexible => false,
        }
    }
}

/// An open contract.
#[derive(Clone, Copy)]
pub struct Contract {
    pub fuel: Fuel,
    pub kind: Kind,
    pub certificate: Certificate,
    pub amendment: Option<Amendment>,
}

impl Contract {
    /// An unamended contract without a certificate, or the number that turns it down.
    pub fn from_numbers(
        territory: u32,
        fuel: u32,
        kind: u32,
        price_fix_day: u32,
        entry_day: u32,
    ) -> Result<Contract, u32> {
        let fuel = match fuel {
            0 => Fuel::Electricity,
            1 => Fuel::Gas,
            _ => return Err(WRONG_CODE),
        };
        let kind = match kind {
            0 => Kind::Fixed {
                price_fix_day,
                entry_day,
            },
            1 => Kind::Variable,
            2 => Kind::Flexible,
            3 if fuel == Fuel::Electricity && territory == NORTHERN_IRELAND => Kind::Index,
            _ => return Err(WRONG_CODE),
        };
        let most = match kind {
            Kind::Fixed { .. } => LAST_DAY,
            Kind::Variable | Kind::Flexible | Kind::Index => 0,
        };
        if price_fix_day > most || entry_day > most {
            return Err(WRONG_DAY);
        }
        Ok(Contract {
            fuel,
            kind,
            certificate: Certificate::None,
            amendment: None,
        })
    }

    /// The contract with another certificate.
    pub fn with(self, certificate: Certificate) -> Contract {
        Contract {
            certificate,
            ..self
        }
    }

    /// The contract with an amendment, or the number that turns it down.
    pub fn amended(
        self,
        original_end_day: u32,
        price_fix_day: u32,
        entry_day: u32,
    ) -> Result<Contract, u32> {
        if !matches!(self.kind, Kind::Fixed { .. }) || self.amendment.is_some() {
            return Err(NOT_AMENDABLE);
        }
        let end_days = FIRST_SCHEME_DAY..=LAST_DAY;
        if !end_days.contains(&original_end_day) || price_fix_day.max(entry_day) > LAST_DAY {
            return Err(WRONG_DAY);
        }
        let amendment = Amendment {
            original_end_day,
            price_fix_day,
            entry_day,
        };
        Ok(Contract {
            amendment: Some(amendment),
            ..self
        })
    }

    /// The kind with the price-fix day and entry day that a bill takes which begins on that day.
    pub fn kind_on(&self, first: u32) -> Kind {
        match self.amendment {
            Some(Amendment {
                original_end_day,
                price_fix_day,
                entry_day,
            }) if original_end_day < first => Kind::Fixed {
                price_fix_day,
                entry_day,
            },
            _ => self.kind,
        }
    }

    /// Whether the contract is amended, and a span begins on or before its original end and ends
    /// after it.
    pub fn crosses_original_end(&self, first: u32, last: u32) -> bool {
        self.amendment
            .is_some_and(|amendment| (first..last).contains(&amendment.original_end_day))
    }
}

impl Certificate {
    /// A certificate, or the number that turns it down.
    pub fn from_numbers(class: u32, effective_day: u32) -> Result<Certificate, u32> {
        let (certificate, days) = match class {
            0 => (Certificate::None, 0..=0),
            1 => (
                Certificate::Etii { effective_day },
                FIRST_SCHEME_DAY..=LAST_DAY,
            ),
            2 => (Certificate::Qhs { effective_day }, FIRST_QHS_DAY..=LAST_DAY),
            _ => return Err(WRONG_CODE),
        };
        if days.contains(&effective_day) {
            Ok(certificate)
        } else {
            Err(WRONG_DAY)
        }
    }
}

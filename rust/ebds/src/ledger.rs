//! A packed ledger with typed calls (document 01, section "Calls"; document 02, paper 5).

use crate::{calls, BillNumbers, Refusal, LEDGER_LENGTH};

/// Where a ledger's contracts are.
#[derive(Clone, Copy, Debug, PartialEq, Eq)]
pub enum Territory {
    GreatBritain,
    NorthernIreland,
}

/// A contract's fuel.
#[derive(Clone, Copy, Debug, PartialEq, Eq)]
pub enum Fuel {
    Electricity,
    Gas,
}

/// A contract's kind. The days are day numbers; those of bills after the original end of an amended
/// contract are the amendment's.
#[derive(Clone, Copy, Debug, PartialEq, Eq)]
pub enum Kind {
    Fixed {
        price_fix_day: u32,
        entry_day: u32,
    },
    Variable,
    Flexible,
    /// Day-ahead index, for electricity in a Northern Ireland ledger only.
    Index,
}

/// A contract's certificate, with the day number from which it applies.
#[derive(Clone, Copy, Debug, PartialEq, Eq)]
pub enum Certificate {
    None,
    /// An energy and trade intensive industry.
    Etii {
        effective_day: u32,
    },
    /// A qualifying heat supplier.
    Qhs {
        effective_day: u32,
    },
}

/// What a bill answers: R in mils, the rate of its first day and the amount in ticks.
#[derive(Clone, Copy, Debug, PartialEq, Eq)]
pub struct Billed {
    pub reference: i64,
    pub rate: i64,
    pub amount: i64,
}

/// What a rebill answers: R in mils, the rate of its first day, and the new amount minus the old
/// in ticks.
#[derive(Clone, Copy, Debug, PartialEq, Eq)]
pub struct Rebilled {
    pub reference: i64,
    pub rate: i64,
    pub change: i64,
}

/// What a certificate answers: the net change of due in ticks, and the count of rows whose amount
/// changed.
#[derive(Clone, Copy, Debug, PartialEq, Eq)]
pub struct Certified {
    pub change: i64,
    pub rows: i64,
}

/// What a cancellation answers: minus the row's amount in ticks.
#[derive(Clone, Copy, Debug, PartialEq, Eq)]
pub struct Cancelled {
    pub change: i64,
}

/// What a claim answers: the pence claimed by it, perhaps negative, and due modulo 10,000 in ticks.
#[derive(Clone, Copy, Debug, PartialEq, Eq)]
pub struct Claimed {
    pub pence: i64,
    pub rest: i64,
}

/// What a report answers of a contract: its rows, their kWh, and its due in ticks.
#[derive(Clone, Copy, Debug, PartialEq, Eq)]
pub struct Reported {
    pub rows: i64,
    pub kwh: i64,
    pub due: i64,
}

/// What a total answers, in ticks: due, and due minus what was claimed.
#[derive(Clone, Copy, Debug, PartialEq, Eq)]
pub struct Totalled {
    pub due: i64,
    pub unclaimed: i64,
}

/// A well-formed packed ledger. A call that is turned down leaves it as it was.
#[derive(Clone, Debug, PartialEq, Eq)]
pub struct Ledger {
    bytes: Box<[u8]>,
}

impl Ledger {
    /// A fresh ledger.
    pub fn start(territory: Territory) -> Result<Ledger, Refusal> {
        let territory = match territory {
            Territory::GreatBritain => 0,
            Territory::NorthernIreland => 1,
        };
        let mut bytes = vec![0; LEDGER_LENGTH].into_boxed_slice();
        calls::start(&mut bytes, territory)?;
        Ok(Ledger { bytes })
    }

    /// The ledger that the bytes are, or `NotWellFormed`.
    pub fn from_bytes(bytes: &[u8]) -> Result<Ledger, Refusal> {
        calls::total(bytes)?;
        Ok(Ledger {
            bytes: bytes.into(),
        })
    }

    /// The ledger's [`LEDGER_LENGTH`] bytes.
    pub fn as_bytes(&self) -> &[u8] {
        &self.bytes
    }

    /// Opens a contract, unamended and without a certificate.
    pub fn open(&mut self, contract: u32, fuel: Fuel, kind: Kind) -> Result<(), Refusal> {
        let fuel = match fuel {
            Fuel::Electricity => 0,
            Fuel::Gas => 1,
        };
        let (kind, price_fix_day, entry_day) = match kind {
            Kind::Fixed {
                price_fix_day,
                entry_day,
            } => (0, price_fix_day, entry_day),
            Kind::Variable => (1, 0, 0),
            Kind::Flexible => (2, 0, 0),
            Kind::Index => (3, 0, 0),
        };
        calls::open(
            &mut self.bytes,
            contract,
            fuel,
            kind,
            price_fix_day,
            entry_day,
        )?;
        Ok(())
    }

    /// Adds a row; R is the bill's WAP for a flexible contract, and the book's price for any other.
    pub fn bill(&mut self, book: &[u32], numbers: BillNumbers) -> Result<Billed, Refusal> {
        let [reference, rate, amount] = calls::bill(&mut self.bytes, book, numbers)?;
        Ok(Billed {
            reference,
            rate,
            amount,
        })
    }

    /// Puts a row in place of the one with that contract and first day; R is looked up anew.
    pub fn rebill(&mut self, book: &[u32], numbers: BillNumbers) -> Result<Rebilled, Refusal> {
        let [reference, rate, change] = calls::rebill(&mut self.bytes, book, numbers)?;
        Ok(Rebilled {
            reference,
            rate,
            change,
        })
    }

    /// Replaces the contract's certificate and re-rates its rows by day; one with shares keeps its
    /// amount.
    pub fn cert(&mut self, contract: u32, certificate: Certificate) -> Result<Certified, Refusal> {
        let (class, effective_day) = match certificate {
            Certificate::None => (0, 0),
            Certificate::Etii { effective_day } => (1, effective_day),
            Certificate::Qhs { effective_day } => (2, effective_day),
        };
        let [change, rows, _] = calls::cert(&mut self.bytes, contract, class, effective_day)?;
        Ok(Certified { change, rows })
    }

    /// Removes the row with that contract and first day.
    pub fn cancel(&mut self, contract: u32, first: u32) -> Result<Cancelled, Refusal> {
        let [change, _, _] = calls::cancel(&mut self.bytes, contract, first)?;
        Ok(Cancelled { change })
    }

    /// Claims due in whole pence, less the pence claimed before.
    pub fn claim(&mut self) -> Result<Claimed, Refusal> {
        let [pence, rest, _] = calls::claim(&mut self.bytes)?;
        Ok(Claimed { pence, rest })
    }

    /// The rows, kWh and due of a contract.
    pub fn report(&self, contract: u32) -> Result<Reported, Refusal> {
        let [rows, kwh, due] = calls::report(&self.bytes, contract)?;
        Ok(Reported { rows, kwh, due })
    }

    /// What is due, and what of it is unclaimed.
    pub fn total(&self) -> Result<Totalled, Refusal> {
        let [due, unclaimed, _] = calls::total(&self.bytes)?;
        Ok(Totalled { due, unclaimed })
    }

    /// Amends a fixed contract: bills that start after the original end take these price-fix and
    /// entry days. It alters no row.
    pub fn amend(
        &mut self,
        contract: u32,
        original_end_day: u32,
        price_fix_day: u32,
        entry_day: u32,
    ) -> Result<(), Refusal> {
        calls::amend(
            &mut self.bytes,
            contract,
            original_end_day,
            price_fix_day,
            entry_day,
        )?;
        Ok(())
    }
}

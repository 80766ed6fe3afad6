//! The facts that a ledger holds (document 01, section "The packed ledger").

use crate::codes::Territory;
use crate::rates::{Bill, Contract};

/// The contracts of a ledger.
pub const CONTRACTS: usize = 64;

/// The most rows held.
pub const MOST_ROWS: usize = 1_024;

/// The most claims made.
pub const MOST_CLAIMS: u32 = 1_000;

/// The territory, the open contracts with their certificates and amendments, the held rows, the
/// claim count and the net pence.
#[derive(Clone, Debug, PartialEq)]
pub struct Facts {
    pub territory: Territory,
    /// The contract of each number, where it is open.
    pub contracts: [Option<Contract>; CONTRACTS],
    /// The held rows, ascending by contract, then first day.
    pub rows: Vec<Row>,
    pub claims: u32,
    /// The net pence claimed.
    pub pence: i64,
}

/// A held row: a bill that stands.
#[derive(Clone, Copy, Debug, PartialEq, Eq)]
pub struct Row {
    pub contract: u32,
    pub bill: Bill,
    /// The bill's amount in ticks.
    pub amount: i64,
}

impl Facts {
    /// The facts of a fresh ledger.
    pub fn fresh(territory: Territory) -> Facts {
        Facts {
            territory,
            contracts: [None; CONTRACTS],
            rows: Vec::new(),
            claims: 0,
            pence: 0,
        }
    }
}

//! Calls that are measured each on a ledger of its own.

use crate::calls::{proved, Answer};

/// A call with its own numbers.
type OwnCall = Box<dyn Fn(&mut [u8], &[u32]) -> Answer>;

/// A call that is measured, with the ledger before it.
pub struct CallOnLedger {
    pub name: &'static str,
    pub ledger: Vec<u8>,
    /// How many rows the ledger has.
    pub rows: usize,
    pub proved: OwnCall,
    pub twin: OwnCall,
}

impl CallOnLedger {
    /// The total, which is the check of the ledger and little else.
    pub fn total(ledger: Vec<u8>, rows: usize) -> CallOnLedger {
        CallOnLedger {
            name: "total",
            ledger,
            rows,
            proved: Box::new(|ledger, _| proved(ebds::calls::total(ledger))),
            twin: Box::new(|ledger, _| twin::total(ledger)),
        }
    }
}

//! The proved discount ledger of the Energy Bills Discount Scheme, from Rust.
//!
//! [`Ledger`] owns a packed ledger and takes and answers typed values; [`calls`] has the same
//! calls on bytes of any length and with any numbers. Both go through the C library of
//! include/ebds.h. The terms are those of document 01, "The discount ledger of the Energy Bills
//! Discount Scheme", and of papers 1 to 6 of document 02, "Later changes to the base".

pub mod calls;
mod ledger;
mod refusal;

pub use ledger::{
    Billed, Cancelled, Certificate, Certified, Claimed, Fuel, Kind, Ledger, Rebilled, Reported,
    Territory, Totalled,
};
pub use refusal::Refusal;

/// The length of a packed ledger in bytes.
pub const LEDGER_LENGTH: usize = 26_184;

/// How many prices a book has.
pub const BOOK_LENGTH: usize = 1_740;

/// The numbers of a bill or rebill: its contract, first and last day, kWh, the supply price S and
/// the weighted price WAP in mils, and of the kWh those in the ETII share and those in the QHS
/// share. kWh is at most 40,000,000, and WAP is 0 unless the contract is flexible. The span of a
/// variable or index contract lies within one scheme month, and that of an amended contract doesn't
/// cross its original end.
///
/// If either share isn't 0, each share is rated by its class and the rest of the kWh as baseline,
/// the contract's certificate is set aside, and the rate answered is the baseline one.
#[derive(Clone, Copy, Debug)]
pub struct BillNumbers {
    pub contract: u32,
    pub first: u32,
    pub last: u32,
    pub kwh: u32,
    pub supply: u32,
    pub wap: u32,
    pub etii_share: u32,
    pub qhs_share: u32,
}

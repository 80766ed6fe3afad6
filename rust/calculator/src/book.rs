//! The lent list of prices (document 01, section "Contracts and the price book").

use crate::codes::HIGHEST_PRICE;
use crate::dates::scheme_month;
use crate::rates::{Contract, Kind};

/// The entries of a book.
pub const BOOK_ENTRIES: usize = 1_740;

/// Each fuel's entries of fixed contracts: one for each day number.
const FIXED_ENTRIES: u32 = 852;

/// The first entry of variable contracts, after those of both fuels' fixed contracts.
const FIRST_VARIABLE_ENTRY: u32 = 1_704;

/// The first entry of index contracts, after those of both fuels' variable contracts.
const FIRST_INDEX_ENTRY: u32 = 1_728;

/// The scheme's months.
const SCHEME_MONTHS: u32 = 12;

/// Whether a book may be used: 1,740 entries, none above 999,999.
pub fn is_usable(book: &[u32]) -> bool {
    book.len() == BOOK_ENTRIES && book.iter().all(|&price| price <= HIGHEST_PRICE)
}

/// The book entry that a contract's bill needs, or `None` for a flexible contract and for a
/// first day outside the scheme.
pub fn entry_needed(contract: &Contract, first_day: u32) -> Option<usize> {
    let month = scheme_month(first_day)?;
    let fuel = contract.fuel.code();
    let entry = match contract.kind_of_bill(first_day) {
        Kind::Fixed { price_fix_day, .. } => fuel * FIXED_ENTRIES + price_fix_day,
        Kind::Variable => FIRST_VARIABLE_ENTRY + fuel * SCHEME_MONTHS + month,
        Kind::DayAheadIndex => FIRST_INDEX_ENTRY + month,
        Kind::Flexible => return None,
    };
    Some(entry as usize)
}

//! What bill and rebill have in common: the numbers given, their refusals and the row made of
//! them (document 01, sections "Contracts and the price book" and "Turned down, in checking
//! order"; document 02, papers 1, 2, 5 and 6).

use crate::calendar::scheme_month;
use crate::check::{span_ok, Checked, HIGHEST_PRICE};
use crate::contracts::{Contract, Fuel, Kind};
use crate::packed::Row;
use crate::rates::Bill;
use crate::refusals::{
    BAD_BOOK, CROSSES_ORIGINAL_END, NO_PRICE, SHARES_EXCEED_KWH, TWO_MONTHS, WRONG_DAY,
    WRONG_QUANTITY,
};

/// The most kWh that a bill or rebill may give.
const MOST_KWH_GIVEN: u32 = 40_000_000;

/// How many prices a book has.
const BOOK_LENGTH: usize = 1_740;

/// The book's entry at which the fixed prices of gas begin; those of electricity begin at 0.
const FIXED_GAS_AT: usize = 852;

/// The book's entry at which the variable prices of electricity begin.
const VARIABLE_ELECTRICITY_AT: usize = 1_704;

/// The book's entry at which the variable prices of gas begin.
const VARIABLE_GAS_AT: usize = 1_716;

/// The book's entry at which the index prices begin.
const INDEX_AT: usize = 1_728;

/// The numbers of a bill or rebill: S and WAP in mils, and of the kWh those in the ETII share and
/// in the QHS share.
#[derive(Clone, Copy, Debug)]
pub struct BillNumbers {
    pub contract: u32,
    pub first: u32,
    pub last: u32,
    pub kwh: u32,
    pub supply: u32,
    pub wap: u32,
    pub etii_share: u32,
    pub qhs_share: u32,
}

impl BillNumbers {
    /// The contract of a bill or rebill that no test of the book or of its numbers turns down.
    pub fn contract<'a>(&self, checked: &'a Checked, book: &[u32]) -> Result<&'a Contract, u32> {
        if !book_ok(book) {
            return Err(BAD_BOOK);
        }
        let contract = checked.contract(self.contract)?;
        if !span_ok(self.first, self.last) {
            return Err(WRONG_DAY);
        }
        if contract.kind.is_monthly() && scheme_month(self.first) != scheme_month(self.last) {
            return Err(TWO_MONTHS);
        }
        if contract.crosses_original_end(self.first, self.last) {
            return Err(CROSSES_ORIGINAL_END);
        }
        let highest_wap = match contract.kind {
            Kind::Flexible => HIGHEST_PRICE,
            Kind::Fixed { .. } | Kind::Variable | Kind::Index => 0,
        };
        if self.kwh > MOST_KWH_GIVEN
            || i64::from(self.supply) > HIGHEST_PRICE
            || i64::from(self.wap) > highest_wap
        {
            return Err(WRONG_QUANTITY);
        }
        if u64::from(self.etii_share) + u64::from(self.qhs_share) > u64::from(self.kwh) {
            return Err(SHARES_EXCEED_KWH);
        }
        Ok(contract)
    }

    /// The row of the bill, or number 11 where the book has no price for it.
    pub fn row(&self, contract: &Contract, book: &[u32]) -> Result<Row, u32> {
        let bill = Bill {
            contract: self.contract,
            first: self.first,
            last: self.last,
            kwh: i64::from(self.kwh),
            etii_share: i64::from(self.etii_share),
            qhs_share: i64::from(self.qhs_share),
            reference: i64::from(self.reference(contract, book)?),
            supply: i64::from(self.supply),
        };
        let amount = contract.amount(&bill);
        Ok(Row { bill, amount })
    }

    /// R: the weighted price of a flexible contract, or else the book's price.
    fn reference(&self, contract: &Contract, book: &[u32]) -> Result<u32, u32> {
        let month = scheme_month(self.first);
        let entry = match (contract.kind_on(self.first), contract.fuel) {
            (Kind::Flexible, _) => return Ok(self.wap),
            (Kind::Fixed { price_fix_day, .. }, Fuel::Electricity) => price_fix_day as usize,
            (Kind::Fixed { price_fix_day, .. }, Fuel::Gas) => FIXED_GAS_AT + price_fix_day as usize,
            (Kind::Variable, Fuel::Electricity) => VARIABLE_ELECTRICITY_AT + month,
            (Kind::Variable, Fuel::Gas) => VARIABLE_GAS_AT + month,
            (Kind::Index, _) => INDEX_AT + month,
        };
        match book[entry] {
            0 => Err(NO_PRICE),
            price => Ok(price),
        }
    }
}

/// Whether a book has its length and no entry above 999,999. It reads on after one that is, which
/// the compiler makes into steps of several entries.
fn book_ok(book: &[u32]) -> bool {
    let highest = book.iter().fold(0, |highest, &price| price.max(highest));
    book.len() == BOOK_LENGTH && i64::from(highest) <= HIGHEST_PRICE
}

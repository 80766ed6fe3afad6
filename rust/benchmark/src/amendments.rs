//! Ledgers that show what amendments cost (document 02, paper 5): 64 fixed contracts with sixteen
//! bills each, of which eight end before the original end day and eight begin after it, if the
//! contract is amended. No bill has a change inside.
//!
//! An amendment keeps the contract's price-fix day and entry day, so that the rows are the same in
//! each ledger.

use twin::BillNumbers;

use crate::both_ledgers::BothLedgers;
use crate::calls_on_ledgers::CallOnLedger;
use crate::changes::{fixed_days, open, CONTRACTS, FULL};
use crate::ledgers::FIXED;

/// The day between a contract's first eight bills and the eight others.
const ORIGINAL_END_DAY: u32 = 665;

/// Which contracts of a ledger are amended.
pub type Amended = fn(u32) -> bool;

/// None of the contracts, half of them and all of them.
pub const AMENDED: [Amended; 3] = [
    unamended,
    // Eight contracts amended and eight not: every fuel and class is in each eight.
    |contract| contract / 8 % 2 == 0,
    |_| true,
];

/// No contract is amended.
pub fn unamended(_contract: u32) -> bool {
    false
}

/// How many of the ledger's rows are of amended contracts.
pub fn rows_of_amended(amended: Amended) -> usize {
    let all_numbers = FULL.all_bill_numbers();
    all_numbers.filter(|bill| amended(bill.contract)).count()
}

/// The total of a ledger in which those contracts are amended.
pub fn total(amended: Amended, book: &[u32]) -> CallOnLedger {
    let mut ledgers = BothLedgers::start();
    for contract in 0..CONTRACTS {
        open(&mut ledgers, contract, FIXED);
        if amended(contract) {
            let (price_fix_day, entry_day) = fixed_days(contract);
            ledgers.amend(contract, ORIGINAL_END_DAY, price_fix_day, entry_day);
        }
    }
    for numbers in FULL.all_bill_numbers() {
        // The bill of a fixed contract has no weighted price.
        ledgers.bill(book, BillNumbers { wap: 0, ..numbers });
    }
    CallOnLedger::total(ledgers.bytes(), FULL.rows())
}

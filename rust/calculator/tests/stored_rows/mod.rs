//! Rows that no call makes, as a ledger stored earlier may hold them.

use calculator::packed::Facts;
use calculator::rates::{amount, Bill};

/// The facts with the bill of each row edited, and the amount that it then has.
pub fn with_edited_bills(facts: &Facts, edit: impl Fn(&mut Bill)) -> Facts {
    let mut edited = facts.clone();
    for row in &mut edited.rows {
        let contract = facts.contracts[row.contract as usize];
        edit(&mut row.bill);
        row.amount = amount(&contract.expect("a row's contract is open"), &row.bill);
    }
    edited
}

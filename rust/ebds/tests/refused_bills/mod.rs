//! Bills and rebills that are turned down.

use ebds::{BillNumbers, Ledger, Refusal};

/// Holds a bill to a refusal, with no byte changed.
pub fn expect_no_bill(ledger: &mut Ledger, book: &[u32], numbers: BillNumbers, refusal: Refusal) {
    let before = ledger.clone();
    let refused = ledger.bill(book, numbers);
    assert_eq!(refused, Err(refusal), "{numbers:?}");
    assert_eq!(*ledger, before, "{numbers:?}");
}

/// Holds a rebill to a refusal, with no byte changed.
pub fn expect_no_rebill(ledger: &mut Ledger, book: &[u32], numbers: BillNumbers, refusal: Refusal) {
    let before = ledger.clone();
    let refused = ledger.rebill(book, numbers);
    assert_eq!(refused, Err(refusal), "{numbers:?}");
    assert_eq!(*ledger, before, "{numbers:?}");
}

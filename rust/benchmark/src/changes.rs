//! Ledgers that show what a change inside a bill costs (document 02, paper 3): a certificate that
//! takes effect on a day after the bill's first, or the new QHS minimum, which begins on day 792.
//!
//! A contract has one certificate, so that at most two of its bills have a change inside. Each of
//! the 64 contracts here has these two bills, or these and fourteen others. The bills of a contract
//! that is to have the changes inside begin ten days earlier, and are alike otherwise.

use twin::BillNumbers;

use crate::both_ledgers::BothLedgers;
use crate::ledgers::{reference_price, varied, varied_kwh, FIXED, FLEXIBLE};

/// How many contracts there are, all of them open.
pub const CONTRACTS: u32 = 64;

/// A flexible contract with a QHS certificate, whose rows are in the middle; its prices are such that
/// both of its changes make a difference to the amounts.
pub const MIDDLE_CONTRACT: u32 = 35;

/// The day from which each contract's certificate applies.
pub const EFFECTIVE_DAY: u32 = 519;

/// The day from which the new QHS minimum applies.
const NEW_MINIMUM_DAY: u32 = 792;

/// How many days a bill has.
const DAYS: u32 = 20;

/// How many days apart the first days of a contract's bills are.
const DAYS_APART: u32 = 21;

/// The first day of a contract's bill 0, if the contract has no change inside: bill 1 then begins
/// on the effective day, and bill 14 on day 792.
const BILL_0_DAY: u32 = EFFECTIVE_DAY - DAYS_APART * EFFECTIVE_BILL;

/// How many days earlier the bills of a contract with the changes inside begin.
const DAYS_EARLIER: u32 = 10;

/// The number of the bill that begins on the effective day, or has it inside.
const EFFECTIVE_BILL: u32 = 1;

/// The number of the bill that begins on day 792, or has it inside.
pub const MINIMUM_BILL: u32 = 14;

/// The two bills.
const TWO_BILLS: &[u32] = &[EFFECTIVE_BILL, MINIMUM_BILL];

/// As many bills of each contract as fill a ledger.
const SIXTEEN_BILLS: &[u32] = &[0, 1, 2, 3, 4, 5, 6, 7, 8, 9, 10, 11, 12, 13, 14, 15];

/// A full ledger, without a change inside any bill.
pub const FULL: Contents = Contents {
    bills: SIXTEEN_BILLS,
    changes_inside: |_| false,
};

/// What the ledgers hold: 128 rows of which none, the middle contract's, half and all have a change
/// inside; and 1,024 rows of which none, and as many as can, have one.
pub const CONTENTS: [Contents; 6] = [
    Contents {
        bills: TWO_BILLS,
        changes_inside: |_| false,
    },
    Contents {
        bills: TWO_BILLS,
        changes_inside: |contract| contract == MIDDLE_CONTRACT,
    },
    Contents {
        bills: TWO_BILLS,
        // Eight contracts with and eight without: every fuel, kind and class is in each eight.
        changes_inside: |contract| contract / 8 % 2 == 0,
    },
    Contents {
        bills: TWO_BILLS,
        changes_inside: |_| true,
    },
    FULL,
    Contents {
        bills: SIXTEEN_BILLS,
        changes_inside: |_| true,
    },
];

/// What a ledger holds.
#[derive(Clone, Copy)]
pub struct Contents {
    /// The numbers of each contract's bills.
    bills: &'static [u32],
    /// Whether a contract has the changes inside its bills.
    changes_inside: fn(u32) -> bool,
}

impl Contents {
    /// The same without a change inside any bill.
    pub fn without_changes(self) -> Contents {
        Contents {
            changes_inside: |_| false,
            ..self
        }
    }

    /// The ledger.
    pub fn ledgers(self, book: &[u32]) -> BothLedgers {
        let mut ledgers = opened();
        for numbers in self.all_bill_numbers() {
            ledgers.bill(book, numbers);
        }
        ledgers
    }

    /// How many rows the ledger has.
    pub fn rows(self) -> usize {
        self.all_bill_numbers().count()
    }

    /// How many of them have a change inside.
    pub fn rows_with_change(self) -> usize {
        self.all_bill_numbers().filter(has_change_inside).count()
    }

    /// The numbers of a contract's bill. What varies from bill to bill doesn't depend on its days.
    pub fn bill_numbers(self, contract: u32, bill: u32) -> BillNumbers {
        let first = self.first_day(contract, bill);
        let place = 1_024 * contract + bill;
        let kwh = varied_kwh(place);
        let (etii_share, qhs_share) = shares(contract, bill, kwh);
        BillNumbers {
            contract,
            first,
            last: first + DAYS - 1,
            kwh,
            supply: varied(place, 9_000, 60_000),
            wap: match kind(contract) {
                FLEXIBLE => reference_price(place),
                _ => 0,
            },
            etii_share,
            qhs_share,
        }
    }

    fn first_day(self, contract: u32, bill: u32) -> u32 {
        let later = BILL_0_DAY + DAYS_APART * bill;
        if (self.changes_inside)(contract) {
            later - DAYS_EARLIER
        } else {
            later
        }
    }

    /// The numbers of all bills.
    pub fn all_bill_numbers(self) -> impl Iterator<Item = BillNumbers> {
        (0..CONTRACTS).flat_map(move |contract| {
            let numbers = move |&bill| self.bill_numbers(contract, bill);
            self.bills.iter().map(numbers)
        })
    }
}

/// Whether a bill has a change inside: each of those that have day 792 inside is of a QHS contract
/// or has a QHS share, and none that have the effective day inside has shares.
fn has_change_inside(numbers: &BillNumbers) -> bool {
    let days_after_first = numbers.first + 1..=numbers.last;
    days_after_first.contains(&EFFECTIVE_DAY) || days_after_first.contains(&NEW_MINIMUM_DAY)
}

/// A ledger with all contracts and no row.
fn opened() -> BothLedgers {
    let mut ledgers = BothLedgers::start();
    for contract in 0..CONTRACTS {
        open(&mut ledgers, contract, kind(contract));
    }
    ledgers
}

/// Opens a contract of a kind, with its certificate.
pub fn open(ledgers: &mut BothLedgers, contract: u32, kind: u32) {
    let fuel = contract / 4 % 2;
    let (price_fix_day, entry_day) = match kind {
        FIXED => fixed_days(contract),
        _ => (0, 0),
    };
    ledgers.open(contract, fuel, kind, price_fix_day, entry_day);
    ledgers.cert(contract, class(contract), EFFECTIVE_DAY);
}

/// The price-fix day and the entry day of a fixed contract. It is entered on the day from which the
/// new QHS minimum applies, so that it doesn't keep the old one.
pub fn fixed_days(contract: u32) -> (u32, u32) {
    (13 * contract, NEW_MINIMUM_DAY)
}

/// The kind of a contract, fixed or flexible: no bill of another kind has day 792 inside, which is
/// the first of a month.
fn kind(contract: u32) -> u32 {
    match contract / 2 % 2 {
        0 => FIXED,
        _ => FLEXIBLE,
    }
}

/// The class of a contract's certificate: ETII of an even one, QHS of an odd one.
pub fn class(contract: u32) -> u32 {
    1 + contract % 2
}

/// The ETII share and the QHS share of a bill. Every fourth bill of a contract has them, and a
/// quarter of its kWh is then baseline. Of an ETII contract the bill that has day 792 inside is one
/// of these; of a QHS contract neither of the two bills is.
fn shares(contract: u32, bill: u32, kwh: u32) -> (u32, u32) {
    match (bill + 2 * class(contract)) % 4 {
        0 => (kwh / 4, kwh / 2),
        _ => (0, 0),
    }
}

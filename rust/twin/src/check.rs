//! The well-formed check (document 01, section on the packed ledger; document 02, papers 1, 3, 5
//! and 6): one pass over the contracts, and one over the rows.

use crate::contracts::{Contract, Kind, FIRST_SCHEME_DAY, LAST_DAY};
use crate::packed::{
    contract_slots, row_slots, ContractSlot, Header, Row, RowSlot, CONTRACT_COUNT, LEDGER_LENGTH,
    UNOPENED,
};
use crate::refusals::{NOT_WELL_FORMED, NO_SUCH_CONTRACT, WRONGLY_OPEN};

/// The most claims that are made.
pub const MOST_CLAIMS: u32 = 1_000;

/// The most kWh of a row, which may be more than a bill may give.
const MOST_KWH_STORED: i64 = 100_000_000;

/// The highest price in mils.
pub const HIGHEST_PRICE: i64 = 999_999;

/// The contracts by their numbers; `None` for one that isn't open.
type Contracts = [Option<Contract>; CONTRACT_COUNT];

/// What the check finds in a well-formed ledger.
pub struct Checked {
    pub header: Header,
    contracts: Contracts,
    /// How many rows are held.
    pub held: usize,
    /// The sum of their amounts.
    pub due: i64,
}

impl Checked {
    /// The open contract with that number, or the number that turns the call down.
    pub fn contract(&self, number: u32) -> Result<&Contract, u32> {
        self.slot(number)?.as_ref().ok_or(WRONGLY_OPEN)
    }

    /// Whether the contract with that number is open, or the number that turns the call down.
    pub fn is_open(&self, number: u32) -> Result<bool, u32> {
        Ok(self.slot(number)?.is_some())
    }

    fn slot(&self, number: u32) -> Result<&Option<Contract>, u32> {
        self.contracts.get(number as usize).ok_or(NO_SUCH_CONTRACT)
    }
}

/// Checks a ledger, or gives the number that turns the call down.
pub fn check(ledger: &[u8]) -> Result<Checked, u32> {
    well_formed(ledger).ok_or(NOT_WELL_FORMED)
}

fn well_formed(ledger: &[u8]) -> Option<Checked> {
    if ledger.len() != LEDGER_LENGTH {
        return None;
    }
    let header = Header::unpack(ledger);
    if header.claims > MOST_CLAIMS || (header.claims == 0 && header.pence != 0) {
        return None;
    }
    let contracts = check_contracts(contract_slots(ledger), header.territory)?;
    let (held, due) = check_rows(row_slots(ledger), &contracts)?;
    Some(Checked {
        header,
        contracts,
        held,
        due,
    })
}

fn check_contracts(slots: &[ContractSlot], territory: u32) -> Option<Contracts> {
    let mut contracts = [None; CONTRACT_COUNT];
    for (contract, slot) in contracts.iter_mut().zip(slots) {
        if *slot != UNOPENED {
            *contract = Some(Contract::unpack(slot, territory)?);
        }
    }
    Some(contracts)
}

/// How many rows are held, and the sum of their amounts. Inlined beside the pass over the contracts,
/// it would have fewer registers.
#[inline(never)]
fn check_rows(slots: &[RowSlot], contracts: &Contracts) -> Option<(usize, i64)> {
    let mut held = 0;
    let mut due = 0;
    let mut least = (0, 0);
    for slot in slots.iter().take_while(|slot| Row::is_held(slot)) {
        let row = Row::unpack(slot);
        let bill = &row.bill;
        let contract = contracts[bill.contract as usize].as_ref()?;
        if (bill.contract, bill.first) < least
            || !Row::ends_in_zeros(slot)
            || !row_ok(contract, &row)
        {
            return None;
        }
        least = (bill.contract, bill.last + 1);
        due += row.amount;
        held += 1;
    }
    all_zero(slots[held..].as_flattened()).then_some((held, due))
}

/// Whether a row keeps its ranges under its contract and has the amount of its bill.
fn row_ok(contract: &Contract, Row { bill, amount }: &Row) -> bool {
    span_ok(bill.first, bill.last)
        && !contract.crosses_original_end(bill.first, bill.last)
        && bill.kwh <= MOST_KWH_STORED
        && bill.rest() >= 0
        && bill.supply <= HIGHEST_PRICE
        && bill.reference <= HIGHEST_PRICE
        && (bill.reference != 0 || contract.kind == Kind::Flexible)
        && *amount == contract.amount(bill)
}

/// Whether a bill may run from one day to the other.
pub fn span_ok(first: u32, last: u32) -> bool {
    FIRST_SCHEME_DAY <= first && first <= last && last <= LAST_DAY
}

/// Whether all bytes are zero. It reads on after one that isn't, which the compiler makes into
/// steps of many bytes.
fn all_zero(bytes: &[u8]) -> bool {
    bytes.iter().fold(0, |bits, byte| bits | byte) == 0
}

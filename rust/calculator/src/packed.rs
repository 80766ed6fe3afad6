//! The packed ledger (document 01, section "The packed ledger"): the facts packed, and
//! unpacked from well-formed bytes; the calls on the bytes.

use crate::calls::{Call, Outcome};
use crate::codes::Territory;
pub use crate::facts::{Facts, Row};
use crate::facts::{CONTRACTS, MOST_ROWS};
pub use crate::layout::LEDGER_BYTES;
use crate::layout::{ContractNumbers, LedgerNumbers, RowNumbers};
use crate::postings::PostingModule;
use crate::rates::Contract;
use crate::refusals::LEDGER_NOT_WELL_FORMED;
use crate::well_formed::is_well_formed;

/// The bytes that hold the facts of a ledger.
pub fn pack(facts: &Facts) -> Vec<u8> {
    let contract_numbers = |contract: &Option<Contract>| match contract {
        Some(contract) => ContractNumbers::of(contract),
        None => ContractNumbers::default(),
    };
    let mut rows: Vec<RowNumbers> = facts.rows.iter().map(RowNumbers::of).collect();
    rows.resize(MOST_ROWS, RowNumbers::default());
    let numbers = LedgerNumbers {
        territory: facts.territory.code(),
        claims: facts.claims,
        pence: facts.pence.cast_unsigned(),
        contracts: facts.contracts.iter().map(contract_numbers).collect(),
        rows,
    };
    numbers.write()
}

/// The facts that bytes hold, or `None` if they aren't well formed.
pub fn unpack(bytes: &[u8]) -> Option<Facts> {
    if bytes.len() != LEDGER_BYTES {
        return None;
    }
    let numbers = LedgerNumbers::read(bytes);
    if !is_well_formed(&numbers) {
        return None;
    }
    let mut contracts = [None; CONTRACTS];
    for (contract, numbers) in contracts.iter_mut().zip(&numbers.contracts) {
        *contract = numbers.contract();
    }
    Some(Facts {
        territory: Territory::of(numbers.territory)?,
        contracts,
        rows: numbers.held_rows().map(RowNumbers::row).collect(),
        claims: numbers.claims,
        pence: numbers.pence.cast_signed(),
    })
}

/// Answers a call on the bytes of a ledger: the posting module's answer on the facts that
/// they hold, and in the bytes the facts that it leaves. A refused call changes no byte.
pub fn call_on_bytes(ledger: &mut [u8], book: &[u32], call: &Call) -> Outcome {
    let facts = match call {
        Call::Start { .. } => fresh_facts(ledger),
        _ => unpack(ledger),
    };
    let mut module = PostingModule::from_facts(&facts.ok_or(LEDGER_NOT_WELL_FORMED)?);
    let answer = module.call(book, call)?;
    ledger.copy_from_slice(&pack(&module.facts()));
    Ok(answer)
}

/// The facts that start is called on, whatever the bytes hold, or `None` for a wrong length.
fn fresh_facts(ledger: &[u8]) -> Option<Facts> {
    (ledger.len() == LEDGER_BYTES).then(|| Facts::fresh(Territory::GreatBritain))
}

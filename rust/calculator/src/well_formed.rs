//! The well-formed ledgers: one function for each clause of document 01, section "The packed
//! ledger", paragraph "Well formed", and of document 02, papers 1, 3, 5 and 6. The clause on the
//! length stands with `packed::unpack`.

use crate::codes::{
    amendment_days_in_range, contract_days_in_range, crosses_original_end, effective_day_in_range,
    kind_in_its_place, shares_exceed_kwh, span_in_range, Territory, HIGHEST_PRICE, MOST_KWH_STORED,
};
use crate::dates::LAST_DAY;
use crate::facts::{CONTRACTS, MOST_CLAIMS};
use crate::layout::{AmendmentNumbers, ContractNumbers, LedgerNumbers, RowNumbers};
use crate::rates::{self, Contract, Kind};

/// Whether every clause holds. The later clauses rely on the ranges.
pub(crate) fn is_well_formed(ledger: &LedgerNumbers) -> bool {
    claims_are_at_most_1_000(ledger)
        && no_pence_where_no_claim_was_made(ledger)
        && contracts_not_open_are_zeros(ledger)
        && rows_not_held_are_zeros(ledger)
        && the_five_last_bits_of_contracts_are_zeros(ledger)
        && the_two_last_bits_of_rows_are_zeros(ledger)
        && open_contracts_keep_their_ranges(ledger)
        && a_clear_flag_has_three_zero_days(ledger)
        && only_fixed_contracts_are_amended(ledger)
        && held_rows_keep_their_ranges(ledger)
        && shares_of_held_rows_do_not_exceed_kwh(ledger)
        && contracts_of_held_rows_are_open(ledger)
        && no_row_crosses_its_contracts_original_end(ledger)
        && reference_price_is_0_only_for_flexible(ledger)
        && amounts_are_kwh_times_rate_by_day(ledger)
        && held_rows_come_first(ledger)
        && held_rows_ascend(ledger)
        && no_two_rows_of_a_contract_share_a_day(ledger)
}

fn claims_are_at_most_1_000(ledger: &LedgerNumbers) -> bool {
    ledger.claims <= MOST_CLAIMS
}

fn no_pence_where_no_claim_was_made(ledger: &LedgerNumbers) -> bool {
    ledger.claims > 0 || ledger.pence == 0
}

fn contracts_not_open_are_zeros(ledger: &LedgerNumbers) -> bool {
    let mut not_open = ledger.contracts.iter().filter(|contract| !contract.open);
    not_open.all(|contract| *contract == ContractNumbers::default())
}

fn rows_not_held_are_zeros(ledger: &LedgerNumbers) -> bool {
    let mut not_held = ledger.rows.iter().filter(|row| !row.held);
    not_held.all(|row| *row == RowNumbers::default())
}

fn the_five_last_bits_of_contracts_are_zeros(ledger: &LedgerNumbers) -> bool {
    ledger.contracts.iter().all(|contract| contract.zeros == 0)
}

fn the_two_last_bits_of_rows_are_zeros(ledger: &LedgerNumbers) -> bool {
    ledger.rows.iter().all(|row| row.zeros == 0)
}

/// The ranges of numbers 6 and 7 of open, cert and amend.
fn open_contracts_keep_their_ranges(ledger: &LedgerNumbers) -> bool {
    let Some(territory) = Territory::of(ledger.territory) else {
        return false;
    };
    let keeps_its_ranges = |numbers: &ContractNumbers| {
        numbers.contract().is_some_and(|contract| {
            kind_in_its_place(territory, contract.fuel, contract.kind)
                && contract_days_in_range(contract.kind, numbers.price_fix_day, numbers.entry_day)
                && effective_day_in_range(contract.certificate, numbers.effective_day)
                && contract.amendment.is_none_or(amendment_days_in_range)
        })
    };
    let mut open = ledger.contracts.iter().filter(|contract| contract.open);
    open.all(keeps_its_ranges)
}

fn a_clear_flag_has_three_zero_days(ledger: &LedgerNumbers) -> bool {
    let mut amendments = ledger.contracts.iter().map(|contract| contract.amendment);
    amendments.all(|amendment| amendment.amended || amendment == AmendmentNumbers::default())
}

fn only_fixed_contracts_are_amended(ledger: &LedgerNumbers) -> bool {
    let mut contracts = ledger
        .contracts
        .iter()
        .filter_map(ContractNumbers::contract);
    contracts.all(|contract| contract.amendment.is_none() || contract.kind.is_fixed())
}

/// The days of number 7 of bill, and the prices of its number 8, which R keeps too. The kWh may be
/// more than number 8 lets a bill have.
fn held_rows_keep_their_ranges(ledger: &LedgerNumbers) -> bool {
    ledger.held_rows().all(|row| {
        span_in_range(row.first_day, row.last_day)
            && row.kwh <= MOST_KWH_STORED
            && row.reference_price <= HIGHEST_PRICE
            && row.supply_price <= HIGHEST_PRICE
    })
}

fn shares_of_held_rows_do_not_exceed_kwh(ledger: &LedgerNumbers) -> bool {
    let mut rows = ledger.held_rows();
    rows.all(|row| !shares_exceed_kwh(row.etii_share, row.qhs_share, row.kwh))
}

fn contracts_of_held_rows_are_open(ledger: &LedgerNumbers) -> bool {
    let mut rows = ledger.held_rows();
    rows.all(|row| contract_of(ledger, row).is_some())
}

fn no_row_crosses_its_contracts_original_end(ledger: &LedgerNumbers) -> bool {
    let crosses = |row: &RowNumbers| {
        contract_of(ledger, row)
            .is_some_and(|contract| crosses_original_end(&contract, row.first_day, row.last_day))
    };
    !ledger.held_rows().any(crosses)
}

fn reference_price_is_0_only_for_flexible(ledger: &LedgerNumbers) -> bool {
    let flexible =
        |row| contract_of(ledger, row).is_some_and(|contract| contract.kind == Kind::Flexible);
    let mut rows = ledger.held_rows();
    rows.all(|row| row.reference_price != 0 || flexible(row))
}

/// Summed over the days and the three shares.
fn amounts_are_kwh_times_rate_by_day(ledger: &LedgerNumbers) -> bool {
    let is_kwh_times_rate = |numbers: &RowNumbers| {
        let row = numbers.row();
        contract_of(ledger, numbers)
            .is_some_and(|contract| row.amount == rates::amount(&contract, &row.bill))
    };
    let mut rows = ledger.held_rows();
    rows.all(is_kwh_times_rate)
}

fn held_rows_come_first(ledger: &LedgerNumbers) -> bool {
    let mut after_the_first = ledger.rows.iter().skip_while(|row| row.held);
    after_the_first.all(|row| !row.held)
}

/// By contract, then first day.
fn held_rows_ascend(ledger: &LedgerNumbers) -> bool {
    let keys = || ledger.held_rows().map(|row| (row.contract, row.first_day));
    let mut neighbours = keys().zip(keys().skip(1));
    neighbours.all(|(key, next)| key < next)
}

/// Each row takes its days, which no other row of its contract may have taken.
fn no_two_rows_of_a_contract_share_a_day(ledger: &LedgerNumbers) -> bool {
    let mut taken = [[false; LAST_DAY as usize + 1]; CONTRACTS];
    for row in ledger.held_rows() {
        let days = row.first_day as usize..=row.last_day as usize;
        let days = &mut taken[row.contract as usize][days];
        if days.contains(&true) {
            return false;
        }
        days.fill(true);
    }
    true
}

/// The open contract of a row.
fn contract_of(ledger: &LedgerNumbers, row: &RowNumbers) -> Option<Contract> {
    ledger.contracts[row.contract as usize].contract()
}

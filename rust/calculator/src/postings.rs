//! The old posting module: it writes each bill, reversal and reissue as a signed posting and
//! adds the postings up. It answers the calls of document 01, section "Calls", and amend of
//! document 02, paper 5. It refuses by numbers 3 to 13 of document 01, section "Turned down, in
//! checking order", and numbers 14 to 18 of document 02, papers 1, 2 and 5. Amounts are those of
//! its paper 3, and the most kWh of a bill or rebill that of its paper 6.

use crate::book;
use crate::calls::{BillNumbers, Call, Outcome};
use crate::codes::{
    amendment_days_in_range, contract_days_in_range, crosses_original_end, effective_day_in_range,
    kind_in_its_place, may_be_amended, shares_exceed_kwh, span_in_range, spans_share_a_day,
    touches_two_months, Territory, HIGHEST_PRICE, MOST_KWH_GIVEN,
};
use crate::facts::{Facts, Row, CONTRACTS, MOST_CLAIMS, MOST_ROWS};
use crate::rates::{self, Amendment, Bill, Certificate, Contract, Fuel, Kind};
use crate::refusals::{
    refuse_if, CLAIMS_USED_UP, CODE_WITHOUT_MEANING, CONTRACT_NOT_FIXED_OR_AMENDED_ALREADY,
    CONTRACT_NUMBER_TOO_HIGH, CONTRACT_OPEN_ALREADY_OR_NOT_OPEN, DAY_SHARED, NO_SUCH_ROW,
    NUMBER_OUT_OF_RANGE, PRICE_NOT_PUBLISHED, ROWS_FULL, ROW_ENDS_AFTER_ORIGINAL_END,
    SHARES_EXCEED_KWH, SPAN_CROSSES_ORIGINAL_END, SPAN_TOUCHES_TWO_MONTHS, WRONG_BOOK, WRONG_DAY,
};
use std::collections::BTreeMap;

/// The ticks in a penny.
pub const TICKS_PER_PENNY: i64 = 10_000;

/// The posting module of one ledger.
#[derive(Clone, Debug)]
pub struct PostingModule {
    territory: Territory,
    contracts: [Option<Contract>; CONTRACTS],
    /// The bills that stand, by contract and first day.
    bills: BTreeMap<(u32, u32), Row>,
    postings: Vec<Posting>,
    claims: u32,
    pence_claimed: i64,
}

/// A signed amount in ticks written to a contract.
#[derive(Clone, Copy, Debug)]
struct Posting {
    contract: u32,
    amount: i64,
}

impl PostingModule {
    /// A module without contracts, bills and claims.
    pub fn new(territory: Territory) -> PostingModule {
        PostingModule::from_facts(&Facts::fresh(territory))
    }

    /// The module that holds the facts, with one posting for each row.
    pub fn from_facts(facts: &Facts) -> PostingModule {
        let posting = |row: &Row| Posting {
            contract: row.contract,
            amount: row.amount,
        };
        let key = |row: &Row| (row.contract, row.bill.first_day);
        PostingModule {
            territory: facts.territory,
            contracts: facts.contracts,
            bills: facts.rows.iter().map(|row| (key(row), *row)).collect(),
            postings: facts.rows.iter().map(posting).collect(),
            claims: facts.claims,
            pence_claimed: facts.pence,
        }
    }

    /// The facts that the module holds.
    pub fn facts(&self) -> Facts {
        Facts {
            territory: self.territory,
            contracts: self.contracts,
            rows: self.bills.values().copied().collect(),
            claims: self.claims,
            pence: self.pence_claimed,
        }
    }

    /// Answers a call; the book is read by a bill and a rebill. A refused call changes
    /// nothing.
    pub fn call(&mut self, book: &[u32], call: &Call) -> Outcome {
        match *call {
            Call::Start { territory } => self.start(territory),
            Call::Open {
                contract,
                fuel,
                kind,
                price_fix_day,
                entry_day,
            } => self.open(contract, fuel, (kind, price_fix_day, entry_day)),
            Call::Bill(numbers) => self.bill(book, numbers),
            Call::Rebill(numbers) => self.rebill(book, numbers),
            Call::Cert {
                contract,
                class,
                effective_day,
            } => self.cert(contract, class, effective_day),
            Call::Cancel { contract, first } => self.cancel(contract, first),
            Call::Claim => self.claim(),
            Call::Report { contract } => self.report(contract),
            Call::Total => Ok(self.total()),
            Call::Amend {
                contract,
                original_end_day,
                price_fix_day,
                entry_day,
            } => {
                let amendment = Amendment {
                    original_end_day,
                    price_fix_day,
                    entry_day,
                };
                self.amend(contract, amendment)
            }
        }
    }

    fn start(&mut self, territory: u32) -> Outcome {
        let territory = Territory::of(territory).ok_or(CODE_WITHOUT_MEANING)?;
        *self = PostingModule::new(territory);
        Ok(vec![])
    }

    fn open(&mut self, contract: u32, fuel: u32, kind_numbers: (u32, u32, u32)) -> Outcome {
        let slot = slot(contract)?;
        refuse_if(
            self.contracts[slot].is_some(),
            CONTRACT_OPEN_ALREADY_OR_NOT_OPEN,
        )?;
        let (kind, price_fix_day, entry_day) = kind_numbers;
        let fuel = Fuel::of(fuel).ok_or(CODE_WITHOUT_MEANING)?;
        let kind = Kind::of(kind, price_fix_day, entry_day).ok_or(CODE_WITHOUT_MEANING)?;
        refuse_if(
            !kind_in_its_place(self.territory, fuel, kind),
            CODE_WITHOUT_MEANING,
        )?;
        refuse_if(
            !contract_days_in_range(kind, price_fix_day, entry_day),
            WRONG_DAY,
        )?;
        self.contracts[slot] = Some(Contract {
            fuel,
            kind,
            certificate: Certificate::None,
            amendment: None,
        });
        Ok(vec![])
    }

    fn bill(&mut self, book: &[u32], numbers: BillNumbers) -> Outcome {
        let contract = self.billed_contract(book, numbers)?;
        refuse_if(self.shares_a_day(numbers, None), DAY_SHARED)?;
        let reference_price = reference_price(book, &contract, numbers)?;
        refuse_if(self.bills.len() >= MOST_ROWS, ROWS_FULL)?;
        let bill = bill_of(numbers, reference_price);
        let amount = self.issue(&contract, numbers.contract, bill);
        let rate = rates::rate(&contract, &bill);
        Ok(vec![reference_price.into(), rate, amount])
    }

    fn rebill(&mut self, book: &[u32], numbers: BillNumbers) -> Outcome {
        let contract = self.billed_contract(book, numbers)?;
        let old = self.standing_bill(numbers.contract, numbers.first)?;
        refuse_if(self.shares_a_day(numbers, Some(&old)), DAY_SHARED)?;
        let reference_price = reference_price(book, &contract, numbers)?;
        let bill = bill_of(numbers, reference_price);
        let reversed = self.reverse(&old);
        let reissued = self.issue(&contract, numbers.contract, bill);
        let rate = rates::rate(&contract, &bill);
        Ok(vec![reference_price.into(), rate, reversed + reissued])
    }

    fn cert(&mut self, number: u32, class: u32, effective_day: u32) -> Outcome {
        let mut contract = self.open_contract(number)?;
        let certificate = Certificate::of(class, effective_day).ok_or(CODE_WITHOUT_MEANING)?;
        refuse_if(
            !effective_day_in_range(certificate, effective_day),
            WRONG_DAY,
        )?;
        contract.certificate = certificate;
        self.contracts[slot(number)?] = Some(contract);
        let bills: Vec<Row> = self.bills_of(number).copied().collect();
        let (mut net_change, mut changed) = (0, 0);
        for row in bills {
            let reversed = self.reverse(&row);
            let reissued = self.issue(&contract, number, row.bill);
            net_change += reversed + reissued;
            changed += i64::from(reversed + reissued != 0);
        }
        Ok(vec![net_change, changed])
    }

    fn cancel(&mut self, contract: u32, first: u32) -> Outcome {
        self.open_contract(contract)?;
        let row = self.standing_bill(contract, first)?;
        Ok(vec![self.reverse(&row)])
    }

    fn claim(&mut self) -> Outcome {
        refuse_if(self.claims >= MOST_CLAIMS, CLAIMS_USED_UP)?;
        let due = self.due();
        let pence = due.div_euclid(TICKS_PER_PENNY);
        let change = pence - self.pence_claimed;
        self.claims += 1;
        self.pence_claimed = pence;
        Ok(vec![change, due.rem_euclid(TICKS_PER_PENNY)])
    }

    fn report(&self, number: u32) -> Outcome {
        self.open_contract(number)?;
        let rows = self.bills_of(number).count();
        let kwh = self.bills_of(number).map(|row| row.bill.kwh).sum();
        let postings = self.postings.iter();
        let postings = postings.filter(|posting| posting.contract == number);
        let due = postings.map(|posting| posting.amount).sum();
        Ok(vec![rows as i64, kwh, due])
    }

    fn total(&self) -> Vec<i64> {
        let due = self.due();
        vec![due, due - TICKS_PER_PENNY * self.pence_claimed]
    }

    /// Writes no posting: every bill that stands ends on or before the original end, so that it
    /// keeps its price-fix and entry day.
    fn amend(&mut self, number: u32, amendment: Amendment) -> Outcome {
        let mut contract = self.open_contract(number)?;
        refuse_if(
            !may_be_amended(&contract),
            CONTRACT_NOT_FIXED_OR_AMENDED_ALREADY,
        )?;
        refuse_if(!amendment_days_in_range(amendment), WRONG_DAY)?;
        let ends_after = |row: &Row| row.bill.last_day > amendment.original_end_day;
        refuse_if(
            self.bills_of(number).any(ends_after),
            ROW_ENDS_AFTER_ORIGINAL_END,
        )?;
        contract.amendment = Some(amendment);
        self.contracts[slot(number)?] = Some(contract);
        Ok(vec![])
    }

    /// The sum of the postings.
    fn due(&self) -> i64 {
        self.postings.iter().map(|posting| posting.amount).sum()
    }

    /// Writes the posting of a bill, which stands from now on, and gives its amount.
    fn issue(&mut self, contract: &Contract, number: u32, bill: Bill) -> i64 {
        let row = Row {
            contract: number,
            bill,
            amount: rates::amount(contract, &bill),
        };
        self.bills.insert((number, bill.first_day), row);
        self.post(number, row.amount);
        row.amount
    }

    /// Writes the reversal of a bill, which stands no longer, and gives its amount.
    fn reverse(&mut self, row: &Row) -> i64 {
        self.bills.remove(&(row.contract, row.bill.first_day));
        self.post(row.contract, -row.amount);
        -row.amount
    }

    fn post(&mut self, contract: u32, amount: i64) {
        self.postings.push(Posting { contract, amount });
    }

    /// The contract of a bill or rebill that numbers 3 to 8, 14, 15 and 17 don't refuse.
    fn billed_contract(&self, book: &[u32], numbers: BillNumbers) -> Result<Contract, u32> {
        refuse_if(!book::is_usable(book), WRONG_BOOK)?;
        let contract = self.open_contract(numbers.contract)?;
        refuse_if(!span_in_range(numbers.first, numbers.last), WRONG_DAY)?;
        refuse_if(
            touches_two_months(contract.kind, numbers.first, numbers.last),
            SPAN_TOUCHES_TWO_MONTHS,
        )?;
        refuse_if(
            crosses_original_end(&contract, numbers.first, numbers.last),
            SPAN_CROSSES_ORIGINAL_END,
        )?;
        refuse_if(
            !bill_numbers_in_range(contract.kind, numbers),
            NUMBER_OUT_OF_RANGE,
        )?;
        refuse_if(
            shares_exceed_kwh(numbers.etii_share, numbers.qhs_share, numbers.kwh),
            SHARES_EXCEED_KWH,
        )?;
        Ok(contract)
    }

    /// Numbers 4 and 5: the open contract of the number.
    fn open_contract(&self, number: u32) -> Result<Contract, u32> {
        self.contracts[slot(number)?].ok_or(CONTRACT_OPEN_ALREADY_OR_NOT_OPEN)
    }

    /// Number 9: the contract's bill with that first day.
    fn standing_bill(&self, contract: u32, first_day: u32) -> Result<Row, u32> {
        let found = self.bills.get(&(contract, first_day));
        found.copied().ok_or(NO_SUCH_ROW)
    }

    /// Number 10: whether a bill of the contract, other than the one replaced, shares a day
    /// with the span.
    fn shares_a_day(&self, numbers: BillNumbers, replaced: Option<&Row>) -> bool {
        self.bills_of(numbers.contract)
            .filter(|&row| Some(row) != replaced)
            .any(|row| spans_share_a_day(row.bill.span(), (numbers.first, numbers.last)))
    }

    /// The contract's bills.
    fn bills_of(&self, contract: u32) -> impl Iterator<Item = &Row> {
        let keys = (contract, 0)..=(contract, u32::MAX);
        self.bills.range(keys).map(|(_, row)| row)
    }
}

/// Number 4: the place of a contract number, which is at most 63.
fn slot(contract: u32) -> Result<usize, u32> {
    let slot = contract as usize;
    refuse_if(slot >= CONTRACTS, CONTRACT_NUMBER_TOO_HIGH)?;
    Ok(slot)
}

/// Number 8: whether kWh, S and WAP are in range; WAP is 0 unless the contract is flexible.
fn bill_numbers_in_range(kind: Kind, numbers: BillNumbers) -> bool {
    let highest_wap = match kind {
        Kind::Flexible => HIGHEST_PRICE,
        Kind::Fixed { .. } | Kind::Variable | Kind::DayAheadIndex => 0,
    };
    numbers.kwh <= MOST_KWH_GIVEN && numbers.supply <= HIGHEST_PRICE && numbers.wap <= highest_wap
}

/// Number 11: R, from the book or, of a flexible contract, WAP.
fn reference_price(book: &[u32], contract: &Contract, numbers: BillNumbers) -> Result<u32, u32> {
    let Some(entry) = book::entry_needed(contract, numbers.first) else {
        return Ok(numbers.wap);
    };
    refuse_if(book[entry] == 0, PRICE_NOT_PUBLISHED)?;
    Ok(book[entry])
}

/// The bill of the numbers at the reference price.
fn bill_of(numbers: BillNumbers, reference_price: u32) -> Bill {
    Bill {
        first_day: numbers.first,
        last_day: numbers.last,
        kwh: numbers.kwh.into(),
        etii_share: numbers.etii_share.into(),
        qhs_share: numbers.qhs_share.into(),
        reference_price: reference_price.into(),
        supply_price: numbers.supply.into(),
    }
}

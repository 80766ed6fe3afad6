//! The header, the contracts and the rows in their bytes (document 01, section on the packed
//! ledger, with the rows of document 02, paper 1, and the contracts of paper 5).

use crate::contracts::{Amendment, Certificate, Contract, Fuel, Kind};
use crate::rates::Bill;

/// The length of a ledger in bytes.
pub const LEDGER_LENGTH: usize = 26_184;

/// How many contracts a ledger has room for.
pub const CONTRACT_COUNT: usize = 64;

/// How many rows a ledger has room for.
pub const ROW_COUNT: usize = 1_024;

/// The byte at which the contracts begin.
const CONTRACTS_AT: usize = 8;

/// The byte at which the rows begin.
const ROWS_AT: usize = 584;

/// The bytes of a contract.
pub type ContractSlot = [u8; 9];

/// The bytes of a contract that isn't open.
pub const UNOPENED: ContractSlot = [0; 9];

/// The bytes of a row.
pub type RowSlot = [u8; 25];

/// The bytes of a row that isn't held.
pub const UNHELD: RowSlot = [0; 25];

/// The contract slots of a ledger.
pub fn contract_slots(ledger: &[u8]) -> &[ContractSlot] {
    ledger[CONTRACTS_AT..ROWS_AT].as_chunks().0
}

/// The contract slots of a ledger, to write.
pub fn contract_slots_mut(ledger: &mut [u8]) -> &mut [ContractSlot] {
    ledger[CONTRACTS_AT..ROWS_AT].as_chunks_mut().0
}

/// The row slots of a ledger.
pub fn row_slots(ledger: &[u8]) -> &[RowSlot] {
    ledger[ROWS_AT..].as_chunks().0
}

/// The row slots of a ledger, to write.
pub fn row_slots_mut(ledger: &mut [u8]) -> &mut [RowSlot] {
    ledger[ROWS_AT..].as_chunks_mut().0
}

/// The eight bytes from byte `at` on, as one word.
fn word_at(bytes: &[u8], at: usize) -> u64 {
    let mut word = [0; 8];
    word.copy_from_slice(&bytes[at..at + 8]);
    u64::from_be_bytes(word)
}

/// The `width` bits of a word, fewer than 63, that have `below` bits below them.
fn field(word: u64, below: u32, width: u32) -> i64 {
    ((word >> below) & ((1 << width) - 1)) as i64
}

/// The same, for a code, a day or a count of at most 32 bits.
fn short_field(word: u64, below: u32, width: u32) -> u32 {
    field(word, below, width) as u32
}

/// The header.
#[derive(Clone, Copy)]
pub struct Header {
    pub territory: u32,
    pub claims: u32,
    pub pence: i64,
}

impl Header {
    /// The header of a ledger.
    pub fn unpack(ledger: &[u8]) -> Header {
        let word = word_at(ledger, 0);
        Header {
            territory: short_field(word, 63, 1),
            claims: short_field(word, 47, 16),
            pence: field(word, 0, 47),
        }
    }

    /// Writes the header to a ledger.
    pub fn pack(self, ledger: &mut [u8]) {
        let word =
            u64::from(self.territory) << 63 | u64::from(self.claims) << 47 | self.pence as u64;
        ledger[..CONTRACTS_AT].copy_from_slice(&word.to_be_bytes());
    }
}

impl Contract {
    /// The contract that a slot holds, or `None` where its numbers aren't in their ranges. The slot
    /// is read as two words that overlap, from bytes 0 and 1 on, so that each field is in one of
    /// them.
    #[inline]
    pub fn unpack(slot: &ContractSlot, territory: u32) -> Option<Contract> {
        let (start, end) = (word_at(slot, 0), word_at(slot, 1));
        if field(start, 63, 1) == 0 || field(end, 0, 5) != 0 {
            return None;
        }
        let contract = Contract::from_numbers(
            territory,
            short_field(start, 62, 1),
            short_field(start, 60, 2),
            short_field(start, 50, 10),
            short_field(start, 40, 10),
        );
        let certificate =
            Certificate::from_numbers(short_field(start, 38, 2), short_field(start, 28, 10));
        let unamended = contract.ok()?.with(certificate.ok()?);
        let days = [25, 15, 5].map(|below| short_field(end, below, 10));
        match (field(end, 35, 1), days) {
            (0, [0, 0, 0]) => Some(unamended),
            (0, _) => None,
            (_, [original_end_day, price_fix_day, entry_day]) => unamended
                .amended(original_end_day, price_fix_day, entry_day)
                .ok(),
        }
    }

    /// The slot that holds the contract: a word and a byte. The amendment straddles them.
    pub fn pack(&self) -> ContractSlot {
        let fuel = match self.fuel {
            Fuel::Electricity => 0,
            Fuel::Gas => 1,
        };
        let (kind, price_fix_day, entry_day) = match self.kind {
            Kind::Fixed {
                price_fix_day,
                entry_day,
            } => (0, price_fix_day, entry_day),
            Kind::Variable => (1, 0, 0),
            Kind::Flexible => (2, 0, 0),
            Kind::Index => (3, 0, 0),
        };
        let (class, effective_day) = match self.certificate {
            Certificate::None => (0, 0),
            Certificate::Etii { effective_day } => (1, effective_day),
            Certificate::Qhs { effective_day } => (2, effective_day),
        };
        let amendment = self.amendment.map_or(0, Amendment::pack);
        let start = 1 << 63
            | fuel << 62
            | kind << 60
            | u64::from(price_fix_day) << 50
            | u64::from(entry_day) << 40
            | class << 38
            | u64::from(effective_day) << 28
            | amendment >> 3;
        let mut slot = UNOPENED;
        slot[..8].copy_from_slice(&start.to_be_bytes());
        slot[8] = (amendment as u8) << 5;
        slot
    }
}

impl Amendment {
    /// The flag of an amended contract and the amendment's three days, in 31 bits.
    fn pack(self) -> u64 {
        1 << 30
            | u64::from(self.original_end_day) << 20
            | u64::from(self.price_fix_day) << 10
            | u64::from(self.entry_day)
    }
}

/// A held row: a bill that stands, with its amount in ticks.
#[derive(Clone, Copy)]
pub struct Row {
    pub bill: Bill,
    pub amount: i64,
}

impl Row {
    /// Whether a slot is held.
    pub fn is_held(slot: &RowSlot) -> bool {
        slot[0] >> 7 == 1
    }

    /// Whether the two bits after a slot's fields are zeros.
    pub fn ends_in_zeros(slot: &RowSlot) -> bool {
        slot[24] & 3 == 0
    }

    /// The row that a slot holds. The slot is read as four words that overlap, from bytes 0, 6,
    /// 13 and 17 on, so that each field is in one of them.
    pub fn unpack(slot: &RowSlot) -> Row {
        let (start, shares) = (word_at(slot, 0), word_at(slot, 6));
        let (prices, end) = (word_at(slot, 13), word_at(slot, 17));
        let bill = Bill {
            contract: short_field(start, 57, 6),
            first: short_field(start, 47, 10),
            last: short_field(start, 37, 10),
            kwh: field(start, 10, 27),
            etii_share: field(shares, 31, 27),
            qhs_share: field(shares, 4, 27),
            reference: field(prices, 40, 20),
            supply: field(prices, 20, 20),
        };
        Row {
            bill,
            amount: field(end, 2, 50),
        }
    }

    /// The slot that holds the row: three words and a byte. The ETII share straddles the first
    /// two words, the amount the third and the byte.
    pub fn pack(&self) -> RowSlot {
        let Row { bill, amount } = self;
        let start = 1 << 63
            | u64::from(bill.contract) << 57
            | u64::from(bill.first) << 47
            | u64::from(bill.last) << 37
            | (bill.kwh as u64) << 10
            | (bill.etii_share as u64) >> 17;
        let middle =
            (bill.etii_share as u64) << 47 | (bill.qhs_share as u64) << 20 | bill.reference as u64;
        let end = (bill.supply as u64) << 44 | (*amount as u64) >> 6;
        let mut slot = UNHELD;
        slot[..8].copy_from_slice(&start.to_be_bytes());
        slot[8..16].copy_from_slice(&middle.to_be_bytes());
        slot[16..24].copy_from_slice(&end.to_be_bytes());
        slot[24] = (*amount as u8) << 2;
        slot
    }

    /// What the rows are sorted by, of the row that a slot holds: contract and first day.
    pub fn sort_key(slot: &RowSlot) -> (u32, u32) {
        let start = word_at(slot, 0);
        (short_field(start, 57, 6), short_field(start, 47, 10))
    }
}

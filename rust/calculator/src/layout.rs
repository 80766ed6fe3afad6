//! The packed ledger's fields as numbers, whatever they are, and the bytes that they are
//! packed in (document 01, section "The packed ledger"; the row is that of document 02,
//! paper 1, and the contract is that of its paper 5).

use crate::bits::{BitReader, BitWriter};
use crate::facts::{Row, CONTRACTS, MOST_ROWS};
use crate::rates::{Amendment, Bill, Certificate, Contract, Fuel, Kind};

/// The bytes of a ledger.
pub const LEDGER_BYTES: usize = 26_184;

/// The numbers of all fields of a ledger.
#[derive(Clone, Debug, PartialEq)]
pub struct LedgerNumbers {
    pub territory: u32,
    pub claims: u32,
    pub pence: u64,
    pub contracts: Vec<ContractNumbers>,
    pub rows: Vec<RowNumbers>,
}

/// The numbers of a contract's fields; by default zeros.
#[derive(Clone, Copy, Debug, Default, PartialEq, Eq)]
pub struct ContractNumbers {
    pub open: bool,
    pub fuel: u32,
    pub kind: u32,
    pub price_fix_day: u32,
    pub entry_day: u32,
    pub class: u32,
    pub effective_day: u32,
    pub amendment: AmendmentNumbers,
    /// The five last bits.
    pub zeros: u32,
}

/// The numbers of the fields of a contract's amendment; by default zeros.
#[derive(Clone, Copy, Debug, Default, PartialEq, Eq)]
pub struct AmendmentNumbers {
    /// The flag.
    pub amended: bool,
    pub original_end_day: u32,
    pub price_fix_day: u32,
    pub entry_day: u32,
}

/// The numbers of a row's fields; by default zeros.
#[derive(Clone, Copy, Debug, Default, PartialEq, Eq)]
pub struct RowNumbers {
    pub held: bool,
    pub contract: u32,
    pub first_day: u32,
    pub last_day: u32,
    pub kwh: u32,
    pub etii_share: u32,
    pub qhs_share: u32,
    pub reference_price: u32,
    pub supply_price: u32,
    pub amount: u64,
    /// The two last bits.
    pub zeros: u32,
}

impl LedgerNumbers {
    /// The numbers in the bytes of a ledger.
    pub fn read(bytes: &[u8]) -> LedgerNumbers {
        assert_eq!(bytes.len(), LEDGER_BYTES);
        let mut reader = BitReader::new(bytes);
        let territory = reader.take_number(1);
        let claims = reader.take_number(16);
        let pence = reader.take(47);
        let contracts = (0..CONTRACTS).map(|_| ContractNumbers::read(&mut reader));
        let contracts = contracts.collect();
        let rows = (0..MOST_ROWS).map(|_| RowNumbers::read(&mut reader));
        let rows = rows.collect();
        LedgerNumbers {
            territory,
            claims,
            pence,
            contracts,
            rows,
        }
    }

    /// The bytes of the numbers.
    pub fn write(&self) -> Vec<u8> {
        let mut writer = BitWriter::new(LEDGER_BYTES);
        writer.append(self.territory.into(), 1);
        writer.append(self.claims.into(), 16);
        writer.append(self.pence, 47);
        for contract in &self.contracts {
            contract.write(&mut writer);
        }
        for row in &self.rows {
            row.write(&mut writer);
        }
        writer.into_bytes()
    }

    /// The held rows.
    pub(crate) fn held_rows(&self) -> impl Iterator<Item = &RowNumbers> {
        self.rows.iter().filter(|row| row.held)
    }
}

impl ContractNumbers {
    fn read(reader: &mut BitReader) -> ContractNumbers {
        ContractNumbers {
            open: reader.take_flag(),
            fuel: reader.take_number(1),
            kind: reader.take_number(2),
            price_fix_day: reader.take_number(10),
            entry_day: reader.take_number(10),
            class: reader.take_number(2),
            effective_day: reader.take_number(10),
            amendment: AmendmentNumbers::read(reader),
            zeros: reader.take_number(5),
        }
    }

    fn write(&self, writer: &mut BitWriter) {
        writer.append(self.open.into(), 1);
        writer.append(self.fuel.into(), 1);
        writer.append(self.kind.into(), 2);
        writer.append(self.price_fix_day.into(), 10);
        writer.append(self.entry_day.into(), 10);
        writer.append(self.class.into(), 2);
        writer.append(self.effective_day.into(), 10);
        self.amendment.write(writer);
        writer.append(self.zeros.into(), 5);
    }

    /// The numbers of an open contract.
    pub(crate) fn of(contract: &Contract) -> ContractNumbers {
        let (kind, price_fix_day, entry_day) = contract.kind.numbers();
        let (class, effective_day) = contract.certificate.numbers();
        ContractNumbers {
            open: true,
            fuel: contract.fuel.code(),
            kind,
            price_fix_day,
            entry_day,
            class,
            effective_day,
            amendment: AmendmentNumbers::of(contract.amendment),
            zeros: 0,
        }
    }

    /// The contract, or `None` if it isn't open or a code has no meaning.
    pub(crate) fn contract(&self) -> Option<Contract> {
        if !self.open {
            return None;
        }
        Some(Contract {
            fuel: Fuel::of(self.fuel)?,
            kind: Kind::of(self.kind, self.price_fix_day, self.entry_day)?,
            certificate: Certificate::of(self.class, self.effective_day)?,
            amendment: self.amendment.amendment(),
        })
    }
}

impl AmendmentNumbers {
    fn read(reader: &mut BitReader) -> AmendmentNumbers {
        AmendmentNumbers {
            amended: reader.take_flag(),
            original_end_day: reader.take_number(10),
            price_fix_day: reader.take_number(10),
            entry_day: reader.take_number(10),
        }
    }

    fn write(&self, writer: &mut BitWriter) {
        writer.append(self.amended.into(), 1);
        writer.append(self.original_end_day.into(), 10);
        writer.append(self.price_fix_day.into(), 10);
        writer.append(self.entry_day.into(), 10);
    }

    /// The numbers of an amendment, zeros of an unamended contract.
    fn of(amendment: Option<Amendment>) -> AmendmentNumbers {
        let Some(amendment) = amendment else {
            return AmendmentNumbers::default();
        };
        AmendmentNumbers {
            amended: true,
            original_end_day: amendment.original_end_day,
            price_fix_day: amendment.price_fix_day,
            entry_day: amendment.entry_day,
        }
    }

    /// The amendment, or `None` if the flag is clear.
    fn amendment(&self) -> Option<Amendment> {
        self.amended.then_some(Amendment {
            original_end_day: self.original_end_day,
            price_fix_day: self.price_fix_day,
            entry_day: self.entry_day,
        })
    }
}

impl RowNumbers {
    fn read(reader: &mut BitReader) -> RowNumbers {
        RowNumbers {
            held: reader.take_flag(),
            contract: reader.take_number(6),
            first_day: reader.take_number(10),
            last_day: reader.take_number(10),
            kwh: reader.take_number(27),
            etii_share: reader.take_number(27),
            qhs_share: reader.take_number(27),
            reference_price: reader.take_number(20),
            supply_price: reader.take_number(20),
            amount: reader.take(50),
            zeros: reader.take_number(2),
        }
    }

    fn write(&self, writer: &mut BitWriter) {
        writer.append(self.held.into(), 1);
        writer.append(self.contract.into(), 6);
        writer.append(self.first_day.into(), 10);
        writer.append(self.last_day.into(), 10);
        writer.append(self.kwh.into(), 27);
        writer.append(self.etii_share.into(), 27);
        writer.append(self.qhs_share.into(), 27);
        writer.append(self.reference_price.into(), 20);
        writer.append(self.supply_price.into(), 20);
        writer.append(self.amount, 50);
        writer.append(self.zeros.into(), 2);
    }

    /// The numbers of a held row.
    pub(crate) fn of(row: &Row) -> RowNumbers {
        let number = |value: i64| u32::try_from(value).expect("a row's number has 32 bits");
        RowNumbers {
            held: true,
            contract: row.contract,
            first_day: row.bill.first_day,
            last_day: row.bill.last_day,
            kwh: number(row.bill.kwh),
            etii_share: number(row.bill.etii_share),
            qhs_share: number(row.bill.qhs_share),
            reference_price: number(row.bill.reference_price),
            supply_price: number(row.bill.supply_price),
            amount: row.amount.cast_unsigned(),
            zeros: 0,
        }
    }

    /// The row of the numbers.
    pub(crate) fn row(&self) -> Row {
        Row {
            contract: self.contract,
            bill: Bill {
                first_day: self.first_day,
                last_day: self.last_day,
                kwh: self.kwh.into(),
                etii_share: self.etii_share.into(),
                qhs_share: self.qhs_share.into(),
                reference_price: self.reference_price.into(),
                supply_price: self.supply_price.into(),
            },
            amount: self.amount.cast_signed(),
        }
    }
}

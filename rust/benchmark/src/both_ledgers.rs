//! The making of ledgers: the twin's calls make them, and the proved calls must answer the same and
//! leave the same bytes.

use crate::calls::{proved, proved_bill, Answer};

/// A territory in which every kind of contract may be opened.
pub const NORTHERN_IRELAND: u32 = 1;

/// A ledger that the proved calls make, and the one that the twin makes.
pub struct BothLedgers {
    proved: Vec<u8>,
    twin: Vec<u8>,
}

impl BothLedgers {
    /// Two fresh ledgers.
    pub fn start() -> BothLedgers {
        let bytes = vec![0; ebds::LEDGER_LENGTH];
        let mut ledgers = BothLedgers {
            proved: bytes.clone(),
            twin: bytes,
        };
        ledgers.call(
            |ledger| proved(ebds::calls::start(ledger, NORTHERN_IRELAND)),
            |ledger| twin::start(ledger, NORTHERN_IRELAND),
        );
        ledgers
    }

    pub fn open(
        &mut self,
        contract: u32,
        fuel: u32,
        kind: u32,
        price_fix_day: u32,
        entry_day: u32,
    ) {
        self.call(
            |ledger| {
                let answer =
                    ebds::calls::open(ledger, contract, fuel, kind, price_fix_day, entry_day);
                proved(answer)
            },
            |ledger| twin::open(ledger, contract, fuel, kind, price_fix_day, entry_day),
        );
    }

    pub fn cert(&mut self, contract: u32, class: u32, effective_day: u32) {
        self.call(
            |ledger| proved(ebds::calls::cert(ledger, contract, class, effective_day)),
            |ledger| twin::cert(ledger, contract, class, effective_day),
        );
    }

    pub fn amend(
        &mut self,
        contract: u32,
        original_end_day: u32,
        price_fix_day: u32,
        entry_day: u32,
    ) {
        self.call(
            |ledger| {
                let answer = ebds::calls::amend(
                    ledger,
                    contract,
                    original_end_day,
                    price_fix_day,
                    entry_day,
                );
                proved(answer)
            },
            |ledger| twin::amend(ledger, contract, original_end_day, price_fix_day, entry_day),
        );
    }

    pub fn bill(&mut self, book: &[u32], numbers: twin::BillNumbers) {
        self.call(
            |ledger| proved_bill(ledger, book, numbers),
            |ledger| twin::bill(ledger, book, numbers),
        );
    }

    pub fn cancel(&mut self, contract: u32, first: u32) {
        self.call(
            |ledger| proved(ebds::calls::cancel(ledger, contract, first)),
            |ledger| twin::cancel(ledger, contract, first),
        );
    }

    /// The bytes of either.
    pub fn bytes(self) -> Vec<u8> {
        self.twin
    }

    /// Makes a call on both, which must be accepted and leave the same.
    fn call(
        &mut self,
        proved: impl FnOnce(&mut [u8]) -> Answer,
        twin: impl FnOnce(&mut [u8]) -> Answer,
    ) {
        let answer = twin(&mut self.twin);
        assert!(answer.is_ok(), "the call is accepted: {answer:?}");
        assert_eq!(proved(&mut self.proved), answer, "the same answer");
        assert!(self.proved == self.twin, "the same bytes");
    }
}

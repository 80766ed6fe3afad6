//! What turns a call down (document 01, section "Turned down, in checking order"; document 02,
//! papers 1, 2, 5 and 6).

use std::error::Error;
use std::fmt::{self, Display, Formatter};

/// What turns a call down. Document 01's number 1 is the program's alone.
#[derive(Clone, Copy, Debug, PartialEq, Eq)]
#[repr(u32)]
pub enum Refusal {
    NotWellFormed = 2,
    BadBook = 3,
    NoSuchContract = 4,
    WronglyOpen = 5,
    NotAmendable = 16,
    WrongCode = 6,
    WrongDay = 7,
    TwoMonths = 15,
    CrossesOriginalEnd = 17,
    RowAfterOriginalEnd = 18,
    WrongQuantity = 8,
    SharesExceedKwh = 14,
    NoSuchRow = 9,
    SharedDay = 10,
    NoPrice = 11,
    NoRoom = 12,
    NoClaimLeft = 13,
}

impl Refusal {
    /// All of them, in checking order.
    const ALL: [Refusal; 17] = [
        Refusal::NotWellFormed,
        Refusal::BadBook,
        Refusal::NoSuchContract,
        Refusal::WronglyOpen,
        Refusal::NotAmendable,
        Refusal::WrongCode,
        Refusal::WrongDay,
        Refusal::TwoMonths,
        Refusal::CrossesOriginalEnd,
        Refusal::RowAfterOriginalEnd,
        Refusal::WrongQuantity,
        Refusal::SharesExceedKwh,
        Refusal::NoSuchRow,
        Refusal::SharedDay,
        Refusal::NoPrice,
        Refusal::NoRoom,
        Refusal::NoClaimLeft,
    ];

    /// The papers' number.
    pub fn number(self) -> u32 {
        self as u32
    }

    /// The refusal with a number, or `None` for a number that no call of the library gives.
    pub(crate) fn from_number(number: u32) -> Option<Refusal> {
        Refusal::ALL
            .into_iter()
            .find(|refusal| refusal.number() == number)
    }

    /// The papers' words.
    fn words(self) -> &'static str {
        match self {
            Refusal::NotWellFormed => "the ledger isn't well formed",
            Refusal::BadBook => "the book isn't 1,740 entries or has one above 999,999",
            Refusal::NoSuchContract => "the contract number is above 63",
            Refusal::WronglyOpen => "the contract is open already, or isn't open",
            Refusal::NotAmendable => "the contract isn't fixed or is amended already",
            Refusal::WrongCode => {
                "a territory, fuel, kind or class code has no meaning, or kind 3 is given outside its place"
            }
            Refusal::WrongDay => "a day is wrong",
            Refusal::TwoMonths => "a variable or index span touches two months",
            Refusal::CrossesOriginalEnd => {
                "the span starts on or before the original end of an amended contract and ends after it"
            }
            Refusal::RowAfterOriginalEnd => "a row of the contract ends after the original end given",
            Refusal::WrongQuantity => {
                "kWh is above 40,000,000, S or WAP above 999,999, or a WAP not 0 where it must be"
            }
            Refusal::SharesExceedKwh => "the two shares exceed kWh",
            Refusal::NoSuchRow => "no row of that contract has that first day",
            Refusal::SharedDay => "another row of the contract shares a day with the span",
            Refusal::NoPrice => "the book's price needed is 0",
            Refusal::NoRoom => "1,024 rows are held already",
            Refusal::NoClaimLeft => "1,000 claims were made already",
        }
    }
}

impl Display for Refusal {
    fn fmt(&self, formatter: &mut Formatter) -> fmt::Result {
        write!(formatter, "refused {}: {}", self.number(), self.words())
    }
}

impl Error for Refusal {}

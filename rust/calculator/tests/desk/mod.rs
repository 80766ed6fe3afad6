//! A desk that calls the posting module by lines, for the tests of its answers.

use crate::common::call;
use calculator::calls::Outcome;
use calculator::codes::Territory;
use calculator::postings::PostingModule;

/// A posting module with the book that its bills bring.
pub struct Desk {
    pub module: PostingModule,
    pub book: Vec<u32>,
}

impl Desk {
    /// A desk with a fresh ledger of the territory and a book of zeros.
    pub fn new(territory: Territory) -> Desk {
        Desk {
            module: PostingModule::new(territory),
            book: vec![0; 1_740],
        }
    }

    pub fn outcome(&mut self, line: &str) -> Outcome {
        self.module.call(&self.book, &call(line))
    }

    pub fn expect(&mut self, line: &str, numbers: &[i64]) {
        assert_eq!(self.outcome(line), Ok(numbers.to_vec()), "{line}");
    }

    /// The line is refused by the number and changes no fact.
    pub fn expect_refusal(&mut self, line: &str, number: u32) {
        let before = self.module.facts();
        assert_eq!(self.outcome(line), Err(number), "{line}");
        assert_eq!(self.module.facts(), before, "{line}");
    }
}

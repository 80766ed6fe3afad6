//! A call that was made, with all that is counted of it.

use calculator::calls::{Call, Outcome};
use calculator::packed::Facts;
#[cfg(test)]
use calculator::postings::PostingModule;

/// A call with the book that it brings and its outcome, and the facts before it and after it.
pub struct CallMade<'a> {
    pub call: &'a Call,
    pub book: &'a [u32],
    pub outcome: &'a Outcome,
    pub before: &'a Facts,
    pub after: &'a Facts,
}

/// Makes a call of a name and its numbers, and gives what is found of it.
#[cfg(test)]
pub fn of_call<T>(
    module: &mut PostingModule,
    book: &[u32],
    (name, numbers): (&str, &[u32]),
    found: impl FnOnce(&CallMade) -> T,
) -> T {
    let call = Call::of(name, numbers).expect("a call");
    let before = module.facts();
    let outcome = module.call(book, &call);
    let made = CallMade {
        call: &call,
        book,
        outcome: &outcome,
        before: &before,
        after: &module.facts(),
    };
    found(&made)
}

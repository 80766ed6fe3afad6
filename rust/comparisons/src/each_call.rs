//! Each call but start on one ledger, which is well formed or isn't. Start isn't one of them: it
//! takes any contents.

use crate::books::random_book;
use crate::compared_calls::{compare_call, LedgerCall};
use crate::counts::Findings;
use crate::generator::EACH_BUT_START;
use crate::random::Random;
use calculator::calls::{Call, Outcome};
use calculator::packed::Facts;
use calculator::refusals::LEDGER_NOT_WELL_FORMED;

/// The calls on a ledger, each once.
pub const NAMES: [&str; 9] = [
    "open", "bill", "rebill", "cert", "cancel", "claim", "report", "total", "amend",
];

/// A ledger, which is well formed or isn't.
pub struct Subject<'a> {
    pub ledger: &'a [u8],
    /// By these the calls on it are drawn.
    pub facts: &'a Facts,
    /// Whether every call is refused by number 2.
    pub refused: bool,
}

/// Compares each call on the ledger, and gives the names of those that the calculator refuses by
/// number 2, or doesn't, as it must; another one is a difference. The place says where in the
/// comparisons the ledger stands.
pub fn compare_each_call(
    findings: &mut Findings,
    random: &mut Random,
    subject: &Subject,
    place: &str,
) -> Vec<&'static str> {
    let &Subject {
        ledger,
        facts,
        refused,
    } = subject;
    let mut names = Vec::new();
    for draw in EACH_BUT_START {
        let call = draw(random, facts);
        let ledger_call = LedgerCall {
            ledger,
            book: &random_book(random, &call),
            call: &call,
        };
        let expected = compare_call(findings, &ledger_call, || place.to_string());
        if is_as_it_must_be(refused, &expected.outcome, expected.ledger == ledger) {
            names.push(call.name());
        } else {
            findings.count_difference(|| described(place, &call, &expected.outcome));
        }
    }
    names
}

/// Whether a call is refused by number 2 and changes no byte, or isn't refused by that number, as
/// it must be.
fn is_as_it_must_be(must_be_refused: bool, outcome: &Outcome, unchanged: bool) -> bool {
    let refused = *outcome == Err(LEDGER_NOT_WELL_FORMED);
    refused == must_be_refused && (unchanged || !refused)
}

fn described(place: &str, call: &Call, outcome: &Outcome) -> String {
    format!("{place}: the calculator answers {outcome:?} to {call:?}")
}

#[cfg(test)]
mod tests {
    use super::{is_as_it_must_be, NAMES};
    use crate::damaged_ledgers::random_facts;
    use crate::generator::{EACH_BUT_START, MIXED};
    use crate::random::Random;
    use calculator::codes::Territory;

    #[test]
    fn a_refusal_by_2_that_changes_no_byte_is_what_is_expected() {
        assert!(is_as_it_must_be(true, &Err(2), true));
        assert!(!is_as_it_must_be(true, &Err(2), false));
        assert!(!is_as_it_must_be(true, &Err(4), true));
        assert!(!is_as_it_must_be(true, &Ok(vec![]), true));
        assert!(is_as_it_must_be(false, &Ok(vec![]), false));
        assert!(is_as_it_must_be(false, &Ok(vec![]), true));
        assert!(is_as_it_must_be(false, &Err(4), true));
        assert!(!is_as_it_must_be(false, &Err(2), true));
    }

    #[test]
    fn each_call_but_start_is_made() {
        let mut random = Random::new(1, "each call", 0);
        let facts = random_facts(&mut random, Territory::GreatBritain, MIXED, 200);
        let calls = EACH_BUT_START.map(|draw| draw(&mut random, &facts));
        assert!(calls.iter().map(|call| call.name()).eq(NAMES));
    }
}

//! One call by every implementation: its outcome and every byte that it leaves are the
//! calculator's.

use crate::counts::Findings;
use crate::implementations::{Answer, Implementation, IMPLEMENTATIONS};
use calculator::calls::{Call, Outcome};
use calculator::packed::call_on_bytes;

/// A call on a ledger, with the book that it brings.
pub struct LedgerCall<'a> {
    pub ledger: &'a [u8],
    pub book: &'a [u32],
    pub call: &'a Call,
}

/// What a call answers and the ledger that it leaves, by the calculator.
pub struct Expected {
    pub outcome: Outcome,
    pub ledger: Vec<u8>,
}

/// Compares a call and gives what the calculator expects of it. The place says where in the
/// comparisons the call stands.
pub fn compare_call(
    findings: &mut Findings,
    ledger_call: &LedgerCall,
    place: impl Fn() -> String,
) -> Expected {
    let &LedgerCall { ledger, book, call } = ledger_call;
    let mut expected_ledger = ledger.to_vec();
    let outcome = call_on_bytes(&mut expected_ledger, book, call);
    findings.library.count_outcome(call.name(), &outcome);
    let expected = answer_of(&outcome);
    for implementation in &IMPLEMENTATIONS {
        let mut left = ledger.to_vec();
        let answer = (implementation.call)(&mut left, book, call);
        if answer != expected || left != expected_ledger {
            let first_byte = first_difference(&left, &expected_ledger);
            findings.count_difference(|| {
                let answers = described_answers(implementation, &answer, &expected);
                let call = described_call(ledger_call);
                let place = place();
                format!("{place}: {answers}; first byte that differs {first_byte:?}; {call}")
            });
        }
    }
    Expected {
        outcome,
        ledger: expected_ledger,
    }
}

/// Compares a call that reads no ledger.
pub fn compare_answers(
    findings: &mut Findings,
    name: &str,
    numbers: &[u32],
    outcome: &Outcome,
    answer: impl Fn(&Implementation) -> Answer,
) {
    findings.library.count_outcome(name, outcome);
    let expected = answer_of(outcome);
    for implementation in &IMPLEMENTATIONS {
        let answer = answer(implementation);
        if answer != expected {
            findings.count_difference(|| {
                let answers = described_answers(implementation, &answer, &expected);
                format!("{name} {numbers:?}: {answers}")
            });
        }
    }
}

/// The outcome as an implementation answers it.
fn answer_of(outcome: &Outcome) -> Answer {
    let numbers = outcome.as_ref().map_err(|&number| number)?;
    let mut answer = [0; 3];
    answer[..numbers.len()].copy_from_slice(numbers);
    Ok(answer)
}

fn described_answers(
    implementation: &Implementation,
    answer: &Answer,
    expected: &Answer,
) -> String {
    let name = implementation.name;
    format!("the {name} answers {answer:?}, the calculator {expected:?}")
}

fn first_difference(left: &[u8], expected: &[u8]) -> Option<usize> {
    (0..left.len()).find(|&place| left[place] != expected[place])
}

/// All that is needed to make the call again.
fn described_call(ledger_call: &LedgerCall) -> String {
    let &LedgerCall { ledger, book, call } = ledger_call;
    let zeros = ledger.iter().rev().take_while(|&&byte| byte == 0).count();
    let bytes = &ledger[..ledger.len() - zeros];
    let hexadecimal: String = bytes.iter().map(|byte| format!("{byte:02x}")).collect();
    let ledger = format!("{hexadecimal} in hexadecimal, then {zeros} bytes of zeros");
    format!("call {call:?}, book {book:?}, ledger {ledger}")
}

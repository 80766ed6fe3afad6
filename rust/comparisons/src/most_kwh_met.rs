//! How often bills and rebills with the most kWh that they may give were accepted, and refused
//! by number 8 with one more (document 02, paper 6).

use crate::call_made::CallMade;
use crate::sorts::Sorts;
use calculator::calls::{BillNumbers, Call};
use calculator::codes::MOST_KWH_GIVEN;
use calculator::postings::PostingModule;
use calculator::refusals::NUMBER_OUT_OF_RANGE;

/// The calls that are given kWh.
const NAMES: [&str; 2] = ["bill", "rebill"];

/// Every sort.
pub fn sorts() -> Vec<String> {
    NAMES.map(|name| [accepted(name), refused(name)]).concat()
}

fn accepted(name: &str) -> String {
    format!("{name} of 40,000,000 kWh accepted")
}

fn refused(name: &str) -> String {
    format!("{name} of 40,000,001 kWh refused by 8")
}

/// Counts the sort of a call, if it is of one.
pub fn count_call(sorts: &mut Sorts, made: &CallMade) {
    let (Call::Bill(numbers) | Call::Rebill(numbers)) = *made.call else {
        return;
    };
    let name = made.call.name();
    if numbers.kwh == MOST_KWH_GIVEN && made.outcome.is_ok() {
        sorts.count(&accepted(name));
    }
    if numbers.kwh == MOST_KWH_GIVEN + 1 && is_refused_for_kwh(made, numbers) {
        sorts.count(&refused(name));
    }
}

/// Whether number 8 refuses a bill or rebill of these numbers for its kWh alone: with the most kWh
/// it is not refused by that number. Up to it the tests of both calls are the same.
pub fn is_refused_for_kwh(made: &CallMade, numbers: BillNumbers) -> bool {
    let refused = Err(NUMBER_OUT_OF_RANGE);
    let with_most = Call::Bill(BillNumbers {
        kwh: MOST_KWH_GIVEN,
        ..numbers
    });
    *made.outcome == refused
        && numbers.kwh > MOST_KWH_GIVEN
        && PostingModule::from_facts(made.before).call(made.book, &with_most) != refused
}

#[cfg(test)]
mod tests {
    use super::{count_call, sorts};
    use crate::call_made::of_call;
    use crate::sorts::Sorts;
    use calculator::codes::Territory;
    use calculator::postings::PostingModule;

    const BOOK: [u32; 1_740] = [0; 1_740];

    /// The sort that a call of the name meets, on a flexible contract, 5, with a row of day 500.
    fn sort_of(name: &str, numbers: &[u32]) -> Option<String> {
        let mut module = PostingModule::new(Territory::GreatBritain);
        let row = [5, 500, 500, 1, 1, 1, 0, 0];
        for line in [("open", &[5, 0, 2, 0, 0][..]), ("bill", &row)] {
            of_call(&mut module, &BOOK, line, |made| {
                assert!(made.outcome.is_ok());
            });
        }
        let mut sorts = Sorts::new(sorts(), 1);
        of_call(&mut module, &BOOK, (name, numbers), |made| {
            count_call(&mut sorts, made);
        });
        let met = sorts.met().into_iter().find(|&(_, times)| times > 0);
        met.map(|(sort, _)| sort)
    }

    /// The same of a bill or rebill of one day, with its kWh, S, WAP and ETII share.
    fn met(name: &str, numbers: [u32; 5]) -> Option<String> {
        let [day, kwh, supply, wap, share] = numbers;
        sort_of(name, &[5, day, day, kwh, supply, wap, share, 0])
    }

    #[test]
    fn bills_and_rebills_with_the_most_kwh() {
        for (name, day) in [("bill", 501), ("rebill", 500)] {
            let accepted = Some(format!("{name} of 40,000,000 kWh accepted"));
            assert_eq!(met(name, [day, 40_000_000, 1, 1, 0]), accepted);
            assert_eq!(met(name, [day, 40_000_000, 1, 1, 40_000_001]), None);
            assert_eq!(met(name, [day, 39_999_999, 1, 1, 0]), None);
            let refused = Some(format!("{name} of 40,000,001 kWh refused by 8"));
            assert_eq!(met(name, [day, 40_000_001, 1, 1, 0]), refused);
            assert_eq!(met(name, [day, 40_000_001, 1, 1, u32::MAX]), refused);
            assert_eq!(met(name, [day, 40_000_001, 1_000_000, 1, 0]), None);
            assert_eq!(met(name, [day, 40_000_001, 1, 1_000_000, 0]), None);
            assert_eq!(met(name, [day, 40_000_002, 1, 1, 0]), None);
            assert_eq!(met(name, [485, 40_000_001, 1, 1, 0]), None);
        }
    }

    #[test]
    fn other_calls_meet_none() {
        assert_eq!(sort_of("claim", &[]), None);
        assert_eq!(sort_of("report", &[40_000_001]), None);
    }
}

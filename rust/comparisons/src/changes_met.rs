//! How often bills with a change inside were answered, and rows re-rated to one (document 02,
//! paper 3), by their stretches, by what changes, and by the edges at which it does. Only bills
//! whose amount shows it are counted.

use crate::changes_inside::{change_shown, Change};
use crate::cuts::{edges_shown, BEGINNINGS, EDGES, NEW_MINIMUM_OF_SHARE};
use crate::rows_met::{contract_of, key};
use crate::sorts::Sorts;
use calculator::packed::{Facts, Row};
use calculator::rates::{Bill, Contract};

const TWO_STRETCHES: &str = "two stretches";
const THREE_STRETCHES: &str = "three stretches";
const SHARE_ACROSS: &str = "QHS share across day 792";

const STRETCHES: [&str; 3] = [TWO_STRETCHES, THREE_STRETCHES, SHARE_ACROSS];

const BILLED: &str = "billed or rebilled";
const CERTIFIED: &str = "by a certificate";

/// How a bill is rated.
const EVENTS: [&str; 2] = [BILLED, CERTIFIED];

/// How often each must be met.
#[derive(Clone, Copy)]
pub struct FewestChanges {
    pub of_stretches: u64,
    pub of_a_change: u64,
    pub at_an_edge: u64,
}

/// What was met on one side, the program or the library.
pub struct ChangesMet {
    stretches: Sorts,
    changes: Sorts,
    edges: Sorts,
}

impl ChangesMet {
    /// Nothing met yet.
    pub fn new(fewest: FewestChanges) -> ChangesMet {
        let stretches = STRETCHES.map(str::to_string).to_vec();
        ChangesMet {
            stretches: Sorts::new(stretches, fewest.of_stretches),
            changes: Sorts::new(sorts_of_changes(), fewest.of_a_change),
            edges: Sorts::new(sorts_of_edges(), fewest.at_an_edge),
        }
    }

    /// Counts the rows that a call of the name rated, by the facts before it and after it.
    pub fn count_call(&mut self, name: &str, before: &Facts, after: &Facts) {
        let event = match name {
            "bill" | "rebill" => BILLED,
            "cert" => CERTIFIED,
            _ => return,
        };
        for row in &after.rows {
            let contract = contract_of(after, row);
            let certified = before.contracts[row.contract as usize] != Some(contract);
            let rated = !holds(before, row);
            if rated {
                self.count_change(event, &contract, &row.bill);
            }
            if rated || certified {
                self.count_edges(event, &contract, &row.bill);
            }
        }
    }

    fn count_change(&mut self, event: &str, contract: &Contract, bill: &Bill) {
        let Some(change) = change_shown(contract, bill) else {
            return;
        };
        self.changes.count(&sort_of_change(change, event));
        if let Some(sort) = sort_by_stretches(change) {
            self.stretches.count(sort);
        }
    }

    /// A certificate leaves bills with shares as they are, so that they aren't counted for it.
    fn count_edges(&mut self, event: &str, contract: &Contract, bill: &Bill) {
        if event == CERTIFIED && bill.has_shares() {
            return;
        }
        for (beginning, edge) in edges_shown(contract, bill) {
            self.edges.count(&sort_of_edge(beginning, edge, event));
        }
    }

    /// The counts under their titles.
    pub fn met(&self) -> [(&'static str, Vec<(String, u64)>); 3] {
        [
            ("bills by stretches that are shown", self.stretches.met()),
            (
                "bills by the change inside that is shown",
                self.changes.met(),
            ),
            (
                "bills by what is shown to begin at an edge",
                self.edges.met(),
            ),
        ]
    }

    /// What was met too few times, and how often it was.
    pub fn met_too_few_times(&self) -> Vec<(String, u64)> {
        let all = [&self.stretches, &self.changes, &self.edges];
        all.map(Sorts::met_too_few_times).concat()
    }

    /// Counts everything as often as it must be met.
    #[cfg(test)]
    pub fn count_each_often_enough(&mut self) {
        for sorts in [&mut self.stretches, &mut self.changes, &mut self.edges] {
            sorts.count_each_often_enough();
        }
    }
}

/// Whether the facts hold the row.
fn holds(facts: &Facts, row: &Row) -> bool {
    let found = facts.rows.binary_search_by_key(&key(row), key);
    found.is_ok_and(|place| facts.rows[place] == *row)
}

/// What the bill is counted as where it has more than one stretch.
fn sort_by_stretches(change: Change) -> Option<&'static str> {
    match (change.stretches(), change.is_of_share()) {
        (2, false) => Some(TWO_STRETCHES),
        (3, false) => Some(THREE_STRETCHES),
        (2, true) => Some(SHARE_ACROSS),
        _ => None,
    }
}

/// Every change with every call that can rate such a bill.
fn sorts_of_changes() -> Vec<String> {
    let mut sorts = Vec::new();
    for change in Change::ALL {
        let events = EVENTS.into_iter();
        let events = events.filter(|&event| event != CERTIFIED || !change.is_of_share());
        sorts.extend(events.map(|event| sort_of_change(change, event)));
    }
    sorts
}

fn sort_of_change(change: Change, event: &str) -> String {
    format!("{}, {event}", change.name())
}

/// Every beginning at every edge, with every call that can rate such a bill.
fn sorts_of_edges() -> Vec<String> {
    let mut sorts = Vec::new();
    for beginning in BEGINNINGS {
        let events = EVENTS.into_iter();
        let events =
            events.filter(|&event| event != CERTIFIED || beginning != NEW_MINIMUM_OF_SHARE);
        sorts.extend(
            events.flat_map(|event| EDGES.map(|edge| sort_of_edge(beginning, edge, event))),
        );
    }
    sorts
}

fn sort_of_edge(beginning: &str, edge: &str, event: &str) -> String {
    format!("{beginning} from the {edge}, {event}")
}

#[cfg(test)]
mod tests {
    use super::{ChangesMet, FewestChanges};
    use calculator::calls::Call;
    use calculator::codes::Territory;
    use calculator::postings::PostingModule;

    /// A flexible contract, 5, with a bill of days 780 to 800 of the shares, at prices at which
    /// every class and either QHS minimum has a rate of its own.
    fn module(shares: [u32; 2]) -> PostingModule {
        let mut module = PostingModule::new(Territory::GreatBritain);
        let bill = [&[5, 780, 800, 1_000, 50_000, 40_000], &shares[..]].concat();
        for (name, numbers) in [("open", &[5, 0, 2, 0, 0][..]), ("bill", &bill)] {
            let call = Call::of(name, numbers).expect("a call");
            module.call(&[0; 1_740], &call).expect("it is accepted");
        }
        module
    }

    /// What the last of the calls meets, each once.
    fn met_by_last(module: &mut PostingModule, calls: &[(&str, &[u32])]) -> Vec<String> {
        let mut met = Vec::new();
        for (name, numbers) in calls {
            let before = module.facts();
            let call = Call::of(name, numbers).expect("a call");
            let _ = module.call(&[0; 1_740], &call);
            let mut changes = ChangesMet::new(FewestChanges {
                of_stretches: 1,
                of_a_change: 1,
                at_an_edge: 1,
            });
            changes.count_call(name, &before, &module.facts());
            let counts = changes.met().map(|(_, counts)| counts).concat();
            let counted = counts.into_iter().filter(|&(_, times)| times > 0);
            met = counted.map(|(sort, _)| sort).collect();
        }
        met
    }

    #[test]
    fn certificates_that_begin_inside_a_row() {
        for (certificate, expected) in [
            (
                [5, 1, 785],
                &["two stretches", "ETII begins, by a certificate"][..],
            ),
            (
                [5, 2, 785],
                &[
                    "three stretches",
                    "QHS begins and its minimum changes, by a certificate",
                ],
            ),
            (
                [5, 1, 781],
                &[
                    "two stretches",
                    "ETII begins, by a certificate",
                    "ETII certificate from the second day, by a certificate",
                ],
            ),
            (
                [5, 1, 780],
                &["ETII certificate from the first day, by a certificate"],
            ),
            (
                [5, 1, 801],
                &["ETII certificate from the day after the last, by a certificate"],
            ),
            ([5, 1, 802], &[]),
            ([5, 3, 785], &[]),
            ([6, 1, 785], &[]),
        ] {
            let met = met_by_last(&mut module([0, 0]), &[("cert", &certificate)]);
            assert_eq!(met, expected, "{certificate:?}");
        }
    }

    #[test]
    fn a_certificate_that_changes_nothing_is_not_counted() {
        let cert: (&str, &[u32]) = ("cert", &[5, 1, 781]);
        assert_eq!(met_by_last(&mut module([0, 0]), &[cert, cert]).len(), 0);
        assert_eq!(met_by_last(&mut module([3, 4]), &[cert]).len(), 0);
    }

    #[test]
    fn bills_and_rebills_across_changes() {
        let numbers: [u32; 8] = [5, 780, 800, 900, 50_000, 40_000, 0, 0];
        let cert: (&str, &[u32]) = ("cert", &[5, 2, 781]);
        let met = met_by_last(&mut module([0, 0]), &[cert, ("rebill", &numbers)]);
        let expected = [
            "three stretches",
            "QHS begins and its minimum changes, billed or rebilled",
            "QHS certificate from the second day, billed or rebilled",
        ];
        assert_eq!(met, expected);
        let met = met_by_last(
            &mut module([0, 0]),
            &[cert, ("cancel", &[5, 780]), ("bill", &numbers)],
        );
        assert_eq!(met, expected);
        let met = met_by_last(&mut module([0, 0]), &[cert, ("bill", &numbers)]);
        assert_eq!(met.len(), 0);
    }

    #[test]
    fn bills_with_a_qhs_share_across_day_792() {
        let numbers: [u32; 8] = [5, 780, 800, 900, 50_000, 40_000, 0, 100];
        let met = met_by_last(&mut module([0, 0]), &[("rebill", &numbers)]);
        let expected = [
            "QHS share across day 792",
            "minimum of a QHS share changes, billed or rebilled",
        ];
        assert_eq!(met, expected);
    }
}

//! What the comparisons met: sessions, calls, refusals, rows, bills with a change inside, amended
//! contracts, bills of the most kWh, searches among rows, stored, disordered and damaged ledgers, and
//! differences.

use crate::call_made::CallMade;
use crate::changes_met::{ChangesMet, FewestChanges};
use crate::sorts::Sorts;
use crate::{
    amendments_met, damaged_amendments, disordered_ledgers, larger_rows, ledgers_stored_earlier,
    most_kwh_met, places_met, rows_across_months, rows_met,
};
use calculator::calls::Outcome;
use calculator::refusals::LAST_REFUSAL;
use std::collections::BTreeMap;
use std::fmt::Display;

/// How often each refusal, each accepted call, each sort of row and of search and each kind of
/// disorder must be met.
const FEWEST_MET: u64 = 100;

/// How often each sort of call on rows across months must be met, and of call on larger rows.
const FEWEST_MET_ON_STORED_ROWS: u64 = 1_000;

/// How often each sort of call on ledgers stored earlier must be met.
const FEWEST_MET_ON_LEDGERS_STORED_EARLIER: u64 = 1_000;

/// How often bills with a change inside must be met through the library and the twin.
const FEWEST_CHANGES_IN_LIBRARY: FewestChanges = FewestChanges {
    of_stretches: 10_000,
    of_a_change: 300,
    at_an_edge: 100,
};

/// How often bills with a change inside must be met through the program.
const FEWEST_CHANGES_IN_PROGRAM: FewestChanges = FewestChanges {
    of_stretches: 2_000,
    of_a_change: 100,
    at_an_edge: 100,
};

/// The differences that are printed in full.
const DIFFERENCES_PRINTED: u64 = 3;

/// What was compared with the calculator on one side, the program or the library.
pub struct Counts {
    side: &'static str,
    /// The refusals that the side can meet, each of which must be.
    possible_refusals: Vec<u32>,
    /// The calls that the side can accept, each of which must be.
    possible_calls: Vec<&'static str>,
    /// Sessions or histories, by their kind.
    runs: BTreeMap<&'static str, u64>,
    accepted: BTreeMap<String, u64>,
    refused: BTreeMap<u32, u64>,
    /// The bills with a change inside.
    pub changes: ChangesMet,
    /// The amendments, and the calls on amended contracts.
    amendments: Sorts,
    /// The bills and rebills of the most kWh that they may give, and of one more.
    most_kwh: Sorts,
}

/// The damaged ledgers of one kind.
#[derive(Default)]
pub struct DamageCounts {
    /// How many there must be.
    pub fewest: u64,
    pub tried: u64,
    pub still_well_formed: u64,
}

/// All that was met.
pub struct Findings {
    pub program: Counts,
    pub library: Counts,
    /// The rows at the ends of the library's histories, and certificates in them.
    pub rows: Sorts,
    /// The calls on rows across months.
    pub rows_across_months: Sorts,
    /// The calls on rows of more kWh than a bill may give.
    pub larger_rows: Sorts,
    /// The calls on ledgers stored before amounts were by day.
    pub ledgers_stored_earlier: Sorts,
    /// The calls that look for rows and for places among them.
    pub searches: Sorts,
    /// The ledgers whose rows are out of order or share a day.
    pub disordered_ledgers: Sorts,
    /// The ledgers whose amendments are damaged.
    pub damaged_amendments: Sorts,
    damages: BTreeMap<String, DamageCounts>,
    differences: u64,
}

impl Counts {
    fn new(
        side: &'static str,
        possible_refusals: Vec<u32>,
        possible_calls: Vec<&'static str>,
        fewest_changes: FewestChanges,
    ) -> Counts {
        Counts {
            side,
            possible_refusals,
            possible_calls,
            runs: BTreeMap::new(),
            accepted: BTreeMap::new(),
            refused: BTreeMap::new(),
            changes: ChangesMet::new(fewest_changes),
            amendments: Sorts::new(amendments_met::sorts(), FEWEST_MET),
            most_kwh: Sorts::new(most_kwh_met::sorts(), FEWEST_MET),
        }
    }

    /// Counts a run of the kind.
    pub fn count_run(&mut self, kind: &'static str) {
        *self.runs.entry(kind).or_default() += 1;
    }

    /// Counts an accepted call or the refusal of one.
    pub fn count_outcome(&mut self, name: &str, outcome: &Outcome) {
        match outcome {
            Ok(_) => *self.accepted.entry(name.to_string()).or_default() += 1,
            Err(number) => *self.refused.entry(*number).or_default() += 1,
        }
    }

    /// Counts a call by the amendments and the kWh that it meets.
    pub fn count_call(&mut self, made: &CallMade) {
        amendments_met::count_call(&mut self.amendments, made);
        most_kwh_met::count_call(&mut self.most_kwh, made);
    }

    /// What is counted by sort, under its title.
    pub fn sorts(&self) -> [(&'static str, &Sorts); 2] {
        [
            ("amendments", &self.amendments),
            ("most kWh", &self.most_kwh),
        ]
    }

    fn print(&self) {
        let outcomes: u64 = self.accepted.values().chain(self.refused.values()).sum();
        println!("{}: {outcomes} calls", self.side);
        println!("  runs: {}", listed(self.runs.clone()));
        println!("  accepted: {}", listed(self.accepted.clone()));
        println!("  refused by number: {}", listed(self.refused.clone()));
        for (title, counts) in self.changes.met() {
            println!("  {title}: {}", listed(counts));
        }
        print_sorts(&self.sorts());
    }

    /// What must be met and was met too few times, and how often it was.
    fn met_too_few_times(&self) -> Vec<(String, u64)> {
        let calls = self.required().into_iter();
        let calls = calls.filter(|&(_, times)| times < FEWEST_MET);
        let sorts = self.sorts().map(|(_, sorts)| sorts.met_too_few_times());
        let changes = self.changes.met_too_few_times().into_iter();
        let sorts = changes.chain(sorts.concat());
        let sorts = sorts.map(|(what, times)| (format!("{}: {what}", self.side), times));
        calls.chain(sorts).collect()
    }

    /// Each refusal and accepted call that must be met, and how often it was.
    fn required(&self) -> Vec<(String, u64)> {
        let times = |count: Option<&u64>| count.copied().unwrap_or_default();
        let refusals = self.possible_refusals.iter().map(|number| {
            let what = format!("{}: refusal {number}", self.side);
            (what, times(self.refused.get(number)))
        });
        let calls = self.possible_calls.iter().map(|name| {
            let what = format!("{}: accepted {name}", self.side);
            (what, times(self.accepted.get(*name)))
        });
        refusals.chain(calls).collect()
    }
}

impl Findings {
    pub fn new() -> Findings {
        let library_calls = vec![
            "start", "open", "bill", "rebill", "cert", "cancel", "claim", "report", "total", "day",
            "date", "amend",
        ];
        let program_calls = [library_calls.clone(), vec!["price"]].concat();
        // the program's own ledger and book never meet numbers 2 and 3
        let program_refusals = [1].into_iter().chain(4..=LAST_REFUSAL).collect();
        let library_refusals = (2..=LAST_REFUSAL).collect();
        Findings {
            program: Counts::new(
                "program",
                program_refusals,
                program_calls,
                FEWEST_CHANGES_IN_PROGRAM,
            ),
            library: Counts::new(
                "library and twin",
                library_refusals,
                library_calls,
                FEWEST_CHANGES_IN_LIBRARY,
            ),
            rows: Sorts::new(rows_met::sorts(), FEWEST_MET),
            rows_across_months: Sorts::new(rows_across_months::sorts(), FEWEST_MET_ON_STORED_ROWS),
            larger_rows: Sorts::new(larger_rows::sorts(), FEWEST_MET_ON_STORED_ROWS),
            ledgers_stored_earlier: Sorts::new(
                ledgers_stored_earlier::sorts(),
                FEWEST_MET_ON_LEDGERS_STORED_EARLIER,
            ),
            searches: Sorts::new(places_met::sorts(), FEWEST_MET),
            disordered_ledgers: Sorts::new(disordered_ledgers::sorts(), FEWEST_MET),
            damaged_amendments: Sorts::new(damaged_amendments::sorts(), FEWEST_MET),
            damages: BTreeMap::new(),
            differences: 0,
        }
    }

    /// Counts damaged ledgers of a kind.
    pub fn count_damage(&mut self, kind: &str, counts: &DamageCounts) {
        let all = self.damages.entry(kind.to_string()).or_default();
        all.fewest = counts.fewest;
        all.tried += counts.tried;
        all.still_well_formed += counts.still_well_formed;
    }

    /// Counts a difference and prints the first few.
    pub fn count_difference(&mut self, description: impl FnOnce() -> String) {
        self.differences += 1;
        if self.differences <= DIFFERENCES_PRINTED {
            println!("difference: {}", description());
        }
    }

    /// Prints everything, in the last line the differences.
    pub fn print(&self) {
        self.program.print();
        self.library.print();
        print_sorts(&self.sorts());
        println!("damaged ledgers:");
        for (kind, counts) in &self.damages {
            let DamageCounts {
                tried,
                still_well_formed,
                ..
            } = counts;
            println!("  {kind}: {tried}, of which still well formed {still_well_formed}");
        }
        for (what, times) in self.met_too_few_times() {
            println!("too few: {what}, {times} times");
        }
        println!("comparisons: {} differences", self.differences);
    }

    /// What is counted by sort, under its title.
    fn sorts(&self) -> [(&'static str, &Sorts); 7] {
        [
            ("rows", &self.rows),
            ("rows across months", &self.rows_across_months),
            ("rows of more kWh than a bill may give", &self.larger_rows),
            ("ledgers stored earlier", &self.ledgers_stored_earlier),
            ("searches", &self.searches),
            ("disordered ledgers", &self.disordered_ledgers),
            ("damaged amendments", &self.damaged_amendments),
        ]
    }

    /// Whether there is no difference and everything was met often enough.
    pub fn passed(&self) -> bool {
        self.differences == 0 && self.met_too_few_times().is_empty()
    }

    /// What must be met and was met too few times, and how often it was.
    fn met_too_few_times(&self) -> Vec<(String, u64)> {
        let sides = [&self.program, &self.library].map(Counts::met_too_few_times);
        let sorts = self.sorts().map(|(_, sorts)| sorts.met_too_few_times());
        let damages = self.damages.iter();
        let damages = damages.filter(|(_, counts)| counts.tried < counts.fewest);
        let damages = damages.map(|(kind, counts)| (kind.clone(), counts.tried));
        let sides = sides.concat().into_iter();
        sides.chain(sorts.concat()).chain(damages).collect()
    }
}

/// Prints what was counted by sort, in a line under each title.
fn print_sorts(sorts: &[(&str, &Sorts)]) {
    for (title, sorts) in sorts {
        println!("  {title}: {}", listed(sorts.met()));
    }
}

/// The counts in one line.
fn listed<Name: Display>(counts: impl IntoIterator<Item = (Name, u64)>) -> String {
    let items = counts.into_iter();
    let items: Vec<String> = items
        .map(|(name, count)| format!("{name}: {count}"))
        .collect();
    items.join(", ")
}

#[cfg(test)]
mod tests {
    use super::{DamageCounts, Findings, Sorts, FEWEST_MET};
    use std::mem::swap;

    /// What is counted by sort.
    const SORTS: [fn(&mut Findings) -> &mut Sorts; 11] = [
        |findings| &mut findings.rows,
        |findings| &mut findings.rows_across_months,
        |findings| &mut findings.larger_rows,
        |findings| &mut findings.ledgers_stored_earlier,
        |findings| &mut findings.searches,
        |findings| &mut findings.disordered_ledgers,
        |findings| &mut findings.damaged_amendments,
        |findings| &mut findings.program.amendments,
        |findings| &mut findings.library.amendments,
        |findings| &mut findings.program.most_kwh,
        |findings| &mut findings.library.most_kwh,
    ];

    /// Everything that must be met, met often enough.
    fn sufficient_findings() -> Findings {
        let mut findings = Findings::new();
        for side in [&mut findings.program, &mut findings.library] {
            let (refusals, calls) = (side.possible_refusals.clone(), side.possible_calls.clone());
            for _ in 0..FEWEST_MET {
                refusals
                    .iter()
                    .for_each(|&number| side.count_outcome("", &Err(number)));
                calls
                    .iter()
                    .for_each(|name| side.count_outcome(name, &Ok(vec![])));
            }
            side.changes.count_each_often_enough();
        }
        for sorts in SORTS {
            sorts(&mut findings).count_each_often_enough();
        }
        findings
    }

    #[test]
    fn nothing_met_is_too_few() {
        assert!(!Findings::new().passed());
    }

    #[test]
    fn everything_met_often_enough_passes() {
        assert!(sufficient_findings().passed());
    }

    #[test]
    fn each_of_the_sorts_must_be_met() {
        for sorts in SORTS {
            let mut findings = sufficient_findings();
            swap(sorts(&mut findings), sorts(&mut Findings::new()));
            assert!(!findings.passed());
        }
    }

    #[test]
    fn bills_with_a_change_inside_must_be_met_on_each_side() {
        let mut all_but_program = sufficient_findings();
        all_but_program.program.changes = Findings::new().program.changes;
        assert!(!all_but_program.passed());
        let mut all_but_library = sufficient_findings();
        all_but_library.library.changes = Findings::new().library.changes;
        assert!(!all_but_library.passed());
    }

    #[test]
    fn a_kind_of_damage_is_counted_up_to_its_fewest() {
        let mut findings = sufficient_findings();
        let counts = DamageCounts {
            fewest: 2,
            tried: 1,
            still_well_formed: 0,
        };
        findings.count_damage("a kind of this test", &counts);
        assert!(!findings.passed());
        findings.count_damage("a kind of this test", &counts);
        assert!(findings.passed());
    }

    #[test]
    fn a_difference_fails() {
        let mut findings = sufficient_findings();
        findings.count_difference(|| "a difference of this test".to_string());
        assert!(!findings.passed());
    }
}

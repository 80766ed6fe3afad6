//! Calls on damaged ledgers: the library and the twin refuse those that aren't well formed,
//! and answer as the calculator on those that still are.

use crate::books::random_book;
use crate::changing_calls::CHANGING;
use crate::compared_calls::{compare_call, LedgerCall};
use crate::counts::{DamageCounts, Findings};
use crate::damages::{damages, drawn_damages, Damage};
use crate::generator::{random_call, Profile, CLAIMING, FILLING, MIXED};
use crate::random::Random;
use calculator::codes::Territory;
use calculator::packed::{pack, unpack, Facts};
use calculator::postings::PostingModule;

/// A ledger that is damaged: the calls that leave it, and the kinds of damage.
struct Ledger {
    territory: Territory,
    profile: &'static Profile,
    calls: usize,
    damages: fn() -> Vec<Damage>,
}

/// The last one has more rows with a change inside than the others.
const LEDGERS: [Ledger; 4] = [
    Ledger {
        territory: Territory::NorthernIreland,
        profile: MIXED,
        calls: 300,
        damages,
    },
    Ledger {
        territory: Territory::GreatBritain,
        profile: CLAIMING,
        calls: 1_300,
        damages,
    },
    Ledger {
        territory: Territory::GreatBritain,
        profile: FILLING,
        calls: 1_800,
        damages,
    },
    Ledger {
        territory: Territory::GreatBritain,
        profile: CHANGING,
        calls: 1_000,
        damages: drawn_damages,
    },
];

/// The calls on each damaged ledger.
const CALLS: usize = 2;

/// Compares calls on every kind of damage to each ledger.
pub fn compare(findings: &mut Findings, seed: u64) {
    for (number, ledger) in LEDGERS.iter().enumerate() {
        let mut random = Random::new(seed, "damaged ledgers", number as u64);
        let facts = random_facts(&mut random, ledger.territory, ledger.profile, ledger.calls);
        let place = format!("seed {seed}, damaged ledger {number}");
        for damage in (ledger.damages)() {
            compare_damage(findings, &mut random, &facts, &damage, &place);
        }
    }
}

/// The facts that random calls leave.
pub fn random_facts(
    random: &mut Random,
    territory: Territory,
    profile: &Profile,
    calls: usize,
) -> Facts {
    let mut module = PostingModule::new(territory);
    for _ in 0..calls {
        let call = random_call(random, &module.facts(), profile);
        let book = random_book(random, &call);
        // refused calls leave the facts as they were
        let _ = module.call(&book, &call);
    }
    module.facts()
}

fn compare_damage(
    findings: &mut Findings,
    random: &mut Random,
    facts: &Facts,
    damage: &Damage,
    place: &str,
) {
    let ledger = pack(facts);
    let mut counts = DamageCounts {
        fewest: damage.fewest,
        ..DamageCounts::default()
    };
    for number in 0..damage.count {
        let damaged = (damage.damaged)(random, &ledger, number);
        if damaged == ledger {
            continue;
        }
        counts.tried += 1;
        counts.still_well_formed += u64::from(unpack(&damaged).is_some());
        for _ in 0..CALLS {
            let call = random_call(random, facts, MIXED);
            let ledger_call = LedgerCall {
                ledger: &damaged,
                book: &random_book(random, &call),
                call: &call,
            };
            compare_call(findings, &ledger_call, || {
                format!("{place}, {}, number {number}", damage.kind)
            });
        }
    }
    findings.count_damage(&damage.kind, &counts);
}

//! Ledgers that break one clause of document 01's paragraph "Well formed" or of document 02,
//! papers 1, 3, 5 and 6, each, beside neighbours that keep it.

mod common;
mod paper_run;

use calculator::layout::{
    AmendmentNumbers, ContractNumbers, LedgerNumbers, RowNumbers, LEDGER_BYTES,
};
use calculator::packed::{call_on_bytes, unpack};
use common::call;
use paper_run::paper_run;

/// A well-formed ledger: in Northern Ireland, contract 0 flexible electricity with an ETII
/// certificate, contract 1 fixed gas, contract 2 index; rows 0 and 1 of contract 0, row 2 of
/// contract 1; one claim.
fn ledger() -> LedgerNumbers {
    let mut bytes = vec![0; LEDGER_BYTES];
    let book = [11_000; 1_740];
    for line in [
        "start 1",
        "open 0 0 2 0 0",
        "cert 0 1 486",
        "open 1 1 0 700 851",
        "open 2 0 3 0 0",
        "bill 0 486 515 1000 67030 31980 0 0",
        "bill 0 516 546 1000 67030 31980 0 0",
        "bill 1 486 515 1000 67030 0 0 0",
        "claim",
    ] {
        let outcome = call_on_bytes(&mut bytes, &book, &call(line));
        assert!(outcome.is_ok(), "{line}: {outcome:?}");
    }
    LedgerNumbers::read(&bytes)
}

fn is_well_formed(edit: impl Fn(&mut LedgerNumbers)) -> bool {
    let mut numbers = ledger();
    edit(&mut numbers);
    unpack(&numbers.write()).is_some()
}

/// The numbers of an amendment with its flag set.
fn amendment(original_end_day: u32, price_fix_day: u32, entry_day: u32) -> AmendmentNumbers {
    AmendmentNumbers {
        amended: true,
        original_end_day,
        price_fix_day,
        entry_day,
    }
}

/// Whether the ledger is well formed with contract 0 without rows and edited.
fn contract_is_well_formed(edit: impl Fn(&mut ContractNumbers)) -> bool {
    is_well_formed(|ledger| {
        ledger.rows[0] = ledger.rows[2];
        ledger.rows[1..3].fill(RowNumbers::default());
        edit(&mut ledger.contracts[0]);
    })
}

/// Whether the ledger is well formed with the first row, of 0 kWh and amount, edited.
fn row_is_well_formed(edit: impl Fn(&mut RowNumbers)) -> bool {
    is_well_formed(|ledger| {
        let row = &mut ledger.rows[0];
        (row.kwh, row.amount) = (0, 0);
        edit(row);
    })
}

#[test]
fn the_ledger_without_edits_is_well_formed() {
    assert!(is_well_formed(|_| {}));
    assert!(contract_is_well_formed(|_| {}));
    assert!(row_is_well_formed(|_| {}));
}

#[test]
fn every_ledger_of_the_papers_run_is_well_formed() {
    let mut bytes = vec![0; LEDGER_BYTES];
    for (line, outcome) in paper_run() {
        let answered = call_on_bytes(&mut bytes, &[0; 1_740], &call(line));
        assert_eq!(answered, outcome, "{line}");
        assert!(unpack(&bytes).is_some(), "after {line}");
    }
}

#[test]
fn that_length() {
    let bytes = ledger().write();
    assert!(unpack(&bytes[..LEDGER_BYTES - 1]).is_none());
    assert!(unpack(&[&bytes[..], &[0]].concat()).is_none());
    assert!(unpack(&[]).is_none());
}

#[test]
fn claims_at_most_1_000() {
    assert!(is_well_formed(|ledger| ledger.claims = 1_000));
    assert!(!is_well_formed(|ledger| ledger.claims = 1_001));
    assert!(!is_well_formed(|ledger| ledger.claims = 65_535));
}

#[test]
fn no_pence_where_no_claim_was_made() {
    let set = |ledger: &mut LedgerNumbers, claims, pence| {
        (ledger.claims, ledger.pence) = (claims, pence);
    };
    assert!(is_well_formed(|ledger| set(ledger, 0, 0)));
    assert!(is_well_formed(|ledger| set(ledger, 1, (1 << 47) - 1)));
    assert!(!is_well_formed(|ledger| set(ledger, 0, 1)));
}

#[test]
fn a_contract_not_open_is_all_zeros() {
    let edits: [fn(&mut ContractNumbers); 10] = [
        |contract| contract.fuel = 1,
        |contract| contract.kind = 2,
        |contract| contract.price_fix_day = 1,
        |contract| contract.entry_day = 1,
        |contract| contract.class = 1,
        |contract| contract.effective_day = 486,
        |contract| contract.amendment.amended = true,
        |contract| contract.amendment.original_end_day = 486,
        |contract| contract.amendment.price_fix_day = 1,
        |contract| contract.amendment.entry_day = 1,
    ];
    for edit in edits {
        assert!(!is_well_formed(|ledger| edit(&mut ledger.contracts[63])));
    }
}

#[test]
fn a_row_not_held_is_all_zeros() {
    let edits: [fn(&mut RowNumbers); 10] = [
        |row| row.contract = 1,
        |row| row.first_day = 1,
        |row| row.last_day = 1,
        |row| row.kwh = 1,
        |row| row.etii_share = 1,
        |row| row.qhs_share = 1,
        |row| row.reference_price = 1,
        |row| row.supply_price = 1,
        |row| row.amount = 1,
        |row| row.zeros = 1,
    ];
    for edit in edits {
        assert!(!is_well_formed(|ledger| edit(&mut ledger.rows[1_023])));
    }
}

#[test]
fn the_five_last_bits_of_any_contract_are_zeros() {
    for contract in [0, 1, 2, 63] {
        for zeros in [1, 2, 4, 8, 16, 31] {
            assert!(!is_well_formed(
                |ledger| ledger.contracts[contract].zeros = zeros
            ));
        }
    }
    for (zeros, well_formed) in [(0, true), (1, false), (16, false)] {
        let amended = |ledger: &mut LedgerNumbers| {
            let contract = &mut ledger.contracts[1];
            (contract.amendment, contract.zeros) = (amendment(515, 0, 0), zeros);
        };
        assert_eq!(is_well_formed(amended), well_formed, "{zeros}");
    }
}

#[test]
fn the_two_last_bits_of_any_row_are_zeros() {
    for row in [0, 1, 2, 3, 1_023] {
        for zeros in [1, 2, 3] {
            assert!(!is_well_formed(|ledger| ledger.rows[row].zeros = zeros));
        }
    }
}

#[test]
fn every_open_contract_has_codes_with_a_meaning_in_their_place() {
    assert!(!contract_is_well_formed(|contract| contract.class = 3));
    assert!(contract_is_well_formed(|contract| contract.kind = 3));
    assert!(!contract_is_well_formed(|contract| {
        (contract.kind, contract.fuel) = (3, 1);
    }));
    assert!(!is_well_formed(|ledger| ledger.territory = 0));
    assert!(is_well_formed(|ledger| {
        ledger.territory = 0;
        ledger.contracts[2] = ContractNumbers::default();
    }));
}

#[test]
fn every_open_contract_has_days_in_range() {
    for (kind, day, well_formed) in [
        (0, 851, true),
        (0, 852, false),
        (1, 1, false),
        (2, 1, false),
        (3, 1, false),
    ] {
        let price_fix = |contract: &mut ContractNumbers| {
            (contract.kind, contract.price_fix_day) = (kind, day);
        };
        assert_eq!(contract_is_well_formed(price_fix), well_formed);
        let entry = |contract: &mut ContractNumbers| {
            (contract.kind, contract.entry_day) = (kind, day);
        };
        assert_eq!(contract_is_well_formed(entry), well_formed);
    }
}

#[test]
fn every_certificate_has_an_effective_day_in_range() {
    for (class, effective_day, well_formed) in [
        (0, 0, true),
        (0, 486, false),
        (1, 485, false),
        (1, 486, true),
        (1, 851, true),
        (1, 852, false),
        (2, 510, false),
        (2, 511, true),
        (2, 851, true),
        (2, 852, false),
    ] {
        let edit = |contract: &mut ContractNumbers| {
            (contract.class, contract.effective_day) = (class, effective_day);
        };
        assert_eq!(contract_is_well_formed(edit), well_formed, "{class}");
    }
}

#[test]
fn a_clear_flag_has_three_zero_days() {
    let edits: [fn(&mut AmendmentNumbers, u32); 3] = [
        |amendment, day| amendment.original_end_day = day,
        |amendment, day| amendment.price_fix_day = day,
        |amendment, day| amendment.entry_day = day,
    ];
    for edit in edits {
        for day in [1, 486, 851, 1_023] {
            for contract in [0, 1, 2] {
                assert!(!is_well_formed(|ledger| {
                    edit(&mut ledger.contracts[contract].amendment, day);
                }));
            }
        }
    }
}

#[test]
fn only_a_fixed_contract_is_amended() {
    for (kind, well_formed) in [(0, true), (1, false), (2, false), (3, false)] {
        let edit = |contract: &mut ContractNumbers| {
            (contract.kind, contract.amendment) = (kind, amendment(600, 0, 0));
        };
        assert_eq!(contract_is_well_formed(edit), well_formed, "{kind}");
    }
}

#[test]
fn every_amendment_has_days_in_range() {
    for (numbers, well_formed) in [
        (amendment(0, 0, 0), false),
        (amendment(485, 0, 0), false),
        (amendment(486, 0, 0), true),
        (amendment(851, 0, 0), true),
        (amendment(852, 0, 0), false),
        (amendment(1_023, 0, 0), false),
        (amendment(600, 851, 0), true),
        (amendment(600, 852, 0), false),
        (amendment(600, 1_023, 0), false),
        (amendment(600, 0, 851), true),
        (amendment(600, 0, 852), false),
        (amendment(600, 0, 1_023), false),
        (amendment(486, 851, 851), true),
    ] {
        let edit = |contract: &mut ContractNumbers| {
            (contract.kind, contract.amendment) = (0, numbers);
        };
        assert_eq!(contract_is_well_formed(edit), well_formed, "{numbers:?}");
    }
}

/// Row 2, of contract 1, has its days edited. Rows 0 and 1, of contract 0, have the days 486 to
/// 515 and 516 to 546 in each case.
#[test]
fn no_row_of_an_amended_contract_crosses_its_original_end() {
    for (days, original_end_day, well_formed) in [
        ((486, 515), 486, false),
        ((486, 515), 500, false),
        ((486, 515), 514, false),
        ((486, 515), 515, true),
        ((486, 515), 516, true),
        ((486, 515), 851, true),
        ((486, 486), 486, true),
        ((487, 515), 486, true),
        ((486, 500), 500, true),
        ((501, 530), 500, true),
        ((500, 501), 500, false),
        ((486, 851), 850, false),
        ((486, 851), 851, true),
    ] {
        let edit = |ledger: &mut LedgerNumbers| {
            let row = &mut ledger.rows[2];
            (row.first_day, row.last_day) = days;
            ledger.contracts[1].amendment = amendment(original_end_day, 0, 0);
        };
        assert_eq!(
            is_well_formed(edit),
            well_formed,
            "{days:?} {original_end_day}"
        );
    }
}

/// Contract 1 has a second row, of days 600 to 610.
#[test]
fn every_row_of_an_amended_contract_keeps_to_one_side_of_its_original_end() {
    for (original_end_day, well_formed) in [
        (514, false),
        (515, true),
        (599, true),
        (600, false),
        (609, false),
        (610, true),
    ] {
        let edit = |ledger: &mut LedgerNumbers| {
            ledger.rows[3] = ledger.rows[2];
            (ledger.rows[3].first_day, ledger.rows[3].last_day) = (600, 610);
            ledger.contracts[1].amendment = amendment(original_end_day, 0, 0);
        };
        assert_eq!(is_well_formed(edit), well_formed, "{original_end_day}");
    }
}

/// Contract 1 of gas, entered on day 851, with a QHS certificate; its row of 1,000 kWh on the
/// days 792 to 800 at R 25,000 and S 30,000. A kWh has 10 × (30,000 − 7,830) = 221,700 ticks at
/// the old minimum and 10 × (30,000 − 6,500) = 235,000 at the new one.
#[test]
fn the_amount_after_the_original_end_is_by_the_amended_entry_day() {
    let (old, new) = (221_700_000, 235_000_000);
    for (numbers, amount) in [
        (AmendmentNumbers::default(), new),
        (amendment(791, 0, 791), old),
        (amendment(791, 0, 792), new),
        (amendment(800, 0, 791), new),
        (amendment(486, 0, 0), old),
    ] {
        let with_amount = |amount| {
            is_well_formed(|ledger| {
                let contract = &mut ledger.contracts[1];
                (contract.class, contract.effective_day) = (2, 511);
                contract.amendment = numbers;
                let row = &mut ledger.rows[2];
                (row.first_day, row.last_day) = (792, 800);
                (row.reference_price, row.supply_price) = (25_000, 30_000);
                row.amount = amount;
            })
        };
        assert!(with_amount(amount), "{numbers:?}");
        assert!(!with_amount(old + new - amount), "{numbers:?}");
    }
}

#[test]
fn every_held_row_has_days_in_range() {
    for (first_day, last_day, well_formed) in [
        (486, 486, true),
        (485, 486, false),
        (500, 499, false),
        (500, 500, true),
    ] {
        let edit = |row: &mut RowNumbers| (row.first_day, row.last_day) = (first_day, last_day);
        assert_eq!(row_is_well_formed(edit), well_formed, "{first_day}");
    }
    let last_row_ends = |day| is_well_formed(|ledger| ledger.rows[2].last_day = day);
    assert!(last_row_ends(851));
    assert!(!last_row_ends(852));
}

#[test]
fn every_held_row_has_kwh_and_prices_in_range() {
    // at S 0 the rate is 0, whatever kWh and R are
    let edited = |kwh, reference_price| {
        row_is_well_formed(|row| {
            (row.kwh, row.reference_price, row.supply_price) = (kwh, reference_price, 0);
        })
    };
    for kwh in [40_000_000, 40_000_001, 99_999_999, 100_000_000] {
        assert!(edited(kwh, 999_999), "{kwh}");
    }
    for kwh in [100_000_001, 134_217_727] {
        assert!(!edited(kwh, 999_999), "{kwh}");
    }
    assert!(!edited(100_000_000, 1_000_000));
    assert!(row_is_well_formed(|row| row.supply_price = 999_999));
    assert!(!row_is_well_formed(|row| row.supply_price = 1_000_000));
}

#[test]
fn the_shares_of_a_held_row_do_not_exceed_its_kwh() {
    let highest = (1 << 27) - 1;
    for (kwh, etii_share, qhs_share, well_formed) in [
        (1_000, 1_000, 0, true),
        (1_000, 0, 1_000, true),
        (1_000, 400, 600, true),
        (1_000, 1_001, 0, false),
        (1_000, 0, 1_001, false),
        (1_000, 400, 601, false),
        (0, 1, 0, false),
        (0, 0, 1, false),
        (1_000, highest, 1, false),
        (1_000, 1, highest, false),
        (40_000_001, 20_000_000, 20_000_001, true),
        (40_000_001, 20_000_001, 20_000_001, false),
        (100_000_000, 50_000_000, 50_000_000, true),
        (100_000_000, 50_000_000, 50_000_001, false),
        (100_000_000, highest, highest, false),
    ] {
        // at S 0 every class's rate is 0, so that the amount is 0 for any shares
        let edit = |row: &mut RowNumbers| {
            (row.kwh, row.supply_price) = (kwh, 0);
            (row.etii_share, row.qhs_share) = (etii_share, qhs_share);
        };
        let found = row_is_well_formed(edit);
        assert_eq!(found, well_formed, "{kwh} {etii_share} {qhs_share}");
    }
}

#[test]
fn the_contract_of_a_held_row_is_open() {
    assert!(!is_well_formed(|ledger| ledger.rows[2].contract = 3));
    assert!(!is_well_formed(
        |ledger| ledger.contracts[1] = ContractNumbers::default()
    ));
}

#[test]
fn a_reference_price_of_0_is_for_flexible_only() {
    assert!(row_is_well_formed(|row| row.reference_price = 0));
    let without_price = |reference_price| {
        is_well_formed(|ledger| {
            let row = &mut ledger.rows[2];
            (row.kwh, row.amount, row.reference_price) = (0, 0, reference_price);
        })
    };
    assert!(without_price(1));
    assert!(!without_price(0));
}

#[test]
fn the_amount_is_kwh_times_rate() {
    assert!(!is_well_formed(|ledger| ledger.rows[0].amount += 1));
    assert!(!is_well_formed(|ledger| ledger.rows[2].amount -= 1));
    assert!(!is_well_formed(|ledger| ledger.rows[0].kwh += 1));
    assert!(is_well_formed(|ledger| {
        ledger.rows[0].kwh = 901;
        ledger.rows[0].amount = 901 * 67_640;
    }));
    let certificate_starts = |day| is_well_formed(|ledger| ledger.contracts[0].effective_day = day);
    assert!(certificate_starts(486));
    assert!(!certificate_starts(487));
}

/// Row 0 has 30 days, 486 to 515, and row 1 has 31, 516 to 546, of 1,000 kWh each. A kWh has
/// 17,800 ticks in the baseline class and 67,640 in ETII. Where the certificate starts on day
/// 496, row 0 has floor(1,000 × 10 / 30) = 333 kWh before it, and 667 from it on; from day 546
/// on, row 1 has floor(1,000 × 30 / 31) = 967 kWh before it, and 33 on its last day.
#[test]
fn the_amount_is_the_sum_over_stretches() {
    let with_amounts = |effective_day, amounts: [u64; 2]| {
        is_well_formed(|ledger| {
            ledger.contracts[0].effective_day = effective_day;
            for (row, amount) in ledger.rows.iter_mut().zip(amounts) {
                row.amount = amount;
            }
        })
    };
    let (baseline, etii) = (17_800_000, 67_640_000);
    let row_0 = 333 * 17_800 + 667 * 67_640;
    assert!(with_amounts(496, [row_0, etii]));
    assert!(!with_amounts(496, [row_0 + 1, etii]));
    assert!(!with_amounts(496, [334 * 17_800 + 666 * 67_640, etii]));
    let row_1 = 967 * 17_800 + 33 * 67_640;
    assert!(with_amounts(546, [baseline, row_1]));
    assert!(!with_amounts(546, [baseline, row_1 - 1]));
    // the amounts of before: all kWh at the rate of the first day
    assert!(!with_amounts(496, [baseline, etii]));
    assert!(!with_amounts(546, [baseline, baseline]));
    // without a change inside they stay
    for (effective_day, amounts) in [
        (486, [etii, etii]),
        (516, [baseline, etii]),
        (547, [baseline, baseline]),
    ] {
        assert!(with_amounts(effective_day, amounts), "{effective_day}");
    }
}

/// A ledger stored before with other amounts: every call but start, which takes any contents,
/// is refused by 2 and changes no byte.
#[test]
fn a_ledger_with_amounts_by_the_first_day_is_refused() {
    let mut numbers = ledger();
    numbers.contracts[0].effective_day = 496;
    numbers.rows[0].amount = 17_800_000;
    let stored = numbers.write();
    for line in [
        "open 3 0 2 0 0",
        "bill 0 600 600 1 1 1 0 0",
        "rebill 0 486 515 1000 67030 31980 0 0",
        "cert 0 1 496",
        "cert 0 0 0",
        "cancel 0 486",
        "claim",
        "report 0",
        "total",
        "amend 1 515 0 0",
    ] {
        let mut bytes = stored.clone();
        let outcome = call_on_bytes(&mut bytes, &[11_000; 1_740], &call(line));
        assert_eq!(outcome, Err(2), "{line}");
        assert_eq!(bytes, stored, "{line}");
    }
}

#[test]
fn the_amount_is_the_sum_over_the_shares_whatever_the_certificate() {
    let with_shares = |etii_share, qhs_share, amount, effective_day| {
        is_well_formed(|ledger| {
            ledger.rows[1] = ledger.rows[2];
            ledger.rows[2] = RowNumbers::default();
            ledger.contracts[0].effective_day = effective_day;
            let row = &mut ledger.rows[0];
            (row.etii_share, row.qhs_share, row.amount) = (etii_share, qhs_share, amount);
        })
    };
    for effective_day in [486, 487] {
        assert!(with_shares(300, 200, 93_152_000, effective_day));
        assert!(!with_shares(300, 200, 93_152_001, effective_day));
        assert!(!with_shares(200, 300, 93_152_000, effective_day));
        assert!(with_shares(300, 0, 32_752_000, effective_day));
        // the rest at the ETII rate
        assert!(!with_shares(300, 0, 67_640_000, effective_day));
        assert!(!with_shares(0, 200, 118_072_000, effective_day));
    }
    assert!(with_shares(0, 0, 67_640_000, 486));
    assert!(!with_shares(0, 0, 67_640_000, 487));
}

#[test]
fn held_rows_come_first() {
    assert!(!is_well_formed(|ledger| ledger.rows.swap(2, 3)));
    assert!(!is_well_formed(|ledger| ledger.rows.swap(0, 1_023)));
    assert!(!is_well_formed(
        |ledger| ledger.rows[1] = RowNumbers::default()
    ));
}

#[test]
fn held_rows_ascend_by_contract_then_first_day() {
    assert!(!is_well_formed(|ledger| ledger.rows.swap(0, 1)));
    assert!(!is_well_formed(|ledger| ledger.rows.swap(1, 2)));
}

#[test]
fn no_two_rows_of_a_contract_share_a_day() {
    assert!(!is_well_formed(|ledger| ledger.rows[0].last_day = 516));
    assert!(!is_well_formed(|ledger| ledger.rows[1].first_day = 515));
    assert!(!is_well_formed(|ledger| ledger.rows[1] = ledger.rows[0]));
    assert!(is_well_formed(|ledger| ledger.rows[2].first_day = 487));
}

#[test]
fn no_row_far_below_shares_a_day_either() {
    let last_of_first_row = |day| {
        is_well_formed(|ledger| {
            let other = ledger.rows[2];
            ledger.rows[2] = ledger.rows[1];
            (ledger.rows[2].first_day, ledger.rows[2].last_day) = (600, 600);
            ledger.rows[3] = other;
            ledger.rows[0].last_day = day;
        })
    };
    assert!(last_of_first_row(515));
    assert!(!last_of_first_row(600));
}

//! The kinds of damage that are done to a ledger.

use crate::changes_inside::amount_by_first_day;
use crate::generator::shares_above;
use crate::random::Random;
use crate::rows_met::row_of;
use calculator::codes::MOST_KWH_STORED;
use calculator::facts::{CONTRACTS, MOST_ROWS};
use calculator::layout::{ContractNumbers, LedgerNumbers, RowNumbers, LEDGER_BYTES};
use calculator::packed::{pack, unpack, Row};
use calculator::rates::{amount, Bill, Contract};

/// A kind of damage: its ledgers are numbered from 0.
pub struct Damage {
    pub kind: String,
    pub count: usize,
    /// How many damaged ledgers there must be in all comparisons.
    pub fewest: u64,
    pub damaged: Box<Damaged>,
}

/// The damaged ledger of a number; it is undamaged where the ledger has no place for the
/// damage.
type Damaged = dyn Fn(&mut Random, &[u8], usize) -> Vec<u8>;

/// The widths of the fields in document 01's order (section "The packed ledger"), those of a
/// contract with the flag and the days of document 02, paper 5.
const HEADER_WIDTHS: [usize; 3] = [1, 16, 47];
const CONTRACT_WIDTHS: [usize; 12] = [1, 1, 2, 10, 10, 2, 10, 1, 10, 10, 10, 5];

/// The fields of a row and their widths, in document 01's order with those of document 02,
/// paper 1.
const ROW_FIELDS: [(&str, usize); 11] = [
    ("held", 1),
    ("contract", 6),
    ("first day", 10),
    ("last day", 10),
    ("kWh", 27),
    ("ETII share", 27),
    ("QHS share", 27),
    ("R", 20),
    ("S", 20),
    ("amount", 50),
    ("zeros", 2),
];

/// Where the contracts and the rows begin, in bits, and the bits of each.
const CONTRACTS_PLACE: usize = 64;
const CONTRACT_BITS: usize = 72;
const ROWS_PLACE: usize = CONTRACTS_PLACE + CONTRACTS * CONTRACT_BITS;
const ROW_BITS: usize = 200;

/// The highest share that a row's field has room for.
const HIGHEST_SHARE: u32 = (1 << 27) - 1;

/// Lengths that aren't a ledger's; 18,760 was one before rows had shares, and 25,928 before contracts
/// had amendments.
const WRONG_LENGTHS: [usize; 16] = [
    0, 1, 7, 8, 9, 583, 584, 585, 609, 18_760, 25_928, 26_159, 26_183, 26_185, 26_209, 52_368,
];

/// The rows that get every value in every field: the first ones, and as many drawn ones.
const ROWS_PUSHED: usize = 40;

/// The ledgers of a kind that is drawn at random.
const DRAWN: usize = 60;

/// How many ledgers of a kind there must be, and of one with few places in a ledger.
const FEWEST_DAMAGED: u64 = 100;
const FEWEST_DAMAGED_IN_FEW_PLACES: u64 = 20;

/// All kinds of damage.
pub fn damages() -> Vec<Damage> {
    let mut damages = numbered_damages();
    damages.extend(row_field_damages());
    damages.extend(drawn_damages());
    damages
}

/// The kinds that go through every place and value.
fn numbered_damages() -> Vec<Damage> {
    vec![
        Damage {
            kind: "header field at or over its limit".to_string(),
            count: pushes(&HEADER_WIDTHS).concat().len(),
            fewest: FEWEST_DAMAGED_IN_FEW_PLACES,
            damaged: Box::new(header_pushed),
        },
        Damage {
            kind: "contract field at or over its limit".to_string(),
            count: CONTRACTS * pushes(&CONTRACT_WIDTHS).concat().len(),
            fewest: FEWEST_DAMAGED,
            damaged: Box::new(contract_pushed),
        },
        Damage {
            kind: "bit flipped, one in every byte".to_string(),
            count: LEDGER_BYTES,
            fewest: FEWEST_DAMAGED,
            damaged: Box::new(bit_flipped),
        },
        Damage {
            kind: "wrong length".to_string(),
            count: WRONG_LENGTHS.len(),
            fewest: FEWEST_DAMAGED_IN_FEW_PLACES,
            damaged: Box::new(|_, ledger, number| resized(ledger, WRONG_LENGTHS[number])),
        },
    ]
}

/// A kind for each field of a row.
fn row_field_damages() -> impl Iterator<Item = Damage> {
    let pushes = pushes(&ROW_FIELDS.map(|(_, width)| width));
    ROW_FIELDS
        .into_iter()
        .zip(pushes)
        .map(|((name, _), pushes)| Damage {
            kind: format!("row field at or over its limit: {name}"),
            count: ROWS_PUSHED * pushes.len(),
            fewest: FEWEST_DAMAGED,
            damaged: Box::new(move |random, ledger, number| {
                row_pushed(random, ledger, number, &pushes)
            }),
        })
}

/// The kinds whose place is drawn at random.
pub fn drawn_damages() -> Vec<Damage> {
    vec![
        drawn_damage("rows swapped", rows_swapped),
        drawn_damage("row repeated", row_repeated),
        drawn_damage("rows overlapping", rows_overlapping),
        drawn_damage("gap between rows", gap_between_rows),
        drawn_damage("unused slot not zero", unused_slot_not_zero),
        drawn_damage("padding not zero", padding_not_zero),
        drawn_damage("amount off by one", amount_off_by_one),
        drawn_damage(
            "kWh at or over the most, with their amount",
            kwh_with_amount,
        ),
        drawn_damage("amount as without shares", amount_as_without_shares),
        Damage {
            count: 2 * DRAWN,
            ..drawn_damage("amount as by the first day alone", amount_as_by_first_day)
        },
        drawn_damage("shares exchanged", shares_exchanged),
        drawn_damage("shares of all kWh or more", shares_of_all_kwh_or_more),
        drawn_damage("contract of a row closed", contract_closed),
        drawn_damage("random bytes from a place on", random_bytes_from_a_place_on),
    ]
}

fn drawn_damage(
    kind: &str,
    damaged: impl Fn(&mut Random, &[u8], usize) -> Vec<u8> + 'static,
) -> Damage {
    Damage {
        kind: kind.to_string(),
        count: DRAWN,
        fewest: FEWEST_DAMAGED,
        damaged: Box::new(damaged),
    }
}

/// Values at, under and over the limits of a field of this width.
fn limits(width: usize) -> &'static [u64] {
    match width {
        1 => &[0, 1],
        2 => &[0, 1, 2, 3],
        5 => &[1, 2, 4, 8, 16, 31],
        6 => &[0, 1, 31, 62, 63],
        10 => &[0, 1, 485, 486, 510, 511, 791, 792, 851, 852, 1_023],
        16 => &[0, 1, 999, 1_000, 1_001, 32_768, 65_535],
        20 => &[0, 1, 999_999, 1_000_000, 1_048_575],
        27 => &[
            0,
            1,
            40_000_000,
            40_000_001,
            100_000_000,
            100_000_001,
            134_217_727,
        ],
        47 => &[0, 1, 1 << 46, (1 << 47) - 1],
        50 => &[0, 1, 1 << 49, (1 << 50) - 1],
        _ => unreachable!("no field has {width} bits"),
    }
}

/// A field, by its first bit in a record and its width, with a value that it is set to.
type Push = (usize, usize, u64);

/// Every field of a record, with each of its limits.
fn pushes(widths: &[usize]) -> Vec<Vec<Push>> {
    let mut place = 0;
    let mut pushes = Vec::new();
    for &width in widths {
        let limits = limits(width).iter();
        pushes.push(limits.map(|&value| (place, width, value)).collect());
        place += width;
    }
    pushes
}

/// The ledger with a field of the record at the place set.
fn pushed(ledger: &[u8], record_place: usize, (place, width, value): Push) -> Vec<u8> {
    let mut damaged = ledger.to_vec();
    for bit in 0..width {
        let place = record_place + place + bit;
        let mask = 1 << (7 - place % 8);
        damaged[place / 8] &= !mask;
        if value >> (width - 1 - bit) & 1 == 1 {
            damaged[place / 8] |= mask;
        }
    }
    damaged
}

fn header_pushed(_: &mut Random, ledger: &[u8], number: usize) -> Vec<u8> {
    pushed(ledger, 0, pushes(&HEADER_WIDTHS).concat()[number])
}

fn contract_pushed(_: &mut Random, ledger: &[u8], number: usize) -> Vec<u8> {
    let pushes = pushes(&CONTRACT_WIDTHS).concat();
    let contract = number / pushes.len();
    let place = CONTRACTS_PLACE + contract * CONTRACT_BITS;
    pushed(ledger, place, pushes[number % pushes.len()])
}

fn row_pushed(random: &mut Random, ledger: &[u8], number: usize, pushes: &[Push]) -> Vec<u8> {
    let row = match number / pushes.len() {
        row if row < ROWS_PUSHED / 2 => row,
        _ => random.below(MOST_ROWS),
    };
    let place = ROWS_PLACE + row * ROW_BITS;
    pushed(ledger, place, pushes[number % pushes.len()])
}

fn bit_flipped(random: &mut Random, ledger: &[u8], number: usize) -> Vec<u8> {
    let mut damaged = ledger.to_vec();
    damaged[number] ^= 1 << random.below(8);
    damaged
}

fn resized(ledger: &[u8], length: usize) -> Vec<u8> {
    let mut damaged = ledger.to_vec();
    damaged.resize(length, 0);
    damaged
}

/// The ledger with its numbers edited; the number of held rows is given to the edit.
pub fn edited(ledger: &[u8], edit: impl FnOnce(&mut LedgerNumbers, usize)) -> Vec<u8> {
    let mut numbers = LedgerNumbers::read(ledger);
    let held = numbers.rows.iter().filter(|row| row.held).count();
    edit(&mut numbers, held);
    numbers.write()
}

/// Neighbours for even numbers, any two rows for odd ones.
fn rows_swapped(random: &mut Random, ledger: &[u8], number: usize) -> Vec<u8> {
    edited(ledger, |numbers, held| {
        if held > 1 {
            let row = random.below(held - 1);
            let other = match number % 2 {
                0 => row + 1,
                _ => random.below(held),
            };
            numbers.rows.swap(row, other);
        }
    })
}

/// The row is put in once more, or in place of the next one.
fn row_repeated(random: &mut Random, ledger: &[u8], number: usize) -> Vec<u8> {
    edited(ledger, |numbers, held| {
        if held > 1 {
            let row = random.below(held - 1);
            let repeated = numbers.rows[row];
            if number.is_multiple_of(2) {
                numbers.rows.insert(row, repeated);
                numbers.rows.truncate(MOST_ROWS);
            } else {
                numbers.rows[row + 1] = repeated;
            }
        }
    })
}

/// A row is made to end on a day of the next row of its contract, or on its last day.
fn rows_overlapping(random: &mut Random, ledger: &[u8], number: usize) -> Vec<u8> {
    edited(ledger, |numbers, held| {
        let neighbours =
            (1..held).filter(|&row| numbers.rows[row - 1].contract == numbers.rows[row].contract);
        let neighbours: Vec<usize> = neighbours.collect();
        if !neighbours.is_empty() {
            let row = random.one_of(&neighbours);
            let next = numbers.rows[row];
            numbers.rows[row - 1].last_day = match number % 2 {
                0 => next.first_day,
                _ => next.last_day,
            };
        }
    })
}

/// A row is taken out, or the rows from it on are moved by one.
fn gap_between_rows(random: &mut Random, ledger: &[u8], number: usize) -> Vec<u8> {
    edited(ledger, |numbers, held| {
        if held > 1 {
            let row = random.below(held - 1);
            if number.is_multiple_of(2) {
                numbers.rows[row] = RowNumbers::default();
            } else {
                numbers.rows.insert(row, RowNumbers::default());
                numbers.rows.truncate(MOST_ROWS);
            }
        }
    })
}

/// A bit is set in a contract that isn't open, or in a row that isn't held.
fn unused_slot_not_zero(random: &mut Random, ledger: &[u8], number: usize) -> Vec<u8> {
    let numbers = LedgerNumbers::read(ledger);
    let contracts = (0..CONTRACTS).filter(|&slot| !numbers.contracts[slot].open);
    let contracts = contracts.map(|slot| (CONTRACTS_PLACE + slot * CONTRACT_BITS, CONTRACT_BITS));
    let rows = (0..MOST_ROWS).filter(|&slot| !numbers.rows[slot].held);
    let rows = rows.map(|slot| (ROWS_PLACE + slot * ROW_BITS, ROW_BITS));
    let unused: Vec<(usize, usize)> = match number % 2 {
        0 => contracts.collect(),
        _ => rows.collect(),
    };
    if unused.is_empty() {
        return ledger.to_vec();
    }
    let (place, bits) = random.one_of(&unused);
    pushed(ledger, place, (random.below(bits), 1, 1))
}

/// The last bits of a contract or of a row are set.
fn padding_not_zero(random: &mut Random, ledger: &[u8], number: usize) -> Vec<u8> {
    edited(ledger, |numbers, _| match number % 2 {
        0 => numbers.contracts[random.below(CONTRACTS)].zeros = random.within(1..=31),
        _ => numbers.rows[random.below(MOST_ROWS)].zeros = random.within(1..=3),
    })
}

fn amount_off_by_one(random: &mut Random, ledger: &[u8], number: usize) -> Vec<u8> {
    edited(ledger, |numbers, held| {
        if held > 0 {
            let amount = &mut numbers.rows[random.below(held)].amount;
            *amount = match number % 2 {
                0 => *amount + 1,
                _ => amount.saturating_sub(1),
            };
        }
    })
}

/// A row gets kWh at the most that a ledger stores or over it, and their amount.
fn kwh_with_amount(random: &mut Random, ledger: &[u8], _: usize) -> Vec<u8> {
    let mut facts = unpack(ledger).expect("a ledger is well formed before it is damaged");
    if let Some(place) = one_if_any(random, 0..facts.rows.len()) {
        let Row { contract, bill, .. } = facts.rows[place];
        let kwh = random
            .one_of(&[MOST_KWH_STORED, MOST_KWH_STORED + 1])
            .into();
        facts.rows[place] = row_of(&facts, contract, Bill { kwh, ..bill });
    }
    pack(&facts)
}

/// A row with shares gets the amount that it would have without them.
fn amount_as_without_shares(random: &mut Random, ledger: &[u8], _: usize) -> Vec<u8> {
    with_other_amount(random, ledger, |contract, bill| {
        let without_shares = Bill {
            etii_share: 0,
            qhs_share: 0,
            ..*bill
        };
        amount(contract, &without_shares)
    })
}

/// A row with a change inside gets the amount that it had before amounts were by day.
fn amount_as_by_first_day(random: &mut Random, ledger: &[u8], _: usize) -> Vec<u8> {
    with_other_amount(random, ledger, amount_by_first_day)
}

/// A row gets the amount given for its bill, which is another than its own.
fn with_other_amount(
    random: &mut Random,
    ledger: &[u8],
    other_amount: impl Fn(&Contract, &Bill) -> i64,
) -> Vec<u8> {
    let mut facts = unpack(ledger).expect("a ledger is well formed before it is damaged");
    let contracts = facts.contracts;
    let rows = facts.rows.iter_mut().filter_map(|row| {
        let contract = contracts[row.contract as usize].expect("its contract is open");
        let amount = other_amount(&contract, &row.bill);
        (amount != row.amount).then_some((row, amount))
    });
    if let Some((row, amount)) = one_if_any(random, rows) {
        row.amount = amount;
    }
    pack(&facts)
}

/// A row's ETII share is put in place of its QHS share, and the other way round.
fn shares_exchanged(random: &mut Random, ledger: &[u8], _: usize) -> Vec<u8> {
    edited(ledger, |numbers, _| {
        let rows = numbers.rows.iter_mut();
        let rows = rows.filter(|row| row.etii_share != row.qhs_share);
        if let Some(row) = one_if_any(random, rows) {
            (row.etii_share, row.qhs_share) = (row.qhs_share, row.etii_share);
        }
    })
}

/// One of the items, if there is any.
pub fn one_if_any<T>(random: &mut Random, items: impl Iterator<Item = T>) -> Option<T> {
    let mut items: Vec<T> = items.collect();
    (!items.is_empty()).then(|| items.swap_remove(random.below(items.len())))
}

/// A row's shares take all kWh, or exceed it. S is 0, so that every rate and with it the
/// amount is 0 whatever the shares are.
fn shares_of_all_kwh_or_more(random: &mut Random, ledger: &[u8], number: usize) -> Vec<u8> {
    edited(ledger, |numbers, held| {
        if held > 0 {
            let row = &mut numbers.rows[random.below(held)];
            (row.supply_price, row.amount) = (0, 0);
            (row.etii_share, row.qhs_share) = match number % 4 {
                0 => {
                    let share = random.within(0..=row.kwh);
                    (share, row.kwh - share)
                }
                _ => shares_above(random, row.kwh, HIGHEST_SHARE),
            };
        }
    })
}

/// The contract of a row is closed.
fn contract_closed(random: &mut Random, ledger: &[u8], _: usize) -> Vec<u8> {
    edited(ledger, |numbers, held| {
        if held > 0 {
            let contract = numbers.rows[random.below(held)].contract;
            numbers.contracts[contract as usize] = ContractNumbers::default();
        }
    })
}

fn random_bytes_from_a_place_on(random: &mut Random, ledger: &[u8], _: usize) -> Vec<u8> {
    let mut damaged = ledger.to_vec();
    let place = random.below(damaged.len());
    for byte in &mut damaged[place..] {
        *byte = random.number() as u8;
    }
    damaged
}

#[cfg(test)]
mod tests {
    use super::*;
    use crate::changing_calls::CHANGING;
    use crate::damaged_ledgers::random_facts;
    use calculator::codes::Territory;

    #[test]
    fn the_widths_fill_the_ledger() {
        assert_eq!(HEADER_WIDTHS.iter().sum::<usize>(), CONTRACTS_PLACE);
        assert_eq!(CONTRACT_WIDTHS.iter().sum::<usize>(), CONTRACT_BITS);
        let row_widths = ROW_FIELDS.iter().map(|(_, width)| width);
        assert_eq!(row_widths.sum::<usize>(), ROW_BITS);
        assert_eq!(ROWS_PLACE + MOST_ROWS * ROW_BITS, 8 * LEDGER_BYTES);
    }

    #[test]
    fn a_field_pushed_is_the_field_read() {
        let ledger = vec![0xFF; LEDGER_BYTES];
        let kwh = (1 + 6 + 10 + 10, 27, 100_000_001);
        let damaged = pushed(&ledger, ROWS_PLACE + 5 * ROW_BITS, kwh);
        let mut expected = LedgerNumbers::read(&ledger);
        expected.rows[5].kwh = 100_000_001;
        assert_eq!(LedgerNumbers::read(&damaged), expected);
    }

    /// The last value of each field is all ones; it is set in the first row.
    #[test]
    fn a_kind_of_a_rows_field_sets_this_field() {
        let mut random = Random::new(1, "fields", 0);
        let rows = [
            RowNumbers {
                etii_share: HIGHEST_SHARE,
                ..RowNumbers::default()
            },
            RowNumbers {
                qhs_share: HIGHEST_SHARE,
                ..RowNumbers::default()
            },
            RowNumbers {
                zeros: 3,
                ..RowNumbers::default()
            },
        ];
        for (name, row) in ["ETII share", "QHS share", "zeros"].into_iter().zip(rows) {
            let mut damages = row_field_damages();
            let damage = damages.find(|damage| damage.kind.ends_with(name));
            let damage = damage.expect("the field has a kind");
            let last_value = damage.count / ROWS_PUSHED - 1;
            let damaged = (damage.damaged)(&mut random, &[0; LEDGER_BYTES], last_value);
            assert_eq!(LedgerNumbers::read(&damaged).rows[0], row, "{name}");
        }
    }

    /// Of 100,000,000 kWh with their amount the row is well formed, and of one more it isn't.
    #[test]
    fn kwh_at_the_most_and_over_it_are_drawn() {
        let mut random = Random::new(1, "kWh", 0);
        let facts = random_facts(&mut random, Territory::GreatBritain, CHANGING, 300);
        let mut kwh_drawn = Vec::new();
        for _ in 0..20 {
            let damaged = kwh_with_amount(&mut random, &pack(&facts), 0);
            let rows = LedgerNumbers::read(&damaged).rows;
            let kwh = rows.iter().map(|row| row.kwh).max().unwrap_or_default();
            assert_eq!(unpack(&damaged).is_some(), kwh == 100_000_000, "{kwh}");
            kwh_drawn.push(kwh);
        }
        for kwh in [100_000_000, 100_000_001] {
            assert!(kwh_drawn.contains(&kwh), "{kwh}");
        }
    }

    #[test]
    fn every_kind_of_damage_gives_ledgers_that_are_not_well_formed() {
        let mut random = Random::new(1, "damages", 0);
        let facts = random_facts(&mut random, Territory::GreatBritain, CHANGING, 300);
        let ledger = pack(&facts);
        assert!(unpack(&ledger).is_some());
        for damage in damages() {
            let mut numbers = 0..damage.count;
            let found = numbers.any(|number| {
                let damaged = (damage.damaged)(&mut random, &ledger, number);
                unpack(&damaged).is_none()
            });
            assert!(found, "{}", damage.kind);
        }
    }
}

//! Random calls that mean something to a ledger: they bill open contracts on free days, mostly
//! within one month where their prices are monthly and beside the original end where they are
//! amended, rebill and cancel rows that are held, date certificates by them, at their edges and
//! inside, and amend fixed contracts. Some get a number that is off by one or has nothing to do
//! with the ledger.

use crate::months::month_end;
use crate::random::Random;
use crate::rows_met::rows_of;
use calculator::calls::{BillNumbers, Call};
use calculator::codes::{
    spans_share_a_day, Territory, HIGHEST_PRICE, MOST_KWH_GIVEN, SCHEME_FIRST_DAY,
};
use calculator::dates::LAST_DAY;
use calculator::facts::CONTRACTS;
use calculator::packed::{Facts, Row};
use calculator::rates::{Contract, Kind, NEW_QHS_MINIMUM_DAY};

/// Draws a call on a ledger with these facts.
pub type Draw = fn(&mut Random, &Facts) -> Call;

/// The calls that are drawn, by weight.
pub type Profile = [(usize, Draw)];

/// All calls.
pub const MIXED: &Profile = &[
    (12, open),
    (40, bill),
    (12, rebill),
    (12, cert),
    (6, cancel),
    (8, claim),
    (5, report),
    (4, total),
    (6, amend),
    (1, start),
];

/// Many short bills, which fill the ledger's rows.
pub const FILLING: &Profile = &[
    (12, open),
    (160, short_bill),
    (4, rebill),
    (2, cert),
    (1, cancel),
    (1, claim),
    (1, report),
    (1, total),
    (2, amend),
];

/// Many claims, with few bills between them.
pub const CLAIMING: &Profile = &[
    (1, open),
    (4, bill),
    (1, rebill),
    (1, cert),
    (1, cancel),
    (90, claim),
    (1, total),
    (1, amend),
];

/// Contracts with a few bills each.
pub const BILLING: &Profile = &[(10, open), (40, bill), (5, cert), (1, claim)];

/// Calls on the rows that are held and on their contracts.
pub const ON_ROWS: &Profile = &[
    (12, bill),
    (13, rebill),
    (6, rebill_of_same_span),
    (44, cert),
    (10, cancel),
    (4, claim),
    (8, report),
    (3, total),
];

/// Each call but start, once.
pub const EACH_BUT_START: [Draw; 9] = [
    open, bill, rebill, cert, cancel, claim, report, total, amend,
];

/// First days at the edges of the scheme, of QHS certificates and of the new QHS minimum.
const BOUNDARY_DAYS: [u32; 6] = [486, 510, 511, 791, 792, 851];

/// Days of fixed contracts at the edges of the table and of the new QHS minimum.
const BOUNDARY_CONTRACT_DAYS: [u32; 6] = [0, 485, 486, 791, 792, 851];

/// Prices at which a rate begins or reaches its maximum (document 01, section "Prices per
/// kWh").
const BOUNDARY_PRICES: [u32; 14] = [
    1, 6_500, 7_830, 9_900, 10_700, 11_397, 13_900, 18_500, 27_400, 28_240, 30_200, 32_161, 34_000,
    999_998,
];

/// Shares for which a row's 27 bits have no room; a sum with one of the last two may need
/// more than 32.
const HIGH_SHARES: [u32; 3] = [1 << 27, 1 << 31, u32::MAX];

/// Numbers that some field can't have, or only just can.
const WILD_NUMBERS: [u32; 18] = [
    0,
    1,
    2,
    3,
    4,
    63,
    64,
    485,
    510,
    852,
    1_023,
    1_000_000,
    40_000_001,
    100_000_000,
    100_000_001,
    134_217_728,
    2_147_483_648,
    4_294_967_295,
];

/// One call in that many has a number that doesn't fit.
const DISTURBED_ONCE_IN: usize = 10;

/// One rebill in that many has a span that has nothing to do with the row.
const OTHER_SPAN_ONCE_IN: usize = 10;

/// One bill of an amended contract in that many is beside its original end.
const BESIDE_END_ONCE_IN: usize = 2;

/// One span in that many that crosses an original end is left as it is.
const ACROSS_END_ONCE_IN: usize = 4;

/// One amendment in that many is of any open contract, and not of a fixed one that is unamended.
const OTHER_AMENDMENT_ONCE_IN: usize = 6;

/// One bill in that many has shares that exceed its kWh.
const EXCEEDING_SHARES_ONCE_IN: usize = 20;

/// The days of the longest bill, and of the longest among many.
const MOST_DAYS: u32 = 40;
const MOST_DAYS_OF_SHORT_BILL: u32 = 2;

/// A call on a ledger with these facts; mostly open where no contract is.
pub fn random_call(random: &mut Random, facts: &Facts, profile: &Profile) -> Call {
    let without_contracts = facts.contracts.iter().all(Option::is_none);
    let call = if without_contracts && !random.once_in(3) {
        open(random, facts)
    } else {
        random.weighted(profile)(random, facts)
    };
    if random.once_in(DISTURBED_ONCE_IN) {
        disturbed(random, &call)
    } else {
        call
    }
}

/// A start of either territory.
pub fn start(random: &mut Random, _: &Facts) -> Call {
    Call::Start {
        territory: random.within(0..=1),
    }
}

/// A price in mils, 0 to 999,999.
pub fn random_price(random: &mut Random) -> u32 {
    match random.below(8) {
        0..4 => random.one_of(&BOUNDARY_PRICES) + random.within(0..=2) - 1,
        4..7 => random.within(0..=80_000),
        _ => random.within(0..=HIGHEST_PRICE),
    }
}

/// The call with one of its numbers off by one or wild.
fn disturbed(random: &mut Random, call: &Call) -> Call {
    let mut numbers = call.numbers();
    if !numbers.is_empty() {
        let place = random.below(numbers.len());
        numbers[place] = match random.below(4) {
            0 => numbers[place].wrapping_add(1),
            1 => numbers[place].wrapping_sub(1),
            2 => random.one_of(&WILD_NUMBERS),
            _ => random.number() as u32,
        };
    }
    Call::of(call.name(), &numbers).expect("the name and the count of numbers are a call's")
}

pub fn open(random: &mut Random, facts: &Facts) -> Call {
    let contract = free_number(random, facts);
    let fuel = random.within(0..=1);
    let index_in_place = fuel == 0 && facts.territory == Territory::NorthernIreland;
    let kinds = if index_in_place {
        &[0, 1, 2, 3, 3][..]
    } else {
        &[0, 1, 2, 2]
    };
    let kind = random.one_of(kinds);
    let (price_fix_day, entry_day) = match kind {
        0 => (contract_day(random), entry_day(random)),
        _ => (0, 0),
    };
    Call::Open {
        contract,
        fuel,
        kind,
        price_fix_day,
        entry_day,
    }
}

pub fn bill(random: &mut Random, facts: &Facts) -> Call {
    bill_of_days(random, facts, MOST_DAYS)
}

fn short_bill(random: &mut Random, facts: &Facts) -> Call {
    bill_of_days(random, facts, MOST_DAYS_OF_SHORT_BILL)
}

fn bill_of_days(random: &mut Random, facts: &Facts, most_days: u32) -> Call {
    let contract = open_contract(random, facts);
    let end = original_end(facts, contract);
    let draw = |random: &mut Random| match end {
        Some(end) if random.once_in(BESIDE_END_ONCE_IN) => span_beside_end(random, end, most_days),
        _ => any_span(random, most_days),
    };
    let span = free_span(random, facts, contract, draw);
    Call::Bill(bill_numbers(random, facts, contract, span))
}

/// The rebill of a held row, at times of a span that no row begins.
pub fn rebill(random: &mut Random, facts: &Facts) -> Call {
    let Some(row) = held_row(random, facts) else {
        return bill(random, facts);
    };
    let (first, last) = if random.once_in(OTHER_SPAN_ONCE_IN) {
        any_span(random, MOST_DAYS)
    } else {
        row.bill.span()
    };
    let last = match random.below(4) {
        0 => random.within(first..=LAST_DAY),
        1 => first,
        _ => last,
    };
    let span = span_of_contract(random, facts, row.contract, (first, last));
    Call::Rebill(bill_numbers(random, facts, row.contract, span))
}

/// The rebill of a held row, which keeps its span.
fn rebill_of_same_span(random: &mut Random, facts: &Facts) -> Call {
    let Some(row) = held_row(random, facts) else {
        return bill(random, facts);
    };
    Call::Rebill(bill_numbers(random, facts, row.contract, row.bill.span()))
}

/// The certificate starts inside a row of the contract or at an edge of it, mostly.
pub fn cert(random: &mut Random, facts: &Facts) -> Call {
    let row = held_row(random, facts);
    let contract = match row {
        Some(row) if !random.once_in(4) => row.contract,
        _ => open_contract(random, facts),
    };
    let class = random.one_of(&[0, 1, 1, 2, 2]);
    let effective_day = match (class, row) {
        (0, _) => 0,
        (_, Some(row)) if !random.once_in(3) => day_of_span(random, row.bill.span()),
        _ => first_day(random),
    };
    Call::Cert {
        contract,
        class,
        effective_day,
    }
}

pub fn cancel(random: &mut Random, facts: &Facts) -> Call {
    match held_row(random, facts) {
        Some(row) => Call::Cancel {
            contract: row.contract,
            first: row.bill.first_day,
        },
        None => Call::Cancel {
            contract: open_contract(random, facts),
            first: SCHEME_FIRST_DAY,
        },
    }
}

pub fn claim(_: &mut Random, _: &Facts) -> Call {
    Call::Claim
}

pub fn report(random: &mut Random, facts: &Facts) -> Call {
    Call::Report {
        contract: open_contract(random, facts),
    }
}

pub fn total(_: &mut Random, _: &Facts) -> Call {
    Call::Total
}

/// An amendment, mostly of a fixed contract that is unamended. Its original end is mostly the last
/// day of the contract's rows or a later one.
pub fn amend(random: &mut Random, facts: &Facts) -> Call {
    let one = random.mostly_one_of(&unamended_numbers(facts), OTHER_AMENDMENT_ONCE_IN);
    let contract = one.unwrap_or_else(|| open_contract(random, facts));
    let last_billed = rows_of(facts, contract).map(|row| row.bill.last_day).max();
    let original_end_day = match last_billed {
        Some(last) if !random.once_in(6) => {
            let later = random.within(last..=LAST_DAY);
            random.one_of(&[last - 1, last, last, later, later])
        }
        _ => first_day(random),
    };
    Call::Amend {
        contract,
        original_end_day,
        price_fix_day: contract_day(random),
        entry_day: entry_day(random),
    }
}

/// The numbers of the fixed contracts that are unamended.
pub fn unamended_numbers(facts: &Facts) -> Vec<u32> {
    let mut numbers = contract_numbers(facts, true);
    numbers.retain(|&number| {
        contract_of_number(facts, number)
            .is_some_and(|contract| contract.kind.is_fixed() && contract.amendment.is_none())
    });
    numbers
}

/// The numbers of a bill of the contract and span; WAP is 0 unless the contract is flexible.
pub fn bill_numbers(
    random: &mut Random,
    facts: &Facts,
    contract: u32,
    (first, last): (u32, u32),
) -> BillNumbers {
    let kwh = random_kwh(random);
    let (etii_share, qhs_share) = random_shares(random, kwh);
    let flexible = kind_of(facts, contract) == Some(Kind::Flexible);
    BillNumbers {
        contract,
        first,
        last,
        kwh,
        supply: random_price(random),
        wap: if flexible { random_price(random) } else { 0 },
        etii_share,
        qhs_share,
    }
}

/// The kWh of a bill: at times none, one, the most that it may give, or one less or more.
fn random_kwh(random: &mut Random) -> u32 {
    let (most, more) = (MOST_KWH_GIVEN, MOST_KWH_GIVEN + 1);
    match random.below(8) {
        0 => random.one_of(&[0, 1, most - 1, most, most, most, more]),
        1 => random.within(0..=most),
        _ => random.within(0..=99_999),
    }
}

/// The ETII share and the QHS share of a bill of that many kWh, which at times exceed them.
fn random_shares(random: &mut Random, kwh: u32) -> (u32, u32) {
    if random.once_in(EXCEEDING_SHARES_ONCE_IN) {
        let high = random.one_of(&HIGH_SHARES);
        shares_above(random, kwh, high)
    } else {
        shares_within(random, kwh)
    }
}

/// The ETII share and the QHS share of a bill of that many kWh: none, either or both, at times all
/// kWh.
pub fn shares_within(random: &mut Random, kwh: u32) -> (u32, u32) {
    let share = random.within(0..=kwh);
    match random.below(19) {
        0..11 => (0, 0),
        11 | 12 => (share, 0),
        13 | 14 => (0, share),
        15 | 16 => (share, random.within(0..=kwh - share)),
        _ => random.one_of(&[(kwh, 0), (0, kwh), (share, kwh - share)]),
    }
}

/// The ETII share and the QHS share, which exceed kWh: by one, or with a high share, which is
/// above any kWh.
pub fn shares_above(random: &mut Random, kwh: u32, high: u32) -> (u32, u32) {
    let share = random.within(0..=kwh);
    let (one, other) = random.one_of(&[
        (kwh + 1, 0),
        (kwh, 1),
        (share, kwh - share + 1),
        (high, 0),
        (high, 1),
        (high, share + 1),
        (high, high),
    ]);
    if random.once_in(2) {
        (one, other)
    } else {
        (other, one)
    }
}

/// The contract numbers that are open, or that aren't.
pub fn contract_numbers(facts: &Facts, open: bool) -> Vec<u32> {
    let numbered = (0..).zip(&facts.contracts);
    let wanted = numbered.filter(|(_, contract)| contract.is_some() == open);
    wanted.map(|(number, _)| number).collect()
}

/// One of the contract numbers, or any if there is none.
fn number_of(random: &mut Random, numbers: &[u32]) -> u32 {
    if numbers.is_empty() {
        random.below(CONTRACTS) as u32
    } else {
        random.one_of(numbers)
    }
}

pub fn open_contract(random: &mut Random, facts: &Facts) -> u32 {
    number_of(random, &contract_numbers(facts, true))
}

/// The number of a contract that isn't open, or any if all are.
pub fn free_number(random: &mut Random, facts: &Facts) -> u32 {
    number_of(random, &contract_numbers(facts, false))
}

/// The contract of the number, if it is open.
pub fn contract_of_number(facts: &Facts, number: u32) -> Option<Contract> {
    *facts.contracts.get(number as usize)?
}

fn kind_of(facts: &Facts, contract: u32) -> Option<Kind> {
    Some(contract_of_number(facts, contract)?.kind)
}

/// The original end of a contract, if it is amended.
pub fn original_end(facts: &Facts, contract: u32) -> Option<u32> {
    let amendment = contract_of_number(facts, contract)?.amendment?;
    Some(amendment.original_end_day)
}

pub fn held_row(random: &mut Random, facts: &Facts) -> Option<Row> {
    let rows = &facts.rows;
    (!rows.is_empty()).then(|| random.one_of(rows))
}

pub fn contract_day(random: &mut Random) -> u32 {
    if random.once_in(3) {
        random.one_of(&BOUNDARY_CONTRACT_DAYS)
    } else {
        random.within(0..=LAST_DAY)
    }
}

/// A day of entry, often one from which the new QHS minimum applies.
fn entry_day(random: &mut Random) -> u32 {
    if random.once_in(3) {
        random.within(NEW_QHS_MINIMUM_DAY..=LAST_DAY)
    } else {
        contract_day(random)
    }
}

/// A day of the scheme, at times the last of a month or the first of the next.
fn first_day(random: &mut Random) -> u32 {
    let day = random.within(SCHEME_FIRST_DAY..=LAST_DAY);
    match random.below(8) {
        0 | 1 => random.one_of(&BOUNDARY_DAYS),
        2 => random.one_of(&[month_end(day), LAST_DAY.min(month_end(day) + 1)]),
        _ => day,
    }
}

/// A span as it is drawn, for a bill of the contract that shares no day with its rows, if one is
/// found in a few tries.
pub fn free_span(
    random: &mut Random,
    facts: &Facts,
    contract: u32,
    draw: impl Fn(&mut Random) -> (u32, u32),
) -> (u32, u32) {
    let mut draw = || {
        let span = draw(random);
        span_of_contract(random, facts, contract, span)
    };
    let mut span = draw();
    for _ in 0..6 {
        if !rows_of(facts, contract).any(|row| spans_share_a_day(row.bill.span(), span)) {
            break;
        }
        span = draw();
    }
    span
}

/// The span for a bill of the contract: where its prices are monthly, the span mostly ends in
/// its first month, at times with the month's last day or one more; where it is amended, one that
/// would cross the original end mostly ends with it.
fn span_of_contract(
    random: &mut Random,
    facts: &Facts,
    contract: u32,
    (first, last): (u32, u32),
) -> (u32, u32) {
    if !kind_of(facts, contract).is_some_and(Kind::has_monthly_prices) {
        let end = original_end(facts, contract);
        let end = end.filter(|&end| first <= end && !random.once_in(ACROSS_END_ONCE_IN));
        return (first, end.map_or(last, |end| last.min(end)));
    }
    let month_end = month_end(first);
    let last = match random.below(10) {
        0 => last,
        1 => month_end,
        2 => month_end + 1,
        _ => last.min(month_end),
    };
    (first, last)
}

fn any_span(random: &mut Random, most_days: u32) -> (u32, u32) {
    let first = first_day(random);
    let last = first + random.within(0..=most_days - 1);
    (first, last.min(LAST_DAY))
}

/// A span of the scheme beside an original end: it ends with the end or starts with it, starts after
/// it, or crosses it.
pub fn span_beside_end(random: &mut Random, end: u32, most_days: u32) -> (u32, u32) {
    let days = random.within(0..=most_days - 1);
    let after = end + 1;
    let (first, last) = random.one_of(&[
        (end - days, end),
        (end - days, end - days / 2),
        (end, end),
        (after, after + days),
        (after + days / 2, after + days),
        (end - days, after),
        (end - days, after + days),
        (end, after + days),
    ]);
    let first = first.clamp(SCHEME_FIRST_DAY, LAST_DAY);
    (first, last.clamp(first, LAST_DAY))
}

/// A day of the span or the day after it, often one at the span's edges.
pub fn day_of_span(random: &mut Random, (first, last): (u32, u32)) -> u32 {
    let any = random.within(first..=last);
    random.one_of(&[first, first + 1, last, last + 1, any, any, any, any])
}

#[cfg(test)]
mod tests {
    use super::{random_kwh, random_shares, span_beside_end, span_of_contract, HIGH_SHARES};
    use crate::random::Random;
    use calculator::codes::Territory;
    use calculator::packed::Facts;
    use calculator::rates::{Amendment, Certificate, Contract, Fuel, Kind};
    use std::collections::{BTreeMap, BTreeSet};

    #[test]
    fn kwh_at_every_edge_are_drawn() {
        let mut random = Random::new(1, "kWh", 0);
        let drawn: Vec<u32> = (0..2_000).map(|_| random_kwh(&mut random)).collect();
        for kwh in [0, 1, 39_999_999, 40_000_000, 40_000_001] {
            assert!(drawn.contains(&kwh), "{kwh}");
        }
        let more = drawn.iter().filter(|&&kwh| kwh > 40_000_000);
        assert!(more.count() < 100);
    }

    #[test]
    fn shares_at_every_edge_of_kwh_are_drawn() {
        let mut random = Random::new(1, "shares", 0);
        let drawn: BTreeSet<(u32, u32)> = (0..20_000)
            .map(|_| random_shares(&mut random, 1_000))
            .collect();
        let whole = [(0, 0), (1_000, 0), (1_001, 0), (1_000, 1)];
        let high = HIGH_SHARES.map(|high| [(high, 0), (high, 1), (high, high)]);
        for (one, other) in whole.into_iter().chain(high.concat()) {
            assert!(drawn.contains(&(one, other)), "{one} {other}");
            assert!(drawn.contains(&(other, one)), "{other} {one}");
        }
        let both = |sum| {
            move |&(etii_share, qhs_share): &(u32, u32)| {
                etii_share.min(qhs_share) > 1 && etii_share.checked_add(qhs_share) == Some(sum)
            }
        };
        for sum in [999, 1_000, 1_001] {
            assert!(drawn.iter().any(both(sum)), "{sum}");
        }
    }

    const FIXED: Kind = Kind::Fixed {
        price_fix_day: 0,
        entry_day: 0,
    };

    fn contract(kind: Kind) -> Contract {
        Contract {
            fuel: Fuel::Electricity,
            kind,
            certificate: Certificate::None,
            amendment: None,
        }
    }

    /// How often each last day is drawn for a bill of a contract of the kind whose span would be
    /// day 510 to the last day given.
    fn last_days(kind: Kind, last: u32) -> BTreeMap<u32, u32> {
        last_days_of(contract(kind), last)
    }

    /// The same of the contract.
    fn last_days_of(contract: Contract, last: u32) -> BTreeMap<u32, u32> {
        let mut facts = Facts::fresh(Territory::NorthernIreland);
        facts.contracts[0] = Some(contract);
        let mut random = Random::new(1, "spans", 0);
        let mut times = BTreeMap::new();
        for _ in 0..1_000 {
            let (_, drawn) = span_of_contract(&mut random, &facts, 0, (510, last));
            *times.entry(drawn).or_default() += 1;
        }
        times
    }

    #[test]
    fn bills_at_monthly_prices_mostly_end_in_their_month() {
        for kind in [Kind::Variable, Kind::DayAheadIndex] {
            let times = last_days(kind, 530);
            assert!(times.keys().eq(&[515, 516, 530]));
            assert!(times[&515] > 700);
            let times = last_days(kind, 512);
            assert!(times.keys().eq(&[512, 515, 516]));
            assert!(times[&512] > 700);
        }
    }

    /// How often each last day is drawn for a bill of a contract with that original end whose span
    /// would be day 510 to 530.
    fn last_days_of_amended(original_end_day: u32) -> BTreeMap<u32, u32> {
        let amendment = Amendment {
            original_end_day,
            price_fix_day: 0,
            entry_day: 0,
        };
        last_days_of(
            Contract {
                amendment: Some(amendment),
                ..contract(FIXED)
            },
            530,
        )
    }

    #[test]
    fn bills_across_an_original_end_mostly_end_with_it() {
        let times = last_days_of_amended(520);
        assert!(times.keys().eq(&[520, 530]));
        assert!(times[&520] > 600);
        for end in [509, 530] {
            assert!(last_days_of_amended(end).keys().eq(&[530]), "{end}");
        }
    }

    /// Before the end and with it, on it, after it and across it.
    #[test]
    fn spans_beside_an_original_end_are_drawn() {
        let mut random = Random::new(1, "ends", 0);
        let drawn: BTreeSet<(u32, u32)> = (0..20_000)
            .map(|_| span_beside_end(&mut random, 800, 10))
            .collect();
        let spans = [(791, 796), (791, 800), (800, 800), (801, 801), (801, 810)];
        for span in spans
            .into_iter()
            .chain([(805, 810), (791, 801), (800, 801)])
        {
            assert!(drawn.contains(&span), "{span:?}");
        }
        for end in [486, 851] {
            let (first, last) = span_beside_end(&mut random, end, 10);
            assert!(486 <= first && first <= last && last <= 851);
        }
    }

    #[test]
    fn other_bills_keep_their_span() {
        for kind in [FIXED, Kind::Flexible] {
            assert!(last_days(kind, 530).keys().eq(&[530]));
        }
    }
}

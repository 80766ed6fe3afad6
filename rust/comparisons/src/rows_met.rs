//! The rows that histories leave, by fuel, kind and class; rows with shares by their shares,
//! the class that is set aside and the QHS minimum; the certificates that re-rated rows beside
//! them.

use crate::sorts::Sorts;
use calculator::codes::QHS_FIRST_DAY;
use calculator::packed::{Facts, Row};
use calculator::rates::{
    amount, class_of_bill, Bill, Class, Contract, Fuel, Kind, NEW_QHS_MINIMUM_DAY,
};

/// The names of the kinds in the order of their codes.
const KINDS: [&str; 4] = ["fixed", "variable", "flexible", "index"];

const FUELS: [Fuel; 2] = [Fuel::Electricity, Fuel::Gas];

const CLASSES: [Class; 3] = [Class::Baseline, Class::Etii, Class::Qhs];

const ETII_SHARE: &str = "ETII share";
const QHS_SHARE: &str = "QHS share";
const BOTH_SHARES: &str = "ETII and QHS share";

const SHARES: [&str; 3] = [ETII_SHARE, QHS_SHARE, BOTH_SHARES];

const BEFORE_CERTIFICATES: &str = "QHS share before day 511";
const OLD_MINIMUM_KEPT: &str = "QHS share from day 792 on of a fixed contract entered before";
const NEW_MINIMUM_FIXED: &str = "QHS share from day 792 on of a fixed contract entered since";
const NEW_MINIMUM: &str = "QHS share from day 792 on of a contract that isn't fixed";

const QHS_SHARES: [&str; 4] = [
    BEFORE_CERTIFICATES,
    OLD_MINIMUM_KEPT,
    NEW_MINIMUM_FIXED,
    NEW_MINIMUM,
];

const RE_RATED: &str = "certificate that re-rated rows beside rows with shares";

/// Counts the held rows.
pub fn count_rows(sorts: &mut Sorts, facts: &Facts) {
    for row in &facts.rows {
        for sort in sorts_of_row(&contract_of(facts, row), &row.bill) {
            sorts.count(&sort);
        }
    }
}

/// Counts a certificate of the contract that changed amounts while the contract has a row with
/// shares.
pub fn count_certificate(sorts: &mut Sorts, contract: u32, before: &Facts, after: &Facts) {
    let rows_after = rows_of(after, contract);
    let beside_shares = rows_after.clone().any(|row| row.bill.has_shares());
    if beside_shares && !rows_of(before, contract).eq(rows_after) {
        sorts.count(RE_RATED);
    }
}

/// The held rows of a contract.
pub fn rows_of(facts: &Facts, contract: u32) -> impl Iterator<Item = &Row> + Clone {
    let rows = facts.rows.iter();
    rows.filter(move |row| row.contract == contract)
}

/// The contract of a held row.
pub fn contract_of(facts: &Facts, row: &Row) -> Contract {
    facts.contracts[row.contract as usize].expect("the contract of a held row is open")
}

/// The row of a bill of an open contract.
pub fn row_of(facts: &Facts, contract: u32, bill: Bill) -> Row {
    let open = facts.contracts[contract as usize].expect("the contract of a row is open");
    Row {
        contract,
        bill,
        amount: amount(&open, &bill),
    }
}

/// The contract and the first day of a row, by which rows ascend.
pub fn key(row: &Row) -> (u32, u32) {
    (row.contract, row.bill.first_day)
}

/// The kind and the fuel of a contract.
pub fn contract_name(contract: &Contract) -> String {
    let (kind, _, _) = contract.kind.numbers();
    kind_and_fuel(KINDS[kind as usize], contract.fuel)
}

/// Every sort; index contracts are for electricity only.
pub fn sorts() -> Vec<String> {
    let mut sorts = Vec::new();
    for fuel in FUELS {
        for kind in &KINDS[..if fuel == Fuel::Gas { 3 } else { 4 }] {
            let contract = kind_and_fuel(kind, fuel);
            sorts.extend(CLASSES.map(|class| format!("{contract} {}", class_name(class))));
            sorts.extend(SHARES.map(|shares| format!("{contract} {shares}")));
        }
    }
    for shares in SHARES {
        sorts.extend(CLASSES.map(|class| sort_by_certificate(shares, class)));
    }
    sorts.extend(QHS_SHARES.map(str::to_string));
    sorts.push(RE_RATED.to_string());
    sorts
}

/// The sorts that a row is of.
fn sorts_of_row(contract: &Contract, bill: &Bill) -> Vec<String> {
    let name = contract_name(contract);
    let class = class_of_bill(contract.certificate, bill.first_day);
    let Some(shares) = shares_of(bill) else {
        return vec![format!("{name} {}", class_name(class))];
    };
    let mut sorts = vec![
        format!("{name} {shares}"),
        sort_by_certificate(shares, class),
    ];
    if bill.qhs_share != 0 {
        let sort = sort_by_qhs_minimum(contract.kind_of_bill(bill.first_day), bill.first_day);
        sorts.extend(sort.map(str::to_string));
    }
    sorts
}

/// The shares that aren't 0, if one isn't.
fn shares_of(bill: &Bill) -> Option<&'static str> {
    match (bill.etii_share != 0, bill.qhs_share != 0) {
        (false, false) => None,
        (true, false) => Some(ETII_SHARE),
        (false, true) => Some(QHS_SHARE),
        (true, true) => Some(BOTH_SHARES),
    }
}

/// The sort of a row with a QHS share on days at which no certificate is QHS, or on which
/// either minimum may apply.
fn sort_by_qhs_minimum(kind: Kind, first_day: u32) -> Option<&'static str> {
    if first_day < QHS_FIRST_DAY {
        return Some(BEFORE_CERTIFICATES);
    }
    if first_day < NEW_QHS_MINIMUM_DAY {
        return None;
    }
    Some(match kind {
        Kind::Fixed { entry_day, .. } if entry_day < NEW_QHS_MINIMUM_DAY => OLD_MINIMUM_KEPT,
        Kind::Fixed { .. } => NEW_MINIMUM_FIXED,
        Kind::Variable | Kind::Flexible | Kind::DayAheadIndex => NEW_MINIMUM,
    })
}

fn kind_and_fuel(kind: &str, fuel: Fuel) -> String {
    let fuel = match fuel {
        Fuel::Electricity => "electricity",
        Fuel::Gas => "gas",
    };
    format!("{kind} {fuel}")
}

/// The sort by the class that a bill without shares would have.
fn sort_by_certificate(shares: &str, class: Class) -> String {
    format!("{shares} in place of class {}", class_name(class))
}

fn class_name(class: Class) -> &'static str {
    match class {
        Class::Baseline => "baseline",
        Class::Etii => "ETII",
        Class::Qhs => "QHS",
    }
}

#[cfg(test)]
mod tests {
    use super::{count_certificate, RE_RATED};
    use crate::sorts::Sorts;
    use calculator::calls::Call;
    use calculator::codes::Territory;
    use calculator::postings::PostingModule;

    /// Whether an ETII certificate of a flexible contract with these bills, a first day and an
    /// ETII share each, is counted as one that re-rated rows.
    fn re_rated(bills: &[(u32, u32)]) -> bool {
        let book = [0; 1_740];
        let mut module = PostingModule::new(Territory::GreatBritain);
        let mut call = |name, numbers: &[u32]| {
            let before = module.facts();
            let call = Call::of(name, numbers).expect("a call");
            module.call(&book, &call).expect("it is accepted");
            (before, module.facts())
        };
        call("open", &[5, 0, 2, 0, 0]);
        for &(first, etii_share) in bills {
            call(
                "bill",
                &[5, first, first, 10, 67_030, 31_980, etii_share, 0],
            );
        }
        let (before, after) = call("cert", &[5, 1, 500]);
        let mut sorts = Sorts::new(vec![RE_RATED.to_string()], 1);
        count_certificate(&mut sorts, 5, &before, &after);
        sorts.met_too_few_times().is_empty()
    }

    #[test]
    fn a_certificate_is_counted_where_it_re_rated_rows_beside_rows_with_shares() {
        assert!(re_rated(&[(500, 0), (501, 4)]));
        assert!(!re_rated(&[(500, 0), (501, 0)]));
        assert!(!re_rated(&[(500, 3), (501, 4)]));
        assert!(!re_rated(&[(499, 0), (501, 4)]));
    }
}

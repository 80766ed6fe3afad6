//! Discount rates of the scheme: Regulation 29's formula and the guidance's parameters.
//! Bills with an ETII or a QHS share follow document 02, paper 1, amounts are taken by day, as
//! in its paper 3, and amended contracts follow its paper 5.
//!
//! Prices are in mils, thousandths of a penny per kWh; rates are in ticks, ten-thousandths
//! of a penny per kWh (document 01, section "Prices per kWh"). Supply prices and reference
//! wholesale prices are 0 to 999,999 mils and consumption is 0 to 100,000,000 kWh, which a stored
//! row may have (document 02, paper 6).

/// The fuels; one contract supplies one of them (guidance, section 3.2).
#[derive(Clone, Copy, Debug, PartialEq, Eq)]
pub enum Fuel {
    Electricity,
    Gas,
}

/// The three levels of discount (guidance, section 1.2).
#[derive(Clone, Copy, Debug, PartialEq, Eq)]
pub enum Class {
    Baseline,
    /// Energy and trade intensive industry.
    Etii,
    /// Qualifying heat supplier.
    Qhs,
}

/// The four categories of supply contract (guidance, section 3.2).
#[derive(Clone, Copy, Debug, PartialEq, Eq)]
pub enum Kind {
    /// The price-fix day selects the reference wholesale price (section 3.2, "Price-Fix
    /// Date"); the day of entry selects the QHS minimum supply price (section 3.1).
    Fixed {
        price_fix_day: u32,
        entry_day: u32,
    },
    Variable,
    Flexible,
    /// Northern Ireland's electricity contracts on a day-ahead index.
    DayAheadIndex,
}

/// A contract's certificate with its effective day, if it has one (guidance, section 1.4,
/// "ETII Eligibility" and "Eligibility for Heat Networks Support").
#[derive(Clone, Copy, Debug, PartialEq, Eq)]
pub enum Certificate {
    None,
    Etii { effective_day: u32 },
    Qhs { effective_day: u32 },
}

/// The amendment of a fixed contract that is repriced or extended before the end of its
/// original fixed term (guidance, section 3.2, "Fixed Price Contracts extended into a new Fixed
/// Price Contract").
#[derive(Clone, Copy, Debug, PartialEq, Eq)]
pub struct Amendment {
    /// The last day of the original fixed term.
    pub original_end_day: u32,
    /// The price-fix day of bills that start after the original end.
    pub price_fix_day: u32,
    /// The entry day of bills that start after the original end.
    pub entry_day: u32,
}

/// A supply contract, so far as it decides a rate.
#[derive(Clone, Copy, Debug, PartialEq, Eq)]
pub struct Contract {
    pub fuel: Fuel,
    /// The kind, with the original price-fix and entry day if it is fixed.
    pub kind: Kind,
    pub certificate: Certificate,
    /// Only a fixed contract has one.
    pub amendment: Option<Amendment>,
}

impl Contract {
    /// The kind, with the price-fix and entry day, of a bill that starts on the day: the
    /// original days on or before the original end, the amendment's after it (guidance, section
    /// 3.2, "Fixed Price Contracts extended into a new Fixed Price Contract").
    pub fn kind_of_bill(&self, first_day: u32) -> Kind {
        match self.amendment {
            Some(amendment) if first_day > amendment.original_end_day => Kind::Fixed {
                price_fix_day: amendment.price_fix_day,
                entry_day: amendment.entry_day,
            },
            _ => self.kind,
        }
    }
}

/// A bill, so far as it decides a rate and an amount; by default zeros.
#[derive(Clone, Copy, Debug, Default, PartialEq, Eq)]
pub struct Bill {
    pub first_day: u32,
    pub last_day: u32,
    pub kwh: i64,
    /// The kWh that a landlord passes on to ETII tenants.
    pub etii_share: i64,
    /// The kWh that a landlord passes on to QHS tenants.
    pub qhs_share: i64,
    /// R, the Reference Wholesale Price, in mils (guidance, section 3.1).
    pub reference_price: i64,
    /// S, the Supply Price before discount, in mils (guidance, section 3.1).
    pub supply_price: i64,
}

impl Bill {
    /// The first and the last day.
    pub fn span(&self) -> (u32, u32) {
        (self.first_day, self.last_day)
    }

    /// Whether either share isn't 0.
    pub fn has_shares(&self) -> bool {
        self.etii_share != 0 || self.qhs_share != 0
    }
}

/// The scheme parameters of a class and fuel, in mils (guidance, sections 3.1 and 3.3).
#[derive(Clone, Copy)]
struct Parameters {
    /// The Government Support Price.
    support_price: i64,
    /// The Maximum Discount.
    maximum_discount: i64,
    /// The Minimum Supply Price.
    minimum_price: i64,
}

/// The ticks in a mil.
const TICKS_PER_MIL: i64 = 10;

/// The part of an ETII's consumption that gets the baseline part, 30%, in tenths; a tenth of a
/// mil is a tick (guidance, section 3.4, "Calculation of Discount for ETII Customers").
const ETII_BASELINE_TENTHS: i64 = 3;

/// The part of an ETII's consumption that gets the ETII part, 70%, in tenths (same place).
const ETII_ENHANCED_TENTHS: i64 = 7;

/// The number of 1 February 2024, from which the new QHS minimum supply price applies
/// (guidance, section 3.1, "Minimum Supply Price").
pub const NEW_QHS_MINIMUM_DAY: u32 = 792;

/// The QHS Government Support Price of either fuel (guidance, section 3.3, "Government
/// Support Price").
const QHS_SUPPORT_PRICE: i64 = 0;

/// There is no QHS Maximum Discount (guidance, section 3.3, "Maximum Discount"); the
/// examples of section 3.4 write it as infinity.
const NO_MAXIMUM_DISCOUNT: i64 = i64::MAX;

/// The class of a bill that starts on the day: that of the certificate if the day is on or
/// after the effective day, "the date from which the Customer is eligible" (guidance,
/// section 1.4); baseline otherwise.
pub fn class_of_bill(certificate: Certificate, first_day: u32) -> Class {
    match certificate {
        Certificate::Etii { effective_day } if first_day >= effective_day => Class::Etii,
        Certificate::Qhs { effective_day } if first_day >= effective_day => Class::Qhs,
        _ => Class::Baseline,
    }
}

/// The class of a bill's rest, the kWh in neither share, on its first day: baseline where a
/// share isn't 0, for the certificate is set aside; otherwise the class of a bill that starts
/// on that day.
fn class_of_rest(contract: &Contract, bill: &Bill) -> Class {
    if bill.has_shares() {
        Class::Baseline
    } else {
        class_of_bill(contract.certificate, bill.first_day)
    }
}

/// The rate of a bill in ticks: that of its rest on the first day.
pub fn rate(contract: &Contract, bill: &Bill) -> i64 {
    class_rate(class_of_rest(contract, bill), contract, bill)
}

/// The amount of a bill in ten-thousandths of a penny: kWh times rate, over its days and its
/// three shares. Enhanced support is applied from the certificate's effective day (guidance,
/// section 1.4), inside a bill too.
pub fn amount(contract: &Contract, bill: &Bill) -> i64 {
    sum_over_days(class_rate, contract, bill)
}

/// The cap of a bill in ten-thousandths of a penny: kWh times the class's cap, over its days
/// and its three shares.
pub fn cap(contract: &Contract, bill: &Bill) -> i64 {
    sum_over_days(class_cap, contract, bill)
}

/// What a class has for a kWh of a bill.
type ForAKwh = fn(Class, &Contract, &Bill) -> i64;

/// The sum, over a bill's days, of the day's kWh times what there is for a kWh on that day.
/// The paper sums over stretches of days with one class and one QHS minimum; their kWh are
/// those of their days.
fn sum_over_days(for_a_kwh: ForAKwh, contract: &Contract, bill: &Bill) -> i64 {
    (bill.first_day..=bill.last_day)
        .map(|day| sum_over_shares(for_a_kwh, contract, bill, day))
        .sum()
}

/// The sum, over a bill's three shares, of their kWh on one of its days times what their
/// class has for a kWh. "A day's class and QHS minimum are those of a bill starting on that
/// day" (document 02, paper 3).
fn sum_over_shares(for_a_kwh: ForAKwh, contract: &Contract, bill: &Bill, day: u32) -> i64 {
    let starting_on_that_day = Bill {
        first_day: day,
        ..*bill
    };
    let rest = bill.kwh - bill.etii_share - bill.qhs_share;
    let shares = [
        (bill.etii_share, Class::Etii),
        (bill.qhs_share, Class::Qhs),
        (rest, class_of_rest(contract, &starting_on_that_day)),
    ];
    let amounts = shares.map(|(kwh, class)| {
        kwh_on_day(kwh, bill, day) * for_a_kwh(class, contract, &starting_on_that_day)
    });
    amounts.iter().sum()
}

/// The kWh of a share on one of its bill's days. "A bill of n days and k kWh has
/// floor(k × j / n) kWh in its first j days", and the shares "are each spread this way"
/// (document 02, paper 3).
fn kwh_on_day(kwh: i64, bill: &Bill, day: u32) -> i64 {
    let days = i64::from(bill.last_day - bill.first_day) + 1;
    let days_before = i64::from(day - bill.first_day);
    let kwh_in_first = |count: i64| kwh * count / days;
    kwh_in_first(days_before + 1) - kwh_in_first(days_before)
}

/// The rate of a class in ticks (guidance, section 3.4, "Calculation of Discount" for
/// baseline support, ETII customers and QHS customers).
fn class_rate(class: Class, contract: &Contract, bill: &Bill) -> i64 {
    let baseline_part = part(baseline_parameters(contract.fuel), bill);
    match class {
        Class::Baseline => TICKS_PER_MIL * baseline_part,
        Class::Etii => {
            let etii_part = part(etii_parameters(contract.fuel), bill);
            ETII_BASELINE_TENTHS * baseline_part + ETII_ENHANCED_TENTHS * etii_part
        }
        Class::Qhs => TICKS_PER_MIL * part(qhs_parameters(contract, bill.first_day), bill),
    }
}

/// The cap of a class in ticks: the Maximum Discounts in the class's weights (guidance,
/// section 3.3, "Maximum Discount"), or for QHS, which has none, the supply price less the
/// minimum supply price.
fn class_cap(class: Class, contract: &Contract, bill: &Bill) -> i64 {
    let baseline_maximum = baseline_parameters(contract.fuel).maximum_discount;
    match class {
        Class::Baseline => TICKS_PER_MIL * baseline_maximum,
        Class::Etii => {
            let etii_maximum = etii_parameters(contract.fuel).maximum_discount;
            ETII_BASELINE_TENTHS * baseline_maximum + ETII_ENHANCED_TENTHS * etii_maximum
        }
        Class::Qhs => {
            let minimum_price = qhs_parameters(contract, bill.first_day).minimum_price;
            TICKS_PER_MIL * (bill.supply_price - minimum_price).max(0)
        }
    }
}

/// Regulation 29(2), max{min(BD, MD, (SP − MP)), 0}, in mils, where the base discount BD is
/// the reference wholesale price less the support price (guidance, section 3.4, "'Blend and
/// Extend' Contracts", which quotes the regulation, and section 3.3 for BD).
fn part(parameters: Parameters, bill: &Bill) -> i64 {
    let base_discount = bill.reference_price - parameters.support_price;
    let margin = bill.supply_price - parameters.minimum_price;
    base_discount
        .min(parameters.maximum_discount)
        .min(margin)
        .max(0)
}

/// Baseline support: 30.2p and 1.961p per kWh of electricity, 10.7p and 0.697p of gas
/// (guidance, section 3.3; the minimum supply price from section 3.1).
fn baseline_parameters(fuel: Fuel) -> Parameters {
    match fuel {
        Fuel::Electricity => Parameters {
            support_price: 30_200,
            maximum_discount: 1_961,
            minimum_price: 30_200,
        },
        Fuel::Gas => Parameters {
            support_price: 10_700,
            maximum_discount: 697,
            minimum_price: 10_700,
        },
    }
}

/// ETII support: 18.5p and 8.9p per kWh of electricity, 9.9p and 4.0p of gas (guidance,
/// section 3.3; the minimum supply price from section 3.1).
fn etii_parameters(fuel: Fuel) -> Parameters {
    match fuel {
        Fuel::Electricity => Parameters {
            support_price: 18_500,
            maximum_discount: 8_900,
            minimum_price: 18_500,
        },
        Fuel::Gas => Parameters {
            support_price: 9_900,
            maximum_discount: 4_000,
            minimum_price: 9_900,
        },
    }
}

/// QHS support: the supply price is brought down towards the QHS minimum, by at most the
/// reference wholesale price (guidance, section 3.3, "Maximum Discount").
fn qhs_parameters(contract: &Contract, first_day: u32) -> Parameters {
    let new_minimum = new_qhs_minimum_applies(contract, first_day);
    Parameters {
        support_price: QHS_SUPPORT_PRICE,
        maximum_discount: NO_MAXIMUM_DISCOUNT,
        minimum_price: qhs_minimum_price(contract.fuel, new_minimum),
    }
}

/// Whether the new QHS minimum applies to a bill that starts on the day: to energy supplied
/// on or after 1 February 2024, but not under a fixed contract entered into before that day
/// (guidance, section 3.1, "Minimum Supply Price").
pub fn new_qhs_minimum_applies(contract: &Contract, first_day: u32) -> bool {
    let keeps_old_minimum = match contract.kind_of_bill(first_day) {
        Kind::Fixed { entry_day, .. } => entry_day < NEW_QHS_MINIMUM_DAY,
        Kind::Variable | Kind::Flexible | Kind::DayAheadIndex => false,
    };
    first_day >= NEW_QHS_MINIMUM_DAY && !keeps_old_minimum
}

/// The old and new QHS minimum supply prices: 34.0p and 28.24p per kWh of electricity,
/// 7.83p and 6.50p of gas (guidance, section 3.1, "Minimum Supply Price").
fn qhs_minimum_price(fuel: Fuel, new_minimum: bool) -> i64 {
    match (fuel, new_minimum) {
        (Fuel::Electricity, false) => 34_000,
        (Fuel::Electricity, true) => 28_240,
        (Fuel::Gas, false) => 7_830,
        (Fuel::Gas, true) => 6_500,
    }
}

//! The rates of the classes of a bill's energy (document 01, section "Prices per kWh").

use crate::contracts::{Contract, Fuel};

/// The constants of a fuel, in mils. A support price is the minimum too.
struct Prices {
    baseline_support: i64,
    baseline_maximum: i64,
    etii_support: i64,
    etii_maximum: i64,
    qhs_minimum_old: i64,
    qhs_minimum_new: i64,
}

static ELECTRICITY: Prices = Prices {
    baseline_support: 30_200,
    baseline_maximum: 1_961,
    etii_support: 18_500,
    etii_maximum: 8_900,
    qhs_minimum_old: 34_000,
    qhs_minimum_new: 28_240,
};

static GAS: Prices = Prices {
    baseline_support: 10_700,
    baseline_maximum: 697,
    etii_support: 9_900,
    etii_maximum: 4_000,
    qhs_minimum_old: 7_830,
    qhs_minimum_new: 6_500,
};

/// A bill: R and S in mils, and of the kWh those in the ETII share and in the QHS share.
#[derive(Clone, Copy)]
pub struct Bill {
    pub contract: u32,
    pub first: u32,
    pub last: u32,
    pub kwh: i64,
    pub etii_share: i64,
    pub qhs_share: i64,
    pub reference: i64,
    pub supply: i64,
}

impl Bill {
    /// Whether either share isn't 0; the contract's certificate is then set aside.
    pub fn has_shares(&self) -> bool {
        self.etii_share | self.qhs_share != 0
    }

    /// The kWh in neither share, which are negative where the shares exceed the kWh.
    pub fn rest(&self) -> i64 {
        self.kwh - self.etii_share - self.qhs_share
    }
}

/// The class by which energy is rated, with the QHS minimum in mils that applies.
#[derive(Clone, Copy)]
pub enum Class {
    Baseline,
    Etii,
    Qhs { minimum: i64 },
}

impl Contract {
    /// The rate in ticks of a bill's energy of a class.
    #[inline]
    pub fn class_rate(&self, class: Class, bill: &Bill) -> i64 {
        let (reference, supply) = (bill.reference, bill.supply);
        let prices = self.prices();
        match class {
            Class::Baseline => 10 * prices.baseline_part(reference, supply),
            Class::Etii => {
                3 * prices.baseline_part(reference, supply)
                    + 7 * prices.etii_part(reference, supply)
            }
            Class::Qhs { minimum } => 10 * (supply - minimum).min(reference).max(0),
        }
    }

    /// The QHS class with the old minimum.
    pub fn qhs_old(&self) -> Class {
        Class::Qhs {
            minimum: self.prices().qhs_minimum_old,
        }
    }

    /// The QHS class with the new minimum.
    pub fn qhs_new(&self) -> Class {
        Class::Qhs {
            minimum: self.prices().qhs_minimum_new,
        }
    }

    /// The constants of the contract's fuel.
    fn prices(&self) -> &'static Prices {
        match self.fuel {
            Fuel::Electricity => &ELECTRICITY,
            Fuel::Gas => &GAS,
        }
    }
}

impl Prices {
    fn baseline_part(&self, reference: i64, supply: i64) -> i64 {
        let (support, maximum) = (self.baseline_support, self.baseline_maximum);
        part(support, maximum, reference, supply)
    }

    fn etii_part(&self, reference: i64, supply: i64) -> i64 {
        let (support, maximum) = (self.etii_support, self.etii_maximum);
        part(support, maximum, reference, supply)
    }
}

/// A part in mils, of a class whose minimum is its support price.
fn part(support: i64, maximum: i64, reference: i64, supply: i64) -> i64 {
    (reference - support)
        .min(maximum)
        .min(supply - support)
        .max(0)
}

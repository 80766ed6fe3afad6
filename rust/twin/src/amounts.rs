//! The amounts of bills, over their shares (document 02, paper 1) and stretches (paper 3). A
//! stretch is days of a bill on which its energy has one class and one QHS minimum: a bill without
//! a change inside is one stretch.

use crate::contracts::{Certificate, Contract, Kind, LAST_DAY};
use crate::rates::{Bill, Class};

/// The day from which the new QHS minimum applies, 1 February 2024.
const NEW_MINIMUM_DAY: u32 = 792;

impl Bill {
    /// Of energy spread over the bill's days, the kWh before a day: floor(kWh × j / n) in the
    /// first j of n days.
    fn kwh_before(&self, day: u32, kwh: i64) -> i64 {
        if day <= self.first || kwh == 0 {
            return 0;
        }
        if day > self.last {
            return kwh;
        }
        let days_before = i64::from(day - self.first);
        let days = i64::from(self.last - self.first + 1);
        kwh * days_before / days
    }
}

impl Contract {
    /// The rate in ticks that is answered for a bill: the first day's, of the kWh in neither share.
    pub fn rate(&self, bill: &Bill) -> i64 {
        let class = match self.certificate {
            _ if bill.has_shares() => Class::Baseline,
            Certificate::Etii { effective_day } if effective_day <= bill.first => Class::Etii,
            Certificate::Qhs { effective_day } if effective_day <= bill.first => {
                if bill.first < self.new_minimum_day(bill) {
                    self.qhs_old()
                } else {
                    self.qhs_new()
                }
            }
            _ => Class::Baseline,
        };
        self.class_rate(class, bill)
    }

    /// The amount in ticks of a bill: the sum over the two shares and the rest, of each over its
    /// stretches.
    #[inline]
    pub fn amount(&self, bill: &Bill) -> i64 {
        match self.certificate {
            _ if bill.has_shares() => self.amount_of_shares(bill),
            Certificate::Etii { effective_day } if effective_day <= bill.first => {
                bill.kwh * self.class_rate(Class::Etii, bill)
            }
            Certificate::Qhs { effective_day } if effective_day <= bill.first => {
                match self.qhs_class(bill) {
                    Some(class) => bill.kwh * self.class_rate(class, bill),
                    None => self.amount_of_stretches(*bill),
                }
            }
            Certificate::Etii { effective_day } | Certificate::Qhs { effective_day }
                if effective_day <= bill.last =>
            {
                self.amount_of_stretches(*bill)
            }
            _ => bill.kwh * self.class_rate(Class::Baseline, bill),
        }
    }

    /// The amount of a bill with shares.
    #[inline]
    fn amount_of_shares(&self, bill: &Bill) -> i64 {
        let Some(qhs_class) = self.qhs_class(bill) else {
            return self.amount_of_stretches(*bill);
        };
        bill.rest() * self.class_rate(Class::Baseline, bill)
            + bill.etii_share * self.class_rate(Class::Etii, bill)
            + bill.qhs_share * self.class_rate(qhs_class, bill)
    }

    /// The amount of a bill with a change inside; a stretch that it doesn't have gets 0 kWh. At
    /// most two rows of a contract have one, so this is kept out of the check of the others.
    #[cold]
    #[inline(never)]
    fn amount_of_stretches(&self, bill: Bill) -> i64 {
        let rate = |class| self.class_rate(class, &bill);
        let new_minimum_day = self.new_minimum_day(&bill);
        match self.certificate {
            _ if bill.has_shares() => {
                let qhs_old = bill.kwh_before(new_minimum_day, bill.qhs_share);
                bill.rest() * rate(Class::Baseline)
                    + bill.etii_share * rate(Class::Etii)
                    + qhs_old * rate(self.qhs_old())
                    + (bill.qhs_share - qhs_old) * rate(self.qhs_new())
            }
            Certificate::None => bill.kwh * rate(Class::Baseline),
            Certificate::Etii { effective_day } => {
                let baseline = bill.kwh_before(effective_day, bill.kwh);
                baseline * rate(Class::Baseline) + (bill.kwh - baseline) * rate(Class::Etii)
            }
            Certificate::Qhs { effective_day } => {
                let baseline = bill.kwh_before(effective_day, bill.kwh);
                let before_new = bill.kwh_before(effective_day.max(new_minimum_day), bill.kwh);
                baseline * rate(Class::Baseline)
                    + (before_new - baseline) * rate(self.qhs_old())
                    + (bill.kwh - before_new) * rate(self.qhs_new())
            }
        }
    }

    /// The QHS class of all days of a bill, or `None` where the minimum changes inside the bill.
    fn qhs_class(&self, bill: &Bill) -> Option<Class> {
        if bill.last < NEW_MINIMUM_DAY || self.keeps_old_minimum(bill) {
            Some(self.qhs_old())
        } else if NEW_MINIMUM_DAY <= bill.first {
            Some(self.qhs_new())
        } else {
            None
        }
    }

    /// The day from which the new QHS minimum applies to a bill, or the day after the last where it
    /// never does.
    fn new_minimum_day(&self, bill: &Bill) -> u32 {
        if self.keeps_old_minimum(bill) {
            LAST_DAY + 1
        } else {
            NEW_MINIMUM_DAY
        }
    }

    /// Whether a bill keeps the old QHS minimum on all days: its contract is fixed, and the entry
    /// day that it takes is before day 792.
    fn keeps_old_minimum(&self, bill: &Bill) -> bool {
        let kind = self.kind_on(bill.first);
        matches!(kind, Kind::Fixed { entry_day, .. } if entry_day < NEW_MINIMUM_DAY)
    }
}

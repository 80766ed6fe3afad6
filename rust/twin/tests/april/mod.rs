//! The bill of document 01's run.

use twin::BillNumbers;

/// A bill for April 2023 of a flexible contract 0 of electricity: at baseline 17,800 ticks a kWh,
/// ETII 67,640 and QHS 319,800.
pub fn april(kwh: u32) -> BillNumbers {
    BillNumbers {
        contract: 0,
        first: 486,
        last: 515,
        kwh,
        supply: 67_030,
        wap: 31_980,
        etii_share: 0,
        qhs_share: 0,
    }
}

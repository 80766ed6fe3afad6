//! Numbers put into the bytes of a ledger's rows, where no call makes such a row.

use std::ops::Range;

/// The bits of a row that its field of that name has.
fn bits_of(name: &str) -> Range<usize> {
    match name {
        "kWh" => 27..54,
        "ETII share" => 54..81,
        "QHS share" => 81..108,
        "amount" => 148..198,
        _ => panic!("no number is put into {name}"),
    }
}

/// The ledger with a number in the field of that name of a row.
pub fn with_field(ledger: &[u8], row: usize, name: &str, number: u64) -> Vec<u8> {
    let bits = bits_of(name);
    assert_eq!(number >> bits.len(), 0, "{number} as {name}");
    let row_begins = 8 * (584 + 25 * row);
    let mut changed = ledger.to_vec();
    for (bit, place) in (0..bits.len()).rev().zip(bits) {
        let at = row_begins + place;
        let mask = 0x80 >> (at % 8);
        changed[at / 8] &= !mask;
        if number >> bit & 1 == 1 {
            changed[at / 8] |= mask;
        }
    }
    changed
}

//! The packed ledger: its layout, both round trips, and the calls on its bytes.

mod common;
mod paper_run;
mod stored_rows;

use calculator::codes::Territory;
use calculator::packed::{call_on_bytes, pack, unpack, Facts, LEDGER_BYTES};
use calculator::postings::PostingModule;
use calculator::rates::Bill;
use common::call;
use paper_run::paper_run;
use stored_rows::with_edited_bills;

const NO_PRICES: [u32; 1_740] = [0; 1_740];

/// The facts that the accepted lines leave.
fn facts_after(lines: &[&str]) -> Facts {
    let mut module = PostingModule::new(Territory::GreatBritain);
    for line in lines {
        let outcome = module.call(&NO_PRICES, &call(line));
        assert!(outcome.is_ok(), "{line}: {outcome:?}");
    }
    module.facts()
}

/// The ledger that the accepted lines leave.
fn ledger_after(lines: &[&str]) -> Vec<u8> {
    pack(&facts_after(lines))
}

/// The bytes of bits written as 0 and 1.
fn bytes_of(bits: &str) -> Vec<u8> {
    let byte = |start| u8::from_str_radix(&bits[start..start + 8], 2).expect("eight bits");
    (0..bits.len()).step_by(8).map(byte).collect()
}

#[test]
fn a_fresh_ledger_is_zeros_but_for_the_territory_bit() {
    let great_britain = pack(&Facts::fresh(Territory::GreatBritain));
    assert_eq!(great_britain, vec![0; LEDGER_BYTES]);
    let northern_ireland = pack(&Facts::fresh(Territory::NorthernIreland));
    assert_eq!(northern_ireland[0], 0b1000_0000);
    assert_eq!(northern_ireland[1..], great_britain[1..]);
}

#[test]
fn the_fields_stand_in_the_papers_order() {
    let ledger = ledger_after(&[
        "start 1",
        "open 2 1 0 700 851",
        "cert 2 1 600",
        "open 63 0 2 0 0",
        "bill 63 486 515 1000 67030 31980 300 200",
        "claim",
        "claim",
    ]);
    let header = bytes_of(&format!("1{:016b}{:047b}", 2, 9_315));
    assert_eq!(ledger[..8], header);
    let fixed = format!("1100{:010b}{:010b}01{:010b}{:036b}", 700, 851, 600, 0);
    assert_eq!(ledger[8 + 2 * 9..8 + 3 * 9], bytes_of(&fixed));
    let flexible = format!("1010{:068b}", 0);
    assert_eq!(ledger[8 + 63 * 9..8 + 64 * 9], bytes_of(&flexible));
    let days = format!("1{:06b}{:010b}{:010b}", 63, 486, 515);
    let kwh = format!("{:027b}{:027b}{:027b}", 1_000, 300, 200);
    let prices = format!("{:020b}{:020b}", 31_980, 67_030);
    let row = bytes_of(&format!("{days}{kwh}{prices}{:050b}00", 93_152_000));
    assert_eq!(ledger[584..584 + 25], row);
    let other_bytes = [&ledger[8..26], &ledger[35..575], &ledger[609..]].concat();
    assert!(other_bytes.iter().all(|&byte| byte == 0));
}

/// Contract 1 of gas, fixed on day 5, entered on day 6, with a QHS certificate from day 511 and
/// an amendment: original end 639, price-fix day 341, entry day 682. The bits, field by field:
/// 1 1 00, 0000000101, 0000000110, 10, 0111111111, flag 1, 1001111111, 0101010101, 1010101010,
/// zeros 00000.
#[test]
fn the_amendment_follows_the_effective_day() {
    let ledger = ledger_after(&["open 1 1 0 5 6", "cert 1 2 511", "amend 1 639 341 682"]);
    let contract = [
        0b1100_0000,
        0b0001_0100,
        0b0000_0110,
        0b1001_1111,
        0b1111_1100,
        0b1111_1110,
        0b1010_1010,
        0b1101_0101,
        0b0100_0000,
    ];
    assert_eq!(ledger[8 + 9..8 + 2 * 9], contract);
    let other_bytes = [&ledger[..8 + 9], &ledger[8 + 2 * 9..]].concat();
    assert!(other_bytes.iter().all(|&byte| byte == 0));
}

/// 486 is 0111100110 and 851 is 1101010011.
#[test]
fn the_flag_stands_before_the_lowest_and_the_highest_days() {
    for (line, bits) in [
        ("amend 0 486 0 0", "1011110011000000000000000000000"),
        ("amend 0 851 851 851", "1110101001111010100111101010011"),
    ] {
        let ledger = ledger_after(&["open 0 0 0 0 0", line]);
        let contract = format!("1{:035b}{bits}00000", 0);
        assert_eq!(ledger[8..8 + 9], bytes_of(&contract), "{line}");
    }
}

/// 1,024 rows of the most kWh that a ledger stores, at the highest prices, under 64 contracts,
/// added in descending order as bills of 1 kWh; a share has all kWh or none.
fn full_ledger() -> Facts {
    let mut lines = Vec::new();
    for contract in (0..64).rev() {
        lines.push(format!("open {contract} 1 2 0 0"));
        lines.push(format!("cert {contract} 2 511"));
        let bill = |(day, shares)| format!("bill {contract} {day} {day} 1 999999 999999 {shares}");
        let shares = ["0 0", "1 0", "0 1"].into_iter().cycle();
        lines.extend((792..808).rev().zip(shares).map(bill));
    }
    let lines: Vec<&str> = lines.iter().map(String::as_str).collect();
    with_edited_bills(&facts_after(&lines), |bill: &mut Bill| {
        for kwh in [&mut bill.kwh, &mut bill.etii_share, &mut bill.qhs_share] {
            *kwh *= 100_000_000;
        }
    })
}

#[test]
fn unpacking_then_packing_gives_the_bytes() {
    let ledgers = [
        ledger_after(&[]),
        ledger_after(&["start 1", "open 0 0 3 0 0", "claim"]),
        ledger_after(&["open 9 1 0 1 2", "cert 9 1 486", "amend 9 486 851 0"]),
        pack(&full_ledger()),
    ];
    for ledger in ledgers {
        let facts = unpack(&ledger).expect("the ledger is well formed");
        assert_eq!(pack(&facts), ledger);
    }
}

#[test]
fn packing_then_unpacking_gives_the_facts() {
    let mut facts = full_ledger();
    assert_eq!(facts.rows.len(), 1_024);
    // 10 × (999,999 − 6,500) ticks a kWh
    assert_eq!(facts.rows[0].amount, 100_000_000 * 9_934_990);
    facts.claims = 1_000;
    facts.pence = (1 << 47) - 1;
    assert_eq!(unpack(&pack(&facts)), Some(facts));
    let amended = facts_after(&["open 9 1 0 1 2", "cert 9 1 486", "amend 9 851 3 4"]);
    assert_eq!(unpack(&pack(&amended)), Some(amended));
}

#[test]
fn the_papers_run_leaves_its_claims_and_no_row() {
    let mut ledger = vec![0; LEDGER_BYTES];
    for (line, outcome) in paper_run() {
        let answered = call_on_bytes(&mut ledger, &NO_PRICES, &call(line));
        assert_eq!(answered, outcome, "{line}");
    }
    let facts = unpack(&ledger).expect("the ledger is well formed");
    assert_eq!((facts.claims, facts.pence, facts.rows), (3, 6_094, vec![]));
}

#[test]
fn a_refused_call_changes_no_byte() {
    let before = ledger_after(&["open 0 0 2 0 0", "bill 0 486 515 1000 67030 31980 0 0"]);
    let mut ledger = before.clone();
    for (line, number) in [("start 2", 6), ("bill 0 515 515 1 1 1 0 0", 10)] {
        let answered = call_on_bytes(&mut ledger, &NO_PRICES, &call(line));
        assert_eq!(answered, Err(number), "{line}");
        assert_eq!(ledger, before, "{line}");
    }
}

#[test]
fn a_ledger_of_a_wrong_length_is_refused_before_all_else() {
    for length in [0, 1, 18_760, 25_928, 26_183, 26_185] {
        let mut ledger = vec![0; length];
        for line in [
            "start 2",
            "bill 64 0 0 0 0 0 0 0",
            "total",
            "amend 64 0 0 0",
        ] {
            let answered = call_on_bytes(&mut ledger, &[], &call(line));
            assert_eq!(answered, Err(2), "{line} on {length} bytes");
        }
    }
}

#[test]
fn start_takes_a_buffer_of_any_contents() {
    let mut ledger = vec![0xFF; LEDGER_BYTES];
    let answered = call_on_bytes(&mut ledger, &[], &call("total"));
    assert_eq!(answered, Err(2));
    let answered = call_on_bytes(&mut ledger, &[], &call("start 0"));
    assert_eq!(answered, Ok(vec![]));
    assert_eq!(ledger, vec![0; LEDGER_BYTES]);
}

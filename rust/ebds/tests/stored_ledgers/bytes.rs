//! The bytes of ledgers as the C library left them when it had papers 1 and 2 alone, and the same
//! facts in the present layout. The contracts are of electricity, but for one of gas.

use crate::{span, AT_31_980, AT_40_000};
use ebds::BillNumbers;

/// The length of a ledger then.
const STORED_LENGTH: usize = 25_928;

/// The bytes of a ledger that aren't zeros, in hexadecimal.
pub struct Stored {
    header: &'static str,
    /// The open contracts, each with its number.
    contracts: &'static [(usize, &'static str)],
    /// The held rows.
    rows: &'static [&'static str],
}

impl Stored {
    /// The ledger in the present layout.
    pub fn bytes(&self) -> Vec<u8> {
        widened(&self.stored_bytes())
    }

    /// The ledger as it was left: 8 bytes of header, contracts of 5 bytes and rows of 25.
    pub fn stored_bytes(&self) -> Vec<u8> {
        let header = [(0, self.header)].into_iter();
        let contracts = self.contracts.iter();
        let contracts = contracts.map(|&(number, contract)| (8 + 5 * number, contract));
        let rows = self.rows.iter().enumerate();
        let rows = rows.map(|(place, &row)| (328 + 25 * place, row));
        let mut ledger = vec![0; STORED_LENGTH];
        for (begins, hexadecimal) in header.chain(contracts).chain(rows) {
            let bytes = bytes_of(hexadecimal);
            ledger[begins..begins + bytes.len()].copy_from_slice(&bytes);
        }
        ledger
    }
}

/// A ledger as it was left, with four zero bytes after each contract: it is then an unamended one of
/// 9 bytes.
fn widened(stored: &[u8]) -> Vec<u8> {
    let (header, rest) = stored.split_at(8);
    let (contracts, rows) = rest.split_at(64 * 5);
    let contracts = contracts
        .chunks(5)
        .map(|contract| [contract, &[0; 4]].concat());
    let contracts: Vec<u8> = contracts.flatten().collect();
    [header, &contracts, rows].concat()
}

/// The bytes of hexadecimal digits, two a byte.
fn bytes_of(hexadecimal: &str) -> Vec<u8> {
    (0..hexadecimal.len())
        .step_by(2)
        .map(|at| u8::from_str_radix(&hexadecimal[at..at + 2], 16).expect("two digits"))
        .collect()
}

/// A stored ledger in which the class or the QHS minimum changes inside a row of contract 3.
pub struct ChangedInside {
    pub description: &'static str,
    pub stored: Stored,
    /// The place of that row among the held rows.
    pub place: usize,
    /// The bill that the row is of.
    pub bill: BillNumbers,
    /// Its amount by the first day's class and minimum, which is the one stored.
    pub by_first_day: u32,
    /// Its amount by day.
    pub by_day: u32,
    /// Due with the amount by day in that row's place, and what of it is unclaimed.
    pub due: i64,
    pub unclaimed: i64,
}

pub const CHANGED_INSIDE: [ChangedInside; 5] = [
    ChangedInside {
        description: "ETII from day 496, in a bill of days 486 to 515",
        // Great Britain, one claim, 8,544 pence: floor(85,440,000 / 10,000), for by the first day's
        // class 17,800,000 + 67,640,000 were due.
        stored: Stored {
            header: "0000800000002160",
            // flexible, ETII from 496
            contracts: &[(3, "a000005f00")],
            rows: &[
                // 486 to 515, 1,000 kWh, R 31,980, S 67,030: 17,800,000 ticks
                "86f34060000fa0000000000000007cec105d600000043e6d00",
                // 516 to 546, the same as ETII: 67,640,000 ticks
                "87024440000fa0000000000000007cec105d60000010206b00",
            ],
        },
        place: 0,
        bill: BillNumbers {
            contract: 3,
            ..span(AT_31_980, 486, 515, 1_000)
        },
        // 1,000 kWh at 17,800
        by_first_day: 17_800_000,
        // floor(1,000 × 10 / 30) = 333 kWh at 17,800 and 667 at 67,640: 5,927,400 + 45,115,880
        by_day: 51_043_280,
        // 51,043,280 + 67,640,000
        due: 118_683_280,
        // less 85,440,000
        unclaimed: 33_243_280,
    },
    ChangedInside {
        description: "QHS from day 511, in a bill of days 501 to 520",
        stored: Stored {
            header: "0000000000000000",
            // flexible, QHS from 511
            contracts: &[(3, "a000009ff0")],
            rows: &[
                // 486 to 500, 10 kWh, R 40,000, S 50,000: 196,100 ticks
                "86f33e80000028000000000000009c400c35000000000bf810",
                // 501 to 520, 777 kWh, the same prices: 15,236,970 ticks
                "86fac100000c24000000000000009c400c3500000003a1fda8",
            ],
        },
        place: 1,
        bill: BillNumbers {
            contract: 3,
            ..span(AT_40_000, 501, 520, 777)
        },
        // 777 kWh at 19,610
        by_first_day: 15_236_970,
        // floor(777 × 10 / 20) = 388 kWh at 19,610 and 389 at 160,000: 7,608,680 + 62,240,000
        by_day: 69_848_680,
        // 196,100 + 69,848,680
        due: 70_044_780,
        unclaimed: 70_044_780,
    },
    ChangedInside {
        description: "day 792, in a QHS contract's bill of days 785 to 798",
        stored: Stored {
            header: "0000000000000000",
            // flexible, QHS from 511
            contracts: &[(3, "a000009ff0")],
            // 785 to 798, 1,001 kWh, R 40,000, S 50,000: 160,160,000 ticks
            rows: &["8788e3c0000fa4000000000000009c400c35000000262f6400"],
        },
        place: 0,
        bill: BillNumbers {
            contract: 3,
            ..span(AT_40_000, 785, 798, 1_001)
        },
        // 1,001 kWh at 160,000
        by_first_day: 160_160_000,
        // floor(1,001 × 7 / 14) = 500 kWh at 160,000 and 501 at 217,600: 80,000,000 + 109,017,600
        by_day: 189_017_600,
        due: 189_017_600,
        unclaimed: 189_017_600,
    },
    ChangedInside {
        description: "QHS from day 790 and day 792, in a bill of days 788 to 794",
        // Northern Ireland, one claim, 1,976 pence: floor(19,761,000 / 10,000), for by the first
        // day's class 17,800,000 + 1,961,000 were due.
        stored: Stored {
            header: "80008000000007b8",
            // index; and fixed with price-fix day 300, entered on 792, QHS from 790
            contracts: &[(2, "b000000000"), (3, "84b318b160")],
            rows: &[
                // contract 2, 486 to 515, 1,000 kWh, R 31,980, S 67,030: 17,800,000 ticks
                "84f34060000fa0000000000000007cec105d600000043e6d00",
                // contract 3, 788 to 794, 100 kWh, R 40,000, S 50,000: 1,961,000 ticks
                "878a6340000190000000000000009c400c350000000077b0a0",
            ],
        },
        place: 1,
        bill: BillNumbers {
            contract: 3,
            wap: 0,
            ..span(AT_40_000, 788, 794, 100)
        },
        // 100 kWh at 19,610
        by_first_day: 1_961_000,
        // floor(100 × 2 / 7) = 28 kWh at 19,610, floor(100 × 4 / 7) - 28 = 29 at 160,000 and 43 at
        // 217,600: 549,080 + 4,640,000 + 9,356,800
        by_day: 14_545_880,
        // 17,800,000 + 14,545,880
        due: 32_345_880,
        // less 19,760,000
        unclaimed: 12_585_880,
    },
    ChangedInside {
        description: "day 792, in a bill of days 791 to 794 with a QHS share",
        stored: Stored {
            header: "0000000000000000",
            // flexible, without a certificate
            contracts: &[(3, "a000000000")],
            rows: &[
                // 486, 1,000 kWh with 400 ETII and 350 QHS, R 31,980, S 67,030:
                // 250 × 17,800 + 400 × 67,640 + 350 × 319,800 = 143,436,000 ticks
                "86f33cc0000fa00000c8000015e07cec105d6000002232a380",
                // 791 to 794, 10 kWh with 4 QHS, R 40,000, S 50,000: 757,660 ticks
                "878be340000028000000000000409c400c35000000002e3e70",
                // 795, 1 kWh that is QHS, the same prices: 217,600 ticks
                "878de360000004000000000000109c400c35000000000d4800",
            ],
        },
        place: 1,
        bill: BillNumbers {
            contract: 3,
            qhs_share: 4,
            ..span(AT_40_000, 791, 794, 10)
        },
        // 6 kWh at 19,610 and 4 at 160,000: 117,660 + 640,000
        by_first_day: 757_660,
        // 6 kWh at 19,610, floor(4 × 1 / 4) = 1 at 160,000 and 3 at 217,600:
        // 117,660 + 160,000 + 652,800
        by_day: 930_460,
        // 143,436,000 + 930,460 + 217,600
        due: 144_584_060,
        unclaimed: 144_584_060,
    },
];

/// Bills with and without certificates and shares, in none of which the class or the QHS minimum
/// changes inside. Northern Ireland, one claim, 3,560 pence.
pub const WITHOUT_CHANGES: Stored = Stored {
    header: "8000800000000de8",
    contracts: &[
        // flexible, ETII from 516
        (0, "a000006040"),
        // fixed with price-fix day 300, entered on 791, QHS from 511
        (1, "84b3179ff0"),
        // flexible, gas
        (2, "e000000000"),
        // index
        (63, "b000000000"),
    ],
    rows: &[
        // contract 0, 486 to 515, 1,000 kWh, R 31,980, S 67,030
        "80f34060000fa0000000000000007cec105d600000043e6d00",
        // 516 to 546, the same
        "81024440000fa0000000000000007cec105d60000010206b00",
        // 782 to 811, 1,000 kWh with 300 ETII, R 40,000, S 50,000
        "81876560000fa0000096000000009c400c3500000008264c30",
        // contract 1, 486 to 510, 10 kWh, R 40,000, S 50,000
        "82f33fc0000028000000000000009c400c35000000000bf810",
        // 782 to 811, 1,000 kWh, the same prices
        "83876560000fa0000000000000009c400c350000002625a000",
        // contract 2, 777 to 791, 10 kWh with 3 ETII and 2 QHS, R 20,000, S 20,000
        "8584e2e0000028000001800000204e2004e200000000167e2c",
        // 792 to 851, the same
        "858c6a60000028000001800000204e2004e200000000181dcc",
        // contract 63, 792 to 820, 1,000 kWh, R 31,980, S 67,030
        "ff8c6680000fa0000000000000007cec105d600000043e6d00",
    ],
};

/// Bills in which the class or the QHS minimum changes inside, but not the amount. Great Britain,
/// without a claim.
pub const SAME_AMOUNTS: Stored = Stored {
    header: "0000000000000000",
    contracts: &[
        // flexible, QHS from 700
        (0, "a00000abc0"),
        // flexible, ETII from 496
        (1, "a000005f00"),
    ],
    rows: &[
        // contract 0, 690 to 719, 1,000 kWh, R 40,000, S 35,961
        "815959e0000fa0000000000000009c4008c790000004ace640",
        // 782 to 811, 1,000 kWh, R 31,980, S 67,030
        "81876560000fa0000000000000007cec105d6000004c3f0b00",
        // contract 1, 486 to 515, 0 kWh, R 31,980, S 67,030
        "82f34060000000000000000000007cec105d60000000000000",
        // 782 to 811, 1,000 kWh with 400 QHS, the same prices
        "83876560000fa0000000000019007cec105d600000210b7900",
    ],
};

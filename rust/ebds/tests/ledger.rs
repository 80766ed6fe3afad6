//! Typed calls on a ledger: the run of document 01 (section "The program and one run"), and
//! ledgers of each territory, fuel, kind and certificate.

use ebds::{
    BillNumbers, Billed, Cancelled, Certificate, Certified, Claimed, Fuel, Kind, Ledger, Rebilled,
    Refusal, Reported, Territory, Totalled, BOOK_LENGTH, LEDGER_LENGTH,
};

/// The day number of 1 April 2023.
const APRIL: u32 = 486;

const UNPUBLISHED: [u32; BOOK_LENGTH] = [0; BOOK_LENGTH];

/// A bill for April 2023.
fn april(contract: u32, kwh: u32, wap: u32) -> BillNumbers {
    BillNumbers {
        contract,
        first: APRIL,
        last: 515,
        kwh,
        supply: 67_030,
        wap,
        etii_share: 0,
        qhs_share: 0,
    }
}

/// A ledger of one electricity contract.
fn ledger_with(kind: Kind) -> Result<Ledger, Refusal> {
    let mut ledger = Ledger::start(Territory::NorthernIreland)?;
    ledger.open(0, Fuel::Electricity, kind)?;
    Ok(ledger)
}

#[test]
fn the_run() -> Result<(), Refusal> {
    let mut ledger = Ledger::start(Territory::GreatBritain)?;
    ledger.open(0, Fuel::Electricity, Kind::Flexible)?;
    let billed = Billed {
        reference: 31_980,
        rate: 17_800,
        amount: 17_800_000,
    };
    assert_eq!(ledger.bill(&UNPUBLISHED, april(0, 1_000, 31_980))?, billed);
    assert_eq!(ledger.claim()?, claimed(1_780, 0));
    let certified = Certified {
        change: 49_840_000,
        rows: 1,
    };
    let etii = Certificate::Etii {
        effective_day: APRIL,
    };
    assert_eq!(ledger.cert(0, etii)?, certified);
    assert_eq!(ledger.claim()?, claimed(4_984, 0));
    let rebilled = Rebilled {
        reference: 31_980,
        rate: 67_640,
        change: -6_696_360,
    };
    assert_eq!(
        ledger.rebill(&UNPUBLISHED, april(0, 901, 31_980))?,
        rebilled
    );
    assert_eq!(ledger.claim()?, claimed(-670, 3_640));
    let cancelled = Cancelled {
        change: -60_943_640,
    };
    assert_eq!(ledger.cancel(0, APRIL)?, cancelled);
    let totalled = Totalled {
        due: 0,
        unclaimed: -60_940_000,
    };
    assert_eq!(ledger.total()?, totalled);
    let refused = ledger.bill(&UNPUBLISHED, april(64, 1, 1));
    assert_eq!(refused, Err(Refusal::NoSuchContract));
    Ok(())
}

fn claimed(pence: i64, rest: i64) -> Claimed {
    Claimed { pence, rest }
}

/// Each kind takes R from its own entry of the book.
#[test]
fn each_kind_has_its_price() -> Result<(), Refusal> {
    let fixed = Kind::Fixed {
        price_fix_day: 3,
        entry_day: 4,
    };
    for (kind, entry) in [(fixed, 3), (Kind::Variable, 1_704), (Kind::Index, 1_728)] {
        let mut book = UNPUBLISHED;
        let mut ledger = ledger_with(kind)?;
        let refused = ledger.bill(&book, april(0, 1, 0));
        assert_eq!(refused, Err(Refusal::NoPrice));
        book[entry] = 30_201;
        let billed = ledger.bill(&book, april(0, 1, 0))?;
        assert_eq!((billed.reference, billed.rate), (30_201, 10));
    }
    Ok(())
}

/// The rates of one bill under each certificate, and how many rows each changes.
#[test]
fn each_certificate_has_its_rate() -> Result<(), Refusal> {
    let mut ledger = ledger_with(Kind::Flexible)?;
    let bill = BillNumbers {
        first: 792,
        last: 792,
        supply: 50_000,
        ..april(0, 1, 40_000)
    };
    ledger.bill(&UNPUBLISHED, bill)?;
    let qhs = Certificate::Qhs { effective_day: 792 };
    let later = Certificate::Qhs { effective_day: 793 };
    for (certificate, due, rows) in [
        (Certificate::None, 19_610, 0),
        (Certificate::Etii { effective_day: 792 }, 68_183, 1),
        (qhs, 217_600, 1),
        (later, 19_610, 1),
    ] {
        assert_eq!(ledger.cert(0, certificate)?.rows, rows);
        let reported = Reported {
            rows: 1,
            kwh: 1,
            due,
        };
        assert_eq!(ledger.report(0)?, reported);
    }
    Ok(())
}

#[test]
fn the_territory_is_kept() -> Result<(), Refusal> {
    let mut ledger = Ledger::start(Territory::GreatBritain)?;
    let refused = ledger.open(0, Fuel::Electricity, Kind::Index);
    assert_eq!(refused, Err(Refusal::WrongCode));
    let mut ledger = Ledger::start(Territory::NorthernIreland)?;
    let refused = ledger.open(0, Fuel::Gas, Kind::Index);
    assert_eq!(refused, Err(Refusal::WrongCode));
    ledger.open(0, Fuel::Electricity, Kind::Index)
}

#[test]
fn a_ledger_comes_back_from_its_bytes() -> Result<(), Refusal> {
    let mut ledger = ledger_with(Kind::Flexible)?;
    ledger.bill(&UNPUBLISHED, april(0, 1_000, 31_980))?;
    let bytes = ledger.as_bytes();
    assert_eq!(bytes.len(), LEDGER_LENGTH);
    assert_eq!(Ledger::from_bytes(bytes)?, ledger);
    let short = Ledger::from_bytes(&bytes[1..]);
    assert_eq!(short, Err(Refusal::NotWellFormed));
    Ok(())
}

#[test]
fn a_refusal_says_its_number_and_words() {
    for (refusal, number, text) in [
        (
            Refusal::WrongQuantity,
            8,
            "refused 8: kWh is above 40,000,000, S or WAP above 999,999, or a WAP not 0 where it must be",
        ),
        (
            Refusal::NoRoom,
            12,
            "refused 12: 1,024 rows are held already",
        ),
        (
            Refusal::SharesExceedKwh,
            14,
            "refused 14: the two shares exceed kWh",
        ),
    ] {
        assert_eq!(refusal.number(), number);
        assert_eq!(refusal.to_string(), text);
    }
}

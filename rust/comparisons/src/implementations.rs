//! What is held to the calculator call by call: the C library through its Rust wrapper, and
//! the twin.

use calculator::calls::{BillNumbers, Call};
use ebds::calls as library;
use ebds::Refusal;

/// Three numbers in the paper's order, unused ones 0; or the refusal's number.
pub type Answer = Result<[i64; 3], u32>;

/// An implementation of the calls.
pub struct Implementation {
    pub name: &'static str,
    pub call: fn(&mut [u8], &[u32], &Call) -> Answer,
    pub day: fn(u32, u32, u32) -> Answer,
    pub date: fn(u32) -> Answer,
}

/// The implementations compared.
pub const IMPLEMENTATIONS: [Implementation; 2] = [
    Implementation {
        name: "library",
        call: library_call,
        day: |year, month, day| library::day(year, month, day).map_err(number),
        date: |day_number| library::date(day_number).map_err(number),
    },
    Implementation {
        name: "twin",
        call: twin_call,
        day: twin::day,
        date: twin::date,
    },
];

/// Answers a call by the functions of a module, which has one for each call.
macro_rules! answer {
    ($functions:ident, $bill_numbers:path, $ledger:ident, $book:ident, $call:ident) => {
        match *$call {
            Call::Start { territory } => $functions::start($ledger, territory),
            Call::Open {
                contract,
                fuel,
                kind,
                price_fix_day,
                entry_day,
            } => $functions::open($ledger, contract, fuel, kind, price_fix_day, entry_day),
            Call::Bill(numbers) => $functions::bill($ledger, $book, $bill_numbers(numbers)),
            Call::Rebill(numbers) => $functions::rebill($ledger, $book, $bill_numbers(numbers)),
            Call::Cert {
                contract,
                class,
                effective_day,
            } => $functions::cert($ledger, contract, class, effective_day),
            Call::Cancel { contract, first } => $functions::cancel($ledger, contract, first),
            Call::Claim => $functions::claim($ledger),
            Call::Report { contract } => $functions::report($ledger, contract),
            Call::Total => $functions::total($ledger),
            Call::Amend {
                contract,
                original_end_day,
                price_fix_day,
                entry_day,
            } => $functions::amend(
                $ledger,
                contract,
                original_end_day,
                price_fix_day,
                entry_day,
            ),
        }
    };
}

fn library_call(ledger: &mut [u8], book: &[u32], call: &Call) -> Answer {
    answer!(library, library_numbers, ledger, book, call).map_err(number)
}

fn twin_call(ledger: &mut [u8], book: &[u32], call: &Call) -> Answer {
    answer!(twin, twin_numbers, ledger, book, call)
}

fn number(refusal: Refusal) -> u32 {
    refusal.number()
}

fn library_numbers(numbers: BillNumbers) -> ebds::BillNumbers {
    ebds::BillNumbers {
        contract: numbers.contract,
        first: numbers.first,
        last: numbers.last,
        kwh: numbers.kwh,
        supply: numbers.supply,
        wap: numbers.wap,
        etii_share: numbers.etii_share,
        qhs_share: numbers.qhs_share,
    }
}

fn twin_numbers(numbers: BillNumbers) -> twin::BillNumbers {
    twin::BillNumbers {
        contract: numbers.contract,
        first: numbers.first,
        last: numbers.last,
        kwh: numbers.kwh,
        supply: numbers.supply,
        wap: numbers.wap,
        etii_share: numbers.etii_share,
        qhs_share: numbers.qhs_share,
    }
}

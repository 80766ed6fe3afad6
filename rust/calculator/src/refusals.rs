//! The refusals' numbers (document 01, section "Turned down, in checking order"; numbers 14 to
//! 18 are document 02's, papers 1, 2 and 5).

/// The program's line can't be read.
pub const UNREADABLE_LINE: u32 = 1;
/// The ledger isn't well formed; for start: isn't 26,184 bytes.
pub const LEDGER_NOT_WELL_FORMED: u32 = 2;
/// The book of a bill or rebill isn't 1,740 entries or has one above 999,999.
pub const WRONG_BOOK: u32 = 3;
/// The contract number is above 63.
pub const CONTRACT_NUMBER_TOO_HIGH: u32 = 4;
/// The contract is open already (open), or isn't open (every other call naming one).
pub const CONTRACT_OPEN_ALREADY_OR_NOT_OPEN: u32 = 5;
/// A territory, fuel, kind or class code has no meaning, or kind 3 is given outside its
/// place.
pub const CODE_WITHOUT_MEANING: u32 = 6;
/// A day is wrong.
pub const WRONG_DAY: u32 = 7;
/// kWh, S, WAP or a book entry is out of its range.
pub const NUMBER_OUT_OF_RANGE: u32 = 8;
/// No row of that contract has that first day.
pub const NO_SUCH_ROW: u32 = 9;
/// Another row of the contract shares a day with the span.
pub const DAY_SHARED: u32 = 10;
/// The book's price needed is 0.
pub const PRICE_NOT_PUBLISHED: u32 = 11;
/// 1,024 rows are held already.
pub const ROWS_FULL: u32 = 12;
/// 1,000 claims were made already.
pub const CLAIMS_USED_UP: u32 = 13;
/// The two shares exceed kWh; tested after number 8.
pub const SHARES_EXCEED_KWH: u32 = 14;
/// A variable or index span touches two months; tested after number 7.
pub const SPAN_TOUCHES_TWO_MONTHS: u32 = 15;
/// The contract isn't fixed or is amended already; tested after number 5.
pub const CONTRACT_NOT_FIXED_OR_AMENDED_ALREADY: u32 = 16;
/// The span of a bill or rebill starts on or before the original end and ends after it; tested
/// after number 15.
pub const SPAN_CROSSES_ORIGINAL_END: u32 = 17;
/// A standing row ends after the original end given to an amendment; tested after number 17.
pub const ROW_ENDS_AFTER_ORIGINAL_END: u32 = 18;

/// The highest refusal number.
pub const LAST_REFUSAL: u32 = ROW_ENDS_AFTER_ORIGINAL_END;

/// Refuses by the number where the condition holds.
pub(crate) fn refuse_if(condition: bool, number: u32) -> Result<(), u32> {
    if condition {
        Err(number)
    } else {
        Ok(())
    }
}

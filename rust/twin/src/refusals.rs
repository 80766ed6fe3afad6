//! The numbers of document 01's section "Turned down, in checking order", with those of
//! document 02's papers 1, 2 and 5; they stand in checking order.

/// The ledger isn't well formed.
pub const NOT_WELL_FORMED: u32 = 2;
/// The book of a bill or rebill isn't 1,740 entries or has one above 999,999.
pub const BAD_BOOK: u32 = 3;
/// The contract number is above 63.
pub const NO_SUCH_CONTRACT: u32 = 4;
/// The contract is open already, or isn't open.
pub const WRONGLY_OPEN: u32 = 5;
/// The contract isn't fixed or is amended already.
pub const NOT_AMENDABLE: u32 = 16;
/// A territory, fuel, kind or class code has no meaning, or kind 3 is given outside its place.
pub const WRONG_CODE: u32 = 6;
/// A day is wrong.
pub const WRONG_DAY: u32 = 7;
/// A variable or index span touches two months.
pub const TWO_MONTHS: u32 = 15;
/// A span begins on or before the original end of an amended contract and ends after it.
pub const CROSSES_ORIGINAL_END: u32 = 17;
/// A row of the contract ends after the original end given to an amendment.
pub const ROW_AFTER_ORIGINAL_END: u32 = 18;
/// kWh, S or WAP is out of its range.
pub const WRONG_QUANTITY: u32 = 8;
/// The two shares exceed kWh.
pub const SHARES_EXCEED_KWH: u32 = 14;
/// No row of that contract has that first day.
pub const NO_SUCH_ROW: u32 = 9;
/// Another row of the contract shares a day with the span.
pub const SHARED_DAY: u32 = 10;
/// The book's price needed is 0.
pub const NO_PRICE: u32 = 11;
/// 1,024 rows are held already.
pub const NO_ROOM: u32 = 12;
/// 1,000 claims were made already.
pub const NO_CLAIM_LEFT: u32 = 13;

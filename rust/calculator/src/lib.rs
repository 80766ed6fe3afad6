//! Calculator of the Energy Bills Discount Scheme, written from the supplier guidance.
//!
//! `rates` and `dates` follow the guidance. `postings` is the old posting module, which
//! answers the calls from signed postings; `packed` holds its facts in the packed
//! ledger's bytes, and `session` is the program's text around it.
//!
//! "The guidance" is the Department for Energy Security and Net Zero's *Energy Bills
//! Discount Scheme: Guidance for Licensed Energy Suppliers (Great Britain and Northern
//! Ireland)*, version 1.1, last updated 22 September 2023. "Document 01" is the product's
//! scope, which gives the units, the day numbers and the house rules; "document 02" has the
//! changes to it, of which papers 1 to 6 are in force. Where the guidance's prose and the
//! formula that it quotes from Regulation 29 differ, the formula decides.

mod bits;
pub mod book;
pub mod calls;
pub mod codes;
pub mod dates;
pub mod facts;
pub mod layout;
pub mod packed;
pub mod postings;
pub mod rates;
pub mod refusals;
pub mod session;
mod well_formed;

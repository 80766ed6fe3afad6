/*
 * The calls of the discount ledger of the Energy Bills Discount Scheme, for C and C++.
 *
 * The calls, their numbers, answers and refusals are those of document 01, "The discount ledger of
 * the Energy Bills Discount Scheme", with papers 1 to 6 of document 02, "Later changes to the
 * base". The library is target/staticlib/libebds_c.a, which the script `./build-library` proves and
 * builds. It keeps nothing between calls and allocates nothing.
 *
 * What every call gives back
 *   The returned number is 0 where the call is accepted, or else the number that turns it down, the
 *   first that fits in checking order (below). `answer` points to three numbers, which every call
 *   writes: the call's numbers in the order stated with it, unused ones 0, and all 0 where the call
 *   is turned down. A call that is turned down changes no byte of the ledger.
 *
 * The ledger
 *   A packed ledger is EBDS_LEDGER_LENGTH bytes. A call takes bytes of any length and any contents
 *   and gives 2 where they aren't a well-formed ledger. It may be copied, stored and sent as bytes.
 *   A ledger of an earlier layout has another length and gives 2. A ledger may hold rows that no
 *   call makes: of variable and index contracts across two months or more, and of 40,000,001 to
 *   100,000,000 kWh. They stand with the price and the kWh that they hold, and are re-rated,
 *   reported, claimed and cancelled like others; billed again, their span and kWh must be such as a
 *   bill may give.
 *
 * The price book
 *   EBDS_BOOK_LENGTH prices in mils (thousandths of a penny per kWh), 0 meaning not published. Fixed
 *   contracts: entry fuel * 852 + price-fix day. Variable: 1,704 + fuel * 12 + scheme month. Index:
 *   1,728 + scheme month. Scheme month 0 is April 2023.
 *
 * Pointers
 *   No pointer may be null, even where its length is 0. Each is aligned for its type and points to
 *   as many items as its length says, `answer` to three. What one call's pointers point to mustn't
 *   overlap, and nobody else may write to it during the call. Two threads may call at once where
 *   neither writes what the other uses.
 *
 * Refusals, in checking order; a call skips a test of what it doesn't take
 *    2  the ledger isn't well formed (ebds_start: isn't EBDS_LEDGER_LENGTH bytes)
 *    3  the book isn't EBDS_BOOK_LENGTH entries or has one above 999,999
 *    4  the contract number is above 63
 *    5  the contract is open already (ebds_open), or isn't open (every other call that names one)
 *   16  the contract isn't fixed or is amended already (ebds_amend)
 *    6  a territory, fuel, kind or class code has no meaning, or kind 3 is given outside its place
 *    7  a day is wrong
 *   15  a variable or index span touches two scheme months (ebds_bill, ebds_rebill)
 *   17  the span starts on or before the original end of an amended contract and ends after it
 *       (ebds_bill, ebds_rebill)
 *   18  a row of the contract ends after the original end given (ebds_amend)
 *    8  kWh is above 40,000,000, S or WAP above 999,999, or a WAP isn't 0 where it must be
 *       (ebds_bill, ebds_rebill)
 *   14  the two shares exceed kWh (ebds_bill, ebds_rebill)
 *    9  no row of that contract has that first day (ebds_rebill, ebds_cancel)
 *   10  another row of the contract shares a day with the span (ebds_bill, ebds_rebill)
 *   11  the book's price needed is 0
 *   12  1,024 rows are held already (ebds_bill)
 *   13  1,000 claims were made already (ebds_claim)
 *   Number 1 of document 01 is the program's alone.
 *
 * Codes
 *   Territory: 0 Great Britain, 1 Northern Ireland. Fuel: 0 electricity, 1 gas. Kind: 0 fixed,
 *   1 variable, 2 flexible, 3 day-ahead index (electricity in a Northern Ireland ledger only).
 *   Certificate class: 0 none, 1 ETII, 2 QHS.
 *
 * Days and amounts
 *   Days are day numbers: 0 is 1 December 2021, 486 is 1 April 2023, 851 is 31 March 2024. R is the
 *   reference wholesale price, S the supply price (`supply`), WAP the weighted price (`wap`), all in
 *   mils. Rates and amounts are in ticks, ten-thousandths of a penny. A row is a bill that stands;
 *   due is the sum of the amounts of the rows.
 *
 * Rating by day
 *   A bill of n days has floor(kWh * j / n) kWh in its first j days. Each day's kWh are rated as in a
 *   bill that starts on that day, at the bill's one R: by the certificate from its effective day on,
 *   and for QHS with the new minimum from day 792 on, unless the contract is fixed and was entered
 *   before. The amount is the sum over the days. The rate answered is that of the first day; it may
 *   be 0 where the amount isn't.
 *
 * Shares
 *   Where a landlord's meter serves ETII and QHS tenants beside others, a bill says how many of its
 *   kWh are in the ETII share (`etii_share`) and in the QHS share (`qhs_share`). If either isn't 0,
 *   each share is rated by its class and the rest of the kWh as baseline, whatever the contract's
 *   certificate says, each spread over the days by itself; the amount is the sum over the three, and
 *   the rate answered is the baseline one. If both are 0, the certificate applies.
 *
 * Amendments
 *   A fixed contract that is repriced or extended before the end of its original term has an
 *   amendment: the original end day, a price-fix day and an entry day. Bills that start on or before
 *   the original end take the contract's original price-fix and entry days, later ones the
 *   amendment's, for R and for the QHS minimum; so do the rows that a certificate re-rates. The
 *   supply price is as billed.
 */
#ifndef EBDS_H
#define EBDS_H

#include <stddef.h>
#include <stdint.h>

/* The length of a packed ledger in bytes. */
#define EBDS_LEDGER_LENGTH 26184

/* How many prices a book has. */
#define EBDS_BOOK_LENGTH 1740

#ifdef __cplusplus
extern "C" {
#endif

/* start: a fresh ledger over bytes of any contents. Answers no numbers. */
uint32_t ebds_start(uint8_t *ledger, size_t ledger_length, uint32_t territory, int64_t *answer);

/*
 * open: an unamended contract without a certificate. The price-fix day and the day of entry are 0 to
 * 851 for a fixed contract, and 0 for any other. Answers no numbers.
 */
uint32_t ebds_open(uint8_t *ledger, size_t ledger_length, uint32_t contract, uint32_t fuel,
                   uint32_t kind, uint32_t price_fix_day, uint32_t entry_day, int64_t *answer);

/*
 * bill: adds a row, from the first to the last day, with 486 <= first <= last <= 851, both in one
 * scheme month where the contract is variable or index, and on one side of the original end where it
 * is amended. The WAP is R of a flexible contract, and 0 for any other, whose R is the book's.
 * Answers R, rate, amount.
 */
uint32_t ebds_bill(uint8_t *ledger, size_t ledger_length, const uint32_t *book, size_t book_length,
                   uint32_t contract, uint32_t first, uint32_t last, uint32_t kwh, uint32_t supply,
                   uint32_t wap, uint32_t etii_share, uint32_t qhs_share, int64_t *answer);

/*
 * rebill: puts a row in place of the one with that contract and first day, with the numbers given,
 * which are those of bill; R is looked up anew. Answers R, rate, the new amount minus the old.
 */
uint32_t ebds_rebill(uint8_t *ledger, size_t ledger_length, const uint32_t *book,
                     size_t book_length, uint32_t contract, uint32_t first, uint32_t last,
                     uint32_t kwh, uint32_t supply, uint32_t wap, uint32_t etii_share,
                     uint32_t qhs_share, int64_t *answer);

/*
 * cert: replaces the contract's certificate and re-rates its rows, by day; a row with a share that
 * isn't 0 keeps its amount. The effective day is 486 to 851, 511 to 851 for QHS, and 0 for class 0,
 * which takes the certificate away. Answers the net change of due and the count of rows whose amount
 * changed.
 */
uint32_t ebds_cert(uint8_t *ledger, size_t ledger_length, uint32_t contract,
                   uint32_t certificate_class, uint32_t effective_day, int64_t *answer);

/* cancel: removes the row with that contract and first day. Answers minus its amount. */
uint32_t ebds_cancel(uint8_t *ledger, size_t ledger_length, uint32_t contract, uint32_t first,
                     int64_t *answer);

/*
 * claim: claims due in whole pence. Answers floor(due / 10,000) minus the pence claimed before,
 * perhaps negative, and due modulo 10,000.
 */
uint32_t ebds_claim(uint8_t *ledger, size_t ledger_length, int64_t *answer);

/* report: answers rows, kWh and due of the contract. It changes no byte. */
uint32_t ebds_report(const uint8_t *ledger, size_t ledger_length, uint32_t contract,
                     int64_t *answer);

/*
 * total: answers due, and the unclaimed amount: due minus 10,000 times the pence claimed. It changes
 * no byte.
 */
uint32_t ebds_total(const uint8_t *ledger, size_t ledger_length, int64_t *answer);

/*
 * amend: gives a fixed contract its amendment, one at most. The original end day is 486 to 851, and
 * no row of the contract ends after it; the amendment's price-fix and entry days are 0 to 851. It
 * alters no row, and a certificate that comes later keeps it. Answers no numbers.
 */
uint32_t ebds_amend(uint8_t *ledger, size_t ledger_length, uint32_t contract,
                    uint32_t original_end_day, uint32_t price_fix_day, uint32_t entry_day,
                    int64_t *answer);

/* day: answers the day number of a date, or gives 7 for one that isn't in the table. */
uint32_t ebds_day(uint32_t year, uint32_t month, uint32_t day, int64_t *answer);

/* date: answers year, month and day of a day number, or gives 7 for one above 851. */
uint32_t ebds_date(uint32_t day_number, int64_t *answer);

#ifdef __cplusplus
}
#endif

#endif

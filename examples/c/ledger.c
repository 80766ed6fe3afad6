/*
 * A ledger from C: a flexible electricity contract is opened, billed and claimed for; then an ETII
 * certificate comes late, and the next claim takes the difference. A bill with an ETII and a QHS
 * share follows, to which the certificate doesn't apply. At last a fixed contract is amended, and
 * billed on either side of its original end. It prints ledger.out. From the repository's root:
 *
 *   ./build-library && gcc -std=c11 -Wall -Wextra -O2 -I include examples/c/ledger.c \
 *       target/staticlib/libebds_c.a -o target/ledger_example && target/ledger_example
 */
#include <inttypes.h>
#include <stdio.h>

#include "ebds.h"

/* The codes of document 01 that are used here. */
enum { GREAT_BRITAIN = 0, ELECTRICITY = 0, FIXED = 0, FLEXIBLE = 2, ETII = 1 };

/* The contracts' numbers. */
enum { FLEXIBLE_CONTRACT = 0, FIXED_CONTRACT = 1 };

/* The fixed contract's original price-fix day and the amendment's. Each is entered a day later. */
enum { ORIGINAL_PRICE_FIX = 300, AMENDED_PRICE_FIX = 400 };

static uint8_t ledger[EBDS_LEDGER_LENGTH];

/* The prices of the two price-fix days. A flexible contract's bills bring their own weighted price. */
static const uint32_t book[EBDS_BOOK_LENGTH] = {
    [ORIGINAL_PRICE_FIX] = 45000,
    [AMENDED_PRICE_FIX] = 31200,
};

/* Prints what a call gave back. */
static void print(const char *call, uint32_t refusal, const int64_t answer[3])
{
    if (refusal != 0) {
        printf("%s: refused %" PRIu32 "\n", call, refusal);
        return;
    }
    printf("%s: %" PRId64 " %" PRId64 " %" PRId64 "\n", call, answer[0], answer[1], answer[2]);
}

/* The day number of a date. */
static uint32_t day_number(uint32_t year, uint32_t month, uint32_t day)
{
    int64_t answer[3];
    uint32_t refusal = ebds_day(year, month, day, answer);

    print("day", refusal, answer);
    return (uint32_t)answer[0];
}

/*
 * Bills 1,000 kWh from the first to the last day, at a supply price of 67.03p and that WAP, with so
 * many of the kWh in the ETII share and in the QHS share.
 */
static void bill(uint32_t contract, uint32_t first, uint32_t last, uint32_t wap,
                 uint32_t etii_share, uint32_t qhs_share)
{
    int64_t answer[3];
    uint32_t refusal = ebds_bill(ledger, sizeof ledger, book, EBDS_BOOK_LENGTH, contract, first,
                                 last, 1000, 67030, wap, etii_share, qhs_share, answer);

    print("bill", refusal, answer);
}

/* Bills the flexible contract at a WAP of 31.98p. */
static void bill_flexible(uint32_t first, uint32_t last, uint32_t etii_share, uint32_t qhs_share)
{
    bill(FLEXIBLE_CONTRACT, first, last, 31980, etii_share, qhs_share);
}

/* Bills the fixed contract. */
static void bill_fixed(uint32_t first, uint32_t last)
{
    bill(FIXED_CONTRACT, first, last, 0, 0, 0);
}

/* Opens the fixed contract, and amends it with that original end. */
static void open_amended(uint32_t original_end)
{
    int64_t answer[3];
    uint32_t refusal = ebds_open(ledger, sizeof ledger, FIXED_CONTRACT, ELECTRICITY, FIXED,
                                 ORIGINAL_PRICE_FIX, ORIGINAL_PRICE_FIX + 1, answer);

    print("open", refusal, answer);
    refusal = ebds_amend(ledger, sizeof ledger, FIXED_CONTRACT, original_end, AMENDED_PRICE_FIX,
                         AMENDED_PRICE_FIX + 1, answer);
    print("amend", refusal, answer);
}

/* Claims what is due. */
static void claim(void)
{
    int64_t answer[3];
    uint32_t refusal = ebds_claim(ledger, sizeof ledger, answer);

    print("claim", refusal, answer);
}

int main(void)
{
    int64_t answer[3];
    uint32_t refusal;
    uint32_t april = day_number(2023, 4, 1);
    uint32_t april_end = day_number(2023, 4, 30);
    uint32_t may = day_number(2023, 5, 1);
    uint32_t may_end = day_number(2023, 5, 31);

    refusal = ebds_start(ledger, sizeof ledger, GREAT_BRITAIN, answer);
    print("start", refusal, answer);
    refusal = ebds_open(ledger, sizeof ledger, FLEXIBLE_CONTRACT, ELECTRICITY, FLEXIBLE, 0, 0,
                        answer);
    print("open", refusal, answer);
    bill_flexible(april, april_end, 0, 0);
    claim();
    refusal = ebds_cert(ledger, sizeof ledger, FLEXIBLE_CONTRACT, ETII, april, answer);
    print("cert", refusal, answer);
    claim();
    bill_flexible(may, may_end, 400, 350);
    claim();
    refusal = ebds_report(ledger, sizeof ledger, FLEXIBLE_CONTRACT, answer);
    print("report", refusal, answer);
    /* The same days once more: number 10. */
    bill_flexible(may, may_end, 0, 0);
    open_amended(april_end);
    bill_fixed(april, april_end);
    bill_fixed(may, may_end);
    /* Across the original end: number 17. */
    bill_fixed(april, may_end);
    return 0;
}

/* Checks that count: what both test programs use. */
#ifndef CHECK_H
#define CHECK_H

#include <stdio.h>
#include <string.h>

#include "depository.h"

static int passed, failed;

/* Counts a check, and names it where it fails. */
static void check(int holds, const char *what, const char *which, uint64_t number) {
    if (holds) {
        passed++;
    } else {
        failed++;
        printf("failed: %s %s %llu\n", what, which, (unsigned long long)number);
    }
}

/* Prints what was counted. 0 where nothing failed. */
static int close_checks(void) {
    printf("%d passed, %d failed\n", passed, failed);
    return failed != 0 || passed == 0;
}

/* One call with an order of these fields; the answer. */
static uint64_t call(uint64_t *book, const uint64_t *fields, uint64_t *counts) {
    static uint8_t record[DEPOSITORY_RECORD_BYTES], area[DEPOSITORY_AREA_BYTES];
    uint64_t number = depository_write(fields, DEPOSITORY_FIELD_WORDS, record, sizeof record);
    if (number != 0) {
        return number;
    }
    return depository_call(book, DEPOSITORY_BOOK_WORDS, record, sizeof record, area, sizeof area, counts, DEPOSITORY_COUNT_WORDS);
}

/* A cycle at a minute, and its answer: 1 confirms it, 2 declines it. */
#define A_CYCLE(minute) {[DEPOSITORY_FORM] = 16, [DEPOSITORY_MINUTE] = (minute)}
#define AN_ANSWER(minute, quantity) {[DEPOSITORY_FORM] = 21, [DEPOSITORY_MINUTE] = (minute), [DEPOSITORY_QUANTITY] = (quantity)}

/* The largest rate that a record can set. */
#define WIDEST_RATE 1099511627775u

/* The last reference that a record can name. */
#define LAST_REFERENCE 4294967295u

/* The orders of a short day: all that the reading functions can tell of. */
static const uint64_t ORDERS[][DEPOSITORY_FIELD_WORDS] = {
    {[DEPOSITORY_FORM] = 1, [DEPOSITORY_MINUTE] = 470, [DEPOSITORY_QUANTITY] = 1},
    {[DEPOSITORY_FORM] = 2, [DEPOSITORY_MINUTE] = 480, [DEPOSITORY_SECURITY] = 101, [DEPOSITORY_QUANTITY] = 1000},
    {[DEPOSITORY_FORM] = 2, [DEPOSITORY_MINUTE] = 481, [DEPOSITORY_SECURITY] = 102, [DEPOSITORY_QUANTITY] = 7},
    {[DEPOSITORY_FORM] = 3, [DEPOSITORY_MINUTE] = 510, [DEPOSITORY_SECURITY] = 101, [DEPOSITORY_CREDITED_MEMBER] = 1,
     [DEPOSITORY_CREDITED_TYPE] = 10, [DEPOSITORY_CREDITED_SHAREHOLDER] = 77, [DEPOSITORY_QUANTITY] = 400},
    {[DEPOSITORY_FORM] = 10, [DEPOSITORY_MINUTE] = 511, [DEPOSITORY_CURRENCY] = 2, [DEPOSITORY_CREDITED_MEMBER] = 64,
     [DEPOSITORY_AMOUNT] = 900},
    {[DEPOSITORY_FORM] = 12, [DEPOSITORY_MINUTE] = 512, [DEPOSITORY_SECURITY] = 101, [DEPOSITORY_CURRENCY] = 1,
     [DEPOSITORY_DEBITED_MEMBER] = 1, [DEPOSITORY_DEBITED_TYPE] = 10, [DEPOSITORY_DEBITED_SHAREHOLDER] = 77,
     [DEPOSITORY_CREDITED_MEMBER] = 2, [DEPOSITORY_CREDITED_SHAREHOLDER] = 77, [DEPOSITORY_QUANTITY] = 30,
     [DEPOSITORY_AMOUNT] = 50, [DEPOSITORY_TRADE_DAY] = 1, [DEPOSITORY_SETTLEMENT_DAY] = 2, [DEPOSITORY_REFERENCE] = 11},
    {[DEPOSITORY_FORM] = 14, [DEPOSITORY_MINUTE] = 513, [DEPOSITORY_SECURITY] = 101, [DEPOSITORY_CURRENCY] = 2,
     [DEPOSITORY_DEBITED_MEMBER] = 1, [DEPOSITORY_DEBITED_TYPE] = 10, [DEPOSITORY_DEBITED_SHAREHOLDER] = 77,
     [DEPOSITORY_CREDITED_MEMBER] = 3, [DEPOSITORY_CREDITED_TYPE] = 20, [DEPOSITORY_CREDITED_SHAREHOLDER] = 78,
     [DEPOSITORY_QUANTITY] = 5, [DEPOSITORY_AMOUNT] = 6, [DEPOSITORY_TRADE_DAY] = 1, [DEPOSITORY_SETTLEMENT_DAY] = 4,
     [DEPOSITORY_REFERENCE] = 12},
    {[DEPOSITORY_FORM] = 13, [DEPOSITORY_MINUTE] = 514, [DEPOSITORY_SECURITY] = 101, [DEPOSITORY_CURRENCY] = 1,
     [DEPOSITORY_DEBITED_MEMBER] = 1, [DEPOSITORY_DEBITED_SHAREHOLDER] = 77, [DEPOSITORY_CREDITED_MEMBER] = 2,
     [DEPOSITORY_CREDITED_TYPE] = 20, [DEPOSITORY_CREDITED_SHAREHOLDER] = 77, [DEPOSITORY_QUANTITY] = 30,
     [DEPOSITORY_AMOUNT] = 50, [DEPOSITORY_TRADE_DAY] = 1, [DEPOSITORY_SETTLEMENT_DAY] = 2, [DEPOSITORY_REFERENCE] = 13},
    {[DEPOSITORY_FORM] = 15, [DEPOSITORY_MINUTE] = 515, [DEPOSITORY_DEBITED_MEMBER] = 2, [DEPOSITORY_REFERENCE] = 13},
    {[DEPOSITORY_FORM] = 13, [DEPOSITORY_MINUTE] = 516, [DEPOSITORY_SECURITY] = 102, [DEPOSITORY_CURRENCY] = 1,
     [DEPOSITORY_DEBITED_MEMBER] = 5, [DEPOSITORY_DEBITED_SHAREHOLDER] = 79, [DEPOSITORY_CREDITED_MEMBER] = 6,
     [DEPOSITORY_CREDITED_TYPE] = 110, [DEPOSITORY_CREDITED_SHAREHOLDER] = 79, [DEPOSITORY_QUANTITY] = 1,
     [DEPOSITORY_AMOUNT] = 2, [DEPOSITORY_TRADE_DAY] = 1, [DEPOSITORY_SETTLEMENT_DAY] = 21, [DEPOSITORY_REFERENCE] = 14},
    {[DEPOSITORY_FORM] = 18, [DEPOSITORY_MINUTE] = 517, [DEPOSITORY_QUANTITY] = WIDEST_RATE},
    {[DEPOSITORY_FORM] = 19, [DEPOSITORY_MINUTE] = 518, [DEPOSITORY_SECURITY] = 101, [DEPOSITORY_DEBITED_MEMBER] = 1,
     [DEPOSITORY_DEBITED_TYPE] = 10, [DEPOSITORY_DEBITED_SHAREHOLDER] = 77, [DEPOSITORY_QUANTITY] = 40, [DEPOSITORY_REFERENCE] = 11},
    {[DEPOSITORY_FORM] = 19, [DEPOSITORY_MINUTE] = 518, [DEPOSITORY_SECURITY] = 101, [DEPOSITORY_DEBITED_MEMBER] = 1,
     [DEPOSITORY_DEBITED_TYPE] = 10, [DEPOSITORY_DEBITED_SHAREHOLDER] = 77, [DEPOSITORY_QUANTITY] = 2,
     [DEPOSITORY_REFERENCE] = LAST_REFERENCE},
};

/* A book after these orders. Each of them is accepted. */
static void short_day(uint64_t *book) {
    uint64_t counts[DEPOSITORY_COUNT_WORDS];
    size_t n = sizeof ORDERS / sizeof ORDERS[0];
    check(depository_fresh(book, DEPOSITORY_BOOK_WORDS) == 0, "a fresh book", "", 0);
    for (size_t i = 0; i < n; i++) {
        uint64_t number = call(book, ORDERS[i], counts);
        check(number == 0, "an accepted order", "answers", number);
    }
}

#endif

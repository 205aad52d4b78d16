/* The C boundary of the depository ledger.
 *
 * The caller owns every buffer: book, record, area, counts, fields, values.
 * Each pointer is valid for the length that goes with it (one of length 0 may
 * be anything), and the buffers of one call do not overlap. No function keeps
 * a pointer, allocates, or reads or writes outside the lengths that it is
 * given, whatever these lengths are.
 *
 * A book is DEPOSITORY_BOOK_WORDS words. It comes only from depository_fresh
 * and depository_call, and nothing else writes it; a copy of its words is a
 * snapshot. That is the one thing that a function asks of its arguments: any
 * other value and any length is answered.
 *
 * Every function answers 0 where it did what it is for. Otherwise it answers
 * a number, and every buffer is as it was: a refusal, 1 to 24, or one of
 * enum depository_wrong. Lengths are looked at before everything else, in the
 * order of that enum.
 */
#ifndef DEPOSITORY_H
#define DEPOSITORY_H

#include <stddef.h>
#include <stdint.h>

#ifdef __cplusplus
extern "C" {
#endif

#define DEPOSITORY_BOOK_WORDS 1853u
#define DEPOSITORY_RECORD_BYTES 40u
#define DEPOSITORY_AREA_BYTES 4096u
#define DEPOSITORY_ROW_BYTES 16u
#define DEPOSITORY_FIELD_WORDS 18u
#define DEPOSITORY_COUNT_WORDS 6u
#define DEPOSITORY_DAY_WORDS 6u
#define DEPOSITORY_SIZE_WORDS 4u
#define DEPOSITORY_SECURITY_WORDS 4u
#define DEPOSITORY_ITEM_WORDS 18u
#define DEPOSITORY_REQUEST_WORDS 5u

/* What is answered for a buffer whose length is not the one that its function
 * names, and for a place behind the last. No refusal has such a number. */
enum depository_wrong {
    DEPOSITORY_WRONG_BOOK = 1001,
    DEPOSITORY_WRONG_COUNTS = 1002,
    DEPOSITORY_WRONG_FIELDS = 1003,
    DEPOSITORY_WRONG_VALUES = 1004,
    DEPOSITORY_NO_SUCH_PLACE = 1005
};

/* Places in the counts of an accepted call. Settled, cancelled, deleted and
 * suspended count sides (a single instruction is one, a pair or an exchange
 * trade two); left counts the trades that are due and that a cycle does not
 * fix, since they would not fit. What a cycle (form 16) sends is settled, with
 * its rows, by the answer that confirms it (form 21 with quantity 1; quantity
 * 2 declines it). */
enum depository_count {
    DEPOSITORY_ROWS = 0,
    DEPOSITORY_SETTLED = 1,
    DEPOSITORY_CANCELLED = 2,
    DEPOSITORY_DELETED = 3,
    DEPOSITORY_SUSPENDED = 4,
    DEPOSITORY_LEFT = 5
};

/* Places of a record's fields, in the record's order. */
enum depository_field {
    DEPOSITORY_FORM = 0,
    DEPOSITORY_MINUTE = 1,
    DEPOSITORY_SECURITY = 2,
    DEPOSITORY_CURRENCY = 3,
    DEPOSITORY_DEBITED_MEMBER = 4,
    DEPOSITORY_DEBITED_TYPE = 5,
    DEPOSITORY_CREDITED_MEMBER = 6,
    DEPOSITORY_CREDITED_TYPE = 7,
    DEPOSITORY_DEBITED_SHAREHOLDER = 8,
    DEPOSITORY_CREDITED_SHAREHOLDER = 9,
    DEPOSITORY_QUANTITY = 10,
    DEPOSITORY_AMOUNT = 11,
    DEPOSITORY_TRADE_DAY = 12,
    DEPOSITORY_SETTLEMENT_DAY = 13,
    DEPOSITORY_REFERENCE = 14,
    DEPOSITORY_OPERATION = 15,
    DEPOSITORY_ORIGINAL = 16,
    DEPOSITORY_EDITION = 17
};

/* Places in the values of depository_day; DEPOSITORY_DAY_OPEN is 1 or 0.
 * DEPOSITORY_DAY_SENT is 1 between a cycle and its answer, also where the
 * cycle has fixed no item, else 0. */
enum depository_day_value {
    DEPOSITORY_DAY_NUMBER = 0,
    DEPOSITORY_DAY_OPEN = 1,
    DEPOSITORY_DAY_KIND = 2,
    DEPOSITORY_DAY_CYCLES = 3,
    DEPOSITORY_DAY_MINUTE = 4,
    DEPOSITORY_DAY_SENT = 5
};

/* Places in the values of depository_sizes. */
enum depository_size_value {
    DEPOSITORY_SECURITIES = 0,
    DEPOSITORY_ACCOUNTS = 1,
    DEPOSITORY_ITEMS = 2,
    DEPOSITORY_REQUESTS = 3
};

/* Places in the values of depository_security. */
enum depository_security_value {
    DEPOSITORY_SECURITY_CODE = 0,
    DEPOSITORY_SECURITY_ISSUED = 1,
    DEPOSITORY_SECURITY_HELD = 2,
    DEPOSITORY_SECURITY_OUTSIDE = 3
};

/* Places in the values of depository_item. The reference of a pair is its
 * deliver's; the second reference is a pair's receive's, else 0. The marks
 * are 1 where that half of a pair was cancelled, else 0. DEPOSITORY_ITEM_SENT
 * is 1 where a sent cycle has fixed the item, a pair or an exchange trade: it
 * waits until the cycle is answered, and cannot be cancelled; else 0. */
enum depository_item_value {
    DEPOSITORY_ITEM_SECURITY = 0,
    DEPOSITORY_ITEM_CURRENCY = 1,
    DEPOSITORY_ITEM_DEBITED_MEMBER = 2,
    DEPOSITORY_ITEM_DEBITED_TYPE = 3,
    DEPOSITORY_ITEM_DEBITED_SHAREHOLDER = 4,
    DEPOSITORY_ITEM_CREDITED_MEMBER = 5,
    DEPOSITORY_ITEM_CREDITED_TYPE = 6,
    DEPOSITORY_ITEM_CREDITED_SHAREHOLDER = 7,
    DEPOSITORY_ITEM_QUANTITY = 8,
    DEPOSITORY_ITEM_AMOUNT = 9,
    DEPOSITORY_ITEM_TRADE_DAY = 10,
    DEPOSITORY_ITEM_SETTLEMENT_DAY = 11,
    DEPOSITORY_ITEM_STATE = 12,
    DEPOSITORY_ITEM_REFERENCE = 13,
    DEPOSITORY_ITEM_SECOND_REFERENCE = 14,
    DEPOSITORY_ITEM_DELIVER_MARKED = 15,
    DEPOSITORY_ITEM_RECEIVE_MARKED = 16,
    DEPOSITORY_ITEM_SENT = 17
};

/* The states of a waiting item. */
enum depository_state {
    DEPOSITORY_DELIVER = 1,
    DEPOSITORY_RECEIVE = 2,
    DEPOSITORY_PAIR = 3,
    DEPOSITORY_EXCHANGE_TRADE = 4
};

/* Places in the values of depository_request. The type is the one that the
 * shares came from, 10 or 20; until the request ends they stand in type 50. */
enum depository_request_value {
    DEPOSITORY_REQUEST_SECURITY = 0,
    DEPOSITORY_REQUEST_TYPE = 1,
    DEPOSITORY_REQUEST_SHAREHOLDER = 2,
    DEPOSITORY_REQUEST_QUANTITY = 3,
    DEPOSITORY_REQUEST_DAY = 4
};

/* Makes a fresh book, whatever the words held: day 0, closed, no cycle sent,
 * the rate 150,750, nothing else. */
uint64_t depository_fresh(uint64_t *book, size_t book_words);

/* One call. Nothing is assumed of the record and of the area, neither of
 * their sizes nor of what they hold; `counts_words` is
 * DEPOSITORY_COUNT_WORDS. Answers 0 if the call is accepted: the book has
 * moved, the area begins with the rows and is the same behind them, and the
 * counts are those of the call. Refusals are 1 to 24. */
uint64_t depository_call(uint64_t *book, size_t book_words,
                         const uint8_t *record, size_t record_bytes,
                         uint8_t *area, size_t area_bytes,
                         uint64_t *counts, size_t counts_words);

/* Reads a record alone, whatever it holds; `fields_words` is
 * DEPOSITORY_FIELD_WORDS. Refusals are 2 to 5. */
uint64_t depository_read(const uint8_t *record, size_t record_bytes,
                         uint64_t *fields, size_t fields_words);

/* Writes a record alone, into the area's first 40 bytes, and keeps the
 * others; `fields_words` is DEPOSITORY_FIELD_WORDS. Refusals are 1, 3, 4, 5. */
uint64_t depository_write(const uint64_t *fields, size_t fields_words,
                          uint8_t *area, size_t area_bytes);

/* What a book says. None of these has a refusal. */

/* The day; `values_words` is DEPOSITORY_DAY_WORDS. */
uint64_t depository_day(const uint64_t *book, size_t book_words,
                        uint64_t *values, size_t values_words);

/* The rate that form 18 set last, in hundredths of LBP for one USD: 150,750
 * before any. `values_words` is 1. */
uint64_t depository_rate(const uint64_t *book, size_t book_words,
                         uint64_t *values, size_t values_words);

/* How many securities are admitted, how many accounts there are (each of
 * another balance than 0), how many items wait, how many requests for paper
 * are open; `values_words` is DEPOSITORY_SIZE_WORDS. */
uint64_t depository_sizes(const uint64_t *book, size_t book_words,
                          uint64_t *values, size_t values_words);

/* The security at a place, from 0, in order of admission: the four figures of
 * a custody line. `values_words` is DEPOSITORY_SECURITY_WORDS. */
uint64_t depository_security(const uint64_t *book, size_t book_words,
                             size_t place,
                             uint64_t *values, size_t values_words);

/* What is held of a security, by its code: the count that the book keeps,
 * which is the sum of its accounts. 0 if it has none or is not admitted.
 * `values_words` is 1. */
uint64_t depository_held(const uint64_t *book, size_t book_words,
                         uint64_t security,
                         uint64_t *values, size_t values_words);

/* An account's balance: 0 if there is no such account. `values_words` is 1. */
uint64_t depository_balance(const uint64_t *book, size_t book_words,
                            uint64_t security, uint64_t member,
                            uint64_t type, uint64_t shareholder,
                            uint64_t *values, size_t values_words);

/* A member's cash in a currency (1 USD, 2 LBP), in hundredths: 0 if there is
 * no such member or currency. `values_words` is 1. */
uint64_t depository_cash(const uint64_t *book, size_t book_words,
                         uint64_t member, uint64_t currency,
                         uint64_t *values, size_t values_words);

/* The waiting item at a place, from 0, in order of arrival; `values_words` is
 * DEPOSITORY_ITEM_WORDS. */
uint64_t depository_item(const uint64_t *book, size_t book_words,
                         size_t place,
                         uint64_t *values, size_t values_words);

/* The request for paper that a member has open under a reference: security,
 * type, shareholder, quantity, and the day on which it was made. All are 0 if
 * there is none. `values_words` is DEPOSITORY_REQUEST_WORDS. */
uint64_t depository_request(const uint64_t *book, size_t book_words,
                            uint64_t member, uint64_t reference,
                            uint64_t *values, size_t values_words);

#ifdef __cplusplus
}
#endif

#endif

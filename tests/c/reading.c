/* A short day is called, and everything is read back through the boundary. */
#include <inttypes.h>

#include "check.h"

static uint64_t book[DEPOSITORY_BOOK_WORDS], values[DEPOSITORY_ITEM_WORDS];

/* The values are those expected. */
static void tells(uint64_t number, const char *what, const uint64_t *expected, size_t words) {
    check(number == 0, what, "answers", number);
    for (size_t i = 0; i < words; i++) {
        check(values[i] == expected[i], what, "value", i);
    }
}

static void reads_day_and_sizes(void) {
    const uint64_t day[DEPOSITORY_DAY_WORDS] = {[DEPOSITORY_DAY_NUMBER] = 1, [DEPOSITORY_DAY_OPEN] = 1, [DEPOSITORY_DAY_KIND] = 1,
                                                [DEPOSITORY_DAY_CYCLES] = 0, [DEPOSITORY_DAY_MINUTE] = 518, [DEPOSITORY_DAY_SENT] = 0};
    const uint64_t sizes[DEPOSITORY_SIZE_WORDS] = {
        [DEPOSITORY_SECURITIES] = 2, [DEPOSITORY_ACCOUNTS] = 2, [DEPOSITORY_ITEMS] = 3, [DEPOSITORY_REQUESTS] = 2};
    tells(depository_day(book, DEPOSITORY_BOOK_WORDS, values, DEPOSITORY_DAY_WORDS), "the day", day, DEPOSITORY_DAY_WORDS);
    tells(depository_sizes(book, DEPOSITORY_BOOK_WORDS, values, DEPOSITORY_SIZE_WORDS), "the sizes", sizes, DEPOSITORY_SIZE_WORDS);
}

static uint64_t security(size_t place) {
    return depository_security(book, DEPOSITORY_BOOK_WORDS, place, values, DEPOSITORY_SECURITY_WORDS);
}

/* A caller prints the custody line of the security at a place from its four values alone. */
static void prints_custody(size_t place, const char *expected) {
    char line[128];
    uint64_t number = security(place);
    check(number == 0, "a custody line", "answers", number);
    snprintf(line, sizeof line, "CUSTODY %" PRIu64 " ISSUED %" PRIu64 " HELD %" PRIu64 " OUTSIDE %" PRIu64, values[DEPOSITORY_SECURITY_CODE],
             values[DEPOSITORY_SECURITY_ISSUED], values[DEPOSITORY_SECURITY_HELD], values[DEPOSITORY_SECURITY_OUTSIDE]);
    check(strcmp(line, expected) == 0, expected, line, place);
}

static void reads_securities(void) {
    const uint64_t first[DEPOSITORY_SECURITY_WORDS] = {101, 1000, 400, 600}, second[DEPOSITORY_SECURITY_WORDS] = {102, 7, 0, 7};
    tells(security(0), "the first security", first, DEPOSITORY_SECURITY_WORDS);
    tells(security(1), "the second security", second, DEPOSITORY_SECURITY_WORDS);
    prints_custody(0, "CUSTODY 101 ISSUED 1000 HELD 400 OUTSIDE 600");
    prints_custody(1, "CUSTODY 102 ISSUED 7 HELD 0 OUTSIDE 7");
    check(security(2) == DEPOSITORY_NO_SUCH_PLACE, "no third security", "", 0);
    check(security(SIZE_MAX) == DEPOSITORY_NO_SUCH_PLACE, "no last security", "", 0);
    check(memcmp(values, second, sizeof second) == 0, "no security", "leaves the values", 0);
}

static void reads_one(uint64_t number, const char *what, uint64_t expected) {
    tells(number, what, &expected, 1);
}

static uint64_t balance(uint64_t code, uint64_t member, uint64_t type, uint64_t shareholder) {
    return depository_balance(book, DEPOSITORY_BOOK_WORDS, code, member, type, shareholder, values, 1);
}

static uint64_t cash(uint64_t member, uint64_t currency) {
    return depository_cash(book, DEPOSITORY_BOOK_WORDS, member, currency, values, 1);
}

static uint64_t rate(void) {
    return depository_rate(book, DEPOSITORY_BOOK_WORDS, values, 1);
}

static uint64_t held(uint64_t code) {
    return depository_held(book, DEPOSITORY_BOOK_WORDS, code, values, 1);
}

static void reads_figures(void) {
    reads_one(rate(), "the rate", WIDEST_RATE);
    reads_one(held(101), "held of the first", 400);
    reads_one(held(102), "held of the second", 0);
    reads_one(held(UINT64_MAX), "held of no security", 0);
    reads_one(balance(101, 1, 10, 77), "the balance", 358);
    reads_one(balance(101, 1, 50, 77), "what is requested", 42);
    reads_one(balance(101, 1, 20, 77), "no such type", 0);
    reads_one(balance(101 + 16384, 1, 10, 77), "a security that no record can name", 0);
    reads_one(balance(101, 1 + 1024, 10, 77), "a member that no record can name", 0);
    reads_one(balance(UINT64_MAX, UINT64_MAX, UINT64_MAX, UINT64_MAX), "nothing that a record can name", 0);
    reads_one(cash(64, 2), "the last member's cash", 900);
    reads_one(cash(64, 1), "no cash in USD", 0);
    reads_one(cash(0, 2), "member 0", 0);
    reads_one(cash(65, 2), "member 65", 0);
    reads_one(cash(64, 0), "currency 0", 0);
    reads_one(cash(64, 3), "currency 3", 0);
    reads_one(cash(UINT64_MAX, UINT64_MAX), "the largest member", 0);
}

/* The rate of a fresh book, then that of each order that sets one. */
static void reads_the_rate(void) {
    const uint64_t rates[] = {1, 150749, WIDEST_RATE};
    uint64_t counts[DEPOSITORY_COUNT_WORDS];
    depository_fresh(book, DEPOSITORY_BOOK_WORDS);
    reads_one(rate(), "the first rate", 150750);
    call(book, ORDERS[0], counts);
    for (size_t i = 0; i < sizeof rates / sizeof rates[0]; i++) {
        const uint64_t order[DEPOSITORY_FIELD_WORDS] = {[DEPOSITORY_FORM] = 18, [DEPOSITORY_MINUTE] = 480, [DEPOSITORY_QUANTITY] = rates[i]};
        uint64_t number = call(book, order, counts);
        check(number == 0, "a rate", "answers", number);
        reads_one(rate(), "the rate set last", rates[i]);
    }
}

static uint64_t request(uint64_t member, uint64_t reference) {
    return depository_request(book, DEPOSITORY_BOOK_WORDS, member, reference, values, DEPOSITORY_REQUEST_WORDS);
}

/* Nothing is told of a request that is not open, whatever the values held. */
static void reads_no_request(uint64_t member, uint64_t reference, const char *what) {
    const uint64_t nothing[DEPOSITORY_REQUEST_WORDS] = {0};
    memset(values, 0xA5, sizeof values);
    tells(request(member, reference), what, nothing, DEPOSITORY_REQUEST_WORDS);
}

static void reads_requests(void) {
    const uint64_t first[DEPOSITORY_REQUEST_WORDS] = {[DEPOSITORY_REQUEST_SECURITY] = 101, [DEPOSITORY_REQUEST_TYPE] = 10,
                                                      [DEPOSITORY_REQUEST_SHAREHOLDER] = 77, [DEPOSITORY_REQUEST_QUANTITY] = 40,
                                                      [DEPOSITORY_REQUEST_DAY] = 1};
    const uint64_t last[DEPOSITORY_REQUEST_WORDS] = {101, 10, 77, 2, 1};
    const uint64_t above = (uint64_t)1 << 32;
    tells(request(1, 11), "a request", first, DEPOSITORY_REQUEST_WORDS);
    tells(request(1, LAST_REFERENCE), "the last reference", last, DEPOSITORY_REQUEST_WORDS);
    reads_no_request(2, 11, "another member");
    reads_no_request(1, 12, "another reference");
    reads_no_request(2, 13, "a reference that waits");
    reads_no_request(0, 11, "member 0");
    reads_no_request(1, 0, "reference 0");
    reads_no_request(1 + 1024, 11, "a member that no record can name");
    reads_no_request(1 + above, 11, "a member of more than 32 bits");
    reads_no_request(1, 11 + above, "a reference that no record can name");
    reads_no_request(0, 11 + above, "a reference that reaches into the member");
    reads_no_request(2, LAST_REFERENCE - above, "a reference below 0");
    reads_no_request(UINT64_MAX, UINT64_MAX, "the largest member and reference");
}

/* Of a fresh book, and of the day after a request: it has ended, or it is still that of its day. */
static void reads_ended_requests(void) {
    const uint64_t night[][DEPOSITORY_FIELD_WORDS] = {
        A_CYCLE(960), AN_ANSWER(960, 1), A_CYCLE(960), AN_ANSWER(960, 2), A_CYCLE(960), AN_ANSWER(960, 1),
        {[DEPOSITORY_FORM] = 17, [DEPOSITORY_MINUTE] = 960},
        {[DEPOSITORY_FORM] = 1, [DEPOSITORY_MINUTE] = 470, [DEPOSITORY_QUANTITY] = 2},
        {[DEPOSITORY_FORM] = 20, [DEPOSITORY_MINUTE] = 510, [DEPOSITORY_DEBITED_MEMBER] = 1, [DEPOSITORY_CREDITED_TYPE] = 110,
         [DEPOSITORY_REFERENCE] = 11}};
    const uint64_t open[DEPOSITORY_REQUEST_WORDS] = {101, 10, 77, 2, 1};
    uint64_t counts[DEPOSITORY_COUNT_WORDS];
    depository_fresh(book, DEPOSITORY_BOOK_WORDS);
    reads_no_request(1, 11, "a fresh book");
    short_day(book);
    for (size_t i = 0; i < sizeof night / sizeof night[0]; i++) {
        uint64_t number = call(book, night[i], counts);
        check(number == 0, "a night and an ending", "answers", number);
    }
    reads_no_request(1, 11, "a request that has ended");
    tells(request(1, LAST_REFERENCE), "a request of the day before", open, DEPOSITORY_REQUEST_WORDS);
    depository_sizes(book, DEPOSITORY_BOOK_WORDS, values, DEPOSITORY_SIZE_WORDS);
    check(values[DEPOSITORY_REQUESTS] == 1, "one request is open", "", values[DEPOSITORY_REQUESTS]);
}

/* An order of the custody day, and the custody line after it. */
struct custody {
    uint64_t order[DEPOSITORY_FIELD_WORDS];
    const char *line;
};

/* What is deposited and withdrawn moves the line, at last a request that ends outside; a pledge, a request and a night leave it. */
static const struct custody CUSTODY[] = {
    {{[DEPOSITORY_FORM] = 2, [DEPOSITORY_MINUTE] = 500, [DEPOSITORY_SECURITY] = 101, [DEPOSITORY_QUANTITY] = 1000},
     "CUSTODY 101 ISSUED 1000 HELD 0 OUTSIDE 1000"},
    {{[DEPOSITORY_FORM] = 3, [DEPOSITORY_MINUTE] = 510, [DEPOSITORY_SECURITY] = 101, [DEPOSITORY_CREDITED_MEMBER] = 7,
      [DEPOSITORY_CREDITED_TYPE] = 20, [DEPOSITORY_CREDITED_SHAREHOLDER] = 5, [DEPOSITORY_QUANTITY] = 400},
     "CUSTODY 101 ISSUED 1000 HELD 400 OUTSIDE 600"},
    {{[DEPOSITORY_FORM] = 6, [DEPOSITORY_MINUTE] = 511, [DEPOSITORY_SECURITY] = 101, [DEPOSITORY_DEBITED_MEMBER] = 7,
      [DEPOSITORY_DEBITED_TYPE] = 20, [DEPOSITORY_DEBITED_SHAREHOLDER] = 5, [DEPOSITORY_CREDITED_MEMBER] = 7,
      [DEPOSITORY_CREDITED_TYPE] = 21, [DEPOSITORY_CREDITED_SHAREHOLDER] = 5, [DEPOSITORY_QUANTITY] = 50,
      [DEPOSITORY_SETTLEMENT_DAY] = 1},
     "CUSTODY 101 ISSUED 1000 HELD 400 OUTSIDE 600"},
    {{[DEPOSITORY_FORM] = 19, [DEPOSITORY_MINUTE] = 512, [DEPOSITORY_SECURITY] = 101, [DEPOSITORY_DEBITED_MEMBER] = 7,
      [DEPOSITORY_DEBITED_TYPE] = 20, [DEPOSITORY_DEBITED_SHAREHOLDER] = 5, [DEPOSITORY_QUANTITY] = 100, [DEPOSITORY_REFERENCE] = 1},
     "CUSTODY 101 ISSUED 1000 HELD 400 OUTSIDE 600"},
    {{[DEPOSITORY_FORM] = 4, [DEPOSITORY_MINUTE] = 513, [DEPOSITORY_SECURITY] = 101, [DEPOSITORY_DEBITED_MEMBER] = 7,
      [DEPOSITORY_DEBITED_TYPE] = 20, [DEPOSITORY_DEBITED_SHAREHOLDER] = 5, [DEPOSITORY_QUANTITY] = 30},
     "CUSTODY 101 ISSUED 1000 HELD 370 OUTSIDE 630"},
    {A_CYCLE(960), "CUSTODY 101 ISSUED 1000 HELD 370 OUTSIDE 630"},
    {AN_ANSWER(960, 1), "CUSTODY 101 ISSUED 1000 HELD 370 OUTSIDE 630"},
    {A_CYCLE(960), "CUSTODY 101 ISSUED 1000 HELD 370 OUTSIDE 630"},
    {AN_ANSWER(960, 1), "CUSTODY 101 ISSUED 1000 HELD 370 OUTSIDE 630"},
    {A_CYCLE(960), "CUSTODY 101 ISSUED 1000 HELD 370 OUTSIDE 630"},
    {AN_ANSWER(960, 1), "CUSTODY 101 ISSUED 1000 HELD 370 OUTSIDE 630"},
    {{[DEPOSITORY_FORM] = 17, [DEPOSITORY_MINUTE] = 960}, "CUSTODY 101 ISSUED 1000 HELD 370 OUTSIDE 630"},
    {{[DEPOSITORY_FORM] = 1, [DEPOSITORY_MINUTE] = 470, [DEPOSITORY_QUANTITY] = 1}, "CUSTODY 101 ISSUED 1000 HELD 370 OUTSIDE 630"},
    {{[DEPOSITORY_FORM] = 20, [DEPOSITORY_MINUTE] = 510, [DEPOSITORY_DEBITED_MEMBER] = 7, [DEPOSITORY_CREDITED_TYPE] = 91,
      [DEPOSITORY_REFERENCE] = 1},
     "CUSTODY 101 ISSUED 1000 HELD 270 OUTSIDE 730"},
};

/* After each order the line, and held by its code as it stands in the line. */
static void prints_custody_lines(void) {
    uint64_t counts[DEPOSITORY_COUNT_WORDS];
    depository_fresh(book, DEPOSITORY_BOOK_WORDS);
    call(book, ORDERS[0], counts);
    for (size_t i = 0; i < sizeof CUSTODY / sizeof CUSTODY[0]; i++) {
        uint64_t number = call(book, CUSTODY[i].order, counts);
        check(number == 0, "an order of the custody day", "answers", number);
        prints_custody(0, CUSTODY[i].line);
        uint64_t printed = values[DEPOSITORY_SECURITY_HELD];
        reads_one(held(101), "held by its code", printed);
    }
}

static uint64_t item(size_t place) {
    return depository_item(book, DEPOSITORY_BOOK_WORDS, place, values, DEPOSITORY_ITEM_WORDS);
}

static void reads_items(void) {
    const uint64_t trade[DEPOSITORY_ITEM_WORDS] = {101, 2, 1, 10, 77, 3, 20, 78, 5, 6, 1, 4, DEPOSITORY_EXCHANGE_TRADE, 12, 0, 0, 0, 0};
    const uint64_t pair[DEPOSITORY_ITEM_WORDS] = {101, 1, 1, 10, 77, 2, 20, 77, 30, 50, 1, 2, DEPOSITORY_PAIR, 11, 13, 0, 1, 0};
    const uint64_t receive[DEPOSITORY_ITEM_WORDS] = {102, 1, 5, 0, 79, 6, 110, 79, 1, 2, 1, 21, DEPOSITORY_RECEIVE, 14, 0, 0, 0, 0};
    tells(item(0), "an exchange trade", trade, DEPOSITORY_ITEM_WORDS);
    tells(item(1), "a pair, half cancelled", pair, DEPOSITORY_ITEM_WORDS);
    tells(item(2), "a receive", receive, DEPOSITORY_ITEM_WORDS);
    check(item(3) == DEPOSITORY_NO_SUCH_PLACE, "no fourth item", "", 0);
    check(item(SIZE_MAX) == DEPOSITORY_NO_SUCH_PLACE, "no last item", "", 0);
    check(memcmp(values, receive, sizeof receive) == 0, "no item", "leaves the values", 0);
}

/* The day's last value after a call, and that of the first item, a single, and of the second, a pair that is due and has shares and cash. */
struct sent {
    uint64_t order[DEPOSITORY_FIELD_WORDS];
    uint64_t answer, day, single, pair;
};

/* The pair is sent, declined, sent again and confirmed; a cycle with nothing is sent too. What is refused leaves the marks. */
static const struct sent SENT[] = {
    {A_CYCLE(584), 9, 0, 0, 0},
    {AN_ANSWER(585, 1), 23, 0, 0, 0},
    {A_CYCLE(585), 0, 1, 0, 1},
    {A_CYCLE(705), 22, 1, 0, 1},
    {AN_ANSWER(586, 3), 5, 1, 0, 1},
    {{[DEPOSITORY_FORM] = 15, [DEPOSITORY_MINUTE] = 586, [DEPOSITORY_DEBITED_MEMBER] = 1, [DEPOSITORY_REFERENCE] = 2}, 24, 1, 0, 1},
    {AN_ANSWER(586, 2), 0, 0, 0, 0},
    {A_CYCLE(705), 0, 1, 0, 1},
    {AN_ANSWER(706, 1), 0, 0, 0, DEPOSITORY_NO_SUCH_PLACE},
    {A_CYCLE(825), 0, 1, 0, DEPOSITORY_NO_SUCH_PLACE},
    {AN_ANSWER(1439, 1), 0, 0, 0, DEPOSITORY_NO_SUCH_PLACE},
};

/* The instruction of a trade that settles on day 1. */
static void instructs(uint64_t form, uint64_t reference, uint64_t amount) {
    const uint64_t order[DEPOSITORY_FIELD_WORDS] = {
        [DEPOSITORY_FORM] = form, [DEPOSITORY_MINUTE] = 520, [DEPOSITORY_SECURITY] = 101, [DEPOSITORY_CURRENCY] = 2,
        [DEPOSITORY_DEBITED_MEMBER] = 1, [DEPOSITORY_DEBITED_TYPE] = form == 12 ? 10 : 0, [DEPOSITORY_DEBITED_SHAREHOLDER] = 77,
        [DEPOSITORY_CREDITED_MEMBER] = 64, [DEPOSITORY_CREDITED_TYPE] = form == 13 ? 10 : 0, [DEPOSITORY_CREDITED_SHAREHOLDER] = 77,
        [DEPOSITORY_QUANTITY] = 30, [DEPOSITORY_AMOUNT] = amount, [DEPOSITORY_TRADE_DAY] = 1, [DEPOSITORY_SETTLEMENT_DAY] = 1,
        [DEPOSITORY_REFERENCE] = reference};
    uint64_t counts[DEPOSITORY_COUNT_WORDS], number = call(book, order, counts);
    check(number == 0, "an instruction", "answers", number);
}

/* The value of the item at a place that says whether it is sent, or the number that is answered. */
static uint64_t sent_at(size_t place) {
    uint64_t number = item(place);
    return number == 0 ? values[DEPOSITORY_ITEM_SENT] : number;
}

static void reads_a_sent_cycle(void) {
    uint64_t counts[DEPOSITORY_COUNT_WORDS];
    depository_fresh(book, DEPOSITORY_BOOK_WORDS);
    for (size_t i = 0; i < 5; i++) {
        call(book, ORDERS[i], counts);
    }
    instructs(12, 1, 901);
    instructs(12, 2, 900);
    instructs(13, 3, 900);
    for (size_t i = 0; i < sizeof SENT / sizeof SENT[0]; i++) {
        uint64_t number = call(book, SENT[i].order, counts);
        check(number == SENT[i].answer, "a cycle or its answer", "answers", number);
        depository_day(book, DEPOSITORY_BOOK_WORDS, values, DEPOSITORY_DAY_WORDS);
        check(values[DEPOSITORY_DAY_SENT] == SENT[i].day, "a cycle is sent after call", "", i);
        check(sent_at(0) == SENT[i].single, "a single is sent after call", "", i);
        check(sent_at(1) == SENT[i].pair, "a pair is sent after call", "", i);
    }
}

/* A single deliver is told as one: the first six orders alone. */
static void reads_a_deliver(void) {
    const uint64_t deliver[DEPOSITORY_ITEM_WORDS] = {101, 1, 1, 10, 77, 2, 0, 77, 30, 50, 1, 2, DEPOSITORY_DELIVER, 11, 0, 0, 0, 0};
    uint64_t counts[DEPOSITORY_COUNT_WORDS];
    depository_fresh(book, DEPOSITORY_BOOK_WORDS);
    for (size_t i = 0; i < 6; i++) {
        call(book, ORDERS[i], counts);
    }
    tells(item(0), "a deliver", deliver, DEPOSITORY_ITEM_WORDS);
}

int main(void) {
    short_day(book);
    reads_day_and_sizes();
    reads_securities();
    reads_figures();
    reads_items();
    reads_requests();
    reads_the_rate();
    reads_ended_requests();
    prints_custody_lines();
    reads_a_sent_cycle();
    reads_a_deliver();
    return close_checks();
}

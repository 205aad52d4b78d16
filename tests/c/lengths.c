/* Every wrong length to every function. Each buffer ends where its memory ends, so that a read or write behind it stops the program, and lies behind
 * bytes of a pattern. A wrong length must be answered by its number, with no byte changed. */
#define _DEFAULT_SOURCE
#include <stdlib.h>
#include <sys/mman.h>

#include "check.h"

enum kind { BOOK, RECORD, AREA, COUNTS, FIELDS, VALUES, KINDS };

/* A lent buffer: its memory, of `size` bytes, and its elements at that memory's end. */
struct lent {
    unsigned char *memory, *copy;
    size_t size, length;
    void *start;
};

static const size_t PAGE = 4096;

static struct lent lend(enum kind kind, size_t length) {
    size_t bytes = kind == RECORD || kind == AREA ? length : 8 * length;
    struct lent b = {.size = (bytes / PAGE + 1) * PAGE, .length = length};
    b.memory = mmap(NULL, b.size + PAGE, PROT_READ | PROT_WRITE, MAP_PRIVATE | MAP_ANONYMOUS, -1, 0);
    b.copy = malloc(b.size);
    if (b.memory == MAP_FAILED || b.copy == NULL || mprotect(b.memory + b.size, PAGE, PROT_NONE) != 0) {
        exit(2);
    }
    memset(b.memory, 0xA5, b.size);
    b.start = b.memory + b.size - bytes;
    return b;
}

static void take_back(struct lent *b) {
    munmap(b->memory, b->size + PAGE);
    free(b->copy);
}

/* What each function is lent: the right length by kind, 0 where it takes no such buffer. Any length is right of a record and an area. */
struct function {
    const char *name;
    uint64_t (*call)(struct lent *);
    size_t right[KINDS];
};

static uint64_t call_fresh(struct lent *b) {
    return depository_fresh(b[BOOK].start, b[BOOK].length);
}

static uint64_t call_call(struct lent *b) {
    return depository_call(b[BOOK].start, b[BOOK].length, b[RECORD].start, b[RECORD].length, b[AREA].start, b[AREA].length, b[COUNTS].start,
                           b[COUNTS].length);
}

static uint64_t call_read(struct lent *b) {
    return depository_read(b[RECORD].start, b[RECORD].length, b[FIELDS].start, b[FIELDS].length);
}

static uint64_t call_write(struct lent *b) {
    return depository_write(b[FIELDS].start, b[FIELDS].length, b[AREA].start, b[AREA].length);
}

static uint64_t call_day(struct lent *b) {
    return depository_day(b[BOOK].start, b[BOOK].length, b[VALUES].start, b[VALUES].length);
}

static uint64_t call_rate(struct lent *b) {
    return depository_rate(b[BOOK].start, b[BOOK].length, b[VALUES].start, b[VALUES].length);
}

static uint64_t call_sizes(struct lent *b) {
    return depository_sizes(b[BOOK].start, b[BOOK].length, b[VALUES].start, b[VALUES].length);
}

static uint64_t call_security(struct lent *b) {
    return depository_security(b[BOOK].start, b[BOOK].length, 0, b[VALUES].start, b[VALUES].length);
}

static uint64_t call_held(struct lent *b) {
    return depository_held(b[BOOK].start, b[BOOK].length, 101, b[VALUES].start, b[VALUES].length);
}

static uint64_t call_balance(struct lent *b) {
    return depository_balance(b[BOOK].start, b[BOOK].length, 101, 1, 10, 77, b[VALUES].start, b[VALUES].length);
}

static uint64_t call_cash(struct lent *b) {
    return depository_cash(b[BOOK].start, b[BOOK].length, 64, 2, b[VALUES].start, b[VALUES].length);
}

static uint64_t call_item(struct lent *b) {
    return depository_item(b[BOOK].start, b[BOOK].length, 0, b[VALUES].start, b[VALUES].length);
}

static uint64_t call_request(struct lent *b) {
    return depository_request(b[BOOK].start, b[BOOK].length, 1, 11, b[VALUES].start, b[VALUES].length);
}

#define A_BOOK [BOOK] = DEPOSITORY_BOOK_WORDS
#define A_RECORD [RECORD] = DEPOSITORY_RECORD_BYTES

static const struct function FUNCTIONS[] = {
    {"depository_fresh", call_fresh, {A_BOOK}},
    {"depository_call", call_call, {A_BOOK, A_RECORD, [AREA] = DEPOSITORY_AREA_BYTES, [COUNTS] = DEPOSITORY_COUNT_WORDS}},
    {"depository_read", call_read, {A_RECORD, [FIELDS] = DEPOSITORY_FIELD_WORDS}},
    {"depository_write", call_write, {[AREA] = DEPOSITORY_RECORD_BYTES, [FIELDS] = DEPOSITORY_FIELD_WORDS}},
    {"depository_day", call_day, {A_BOOK, [VALUES] = DEPOSITORY_DAY_WORDS}},
    {"depository_rate", call_rate, {A_BOOK, [VALUES] = 1}},
    {"depository_sizes", call_sizes, {A_BOOK, [VALUES] = DEPOSITORY_SIZE_WORDS}},
    {"depository_security", call_security, {A_BOOK, [VALUES] = DEPOSITORY_SECURITY_WORDS}},
    {"depository_held", call_held, {A_BOOK, [VALUES] = 1}},
    {"depository_balance", call_balance, {A_BOOK, [VALUES] = 1}},
    {"depository_cash", call_cash, {A_BOOK, [VALUES] = 1}},
    {"depository_item", call_item, {A_BOOK, [VALUES] = DEPOSITORY_ITEM_WORDS}},
    {"depository_request", call_request, {A_BOOK, [VALUES] = DEPOSITORY_REQUEST_WORDS}},
};

static const uint64_t NUMBERS[KINDS] = {[BOOK] = DEPOSITORY_WRONG_BOOK,
                                        [COUNTS] = DEPOSITORY_WRONG_COUNTS,
                                        [FIELDS] = DEPOSITORY_WRONG_FIELDS,
                                        [VALUES] = DEPOSITORY_WRONG_VALUES};

static uint64_t book[DEPOSITORY_BOOK_WORDS];
static uint8_t record[DEPOSITORY_RECORD_BYTES];

/* Puts in what a function reads: a book, a record, an order's fields. A shorter buffer gets the first of it. */
static void fill(struct lent *b) {
    static const uint64_t cycle[DEPOSITORY_FIELD_WORDS] = A_CYCLE(585);
    const struct { enum kind kind; const void *from; size_t bytes; } sources[] = {
        {BOOK, book, sizeof book}, {RECORD, record, sizeof record}, {FIELDS, cycle, sizeof cycle}};
    depository_write(cycle, DEPOSITORY_FIELD_WORDS, record, sizeof record);
    for (size_t i = 0; i < 3; i++) {
        struct lent *to = &b[sources[i].kind];
        size_t room = (size_t)(to->memory + to->size - (unsigned char *)to->start);
        memcpy(to->start, sources[i].from, room < sources[i].bytes ? room : sources[i].bytes);
    }
}

/* Calls with these lengths. A number other than 0 must leave every byte, and 0 every byte before the buffers. */
static void try(const struct function *f, const size_t *lengths, uint64_t expected) {
    struct lent b[KINDS];
    for (int k = 0; k < KINDS; k++) {
        b[k] = lend(k, lengths[k]);
    }
    fill(b);
    for (int k = 0; k < KINDS; k++) {
        memcpy(b[k].copy, b[k].memory, b[k].size);
    }
    uint64_t number = f->call(b);
    check(number == expected, f->name, "answers", number);
    for (int k = 0; k < KINDS; k++) {
        size_t compared = expected == 0 ? (size_t)((unsigned char *)b[k].start - b[k].memory) : b[k].size;
        check(memcmp(b[k].copy, b[k].memory, compared) == 0, f->name, "changed buffer", (uint64_t)k);
        take_back(&b[k]);
    }
}

/* The first buffer of a wrong length decides. */
static uint64_t expected_of(const struct function *f, const size_t *lengths) {
    for (int k = 0; k < KINDS; k++) {
        if (NUMBERS[k] != 0 && f->right[k] != 0 && lengths[k] != f->right[k]) {
            return NUMBERS[k];
        }
    }
    return 0;
}

static size_t length_of(size_t right, int which) {
    const size_t lengths[] = {right, 0, right - 1, right + 1};
    return lengths[which];
}

/* Each of the lengths that a function looks at is right, 0, one less, one more, in all combinations. */
static void try_all(const struct function *f) {
    for (int combination = 0; combination < 16; combination++) {
        size_t lengths[KINDS];
        int rest = combination;
        memcpy(lengths, f->right, sizeof lengths);
        for (int k = 0; k < KINDS; k++) {
            if (NUMBERS[k] != 0 && f->right[k] != 0) {
                lengths[k] = length_of(f->right[k], rest % 4);
                rest /= 4;
            }
        }
        if (rest == 0) {
            try(f, lengths, expected_of(f, lengths));
        }
    }
}

int main(void) {
    short_day(book);
    for (size_t i = 0; i < sizeof FUNCTIONS / sizeof FUNCTIONS[0]; i++) {
        try_all(&FUNCTIONS[i]);
    }
    return close_checks();
}

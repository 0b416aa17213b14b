/* A C host: sums in conditions, document 02, 3. Asks the book of examples/sum, which denies when front pressure plus
 * offset passes 120, with requests around the limit, at the ends of 64 bits, and with an attribute missing; then the
 * same book with every other operator and comparison; then spoilt ones, for the refusals 5 and 11 and their lines. All
 * of it through bachumoi_decide and in ticks of one step, whose decisions, codes and obligations must be the same.
 *
 * All that is lent stands in heap buffers of exactly the lent length, so that fences and valgrind see any byte read or
 * written beside them. Exit status 0 if all is as document 02 says, else 1. host/run builds and runs it.
 */
#include <bachumoi.h>

#include <stdio.h>
#include <stdlib.h>
#include <string.h>

enum { RECORDS = 10, BOOK = RECORDS * BACHUMOI_RECORD, UNTOUCHED = 0xEE };

/* Its lines, from 1 on. */
enum { CONDITION = 4, OPERATOR, PRESSURE, OFFSET, LIMIT };

static const char *const lines[RECORDS] = {
    "0201000A00000000000000000000000000000000", /* policy, deny-overrides */
    "0301000100000000000000000000000000000000", /* a rule: Permit */
    "0302000600000000000000000000000000000000", /* a rule: Deny, when */
    "0716000500000000000000000000000000000000", /* the first value is greater than the second: */
    "0A03000300000000000000000000000000000000", /* the sum of */
    "0A02000102010004000000000000000000000000", /* front pressure, an integer in resource attribute 4, */
    "0A02000102010005000000000000000000000000", /* and offset, in resource attribute 5; */
    "0A01000100010000000000000000007800000000", /* 120 */
    "0801000100000041000000000000000000000000", /* on Permit, obligation 65 */
    "0802000100000042000000000000000000000000", /* on Deny, obligation 66 */
};

/* What is expected of a question: the decision, its obligation if there is one, its code if it is Indeterminate. */
enum outcome { PERMIT, DENY, MISSING, PROCESSING };
static const struct {
    enum bachumoi_answer decision;
    unsigned obligation;
    enum bachumoi_status status;
    const char *words;
} outcomes[] = {
    [PERMIT] = { BACHUMOI_PERMIT, 65, BACHUMOI_NO_STATUS, "Permit, 65" },
    [DENY] = { BACHUMOI_DENY, 66, BACHUMOI_NO_STATUS, "Deny, 66" },
    [MISSING] = { BACHUMOI_INDETERMINATE, 0, BACHUMOI_MISSING_ATTRIBUTE, "Indeterminate, missing attribute" },
    [PROCESSING] = { BACHUMOI_INDETERMINATE, 0, BACHUMOI_PROCESSING_ERROR, "Indeterminate, processing error" },
};

enum { EQUAL = 21, GREATER };
enum { ADD = 3, SUBTRACT, MULTIPLY, DIVIDE, REMAINDER, DOUBLE_ADD };
enum { INTEGER = 1, DOUBLE = 3 };

static int failed;

/* A buffer of exactly this many bytes, none of them zero. */
static void *lend(size_t bytes)
{
    void *memory = malloc(bytes);
    if (!memory)
        exit(2);
    memset(memory, UNTOUCHED, bytes);
    return memory;
}

static int untouched(const void *memory, size_t bytes)
{
    for (size_t i = 0; i < bytes; i++)
        if (((const uint8_t *)memory)[i] != UNTOUCHED)
            return 0;
    return 1;
}

static void put_line(uint8_t *book, unsigned line, const char *text)
{
    for (unsigned i = 0; i < BACHUMOI_RECORD; i++)
        sscanf(text + 2 * i, "%2hhx", &book[(line - 1) * BACHUMOI_RECORD + i]);
}

static uint8_t *lend_book(void)
{
    uint8_t *book = lend(BOOK);
    for (unsigned line = 1; line <= RECORDS; line++)
        put_line(book, line, lines[line - 1]);
    return book;
}

static void put_value(uint8_t *at, uint64_t value)
{
    for (int i = 0; i < 8; i++)
        at[i] = (uint8_t)(value >> (56 - 8 * i));
}

/* ---- Questions --------------------------------------------------------------------------------------------- */

/* What the book is made to ask, and what the request says: so many entries of each attribute, all of one value. */
struct question {
    uint8_t comparison, operator, type;
    uint64_t limit;
    unsigned pressures, offsets;
    uint64_t pressure, offset;
};

static uint8_t *lend_book_of(const struct question *q)
{
    uint8_t *book = lend_book();
    book[(CONDITION - 1) * BACHUMOI_RECORD + 1] = q->comparison;
    book[(OPERATOR - 1) * BACHUMOI_RECORD + 1] = q->operator;
    for (unsigned line = PRESSURE; line <= LIMIT; line++)
        book[(line - 1) * BACHUMOI_RECORD + 5] = q->type;
    put_value(book + (LIMIT - 1) * BACHUMOI_RECORD + 8, q->limit);
    return book;
}

static uint8_t *lend_request(const struct question *q, size_t *len)
{
    unsigned entries = q->pressures + q->offsets;
    *len = (size_t)entries * BACHUMOI_RECORD;
    uint8_t *request = lend(*len);
    for (unsigned i = 0; i < entries; i++) {
        uint8_t *entry = request + i * BACHUMOI_RECORD;
        uint8_t key[BACHUMOI_RECORD] = { 2, q->type, 0, i < q->pressures ? 4 : 5 };
        memcpy(entry, key, sizeof key);
        put_value(entry + 8, i < q->pressures ? q->pressure : q->offset);
    }
    return request;
}

/* The number of a decision; its code begins at this bit. */
static uint64_t number_of(enum outcome outcome, unsigned code)
{
    return outcomes[outcome].decision + (outcomes[outcome].obligation != 0 ? 256 : 0) +
           ((uint64_t)outcomes[outcome].status << code);
}

/* At once: the number, and an output of two places with the obligation first. */
static int decides(const uint8_t *book, const uint8_t *request, size_t request_len, enum outcome expected)
{
    uint8_t *out = lend(4), left[4] = { 0, (uint8_t)outcomes[expected].obligation };
    int right = bachumoi_decide(book, BOOK, request, request_len, out, 4) == number_of(expected, 40) &&
                memcmp(out, left, sizeof left) == 0;
    free(out);
    return right;
}

/* What a run is lent. */
struct run {
    uint64_t *programme, *numbers;
    uint16_t *places, *out;
    size_t entries;
};

static struct run lend_run(const uint8_t *book)
{
    struct run run = { lend(BACHUMOI_ROOM(RECORDS) * sizeof *run.programme),
                       lend(BACHUMOI_NUMBERS * sizeof *run.numbers), lend(BACHUMOI_PLACES * sizeof *run.places),
                       lend(BACHUMOI_PLACES * sizeof *run.out), 0 };
    run.entries = bachumoi_entries(bachumoi_translate(book, BOOK, run.programme, BACHUMOI_ROOM(RECORDS)));
    bachumoi_fresh(run.numbers, BACHUMOI_NUMBERS, run.places, BACHUMOI_PLACES);
    return run;
}

static void give_back(struct run run)
{
    free(run.programme);
    free(run.numbers);
    free(run.places);
    free(run.out);
}

/* In ticks of one step: no more of them than entries, all but the last running with an untouched output, the last with
 * the number and the obligation, and zero in every other place. */
static int ticks(const uint8_t *book, const uint8_t *request, size_t request_len, enum outcome expected)
{
    struct run run = lend_run(book);
    uint64_t number = 0, step = (uint64_t)1 << 32;
    size_t taken = 0;
    int right = 1;
    while (taken < run.entries && bachumoi_answer(number) == BACHUMOI_RUNNING) {
        right &= untouched(run.out, BACHUMOI_PLACES * sizeof *run.out);
        number = bachumoi_tick(run.programme, run.entries, request, request_len, run.numbers, BACHUMOI_NUMBERS,
                               run.places, BACHUMOI_PLACES, 1, run.out, BACHUMOI_PLACES);
        right &= bachumoi_steps(number) == 1;
        taken++;
    }
    right &= number == (number_of(expected, 24) | step);
    for (size_t i = 0; i < BACHUMOI_PLACES; i++)
        right &= run.out[i] == (i == 0 ? outcomes[expected].obligation : 0);
    give_back(run);
    return right;
}

static void ask(const char *what, const struct question *q, enum outcome expected)
{
    size_t request_len;
    uint8_t *book = lend_book_of(q), *request = lend_request(q, &request_len);
    int right = decides(book, request, request_len, expected) && ticks(book, request, request_len, expected);
    printf("%-44s %s\n", what, right ? outcomes[expected].words : "WRONG");
    failed |= !right;
    free(book);
    free(request);
}

/* ---- The limit --------------------------------------------------------------------------------------------- */

static void pressure_plus_offset(const char *what, unsigned pressures, int64_t pressure, unsigned offsets,
                                 int64_t offset, enum outcome expected)
{
    struct question q = { GREATER, ADD, INTEGER, 120, pressures, offsets, (uint64_t)pressure, (uint64_t)offset };
    ask(what, &q, expected);
}

static void around_the_limit(void)
{
    pressure_plus_offset("117 + 3 > 120", 1, 117, 1, 3, PERMIT);
    pressure_plus_offset("118 + 3 > 120", 1, 118, 1, 3, DENY);
    pressure_plus_offset("126 + -6 > 120", 1, 126, 1, -6, PERMIT);
    pressure_plus_offset("-1 + 122 > 120", 1, -1, 1, 122, DENY);
    pressure_plus_offset("largest + 0 > 120", 1, INT64_MAX, 1, 0, DENY);
    pressure_plus_offset("largest + 1 > 120", 1, INT64_MAX, 1, 1, PROCESSING);
    pressure_plus_offset("least + 0 > 120", 1, INT64_MIN, 1, 0, PERMIT);
    pressure_plus_offset("least + -1 > 120", 1, INT64_MIN, 1, -1, PROCESSING);
    pressure_plus_offset("no offset", 1, 118, 0, 3, MISSING);
    pressure_plus_offset("no pressure", 0, 118, 1, 3, MISSING);
    pressure_plus_offset("pressure twice", 2, 118, 1, 3, PROCESSING);
}

/* ---- Every operator and comparison ------------------------------------------------------------------------- */

/* Denies when the operator gives this result: Permit is another result, Indeterminate none. */
static void operates(const char *what, uint8_t operator, int64_t first, int64_t second, int64_t result,
                     enum outcome expected)
{
    struct question q = { EQUAL, operator, INTEGER, (uint64_t)result, 1, 1, (uint64_t)first, (uint64_t)second };
    ask(what, &q, expected);
}

static void operators(void)
{
    operates("least - 1", SUBTRACT, INT64_MIN, 1, 0, PROCESSING);
    operates("-1 - least = largest", SUBTRACT, -1, INT64_MIN, INT64_MAX, DENY);
    operates("-3 * 7 = -21", MULTIPLY, -3, 7, -21, DENY);
    operates("least * -1", MULTIPLY, INT64_MIN, -1, 0, PROCESSING);
    operates("-7 / 2 = -3", DIVIDE, -7, 2, -3, DENY);
    operates("-7 / 2 = -4", DIVIDE, -7, 2, -4, PERMIT);
    operates("7 / 0", DIVIDE, 7, 0, 0, PROCESSING);
    operates("least / -1", DIVIDE, INT64_MIN, -1, 0, PROCESSING);
    operates("remainder of -7 by 2 = -1", REMAINDER, -7, 2, -1, DENY);
    operates("remainder of 7 by -2 = 1", REMAINDER, 7, -2, 1, DENY);
    operates("remainder of least by -1 = 0", REMAINDER, INT64_MIN, -1, 0, DENY);
    operates("remainder of 7 by 0", REMAINDER, 7, 0, 0, PROCESSING);
}

static uint64_t bits_of(double d)
{
    uint64_t bits;
    memcpy(&bits, &d, sizeof bits);
    return bits;
}

static void adds(const char *what, double first, double second, double result, enum outcome expected)
{
    struct question q = { EQUAL, DOUBLE_ADD, DOUBLE, bits_of(result), 1, 1, bits_of(first), bits_of(second) };
    ask(what, &q, expected);
}

/* A sum of doubles is rounded once, to the nearest, at a tie to the even one. */
static void sums_of_doubles(void)
{
    static const double largest = 0x1.FFFFFFFFFFFFFp1023;
    adds("1.5 + -1.5 = -0", 1.5, -1.5, -0.0, DENY);
    adds("2^53 + 1 = 2^53", 0x1p53, 1, 0x1p53, DENY);
    adds("2^53 + (1 + 2^-52) = 2^53 + 2", 0x1p53, 0x1.0000000000001p0, 0x1p53 + 2, DENY);
    adds("(2^53 + 2) + 1 = 2^53 + 4", 0x1p53 + 2, 1, 0x1p53 + 4, DENY);
    adds("largest + next below 2^970 = largest", largest, 0x1.FFFFFFFFFFFFFp969, largest, DENY);
    adds("largest + 2^970", largest, 0x1p970, largest, PROCESSING);
}

/* 118 + 3 compared with 120, 121 and 122, the sum first. */
static void comparisons(void)
{
    static const char *const words[5] = { "=", ">", ">=", "<", "<=" };
    static const int holds[5][3] = { { 0, 1, 0 }, { 1, 0, 0 }, { 1, 1, 0 }, { 0, 0, 1 }, { 0, 1, 1 } };
    for (unsigned i = 0; i < 15; i++) {
        unsigned limit = 120 + i % 3;
        struct question q = { (uint8_t)(EQUAL + i / 3), ADD, INTEGER, limit, 1, 1, 118, 3 };
        char what[32];
        snprintf(what, sizeof what, "118 + 3 %s %u", words[i / 3], limit);
        ask(what, &q, holds[i / 3][i % 3] ? DENY : PERMIT);
    }
}

/* ---- Refusals ---------------------------------------------------------------------------------------------- */

/* With this record at this line the book is refused, by this number at that line: decided and translated. */
static void refuses(const char *what, unsigned line, const char *record, unsigned number, unsigned at)
{
    uint64_t expected = 255 + 256 * (uint64_t)number + 65536 * (uint64_t)at + 4294967296;
    size_t room = BACHUMOI_ROOM(RECORDS);
    uint8_t *book = lend_book(), *out = lend(4);
    uint64_t *programme = lend(room * sizeof *programme);
    put_line(book, line, record);
    uint64_t decided = bachumoi_decide(book, BOOK, NULL, 0, out, 4);
    uint64_t translated = bachumoi_translate(book, BOOK, programme, room);
    int right = decided == expected && untouched(out, 4) && translated == expected &&
                untouched(programme, room * sizeof *programme);
    printf("%-44s refused %u at line %u%s\n", what, bachumoi_number(decided), bachumoi_line(decided),
           right ? "" : "   WRONG");
    failed |= !right;
    free(book);
    free(out);
    free(programme);
}

static void broken_fields(void)
{
    refuses("a literal that must be present", LIMIT, "0A01000100810000000000000000007800000000", 5, LIMIT);
    refuses("a literal with a category", LIMIT, "0A01000102010000000000000000007800000000", 5, LIMIT);
    refuses("a literal with an identifier", LIMIT, "0A01000100010004000000000000007800000000", 5, LIMIT);
    refuses("a literal of no type", LIMIT, "0A01000100040000000000000000007800000000", 5, LIMIT);
    refuses("a literal that is infinite", LIMIT, "0A010001000300007FF000000000000000000000", 5, LIMIT);
    refuses("a literal with something below it", LIMIT, "0A01000200010000000000000000007800000000", 5, LIMIT);
    refuses("an attribute of no category", PRESSURE, "0A02000100010004000000000000000000000000", 5, PRESSURE);
    refuses("an attribute with a value", PRESSURE, "0A02000102010004000000000000000100000000", 5, PRESSURE);
    refuses("an operator with a type", OPERATOR, "0A03000300010000000000000000000000000000", 5, OPERATOR);
    refuses("an operator of span 0", OPERATOR, "0A03000000000000000000000000000000000000", 5, OPERATOR);
    refuses("choice 9 of a value", OPERATOR, "0A09000300000000000000000000000000000000", 5, OPERATOR);
    refuses("choice 20 of a condition", CONDITION, "0714000500000000000000000000000000000000", 5, CONDITION);
    refuses("choice 26 of a condition", CONDITION, "071A000500000000000000000000000000000000", 5, CONDITION);
    refuses("a comparison of values with a category", CONDITION, "0716000502000000000000000000000000000000", 5,
            CONDITION);
}

/* The line is that of the operator or comparison whose operands are wrong, or of a value that stands elsewhere. */
static void broken_places(void)
{
    refuses("an offset that is a double", OFFSET, "0A02000102030005000000000000000000000000", 11, OPERATOR);
    refuses("an offset that is a name", OFFSET, "0A02000102020005000000000000000000000000", 11, OPERATOR);
    refuses("an offset that is a condition", OFFSET, "070B000102010005000000000000000000000000", 11, OPERATOR);
    refuses("an offset that is an operator of nothing", OFFSET, "0A03000100000000000000000000000000000000", 11, OFFSET);
    refuses("an offset that runs too far", OFFSET, "0A03000200000000000000000000000000000000", 11, CONDITION);
    refuses("a limit that is a double", LIMIT, "0A01000100030000000000000000000000000000", 11, CONDITION);
    refuses("a limit that runs too far", LIMIT, "0A03000200000000000000000000000000000000", 10, LIMIT);
    refuses("double add of integers", OPERATOR, "0A08000300000000000000000000000000000000", 11, CONDITION);
    refuses("an operator of one operand", OPERATOR, "0A03000200000000000000000000000000000000", 11, CONDITION);
    refuses("a comparison of one value", CONDITION, "0716000400000000000000000000000000000000", 11, CONDITION);
    refuses("a value for a condition", CONDITION, "0A03000500000000000000000000000000000000", 11, CONDITION);
    refuses("a value for a rule", 2, "0A01000100010000000000000000007800000000", 11, 2);
    refuses("a value for a policy", 1, "0A03000A00000000000000000000000000000000", 9, 1);
}

int main(void)
{
    around_the_limit();
    operators();
    sums_of_doubles();
    comparisons();
    broken_fields();
    broken_places();
    printf("%s\n", failed ? "sums: not as document 02 says" : "sums: ok");
    return failed;
}

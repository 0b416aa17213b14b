/* A C host: who vouches for a value, document 02, 5. Two makers, 5 and 9, call their front pressure by the same
 * identifier. Asks whether it is 100, of maker 5's value and of anyone's, by a match, by one that must be present, by a
 * comparison and by an attribute of two values, for requests vouched for by 5, by 9 and by nobody: through
 * bachumoi_decide and in ticks of one step. Then spoils each of the bytes 16 to 19 of every record and entry.
 *
 * All that is lent stands in heap buffers of exactly the lent length, so that fences and valgrind see any byte read or
 * written beside them. Exit status 0 if all is as document 02 says, else 1. host/run builds and runs it.
 */
#include <bachumoi.h>

#include <stdio.h>
#include <stdlib.h>
#include <string.h>

enum { POLICY = 2, RULE, SECTION, CONJUNCTION, MATCH, CONDITION, VALUE = 10 };
enum { FIRST_APPLICABLE = 3, PERMIT = 1, EQUAL = 1, COMPARISON = 10, COMPARISON_OF_VALUES = 20 };
enum { LITERAL = 1, ATTRIBUTE };
enum { RESOURCE = 2, INTEGER = 1, MUST_BE_PRESENT = 128, PRESSURE = 4 };

/* Issuers: two makers, and one whose number has the bytes of the first maker's in the other order. */
enum { ANYONE = 0, NOBODY = 0, MAKER = 5, OTHER = 9, TURNED = 0x0500 };

/* How it is asked whether the pressure is 100, and at which line of the book that stands. */
enum way { BY_MATCH, BY_PRESENT_MATCH, BY_COMPARISON, BY_ATTRIBUTE, WAYS };
static const char *const ways[WAYS] = { "match", "must be present", "comparison", "attribute" };
static const unsigned asking_line[WAYS] = { 5, 5, 3, 4 };

/* What is expected: Permit where it is 100, NotApplicable where not, else Indeterminate for one of two reasons. */
enum outcome { YES, NO, MISSING, SEVERAL };
static const struct {
    enum bachumoi_answer decision;
    enum bachumoi_status status;
    const char *words;
} outcomes[] = {
    [YES] = { BACHUMOI_PERMIT, BACHUMOI_NO_STATUS, "Permit" },
    [NO] = { BACHUMOI_NOT_APPLICABLE, BACHUMOI_NO_STATUS, "NotApplicable" },
    [MISSING] = { BACHUMOI_INDETERMINATE, BACHUMOI_MISSING_ATTRIBUTE, "missing" },
    [SEVERAL] = { BACHUMOI_INDETERMINATE, BACHUMOI_PROCESSING_ERROR, "several" },
};

static int failed;

static void *lend(size_t bytes)
{
    void *memory = malloc(bytes);
    if (!memory)
        exit(2);
    memset(memory, 0, bytes);
    return memory;
}

/* ---- Books and requests ------------------------------------------------------------------------------------ */

/* Puts the kind, choice and span of a record that is all zeros; returns the next. */
static uint8_t *put(uint8_t *record, uint8_t kind, uint8_t choice, uint8_t span)
{
    record[0] = kind;
    record[1] = choice;
    record[3] = span;
    return record + BACHUMOI_RECORD;
}

static void put_issuer(uint8_t *at, unsigned issuer)
{
    at[BACHUMOI_ISSUER] = (uint8_t)(issuer >> 8);
    at[BACHUMOI_ISSUER + 1] = (uint8_t)issuer;
}

/* A record that asks for the pressure, and of whom; compared with a value where it has one. */
static uint8_t *put_asking(uint8_t *record, uint8_t kind, uint8_t choice, uint8_t type, uint8_t value, unsigned issuer)
{
    record[4] = RESOURCE;
    record[5] = type;
    record[7] = PRESSURE;
    record[15] = value;
    put_issuer(record, issuer);
    return put(record, kind, choice, 1);
}

/* A policy with a Permit rule that applies when the pressure of this issuer is 100. */
static uint8_t *lend_book(enum way way, unsigned issuer, size_t *len)
{
    uint8_t span = way == BY_COMPARISON ? 3 : 5;
    *len = (size_t)span * BACHUMOI_RECORD;
    uint8_t *book = lend(*len), *record = put(book, POLICY, FIRST_APPLICABLE, span);
    record = put(record, RULE, PERMIT, span - 1);
    if (way == BY_COMPARISON) {
        put_asking(record, CONDITION, COMPARISON + EQUAL, INTEGER, 100, issuer);
    } else if (way == BY_ATTRIBUTE) {
        record = put(record, CONDITION, COMPARISON_OF_VALUES + EQUAL, 3);
        record = put_asking(record, VALUE, ATTRIBUTE, INTEGER, 0, issuer);
        record[5] = INTEGER;
        record[15] = 100;
        put(record, VALUE, LITERAL, 1);
    } else {
        record[4] = RESOURCE;
        record = put(record, SECTION, 0, 3);
        record = put(record, CONJUNCTION, 0, 2);
        put_asking(record, MATCH, EQUAL, way == BY_MATCH ? INTEGER : INTEGER + MUST_BE_PRESENT, 100, issuer);
    }
    return book;
}

/* A pressure, and who vouches for it. */
struct vouched {
    unsigned issuer;
    uint8_t value;
};

static uint8_t *lend_request(const struct vouched *pressures, size_t count)
{
    uint8_t *request = lend(count * BACHUMOI_RECORD);
    for (size_t i = 0; i < count; i++) {
        uint8_t *entry = request + i * BACHUMOI_RECORD;
        entry[0] = RESOURCE;
        entry[1] = INTEGER;
        entry[3] = PRESSURE;
        entry[15] = pressures[i].value;
        put_issuer(entry, pressures[i].issuer);
    }
    return request;
}

/* ---- Asking ------------------------------------------------------------------------------------------------ */

/* A book and a request. */
struct question {
    uint8_t *book, *request;
    size_t book_len, request_len;
};

static uint64_t decide(struct question q)
{
    return bachumoi_decide(q.book, q.book_len, q.request, q.request_len, NULL, 0);
}

/* The last number of the translated programme's run, a step a tick, but for its steps; or what is refused. */
static uint64_t in_ticks(struct question q)
{
    size_t room = BACHUMOI_ROOM(q.book_len / BACHUMOI_RECORD);
    uint64_t *programme = lend(room * sizeof *programme), *numbers = lend(BACHUMOI_NUMBERS * sizeof *numbers);
    uint16_t *places = lend(BACHUMOI_PLACES * sizeof *places), *out = lend(BACHUMOI_PLACES * sizeof *out);
    uint64_t number = bachumoi_translate(q.book, q.book_len, programme, room);
    size_t entries = bachumoi_entries(number);
    if (entries > 0)
        number = bachumoi_fresh(numbers, BACHUMOI_NUMBERS, places, BACHUMOI_PLACES);
    for (size_t i = 0; i < entries && bachumoi_answer(number) == BACHUMOI_RUNNING; i++)
        number = bachumoi_tick(programme, entries, q.request, q.request_len, numbers, BACHUMOI_NUMBERS, places,
                               BACHUMOI_PLACES, 1, out, BACHUMOI_PLACES);
    free(programme);
    free(numbers);
    free(places);
    free(out);
    return bachumoi_refused(number) ? number : number & 0xFFFFFFFF;
}

static void ask(enum way way, unsigned issuer, const struct vouched *pressures, size_t count, enum outcome expected)
{
    uint64_t decision = outcomes[expected].decision, status = outcomes[expected].status;
    struct question q = { .request = lend_request(pressures, count), .request_len = count * BACHUMOI_RECORD };
    q.book = lend_book(way, issuer, &q.book_len);
    int right = decide(q) == (decision | status << 40) && in_ticks(q) == (decision | status << 24);
    printf("%17s", right ? outcomes[expected].words : "WRONG");
    failed |= !right;
    free(q.book);
    free(q.request);
}

/* ---- Who is asked, and who vouches ------------------------------------------------------------------------- */

/* A row of the table: whose value is asked for, what the request has, and what each way of asking gives. */
static const struct row {
    const char *what;
    unsigned issuer;
    size_t count;
    struct vouched pressures[2];
    enum outcome expected[WAYS];
} rows[] = {
    { "5's: none", MAKER, 0, { { 0 } }, { NO, MISSING, MISSING, MISSING } },
    { "5's: 100 by 5", MAKER, 1, { { MAKER, 100 } }, { YES, YES, YES, YES } },
    { "5's: 100 by 9", MAKER, 1, { { OTHER, 100 } }, { NO, MISSING, MISSING, MISSING } },
    { "5's: 100 by nobody", MAKER, 1, { { NOBODY, 100 } }, { NO, MISSING, MISSING, MISSING } },
    { "5's: 100 by 1,280", MAKER, 1, { { TURNED, 100 } }, { NO, MISSING, MISSING, MISSING } },
    { "5's: 100 by 9, 90 by 5", MAKER, 2, { { OTHER, 100 }, { MAKER, 90 } }, { NO, NO, NO, NO } },
    { "5's: 90 by 9, 100 by 5", MAKER, 2, { { OTHER, 90 }, { MAKER, 100 } }, { YES, YES, YES, YES } },
    { "5's: 100 by 5, 90 by nobody", MAKER, 2, { { MAKER, 100 }, { NOBODY, 90 } }, { YES, YES, YES, YES } },
    { "5's: 90 by 5, 100 by 5", MAKER, 2, { { MAKER, 90 }, { MAKER, 100 } }, { YES, YES, SEVERAL, SEVERAL } },
    { "anyone's: none", ANYONE, 0, { { 0 } }, { NO, MISSING, MISSING, MISSING } },
    { "anyone's: 100 by 5", ANYONE, 1, { { MAKER, 100 } }, { YES, YES, YES, YES } },
    { "anyone's: 100 by 9", ANYONE, 1, { { OTHER, 100 } }, { YES, YES, YES, YES } },
    { "anyone's: 100 by nobody", ANYONE, 1, { { NOBODY, 100 } }, { YES, YES, YES, YES } },
    { "anyone's: 90 by 5, 100 by 9", ANYONE, 2, { { MAKER, 90 }, { OTHER, 100 } }, { YES, YES, SEVERAL, SEVERAL } },
};

static void who_vouches(void)
{
    printf("%-30s", "asked for, and there");
    for (enum way way = BY_MATCH; way < WAYS; way++)
        printf("%17s", ways[way]);
    printf("\n");
    for (const struct row *row = rows; row != rows + sizeof rows / sizeof *rows; row++) {
        printf("%-30s", row->what);
        for (enum way way = BY_MATCH; way < WAYS; way++)
            ask(way, row->issuer, row->pressures, row->count, row->expected[way]);
        printf("\n");
    }
}

/* ---- Bytes 16 to 19 ---------------------------------------------------------------------------------------- */

/* With 1 in each of these bytes of a record or entry by itself, the question is refused so by both calls; but for one
 * that may have an issuer, when it is decided. */
static int judges(struct question q, uint8_t *at, int may_have_issuer, uint64_t refusal)
{
    int right = 1;
    for (unsigned byte = BACHUMOI_ISSUER; byte < BACHUMOI_RECORD; byte++) {
        at[byte] ^= 1;
        if (may_have_issuer && byte < BACHUMOI_ISSUER + 2)
            right &= bachumoi_decided(decide(q)) && bachumoi_decided(in_ticks(q));
        else
            right &= decide(q) == refusal && in_ticks(q) == refusal;
        at[byte] ^= 1;
    }
    return right;
}

static uint64_t broken_field(unsigned part, unsigned line)
{
    return 255 + 256 * 5 + 65536 * (uint64_t)line + 4294967296 * (uint64_t)part;
}

static void last_bytes(enum way way)
{
    static const struct vouched pressures[2] = { { MAKER, 100 }, { OTHER, 90 } };
    struct question q = { .request = lend_request(pressures, 2), .request_len = 2 * BACHUMOI_RECORD };
    q.book = lend_book(way, MAKER, &q.book_len);
    int right = 1;
    for (unsigned line = 1; line <= q.book_len / BACHUMOI_RECORD; line++)
        right &= judges(q, q.book + (line - 1) * BACHUMOI_RECORD, line == asking_line[way], broken_field(1, line));
    for (unsigned line = 1; line <= 2; line++)
        right &= judges(q, q.request + (line - 1) * BACHUMOI_RECORD, 1, broken_field(2, line));
    printf("%17s", right ? "refused" : "WRONG");
    failed |= !right;
    free(q.book);
    free(q.request);
}

int main(void)
{
    who_vouches();
    printf("%-30s", "other bytes 16 to 19");
    for (enum way way = BY_MATCH; way < WAYS; way++)
        last_bytes(way);
    printf("\n%s\n", failed ? "issuers: not as document 02 says" : "issuers: ok");
    return failed;
}

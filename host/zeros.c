/* A C host: the two zeros of doubles, document 02, 2. Asks each of them as literal and as request value, by every
 * function, in a match and in a comparison, through bachumoi_decide and in ticks of one step, and prints which hold: the
 * zeros are equal. The same bytes as names are told apart.
 *
 * All that is lent stands in heap buffers of exactly the lent length, so that fences and valgrind see any byte read or
 * written beside them. Exit status 0 if all is as document 02 says, else 1. host/run builds and runs it.
 */
#include <bachumoi.h>

#include <stdio.h>
#include <stdlib.h>
#include <string.h>

enum { POLICY = 2, RULE, SECTION, CONJUNCTION, MATCH, CONDITION };
enum { NAME = 2, DOUBLE };
enum { FIRST_APPLICABLE = 3, PERMIT = 1, COMPARISON = 10, ENVIRONMENT = 4 };

static const uint64_t zero, minus_zero = (uint64_t)1 << 63;
static int failed;

static void *lend(size_t bytes)
{
    void *memory = malloc(bytes);
    if (!memory)
        exit(2);
    memset(memory, 0, bytes);
    return memory;
}

/* What is asked: a function of a literal and the value of environment attribute 3, both of this type. */
struct question {
    unsigned function, type;
    uint64_t literal, value;
};

static void put_value(uint8_t *at, uint64_t value)
{
    for (int i = 0; i < 8; i++)
        at[i] = (uint8_t)(value >> (56 - 8 * i));
}

static uint8_t *put(uint8_t *record, uint8_t kind, uint8_t choice, uint8_t span)
{
    record[0] = kind;
    record[1] = choice;
    record[3] = span;
    return record + BACHUMOI_RECORD;
}

static void put_test(uint8_t *record, uint8_t kind, uint8_t choice, const struct question *q)
{
    put(record, kind, choice, 1);
    record[4] = ENVIRONMENT;
    record[5] = (uint8_t)q->type;
    record[7] = 3;
    put_value(record + 8, q->literal);
}

/* A policy with a Permit rule that applies when the question is answered yes: by a match, or by a comparison. */
static uint8_t *lend_book(const struct question *q, int by_match, size_t *len)
{
    uint8_t span = by_match ? 5 : 3;
    *len = (size_t)span * BACHUMOI_RECORD;
    uint8_t *book = lend(*len), *record = put(book, POLICY, FIRST_APPLICABLE, span);
    record = put(record, RULE, PERMIT, span - 1);
    if (by_match) {
        record[4] = ENVIRONMENT;
        record = put(record, SECTION, 0, 3);
        record = put(record, CONJUNCTION, 0, 2);
        put_test(record, MATCH, (uint8_t)q->function, q);
    } else {
        put_test(record, CONDITION, (uint8_t)(COMPARISON + q->function), q);
    }
    return book;
}

static uint8_t *lend_request(const struct question *q)
{
    uint8_t *entry = lend(BACHUMOI_RECORD);
    entry[0] = ENVIRONMENT;
    entry[1] = (uint8_t)q->type;
    entry[3] = 3;
    put_value(entry + 8, q->value);
    return entry;
}

/* The same question of the translated programme, a step a tick. */
static uint64_t in_ticks(const uint8_t *book, size_t len, const uint8_t *request)
{
    size_t room = BACHUMOI_ROOM(len / BACHUMOI_RECORD);
    uint64_t *programme = lend(room * sizeof *programme), *numbers = lend(BACHUMOI_NUMBERS * sizeof *numbers);
    uint16_t *places = lend(BACHUMOI_PLACES * sizeof *places), *out = lend(BACHUMOI_PLACES * sizeof *out);
    size_t entries = bachumoi_entries(bachumoi_translate(book, len, programme, room));
    uint64_t number = bachumoi_fresh(numbers, BACHUMOI_NUMBERS, places, BACHUMOI_PLACES);
    for (size_t i = 0; i < entries && bachumoi_answer(number) == BACHUMOI_RUNNING; i++)
        number = bachumoi_tick(programme, entries, request, BACHUMOI_RECORD, numbers, BACHUMOI_NUMBERS, places,
                               BACHUMOI_PLACES, 1, out, BACHUMOI_PLACES);
    free(programme);
    free(numbers);
    free(places);
    free(out);
    return number & 0xFFFFFFFF;
}

/* The decision, which must be the one expected, by a match and by a comparison, at once and in ticks. */
static void ask(const struct question *q, int yes)
{
    uint64_t expected = yes ? BACHUMOI_PERMIT : BACHUMOI_NOT_APPLICABLE;
    uint8_t *request = lend_request(q);
    int right = 1;
    for (int by_match = 0; by_match < 2; by_match++) {
        size_t len;
        uint8_t *book = lend_book(q, by_match, &len);
        right &= bachumoi_decide(book, len, request, BACHUMOI_RECORD, NULL, 0) == expected;
        right &= in_ticks(book, len, request) == expected;
        free(book);
    }
    free(request);
    printf("%9s", right ? yes ? "yes" : "no" : "WRONG");
    failed |= !right;
}

static void row(const char *what, unsigned function, unsigned type, int of_same, int of_other)
{
    printf("%-26s", what);
    for (int pair = 0; pair < 4; pair++) {
        struct question q = { function, type, pair < 2 ? zero : minus_zero, pair % 2 == 0 ? zero : minus_zero };
        ask(&q, q.literal == q.value ? of_same : of_other);
    }
    printf("\n");
}

int main(void)
{
    printf("%-26s%9s%9s%9s%9s\n", "literal, request value", "0, 0", "0, -0", "-0, 0", "-0, -0");
    row("doubles: equal", 1, DOUBLE, 1, 1);
    row("doubles: greater", 2, DOUBLE, 0, 0);
    row("doubles: greater or equal", 3, DOUBLE, 1, 1);
    row("doubles: less", 4, DOUBLE, 0, 0);
    row("doubles: less or equal", 5, DOUBLE, 1, 1);
    row("the same bytes as names", 1, NAME, 1, 0);
    printf("%s\n", failed ? "zeros: not as document 02 says" : "zeros: ok");
    return failed;
}

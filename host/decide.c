/* A C host: decides book A of document 01 through bachumoi_decide, prints a table, and checks every number and byte.
 *
 * All that is lent stands in heap buffers of exactly the lent length, so that fences and valgrind see any byte read or
 * written beside them.
 * Exit status 0 if all is as document 01 says, else 1. host/run builds and runs it.
 */
#include <bachumoi.h>

#include <stdio.h>
#include <stdlib.h>
#include <string.h>

enum { RECORD = BACHUMOI_RECORD, UNTOUCHED = 0xEE };
enum { SHORT_RECORD = BACHUMOI_ISSUER }; /* one without an issuer, which a text may have and a call may not */

#define ZEROS_4 0, 0, 0, 0
#define ZEROS_8 ZEROS_4, ZEROS_4
#define ZEROS_12 ZEROS_4, ZEROS_8
#define ZEROS_16 ZEROS_8, ZEROS_8

static const uint8_t book_a[6 * RECORD] = {
    0x02, 0x01, 0, 6, ZEROS_16,                         /* policy, deny-overrides */
    0x03, 0x01, 0, 1, ZEROS_16,                         /* rule, Permit */
    0x03, 0x02, 0, 2, ZEROS_16,                         /* rule, Deny, under the condition */
    0x07, 0x0C, 0, 1, 4, 1, 0, 7, ZEROS_4, 0, 0, 0, 50, ZEROS_4,  /* 50 > integer environment attribute 7, anyone's */
    0x08, 0x01, 0, 1, 0, 0, 0, 17, ZEROS_12,            /* obligation 17 on Permit */
    0x08, 0x02, 0, 1, 0, 0, 0, 18, ZEROS_12,            /* obligation 18 on Deny */
};

/* Bytes with their length. */
struct bytes {
    const uint8_t *at;
    size_t len;
};

static int failed, null_for_empty = 1;

/* A copy on the heap, of exactly this length; for an empty one NULL, or an address with no byte behind it. */
static uint8_t *lend(struct bytes bytes)
{
    if (bytes.len == 0)
        return null_for_empty ? NULL : malloc(0);
    uint8_t *copy = malloc(bytes.len);
    if (!copy)
        exit(2);
    memcpy(copy, bytes.at, bytes.len);
    return copy;
}

static const char *words_of(enum bachumoi_status status)
{
    switch (status) {
    case BACHUMOI_NO_STATUS:
        return "no code";
    case BACHUMOI_MISSING_ATTRIBUTE:
        return "missing attribute";
    case BACHUMOI_PROCESSING_ERROR:
        return "processing error";
    }
    return "no such code";
}

static void print_answer(uint64_t answer)
{
    switch (bachumoi_answer(answer)) {
    case BACHUMOI_RUNNING:
        printf("running, which no decision is");
        break;
    case BACHUMOI_PERMIT:
        printf("Permit");
        break;
    case BACHUMOI_DENY:
        printf("Deny");
        break;
    case BACHUMOI_NOT_APPLICABLE:
        printf("NotApplicable");
        break;
    case BACHUMOI_INDETERMINATE:
        printf("Indeterminate, %s", words_of(bachumoi_decide_status(answer)));
        break;
    case BACHUMOI_REFUSED:
        printf("refused %u, part %u, line %u", bachumoi_number(answer), bachumoi_part(answer), bachumoi_line(answer));
    }
}

static int same(const uint8_t *a, const uint8_t *b, size_t len)
{
    return len == 0 || memcmp(a, b, len) == 0;
}

/* Decides, prints the row, and compares: the number with answer, out with the bytes left in it; book and request must
 * have kept theirs. */
static void expect(const char *name, struct bytes book, struct bytes request, uint64_t answer, struct bytes left)
{
    uint8_t *lent_book = lend(book), *lent_request = lend(request), *out = lend(left);
    if (left.len > 0)
        memset(out, UNTOUCHED, left.len);
    uint64_t got = bachumoi_decide(lent_book, book.len, lent_request, request.len, out, left.len);
    int right = got == answer && same(out, left.at, left.len) && same(lent_book, book.at, book.len) &&
                same(lent_request, request.at, request.len);

    printf("%-34s 0x%-12llX ", name, (unsigned long long)got);
    print_answer(got);
    for (unsigned i = 0; i < bachumoi_count(got) && 2 * i + 1 < left.len; i++)
        printf(" %u", (unsigned)out[2 * i] << 8 | out[2 * i + 1]);
    printf("%s\n", right ? "" : "   WRONG");
    failed |= !right;
    free(lent_book);
    free(lent_request);
    free(out);
}

static uint64_t decided(unsigned decision, unsigned count)
{
    return decision + 256 * (uint64_t)count;
}

static uint64_t indeterminate(enum bachumoi_status status)
{
    return BACHUMOI_INDETERMINATE + 1099511627776 * (uint64_t)status;
}

static uint64_t refused(unsigned number, unsigned part, unsigned line)
{
    return 255 + 256 * (uint64_t)number + 65536 * (uint64_t)line + 4294967296 * (uint64_t)part;
}

/* An entry: this integer as environment attribute 7, which nobody vouches for. */
static void put_integer(uint8_t *entry, int64_t value)
{
    static const uint8_t key[RECORD] = { 4, 1, 0, 7 };
    memcpy(entry, key, RECORD);
    for (int i = 0; i < 8; i++)
        entry[8 + i] = (uint8_t)((uint64_t)value >> (56 - 8 * i));
}

/* Output as it is left: obligation 17, 18, none, and untouched. */
static const uint8_t left_17[8] = { 0, 17 }, left_18[8] = { 0, 18 }, left_none[8] = { 0 };
static uint8_t left_alone[8];

static const struct bytes empty = { NULL, 0 }, a = { book_a, sizeof book_a };

static struct bytes first(const uint8_t *at, size_t len)
{
    return (struct bytes){ at, len };
}

static struct bytes entries(uint8_t *buffer, unsigned count, int64_t value)
{
    for (unsigned i = 0; i < count; i++)
        put_integer(buffer + RECORD * i, value);
    return first(buffer, (size_t)RECORD * count);
}

static void worked_book(void)
{
    uint8_t q[2 * RECORD];
    expect("P1 no entry", a, empty, indeterminate(BACHUMOI_MISSING_ATTRIBUTE), first(left_none, 4));
    expect("P2 60", a, entries(q, 1, 60), decided(1, 1), first(left_17, 4));
    expect("P3 40", a, entries(q, 1, 40), decided(2, 1), first(left_18, 4));
    expect("P4 50", a, entries(q, 1, 50), decided(1, 1), first(left_17, 4));
    expect("P5 -1", a, entries(q, 1, -1), decided(2, 1), first(left_18, 4));
    expect("P6 40 twice", a, entries(q, 2, 40), indeterminate(BACHUMOI_PROCESSING_ERROR), first(left_none, 4));
    expect("40, room for more, an odd byte", a, entries(q, 1, 40), decided(2, 1), first(left_18, 7));
}

static void empty_slices(void)
{
    static const uint8_t bare[RECORD] = { 2, 1, 0, 1 };
    expect("no book", empty, empty, refused(3, 1, 0), empty);
    expect("no book, some output", empty, empty, refused(3, 1, 0), first(left_alone, 4));
    expect("no request, no output, none needed", first(bare, RECORD), empty, decided(3, 0), empty);
    expect("no output", a, empty, refused(7, 3, 0), empty);
}

static void book_refusals(void)
{
    static uint8_t long_book[1001 * RECORD];
    uint8_t spoilt[sizeof book_a];
    expect("a book of 19 bytes", first(book_a, RECORD - 1), empty, refused(4, 1, 0), first(left_alone, 4));
    expect("six records of 16 bytes", first(book_a, 6 * SHORT_RECORD), empty, refused(4, 1, 0), first(left_alone, 4));
    expect("1,001 records", first(long_book, sizeof long_book), empty, refused(2, 1, 0), first(left_alone, 4));
    memcpy(spoilt, book_a, sizeof spoilt);
    spoilt[3 * RECORD + 4] = 5;
    expect("line 4 of category 5", first(spoilt, sizeof spoilt), empty, refused(5, 1, 4), first(left_alone, 4));
}

/* 16 sets, one in the other, and in the last a record of this kind. */
static struct bytes nested(uint8_t *book, uint8_t kind)
{
    memset(book, 0, 17 * RECORD);
    for (unsigned i = 0; i < 17; i++) {
        book[RECORD * i] = i < 16 ? 1 : kind;
        book[RECORD * i + 1] = 1;
        book[RECORD * i + 3] = (uint8_t)(17 - i);
    }
    return first(book, 17 * RECORD);
}

/* The four place rules, and two of them at one line. */
static void place_refusals(void)
{
    uint8_t spoilt[sizeof book_a], deep[17 * RECORD];
    memcpy(spoilt, book_a, sizeof spoilt);
    spoilt[3] = 5;
    expect("line 1's span not the count", first(spoilt, sizeof spoilt), empty, refused(9, 1, 1), first(left_alone, 4));
    memcpy(spoilt, book_a, sizeof spoilt);
    spoilt[2 * RECORD + 3] = 5;
    expect("line 3 past its parent's end", first(spoilt, sizeof spoilt), empty, refused(10, 1, 3),
           first(left_alone, 4));
    memcpy(spoilt, book_a, sizeof spoilt);
    memcpy(spoilt + 5 * RECORD, book_a + RECORD, RECORD);
    expect("a rule after an obligation", first(spoilt, sizeof spoilt), empty, refused(11, 1, 6), first(left_alone, 4));
    expect("17 nested sets", nested(deep, 1), empty, refused(12, 1, 17), first(left_alone, 4));
    expect("a rule in 16 nested sets", nested(deep, 3), empty, refused(11, 1, 17), first(left_alone, 4));
}

static void other_refusals(void)
{
    uint8_t q[65 * RECORD];
    expect("65 entries", a, entries(q, 65, 40), refused(2, 2, 0), first(left_alone, 4));
    expect("a request of 21 bytes", a, first(q, RECORD + 1), refused(4, 2, 0), first(left_alone, 4));
    expect("a request of 16 bytes", a, first(q, SHORT_RECORD), refused(4, 2, 0), first(left_alone, 4));
    q[RECORD + 1] = 4;
    expect("entry 2 of type 4", a, first(q, 2 * RECORD), refused(5, 2, 2), first(left_alone, 4));
    expect("output one byte short", a, entries(q, 1, 40), refused(7, 3, 0), first(left_alone, 3));
    expect("64 entries of 40", a, entries(q, 64, 40), indeterminate(BACHUMOI_PROCESSING_ERROR), first(left_none, 4));
}

int main(void)
{
    memset(left_alone, UNTOUCHED, sizeof left_alone);
    worked_book();
    empty_slices();
    null_for_empty = 0;
    empty_slices();
    book_refusals();
    place_refusals();
    other_refusals();
    printf("%s\n", failed ? "host: not as document 01 says" : "host: ok");
    return failed;
}

/* A C host: translates book A of document 01, runs it in ticks, and checks every number and every buffer of the three
 * calls of librig.a, in sound calls and refused ones. Each run must answer as bachumoi_decide does, which is linked
 * beside them.
 *
 * All that is lent stands in heap buffers of exactly the lent length, so that fences and valgrind see any byte read or
 * written beside them. Exit status 0 if all is as include/bachumoi.h says, else 1. host/run builds and runs it.
 */
#include <bachumoi.h>

#include <stdio.h>
#include <stdlib.h>
#include <string.h>

static const char *const book_a[6] = {
    "0201000600000000000000000000000000000000", "0301000100000000000000000000000000000000",
    "0302000200000000000000000000000000000000", "070C000104010007000000000000003200000000",
    "0801000100000011000000000000000000000000", "0802000100000012000000000000000000000000",
};

/* Its programme, as docs/PROGRAMME.md has it. */
enum { A_RECORDS = 6, A_ENTRIES = 10, A_CONCLUDE = 6 };
static const uint64_t programme_a[A_ENTRIES] = {
    0x90, 0x85, 0x40100072D, 0x32, 0, 0x15, 0x28, 0x229, 0x259, 0xB,
};

static const uint64_t fresh_number = (uint64_t)1 << 57; /* the first number of the fresh state, as that page has it */

static int failed;

static void check(const char *what, int right)
{
    if (!right)
        printf("%s: WRONG\n", what);
    failed |= !right;
}

static uint64_t refused(unsigned number, unsigned part, unsigned line)
{
    return 255 + 256 * (uint64_t)number + 65536 * (uint64_t)line + 4294967296 * (uint64_t)part;
}

/* A buffer of exactly this many bytes, each 0xEE; NULL for none. */
static void *lend(size_t bytes)
{
    void *memory = bytes > 0 ? malloc(bytes) : NULL;
    if (bytes > 0 && !memory)
        exit(2);
    if (memory)
        memset(memory, 0xEE, bytes);
    return memory;
}

static int untouched(const void *memory, size_t bytes)
{
    for (size_t i = 0; i < bytes; i++)
        if (((const uint8_t *)memory)[i] != 0xEE)
            return 0;
    return 1;
}

/* ---- Translating and the fresh state ----------------------------------------------------------------------- */

static uint8_t *lend_book(void)
{
    uint8_t *book = lend(A_RECORDS * BACHUMOI_RECORD);
    for (unsigned i = 0; i < A_RECORDS * BACHUMOI_RECORD; i++)
        sscanf(book_a[i / BACHUMOI_RECORD] + 2 * (i % BACHUMOI_RECORD), "%2hhx", &book[i]);
    return book;
}

/* Translates the first bytes of book A into so much room. */
static void translates(const char *what, size_t book_len, size_t room, uint64_t expected)
{
    uint8_t *book = lend_book();
    uint64_t *programme = lend(room * sizeof *programme);
    uint64_t number = bachumoi_translate(book, book_len, programme, room);
    size_t entries = bachumoi_entries(number);
    check(what, number == expected && entries <= A_ENTRIES && (entries == 0 || entries == A_ENTRIES));
    check(what, entries == 0 || memcmp(programme, programme_a, sizeof programme_a) == 0);
    check(what, untouched(programme + entries, (room - entries) * sizeof *programme));
    free(book);
    free(programme);
}

static void translating(void)
{
    size_t bytes = A_RECORDS * BACHUMOI_RECORD;
    translates("book A in 8n + 8 numbers", bytes, BACHUMOI_ROOM(A_RECORDS), 256 * A_ENTRIES);
    translates("book A in more", bytes, BACHUMOI_MOST_PROGRAMME, 256 * A_ENTRIES);
    translates("book A in 8n + 7 numbers", bytes, BACHUMOI_ROOM(A_RECORDS) - 1, refused(7, 3, 0));
    translates("book A in none", bytes, 0, refused(7, 3, 0));
    translates("no book", 0, 0, refused(3, 1, 0));
    translates("a book cut short", bytes - 1, 0, refused(4, 1, 0));
    translates("a book without its last record", bytes - BACHUMOI_RECORD, 0, refused(9, 1, 1));
}

static void makes_fresh(const char *what, size_t numbers_len, size_t places_len, uint64_t expected)
{
    uint64_t *numbers = lend(numbers_len * sizeof *numbers);
    uint16_t *places = lend(places_len * sizeof *places);
    size_t made = expected == 0 ? BACHUMOI_NUMBERS : 0, cleared = expected == 0 ? BACHUMOI_PLACES : 0;
    check(what, bachumoi_fresh(numbers, numbers_len, places, places_len) == expected);
    for (size_t i = 0; i < made; i++)
        check(what, numbers[i] == (i == 0 ? fresh_number : 0));
    for (size_t i = 0; i < cleared; i++)
        check(what, places[i] == 0);
    check(what, untouched(numbers + made, (numbers_len - made) * sizeof *numbers));
    check(what, untouched(places + cleared, (places_len - cleared) * sizeof *places));
    free(numbers);
    free(places);
}

static void fresh_states(void)
{
    makes_fresh("a fresh state", BACHUMOI_NUMBERS, BACHUMOI_PLACES, 0);
    makes_fresh("a fresh state in more", BACHUMOI_NUMBERS + 2, BACHUMOI_PLACES + 3, 0);
    makes_fresh("32 numbers", BACHUMOI_NUMBERS - 1, BACHUMOI_PLACES, refused(7, 3, 0));
    makes_fresh("999 places", BACHUMOI_NUMBERS, BACHUMOI_PLACES - 1, refused(7, 3, 0));
    makes_fresh("nothing", 0, 0, refused(7, 3, 0));
}

/* ---- Ticks ------------------------------------------------------------------------------------------------- */

/* What a tick is lent, each of its own length. */
struct lent {
    uint64_t *programme, *numbers;
    uint16_t *places, *out;
    uint8_t *request;
    size_t programme_len, numbers_len, places_len, out_len, request_len;
};

/* Book A's programme, a fresh state, and a request of so many entries of this value in environment attribute 7. */
static struct lent lend_run(unsigned entries, int64_t value)
{
    struct lent l = { .programme_len = A_ENTRIES, .numbers_len = BACHUMOI_NUMBERS, .places_len = BACHUMOI_PLACES,
                      .out_len = BACHUMOI_PLACES, .request_len = (size_t)entries * BACHUMOI_RECORD };
    l.programme = lend(sizeof programme_a);
    memcpy(l.programme, programme_a, sizeof programme_a);
    l.numbers = lend(l.numbers_len * sizeof *l.numbers);
    l.places = lend(l.places_len * sizeof *l.places);
    l.out = lend(l.out_len * sizeof *l.out);
    l.request = lend(l.request_len);
    for (size_t i = 0; i < l.request_len; i += BACHUMOI_RECORD) {
        static const uint8_t key[BACHUMOI_RECORD] = { 4, 1, 0, 7 };
        memcpy(l.request + i, key, sizeof key);
        for (int k = 0; k < 8; k++)
            l.request[i + 8 + (size_t)k] = (uint8_t)((uint64_t)value >> (56 - 8 * k));
    }
    bachumoi_fresh(l.numbers, l.numbers_len, l.places, l.places_len);
    return l;
}

static void give_back(struct lent l)
{
    free(l.programme);
    free(l.numbers);
    free(l.places);
    free(l.out);
    free(l.request);
}

static uint64_t tick(struct lent l, uint64_t budget)
{
    return bachumoi_tick(l.programme, l.programme_len, l.request, l.request_len, l.numbers, l.numbers_len, l.places,
                         l.places_len, budget, l.out, l.out_len);
}

/* The answer of a finished tick and its output, against bachumoi_decide. */
static void decides_alike(const char *what, struct lent l, uint64_t number)
{
    uint8_t *book = lend_book(), *out = lend(4);
    uint64_t decided = bachumoi_decide(book, A_RECORDS * BACHUMOI_RECORD, l.request, l.request_len, out, 4);
    uint64_t answer = bachumoi_answer(number) + 256 * (uint64_t)bachumoi_count(number);
    check(what, decided == answer + 1099511627776 * (uint64_t)bachumoi_tick_status(number));
    check(what, (number & 0xFFFFFFFF) == answer + 16777216 * (uint64_t)bachumoi_decide_status(decided));
    for (size_t i = 0; i < l.out_len; i++)
        check(what, l.out[i] == (i < 2 ? out[2 * i] << 8 | out[2 * i + 1] : 0));
    free(book);
    free(out);
}

/* Runs in ticks of 0 and of budget steps in turn; the whole run takes so many. */
static void runs(const char *what, unsigned entries, int64_t value, uint64_t budget, uint64_t expected)
{
    struct lent l = lend_run(entries, value);
    uint64_t number = 0, steps = 0, ticks = 0;
    while (bachumoi_answer(number) == BACHUMOI_RUNNING && ticks++ < 100) {
        check(what, tick(l, 0) == 0);
        number = tick(l, budget);
        steps += bachumoi_steps(number);
        if (bachumoi_answer(number) == BACHUMOI_RUNNING)
            check(what, number == budget << 32 && untouched(l.out, l.out_len * sizeof *l.out));
    }
    check(what, bachumoi_decided(number) && steps == expected && ticks == (expected + budget - 1) / budget);
    decides_alike(what, l, number);
    memset(l.out, 0xEE, l.out_len * sizeof *l.out);
    check(what, tick(l, UINT64_MAX) == (number & 0xFFFFFFFF));
    decides_alike(what, l, number);
    printf("%-10s steps %2u  ticks %2u  decision %u  obligations %u  code %u\n", what, (unsigned)steps,
           (unsigned)ticks, (unsigned)bachumoi_answer(number), bachumoi_count(number),
           (unsigned)bachumoi_tick_status(number));
    give_back(l);
}

static void worked_book(void)
{
    runs("P1 none", 0, 0, 3, 6);
    runs("P2 60", 1, 60, 1, 8);
    runs("P3 40", 1, 40, 5, 8);
    runs("P4 50", 1, 50, 8, 8);
    runs("P5 -1", 1, -1, 7, 8);
    runs("P6 twice", 2, 40, 100, 6);
}

/* ---- Refused ticks ----------------------------------------------------------------------------------------- */

/* A tick of l is refused so, and leaves state and output as they were. */
static void refuses(const char *what, struct lent l, uint64_t budget, uint64_t expected)
{
    uint64_t numbers[BACHUMOI_NUMBERS];
    uint16_t places[BACHUMOI_PLACES];
    memcpy(numbers, l.numbers, sizeof numbers);
    memcpy(places, l.places, sizeof places);
    uint64_t number = tick(l, budget);
    check(what, number == expected && bachumoi_answer(number) == BACHUMOI_REFUSED && bachumoi_steps(number) == 0);
    check(what, memcmp(numbers, l.numbers, sizeof numbers) == 0 && memcmp(places, l.places, sizeof places) == 0);
    check(what, untouched(l.out, BACHUMOI_PLACES * sizeof *l.out));
}

/* Request, then output, then programme and state. */
static void order_of_refusals(void)
{
    struct lent l = lend_run(1, 40), all = l;
    all.request_len = BACHUMOI_RECORD - 1;
    all.out_len = BACHUMOI_PLACES - 1;
    all.programme_len = 0;
    refuses("a request of 19 bytes, and more", all, 1, refused(4, 2, 0));
    all.request_len = BACHUMOI_RECORD;
    l.request[1] = 4;
    refuses("an entry of type 4, and more", all, 1, refused(5, 2, 1));
    l.request[1] = 1;
    l.request[BACHUMOI_RECORD - 1] = 1;
    refuses("an entry whose last byte is 1, and more", all, 1, refused(5, 2, 1));
    l.request[BACHUMOI_RECORD - 1] = 0;
    refuses("an output of 999 places, and more", all, 1, refused(7, 3, 0));
    all.out_len = BACHUMOI_PLACES;
    refuses("no programme", all, 0, refused(8, 4, 0));
    give_back(l);
}

static void bad_states(void)
{
    struct lent l = lend_run(1, 40), part = l;
    part.numbers_len = BACHUMOI_NUMBERS - 1;
    refuses("32 numbers of a state", part, 0, refused(8, 4, 0));
    part = l;
    part.places_len = BACHUMOI_PLACES - 1;
    refuses("999 places of a state", part, 0, refused(8, 4, 0));
    part = l;
    part.programme_len = BACHUMOI_MOST_PROGRAMME + 1;
    part.programme = lend(part.programme_len * sizeof *part.programme);
    refuses("8,009 entries", part, 0, refused(8, 4, 0));
    free(part.programme);
    l.numbers[0] = (uint64_t)17 << 13;
    refuses("a state with 17 open", l, 0, refused(8, 4, 0));
    give_back(l);
}

/* Book A's fifth step meets an entry that is none: four steps are taken, a fifth is refused. */
static void bad_entry(uint64_t entry)
{
    struct lent l = lend_run(1, 40);
    l.programme[A_CONCLUDE] = entry;
    refuses("five steps", l, 5, refused(8, 4, 0));
    check("four steps", tick(l, 4) == (uint64_t)4 << 32);
    refuses("one step more", l, 1, refused(8, 4, 0));
    check("no step more", tick(l, 0) == 0);
    give_back(l);
}

/* No entry has the number 2, 14 or 15; 13 is a comparison, which has two entries more. */
static void bad_entries(void)
{
    bad_entry(2);
    bad_entry(14);
    bad_entry(15);
    struct lent l = lend_run(1, 40);
    l.programme[A_ENTRIES - 2] = 13;
    refuses("a comparison cut short", l, 8, refused(8, 4, 0));
    give_back(l);
}

int main(void)
{
    translating();
    fresh_states();
    worked_book();
    order_of_refusals();
    bad_states();
    bad_entries();
    printf("%s\n", failed ? "ticks: not as bachumoi.h says" : "ticks: ok");
    return failed;
}

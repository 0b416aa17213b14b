/* Programmes counted: entries for each record of the book, and steps for each record that an evaluation from left
 * to right which stops early looks at. On the way, every programme and every run is checked: Bachumoi's programmes
 * are those of plain C, number for number; runs answer as plain C decides; and on damaged programmes and states
 * both sides leave the same. Run from the top of the repository; built by bench/run. */
#include "machine.h"
#include "plain.h"

#include <stdbool.h>
#include <stdio.h>
#include <string.h>

enum { BOOKS = 1000, REQUESTS = 8, DAMAGED = 40000 };

static uint8_t book[MOST_BOOK], request[MOST_REQUEST];
static struct programme programme;
static struct dice dice = { 20 }, dealing = { 21 };

/* What is counted over some books: how many, their records and entries, and the most entries beyond four a record; over
 * their runs: how many, records looked at and steps. */
static struct counts {
    uint64_t books, records, entries, runs, looked, steps;
    long most_beyond;
} counts;

static void begin_counts(void)
{
    counts = (struct counts){ .most_beyond = -4 * MOST_BOOK };
}

/* One line of the table. */
static void end_counts(const char *name)
{
    const struct counts *c = &counts;
    printf("%s\t%llu\t%llu\t%llu\t%.2f\t%+ld\t", name, (unsigned long long)c->books, (unsigned long long)c->records,
           (unsigned long long)c->entries, (double)c->entries / (double)c->records, c->most_beyond);
    printf("%llu\t%llu\t%llu\t%.2f\n", (unsigned long long)c->runs, (unsigned long long)c->looked,
           (unsigned long long)c->steps, (double)c->steps / (double)c->looked);
}

static void one_book(size_t book_len)
{
    static struct programme theirs;
    long records = (long)(book_len / RECORD);
    translate(&plain_machine, book, book_len, &programme);
    if (proved_machine) {
        translate(proved_machine, book, book_len, &theirs);
        if (memcmp(&theirs, &programme, sizeof programme) != 0)
            wrong("another programme than plain C's", "translate");
    }
    counts.books++;
    counts.records += (uint64_t)records;
    counts.entries += programme.length;
    if ((long)programme.length - 4 * records > counts.most_beyond)
        counts.most_beyond = (long)programme.length - 4 * records;
}

/* Runs a request on a side, and compares with what was decided; returns the steps. */
static uint64_t run_like(const struct machine *machine, size_t request_len, uint64_t number, const uint8_t *decided)
{
    uint16_t out[BACHUMOI_PLACES];
    uint64_t steps;
    if (run(machine, &programme, request, request_len, &dealing, out, &steps) != number)
        wrong("another answer than was decided", "run");
    for (size_t i = 0; i < BACHUMOI_PLACES; i++)
        if (out[i] != (decided[2 * i] << 8 | decided[2 * i + 1]))
            wrong("other obligations than were decided", "run");
    return steps;
}

static void one_request(size_t book_len, size_t request_len)
{
    uint8_t decided[MOST_OUT];
    looked = 0;
    uint64_t number = counted_decide(book, book_len, request, request_len, decided, sizeof decided);
    if (!bachumoi_decided(number))
        wrong("plain C does not decide", "decide");
    uint64_t steps = run_like(&plain_machine, request_len, number, decided);
    if (proved_machine && run_like(proved_machine, request_len, number, decided) != steps)
        wrong("other steps than plain C's", "run");
    counts.runs++;
    counts.looked += looked;
    counts.steps += steps;
}

static void rig(void)
{
    FILE *answers = fopen("examples/rig/answers.txt", "r");
    char file[64], path[128];
    size_t book_len = bytes_of_file("examples/rig/BOOK.HEX", book, sizeof book);
    begin_counts();
    one_book(book_len);
    while (answers && fscanf(answers, "%63s %*s", file) == 1) {
        snprintf(path, sizeof path, "examples/rig/%s", file);
        one_request(book_len, bytes_of_file(path, request, sizeof request));
    }
    if (answers)
        fclose(answers);
    end_counts("rig");
}

static void grown(const char *what, size_t book_len, size_t (*ask)(uint8_t *request, size_t entries))
{
    char name[32];
    begin_counts();
    one_book(book_len);
    for (size_t entries = 1; entries <= 64; entries *= 8)
        one_request(book_len, ask(request, entries));
    snprintf(name, sizeof name, "%s %zu", what, book_len / RECORD);
    end_counts(name);
}

static void growth(void)
{
    for (size_t records = 10; records <= 1000; records *= 10)
        grown("growth", growth_book(book, records), growth_request);
    grown("sums", sums_book(book, 1000), growth_request);
    grown("issuers", issuers_book(book, 1000), issuers_request);
}

/* A book and a request by chance, with issuers or with none. */
static size_t make_book(size_t most, bool with_issuers)
{
    size_t book_len = random_book(book, 1 + roll(&dice, (unsigned)most), &dice);
    if (with_issuers)
        issuers_in_book(book, book_len, &dice);
    return book_len;
}

static size_t make_request(size_t most, bool with_issuers)
{
    size_t request_len = random_request(request, most, &dice);
    if (with_issuers)
        issuers_in_request(request, request_len, &dice);
    return request_len;
}

static void generated(const char *name, size_t most, bool with_issuers)
{
    static const size_t entries[4] = { 1, 8, 24, 64 };
    begin_counts();
    for (unsigned i = 0; i < BOOKS; i++) {
        size_t book_len = make_book(most, with_issuers);
        one_book(book_len);
        for (unsigned k = 0; k < REQUESTS; k++)
            one_request(book_len, make_request(entries[k % 4], with_issuers));
    }
    end_counts(name);
}

/* ---- Damaged programmes and states ------------------------------------------------------------------------- */

static uint64_t random_number(void)
{
    uint64_t number = 0;
    for (unsigned i = 0; i < 8; i++)
        number = number << 8 | roll(&dice, 256);
    return number >> roll(&dice, 64);
}

/* Spoils some numbers: a bit, all of one, or one put where another stood. */
static void damage(uint64_t *numbers, size_t count)
{
    for (unsigned left = roll(&dice, 6); left > 0; left--) {
        uint64_t *number = &numbers[roll(&dice, (unsigned)count)];
        switch (roll(&dice, 3)) {
        case 0:
            *number ^= (uint64_t)1 << roll(&dice, 64);
            break;
        case 1:
            *number = random_number();
            break;
        default:
            *number = numbers[roll(&dice, (unsigned)count)];
        }
    }
}

/* What an entry is, by its bits 0-3. */
enum { A_MATCH = 1, A_RULE = 5, A_COMPARISON = 13 };

/* Spoils some entries: another function, a literal that is no finite double, a way that leads just to the end or
 * beyond, a bit of the number where an issuer stands or would. */
static void damage_entries(void)
{
    for (unsigned left = roll(&dice, 6); left > 0; left--) {
        size_t place = roll(&dice, (unsigned)programme.length), behind = programme.length - place - 1;
        uint64_t *entry = &programme.entries[place];
        unsigned is = *entry & 15, further = is == A_MATCH || is == A_COMPARISON ? 2 : 0, how = roll(&dice, 4);
        unsigned way = is == A_MATCH ? 43 : is == A_COMPARISON ? 40 : is == A_RULE ? 5 : 4; /* where it begins */
        if (how == 0)
            *entry = (*entry & ~(uint64_t)0x70) | (uint64_t)roll(&dice, 8) << 4;
        else if (how == 1 && behind >= 1)
            entry[1] = 0x7FF0000000000000 | (uint64_t)roll(&dice, 2) << 63;
        else if (how == 2 && behind >= further)
            *entry = (*entry & (((uint64_t)1 << way) - 1)) | (behind - further + roll(&dice, 2)) << way;
        else if (how == 3 && behind >= further)
            entry[further] ^= (uint64_t)1 << roll(&dice, 64);
    }
}

/* From 0 to a limit; now and then just that, or one past it. */
static uint64_t about(unsigned limit)
{
    return roll(&dice, 8) == 0 ? limit + roll(&dice, 2) : roll(&dice, limit + 1);
}

/* A first number with every field within its limits, most of the time. */
static uint64_t random_first(size_t length)
{
    uint64_t cut = roll(&dice, 1001), rest = random_number() % 1024;
    return roll(&dice, (unsigned)length) | about(16) << 13 | about(14) << 18 | about(1000) << 22 |
           about(1000 - (unsigned)cut) << 32 | cut << 42 | rest << 52;
}

/* One tick on both sides: number, state and output must be the same. */
static void tick_alike(size_t request_len, const struct state *before, uint64_t budget)
{
    static struct state states[2];
    static uint16_t outs[2][BACHUMOI_PLACES];
    uint64_t numbers[2];
    for (unsigned i = 0; i < 2; i++) {
        const struct machine *machine = i == 0 ? &plain_machine : proved_machine;
        states[i] = *before;
        memset(outs[i], 0xEE, sizeof outs[i]);
        numbers[i] = tick(machine, &programme, request, request_len, &states[i], budget, outs[i]);
    }
    if (numbers[0] != numbers[1] || memcmp(&states[0], &states[1], sizeof states[0]) != 0 ||
        memcmp(outs[0], outs[1], sizeof outs[0]) != 0)
        wrong("a damaged programme or state runs otherwise than in plain C", "tick");
    if (bachumoi_refused(numbers[1]) && memcmp(&states[1], before, sizeof *before) != 0)
        wrong("a refused tick changed the state", "tick");
}

static void damaged(void)
{
    for (unsigned i = 0; proved_machine && i < DAMAGED; i++) {
        struct state state;
        uint16_t out[BACHUMOI_PLACES];
        size_t request_len = make_request(24, true);
        translate(&plain_machine, book, make_book(60, true), &programme);
        fresh(&plain_machine, &state);
        tick(&plain_machine, &programme, request, request_len, &state, roll(&dice, 2) == 0 ? 0 : roll(&dice, 20), out);
        if (roll(&dice, 4) == 0)
            damage(programme.entries, programme.length);
        if (roll(&dice, 2) == 0)
            damage_entries();
        if (roll(&dice, 4) == 0)
            state.numbers[0] = random_first(programme.length);
        if (roll(&dice, 4) == 0)
            damage(state.numbers, BACHUMOI_NUMBERS);
        for (unsigned k = roll(&dice, 4); k > 0; k--)
            state.places[roll(&dice, BACHUMOI_PLACES)] = (uint16_t)roll(&dice, 65536);
        tick_alike(request_len, &state, roll(&dice, 3) == 0 ? UINT64_MAX : roll(&dice, 60));
    }
}

int main(void)
{
    rig();
    growth();
    generated("generated, to 30", 30, false);
    generated("generated, to 1000", 1000, false);
    generated("issuers, to 30", 30, true);
    generated("issuers, to 1000", 1000, true);
    damaged();
    return 0;
}

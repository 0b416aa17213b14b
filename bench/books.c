#include "books.h"

#include <stdbool.h>
#include <stdio.h>
#include <stdlib.h>
#include <string.h>

static void stop(const char *what, const char *of)
{
    fprintf(stderr, "%s: %s\n", what, of);
    exit(2);
}

/* ---- Text -------------------------------------------------------------------------------------------------- */

static unsigned digit(const char *at)
{
    static const char digits[] = "0123456789ABCDEFabcdef";
    const char *found = *at ? strchr(digits, *at) : NULL;
    if (!found)
        stop("no hexadecimal digit", at);
    unsigned value = (unsigned)(found - digits);
    return value < 16 ? value : value - 6;
}

static uint8_t byte(const char *at)
{
    unsigned high = digit(at);
    return (uint8_t)(high << 4 | digit(at + 1));
}

size_t bytes_of_text(const char *text, uint8_t *bytes, size_t most)
{
    size_t len = 0, said = strcspn(text, "\n") == SHORT_LINE - 1 ? ISSUER : RECORD; /* bytes that a line says */
    for (; *text; len += RECORD) {
        if (len + RECORD > most)
            stop("too long a text", text);
        memset(bytes + len, 0, RECORD);
        for (size_t i = 0; i < said; i++)
            bytes[len + i] = byte(text + 2 * i);
        text += 2 * said;
        if (*text != '\n')
            stop("a line unlike line 1, at", text);
        text++;
    }
    return len;
}

size_t bytes_of_file(const char *path, uint8_t *bytes, size_t most)
{
    FILE *file = fopen(path, "rb");
    if (!file)
        stop("will not open", path);
    char *text = malloc(most * 3 + 2);
    size_t len = fread(text, 1, most * 3 + 1, file);
    text[len] = 0;
    fclose(file);
    len = bytes_of_text(text, bytes, most);
    free(text);
    return len;
}

/* ---- Records ----------------------------------------------------------------------------------------------- */

/* Where the next record goes. */
struct pen {
    uint8_t *at;
};

static void put_big(uint8_t *at, unsigned bytes, uint64_t number)
{
    while (bytes > 0) {
        at[--bytes] = (uint8_t)number;
        number >>= 8;
    }
}

static uint64_t bits(double d)
{
    uint64_t b;
    memcpy(&b, &d, sizeof b);
    return b;
}

static uint64_t name(const char *eight)
{
    uint64_t number = 0;
    for (int i = 0; i < 8; i++)
        number = number << 8 | (uint8_t)eight[i];
    return number;
}

static void put(struct pen *pen, unsigned kind, unsigned choice, size_t span, unsigned category, unsigned type,
                unsigned identifier, uint64_t value)
{
    uint8_t *r = pen->at;
    r[0] = (uint8_t)kind;
    r[1] = (uint8_t)choice;
    put_big(r + 2, 2, span);
    r[4] = (uint8_t)category;
    r[5] = (uint8_t)type;
    put_big(r + 6, 2, identifier);
    put_big(r + 8, 8, value);
    put_big(r + ISSUER, RECORD - ISSUER, 0);
    pen->at += RECORD;
}

static void put_entry(struct pen *pen, unsigned category, unsigned type, unsigned identifier, uint64_t value)
{
    uint8_t *e = pen->at;
    e[0] = (uint8_t)category;
    e[1] = (uint8_t)type;
    put_big(e + 2, 2, identifier);
    put_big(e + 4, 4, 0);
    put_big(e + 8, 8, value);
    put_big(e + ISSUER, RECORD - ISSUER, 0);
    pen->at += RECORD;
}

/* A record or entry is put with issuer 0; it has this one then. */
static void put_issuer(uint8_t *at, unsigned issuer)
{
    put_big(at + ISSUER, 2, issuer);
}

/* A match, a comparison or an attribute. */
static bool may_have_issuer(const uint8_t *record)
{
    unsigned kind = record[0], choice = record[1];
    return kind == 6 || (kind == 7 && choice >= 11 && choice <= 15) || (kind == 10 && choice == 2);
}

/* ---- Books that grow --------------------------------------------------------------------------------------- */

static const char channels[4][9] = { "PRESS-FL", "PRESS-FR", "PRESS-RL", "PRESS-RR" };

size_t growth_book(uint8_t *book, size_t records)
{
    struct pen pen = { book };
    if (records % 9 != 1)
        stop("growth_book", "records must be 1 more than a multiple of 9");
    put(&pen, 1, 2, records, 0, 0, 0, 0);                       /* set, permit-overrides */
    for (size_t i = 0; i < records / 9; i++) {
        put(&pen, 2, 1, 9, 0, 0, 0, 0);                         /* policy, deny-overrides */
        put(&pen, 4, 0, 3, 2, 0, 0, 0);
        put(&pen, 5, 0, 2, 0, 0, 0, 0);
        put(&pen, 6, 1, 1, 2, 2, 1, name(channels[i % 4]));     /* resource 1: the channel */
        put(&pen, 3, 1, 2, 0, 0, 0, 0);                         /* Permit if 80.0 > pressure */
        put(&pen, 7, 12, 1, 4, 3, 3, bits(80.0));
        put(&pen, 3, 2, 2, 0, 0, 0, 0);                         /* Deny if 36,000 <= time */
        put(&pen, 7, 15, 1, 4, 1, 1, 36000);
        put(&pen, 8, 2, 1, 0, 0, (unsigned)i, 0);
    }
    return (size_t)(pen.at - book);
}

/* The first operand plus the second is greater than the limit: double add, or integer add. */
static void put_sum(struct pen *pen, unsigned type, unsigned first, unsigned second, uint64_t limit)
{
    put(pen, 7, 22, 5, 0, 0, 0, 0);
    put(pen, 10, type == 3 ? 8 : 3, 3, 0, 0, 0, 0);
    put(pen, 10, 2, 1, 4, type, first, 0);
    put(pen, 10, 2, 1, 4, type, second, 0);
    put(pen, 10, 1, 1, 0, type, 0, limit);
}

size_t sums_book(uint8_t *book, size_t records)
{
    struct pen pen = { book };
    if (records % 9 != 1)
        stop("sums_book", "records must be 1 more than a multiple of 9");
    put(&pen, 1, 2, records, 0, 0, 0, 0);                       /* set, permit-overrides */
    for (size_t i = 0; i < records / 9; i++) {
        put(&pen, 2, 1, 9, 0, 0, 0, 0);                         /* policy, deny-overrides */
        put(&pen, 3, 1, 1, 0, 0, 0, 0);                         /* Permit */
        put(&pen, 3, 2, 6, 0, 0, 0, 0);
        if (i % 2 == 0)
            put_sum(&pen, 3, 3, 2, bits(100.0));                /* Deny if pressure + offset > 100.0 */
        else
            put_sum(&pen, 1, 1, 5, 36000);                      /* Deny if time + guard > 36,000 */
        put(&pen, 8, 2, 1, 0, 0, (unsigned)i, 0);
    }
    return (size_t)(pen.at - book);
}

size_t growth_request(uint8_t *request, size_t entries)
{
    struct pen pen = { request };
    for (size_t k = 8; k < entries; k++)                        /* samples that no rule asks for */
        put_entry(&pen, 4, 3, (unsigned)(0x100 + k), bits(0.5 * (double)k));
    put_entry(&pen, 2, 2, 1, name(channels[0]));
    if (entries >= 8) {
        put_entry(&pen, 1, 2, 1, name("ARGOLIN "));
        put_entry(&pen, 3, 2, 1, name("WRITE   "));
        put_entry(&pen, 4, 1, 5, 1);
        put_entry(&pen, 4, 3, 2, bits(12.5));
        put_entry(&pen, 4, 3, 4, bits(40.0));
        put_entry(&pen, 4, 3, 3, bits(91.5));                   /* pressure */
        put_entry(&pen, 4, 1, 1, 40000);                        /* time */
    }
    return (size_t)(pen.at - request);
}

/* ---- One maker's book and request -------------------------------------------------------------------------- */

enum { MAKER = 5 };

size_t issuers_book(uint8_t *book, size_t records)
{
    size_t len = growth_book(book, records);
    for (uint8_t *record = book; record != book + len; record += RECORD)
        if (may_have_issuer(record))
            put_issuer(record, MAKER);
    return len;
}

size_t issuers_request(uint8_t *request, size_t entries)
{
    size_t len = growth_request(request, entries);
    for (uint8_t *entry = request; entry != request + len; entry += RECORD)
        put_issuer(entry, MAKER);
    return len;
}

/* ---- A spoilt book ----------------------------------------------------------------------------------------- */

size_t spoilt_book(uint8_t *book, size_t records, size_t *spoilt)
{
    size_t len = growth_book(book, records);
    *spoilt = 0;
    for (size_t i = 9; i < records / 9; i += 10, ++*spoilt) {
        uint8_t *policy = book + (1 + 9 * i) * RECORD;
        memset(policy + (1 + *spoilt % 8) * RECORD, 0, RECORD);
    }
    return len;
}

/* ---- Deep books -------------------------------------------------------------------------------------------- */

enum { DEPTH = 16 };

static void put_condition(struct pen *pen, unsigned depth)
{
    for (; depth < DEPTH; depth++)                              /* and, or, not in turn, one in the other */
        put(pen, 7, 1 + depth % 3, DEPTH - depth + 1, 0, 0, 0, 0);
    put(pen, 7, 12, 1, 4, 1, 7, 50);
}

/* A comparison of two values, and operators in it one in the other, each the second operand of the one around it. */
static void put_operators(struct pen *pen, unsigned depth)
{
    for (unsigned left = DEPTH - depth; left > 0; left--) {
        bool outermost = left == DEPTH - depth;
        put(pen, outermost ? 7 : 10, outermost ? 22 : 3, 2 * left + 1, 0, 0, 0, 0);
        put(pen, 10, 1, 1, 0, 1, 0, 50);
    }
    put(pen, 10, 2, 1, 4, 1, 7, 0);
}

static void put_section(struct pen *pen)
{
    put(pen, 4, 0, 3, 4, 0, 0, 0);
    put(pen, 5, 0, 2, 0, 0, 0, 0);
    put(pen, 6, 2, 1, 4, 1, 7, 50);
}

static void put_filling(struct pen *pen, unsigned depth, enum filling filling)
{
    switch (filling) {
    case CONDITIONS:
        put(pen, 2, 1, DEPTH - depth + 1, 0, 0, 0, 0);
        put(pen, 3, 1, DEPTH - depth, 0, 0, 0, 0);
        put_condition(pen, depth + 2);
        break;
    case OPERATORS:
        put(pen, 2, 1, 2 * (DEPTH - depth) - 1, 0, 0, 0, 0);
        put(pen, 3, 1, 2 * (DEPTH - depth) - 2, 0, 0, 0, 0);
        put_operators(pen, depth + 2);
        break;
    case POLICY_TARGET:
        put(pen, 2, 1, 5, 0, 0, 0, 0);
        put_section(pen);
        put(pen, 3, 2, 1, 0, 0, 0, 0);
        break;
    case RULE_TARGET:
        put(pen, 2, 1, 5, 0, 0, 0, 0);
        put(pen, 3, 2, 4, 0, 0, 0, 0);
        put_section(pen);
        break;
    default:
        break;
    }
}

size_t deep_book(uint8_t *book, unsigned algorithm, unsigned sets, enum filling filling)
{
    struct pen pen = { book + sets * RECORD };
    put_filling(&pen, sets + 1, filling);
    for (unsigned depth = sets; depth > 0; depth--) {           /* each set round all that stands so far */
        struct pen head = { book + (depth - 1) * RECORD };
        if (depth < DEPTH) {
            put(&pen, 8, 1, 1, 0, 0, depth, 0);
            put(&pen, 8, 2, 1, 0, 0, depth, 0);
        }
        put(&head, 1, algorithm, (size_t)(pen.at - head.at) / RECORD, 0, 0, 0, 0);
    }
    return (size_t)(pen.at - book);
}

/* ---- Wide books -------------------------------------------------------------------------------------------- */

/* So many records of one kind without children, tests of the attribute that the deep books ask for among them. */
static void put_alike(struct pen *pen, size_t count, unsigned kind, unsigned choice)
{
    bool tests = kind == 6 || kind == 7;
    for (; count > 0; count--)
        put(pen, kind, choice, 1, tests ? 4 : 0, tests ? 1 : 0, tests ? 7 : 0, tests ? 50 : 0);
}

/* A section of conjunctions of one match each, and a rule where that leaves a record over. */
static void put_conjunctions(struct pen *pen, size_t left)
{
    size_t conjunctions = (left - 1) / 2;
    put(pen, 4, 0, 1 + 2 * conjunctions, 4, 0, 0, 0);
    for (size_t i = 0; i < conjunctions; i++) {
        put(pen, 5, 0, 2, 0, 0, 0, 0);
        put_alike(pen, 1, 6, 2);
    }
    put_alike(pen, left - 1 - 2 * conjunctions, 3, 2);
}

/* The records that are left: a policy round the wide record, but for policies, which stand in the innermost set. */
static void put_wide(struct pen *pen, size_t left, enum width width)
{
    if (width != POLICIES)
        put(pen, 2, 1, left--, 0, 0, 0, 0);
    switch (width) {
    case RULES:
        put_alike(pen, left, 3, 1);
        break;
    case POLICIES:
        put_alike(pen, left, 2, 1);
        break;
    case OBLIGATIONS:                                           /* on Deny, which the rule before them decides */
        put_alike(pen, 1, 3, 2);
        put_alike(pen, left - 1, 8, 2);
        break;
    case CONJUNCTIONS:
        put_conjunctions(pen, left);
        break;
    case MATCHES:
        put(pen, 4, 0, left, 4, 0, 0, 0);
        put(pen, 5, 0, left - 1, 0, 0, 0, 0);
        put_alike(pen, left - 2, 6, 2);
        break;
    case PARTS:
        put(pen, 3, 1, left, 0, 0, 0, 0);
        put(pen, 7, 1, left - 1, 0, 0, 0, 0);
        put_alike(pen, left - 2, 7, 12);
        break;
    default:
        break;
    }
}

size_t wide_book(uint8_t *book, unsigned algorithm, unsigned sets, enum width width)
{
    struct pen pen = { book };
    size_t left = MOST_BOOK / RECORD;
    for (; sets > 0; sets--)
        put(&pen, 1, algorithm, left--, 0, 0, 0, 0);
    put_wide(&pen, left, width);
    return (size_t)(pen.at - book);
}

/* ---- Books for stacks -------------------------------------------------------------------------------------- */

size_t stack_book(uint8_t *book, size_t number)
{
    static const struct { unsigned first, last; } deep[] = {    /* how many sets */
        [SETS] = { 16, 16 }, [CONDITIONS] = { 0, 13 }, [OPERATORS] = { 0, 12 }, [POLICY_TARGET] = { 12, 12 },
        [RULE_TARGET] = { 11, 11 },
    }, wide[] = {
        [RULES] = { 0, 14 }, [POLICIES] = { 1, 15 }, [OBLIGATIONS] = { 0, 14 },
        [CONJUNCTIONS] = { 0, 12 }, [MATCHES] = { 0, 12 }, [PARTS] = { 0, 12 },
    };
    if (number-- == 0)
        return bytes_of_file("examples/rig/BOOK.HEX", book, MOST_BOOK);
    for (unsigned algorithm = 1; algorithm <= 4; algorithm++) {
        for (enum filling filling = SETS; filling < FILLINGS; filling++)
            for (unsigned sets = deep[filling].first; sets <= deep[filling].last; sets++)
                if (number-- == 0)
                    return deep_book(book, algorithm, sets, filling);
        for (enum width width = RULES; width < WIDTHS; width++)
            for (unsigned sets = wide[width].first; sets <= wide[width].last; sets++)
                if (number-- == 0)
                    return wide_book(book, algorithm, sets, width);
    }
    return 0;
}

/* ---- Books by chance --------------------------------------------------------------------------------------- */

unsigned roll(struct dice *dice, unsigned below)
{
    dice->seed ^= dice->seed << 13;
    dice->seed ^= dice->seed >> 7;
    dice->seed ^= dice->seed << 17;
    return (unsigned)((dice->seed * 0x2545F4914F6CDD1D >> 33) % below);
}

/* The keys that records ask for: 4 categories, 3 types, 2 identifiers. */
enum { KEYS = 24 };

/* A book in the making: the next record, and where the room for it ends. */
struct making {
    struct pen pen;
    uint8_t *end;
    struct dice *dice;
};

static size_t room(const struct making *m)
{
    return (size_t)(m->end - m->pen.at) / RECORD;
}

/* The record that head is ends where the next one will stand. */
static void close_span(const struct making *m, uint8_t *head)
{
    put_big(head + 2, 2, (size_t)(m->pen.at - head) / RECORD);
}

static uint64_t random_value(struct dice *dice, unsigned type)
{
    static const double doubles[4] = { 0.0, 1.5, -0.0, -2.0 };
    unsigned n = roll(dice, 4);
    return type == 1 ? (uint64_t)n - 1 : type == 2 ? name(channels[n]) : bits(doubles[n]);
}

/* A match, or a comparison where base is 10. */
static void random_test(struct making *m, unsigned kind, unsigned base, unsigned category)
{
    unsigned type = 1 + roll(m->dice, 3), function = type == 2 ? 1 : 1 + roll(m->dice, 5);
    unsigned must = roll(m->dice, 4) == 0 ? 128 : 0;
    put(&m->pen, kind, base + function, 1, category, type + must, roll(m->dice, 2), random_value(m->dice, type));
}

static void random_section(struct making *m, unsigned category)
{
    uint8_t *section = m->pen.at;
    put(&m->pen, 4, 0, 0, category, 0, 0, 0);
    do {
        uint8_t *conjunction = m->pen.at;
        put(&m->pen, 5, 0, 0, 0, 0, 0, 0);
        do
            random_test(m, 6, 0, category);
        while (room(m) > 0 && roll(m->dice, 3) == 0);
        close_span(m, conjunction);
    } while (room(m) > 1 && roll(m->dice, 3) == 0);
    close_span(m, section);
}

/* The target of a record at this depth. */
static void random_target(struct making *m, unsigned depth)
{
    for (unsigned category = 1; category <= 4 && depth + 3 <= DEPTH; category++)
        if (room(m) >= 3 && roll(m->dice, 3) == 0)
            random_section(m, category);
}

/* A literal of a sum; now and then one that most operators cannot take further. */
static uint64_t random_literal(struct dice *dice, unsigned type)
{
    static const uint64_t ends[4][2] = { [1] = { INT64_MAX, (uint64_t)INT64_MIN },
                                         [3] = { 0x7FEFFFFFFFFFFFFF, 0xFFEFFFFFFFFFFFFF } };
    return type != 2 && roll(dice, 4) == 0 ? ends[type][roll(dice, 2)] : random_value(dice, type);
}

/* A value of this type at this depth, which leaves room for so many records. */
static void random_operand(struct making *m, unsigned type, unsigned depth, size_t others)
{
    uint8_t *head = m->pen.at;
    unsigned choice = roll(m->dice, 6), must = roll(m->dice, 4) == 0 ? 128 : 0;
    if (choice < 2 && type != 2 && depth < DEPTH && room(m) >= others + 3) {
        put(&m->pen, 10, type == 3 ? 8 : 3 + roll(m->dice, 5), 0, 0, 0, 0, 0);
        random_operand(m, type, depth + 1, others + 1);
        random_operand(m, type, depth + 1, others);
        close_span(m, head);
    } else if (choice < 4)
        put(&m->pen, 10, 1, 1, 0, type, 0, random_literal(m->dice, type));
    else
        put(&m->pen, 10, 2, 1, 1 + roll(m->dice, 4), type + must, roll(m->dice, 2), 0);
}

/* A comparison of two values at this depth. */
static void random_sum(struct making *m, unsigned depth)
{
    uint8_t *head = m->pen.at;
    unsigned type = 1 + roll(m->dice, 3);
    put(&m->pen, 7, type == 2 ? 21 : 21 + roll(m->dice, 5), 0, 0, 0, 0, 0);
    random_operand(m, type, depth + 1, 1);
    random_operand(m, type, depth + 1, 0);
    close_span(m, head);
}

static void random_condition(struct making *m, unsigned depth)
{
    uint8_t *head = m->pen.at;
    unsigned choice = 1 + roll(m->dice, 8);
    if (choice > 6 && depth < DEPTH && room(m) >= 3) {
        random_sum(m, depth);
        return;
    }
    if (choice > 3 || depth == DEPTH || room(m) < 2) {
        random_test(m, 7, 10, 1 + roll(m->dice, 4));
        return;
    }
    put(&m->pen, 7, choice, 0, 0, 0, 0, 0);
    if (choice == 3)
        random_condition(m, depth + 1);
    while (choice != 3 && room(m) > 0 && roll(m->dice, 3) != 0)
        random_condition(m, depth + 1);
    close_span(m, head);
}

static void random_rule(struct making *m, unsigned depth)
{
    uint8_t *head = m->pen.at;
    put(&m->pen, 3, 1 + roll(m->dice, 2), 0, 0, 0, 0, 0);
    random_target(m, depth);
    if (depth < DEPTH && room(m) > 0 && roll(m->dice, 3) != 0)
        random_condition(m, depth + 1);
    close_span(m, head);
}

/* A policy or set at this depth. The root is a set, without a target most of the time, and takes all the room. */
static void random_tree(struct making *m, unsigned depth)
{
    uint8_t *head = m->pen.at;
    unsigned kind = depth == 1 || roll(m->dice, 2) == 0 ? 1 : 2, obligations = roll(m->dice, 3);
    put(&m->pen, kind, 1 + roll(m->dice, kind == 1 ? 4 : 3), 0, 0, 0, 0, 0);
    if (depth > 1 || roll(m->dice, 4) == 0)
        random_target(m, depth);
    for (unsigned children = 0; depth < DEPTH && room(m) > obligations; children++)
        if (depth > 1 && roll(m->dice, children == 0 ? 16 : 3) == 0)
            break;
        else if (kind == 1)
            random_tree(m, depth + 1);
        else
            random_rule(m, depth + 1);
    for (; depth < DEPTH && obligations > 0 && room(m) > 0; obligations--)
        put(&m->pen, 8, 1 + roll(m->dice, 2), 1, 0, 0, roll(m->dice, 65536), 0);
    close_span(m, head);
}

size_t random_book(uint8_t *book, size_t records, struct dice *dice)
{
    struct making m = { { book }, book + records * RECORD, dice };
    random_tree(&m, 1);
    return (size_t)(m.pen.at - book);
}

/* One value for most keys, in any order; when all have had one, samples that no record asks for. */
size_t random_request(uint8_t *request, size_t entries, struct dice *dice)
{
    struct pen pen = { request };
    unsigned key = roll(dice, KEYS), count = roll(dice, (unsigned)entries + 1);
    for (unsigned k = 0; k < count; k++) {
        unsigned its = roll(dice, 8) == 0 ? roll(dice, KEYS) : key, type = 1 + its / 4 % 3;
        put_entry(&pen, 1 + its % 4, type, k < KEYS ? its / 12 : 2 + k, random_value(dice, type));
        key = (key + 7) % KEYS;
    }
    return (size_t)(pen.at - request);
}

/* Nobody, or one of two whose bytes are the same in another order. */
static unsigned random_issuer(struct dice *dice)
{
    static const unsigned issuers[3] = { 0, 0x0001, 0x0100 };
    return issuers[roll(dice, 3)];
}

void issuers_in_book(uint8_t *book, size_t book_len, struct dice *dice)
{
    for (uint8_t *record = book; record != book + book_len; record += RECORD)
        if (may_have_issuer(record) && roll(dice, 2) == 0)
            put_issuer(record, random_issuer(dice));
}

void issuers_in_request(uint8_t *request, size_t request_len, struct dice *dice)
{
    for (uint8_t *entry = request; entry != request + request_len; entry += RECORD)
        put_issuer(entry, random_issuer(dice));
}

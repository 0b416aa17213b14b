#include "plain_salvage.h"

#include "plain_judge.h"

/* A policy or set directly below line 1 that holds a bad record: the index of its own, and how many it has. */
struct spoilt {
    uint16_t at, records;
};

/* It has two records at least, since its own is sound. */
enum { MOST_SPOILT = MOST_RECORDS / 2 };

/* What stands for it: a deny-overrides policy of one Deny rule. */
static const uint8_t denial[2 * SIZE] = { POLICY, DENY_OVERRIDES, 0, 2, [SIZE] = RULE, DENY, 0, 1 };

static uint64_t beyond_repair(size_t at)
{
    return refusal(13, OF_BOOK, at + 1);
}

/* Finds the spoilt children in their order, and counts them; or returns the refusal 13, for the first bad record that
 * is in none of them. Behind a child's first bad record it goes on with the next child. */
static uint64_t find_spoilt(const uint8_t *book, size_t records, struct spoilt *spoilt, size_t *count)
{
    unsigned top = TOP, state = IN_SET;
    if (*book != SET || judge_record(book, &top) == BROKEN_FIELD || big2(book + 2) != records)
        return beyond_repair(0);
    for (size_t at = 1, end; at < records; at = end) {
        const uint8_t *record = book + at * SIZE;
        unsigned opens = judge_record(record, &state);
        end = at + big2(record + 2);
        if (opens <= BROKEN_PLACE || end > records)
            return beyond_repair(at);
        size_t bad = judge_below(book, at + 1, end, opens, 2).at;
        if (bad == end)
            continue;
        if (opens != IN_SET && opens != IN_POLICY)
            return beyond_repair(bad);
        spoilt[(*count)++] = (struct spoilt){ (uint16_t)at, (uint16_t)(end - at) };
    }
    return 0;
}

static void put_big2(uint8_t *p, size_t number)
{
    p[0] = (uint8_t)(number >> 8);
    p[1] = (uint8_t)number;
}

/* Copies the book with a denial for each spoilt child, and says what was replaced: how many records that leaves. */
static size_t mend(const uint8_t *book, size_t records, const struct spoilt *spoilt, size_t count, uint8_t *mended,
                   uint8_t *replaced)
{
    uint8_t *to = mended;
    const uint8_t *from = book, *end = book + records * SIZE;
    for (; count > 0; count--, spoilt++, replaced += 4) {
        size_t kept = (size_t)(book + spoilt->at * SIZE - from);
        memcpy(to, from, kept);
        memcpy(to + kept, denial, sizeof denial);
        to += kept + sizeof denial;
        from += kept + spoilt->records * SIZE;
        put_big2(replaced, spoilt->at + 1);
        put_big2(replaced + 2, spoilt->records);
    }
    memcpy(to, from, (size_t)(end - from));
    to += end - from;
    size_t left = (size_t)(to - mended) / SIZE;
    put_big2(mended + 2, left);
    return left;
}

uint64_t plain_salvage(const uint8_t *book, size_t book_len, uint8_t *mended, size_t mended_len, uint8_t *replaced,
                       size_t replaced_len)
{
    struct spoilt spoilt[MOST_SPOILT];
    size_t records = book_len / SIZE, count = 0;
    uint64_t refused = judge_length(book_len);
    if (!refused)
        refused = find_spoilt(book, records, spoilt, &count);
    if (!refused && (mended_len < book_len || replaced_len < 2 * records))
        refused = refusal(7, OF_OUTPUT, 0);
    if (refused)
        return refused;
    return 256 * (uint64_t)mend(book, records, spoilt, count, mended, replaced) + 16777216 * (uint64_t)count;
}

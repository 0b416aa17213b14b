/* Judging records in plain C, which judging a book and salvaging one share: what a record breaks, by its fields and by
 * its place below its parent, and the first of several records that breaks a rule. */
#ifndef PLAIN_JUDGE_H
#define PLAIN_JUDGE_H

#include "plain_bytes.h"

/* The refusal of a book of no length, a wrong one or too great a one; else 0. */
static inline uint64_t judge_length(size_t book_len)
{
    if (book_len == 0)
        return refusal(3, OF_BOOK, 0);
    if (book_len % SIZE != 0)
        return refusal(4, OF_BOOK, 0);
    return book_len > MOST_RECORDS * SIZE ? refusal(2, OF_BOOK, 0) : 0;
}

/* What judging a record says of it: broken, or of no children, or the state in which it opens. The state of an open
 * record is what it has seen of its children so far. IN_SET, IN_POLICY and IN_RULE stand for sections alone, and the
 * category of the last one is added (0: none yet); to IN_SECTION and IN_CONJUNCTION the section's category is added. */
enum state {
    BROKEN_FIELD, BROKEN_PLACE,
    LEAF, DUTY,                 /* a match, comparison, literal or attribute; an obligation */
    FULL,                       /* at depth 16 */
    TOP,                        /* before line 1 */
    IN_SET, SET_CHILDREN = IN_SET + 5, SET_OBLIGATIONS,
    IN_POLICY, POLICY_RULES = IN_POLICY + 5, POLICY_OBLIGATIONS,
    IN_RULE, RULE_CONDITION = IN_RULE + 5,
    IN_SECTION, IN_CONJUNCTION = IN_SECTION + 5,
    IN_GROUP = IN_CONJUNCTION + 5, IN_NOT, NOT_PART,
    IN_VALUES                   /* of an operator, or of a comparison of two values */
};

static inline bool from_to(unsigned first, unsigned n, unsigned last)
{
    return n - first <= last - first;
}

static inline bool value_fits(unsigned type, uint64_t value)
{
    return from_to(INTEGER, type, DOUBLE) && (type != DOUBLE || is_finite(value));
}

/* Bytes 16 to 19 of a record or entry that may have an issuer. */
static inline bool issuer_fits(uint32_t last)
{
    return (last & 0xFFFF) == 0;
}

/* Bytes 4 to 19 of a match or a comparison; the last four are its issuer and two zeros. */
static inline bool attribute_fits(unsigned function, uint32_t key, uint64_t value, uint32_t last)
{
    unsigned type = key >> 16 & 127;    /* without must-be-present */
    return from_to(1, key >> 24, 4) && value_fits(type, value) && (type != NAME || function == EQUAL) &&
           issuer_fits(last);
}

/* Bytes 2 to 19 of a value. */
static inline bool operand_fits(unsigned choice, unsigned span, uint32_t key, uint64_t value, uint32_t last)
{
    unsigned type = key >> 16 & 255;
    if (choice == LITERAL)
        return span == 1 && (key & 0xFF00FFFF) == 0 && value_fits(type, value) && last == 0;
    if (choice == ATTRIBUTE)
        return span == 1 && from_to(1, key >> 24, 4) && from_to(INTEGER, type & 127, DOUBLE) && value == 0 &&
               issuer_fits(last);
    return from_to(ADD, choice, DOUBLE_ADD) && span >= 1 && (key | value | last) == 0;
}

/* Judges a record whose parent is in this state, and moves the state on. */
static inline __attribute__((always_inline)) unsigned judge_record(const uint8_t *record, unsigned *state)
{
    unsigned kind = record[0], choice = record[1], span = big2(record + 2), category = record[4], in = *state;
    uint32_t key = big4(record + 4);
    uint64_t value = big8(record + 8);
    uint32_t last = big4(record + ISSUER);
    switch (kind) {
    case SET:
    case POLICY:
        if (!from_to(1, choice, kind == SET ? 4 : 3) || span < 1 || (key | value | last) != 0)
            return BROKEN_FIELD;
        if (!from_to(TOP, in, SET_CHILDREN))
            return BROKEN_PLACE;
        *state = SET_CHILDREN;
        return kind == SET ? IN_SET : IN_POLICY;
    case RULE:
        if (!from_to(1, choice, 2) || span < 1 || (key | value | last) != 0)
            return BROKEN_FIELD;
        if (!from_to(IN_POLICY, in, POLICY_RULES))
            return BROKEN_PLACE;
        *state = POLICY_RULES;
        return IN_RULE;
    case SECTION:
        if (choice != 0 || span < 2 || !from_to(1, category, 4) || ((key & 0xFFFFFF) | value | last) != 0)
            return BROKEN_FIELD;
        if (in - IN_POLICY < category)
            *state = IN_POLICY + category;
        else if (in - IN_SET < category)
            *state = IN_SET + category;
        else if (in - IN_RULE < category)
            *state = IN_RULE + category;
        else
            return BROKEN_PLACE;
        return IN_SECTION + category;
    case CONJUNCTION:
        if (choice != 0 || span < 2 || (key | value | last) != 0)
            return BROKEN_FIELD;
        return from_to(IN_SECTION, in, IN_SECTION + 4) ? in - IN_SECTION + IN_CONJUNCTION : BROKEN_PLACE;
    case MATCH:
        if (!from_to(1, choice, 5) || span != 1 || !attribute_fits(choice, key, value, last))
            return BROKEN_FIELD;
        return in == IN_CONJUNCTION + category ? LEAF : BROKEN_PLACE;
    case CONDITION:
        if (from_to(11, choice, 15)
                ? span != 1 || !attribute_fits(choice - COMPARISON, key, value, last)
                : (!from_to(AND, choice, NOT) && !from_to(21, choice, 25)) || span < (choice == NOT ? 2 : 1) ||
                      (key | value | last) != 0)
            return BROKEN_FIELD;
        if (from_to(IN_RULE, in, IN_RULE + 4))
            *state = RULE_CONDITION;
        else if (in == IN_NOT)
            *state = NOT_PART;
        else if (in != IN_GROUP)
            return BROKEN_PLACE;
        return choice > COMPARISON_OF_VALUES ? IN_VALUES : choice > NOT ? LEAF : choice == NOT ? IN_NOT : IN_GROUP;
    case OBLIGATION:
        if (!from_to(1, choice, 2) || span != 1 || (key >> 16 | value | last) != 0)
            return BROKEN_FIELD;
        if (from_to(IN_POLICY, in, POLICY_OBLIGATIONS))
            *state = POLICY_OBLIGATIONS;
        else if (from_to(IN_SET, in, SET_OBLIGATIONS))
            *state = SET_OBLIGATIONS;
        else
            return BROKEN_PLACE;
        return DUTY;
    case VALUE:
        if (!operand_fits(choice, span, key, value, last))
            return BROKEN_FIELD;
        return in != IN_VALUES ? BROKEN_PLACE : choice > ATTRIBUTE ? IN_VALUES : LEAF;
    default:
        return BROKEN_FIELD;
    }
}

/* Whether the children of the record at this index are two values of its type: an operator, or a comparison of two
 * values, that ends within the book. A child is what no record between covers, since one of these may run too far, and
 * is judged later. */
static bool has_operands(const uint8_t *book, size_t at)
{
    const uint8_t *record = book + at * SIZE;
    size_t end = at + big2(record + 2), covered = at + 1;
    unsigned operands = 0, type = *record == VALUE ? type_of(record) : 0; /* 0: that of the first operand */
    for (size_t i = at + 1; i < end; i++) {
        const uint8_t *below = book + i * SIZE;
        size_t its_end = i + big2(below + 2);
        if (i >= covered) {
            if (*below != VALUE || (type != 0 && type_of(below) != type))
                return false;
            type = type_of(below);
            operands++;
        }
        if (its_end > covered)
            covered = its_end;
    }
    return operands == 2 && (type != NAME || record[1] == COMPARISON_OF_VALUES + EQUAL);
}

/* The first of some records that breaks a rule, where all of them are judged in order. */
struct broken {
    size_t at;                  /* its index; behind the last record where none breaks a rule */
    unsigned state;             /* its parent's, whatever the depth */
    size_t end;                 /* where its parent ends */
    uint64_t obligations;       /* how many obligations are before it */
};

/* Judges the records from index at on to last, which are all those below one record; its state is given, TOP for the
 * whole book, and how many are open with it. */
static inline __attribute__((always_inline)) struct broken judge_below(const uint8_t *book, size_t at, size_t last,
                                                                       unsigned state, size_t open)
{
    /* Where the innermost open record ends; those around it; the state in which the last one opened. */
    size_t end = last, ends[MOST_DEPTH];
    unsigned states[MOST_DEPTH], opened = state;
    uint64_t obligations = 0;
    for (; at < last; at++) {
        const uint8_t *record = book + at * SIZE;
        while (at == end) {
            open--;
            end = ends[open];
            state = states[open];
        }
        unsigned opens = judge_record(record, &state);
        if (opens == LEAF)
            continue;
        if (opens == DUTY) {
            obligations++;
            continue;
        }
        size_t its_end = at + big2(record + 2);
        if (opens <= BROKEN_PLACE || its_end > end || (opens == IN_VALUES && !has_operands(book, at)))
            return (struct broken){ at, state == FULL ? opened : state, end, obligations };
        if (its_end > at + 1) {
            ends[open] = end;
            states[open] = state;
            open++;
            end = its_end;
            state = open < MOST_DEPTH ? opens : FULL;
            opened = opens;
        }
    }
    return (struct broken){ .at = last, .obligations = obligations };
}

#endif

/* What the plain C of the benchmark shares: the papers' numbers for kinds and choices, big-endian numbers, refusals,
 * which entries a record asks for, how two values compare, what an operator gives of them, and the one value of a
 * bag. */
#ifndef PLAIN_BYTES_H
#define PLAIN_BYTES_H

#include <float.h>
#include <stdbool.h>
#include <stddef.h>
#include <stdint.h>
#include <string.h>

enum { SIZE = 20, MOST_RECORDS = 1000, MOST_ENTRIES = 64, MOST_DEPTH = 16 };
enum { ISSUER = 16 }; /* where it stands, in a record and in an entry */
enum { SET = 1, POLICY, RULE, SECTION, CONJUNCTION, MATCH, CONDITION, OBLIGATION, VALUE = 10 };
enum { DENY_OVERRIDES = 1, PERMIT_OVERRIDES, FIRST_APPLICABLE, ONLY_ONE_APPLICABLE };
enum { AND = 1, OR, NOT, COMPARISON = 10, COMPARISON_OF_VALUES = 20 };
enum { LITERAL = 1, ATTRIBUTE, ADD, SUBTRACT, MULTIPLY, DIVIDE, REMAINDER, DOUBLE_ADD };
enum { NEVER, EQUAL, GREATER, GREATER_OR_EQUAL, LESS, LESS_OR_EQUAL };
enum { INTEGER = 1, NAME, DOUBLE, MUST_BE_PRESENT = 128 };
enum { PERMIT = 1, DENY, NOT_APPLICABLE, INDETERMINATE };
enum status { NO_STATUS, MISSING_ATTRIBUTE, PROCESSING_ERROR };
enum { OF_BOOK = 1, OF_REQUEST, OF_OUTPUT, OF_RUN };

static inline uint64_t refusal(unsigned number, unsigned part, size_t line)
{
    return 255 + 256 * (uint64_t)number + 65536 * (uint64_t)line + 4294967296 * (uint64_t)part;
}

static inline bool is_refusal(uint64_t number)
{
    return (number & 255) == 255;
}

static inline unsigned big2(const uint8_t *p)
{
    return (unsigned)p[0] << 8 | p[1];
}

static inline uint32_t big4(const uint8_t *p)
{
    return (uint32_t)big2(p) << 16 | big2(p + 2);
}

static inline uint64_t big8(const uint8_t *p)
{
    return (uint64_t)big4(p) << 32 | big4(p + 4);
}

static inline const uint8_t *after(const uint8_t *record)
{
    return record + SIZE * (size_t)big2(record + 2);
}

/* What a match, comparison or attribute asks a request for: the first four bytes of an entry, as the number that they
 * make in memory, and an issuer, 0 for anyone. */
struct designator {
    uint32_t key;
    unsigned issuer;
};

static inline bool takes(struct designator wanted, const uint8_t *entry)
{
    uint32_t key;
    memcpy(&key, entry, sizeof key);
    return key == wanted.key && (wanted.issuer == 0 || wanted.issuer == big2(entry + ISSUER));
}

static inline bool is_finite(uint64_t bits)
{
    return (bits >> 52 & 0x7FF) != 0x7FF;
}

static inline double double_of(uint64_t bits)
{
    double d;
    memcpy(&d, &bits, sizeof d);
    return d;
}

static inline uint64_t bits_of(double d)
{
    uint64_t bits;
    memcpy(&bits, &d, sizeof bits);
    return bits;
}

/* Doubles are equal as IEEE 754 says, the two zeros too; integers and names by their bytes. */
static inline bool equal(unsigned type, uint64_t a, uint64_t b)
{
    return type == DOUBLE ? double_of(a) == double_of(b) : a == b;
}

/* The function of a match or comparison of two values of this type: the literal first, then the request's; of two
 * values of a condition, the first child first. */
static inline bool holds(unsigned function, unsigned type, uint64_t a, uint64_t b)
{
    switch (function) {
    case NEVER:
        return false;
    case GREATER_OR_EQUAL:
        if (equal(type, a, b))
            return true; /* fall through */
    case GREATER:
        return type == DOUBLE ? double_of(a) > double_of(b) : (int64_t)a > (int64_t)b;
    case LESS_OR_EQUAL:
        if (equal(type, a, b))
            return true; /* fall through */
    case LESS:
        return type == DOUBLE ? double_of(a) < double_of(b) : (int64_t)a < (int64_t)b;
    default:
        return equal(type, a, b);
    }
}

/* The type of a value, by its record alone. */
static inline unsigned type_of(const uint8_t *record)
{
    return record[1] <= ATTRIBUTE ? record[5] & ~MUST_BE_PRESENT : record[1] == DOUBLE_ADD ? DOUBLE : INTEGER;
}

/* Of several parts that are Indeterminate the first counts. */
static inline enum status first_of(enum status first, enum status second)
{
    return first ? first : second;
}

/* A value as its eight bytes; Indeterminate where it is lost, for a reason then. */
struct value {
    enum status lost;
    uint64_t bytes;
};

static inline struct value lost(enum status why)
{
    return (struct value){ why, 0 };
}

static inline struct value known(uint64_t bytes)
{
    return (struct value){ NO_STATUS, bytes };
}

/* The value of a bag in a request: lost unless it has exactly one. */
static inline struct value one_and_only(const uint8_t *request, const uint8_t *request_end, struct designator wanted)
{
    const uint8_t *only = NULL;
    for (const uint8_t *entry = request; entry != request_end; entry += SIZE)
        if (takes(wanted, entry)) {
            if (only)
                return lost(PROCESSING_ERROR);
            only = entry;
        }
    return only ? known(big8(only + 8)) : lost(MISSING_ATTRIBUTE);
}

_Static_assert(FLT_EVAL_METHOD == 0, "a sum that is kept wider than a double would be rounded twice");

/* What an operator gives of two values: lost as the first operand that is, and by a processing error where an integer
 * does not fit 64 bits, where a divisor is zero, and where a double is not finite. */
static inline struct value operate(unsigned operator, struct value a, struct value b)
{
    int64_t x = (int64_t)a.bytes, y = (int64_t)b.bytes, result = 0;
    bool fails;
    switch (operator) {
    case ADD:
        fails = __builtin_add_overflow(x, y, &result);
        break;
    case SUBTRACT:
        fails = __builtin_sub_overflow(x, y, &result);
        break;
    case MULTIPLY:
        fails = __builtin_mul_overflow(x, y, &result);
        break;
    case DIVIDE:
        fails = y == 0 || (y == -1 && x == INT64_MIN);
        result = fails ? 0 : x / y;
        break;
    case REMAINDER:
        fails = y == 0;
        result = fails || y == -1 ? 0 : x % y; /* by -1 it is 0, and C has none of the least integer */
        break;
    default: /* DOUBLE_ADD */
        result = (int64_t)bits_of(double_of(a.bytes) + double_of(b.bytes));
        fails = !is_finite((uint64_t)result);
    }
    enum status why = first_of(first_of(a.lost, b.lost), fails ? PROCESSING_ERROR : NO_STATUS);
    return why ? lost(why) : known((uint64_t)result);
}

#endif

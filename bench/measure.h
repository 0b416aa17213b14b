/* What the benchmark's programs share: one row of the table for one thing that both sides do on one input. */
#ifndef MEASURE_H
#define MEASURE_H

#include <stddef.h>
#include <stdint.h>

/* What a call is lent. */
struct input {
    const char *name;
    const uint8_t *book;
    size_t book_len;
    const uint8_t *request;
    size_t request_len;
    uint8_t *out;
    size_t out_len;
};

typedef uint64_t side(const struct input *input);

/* What is timed of a side: a call; or, where less is not NULL, what it takes longer than less. Divided by steps. */
struct timed {
    side *call, *less;
    uint64_t steps;
};

/* Times both sides on the same input, in turn, many times, and prints the row: what, book, records, entries, the time
 * of plain C and of Bachumoi in nanoseconds, each the quickest of the turns, and the median of the turns' ratios. Where
 * the library of Bachumoi is not built, its call is NULL. */
void measure(const char *what, const struct input *input, struct timed plain, struct timed proved);

/* Prints a row of amounts in the unit named; the second has dashes for Bachumoi. */
void row(const char *what, const struct input *input, const char *unit, double plain, double proved, double ratio);
void row_of_plain(const char *what, const struct input *input, const char *unit, double plain);

/* The bytes of stack that a call takes more than a call that does nothing, down to the lowest byte that it wrote. */
size_t stack_of(side *of, const struct input *input);

#endif

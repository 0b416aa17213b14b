/* Programmes and ticks by either side: plain C, and Bachumoi where its library is built. */
#ifndef MACHINE_H
#define MACHINE_H

#include "books.h"

#include <bachumoi.h>

/* The three functions of a side, as include/bachumoi.h has them. */
struct machine {
    uint64_t (*translate)(const uint8_t *, size_t, uint64_t *, size_t);
    uint64_t (*fresh)(uint64_t *, size_t, uint16_t *, size_t);
    uint64_t (*tick)(const uint64_t *, size_t, const uint8_t *, size_t, uint64_t *, size_t, uint16_t *, size_t,
                     uint64_t, uint16_t *, size_t);
};

extern const struct machine plain_machine;
extern const struct machine *const proved_machine; /* NULL where librig.a is not built */

struct programme {
    uint64_t entries[BACHUMOI_MOST_PROGRAMME];
    size_t length;
};

struct state {
    uint64_t numbers[BACHUMOI_NUMBERS];
    uint16_t places[BACHUMOI_PLACES];
};

/* Translates an accepted book with just as much room as it needs. Ends the program at a refusal, or if a number behind
 * the entries is changed. */
void translate(const struct machine *machine, const uint8_t *book, size_t book_len, struct programme *programme);

void fresh(const struct machine *machine, struct state *state);

/* Takes one tick; out has 1,000 places. */
uint64_t tick(const struct machine *machine, const struct programme *programme, const uint8_t *request,
              size_t request_len, struct state *state, uint64_t budget, uint16_t *out);

/* A finished tick's number as bachumoi_decide would give it: without steps, and with the code where that has it. */
uint64_t as_decided(uint64_t number);

/* Runs a request from the fresh state to its end, with steps dealt out by chance, zeros among them; without dice,
 * all in one tick. Returns what bachumoi_decide would; obligations in out, steps taken in *steps. Ends the program
 * if a tick takes other than its budget before the end, or touches out, or the run takes no step or more than
 * there are entries. */
uint64_t run(const struct machine *machine, const struct programme *programme, const uint8_t *request,
             size_t request_len, struct dice *dice, uint16_t *out, uint64_t *steps);

/* Ends the program: a result is wrong. */
_Noreturn void wrong(const char *what, const char *of);

#endif

#include "machine.h"

#include "plain_programme.h"

#include <stdio.h>
#include <stdlib.h>
#include <string.h>

const struct machine plain_machine = { plain_translate, plain_fresh, plain_tick };

#ifdef HAVE_RIG
static const struct machine rig = { bachumoi_translate, bachumoi_fresh, bachumoi_tick };
const struct machine *const proved_machine = &rig;
#else
const struct machine *const proved_machine = NULL;
#endif

void wrong(const char *what, const char *of)
{
    fprintf(stderr, "bench: %s: %s\n", of, what);
    exit(1);
}

void translate(const struct machine *machine, const uint8_t *book, size_t book_len, struct programme *programme)
{
    static const uint64_t untouched = 0xEEEEEEEEEEEEEEEE;
    size_t room = BACHUMOI_ROOM(book_len / BACHUMOI_RECORD);
    for (size_t i = 0; i < BACHUMOI_MOST_PROGRAMME; i++)
        programme->entries[i] = untouched;
    uint64_t number = machine->translate(book, book_len, programme->entries, room);
    programme->length = bachumoi_entries(number);
    if ((number & 255) != 0 || programme->length < 1 || programme->length > room)
        wrong("no programme", "translate");
    for (size_t i = programme->length; i < BACHUMOI_MOST_PROGRAMME; i++)
        if (programme->entries[i] != untouched)
            wrong("numbers behind the programme are changed", "translate");
}

void fresh(const struct machine *machine, struct state *state)
{
    if (machine->fresh(state->numbers, BACHUMOI_NUMBERS, state->places, BACHUMOI_PLACES) != 0)
        wrong("no fresh state", "fresh");
}

uint64_t tick(const struct machine *machine, const struct programme *programme, const uint8_t *request,
              size_t request_len, struct state *state, uint64_t budget, uint16_t *out)
{
    return machine->tick(programme->entries, programme->length, request, request_len, state->numbers, BACHUMOI_NUMBERS,
                         state->places, BACHUMOI_PLACES, budget, out, BACHUMOI_PLACES);
}

uint64_t as_decided(uint64_t number)
{
    return (number & 0xFFFFFF) | (number >> 24 & 255) << 40;
}

/* Ends the program unless out is as fill left it. */
static void is_untouched(const uint16_t *out)
{
    for (size_t i = 0; i < BACHUMOI_PLACES; i++)
        if (out[i] != 0xEEEE)
            wrong("a tick that is running touched out", "run");
}

/* Of ten ticks, one has no step, three have a few, the others up to 300. */
static uint64_t deal(struct dice *dice)
{
    unsigned how = roll(dice, 10);
    return how == 0 ? 0 : 1 + roll(dice, how < 4 ? 5 : 300);
}

uint64_t run(const struct machine *machine, const struct programme *programme, const uint8_t *request,
             size_t request_len, struct dice *dice, uint16_t *out, uint64_t *steps)
{
    struct state state;
    fresh(machine, &state);
    memset(out, 0xEE, BACHUMOI_PLACES * sizeof *out);
    *steps = 0;
    for (;;) {
        uint64_t budget = dice ? deal(dice) : UINT64_MAX;
        uint64_t number = tick(machine, programme, request, request_len, &state, budget, out);
        uint64_t took = bachumoi_steps(number);
        *steps += took;
        switch (bachumoi_answer(number)) {
        case BACHUMOI_RUNNING:
            if (number != budget << 32)
                wrong("a tick that is running did not take its budget, or says more", "run");
            is_untouched(out);
            break;
        case BACHUMOI_PERMIT:
        case BACHUMOI_DENY:
        case BACHUMOI_NOT_APPLICABLE:
        case BACHUMOI_INDETERMINATE:
            if (took > budget || *steps < 1 || *steps > programme->length)
                wrong("too many steps, or none", "run");
            return as_decided(number);
        case BACHUMOI_REFUSED:
            wrong("a tick is refused", "run");
        }
    }
}

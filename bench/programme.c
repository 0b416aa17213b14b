/* Translating, ticks, steps and whole runs: Bachumoi against plain C, and the stack of the deepest call.
 * Run from the top of the repository; built by bench/run. */
#include "machine.h"
#include "measure.h"

#include <stdio.h>
#include <string.h>

enum { A_TICK = 300 };

static uint8_t book[MOST_BOOK], request[MOST_REQUEST];
static struct programme programme;
static uint64_t all_but_one; /* steps of the run of book and request, but for its last */
static struct state beginning;
static uint16_t out[BACHUMOI_PLACES];

/* ---- What is timed ----------------------------------------------------------------------------------------- */

static uint64_t translation(const struct machine *machine, const struct input *in)
{
    static uint64_t room[BACHUMOI_MOST_PROGRAMME];
    return machine->translate(in->book, in->book_len, room, BACHUMOI_MOST_PROGRAMME);
}

/* A tick of 0 steps: the state stays as it is. */
static uint64_t no_step(const struct machine *machine, const struct input *in)
{
    return tick(machine, &programme, in->request, in->request_len, &beginning, 0, out);
}

/* A tick from the beginning; without its steps it is what the next one is. */
static uint64_t tick_again(const struct machine *machine, const struct input *in, uint64_t budget)
{
    static struct state state;
    memcpy(&state, &beginning, sizeof state);
    return tick(machine, &programme, in->request, in->request_len, &state, budget, out);
}

static uint64_t steps(const struct machine *machine, const struct input *in)
{
    return tick_again(machine, in, all_but_one);
}

static uint64_t without_steps(const struct machine *machine, const struct input *in)
{
    return tick_again(machine, in, 0);
}

/* The fresh state, and ticks of 300 steps to the end. */
static uint64_t whole_run(const struct machine *machine, const struct input *in)
{
    static struct state state;
    uint64_t number;
    fresh(machine, &state);
    do
        number = tick(machine, &programme, in->request, in->request_len, &state, A_TICK, out);
    while (bachumoi_answer(number) == BACHUMOI_RUNNING);
    return number;
}

#define SIDES(what)                                                                                                    \
    static uint64_t plain_##what(const struct input *in) { return what(&plain_machine, in); }                          \
    static uint64_t proved_##what(const struct input *in) { return what(proved_machine, in); }
SIDES(translation)
SIDES(no_step)
SIDES(steps)
SIDES(without_steps)
SIDES(whole_run)

/* Measures what both sides call so. */
#define MEASURE(name, in, what, less, parts)                                                                           \
    measure(name, in, (struct timed){ plain_##what, (less) ? plain_without_steps : NULL, parts },                      \
            (struct timed){ proved_machine ? proved_##what : NULL, (less) ? proved_without_steps : NULL, parts })

/* ---- The rows ---------------------------------------------------------------------------------------------- */

static struct input of_book(const char *name, size_t book_len)
{
    translate(&plain_machine, book, book_len, &programme);
    fresh(&plain_machine, &beginning);
    return (struct input){ .name = name, .book = book, .book_len = book_len, .request = request };
}

/* Ends the program unless Bachumoi translates the book of in, and runs its request, as plain C does: a stack or time of
 * a refusal would be too good. Returns the steps of the run. */
static uint64_t agree(const struct input *in)
{
    static struct programme theirs;
    uint64_t taken, number = run(&plain_machine, &programme, in->request, in->request_len, NULL, out, &taken);
    if (proved_machine) {
        translate(proved_machine, in->book, in->book_len, &theirs);
        if (memcmp(&theirs, &programme, sizeof programme) != 0)
            wrong("another programme than plain C's", "translate");
        if (as_decided(proved_whole_run(in)) != number)
            wrong("another answer than plain C's", "run");
    }
    return taken;
}

static void translating(const char *name, size_t book_len)
{
    struct input in = of_book(name, book_len);
    MEASURE("translate", &in, translation, 0, 1);
}

static void running(const char *name, size_t book_len, size_t request_len)
{
    struct input in = of_book(name, book_len);
    in.request_len = request_len;
    all_but_one = agree(&in) - 1;
    MEASURE("tick of 0", &in, no_step, 0, 1);
    MEASURE("step", &in, steps, 1, all_but_one);
    MEASURE("run", &in, whole_run, 0, 1);
}

static size_t rig_request(size_t entries)
{
    char path[64];
    snprintf(path, sizeof path, "examples/rig/write-%zu.hex", entries);
    return bytes_of_file(path, request, sizeof request);
}

/* ---- Sizes ------------------------------------------------------------------------------------------------- */

/* Both sides have the same layout: what is compared by bench/counts.c, number for number. */
static void size(const char *name, size_t book_len, size_t bytes)
{
    struct input in = { .name = name, .book_len = book_len };
    if (proved_machine)
        row("size", &in, "bytes", (double)bytes, (double)bytes, 1);
    else
        row_of_plain("size", &in, "bytes", (double)bytes);
}

static void sizes(void)
{
    size("state", 0, sizeof(struct state));
    size_t book_len = bytes_of_file("examples/rig/BOOK.HEX", book, sizeof book);
    translate(&plain_machine, book, book_len, &programme);
    size("programme, rig", book_len, programme.length * sizeof *programme.entries);
    for (size_t records = 10; records <= 1000; records *= 10) {
        book_len = growth_book(book, records);
        translate(&plain_machine, book, book_len, &programme);
        size("programme, growth", book_len, programme.length * sizeof *programme.entries);
    }
}

/* The deepest stack of a side over every stack_book; in is left with the length of the book that takes it. */
static double deepest(side *of, struct input *in)
{
    size_t request_len = bytes_of_file("examples/a/40.hex", request, sizeof request), book_len, most = 0;
    for (size_t i = 0; (book_len = stack_book(book, i)) > 0; i++) {
        struct input lent = of_book(in->name, book_len);
        lent.request_len = request_len;
        agree(&lent);
        size_t stack = stack_of(of, &lent);
        if (stack > most) {
            most = stack;
            *in = lent;
        }
    }
    return (double)most;
}

static void stack(const char *name, side *of_plain, side *of_proved)
{
    struct input in = { .name = name };
    double plain = deepest(of_plain, &in);
    if (proved_machine) {
        double proved = deepest(of_proved, &in);
        row("stack", &in, "bytes", plain, proved, proved / plain);
    } else
        row_of_plain("stack", &in, "bytes", plain);
}

int main(void)
{
    translating("rig", bytes_of_file("examples/rig/BOOK.HEX", book, sizeof book));
    for (size_t records = 10; records <= 1000; records *= 10)
        translating("growth", growth_book(book, records));
    translating("sums", sums_book(book, 1000));
    translating("issuers", issuers_book(book, 1000));
    for (size_t entries = 1; entries <= 64; entries *= 8)
        running("rig", bytes_of_file("examples/rig/BOOK.HEX", book, sizeof book), rig_request(entries));
    for (size_t records = 10; records <= 1000; records *= 10)
        for (size_t entries = 1; entries <= 64; entries *= 8)
            running("growth", growth_book(book, records), growth_request(request, entries));
    for (size_t entries = 1; entries <= 64; entries *= 8)
        running("sums", sums_book(book, 1000), growth_request(request, entries));
    for (size_t entries = 1; entries <= 64; entries *= 8)
        running("issuers", issuers_book(book, 1000), issuers_request(request, entries));
    stack("translate", plain_translation, proved_translation);
    stack("tick", plain_whole_run, proved_whole_run);
    sizes();
    return 0;
}

#define _GNU_SOURCE
#include "measure.h"

#include <bachumoi.h>
#include <stdio.h>
#include <stdlib.h>
#include <string.h>
#include <time.h>
#include <ucontext.h>

enum { TURNS = 1000, FEWEST_TURNS = 21, BATCH_NANOSECONDS = 50000, ROW_NANOSECONDS = 200000000 };

static double now(void)
{
    struct timespec t;
    clock_gettime(CLOCK_MONOTONIC, &t);
    return 1e9 * (double)t.tv_sec + (double)t.tv_nsec;
}

static volatile uint64_t seen;

/* Nanoseconds of so many calls. */
static double batch(side *of, const struct input *input, unsigned calls)
{
    uint64_t sum = 0;
    double start = now();
    for (unsigned i = 0; i < calls; i++)
        sum += of(input);
    double end = now();
    seen = sum;
    return end - start;
}

static int ascending(const void *a, const void *b)
{
    double x = *(const double *)a, y = *(const double *)b;
    return (x > y) - (x < y);
}

static double median(double *of, size_t count)
{
    qsort(of, count, sizeof *of, ascending);
    return of[count / 2];
}

/* The quickest turn of a side so far, in nanoseconds of a batch; begins at 0. */
struct quickest {
    double call, less;
};

static double quicker(double so_far, double time)
{
    return so_far == 0 || time < so_far ? time : so_far;
}

/* One turn of a side: nanoseconds of a batch, less the other. */
static double turn(struct timed of, const struct input *input, unsigned calls, struct quickest *quickest)
{
    double call = batch(of.call, input, calls), less = of.less ? batch(of.less, input, calls) : 0;
    quickest->call = quicker(quickest->call, call);
    quickest->less = quicker(quickest->less, less);
    return call - less;
}

void measure(const char *what, const struct input *input, struct timed plain, struct timed proved)
{
    static double ratios[TURNS];
    struct quickest of_plain = { 0, 0 }, of_proved = { 0, 0 };
    unsigned calls = 1, turns = 0;
    while (batch(plain.call, input, calls) < BATCH_NANOSECONDS)
        calls *= 2;
    double start = now(), parts = (double)calls * (double)plain.steps;
    for (; turns < TURNS && (turns < FEWEST_TURNS || now() - start < ROW_NANOSECONDS); turns++) {
        double first = proved.call && turns % 2 == 0 ? turn(proved, input, calls, &of_proved) : 0;
        double time = turn(plain, input, calls, &of_plain);
        double second = proved.call && turns % 2 == 1 ? turn(proved, input, calls, &of_proved) : 0;
        ratios[turns] = (first + second) / time;
    }
    double plain_time = (of_plain.call - of_plain.less) / parts, proved_time = (of_proved.call - of_proved.less) / parts;
    if (proved.call)
        row(what, input, "ns", plain_time, proved_time, median(ratios, turns));
    else
        row_of_plain(what, input, "ns", plain_time);
}

/* An amount with three figures or all of them before the point, in a column of its own. */
static void amount(double of)
{
    printf("%.*f\t", of < 10 ? 2 : of < 100 ? 1 : 0, of);
}

/* Records or entries, in a column of their own; a dash where there is none. */
static void count(size_t of)
{
    if (of > 0)
        printf("%zu\t", of);
    else
        printf("-\t");
}

static void head(const char *what, const struct input *input, const char *unit, double plain)
{
    printf("%s\t%s\t", what, input->name);
    count(input->book_len / BACHUMOI_RECORD);
    count(input->request_len / BACHUMOI_RECORD);
    printf("%s\t", unit);
    amount(plain);
}

void row(const char *what, const struct input *input, const char *unit, double plain, double proved, double ratio)
{
    head(what, input, unit, plain);
    amount(proved);
    printf("%.2f\n", ratio);
    fflush(stdout);
}

void row_of_plain(const char *what, const struct input *input, const char *unit, double plain)
{
    head(what, input, unit, plain);
    printf("-\t-\n");
    fflush(stdout);
}

/* ---- The painted stack ------------------------------------------------------------------------------------- */

enum { STACK = 1 << 18, PAINT = 0xA5 };

static unsigned char painted[STACK] __attribute__((aligned(64)));
static ucontext_t here, there;
static side *call;
static const struct input *lent;

static void on_painted(void)
{
    seen = call(lent);
}

static uint64_t nothing(const struct input *input)
{
    return input->book_len;
}

static size_t touched(side *of, const struct input *input)
{
    memset(painted, PAINT, STACK);
    call = of;
    lent = input;
    getcontext(&there);
    there.uc_stack.ss_sp = painted;
    there.uc_stack.ss_size = STACK;
    there.uc_link = &here;
    makecontext(&there, on_painted, 0);
    swapcontext(&here, &there);
    size_t clean = 0;
    while (clean < STACK && painted[clean] == PAINT)
        clean++;
    return STACK - clean;
}

size_t stack_of(side *of, const struct input *input)
{
    return touched(of, input) - touched(nothing, input);
}

/* Judging and deciding through the C host: bachumoi_decide against plain C, and the stack of the deepest call.
 * Run from the top of the repository; built by bench/run. */
#include "books.h"
#include "measure.h"
#include "plain.h"

#include <bachumoi.h>
#include <stdio.h>
#include <stdlib.h>
#include <string.h>

#ifdef HAVE_HOST
static uint64_t host(const struct input *in)
{
    return bachumoi_decide(in->book, in->book_len, in->request, in->request_len, in->out, in->out_len);
}
static side *const proved = host;
#else
static side *const proved = NULL;
#endif

static uint64_t plain(const struct input *in)
{
    return plain_decide(in->book, in->book_len, in->request, in->request_len, in->out, in->out_len);
}

/* Ends the program unless a side gives the number of plain C, a decision, and leaves the same bytes. */
static void agree(const struct input *in, side *of)
{
    uint8_t theirs[MOST_OUT];
    memset(in->out, 0xEE, in->out_len);
    uint64_t number = plain(in);
    memcpy(theirs, in->out, in->out_len);
    if (!of)
        of = plain;
    memset(in->out, 0xEE, in->out_len);
    if (of(in) != number || memcmp(theirs, in->out, in->out_len) != 0 || bachumoi_refused(number)) {
        fprintf(stderr, "decide: %s, %zu entries: no decision, or another\n", in->name, in->request_len / RECORD);
        exit(1);
    }
}

static void one(const struct input *in)
{
    agree(in, proved);
    measure("decide", in, (struct timed){ plain, NULL, 1 }, (struct timed){ proved, NULL, 1 });
}

/* The output that a book needs: two bytes for each obligation record. */
static size_t need(const uint8_t *book, size_t book_len)
{
    size_t bytes = 0;
    for (size_t i = 0; i < book_len; i += RECORD)
        bytes += book[i] == 8 ? 2 : 0;
    return bytes;
}

/* The rig-like book with each request that examples/rig/answers.txt names. */
static void rig(struct input in, uint8_t *book, uint8_t *request)
{
    in.book_len = bytes_of_file("examples/rig/BOOK.HEX", book, MOST_BOOK);
    in.out_len = need(book, in.book_len);
    FILE *answers = fopen("examples/rig/answers.txt", "r");
    char file[64], path[128], name[80];
    while (answers && fscanf(answers, "%63s %*s", file) == 1) {
        snprintf(path, sizeof path, "examples/rig/%s", file);
        snprintf(name, sizeof name, "rig %.*s", (int)strcspn(file, "."), file);
        in.name = name;
        in.request_len = bytes_of_file(path, request, MOST_REQUEST);
        one(&in);
    }
    if (answers)
        fclose(answers);
}

/* A book with requests of 1, 8 and 64 entries. */
static void grown(struct input in, const char *name, size_t book_len, size_t (*ask)(uint8_t *request, size_t entries),
                  uint8_t *request)
{
    in.name = name;
    in.book_len = book_len;
    in.out_len = need(in.book, book_len);
    for (size_t entries = 1; entries <= 64; entries *= 8) {
        in.request_len = ask(request, entries);
        one(&in);
    }
}

static void growth(struct input in, uint8_t *book, uint8_t *request)
{
    for (size_t records = 10; records <= 1000; records *= 10)
        grown(in, "growth", growth_book(book, records), growth_request, request);
    grown(in, "sums", sums_book(book, 1000), growth_request, request);
    grown(in, "issuers", issuers_book(book, 1000), issuers_request, request);
}

/* The deepest stack of a side over every stack_book; in is left with the length of the book that takes it. */
static size_t deepest(struct input *in, uint8_t *book, side *of)
{
    size_t most = 0, most_len = 0;
    for (size_t i = 0; (in->book_len = stack_book(book, i)) > 0; i++) {
        agree(in, of);
        size_t stack = stack_of(of, in);
        if (stack > most) {
            most = stack;
            most_len = in->book_len;
        }
    }
    in->book_len = most_len;
    return most;
}

static void stack(struct input in, uint8_t *book, uint8_t *request)
{
    in.name = "decide";
    in.request_len = bytes_of_file("examples/a/40.hex", request, MOST_REQUEST);
    double of_plain = (double)deepest(&in, book, plain);
    if (proved) {
        double of_proved = (double)deepest(&in, book, proved);
        row("stack", &in, "bytes", of_plain, of_proved, of_proved / of_plain);
    } else
        row_of_plain("stack", &in, "bytes", of_plain);
}

int main(void)
{
    static uint8_t book[MOST_BOOK], request[MOST_REQUEST], out[MOST_OUT];
    struct input in = { .book = book, .request = request, .out = out, .out_len = sizeof out };
    rig(in, book, request);
    growth(in, book, request);
    stack(in, book, request);
    return 0;
}

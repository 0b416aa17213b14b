/* Judging a book: Bachumoi's judge against plain C. Run from the top of the repository; built by bench/run. */
#include "books.h"
#include "measure.h"
#include "plain.h"

#include <stdio.h>
#include <stdlib.h>

#ifdef HAVE_PROBE
uint64_t probe_judge_book(const uint8_t *book, size_t book_len);

static uint64_t probe(const struct input *in)
{
    return probe_judge_book(in->book, in->book_len);
}
static side *const proved = probe;
#else
static side *const proved = NULL;
#endif

static uint64_t plain(const struct input *in)
{
    return plain_judge_book(in->book, in->book_len);
}

/* The answer of a side must change when the last record of the book is spoilt, else it has judged nothing. */
static void judges(side *of, const struct input *in, uint8_t *book)
{
    uint64_t sound = of(in);
    uint8_t *kind = &book[in->book_len - RECORD];
    *kind ^= 0x40;
    uint64_t spoilt = of(in);
    *kind ^= 0x40;
    if (sound == spoilt || of(in) != sound) {
        fprintf(stderr, "judge: book %s: a spoilt last record changes nothing\n", in->name);
        exit(1);
    }
}

static void one(const char *name, uint8_t *book, size_t book_len)
{
    struct input in = { .name = name, .book = book, .book_len = book_len };
    judges(plain, &in, book);
    if (proved)
        judges(proved, &in, book);
    measure("judge", &in, (struct timed){ plain, NULL, 1 }, (struct timed){ proved, NULL, 1 });
}

int main(void)
{
    static uint8_t book[MOST_BOOK];
    one("rig", book, bytes_of_file("examples/rig/BOOK.HEX", book, sizeof book));
    for (size_t records = 10; records <= 1000; records *= 10)
        one("growth", book, growth_book(book, records));
    one("sums", book, sums_book(book, 1000));
    one("issuers", book, issuers_book(book, 1000));
    return 0;
}

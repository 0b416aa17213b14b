/* Salvaging a book: bachumoi_salvage against plain C, of a sound book and of one with spoilt policies. Run from the top
 * of the repository; built by bench/run. */
#include "books.h"
#include "measure.h"
#include "plain_salvage.h"

#include <bachumoi.h>
#include <stdio.h>
#include <stdlib.h>
#include <string.h>

static uint8_t replaced[MOST_OUT]; /* beside out, which is for the mended book */

#ifdef HAVE_MENDER
static uint64_t mender(const struct input *in)
{
    return bachumoi_salvage(in->book, in->book_len, in->out, in->out_len, replaced, sizeof replaced);
}
static side *const proved = mender;
#else
static side *const proved = NULL;
#endif

static uint64_t plain(const struct input *in)
{
    return plain_salvage(in->book, in->book_len, in->out, in->out_len, replaced, sizeof replaced);
}

/* Ends the program unless a side replaces so many children, gives the number of plain C, and leaves the same bytes. */
static void agree(const struct input *in, side *of, size_t spoilt)
{
    static uint8_t their_mended[MOST_BOOK], their_replaced[MOST_OUT];
    memset(in->out, 0xEE, in->out_len);
    memset(replaced, 0xEE, sizeof replaced);
    uint64_t number = plain(in);
    memcpy(their_mended, in->out, in->out_len);
    memcpy(their_replaced, replaced, sizeof replaced);
    memset(in->out, 0xEE, in->out_len);
    memset(replaced, 0xEE, sizeof replaced);
    if (of(in) != number || memcmp(their_mended, in->out, in->out_len) != 0 ||
        memcmp(their_replaced, replaced, sizeof replaced) != 0 || bachumoi_refused(number) ||
        bachumoi_replacements(number) != spoilt) {
        fprintf(stderr, "salvage: book %s: not mended, or otherwise\n", in->name);
        exit(1);
    }
}

static void one(const char *name, const uint8_t *book, size_t book_len, size_t spoilt)
{
    static uint8_t mended[MOST_BOOK];
    struct input in = { .name = name, .book = book, .book_len = book_len, .out = mended, .out_len = sizeof mended };
    agree(&in, proved ? proved : plain, spoilt);
    measure("salvage", &in, (struct timed){ plain, NULL, 1 }, (struct timed){ proved, NULL, 1 });
}

int main(void)
{
    static uint8_t book[MOST_BOOK];
    one("rig", book, bytes_of_file("examples/rig/BOOK.HEX", book, sizeof book), 0);
    size_t spoilt, book_len = spoilt_book(book, 1000, &spoilt);
    one("spoilt", book, book_len, spoilt);
    return 0;
}

/* A C host: salvaging a half-copied book, document 02, 6. Spoils each line of a book of two makers in several ways, and
 * some lines together; salvages it; and asks what was mended whether Argolin, Beltram and another maker may write. What
 * cannot be mended must be refused, and all that was lent be as it was.
 *
 * All that is lent stands in heap buffers of exactly the lent length, so that fences and valgrind see any byte read or
 * written beside them. Exit status 0 if all is as document 02 says, else 1. host/run builds and runs it.
 */
#include <bachumoi.h>

#include <stdio.h>
#include <stdlib.h>
#include <string.h>

enum { RECORD = BACHUMOI_RECORD, UNTOUCHED = 0xEE };

/* The book: line 1, its target to line 4, Argolin's to line 10, Beltram's to line 16, and two obligations. */
enum { LINES = 18, BOOK = LINES * RECORD, REPLACED = 2 * LINES };
#define LINE_1(span) "0102" span "00000000000000000000000000000000" /* a set, permit-overrides, */
#define TARGET "0400000303000000000000000000000000000000" \
               "0500000200000000000000000000000000000000" \
               "0601000103020001575249544520202000000000" /* for the action WRITE */
#define ARGOLIN "0201000600000000000000000000000000000000" /* Argolin's policy, deny-overrides, */ \
                "0400000301000000000000000000000000000000" \
                "0500000200000000000000000000000000000000" \
                "06010001010200014152474F4C494E2000000000" /* for the maker ARGOLIN */ \
                "0301000200000000000000000000000000000000" /* a rule: Permit, when */ \
                "070D000102010004000000000000007800000000" /* 120 is greater than or equal to front pressure */
#define BELTRAM "0101000600000000000000000000000000000000" /* Beltram's set, deny-overrides, */ \
                "0400000301000000000000000000000000000000" \
                "0500000200000000000000000000000000000000" \
                "060100010102000142454C5452414D2000000000" /* for the maker BELTRAM */ \
                "0203000200000000000000000000000000000000" /* a policy, first-applicable */ \
                "0301000100000000000000000000000000000000" /* a rule: Permit */
#define DUTIES "0801000100000011000000000000000000000000" /* obligation 17 on Permit */ \
               "0802000100000012000000000000000000000000" /* obligation 18 on Deny */
#define DENIAL "0201000200000000000000000000000000000000" \
               "0302000100000000000000000000000000000000"

/* What a write is answered. */
enum outcome { PERMIT, DENY, NOT_APPLICABLE };
static const struct {
    uint64_t number;
    uint8_t out[4];
    const char *words;
} outcomes[] = {
    [PERMIT] = { BACHUMOI_PERMIT + 256, { 0, 17 }, "Permit 17" },
    [DENY] = { BACHUMOI_DENY + 256, { 0, 18 }, "Deny 18" },
    [NOT_APPLICABLE] = { BACHUMOI_NOT_APPLICABLE, { 0 }, "NotApplicable" },
};

/* Makers that write, all at front pressure 100. */
enum { MAKERS = 3 };
#define WRITE_OF(maker) "0102000100000000" maker "00000000" \
                        "0302000100000000575249544520202000000000" \
                        "0201000400000000000000000000006400000000"
static const char *const writes[MAKERS] = {
    WRITE_OF("4152474F4C494E20"), WRITE_OF("42454C5452414D20"), WRITE_OF("434F52564F202020"),
};

/* What salvaging makes of the book: the lines replaced and how many, what is left, and what that answers the makers.
 * What was replaced denies whoever writes; by permit-overrides the other maker's Permit still counts. */
enum mending { NOTHING, ARGOLINS, BELTRAMS, BOTH, REFUSED };
static const struct {
    const char *replaced, *mended;
    enum outcome answers[MAKERS];
} mendings[] = {
    [NOTHING] = { "", LINE_1("0012") TARGET ARGOLIN BELTRAM DUTIES, { PERMIT, PERMIT, NOT_APPLICABLE } },
    [ARGOLINS] = { "00050006", LINE_1("000E") TARGET DENIAL BELTRAM DUTIES, { DENY, PERMIT, DENY } },
    [BELTRAMS] = { "000B0006", LINE_1("000E") TARGET ARGOLIN DENIAL DUTIES, { PERMIT, DENY, DENY } },
    [BOTH] = { "00050006000B0006", LINE_1("000A") TARGET DENIAL DENIAL DUTIES, { DENY, DENY, DENY } },
};

static int failed;

/* So many bytes, or NULL for none. */
static void *lend(size_t bytes)
{
    if (bytes == 0)
        return NULL;
    void *memory = malloc(bytes);
    if (!memory)
        exit(2);
    memset(memory, UNTOUCHED, bytes);
    return memory;
}

static uint8_t *lend_copy(const uint8_t *of, size_t bytes)
{
    uint8_t *copy = lend(bytes);
    if (bytes > 0)
        memcpy(copy, of, bytes);
    return copy;
}

/* The bytes of these digits. */
static uint8_t *lend_text(const char *text, size_t *len)
{
    *len = strlen(text) / 2;
    uint8_t *bytes = lend(*len);
    for (size_t i = 0; i < *len; i++)
        sscanf(text + 2 * i, "%2hhx", &bytes[i]);
    return bytes;
}

/* Whether what was lent begins with the bytes of these digits, and all behind them is as it was. */
static int begins(const uint8_t *lent, size_t len, const char *text)
{
    size_t filled;
    uint8_t *bytes = lend_text(text, &filled);
    int right = filled <= len && (filled == 0 || memcmp(lent, bytes, filled) == 0);
    for (size_t i = filled; i < len; i++)
        right &= lent[i] == UNTOUCHED;
    free(bytes);
    return right;
}

/* ---- Salvaging --------------------------------------------------------------------------------------------- */

/* What a call is lent beside the book, and what it returns. */
struct salvage {
    uint8_t *mended, *replaced;
    size_t mended_len, replaced_len;
    uint64_t number;
};

static struct salvage salvage(const uint8_t *book, size_t book_len, size_t mended_len, size_t replaced_len)
{
    struct salvage s = { lend(mended_len), lend(replaced_len), mended_len, replaced_len, 0 };
    uint8_t *lent = lend_copy(book, book_len);
    s.number = bachumoi_salvage(lent, book_len, s.mended, mended_len, s.replaced, replaced_len);
    failed |= book_len > 0 && memcmp(lent, book, book_len) != 0; /* the book keeps its bytes */
    free(lent);
    return s;
}

static void give_back(struct salvage s)
{
    free(s.mended);
    free(s.replaced);
}

static int is_mended(struct salvage s, enum mending expected)
{
    size_t records = strlen(mendings[expected].mended) / (2 * RECORD);
    size_t replacements = strlen(mendings[expected].replaced) / 8;
    return s.number == 256 * (uint64_t)records + 16777216 * (uint64_t)replacements && !bachumoi_refused(s.number) &&
           bachumoi_records(s.number) == records && bachumoi_replacements(s.number) == replacements &&
           begins(s.mended, s.mended_len, mendings[expected].mended) &&
           begins(s.replaced, s.replaced_len, mendings[expected].replaced);
}

static int is_refused(struct salvage s, unsigned number, unsigned part, unsigned line)
{
    return s.number == 255 + 256 * (uint64_t)number + 65536 * (uint64_t)line + 4294967296 * (uint64_t)part &&
           bachumoi_number(s.number) == number && bachumoi_part(s.number) == part &&
           bachumoi_line(s.number) == line && bachumoi_records(s.number) == 0 &&
           bachumoi_replacements(s.number) == 0 && begins(s.mended, s.mended_len, "") &&
           begins(s.replaced, s.replaced_len, "");
}

/* ---- Asking what was mended -------------------------------------------------------------------------------- */

static int answers(const uint8_t *book, size_t book_len, const char *write, enum outcome expected)
{
    size_t request_len;
    uint8_t *request = lend_text(write, &request_len), *out = lend(sizeof outcomes->out);
    uint64_t number = bachumoi_decide(book, book_len, request, request_len, out, sizeof outcomes->out);
    int right = number == outcomes[expected].number && memcmp(out, outcomes[expected].out, sizeof outcomes->out) == 0;
    free(request);
    free(out);
    return right;
}

static int translates(const uint8_t *book, size_t book_len)
{
    size_t room = BACHUMOI_ROOM(book_len / RECORD);
    uint64_t *programme = lend(room * sizeof *programme);
    size_t entries = bachumoi_entries(bachumoi_translate(book, book_len, programme, room));
    free(programme);
    return entries > 0;
}

/* Salvaged again, with just as much room as it needs, a mended book keeps its records. */
static int is_kept(const uint8_t *book, size_t book_len)
{
    size_t records = book_len / RECORD;
    struct salvage s = salvage(book, book_len, book_len, 2 * records);
    int right = s.number == 256 * (uint64_t)records && memcmp(s.mended, book, book_len) == 0 &&
                begins(s.replaced, s.replaced_len, "");
    give_back(s);
    return right;
}

/* Salvages a book of so many lines, and asks what is mended for every maker. */
static int mends(const uint8_t *book, enum mending expected)
{
    struct salvage s = salvage(book, BOOK, BOOK, REPLACED);
    int right = is_mended(s, expected);
    if (right) {
        size_t len = bachumoi_records(s.number) * RECORD;
        uint8_t *mended = lend_copy(s.mended, len);
        right = translates(mended, len) && is_kept(mended, len);
        for (unsigned i = 0; i < MAKERS; i++)
            right &= answers(mended, len, writes[i], mendings[expected].answers[i]);
        free(mended);
    }
    give_back(s);
    return right;
}

static int refuses(const uint8_t *book, unsigned line)
{
    struct salvage s = salvage(book, BOOK, BOOK, REPLACED);
    int right = is_refused(s, 13, 1, line);
    give_back(s);
    return right;
}

static void row(const char *what, int right, enum mending mending)
{
    printf("%-32s %-17s", what, right ? mendings[mending].replaced : "WRONG");
    for (unsigned i = 0; right && i < MAKERS; i++)
        printf(" %-*s", i < MAKERS - 1 ? 13 : 0, outcomes[mendings[mending].answers[i]].words);
    printf("\n");
    failed |= !right;
}

static void row_of_refusal(const char *what, int right, unsigned number)
{
    if (right)
        printf("%-32s refused, %u\n", what, number);
    else
        printf("%-32s WRONG\n", what);
    failed |= !right;
}

/* ---- Spoilt lines ------------------------------------------------------------------------------------------ */

/* A line with a wrong digit is read as zeros; any other of these breaks a field rule in every record. */
enum way { WRONG_DIGIT, KIND, LAST_BYTE, WAYS };

static void spoil(uint8_t *book, unsigned line, enum way way)
{
    uint8_t *record = book + (line - 1) * RECORD;
    if (way == WRONG_DIGIT)
        memset(record, 0, RECORD);
    else
        record[way == KIND ? 0 : RECORD - 1] ^= 0x40;
}

/* What is made of the book with one line spoilt. */
static const enum mending of_line[LINES] = {
    REFUSED, REFUSED, REFUSED, REFUSED,
    REFUSED, ARGOLINS, ARGOLINS, ARGOLINS, ARGOLINS, ARGOLINS,
    REFUSED, BELTRAMS, BELTRAMS, BELTRAMS, BELTRAMS, BELTRAMS,
    REFUSED, REFUSED,
};

/* Spoils a line in every way by itself. */
static void each_way(const uint8_t *book, unsigned line)
{
    enum mending expected = of_line[line - 1];
    char what[16];
    int right = 1;
    for (enum way way = WRONG_DIGIT; way < WAYS; way++) {
        uint8_t *copy = lend_copy(book, BOOK);
        spoil(copy, line, way);
        right &= expected == REFUSED ? refuses(copy, line) : mends(copy, expected);
        free(copy);
    }
    snprintf(what, sizeof what, "line %u", line);
    if (expected == REFUSED)
        row_of_refusal(what, right, 13);
    else
        row(what, right, expected);
}

static void some_lines(const uint8_t *book)
{
    uint8_t *copy = lend_copy(book, BOOK);
    spoil(copy, 10, KIND);
    spoil(copy, 15, WRONG_DIGIT);
    row("lines 10 and 15", mends(copy, BOTH), BOTH);
    spoil(copy, 18, LAST_BYTE);
    row_of_refusal("lines 10, 15 and 18", refuses(copy, 18), 13);
    spoil(copy, 3, WRONG_DIGIT);
    row_of_refusal("lines 3, 10, 15 and 18", refuses(copy, 3), 13);
    memcpy(copy, book, BOOK);
    copy[8 * RECORD + 3] = 9;
    row("line 9 runs over Beltram's set", mends(copy, ARGOLINS), ARGOLINS);
    memcpy(copy, book, BOOK);
    copy[0] = 2;
    row_of_refusal("line 1 is a policy", refuses(copy, 1), 13);
    free(copy);
}

/* ---- Lengths and room -------------------------------------------------------------------------------------- */

static void refused(const char *what, struct salvage s, unsigned number, unsigned part, unsigned line)
{
    row_of_refusal(what, is_refused(s, number, part, line), number);
    give_back(s);
}

static void lengths(const uint8_t *book)
{
    enum { TOO_LONG = (BACHUMOI_MOST_RECORDS + 1) * RECORD };
    uint8_t *spoilt = lend(TOO_LONG);
    refused("an empty book", salvage(NULL, 0, BOOK, REPLACED), 3, 1, 0);
    refused("a book less a byte", salvage(book, BOOK - 1, BOOK, REPLACED), 4, 1, 0);
    refused("1,001 records, all spoilt", salvage(spoilt, TOO_LONG, TOO_LONG, TOO_LONG), 2, 1, 0);
    free(spoilt);
}

static void room(const uint8_t *book)
{
    uint8_t *copy = lend_copy(book, BOOK);
    spoil(copy, 6, WRONG_DIGIT);
    refused("line 6, mended a byte short", salvage(copy, BOOK, BOOK - 1, REPLACED), 7, 3, 0);
    refused("line 6, replaced a byte short", salvage(copy, BOOK, BOOK, REPLACED - 1), 7, 3, 0);
    refused("line 6, no room", salvage(copy, BOOK, 0, 0), 7, 3, 0);
    struct salvage s = salvage(copy, BOOK, BOOK + 1, REPLACED + 3);
    row("line 6, more room than it needs", is_mended(s, ARGOLINS), ARGOLINS);
    give_back(s);
    spoil(copy, 17, WRONG_DIGIT);
    refused("lines 6 and 17, no room", salvage(copy, BOOK, 0, 0), 13, 1, 17);
    free(copy);
}

int main(void)
{
    size_t len;
    uint8_t *book = lend_text(mendings[NOTHING].mended, &len);
    printf("%-32s %-17s %-13s %-13s %s\n", "spoilt", "replaced", "Argolin", "Beltram", "another");
    row("no line", mends(book, NOTHING), NOTHING);
    for (unsigned line = 1; line <= LINES; line++)
        each_way(book, line);
    some_lines(book);
    lengths(book);
    room(book);
    free(book);
    printf("%s\n", failed ? "salvage: not as document 02 says" : "salvage: ok");
    return failed;
}

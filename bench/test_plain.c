/* Tries the plain C of the benchmark on document 01's P1 to P11, its Run line, the two zeros, the sums, the status
 * codes and the issuers of document 02, some refusals, and the examples: decided, and run as a programme; and on books
 * to salvage. Texts have 32 digits a line but where there is an issuer. Run from the top of the repository; built by
 * bench/run. Exit status 0 if all is right, else 1. */
#include "books.h"
#include "machine.h"
#include "plain.h"
#include "plain_salvage.h"

#include <stdio.h>
#include <stdlib.h>
#include <string.h>

static int failed;
static uint8_t book[MOST_BOOK + RECORD], request[MOST_REQUEST + RECORD], out[MOST_OUT];

/* What the deciding program would print of a number and the obligations in out; then, of an Indeterminate, a blank and
 * its code. */
static void print_line(char *line, uint64_t number)
{
    if ((number & 255) == 255) {
        unsigned why = number >> 8 & 255, part = number >> 32 & 255, at = number >> 16 & 65535;
        sprintf(line, "FF%02X%02X%04X", why, part, at);
        return;
    }
    line += sprintf(line, "%02X%04X", (unsigned)(number & 255), bachumoi_count(number));
    for (size_t i = 0; i < bachumoi_count(number); i++)
        line += sprintf(line, "%02X%02X", out[2 * i], out[2 * i + 1]);
    if (number >> 24 != 0)
        sprintf(line, " %llX", (unsigned long long)number >> 40);
}

/* Runs the book's programme on the request, with steps dealt out by chance: it must answer like the decision that is in
 * number and out. */
static int runs_alike(size_t book_len, size_t request_len, uint64_t number)
{
    static struct programme programme;
    static struct dice dice = { 1 };
    static uint16_t places[BACHUMOI_PLACES];
    uint64_t steps;
    translate(&plain_machine, book, book_len, &programme);
    if (run(&plain_machine, &programme, request, request_len, &dice, places, &steps) != number)
        return 0;
    for (size_t i = 0; i < BACHUMOI_PLACES; i++)
        if (places[i] != (i < bachumoi_count(number) ? (out[2 * i] << 8 | out[2 * i + 1]) : 0))
            return 0;
    return 1;
}

/* Decides and compares with the line expected. Of out, all lent bytes after the obligations must be zero and all the
 * others as they were. */
static void expect_bytes(const char *name, size_t book_len, size_t request_len, size_t out_len, const char *expected)
{
    static char line[6 + 2 * MOST_OUT + 1];
    memset(out, 0xEE, sizeof out);
    uint64_t number = plain_decide(book, book_len, request, request_len, out, out_len);
    print_line(line, number);
    int refused = (number & 255) == 255, right = strcmp(line, expected) == 0;
    for (size_t i = 2 * bachumoi_count(number); i < sizeof out; i++)
        right &= out[i] == (refused || i >= out_len ? 0xEE : 0);
    if (!right) {
        printf("plain C: %s: %s, not %s\n", name, line, expected);
        failed = 1;
    } else if (!refused && !runs_alike(book_len, request_len, number)) {
        printf("plain C: %s: its programme does not answer %s\n", name, expected);
        failed = 1;
    }
}

static void expect(const char *name, const char *book_text, const char *request_text, const char *expected)
{
    size_t book_len = bytes_of_text(book_text, book, sizeof book);
    size_t request_len = bytes_of_text(request_text, request, sizeof request);
    expect_bytes(name, book_len, request_len, sizeof out, expected);
}

#define A "02010006000000000000000000000000\n" \
          "03010001000000000000000000000000\n" \
          "03020002000000000000000000000000\n" \
          "070C0001040100070000000000000032\n" \
          "08010001000000110000000000000000\n" \
          "08020001000000120000000000000000\n"
#define A_40 "04010007000000000000000000000028\n"
#define A_50 "04010007000000000000000000000032\n"
#define A_60 "0401000700000000000000000000003C\n"
#define A_MINUS_1 "0401000700000000FFFFFFFFFFFFFFFF\n"

static void worked(void)
{
    expect("P1", A, "", "040000 1");
    expect("P2", A, A_60, "0100010011");
    expect("P3", A, A_40, "0200010012");
    expect("P4", A, A_50, "0100010011");
    expect("P5", A, A_MINUS_1, "0200010012");
    expect("P6", A, A_40 A_40, "040000 2");
    expect("P7", "01010007000000000000000000000000\n" A, "", "020000");
    expect("P8", "01020007000000000000000000000000\n" A, "", "040000 1");
    expect("P9", "01040008000000000000000000000000\n"
                 "02010001000000000000000000000000\n" A, A_60, "040000 2");
    expect("P10", "02010008000000000000000000000000\n"
                  "04000003010000000000000000000000\n"
                  "05000002000000000000000000000000\n"
                  "06010001018100010000000000000001\n"     /* subject 1, must be present, is not */
                  "04000003030000000000000000000000\n"
                  "05000002000000000000000000000000\n"
                  "06010001030100010000000000000001\n"     /* action 1 is not there: False */
                  "03010001000000000000000000000000\n", "", "040000 1");
    expect("P11", "02010006000000000000000000000000\n"
                  "04000004010000000000000000000000\n"
                  "05000003000000000000000000000000\n"
                  "06010001010100010000000000000001\n"     /* False */
                  "06010001018100020000000000000001\n"     /* Indeterminate */
                  "03010001000000000000000000000000\n", "", "030000");
}

/* The two zeros, as literal and as request value, by every function: equal as doubles, and not as names. */
static void zeros(void)
{
    static const char *const zero[2] = { "0000000000000000", "8000000000000000" };
    static const int holds[5] = { 1, 0, 1, 0, 1 };
    for (int i = 0; i < 4 * 6; i++) {
        int literal = i & 1, value = i >> 1 & 1, function = i >> 2, as_names = function == 5;
        char name[40], policy[4 * SHORT_LINE], entry[SHORT_LINE + 1];
        if (as_names)
            function = 0;
        snprintf(name, sizeof name, "zeros %d and %d, function %d", literal, value, function + 1);
        snprintf(policy, sizeof policy, "02030003%024d\n03010002%024d\n070%X000104%02d0003%s\n", 0, 0, 11 + function,
                 as_names ? 2 : 3, zero[literal]);
        snprintf(entry, sizeof entry, "04%02d000300000000%s\n", as_names ? 2 : 3, zero[value]);
        expect(name, policy, entry, (as_names ? literal == value : holds[function]) ? "010000" : "030000");
    }
}

/* ---- Sums -------------------------------------------------------------------------------------------------- */

enum { ADD = 3, SUBTRACT, MULTIPLY, DIVIDE, REMAINDER, DOUBLE_ADD };
enum { INTEGER = 1, NAME, DOUBLE };
enum outcome { LOST, GIVES };

/* Puts the lines of two operands: literals, or attributes 1 and 2 of the environment. Returns their length. */
static int put_operands(char *text, unsigned type, const uint64_t *values, int as_attributes)
{
    char *at = text;
    for (unsigned i = 0; i < 2; i++)
        at += as_attributes ? sprintf(at, "0A02000104%02X%04X%016d\n", type, i + 1, 0)
                            : sprintf(at, "0A01000100%02X0000%016llX\n", type, (unsigned long long)values[i]);
    return (int)(at - text);
}

static void put_entries(char *text, unsigned type, const uint64_t *values)
{
    for (unsigned i = 0; i < 2; i++)
        text += sprintf(text, "04%02X%04X00000000%016llX\n", type, i + 1, (unsigned long long)values[i]);
}

/* A rule that permits when the operator gives this result of the operands: Indeterminate where it gives none. */
static void operates(unsigned operator, unsigned type, const uint64_t *operands, enum outcome outcome, uint64_t result)
{
    char name[80], policy[8 * SHORT_LINE + 1], entries[2 * SHORT_LINE + 1], *at;
    put_entries(entries, type, operands);
    snprintf(name, sizeof name, "operator %u of %016llX and %016llX", operator, (unsigned long long)operands[0],
             (unsigned long long)operands[1]);
    for (int as_attributes = 0; as_attributes < 2; as_attributes++) {
        at = policy + sprintf(policy, "02030007%024d\n03010006%024d\n07150005%024d\n0A%02X0003%024d\n", 0, 0, 0,
                              operator, 0);
        at += put_operands(at, type, operands, as_attributes);
        sprintf(at, "0A01000100%02X0000%016llX\n", type, (unsigned long long)result);
        expect(name, policy, entries, outcome == GIVES ? "010000" : "040000 2");
    }
}

#define MOST INT64_MAX
#define LEAST INT64_MIN
#define ROOT INT64_C(3037000499) /* the largest number whose square fits */
#define TWO_TO_32 INT64_C(4294967296)

/* The ends of every integer operator, and the signs of quotients and remainders. */
static const struct {
    unsigned operator;
    int64_t first, second;
    enum outcome outcome;
    int64_t result;
} of_integers[] = {
    { ADD, 2, 3, GIVES, 5 }, { ADD, MOST, 0, GIVES, MOST }, { ADD, MOST, 1, LOST, 0 }, { ADD, 1, MOST, LOST, 0 },
    { ADD, LEAST, -1, LOST, 0 }, { ADD, -1, LEAST, LOST, 0 }, { ADD, LEAST, LEAST, LOST, 0 },
    { ADD, LEAST, MOST, GIVES, -1 }, { ADD, MOST - 1, 1, GIVES, MOST }, { ADD, LEAST + 1, -1, GIVES, LEAST },
    { SUBTRACT, 2, 3, GIVES, -1 }, { SUBTRACT, LEAST, 1, LOST, 0 }, { SUBTRACT, MOST, -1, LOST, 0 },
    { SUBTRACT, 0, LEAST, LOST, 0 }, { SUBTRACT, -1, LEAST, GIVES, MOST }, { SUBTRACT, LEAST, LEAST, GIVES, 0 },
    { SUBTRACT, 0, MOST, GIVES, -MOST }, { SUBTRACT, -1, MOST, GIVES, LEAST }, { SUBTRACT, -2, MOST, LOST, 0 },
    { MULTIPLY, -3, 7, GIVES, -21 }, { MULTIPLY, LEAST, -1, LOST, 0 }, { MULTIPLY, -1, LEAST, LOST, 0 },
    { MULTIPLY, LEAST, 1, GIVES, LEAST }, { MULTIPLY, MOST, -1, GIVES, -MOST }, { MULTIPLY, MOST, MOST, LOST, 0 },
    { MULTIPLY, LEAST, 0, GIVES, 0 }, { MULTIPLY, TWO_TO_32, TWO_TO_32, LOST, 0 },
    { MULTIPLY, TWO_TO_32, TWO_TO_32 / 2, LOST, 0 }, { MULTIPLY, TWO_TO_32, -TWO_TO_32 / 2, GIVES, LEAST },
    { MULTIPLY, ROOT, ROOT, GIVES, ROOT * ROOT }, { MULTIPLY, ROOT + 1, ROOT + 1, LOST, 0 },
    { MULTIPLY, ROOT + 1, -ROOT - 1, LOST, 0 },
    { DIVIDE, 7, 2, GIVES, 3 }, { DIVIDE, -7, 2, GIVES, -3 }, { DIVIDE, 7, -2, GIVES, -3 },
    { DIVIDE, -7, -2, GIVES, 3 }, { DIVIDE, LEAST, -1, LOST, 0 }, { DIVIDE, LEAST, 1, GIVES, LEAST },
    { DIVIDE, MOST, -1, GIVES, -MOST }, { DIVIDE, 5, 0, LOST, 0 }, { DIVIDE, 0, 0, LOST, 0 },
    { DIVIDE, 0, 5, GIVES, 0 }, { DIVIDE, 1, LEAST, GIVES, 0 }, { DIVIDE, LEAST, LEAST, GIVES, 1 },
    { REMAINDER, 7, 2, GIVES, 1 }, { REMAINDER, -7, 2, GIVES, -1 }, { REMAINDER, 7, -2, GIVES, 1 },
    { REMAINDER, -7, -2, GIVES, -1 }, { REMAINDER, LEAST, -1, GIVES, 0 }, { REMAINDER, 5, -1, GIVES, 0 },
    { REMAINDER, 5, 0, LOST, 0 }, { REMAINDER, LEAST, 0, LOST, 0 }, { REMAINDER, LEAST, MOST, GIVES, -1 },
    { REMAINDER, MOST, LEAST, GIVES, MOST }, { REMAINDER, -6, 3, GIVES, 0 },
};

#define MOST_DOUBLE 0x1.FFFFFFFFFFFFFp1023
#define LEAST_DOUBLE 0x1p-1074
#define BELOW_HALF 0x1.FFFFFFFFFFFFFp969 /* next below 2 to the power 970, half a last place of the largest double */

/* Sums of doubles that are exact; that are rounded up, down and at a tie to the even one; that are not finite. */
static const struct {
    double first, second;
    enum outcome outcome;
    double result;
} of_doubles[] = {
    { 1.5, 2.25, GIVES, 3.75 }, { 1, -1, GIVES, 0 }, { -0.0, -0.0, GIVES, 0 },
    { 0x1.999999999999Ap-4, 0x1.999999999999Ap-3, GIVES, 0x1.3333333333334p-2 },
    { 0x1p53, 1, GIVES, 0x1p53 }, { 0x1p53 + 2, 1, GIVES, 0x1p53 + 4 }, { -0x1p53, -1, GIVES, -0x1p53 },
    { 0x1p53, 0x1.0000000000001p0, GIVES, 0x1p53 + 2 }, /* a tie, were it rounded to some wider number first */
    { 1, 0x1p-53, GIVES, 1 }, { 1, 0x1.0000000000001p-53, GIVES, 0x1.0000000000001p0 }, { 1, LEAST_DOUBLE, GIVES, 1 },
    { LEAST_DOUBLE, LEAST_DOUBLE, GIVES, 0x1p-1073 }, { LEAST_DOUBLE, -LEAST_DOUBLE, GIVES, 0 },
    { 0x1p-1022, -LEAST_DOUBLE, GIVES, 0x0.FFFFFFFFFFFFFp-1022 },
    { 0x0.FFFFFFFFFFFFFp-1022, LEAST_DOUBLE, GIVES, 0x1p-1022 },
    { MOST_DOUBLE, -MOST_DOUBLE, GIVES, 0 }, { MOST_DOUBLE, LEAST_DOUBLE, GIVES, MOST_DOUBLE },
    { MOST_DOUBLE, BELOW_HALF, GIVES, MOST_DOUBLE }, { -MOST_DOUBLE, -BELOW_HALF, GIVES, -MOST_DOUBLE },
    { MOST_DOUBLE, 0x1p970, LOST, 0 }, { -MOST_DOUBLE, -0x1p970, LOST, 0 }, { 0x1p1023, 0x1p1023, LOST, 0 },
    { MOST_DOUBLE, MOST_DOUBLE, LOST, 0 }, { -MOST_DOUBLE, -MOST_DOUBLE, LOST, 0 },
};

static uint64_t bits_of(double d)
{
    uint64_t bits;
    memcpy(&bits, &d, sizeof bits);
    return bits;
}

static void operators(void)
{
    for (size_t i = 0; i < sizeof of_integers / sizeof *of_integers; i++) {
        uint64_t operands[2] = { (uint64_t)of_integers[i].first, (uint64_t)of_integers[i].second };
        operates(of_integers[i].operator, INTEGER, operands, of_integers[i].outcome, (uint64_t)of_integers[i].result);
    }
    for (size_t i = 0; i < sizeof of_doubles / sizeof *of_doubles; i++) {
        uint64_t operands[2] = { bits_of(of_doubles[i].first), bits_of(of_doubles[i].second) };
        operates(DOUBLE_ADD, DOUBLE, operands, of_doubles[i].outcome, bits_of(of_doubles[i].result));
    }
}

/* Two values by every function, the first of them less (order -1), equal (0) or greater (1); names by the first. */
static void compares(unsigned type, uint64_t first, uint64_t second, int order)
{
    static const char *const holds[5] = { "010", "001", "011", "100", "110" };
    uint64_t operands[2] = { first, second };
    char name[60], policy[6 * SHORT_LINE + 1], entries[2 * SHORT_LINE + 1];
    put_entries(entries, type, operands);
    for (unsigned i = 0; i < 2 * (type == NAME ? 1 : 5); i++) {
        unsigned choice = 21 + i / 2;
        snprintf(name, sizeof name, "choice %u of values of type %u, order %d", choice, type, order);
        int head = sprintf(policy, "02030005%024d\n03010004%024d\n07%02X0003%024d\n", 0, 0, choice, 0);
        put_operands(policy + head, type, operands, i % 2 == 1);
        expect(name, policy, entries, holds[i / 2][order + 1] == '1' ? "010000" : "030000");
    }
}

static void comparisons_of_values(void)
{
    static const uint64_t minus_zero = (uint64_t)1 << 63, name = 0x4152474F4C494E20;
    compares(INTEGER, UINT64_MAX, 1, -1);
    compares(INTEGER, 7, 7, 0);
    compares(INTEGER, INT64_MAX, minus_zero, 1);
    compares(DOUBLE, bits_of(-2.5), bits_of(-2), -1);
    compares(DOUBLE, 0, minus_zero, 0);
    compares(DOUBLE, bits_of(LEAST_DOUBLE), minus_zero, 1);
    compares(NAME, name, name, 0);
    compares(NAME, 0, minus_zero, 1);
}

/* Deny, with obligation 18, when resource attribute 4 plus 3 is greater than 100. */
enum { SUM_LINES = 8 };
static const char *const sum_book[SUM_LINES] = {
    "02030008000000000000000000000000", "03020006000000000000000000000000", "07160005000000000000000000000000",
    "0A030003000000000000000000000000", "0A020001020100040000000000000000", "0A010001000100000000000000000003",
    "0A010001000100000000000000000064", "08020001000000120000000000000000",
};

#define SUM_97 "02010004000000000000000000000061\n"
#define SUM_98 "02010004000000000000000000000062\n"
#define SUM_MOST "02010004000000007FFFFFFFFFFFFFFF\n"

/* That book with another record at this line; line 0 for none. */
static void with_line(const char *what, unsigned line, const char *record, const char *entries, const char *expected)
{
    char text[SUM_LINES * SHORT_LINE + 1], *at = text;
    for (unsigned i = 1; i <= SUM_LINES; i++)
        at += sprintf(at, "%s\n", i == line ? record : sum_book[i - 1]);
    expect(what, text, entries, expected);
}

static void attributes_of_sums(void)
{
    static const char present[] = "0A020001028100040000000000000000", limit[] = "0A020001020100050000000000000000";
    with_line("97 + 3", 0, "", SUM_97, "030000");
    with_line("98 + 3", 0, "", SUM_98, "0200010012");
    with_line("the largest + 3", 0, "", SUM_MOST, "040000 2");
    with_line("no pressure", 0, "", "", "040000 1");
    with_line("pressure twice", 0, "", SUM_98 SUM_98, "040000 2");
    with_line("pressure as a double", 0, "", "02030004000000004058800000000000\n", "040000 1");
    with_line("pressure must be present", 5, present, SUM_98, "0200010012");
    with_line("pressure must be present, and is not", 5, present, "", "040000 1");
    with_line("no limit", 7, limit, SUM_98, "040000 1");
    with_line("the largest + 3, and no limit", 7, limit, SUM_MOST, "040000 2");
}

#define LITERAL(digits) "0A0100010001000000000000000000" digits "\n"
#define SAME "07150003000000000000000000000000\n" LITERAL("01") LITERAL("01")
#define OTHER "07150003000000000000000000000000\n" LITERAL("01") LITERAL("02")
#define BY_ZERO "07150005000000000000000000000000\n" \
                "0A060003000000000000000000000000\n" LITERAL("01") LITERAL("00") LITERAL("01")

/* A Permit rule under and, or or not of these conditions. */
static void grouped(const char *what, unsigned choice, const char *parts, const char *expected)
{
    unsigned lines = (unsigned)strlen(parts) / SHORT_LINE;
    char text[20 * SHORT_LINE + 1];
    sprintf(text, "0203%04X%024d\n0301%04X%024d\n07%02X%04X%024d\n%s", lines + 3, 0, lines + 2, 0, choice, lines + 1, 0,
            parts);
    expect(what, text, "", expected);
}

static void sums_in_groups(void)
{
    grouped("and: by zero, other", 1, BY_ZERO OTHER, "030000");
    grouped("and: other, by zero", 1, OTHER BY_ZERO, "030000");
    grouped("and: by zero, same", 1, BY_ZERO SAME, "040000 2");
    grouped("and: same, same", 1, SAME SAME, "010000");
    grouped("or: by zero, same", 2, BY_ZERO SAME, "010000");
    grouped("or: same, by zero", 2, SAME BY_ZERO, "010000");
    grouped("or: by zero, other", 2, BY_ZERO OTHER, "040000 2");
    grouped("not: by zero", 3, BY_ZERO, "040000 2");
    grouped("not: other", 3, OTHER, "010000");
}

/* Field rules of the new choices: line 4 is the operator, 5 the attribute, 6 a literal, 3 the comparison. */
static void fields_of_sums(void)
{
    static const struct { unsigned line; const char *record; } broken[] = {
        { 6, "0A010001008100000000000000000003" }, { 6, "0A010001000000000000000000000003" },
        { 6, "0A010001000400000000000000000003" }, { 6, "0A010001020100000000000000000003" },
        { 6, "0A010001000100010000000000000003" }, { 6, "0A010001000101000000000000000003" },
        { 6, "0A010000000100000000000000000003" }, { 6, "0A010002000100000000000000000003" },
        { 6, "0A010001000300007FF0000000000000" }, { 6, "0A01000100030000FFF8000000000000" },
        { 5, "0A020001000100040000000000000000" }, { 5, "0A020001050100040000000000000000" },
        { 5, "0A020001020000040000000000000000" }, { 5, "0A020001028000040000000000000000" },
        { 5, "0A020001020400040000000000000000" }, { 5, "0A020001020100040000000000000001" },
        { 5, "0A020001020100048000000000000000" }, { 5, "0A020000020100040000000000000000" },
        { 5, "0A020002020100040000000000000000" }, { 4, "0A030000000000000000000000000000" },
        { 4, "0A030003010000000000000000000000" }, { 4, "0A030003000100000000000000000000" },
        { 4, "0A030003000000010000000000000000" }, { 4, "0A030003000000000000000000000001" },
        { 4, "0A000003000000000000000000000000" }, { 4, "0A090003000000000000000000000000" },
        { 4, "09030003000000000000000000000000" }, { 4, "0B030003000000000000000000000000" },
        { 3, "07160000000000000000000000000000" }, { 3, "07160005000100000000000000000000" },
        { 3, "07160005000000000000000000000001" }, { 3, "07140005000000000000000000000000" },
        { 3, "071A0005000000000000000000000000" }, { 3, "07100005000000000000000000000000" },
    };
    for (size_t i = 0; i < sizeof broken / sizeof *broken; i++) {
        char expected[16];
        snprintf(expected, sizeof expected, "FF050100%02X", broken[i].line);
        with_line(broken[i].record, broken[i].line, broken[i].record, SUM_98, expected);
    }
}

/* Operands that are not two values of one type: 11 at the operator or comparison above them, whichever comes first. */
static void places_of_sums(void)
{
    with_line("an operand of another type", 6, "0A010001000300000000000000000003", SUM_98, "FF0B010004");
    with_line("a name plus 3", 5, "0A020001020200040000000000000000", SUM_98, "FF0B010004");
    with_line("a limit of another type", 7, "0A010001000300000000000000000064", SUM_98, "FF0B010003");
    with_line("double add of integers", 4, "0A080003000000000000000000000000", SUM_98, "FF0B010003");
    with_line("an operator of one operand", 4, "0A030002000000000000000000000000", SUM_98, "FF0B010003");
    with_line("an operator of three operands", 4, "0A030004000000000000000000000000", SUM_98, "FF0B010003");
    with_line("a comparison of one value", 3, "07160004000000000000000000000000", SUM_98, "FF0B010003");
    with_line("a comparison of no value", 3, "07160001000000000000000000000000", SUM_98, "FF0B010003");
    with_line("an operand that is a condition", 6, "070B0001020100040000000000000003", SUM_98, "FF0B010004");
    with_line("an operand that is an operator without operands", 6, "0A030001000000000000000000000000", SUM_98,
              "FF0B010006");
    with_line("an operand that runs too far, and so covers the limit", 6, "0A030002000000000000000000000000", SUM_98,
              "FF0B010003");
    with_line("a limit that runs past the comparison's end", 7, "0A030002000000000000000000000000", SUM_98,
              "FF0A010007");
    with_line("an operator that runs past the comparison's end, and covers the limit", 4,
              "0A030005000000000000000000000000", SUM_98, "FF0B010003");
    with_line("a value in place of an obligation", 8, "0A010001000100000000000000000003", SUM_98, "FF0B010008");
    with_line("a value in place of a condition", 3, "0A030005000000000000000000000000", SUM_98, "FF0B010003");
    with_line("a value at line 1", 1, "0A030008000000000000000000000000", SUM_98, "FF09010001");
    grouped("a value in and", 1, SAME LITERAL("01"), "FF0B010007");
    grouped("a field before a place", 1, "07150002000000000000000000000000\n" LITERAL("01")
            "0A010001008100000000000000000001\n", "FF05010006");
    grouped("names by equal", 1, "07150003000000000000000000000000\n"
            "0A010001000200004152474F4C494E20\n0A010001000200004152474F4C494E20\n", "010000");
    grouped("names by less or equal", 1, "07190003000000000000000000000000\n"
            "0A010001000200004152474F4C494E20\n0A010001000200004152474F4C494E20\n", "FF0B010004");
}

/* Operators one in the other, each the first operand of the one around it, round this innermost record. */
static void nested_operators(const char *what, unsigned count, const char *innermost, const char *expected)
{
    char text[40 * SHORT_LINE + 1], *at = text;
    unsigned records = 2 * count + 5;
    at += sprintf(at, "0203%04X%024d\n0301%04X%024d\n0716%04X%024d\n", records, 0, records - 1, 0, records - 2, 0);
    for (unsigned left = count; left > 0; left--)
        at += sprintf(at, "0A03%04X%024d\n", 2 * left + 1, 0);
    at += sprintf(at, "%s", innermost);
    for (unsigned i = 0; i <= count; i++)
        at += sprintf(at, LITERAL("01"));
    expect(what, text, "", expected);
}

static void depth_of_sums(void)
{
    nested_operators("operands at depth 16", 12, LITERAL("01"), "010000");
    nested_operators("operands at depth 17", 13, LITERAL("01"), "FF0C010011");
    nested_operators("an operator without operands at depth 17", 13, "0A030001000000000000000000000000\n",
                     "FF0B010011");
    size_t book_len = deep_book(book, 1, 0, OPERATORS); /* which takes all the levels of a state */
    size_t request_len = bytes_of_text("0401000700000000FFFFFFFFFFFFFDA8\n", request, sizeof request);
    expect_bytes("50 > twelve 50s and -600", book_len, request_len, 0, "010000");
    bytes_of_text("0401000700000000FFFFFFFFFFFFFDDA\n", request, sizeof request);
    expect_bytes("50 > twelve 50s and -550", book_len, request_len, 0, "030000");
}

static void sums(void)
{
    operators();
    comparisons_of_values();
    attributes_of_sums();
    sums_in_groups();
    fields_of_sums();
    places_of_sums();
    depth_of_sums();
}

/* ---- Why Indeterminate ------------------------------------------------------------------------------------- */

enum { DENY_OVERRIDES = 1, PERMIT_OVERRIDES, FIRST_APPLICABLE, ONLY_ONE_APPLICABLE };
enum { AND = 1, OR, NOT };

/* Environment attribute 1 is missing, 2 is there twice, 3 is 1. */
#define WHY "04010002000000000000000000000001\n" \
            "04010002000000000000000000000001\n" \
            "04010003000000000000000000000001\n"

/* A comparison that for this request is Indeterminate with code 1 or 2, True or False. */
static const char *comparing(char what)
{
    switch (what) {
    case '1':
        return "070B0001040100010000000000000001\n";
    case '2':
        return "070B0001040100020000000000000001\n";
    case 't':
        return "070B0001040100030000000000000001\n";
    default:
        return "070B0001040100030000000000000002\n";
    }
}

/* And, or or not of comparisons, in a Permit rule. */
static void codes_of_conditions(void)
{
    static const struct { unsigned choice; const char *parts, *expected; } all[] = {
        { AND, "1", "040000 1" }, { AND, "2", "040000 2" }, { AND, "t12", "040000 1" }, { AND, "2t1", "040000 2" },
        { AND, "12f", "030000" }, { AND, "f12", "030000" }, { OR, "f21", "040000 2" }, { OR, "1f2", "040000 1" },
        { OR, "12t", "010000" }, { NOT, "1", "040000 1" }, { NOT, "2", "040000 2" },
    };
    for (size_t i = 0; i < sizeof all / sizeof *all; i++) {
        char name[40], text[8 * SHORT_LINE + 1], *at = text;
        unsigned parts = (unsigned)strlen(all[i].parts);
        snprintf(name, sizeof name, "codes: condition %u of %s", all[i].choice, all[i].parts);
        at += sprintf(at, "0203%04X%024d\n0301%04X%024d\n07%02X%04X%024d\n", parts + 3, 0, parts + 2, 0,
                      all[i].choice, parts + 1, 0);
        for (unsigned k = 0; k < parts; k++)
            at += sprintf(at, "%s", comparing(all[i].parts[k]));
        expect(name, text, WHY, all[i].expected);
    }
}

/* Operands of a sum, each one of these attributes. */
static void codes_of_operands(void)
{
    static const struct { unsigned first, second; const char *expected; } all[] = {
        { 1, 2, "040000 1" }, { 2, 1, "040000 2" }, { 3, 1, "040000 1" }, { 3, 2, "040000 2" }, { 1, 3, "040000 1" },
        { 2, 3, "040000 2" }, { 3, 3, "010000" },
    };
    for (size_t i = 0; i < sizeof all / sizeof *all; i++) {
        char name[40], text[10 * SHORT_LINE + 1];
        snprintf(name, sizeof name, "codes: attributes %u and %u added", all[i].first, all[i].second);
        sprintf(text, "02030007%024d\n03010006%024d\n07150005%024d\n0A030003%024d\n0A0200010401%04X%016d\n"
                "0A0200010401%04X%016d\n" LITERAL("02"), 0, 0, 0, 0, all[i].first, 0, all[i].second, 0);
        expect(name, text, WHY, all[i].expected);
        snprintf(name, sizeof name, "codes: attributes %u and %u compared", all[i].first, all[i].second);
        sprintf(text, "02030005%024d\n03010004%024d\n07150003%024d\n0A0200010401%04X%016d\n0A0200010401%04X%016d\n",
                0, 0, 0, all[i].first, 0, all[i].second, 0);
        expect(name, text, WHY, all[i].expected);
    }
}

/* A policy of rules, each written as its effect and the comparison that is its condition. */
static void codes_of_rules(void)
{
    static const struct { unsigned algorithm; const char *rules, *expected; } all[] = {
        { DENY_OVERRIDES, "P1D2", "040000 1" }, { DENY_OVERRIDES, "P2D1", "040000 2" },
        { DENY_OVERRIDES, "PtP1D2", "040000 1" }, { DENY_OVERRIDES, "D2PtD1", "040000 2" },
        { DENY_OVERRIDES, "DfP2P1", "040000 2" }, { DENY_OVERRIDES, "P1Pt", "010000" },
        { DENY_OVERRIDES, "P1D2Dt", "020000" }, { DENY_OVERRIDES, "P2", "040000 2" },
        { PERMIT_OVERRIDES, "D1P2", "040000 1" }, { PERMIT_OVERRIDES, "D2DtP1", "040000 2" },
        { PERMIT_OVERRIDES, "P2Dt", "040000 2" }, { PERMIT_OVERRIDES, "D1Dt", "020000" },
        { PERMIT_OVERRIDES, "D2P1Pt", "010000" }, { PERMIT_OVERRIDES, "PfD1", "040000 1" },
        { FIRST_APPLICABLE, "PfD2P1", "040000 2" }, { FIRST_APPLICABLE, "DfP1Dt", "040000 1" },
        { FIRST_APPLICABLE, "PtD1", "010000" },
    };
    for (size_t i = 0; i < sizeof all / sizeof *all; i++) {
        char name[40], text[8 * SHORT_LINE + 1], *at = text;
        snprintf(name, sizeof name, "codes: algorithm %u of rules %s", all[i].algorithm, all[i].rules);
        at += sprintf(at, "02%02X%04X%024d\n", all[i].algorithm, (unsigned)strlen(all[i].rules) + 1, 0);
        for (const char *rule = all[i].rules; *rule; rule += 2)
            at += sprintf(at, "03%02X0002%024d\n%s", rule[0] == 'P' ? 1 : 2, 0, comparing(rule[1]));
        expect(name, text, WHY, all[i].expected);
    }
}

/* A match that is True, False, or Indeterminate, which is with code 1. */
static const char *matching(char what)
{
    switch (what) {
    case 'm':
        return "06010001040100030000000000000001\n";
    case 'n':
        return "06010001040100030000000000000002\n";
    default:
        return "06010001048100010000000000000001\n";
    }
}

/* A policy whose target is such a match, and whose rule permits, denies, or is Indeterminate with code 1 or 2. Returns
 * the length of its six lines. */
static int put_policy(char *text, char target, char answer)
{
    char condition = answer == 'P' || answer == 'D' ? 't' : answer;
    return sprintf(text, "02030006%024d\n04000003040000000000000000000000\n05000002%024d\n%s03%02X0002%024d\n%s", 0, 0,
                   matching(target), answer == 'D' ? 2 : 1, 0, comparing(condition));
}

static void codes_of_sets(void)
{
    static const struct { unsigned algorithm; const char *policies, *expected; } all[] = {
        { PERMIT_OVERRIDES, "m1m2", "040000 1" }, { PERMIT_OVERRIDES, "m2m1", "040000 2" },
        { PERMIT_OVERRIDES, "nPm21P", "040000 2" }, { PERMIT_OVERRIDES, "1Dm2", "040000 1" },
        { PERMIT_OVERRIDES, "m2mD", "020000" }, { PERMIT_OVERRIDES, "m2mP", "010000" },
        { DENY_OVERRIDES, "m1", "020000" }, { DENY_OVERRIDES, "mPm2", "020000" }, { DENY_OVERRIDES, "1P", "020000" },
        { FIRST_APPLICABLE, "nPm2m1", "040000 2" }, { FIRST_APPLICABLE, "nP1Pm2", "040000 1" },
        { FIRST_APPLICABLE, "mDm1", "020000" }, { ONLY_ONE_APPLICABLE, "mPmP", "040000 2" },
        { ONLY_ONE_APPLICABLE, "mPnDmP", "040000 2" }, { ONLY_ONE_APPLICABLE, "1PmPmP", "040000 1" },
        { ONLY_ONE_APPLICABLE, "mP1PmP", "040000 1" }, { ONLY_ONE_APPLICABLE, "mPmP1P", "040000 2" },
        { ONLY_ONE_APPLICABLE, "m2nP1P", "040000 1" }, { ONLY_ONE_APPLICABLE, "m1mP", "040000 2" },
        { ONLY_ONE_APPLICABLE, "nPm1nP", "040000 1" }, { ONLY_ONE_APPLICABLE, "m2", "040000 2" },
        { ONLY_ONE_APPLICABLE, "nPmDnP", "020000" }, { ONLY_ONE_APPLICABLE, "n1n2", "030000" },
    };
    for (size_t i = 0; i < sizeof all / sizeof *all; i++) {
        char name[48], text[20 * SHORT_LINE + 1], *at = text;
        snprintf(name, sizeof name, "codes: algorithm %u of policies %s", all[i].algorithm, all[i].policies);
        at += sprintf(at, "01%02X%04X%024d\n", all[i].algorithm, 3 * (unsigned)strlen(all[i].policies) + 1, 0);
        for (const char *policy = all[i].policies; *policy; policy += 2)
            at += put_policy(at, policy[0], policy[1]);
        expect(name, text, WHY, all[i].expected);
    }
}

/* An only-one set in a set: the code goes up with the Indeterminate, and a Deny made of it goes up without. */
static void codes_of_nested_sets(void)
{
    static const struct { unsigned algorithm; const char *expected; } all[] = {
        { PERMIT_OVERRIDES, "040000 2" }, { FIRST_APPLICABLE, "040000 2" }, { DENY_OVERRIDES, "020000" },
        { ONLY_ONE_APPLICABLE, "040000 2" },
    };
    for (size_t i = 0; i < sizeof all / sizeof *all; i++) {
        char name[40], text[20 * SHORT_LINE + 1], *at = text;
        snprintf(name, sizeof name, "codes: algorithm %u of a set", all[i].algorithm);
        at += sprintf(at, "01%02X0014%024d\n0104000D%024d\n", all[i].algorithm, 0, 0);
        at += put_policy(at, 'm', '1');
        at += put_policy(at, 'm', '1');
        put_policy(at, 'n', 'P');
        expect(name, text, WHY, all[i].expected);
    }
}

static void codes(void)
{
    codes_of_conditions();
    codes_of_operands();
    codes_of_rules();
    codes_of_sets();
    codes_of_nested_sets();
}

/* ---- Issuers ----------------------------------------------------------------------------------------------- */

/* The length of a line that has an issuer. */
enum { LINE = 2 * RECORD + 1 };

/* How a Permit rule asks whether environment attribute 7 is 1. */
enum asking { BY_MATCH, BY_PRESENT_MATCH, BY_COMPARISON, BY_SUM, ASKINGS };
static const char *const askings[ASKINGS] = { "a match", "a match that must be present", "a comparison", "a sum" };

/* Its policy, which asks for this issuer's value. */
static void put_asking(char *text, enum asking how, unsigned issuer)
{
    if (how == BY_COMPARISON)
        sprintf(text, "02030003%032d\n03010002%032d\n070B000104010007%016d%04X0000\n", 0, 0, 1, issuer);
    else if (how == BY_SUM)
        sprintf(text, "02030005%032d\n03010004%032d\n07150003%032d\n0A02000104010007%016d%04X0000\n"
                "0A01000100010000%016d%08d\n", 0, 0, 0, 0, issuer, 1, 0);
    else
        sprintf(text, "02030005%032d\n03010004%032d\n0400000304%030d\n05000002%032d\n06010001%s0007%016d%04X0000\n",
                0, 0, 0, 0, how == BY_MATCH ? "0401" : "0481", 1, issuer);
}

/* Puts an entry for environment attribute 7; returns its length. */
static int put_vouched(char *text, unsigned issuer, unsigned value)
{
    return sprintf(text, "0401000700000000%016u%04X0000\n", value, issuer);
}

static void asks(enum asking how, unsigned issuer, const char *entries, const char *expected)
{
    char name[80], text[5 * LINE + 1];
    snprintf(name, sizeof name, "issuers: %s of %04X's value", askings[how], issuer);
    put_asking(text, how, issuer);
    expect(name, text, entries, expected);
}

static const char yes[] = "010000", no[] = "030000", missing[] = "040000 1", several[] = "040000 2";

/* Requests, each entry written as who vouches for it, n for nobody, and its value: what a match gives, one that must be
 * present, and a comparison or a sum. */
static void who_vouches(void)
{
    static const struct { unsigned issuer; const char *entries, *expected[3]; } all[] = {
        { 5, "", { no, missing, missing } }, { 5, "51", { yes, yes, yes } }, { 5, "50", { no, no, no } },
        { 5, "91", { no, missing, missing } }, { 5, "n1", { no, missing, missing } },
        { 5, "n191", { no, missing, missing } }, { 5, "9150", { no, no, no } }, { 5, "50n1", { no, no, no } },
        { 5, "9051", { yes, yes, yes } }, { 5, "51n091", { yes, yes, yes } }, { 5, "5051", { yes, yes, several } },
        { 5, "505091", { no, no, several } }, { 0, "", { no, missing, missing } }, { 0, "51", { yes, yes, yes } },
        { 0, "n1", { yes, yes, yes } }, { 0, "90", { no, no, no } }, { 0, "5091", { yes, yes, several } },
        { 0, "n151", { yes, yes, several } }, { 0, "50n0", { no, no, several } },
    };
    for (size_t i = 0; i < sizeof all / sizeof *all; i++) {
        char text[3 * LINE + 1] = "", *at = text;
        for (const char *entry = all[i].entries; *entry; entry += 2)
            at += put_vouched(at, *entry == 'n' ? 0 : (unsigned)(*entry - '0'), (unsigned)(entry[1] - '0'));
        for (enum asking how = BY_MATCH; how < ASKINGS; how++)
            asks(how, all[i].issuer, text, all[i].expected[how < BY_COMPARISON ? how : BY_COMPARISON]);
    }
}

/* An issuer is both its bytes, in their order. */
static void both_bytes(void)
{
    static const unsigned others[] = { 0x0005, 0x0100, 0x0501, 0x0000, 0x8105 };
    char text[LINE + 1];
    for (enum asking how = BY_MATCH; how < ASKINGS; how++) {
        put_vouched(text, 0x0105, 1);
        asks(how, 0x0105, text, yes);
        for (size_t i = 0; i < sizeof others / sizeof *others; i++) {
            put_vouched(text, others[i], 1);
            asks(how, 0x0105, text, how == BY_MATCH ? no : missing);
        }
    }
}

/* A book of every kind of record: a match, a comparison and an attribute may have an issuer. */
enum { A_MATCH = 5, A_COMPARISON = 9, AN_ATTRIBUTE = 13 };
#define EVERY_KIND "01030011000000000000000000000000\n" \
                   "0203000F000000000000000000000000\n" \
                   "04000003040000000000000000000000\n" \
                   "05000002000000000000000000000000\n" \
                   "06010001040100070000000000000001\n" \
                   "0301000A000000000000000000000000\n" \
                   "07010009000000000000000000000000\n" \
                   "07030002000000000000000000000000\n" \
                   "070B0001040100070000000000000001\n" \
                   "07020001000000000000000000000000\n" \
                   "07150005000000000000000000000000\n" \
                   "0A030003000000000000000000000000\n" \
                   "0A020001040100070000000000000000\n" \
                   "0A010001000100000000000000000001\n" \
                   "0A010001000100000000000000000002\n" \
                   "08010001000000110000000000000000\n" \
                   "08020001000000120000000000000000\n"

/* What is answered when one of bytes 16 to 19 of this record or entry is not zero: with an issuer, and else. */
static void last_bytes(uint8_t *at, size_t book_len, size_t request_len, const char *with_issuer, const char *refused)
{
    for (unsigned byte = ISSUER; byte < RECORD; byte++) {
        char name[24];
        snprintf(name, sizeof name, "byte %u", byte);
        at[byte] = (uint8_t)(1u << byte % 8);
        expect_bytes(name, book_len, request_len, sizeof out, byte < ISSUER + 2 ? with_issuer : refused);
        at[byte] = 0;
    }
}

static void last_bytes_of_records(void)
{
    size_t book_len = bytes_of_text(EVERY_KIND, book, sizeof book);
    expect_bytes("every kind", book_len, 0, sizeof out, no);
    for (unsigned line = 1; line <= book_len / RECORD; line++) {
        char refused[20];
        snprintf(refused, sizeof refused, "FF050100%02X", line);
        int may = line == A_MATCH || line == A_COMPARISON || line == AN_ATTRIBUTE;
        last_bytes(book + (line - 1) * RECORD, book_len, 0, may ? no : refused, refused);
    }
}

static void last_bytes_of_entries(void)
{
    size_t book_len = bytes_of_text(A, book, sizeof book);
    size_t request_len = bytes_of_text(A_40 "04010008000000000000000000000028\n", request, sizeof request);
    last_bytes(request, book_len, request_len, "0200010012", "FF05020001");
    last_bytes(request + RECORD, book_len, request_len, "0200010012", "FF05020002");
}

static void issuers(void)
{
    who_vouches();
    both_bytes();
    last_bytes_of_records();
    last_bytes_of_entries();
}

/* ---- Limits and refusals ----------------------------------------------------------------------------------- */

/* A set of span records, and policies of one record to fill it. */
static size_t flat(size_t records)
{
    static const uint8_t set[RECORD] = { 1, 1 }, policy[RECORD] = { 2, 1, 0, 1 };
    memcpy(book, set, RECORD);
    book[2] = (uint8_t)(records >> 8);
    book[3] = (uint8_t)records;
    for (size_t i = 1; i < records; i++)
        memcpy(book + i * RECORD, policy, RECORD);
    return records * RECORD;
}

static size_t nested(unsigned sets)
{
    memset(book, 0, sets * RECORD);
    for (unsigned i = 0; i < sets; i++) {
        book[i * RECORD] = book[i * RECORD + 1] = 1;
        book[i * RECORD + 3] = (uint8_t)(sets - i);
    }
    return sets * RECORD;
}

static void run_line(void)
{
    expect_bytes("1,000 lines", flat(1000), 0, 0, "030000");
    expect_bytes("1,001 lines", flat(1001), 0, 0, "FF02010000");
    expect_bytes("16 nested sets", nested(16), 0, 0, "030000");
    expect_bytes("17 nested sets", nested(17), 0, 0, "FF0C010011");
}

static void refusals(void)
{
    size_t book_len = bytes_of_text(A, book, sizeof book), request_len = bytes_of_text(A_40, request, sizeof request);
    expect_bytes("empty book, bad request", 0, 3, 0, "FF03010000");
    expect_bytes("length before number of records", MOST_BOOK + 1, 0, 0, "FF04010000");
    expect_bytes("request not a multiple of 20", book_len, RECORD - 1, 4, "FF04020000");
    expect_bytes("records of 16 bytes", book_len / RECORD * ISSUER, request_len, 4, "FF04010000");
    expect_bytes("an entry of 16 bytes", book_len, ISSUER, 4, "FF04020000");
    expect_bytes("output one byte short", book_len, request_len, 3, "FF07030000");
    expect_bytes("output just long enough", book_len, request_len, 4, "0200010012");
    expect_bytes("output with an odd byte", book_len, request_len, 5, "0200010012");
    book[1 * RECORD + 3] = 9;                               /* line 2 past the end: 10 */
    expect_bytes("place", book_len, request_len, 4, "FF0A010002");
    book[5 * RECORD + 1] = 3;                               /* line 6: no such choice: 5, before any place rule */
    expect_bytes("field before place", book_len, request_len, 4, "FF05010006");
    book_len = bytes_of_text(A, book, sizeof book);
    request[1] = 129;
    expect_bytes("entry with must-be-present", book_len, request_len, 4, "FF05020001");
}

/* ---- Salvage ----------------------------------------------------------------------------------------------- */

static uint8_t mended[MOST_BOOK], replaced[MOST_OUT];

/* What the salvaging program would print of a number and the replacements in replaced, blanks for its line ends. */
static void print_salvage(char *line, uint64_t number)
{
    *line = 0;
    if (bachumoi_refused(number))
        print_line(line, number);
    for (size_t i = 0; i < bachumoi_replacements(number); i++) {
        const uint8_t *its = replaced + 4 * i;
        line += sprintf(line, "%s%02X%02X%02X%02X", i == 0 ? "" : " ", its[0], its[1], its[2], its[3]);
    }
}

static int is_untouched(const uint8_t *bytes, size_t from, size_t to)
{
    int right = 1;
    for (size_t i = from; i < to; i++)
        right &= bytes[i] == 0xEE;
    return right;
}

/* Whether what was mended is accepted, and keeps its records when it is salvaged again, with just as much room. */
static int stays_mended(size_t len)
{
    static uint8_t again[MOST_BOOK], replaced_again[MOST_OUT];
    size_t records = len / RECORD;
    memset(replaced_again, 0xEE, sizeof replaced_again);
    return (plain_judge_book(mended, len) & 255) == 0 &&
           plain_salvage(mended, len, again, len, replaced_again, 2 * records) == 256 * records &&
           memcmp(again, mended, len) == 0 && is_untouched(replaced_again, 0, sizeof replaced_again);
}

/* Salvages and compares with the line and the mended book expected, none for a refusal. Of mended and replaced, all
 * bytes that are not filled must be as they were. */
static void expect_mended(const char *name, size_t book_len, size_t mended_len, size_t replaced_len,
                          const char *expected, const uint8_t *left, size_t left_len)
{
    static char line[9 * BACHUMOI_MOST_RECORDS];
    memset(mended, 0xEE, sizeof mended);
    memset(replaced, 0xEE, sizeof replaced);
    uint64_t number = plain_salvage(book, book_len, mended, mended_len, replaced, replaced_len);
    size_t records = left_len / RECORD, replacements = left_len > 0 ? (strlen(expected) + 1) / 9 : 0;
    print_salvage(line, number);
    int right = strcmp(line, expected) == 0 && memcmp(mended, left, left_len) == 0 &&
                (bachumoi_refused(number) || number == 256 * (uint64_t)records + 16777216 * (uint64_t)replacements) &&
                is_untouched(mended, left_len, sizeof mended) &&
                is_untouched(replaced, 4 * replacements, sizeof replaced);
    if (!right || (left_len > 0 && !stays_mended(left_len))) {
        printf("plain C: salvage: %s: %s, not %s, or it leaves another book\n", name, line, expected);
        failed = 1;
    }
}

static void expect_salvage(const char *name, const char *book_text, const char *expected, const char *mended_text)
{
    static uint8_t left[MOST_BOOK];
    size_t book_len = bytes_of_text(book_text, book, sizeof book);
    size_t left_len = bytes_of_text(mended_text, left, sizeof left);
    expect_mended(name, book_len, book_len, 2 * (book_len / RECORD), expected, left, left_len);
}

/* A set with a target, a policy, a set and an obligation: lines 1, 2 to 4, 5 to 8, 9 to 15, and 16. */
#define SET_OF(span) "0102" span "000000000000000000000000\n"
#define TARGET "04000003020000000000000000000000\n" \
               "05000002000000000000000000000000\n" \
               "06010001020100040000000000000064\n"
#define FIRST "02010004000000000000000000000000\n" \
              "03010002000000000000000000000000\n" \
              "070C0001040100070000000000000032\n" \
              "08010001000000110000000000000000\n"
#define SECOND "01030007000000000000000000000000\n" SECOND_POLICY
#define SECOND_POLICY "02020006000000000000000000000000\n" \
                      "03020004000000000000000000000000\n" \
                      "07150003000000000000000000000000\n" \
                      "0A020001020100040000000000000000\n" LITERAL("03") \
                      "08020001000000120000000000000000\n"
#define LAST "08020001000000130000000000000000\n"
#define DENIAL "02010002000000000000000000000000\n" \
               "03020001000000000000000000000000\n"
#define ZEROS "00000000000000000000000000000000\n"
#define WHOLE SET_OF("0010") TARGET FIRST SECOND LAST

/* That book with one other record or two, each at its line. */
struct spoilt {
    const char *what;
    struct { unsigned line; const char *record; } others[2];
    const char *expected, *mended;
};

static void salvage_of(const struct spoilt *spoilt)
{
    char text[] = WHOLE;
    for (unsigned i = 0; i < 2 && spoilt->others[i].line > 0; i++)
        memcpy(text + (spoilt->others[i].line - 1) * SHORT_LINE, spoilt->others[i].record, SHORT_LINE);
    expect_salvage(spoilt->what, text, spoilt->expected, spoilt->mended);
}

/* A bad record in one child, or in both. */
static void replaced_children(void)
{
    static const char first[] = "00050004", second[] = "00090007", both[] = "00050004 00090007";
    static const char no_first[] = SET_OF("000E") TARGET DENIAL SECOND LAST;
    static const char no_second[] = SET_OF("000B") TARGET FIRST DENIAL LAST;
    static const char neither[] = SET_OF("0009") TARGET DENIAL DENIAL LAST;
    static const struct spoilt all[] = {
        { "a wrong digit", { { 7, ZEROS } }, first, no_first },
        { "a rule with a wrong digit", { { 6, ZEROS } }, first, no_first },
        { "an obligation with a wrong digit", { { 8, ZEROS } }, first, no_first },
        { "no such effect", { { 6, "03030002000000000000000000000000\n" } }, first, no_first },
        { "an obligation with a category", { { 8, "08010001010000110000000000000000\n" } }, first, no_first },
        { "a comparison of span 2", { { 7, "070C0002040100070000000000000032\n" } }, first, no_first },
        { "a span of 0", { { 6, "03010000000000000000000000000000\n" } }, first, no_first },
        { "a rule that covers an obligation", { { 6, "03010003000000000000000000000000\n" } }, first, no_first },
        { "a rule past the policy's end", { { 6, "03010005000000000000000000000000\n" } }, first, no_first },
        { "a rule past the book's end", { { 6, "0301FFFF000000000000000000000000\n" } }, first, no_first },
        { "a policy in a policy", { { 8, "02010001000000000000000000000000\n" } }, first, no_first },
        { "the policy of a set", { { 10, ZEROS } }, second, no_second },
        { "a policy past the set's end", { { 10, "02020007000000000000000000000000\n" } }, second, no_second },
        { "an operand", { { 13, ZEROS } }, second, no_second },
        { "operands of two types", { { 14, "0A010001000300000000000000000003\n" } }, second, no_second },
        { "one operand", { { 12, "07150002000000000000000000000000\n" } }, second, no_second },
        { "the last record of a set", { { 15, "08030001000000120000000000000000\n" } }, second, no_second },
        { "both children", { { 7, ZEROS }, { 13, ZEROS } }, both, neither },
        { "both children, past their ends", { { 6, "03010009000000000000000000000000\n" },
          { 11, "0302FFFF000000000000000000000000\n" } }, both, neither },
        { "two records of one child", { { 10, ZEROS }, { 15, ZEROS } }, second, no_second },
    };
    for (size_t i = 0; i < sizeof all / sizeof *all; i++)
        salvage_of(&all[i]);
}

/* Heads whose spans are sound where they stand, though they are not those of the whole book. */
static void other_spans(void)
{
    static const struct spoilt all[] = {
        { "a head that covers the next one", { { 5, "02010005000000000000000000000000\n" } }, "00050005",
          SET_OF("000D") TARGET DENIAL SECOND_POLICY LAST },
        { "a head that covers all that follows", { { 5, "0201000C000000000000000000000000\n" } }, "0005000C",
          SET_OF("0006") TARGET DENIAL },
        { "a head that takes the last obligation", { { 9, "01030008000000000000000000000000\n" } }, "",
          SET_OF("0010") TARGET FIRST "01030008000000000000000000000000\n" SECOND_POLICY LAST },
    };
    for (size_t i = 0; i < sizeof all / sizeof *all; i++)
        salvage_of(&all[i]);
}

/* What no replacement takes away: the first such line. */
static void beyond_repair(void)
{
    static const struct spoilt all[] = {
        { "line 1", { { 1, ZEROS } }, "FF0D010001", "" },
        { "line 1 of no such choice", { { 1, "01050010000000000000000000000000\n" } }, "FF0D010001", "" },
        { "line 1 with an identifier", { { 1, "01020010000000010000000000000000\n" } }, "FF0D010001", "" },
        { "line 1 with too small a span", { { 1, SET_OF("000F") } }, "FF0D010001", "" },
        { "line 1 with too great a span", { { 1, SET_OF("0011") }, { 7, ZEROS } }, "FF0D010001", "" },
        { "a policy as line 1", { { 1, "02020010000000000000000000000000\n" } }, "FF0D010001", "" },
        { "a section", { { 2, ZEROS } }, "FF0D010002", "" },
        { "a section that covers a child", { { 2, "04000004020000000000000000000000\n" } }, "FF0D010005", "" },
        { "a conjunction, and a child", { { 3, ZEROS }, { 7, ZEROS } }, "FF0D010003", "" },
        { "a conjunction past the section's end", { { 3, "05000003000000000000000000000000\n" } }, "FF0D010003", "" },
        { "a match of another category", { { 4, "06010001030100040000000000000064\n" } }, "FF0D010004", "" },
        { "a head", { { 5, ZEROS } }, "FF0D010005", "" },
        { "a head of no such choice", { { 9, "01050007000000000000000000000000\n" } }, "FF0D010009", "" },
        { "a head past the book's end", { { 9, "01030009000000000000000000000000\n" } }, "FF0D010009", "" },
        { "a rule for a head", { { 9, "03010007000000000000000000000000\n" } }, "FF0D010009", "" },
        { "a head that leaves its obligation", { { 5, "02010003000000000000000000000000\n" } }, "FF0D010009", "" },
        { "a head that leaves a condition", { { 5, "02010002000000000000000000000000\n" } }, "FF0D010007", "" },
        { "a child, and the next head", { { 7, ZEROS }, { 9, ZEROS } }, "FF0D010009", "" },
        { "an obligation", { { 16, ZEROS } }, "FF0D010010", "" },
        { "a child, and an obligation", { { 7, ZEROS }, { 16, "08030001000000130000000000000000\n" } }, "FF0D010010",
          "" },
    };
    for (size_t i = 0; i < sizeof all / sizeof *all; i++)
        salvage_of(&all[i]);
}

/* Lengths, room for the mended book and for what was replaced, and which refusal comes first. */
static void salvage_refusals(void)
{
    static uint8_t left[MOST_BOOK];
    size_t len = bytes_of_text(WHOLE, book, sizeof book);
    size_t left_len = bytes_of_text(SET_OF("000E") TARGET DENIAL SECOND LAST, left, sizeof left);
    book[6 * RECORD] = 0;
    expect_mended("an empty book", 0, 0, 0, "FF03010000", left, 0);
    expect_mended("records of 16 bytes", 16 * ISSUER, len, 32, "FF04010000", left, 0);
    expect_mended("length before number of records", MOST_BOOK + 1, 0, 0, "FF04010000", left, 0);
    expect_mended("room for the mended book alone", len, left_len, 32, "FF07030000", left, 0);
    expect_mended("a byte short", len, len - 1, 32, "FF07030000", left, 0);
    expect_mended("replaced a byte short", len, len, 31, "FF07030000", left, 0);
    expect_mended("no room", len, 0, 0, "FF07030000", left, 0);
    expect_mended("more room", len, sizeof mended, sizeof replaced, "00050004", left, left_len);
    book[15 * RECORD] = 0;
    expect_mended("a bad record before no room", len, 0, 0, "FF0D010010", left, 0);
    len = flat(1001);
    book[0] = 0;
    expect_mended("1,001 lines before a bad line 1", len, sizeof mended, sizeof replaced, "FF02010000", left, 0);
}

/* A set over policies of two records of which each has a bad rule: as many replacements as there can be. */
static void most_replacements(void)
{
    static char expected[9 * BACHUMOI_MOST_RECORDS];
    static uint8_t left[MOST_BOOK];
    size_t len = flat(999);
    char *at = expected;
    memcpy(left, book, len);
    for (size_t i = 1; i < 999; i += 2) {
        book[i * RECORD + 3] = left[i * RECORD + 3] = 2;
        memset(book + (i + 1) * RECORD, 0, RECORD);
        memcpy(left + (i + 1) * RECORD, (uint8_t[]){ 3, 2, 0, 1 }, 4);
        at += sprintf(at, "%s%04zX0002", i == 1 ? "" : " ", i + 1);
    }
    expect_mended("499 replacements", len, len, 2 * 999, expected, left, len);
}

/* Sixteen sets, one in the other, are sound; of seventeen the innermost is bad, and the second is replaced. */
static void salvage_of_depth(void)
{
    static uint8_t left[MOST_BOOK];
    size_t len = nested(16);
    memcpy(left, book, len);
    expect_mended("16 nested sets", len, len, 32, "", left, len);
    size_t left_len = bytes_of_text("01010003000000000000000000000000\n" DENIAL, left, sizeof left);
    len = nested(17);
    expect_mended("17 nested sets", len, len, 34, "00020010", left, left_len);
}

/* Sound books keep their records; of books with spoilt ones, what is mended stays so. */
static void salvage_by_chance(void)
{
    static uint8_t left[MOST_BOOK];
    struct dice dice = { 6 };
    for (unsigned i = 0; i < 2000; i++) {
        size_t len = random_book(book, 1 + roll(&dice, 60), &dice), records = len / RECORD;
        issuers_in_book(book, len, &dice);
        memcpy(left, book, len);
        expect_mended("a sound book by chance", len, len, 2 * records, "", left, len);
        for (unsigned spoilt = 1 + roll(&dice, 3); spoilt > 0; spoilt--)
            book[roll(&dice, (unsigned)records) * RECORD + roll(&dice, RECORD)] ^= (uint8_t)(1u << roll(&dice, 8));
        uint64_t number = plain_salvage(book, len, mended, len, replaced, 2 * records);
        if (bachumoi_refused(number) ? bachumoi_number(number) != 13
                                     : !stays_mended(bachumoi_records(number) * RECORD)) {
            printf("plain C: salvage: book %u by chance is not mended\n", i);
            failed = 1;
        }
    }
}

static void salvages(void)
{
    expect_salvage("a sound book", WHOLE, "", WHOLE);
    expect_salvage("a set alone", "01040001000000000000000000000000\n", "", "01040001000000000000000000000000\n");
    expect_salvage("a set over book A, line 5", "01010007000000000000000000000000\n"
                   "02010006000000000000000000000000\n03010001000000000000000000000000\n"
                   "03020002000000000000000000000000\n" ZEROS "08010001000000110000000000000000\n"
                   "08020001000000120000000000000000\n", "00020006", "01010003000000000000000000000000\n" DENIAL);
    expect_salvage("book A", A, "FF0D010001", "");
    replaced_children();
    other_spans();
    beyond_repair();
    salvage_refusals();
    most_replacements();
    salvage_of_depth();
    salvage_by_chance();
}

/* ---- Programmes and examples ------------------------------------------------------------------------------- */

/* Says so unless a book's programme is this one. */
static void expect_programme(const char *name, size_t book_len, const uint64_t *entries, size_t length)
{
    static struct programme programme;
    translate(&plain_machine, book, book_len, &programme);
    if (programme.length != length || memcmp(programme.entries, entries, length * sizeof *entries) != 0) {
        printf("plain C: the programme of %s is not that of docs/PROGRAMME.md\n", name);
        failed = 1;
    }
}

/* A book of three to five records whose one test asks for an issuer: where that stands. */
static void programmes_of_issuers(void)
{
    static const struct { enum asking how; size_t length; uint64_t entries[9]; } all[] = {
        { BY_MATCH, 7, { 0, 0x2008003F11, 1, 0x48D0000000, 5, 8, 0xB } },
        { BY_COMPARISON, 7, { 0, 0x40100071D, 1, 0x1234, 5, 8, 0xB } },
        { BY_SUM, 9, { 0, 0x48D01004001DC, 0x4C, 1, 0x27C, 4, 5, 8, 0xB } },
    };
    for (size_t i = 0; i < sizeof all / sizeof *all; i++) {
        char text[5 * LINE + 1];
        put_asking(text, all[i].how, 0x1234);
        expect_programme(askings[all[i].how], bytes_of_text(text, book, sizeof book), all[i].entries, all[i].length);
    }
}

/* The programme of book A, as docs/PROGRAMME.md has it, its run, and a run that meets an entry of no known number. */
static void programme_of_a(void)
{
    static const uint64_t page[10] = { 0x90, 0x85, 0x40100072D, 0x32, 0, 0x15, 0x28, 0x229, 0x259, 0xB };
    static struct programme programme;
    static struct state state;
    uint16_t places[BACHUMOI_PLACES];
    size_t book_len = bytes_of_text(A, book, sizeof book), request_len = bytes_of_text(A_40, request, sizeof request);
    uint64_t steps = 0, refused = plain_machine.translate(book, book_len, programme.entries, BACHUMOI_ROOM(6) - 1);
    expect_programme("book A", book_len, page, sizeof page / sizeof *page);
    translate(&plain_machine, book, book_len, &programme);
    run(&plain_machine, &programme, request, request_len, NULL, places, &steps);
    programme.entries[2] = (page[2] & ~(uint64_t)15) | 2;
    fresh(&plain_machine, &state);
    if (refused != 0x3000007FF || steps != 8 ||
        tick(&plain_machine, &programme, request, request_len, &state, 3, places) != 0x4000008FF) {
        printf("plain C: the programme of book A is not made or run as bachumoi.h says\n");
        failed = 1;
    }
}

/* Adds the code that a folder of examples says a request has: none where it does not name the request. */
static void add_code(const char *folder, const char *file, char *expected)
{
    char path[200], name[64];
    unsigned code;
    snprintf(path, sizeof path, "%s/codes.txt", folder);
    FILE *codes = fopen(path, "r");
    while (codes && fscanf(codes, "%63s %*[^,], %u%*[^\n]", name, &code) == 2)
        if (strcmp(name, file) == 0 && code != 0)
            sprintf(expected + strlen(expected), " %u", code);
    if (codes)
        fclose(codes);
}

/* The answers that a folder of examples says it has. */
static void examples(const char *folder)
{
    char path[200], file[64], expected[80];
    snprintf(path, sizeof path, "%s/BOOK.HEX", folder);
    size_t book_len = bytes_of_file(path, book, sizeof book);
    snprintf(path, sizeof path, "%s/answers.txt", folder);
    FILE *answers = fopen(path, "r");
    unsigned asked = 0;
    while (answers && fscanf(answers, "%63s %63s", file, expected) == 2) {
        snprintf(path, sizeof path, "%s/%s", folder, file);
        add_code(folder, file, expected);
        expect_bytes(path, book_len, bytes_of_file(path, request, sizeof request), sizeof out, expected);
        asked++;
    }
    if (answers)
        fclose(answers);
    if (asked == 0) {
        printf("plain C: no answers in %s\n", folder);
        failed = 1;
    }
}

int main(void)
{
    worked();
    zeros();
    sums();
    codes();
    issuers();
    run_line();
    refusals();
    salvages();
    programme_of_a();
    programmes_of_issuers();
    examples("examples/a");
    examples("examples/rig");
    examples("examples/zero");
    examples("examples/sign");
    examples("examples/sum");
    examples("examples/why");
    examples("examples/refused/9");
    examples("examples/refused/10");
    examples("examples/refused/11");
    examples("examples/refused/12");
    examples("examples/refused/11-and-12");
    printf("%s\n", failed ? "plain C: not as documents 01 and 02 say" : "plain C: ok");
    return failed;
}

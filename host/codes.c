/* A C host: why Indeterminate, document 02, 4. Asks the book of examples/why and a policy of two rules, each with other
 * algorithms too, for requests that lack an attribute, have one twice, add to more than 64 bits or name two makers:
 * through bachumoi_decide and in ticks of one step, of which only the last may have a code.
 *
 * All that is lent stands in heap buffers of exactly the lent length, so that fences and valgrind see any byte read or
 * written beside them. Exit status 0 if all is as document 02 says, else 1. host/run builds and runs it.
 */
#include <bachumoi.h>

#include <stdio.h>
#include <stdlib.h>
#include <string.h>

enum { DENY_OVERRIDES = 1, PERMIT_OVERRIDES, FIRST_APPLICABLE, ONLY_ONE_APPLICABLE };

/* The book of examples/why, and those of its lines whose algorithms are changed here. */
enum { MAKERS = 1, BELTRAMS = 13 };
static const char why[] =
    "0104001300000000000000000000000000000000" /* set, only-one-applicable */
    "0201000B00000000000000000000000000000000" /* Argolin's policy, deny-overrides, */
    "0400000301000000000000000000000000000000"
    "0500000200000000000000000000000000000000"
    "06010001018200014152474F4C494E2000000000" /* for the maker ARGOLIN; a maker must be present */
    "0301000100000000000000000000000000000000" /* a rule: Permit */
    "0302000600000000000000000000000000000000" /* a rule: Deny, when */
    "0716000500000000000000000000000000000000" /* the first value is greater than the second: */
    "0A03000300000000000000000000000000000000" /* the sum of */
    "0A02000102010004000000000000000000000000" /* front pressure */
    "0A02000102010005000000000000000000000000" /* and offset; */
    "0A01000100010000000000000000007800000000" /* 120 */
    "0101000700000000000000000000000000000000" /* Beltram's set, deny-overrides, */
    "0400000301000000000000000000000000000000"
    "0500000200000000000000000000000000000000"
    "060100010102000142454C5452414D2000000000" /* for the maker BELTRAM */
    "0203000300000000000000000000000000000000" /* a policy, first-applicable */
    "0301000200000000000000000000000000000000" /* a rule: Permit, when */
    "070D000102010004000000000000007800000000"; /* 120 is greater than or equal to front pressure */

/* A policy of two rules: Permit when front pressure is 100, Deny when offset is 3. */
enum { POLICY = 1 };
static const char two_rules[] =
    "0201000500000000000000000000000000000000"
    "0301000200000000000000000000000000000000"
    "070B000102010004000000000000006400000000"
    "0302000200000000000000000000000000000000"
    "070B000102010005000000000000000300000000";

#define ARGOLIN "01020001000000004152474F4C494E2000000000"
#define BELTRAM "010200010000000042454C5452414D2000000000"
#define PRESSURE "0201000400000000000000000000006400000000" /* 100 */
#define OFFSET "0201000500000000000000000000000300000000"   /* 3 */
#define LARGEST "02010004000000007FFFFFFFFFFFFFFF00000000"

enum outcome { PERMIT, DENY, MISSING, PROCESSING };
static const struct {
    enum bachumoi_answer decision;
    enum bachumoi_status status;
    const char *words;
} outcomes[] = {
    [PERMIT] = { BACHUMOI_PERMIT, BACHUMOI_NO_STATUS, "Permit" },
    [DENY] = { BACHUMOI_DENY, BACHUMOI_NO_STATUS, "Deny" },
    [MISSING] = { BACHUMOI_INDETERMINATE, BACHUMOI_MISSING_ATTRIBUTE, "Indeterminate, missing attribute" },
    [PROCESSING] = { BACHUMOI_INDETERMINATE, BACHUMOI_PROCESSING_ERROR, "Indeterminate, processing error" },
};

static int failed;

static void *lend(size_t bytes)
{
    void *memory = malloc(bytes);
    if (!memory)
        exit(2);
    memset(memory, 0xEE, bytes);
    return memory;
}

/* The bytes of these digits. */
static uint8_t *lend_text(const char *text, size_t *len)
{
    *len = strlen(text) / 2;
    uint8_t *bytes = lend(*len);
    for (size_t i = 0; i < *len; i++)
        sscanf(text + 2 * i, "%2hhx", &bytes[i]);
    return bytes;
}

/* ---- Asking ------------------------------------------------------------------------------------------------ */

/* A book and a request. */
struct question {
    uint8_t *book, *request;
    size_t book_len, request_len;
};

static int decides(struct question q, enum outcome expected)
{
    uint8_t *out = lend(2);
    uint64_t number = bachumoi_decide(q.book, q.book_len, q.request, q.request_len, out, 2);
    int right = number == outcomes[expected].decision + 1099511627776 * (uint64_t)outcomes[expected].status &&
                bachumoi_answer(number) == outcomes[expected].decision && bachumoi_count(number) == 0 &&
                bachumoi_decide_status(number) == outcomes[expected].status && out[0] == 0 && out[1] == 0;
    free(out);
    return right;
}

/* What a run is lent. */
struct run {
    uint64_t *programme, *numbers;
    uint16_t *places, *out;
    size_t entries;
};

static struct run lend_run(struct question q)
{
    size_t room = BACHUMOI_ROOM(q.book_len / BACHUMOI_RECORD);
    struct run run = { lend(room * sizeof *run.programme), lend(BACHUMOI_NUMBERS * sizeof *run.numbers),
                       lend(BACHUMOI_PLACES * sizeof *run.places), lend(BACHUMOI_PLACES * sizeof *run.out), 0 };
    run.entries = bachumoi_entries(bachumoi_translate(q.book, q.book_len, run.programme, room));
    bachumoi_fresh(run.numbers, BACHUMOI_NUMBERS, run.places, BACHUMOI_PLACES);
    return run;
}

static void give_back(struct run run)
{
    free(run.programme);
    free(run.numbers);
    free(run.places);
    free(run.out);
}

static uint64_t tick(struct question q, struct run run, uint64_t budget)
{
    return bachumoi_tick(run.programme, run.entries, q.request, q.request_len, run.numbers, BACHUMOI_NUMBERS,
                         run.places, BACHUMOI_PLACES, budget, run.out, BACHUMOI_PLACES);
}

/* In ticks of one step: a running one says its step and nothing else, though the run may have met what its code will
 * be; a tick after the last says the same again. */
static int ticks(struct question q, enum outcome expected)
{
    struct run run = lend_run(q);
    uint64_t step = 4294967296, number = tick(q, run, 1), taken = 1;
    uint64_t last = outcomes[expected].decision + 16777216 * (uint64_t)outcomes[expected].status;
    int right = run.entries > 0;
    for (; taken < run.entries && bachumoi_answer(number) == BACHUMOI_RUNNING; taken++) {
        right &= number == step && bachumoi_tick_status(number) == BACHUMOI_NO_STATUS;
        number = tick(q, run, 1);
    }
    right &= number == last + step && bachumoi_steps(number) == 1 && bachumoi_count(number) == 0 &&
             bachumoi_answer(number) == outcomes[expected].decision &&
             bachumoi_tick_status(number) == outcomes[expected].status && tick(q, run, 1) == last;
    give_back(run);
    return right;
}

/* A book, with this algorithm at this line, decided for a request. */
static void ask(const char *what, const char *book, unsigned line, uint8_t algorithm, const char *request,
                enum outcome expected)
{
    struct question q;
    q.book = lend_text(book, &q.book_len);
    q.request = lend_text(request, &q.request_len);
    q.book[(line - 1) * BACHUMOI_RECORD + 1] = algorithm;
    int right = decides(q, expected) && ticks(q, expected);
    printf("%-56s %s\n", what, right ? outcomes[expected].words : "WRONG");
    failed |= !right;
    free(q.book);
    free(q.request);
}

/* ---- What is asked ----------------------------------------------------------------------------------------- */

static void of_makers(const char *what, const char *request, enum outcome expected)
{
    ask(what, why, MAKERS, ONLY_ONE_APPLICABLE, request, expected);
}

static void attributes_and_sums(void)
{
    of_makers("pressure 100, offset 3", ARGOLIN PRESSURE OFFSET, PERMIT);
    of_makers("no pressure", ARGOLIN OFFSET, MISSING);
    of_makers("no offset", ARGOLIN PRESSURE, MISSING);
    of_makers("pressure twice", ARGOLIN PRESSURE PRESSURE OFFSET, PROCESSING);
    of_makers("a sum beyond 64 bits", ARGOLIN LARGEST OFFSET, PROCESSING);
    of_makers("no pressure, offset twice: the first counts", ARGOLIN OFFSET OFFSET, MISSING);
    of_makers("pressure twice, no offset: the first counts", ARGOLIN PRESSURE PRESSURE, PROCESSING);
    of_makers("no maker", PRESSURE OFFSET, MISSING);
}

static void only_one(void)
{
    of_makers("two makers", ARGOLIN BELTRAM PRESSURE OFFSET, PROCESSING);
    of_makers("two makers, no pressure: the second maker counts", ARGOLIN BELTRAM OFFSET, PROCESSING);
    ask("Beltram alone, no pressure: that policy's code", why, BELTRAMS, PERMIT_OVERRIDES, BELTRAM, MISSING);
    ask("Beltram alone, pressure twice: that policy's code", why, BELTRAMS, FIRST_APPLICABLE,
        BELTRAM PRESSURE PRESSURE, PROCESSING);
}

static void denials(void)
{
    of_makers("a Deny made from an Indeterminate policy", BELTRAM, DENY);
    ask("a Deny made from Argolin's, with no pressure", why, MAKERS, DENY_OVERRIDES, ARGOLIN OFFSET, DENY);
    ask("a Deny made from Argolin's target, with no maker", why, MAKERS, DENY_OVERRIDES, PRESSURE OFFSET, DENY);
    ask("a Deny behind an Indeterminate policy", why, MAKERS, PERMIT_OVERRIDES, ARGOLIN BELTRAM OFFSET, DENY);
}

/* Of two rules that are Indeterminate the first counts, whatever their effects and the algorithm. */
static void rules(void)
{
    static const char *const algorithms[] = { "", "deny-overrides", "permit-overrides", "first-applicable" };
    for (uint8_t algorithm = DENY_OVERRIDES; algorithm <= FIRST_APPLICABLE; algorithm++) {
        char what[64];
        snprintf(what, sizeof what, "%s: no pressure, offset twice", algorithms[algorithm]);
        ask(what, two_rules, POLICY, algorithm, OFFSET OFFSET, MISSING);
        snprintf(what, sizeof what, "%s: pressure twice, no offset", algorithms[algorithm]);
        ask(what, two_rules, POLICY, algorithm, PRESSURE PRESSURE, PROCESSING);
    }
    ask("deny-overrides: no pressure, and a Deny", two_rules, POLICY, DENY_OVERRIDES, OFFSET, DENY);
    ask("permit-overrides: a Permit, offset twice", two_rules, POLICY, PERMIT_OVERRIDES, PRESSURE OFFSET OFFSET,
        PERMIT);
}

/* A refusal has no code, though its line stands where a tick's code would; nor has a number of many steps. */
static void other_numbers(void)
{
    uint64_t refusal = 255 + 256 * 5 + 65536 * 1000 + 4294967296, running = (uint64_t)4294967295 << 32;
    int right = bachumoi_decide_status(refusal) == BACHUMOI_NO_STATUS &&
                bachumoi_tick_status(refusal) == BACHUMOI_NO_STATUS && bachumoi_line(refusal) == 1000 &&
                bachumoi_tick_status(running) == BACHUMOI_NO_STATUS &&
                bachumoi_tick_status(running + BACHUMOI_DENY + 256) == BACHUMOI_NO_STATUS;
    printf("%-56s %s\n", "refused and running", right ? "no code" : "WRONG");
    failed |= !right;
}

int main(void)
{
    attributes_and_sums();
    only_one();
    denials();
    rules();
    other_numbers();
    printf("%s\n", failed ? "codes: not as document 02 says" : "codes: ok");
    return failed;
}

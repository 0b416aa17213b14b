#include "plain.h"
#include "plain_judge.h"

/* A copy of this file built with -DCOUNTED counts the records that it looks at while it decides. */
#ifdef COUNTED
uint64_t looked;
#define LOOK() (looked++)
#else
#define LOOK() ((void)0)
#endif

/* ---- Judging a book ---------------------------------------------------------------------------------------- */

/* The lowest number of the place rules that this record breaks. */
static unsigned place_rule(const uint8_t *book, struct broken its)
{
    const uint8_t *record = book + its.at * SIZE;
    if (its.at == 0)
        return 9;
    if (its.at + big2(record + 2) > its.end)
        return 10;
    unsigned opens = judge_record(record, &its.state);
    return opens == BROKEN_PLACE || (opens == IN_VALUES && !has_operands(book, its.at)) ? 11 : 12;
}

/* The refusal of a book whose first broken record is this: for a field, its own or a later one, before any place. */
static uint64_t broken_book(const uint8_t *book, size_t records, struct broken first)
{
    for (size_t i = first.at; i < records; i++) {
        unsigned any = FULL;
        if (judge_record(book + i * SIZE, &any) == BROKEN_FIELD)
            return refusal(5, OF_BOOK, i + 1);
    }
    return refusal(place_rule(book, first), OF_BOOK, first.at + 1);
}

uint64_t plain_judge_book(const uint8_t *book, size_t book_len)
{
    size_t records = book_len / SIZE;
    uint64_t refused = judge_length(book_len);
    if (refused)
        return refused;
    if (big2(book + 2) != records)
        return broken_book(book, records, (struct broken){ .at = 0 });
    struct broken first = judge_below(book, 0, records, TOP, 0);
    return first.at < records ? broken_book(book, records, first) : 256 * first.obligations;
}

uint64_t plain_judge_request(const uint8_t *request, size_t request_len)
{
    size_t entries = request_len / SIZE;
    if (request_len % SIZE != 0)
        return refusal(4, OF_REQUEST, 0);
    if (entries > MOST_ENTRIES)
        return refusal(2, OF_REQUEST, 0);
    for (size_t i = 0; i < entries; i++) {
        const uint8_t *entry = request + i * SIZE;
        if (!from_to(1, entry[0], 4) || !value_fits(entry[1], big8(entry + 8)) || big4(entry + 4) != 0 ||
            !issuer_fits(big4(entry + ISSUER)))
            return refusal(5, OF_REQUEST, i + 1);
    }
    return 0;
}

/* ---- Deciding an accepted book ---------------------------------------------------------------------------- */

/* An Indeterminate truth is TRUE + its status, an Indeterminate answer NOT_APPLICABLE + its status. */
enum truth { FALSE, TRUE, MISSING, FAILED };

static inline enum truth unknown(enum status why)
{
    return (enum truth)(TRUE + why);
}

static inline bool is_unknown(enum truth truth)
{
    return truth > TRUE;
}

static inline unsigned indeterminate(enum status why)
{
    return NOT_APPLICABLE + why;
}

static inline enum status status_of(unsigned answer)
{
    return answer > NOT_APPLICABLE ? (enum status)(answer - NOT_APPLICABLE) : NO_STATUS;
}

/* The answer of a record whose target or condition is so, and not TRUE. */
static inline unsigned answer_without(enum truth truth)
{
    return truth == FALSE ? NOT_APPLICABLE : indeterminate((enum status)(truth - TRUE));
}

/* The request, and the obligations put so far. */
struct call {
    const uint8_t *request, *request_end;
    uint8_t *out;
    size_t count;
};

/* What a match, comparison or attribute asks for. */
static struct designator designator_of(const uint8_t *record)
{
    uint8_t bytes[4] = { record[4], record[5] & ~MUST_BE_PRESENT, record[6], record[7] };
    struct designator wanted = { .issuer = big2(record + ISSUER) };
    memcpy(&wanted.key, bytes, sizeof wanted.key);
    return wanted;
}

static enum truth match(const struct call *call, const uint8_t *record)
{
    struct designator wanted = designator_of(record);
    bool found = false;
    LOOK();
    for (const uint8_t *entry = call->request; entry != call->request_end; entry += SIZE)
        if (takes(wanted, entry)) {
            if (holds(record[1], entry[1], big8(record + 8), big8(entry + 8)))
                return TRUE;
            found = true;
        }
    return found || record[5] < MUST_BE_PRESENT ? FALSE : MISSING;
}

static struct value attribute(const struct call *call, const uint8_t *record)
{
    return one_and_only(call->request, call->request_end, designator_of(record));
}

static enum truth comparison(const struct call *call, const uint8_t *record)
{
    struct value its = attribute(call, record);
    if (its.lost)
        return unknown(its.lost);
    return holds(record[1] - COMPARISON, record[5] & ~MUST_BE_PRESENT, big8(record + 8), its.bytes) ? TRUE : FALSE;
}

static struct value value_of(const struct call *call, const uint8_t *record)
{
    LOOK();
    if (record[1] == LITERAL)
        return known(big8(record + 8));
    if (record[1] == ATTRIBUTE)
        return attribute(call, record);
    const uint8_t *first = record + SIZE;
    struct value a = value_of(call, first), b = value_of(call, after(first));
    return operate(record[1], a, b);
}

static enum truth comparison_of_values(const struct call *call, const uint8_t *record)
{
    const uint8_t *first = record + SIZE;
    struct value a = value_of(call, first), b = value_of(call, after(first));
    enum status why = first_of(a.lost, b.lost);
    if (why)
        return unknown(why);
    return holds(record[1] - COMPARISON_OF_VALUES, type_of(first), a.bytes, b.bytes) ? TRUE : FALSE;
}

static enum truth condition(const struct call *call, const uint8_t *record)
{
    const uint8_t *part = record + SIZE, *end = after(record);
    LOOK();
    if (record[1] > COMPARISON_OF_VALUES)
        return comparison_of_values(call, record);
    if (record[1] > COMPARISON)
        return comparison(call, record);
    if (record[1] == NOT) {
        enum truth truth = condition(call, part);
        return is_unknown(truth) ? truth : truth == TRUE ? FALSE : TRUE;
    }
    enum truth settles = record[1] == AND ? FALSE : TRUE, answer = record[1] == AND ? TRUE : FALSE;
    for (; part != end; part = after(part)) {
        enum truth truth = condition(call, part);
        if (truth == settles)
            return settles;
        if (is_unknown(truth) && !is_unknown(answer))
            answer = truth;
    }
    return answer;
}

static enum truth conjunction(const struct call *call, const uint8_t *record)
{
    enum truth answer = TRUE;
    LOOK();
    for (const uint8_t *part = record + SIZE, *end = after(record); part != end; part += SIZE) {
        enum truth truth = match(call, part);
        if (truth == FALSE)
            return FALSE;
        if (answer == TRUE)
            answer = truth;
    }
    return answer;
}

static enum truth section(const struct call *call, const uint8_t *record)
{
    enum truth answer = FALSE;
    LOOK();
    for (const uint8_t *part = record + SIZE, *end = after(record); part != end; part = after(part)) {
        enum truth truth = conjunction(call, part);
        if (truth == TRUE)
            return TRUE;
        if (answer == FALSE)
            answer = truth;
    }
    return answer;
}

/* The target of a record that ends at end: TRUE is Match, FALSE No-match. Moves *child, its first child, past the
 * sections, unless the target is Indeterminate. */
static enum truth target(const struct call *call, const uint8_t **child, const uint8_t *end)
{
    enum truth answer = TRUE;
    for (; *child != end && **child == SECTION; *child = after(*child)) {
        enum truth truth = section(call, *child);
        if (is_unknown(truth))
            return truth;
        if (truth == FALSE)
            answer = FALSE;
    }
    return answer;
}

static unsigned rule(const struct call *call, const uint8_t *record)
{
    const uint8_t *child = record + SIZE, *end = after(record);
    LOOK();
    enum truth truth = target(call, &child, end);
    if (truth == TRUE && child != end)
        truth = condition(call, child);
    return truth == TRUE ? record[1] : answer_without(truth);
}

/* The algorithm of a policy over its rules. */
static unsigned over_rules(const struct call *call, unsigned algorithm, const uint8_t *child, const uint8_t *end)
{
    unsigned wins = algorithm == DENY_OVERRIDES ? DENY : PERMIT;
    unsigned unsure = NOT_APPLICABLE; /* or the first that is Indeterminate */
    bool feared = false, other = false;
    for (; child != end && *child == RULE; child = after(child)) {
        unsigned answer = rule(call, child);
        if (answer == NOT_APPLICABLE)
            continue;
        if (algorithm == FIRST_APPLICABLE || answer == wins)
            return answer;
        if (!status_of(answer))
            other = true;
        else if (unsure == NOT_APPLICABLE)
            unsure = answer;
        if (child[1] == wins)
            feared = true; /* it is Indeterminate, since it did not win */
    }
    if (other && !feared)
        return wins == DENY ? PERMIT : DENY;
    return unsure;
}

static unsigned policy_or_set(struct call *call, const uint8_t *record);
static unsigned matched(struct call *call, const uint8_t *record, const uint8_t *child, const uint8_t *end);

/* Keeps, of the obligations from place from on, those from place kept on. */
static void keep(struct call *call, size_t from, size_t kept)
{
    if (kept > from)
        memmove(call->out + 2 * from, call->out + 2 * kept, 2 * (call->count - kept));
    call->count -= kept - from;
}

static bool is_policy_or_set(const uint8_t *record)
{
    return *record <= POLICY;
}

static unsigned only_one(struct call *call, const uint8_t *child, const uint8_t *end)
{
    const uint8_t *chosen = NULL, *body = NULL;
    for (; child != end && is_policy_or_set(child); child = after(child)) {
        const uint8_t *first = child + SIZE;
        LOOK();
        enum truth truth = target(call, &first, after(child));
        if (truth == FALSE)
            continue;
        if (truth != TRUE)
            return answer_without(truth);
        if (chosen)
            return indeterminate(PROCESSING_ERROR);
        chosen = child;
        body = first;
    }
    return chosen ? matched(call, chosen, body, after(chosen)) : NOT_APPLICABLE;
}

/* The algorithm of a set over its policies and sets. Leaves the obligations of the children that decided with it. */
static unsigned over_policies(struct call *call, unsigned algorithm, const uint8_t *child, const uint8_t *end)
{
    if (algorithm == ONLY_ONE_APPLICABLE)
        return only_one(call, child, end);
    unsigned wins = algorithm == DENY_OVERRIDES ? DENY : PERMIT, others = NOT_APPLICABLE;
    size_t from = call->count;
    for (; child != end && is_policy_or_set(child); child = after(child)) {
        size_t before = call->count;
        unsigned answer = policy_or_set(call, child);
        if (answer == NOT_APPLICABLE)
            continue;
        if (algorithm == FIRST_APPLICABLE)
            return answer;
        if (answer == wins || (status_of(answer) && wins == DENY)) {
            keep(call, from, before);
            return wins;
        }
        if (!status_of(answer) || others == NOT_APPLICABLE)
            others = answer;
    }
    return others;
}

/* The answer of a policy or set whose target matched and whose first child after its sections is given. */
static unsigned matched(struct call *call, const uint8_t *record, const uint8_t *child, const uint8_t *end)
{
    unsigned answer = *record == POLICY ? over_rules(call, record[1], child, end)
                                        : over_policies(call, record[1], child, end);
    if (answer > DENY)
        return answer;
    while (child != end && *child != OBLIGATION)
        child = after(child);
    for (; child != end; child += SIZE) {
        LOOK();
        if (child[1] == answer) {
            memcpy(call->out + 2 * call->count, child + 6, 2);
            call->count++;
        }
    }
    return answer;
}

static unsigned policy_or_set(struct call *call, const uint8_t *record)
{
    const uint8_t *child = record + SIZE, *end = after(record);
    LOOK();
    enum truth truth = target(call, &child, end);
    return truth == TRUE ? matched(call, record, child, end) : answer_without(truth);
}

uint64_t plain_decide(const uint8_t *book, size_t book_len, const uint8_t *request, size_t request_len,
                      uint8_t *out, size_t out_len)
{
    uint64_t judged = plain_judge_book(book, book_len);
    if (is_refusal(judged))
        return judged;
    uint64_t refused = plain_judge_request(request, request_len);
    if (refused)
        return refused;
    if (out_len < 2 * (judged / 256))
        return refusal(7, OF_OUTPUT, 0);

    struct call call = { request, request + request_len, out, 0 };
    unsigned answer = policy_or_set(&call, book);
    if (out_len > 2 * call.count)
        memset(out + 2 * call.count, 0, out_len - 2 * call.count);
    enum status status = status_of(answer);
    return (status ? INDETERMINATE : answer) + 256 * (uint64_t)call.count + ((uint64_t)status << 40);
}

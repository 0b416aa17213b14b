#include "plain_programme.h"

#include "plain.h"
#include "plain_bytes.h"

enum { FRAMES = 17, LEVELS = 15, NUMBERS = 1 + FRAMES + LEVELS, PLACES = 1000, MOST_PROGRAMME = 8008, AT_ONCE = 2 };

/* What bits 0-3 of an entry say. */
enum entry {
    E_BEGIN, E_MATCH, E_OPEN = 3, E_CLOSE, E_RULE, E_ENTER, E_APPLIES, E_CONCLUDE, E_OBLIGE, E_LEAVE, E_FINISH, E_SUM,
    E_COMPARE
};

/* A match and a comparison have three entries: what it asks, the literal, and the issuer, in a match with two ways. */
enum { OF_TEST = 3, MORE_OF_TEST = OF_TEST - 1 };

/* What bits 4-5 of a sum's entry say: which piece of a comparison of two values it is. */
enum piece { A_LITERAL, AN_ATTRIBUTE, AN_OPERATOR, THE_COMPARISON };

/* The algorithms by their numbers in a programme. */
enum algorithm { FIRST, RULES_DENY, RULES_PERMIT, POLICIES_DENY, POLICIES_PERMIT, ONLY_ONE };

/* Where the way of an entry begins. */
enum { WAY = 4, WAY_OF_RULE = 5, WAY_OF_COMPARE = 40, WAY_OF_MATCH = 43, WAY_OUT = 13 };

/* How long the ways in a match's third number are, and where its issuer begins. */
enum { WAY_BITS = 13, ISSUER_OF_MATCH = 26, ISSUER_BITS = 16 };

/* Where the cut of the first entry begins; where, in a sum's entry, what the piece is of, and behind an attribute's key
 * its issuer. */
enum { CUT = 7, PIECE = 4, OF_PIECE = 6, ISSUER_OF_PIECE = 32 };

/* ---- Translating an accepted book -------------------------------------------------------------------------- */

/* The programme so far. Entries whose way is not known yet make a chain: the way of each holds the place of the
 * one before, and 0, the place of the first entry, ends it. */
struct pen {
    uint64_t *programme;
    size_t at;
};

static void put(struct pen *pen, uint64_t entry)
{
    pen->programme[pen->at++] = entry;
}

static unsigned way_of(uint64_t entry)
{
    unsigned is = entry & 15;
    return is == E_COMPARE ? WAY_OF_COMPARE : is == E_RULE ? WAY_OF_RULE : WAY;
}

/* Puts an entry whose way is to be known later. */
static void put_in_chain(struct pen *pen, uint64_t entry, size_t *chain)
{
    size_t place = pen->at;
    put(pen, entry | (uint64_t)*chain << way_of(entry));
    *chain = place;
}

/* The ways of a chain lead to the entry that is put next. */
static void lead_here(struct pen *pen, size_t chain)
{
    while (chain != 0) {
        uint64_t entry = pen->programme[chain];
        unsigned way = way_of(entry);
        size_t behind = chain + ((entry & 15) == E_COMPARE ? OF_TEST : 1);
        pen->programme[chain] = (entry & (((uint64_t)1 << way) - 1)) | (uint64_t)(pen->at - behind) << way;
        chain = (size_t)(entry >> way);
    }
}

static uint64_t key_of(const uint8_t *record)
{
    return big4(record + 4) & ~((uint32_t)MUST_BE_PRESENT << 16);
}

/* Function, must-be-present and key of a match or comparison; the key begins at this bit. */
static uint64_t test_of(const uint8_t *record, unsigned function, unsigned key)
{
    return function | (record[5] >= MUST_BE_PRESENT ? 8 : 0) | key_of(record) << key;
}

static void put_conjunction(struct pen *pen, const uint8_t *record, bool last_of_section, bool of_last_section)
{
    const uint8_t *end = after(record);
    for (const uint8_t *match = record + SIZE; match != end; match += SIZE) {
        uint64_t left = (uint64_t)(end - match) / SIZE - 1;
        uint64_t last = left == 0, flags = last | (uint64_t)last_of_section << 1 | (uint64_t)of_last_section << 2;
        put(pen, E_MATCH | test_of(match, match[1], 7) << 4 | flags << 8 | OF_TEST * left << WAY_OF_MATCH);
        put(pen, big8(match + 8));
        put(pen, (uint64_t)big2(match + ISSUER) << ISSUER_OF_MATCH);
    }
}

/* The matches of a section stand together. */
static void put_section(struct pen *pen, const uint8_t *record, bool last_of_target)
{
    size_t first = pen->at;
    const uint8_t *end = after(record);
    for (const uint8_t *part = record + SIZE; part != end; part = after(part))
        put_conjunction(pen, part, after(part) == end, last_of_target);
    for (size_t match = first; match != pen->at; match += OF_TEST)
        pen->programme[match + 2] |= pen->at - (match + OF_TEST);
}

/* The sections that children begin with; returns the first child behind them. */
static const uint8_t *put_target(struct pen *pen, const uint8_t *child, const uint8_t *end)
{
    while (child != end && *child == SECTION) {
        const uint8_t *next = after(child);
        put_section(pen, child, next == end || *next != SECTION);
        child = next;
    }
    return child;
}

/* The ways out of the target from first to behind lead to the entry that is put next. */
static void lead_out(struct pen *pen, size_t first, size_t behind)
{
    for (size_t match = first; match != behind; match += OF_TEST)
        pen->programme[match + 2] |= (uint64_t)(pen->at - (match + OF_TEST)) << WAY_OUT;
}

static void put_piece(struct pen *pen, enum piece piece, uint64_t of)
{
    put(pen, E_SUM | (uint64_t)piece << PIECE | of << OF_PIECE);
}

/* A value: its operands before it, so that they stand on the levels when it is met. */
static void put_value(struct pen *pen, const uint8_t *record)
{
    const uint8_t *first = record + SIZE;
    switch (record[1]) {
    case LITERAL:
        put_piece(pen, A_LITERAL, type_of(record));
        put(pen, big8(record + 8));
        break;
    case ATTRIBUTE:
        put_piece(pen, AN_ATTRIBUTE, key_of(record) | (uint64_t)big2(record + ISSUER) << ISSUER_OF_PIECE);
        break;
    default:
        put_value(pen, first);
        put_value(pen, after(first));
        put_piece(pen, AN_OPERATOR, record[1] - ADD);
    }
}

/* A comparison of two values leaves a level with its truth, which an ordinary close tells. */
static void put_comparison_of_values(struct pen *pen, const uint8_t *record, size_t *chain)
{
    const uint8_t *first = record + SIZE;
    put_value(pen, first);
    put_value(pen, after(first));
    put_piece(pen, THE_COMPARISON, (record[1] - COMPARISON_OF_VALUES) | type_of(first) << 3);
    put_in_chain(pen, E_CLOSE, chain);
}

static void put_condition(struct pen *pen, const uint8_t *record, size_t *chain)
{
    if (record[1] > COMPARISON_OF_VALUES) {
        put_comparison_of_values(pen, record, chain);
        return;
    }
    if (record[1] > COMPARISON) {
        put_in_chain(pen, E_COMPARE | test_of(record, record[1] - COMPARISON, 4) << 4, chain);
        put(pen, big8(record + 8));
        put(pen, big2(record + ISSUER));
        return;
    }
    size_t parts = 0;
    const uint8_t *end = after(record);
    put(pen, E_OPEN | (uint64_t)(record[1] - AND) << 4);
    for (const uint8_t *part = record + SIZE; part != end; part = after(part))
        put_condition(pen, part, &parts);
    lead_here(pen, parts);
    put_in_chain(pen, E_CLOSE, chain);
}

static void put_rule(struct pen *pen, const uint8_t *record, size_t *chain)
{
    const uint8_t *end = after(record);
    size_t first = pen->at, condition = 0;
    const uint8_t *child = put_target(pen, record + SIZE, end);
    size_t behind = pen->at;
    if (child != end)
        put_condition(pen, child, &condition);
    lead_here(pen, condition);
    lead_out(pen, first, behind);
    put_in_chain(pen, E_RULE | (uint64_t)(record[1] - PERMIT) << 4, chain);
}

static unsigned algorithm_of(const uint8_t *record)
{
    static const uint8_t over_rules[] = { [DENY_OVERRIDES] = RULES_DENY, [PERMIT_OVERRIDES] = RULES_PERMIT };
    static const uint8_t over_policies[] = { [DENY_OVERRIDES] = POLICIES_DENY, [PERMIT_OVERRIDES] = POLICIES_PERMIT };
    if (record[1] == FIRST_APPLICABLE)
        return FIRST;
    if (record[1] == ONLY_ONE_APPLICABLE)
        return ONLY_ONE;
    return *record == POLICY ? over_rules[record[1]] : over_policies[record[1]];
}

static void put_tree(struct pen *pen, const uint8_t *record, unsigned above, size_t *chain);

/* What stands between entering and leaving a policy or set, in a set by the algorithm above. */
static void put_inside(struct pen *pen, const uint8_t *record, unsigned above, size_t *chain)
{
    const uint8_t *end = after(record);
    unsigned algorithm = algorithm_of(record);
    size_t first = pen->at, children = 0;
    const uint8_t *child = put_target(pen, record + SIZE, end);
    size_t behind = pen->at;
    if (above == ONLY_ONE)
        put_in_chain(pen, E_APPLIES, chain);
    for (; child != end && *child != OBLIGATION; child = after(child))
        if (*child == RULE)
            put_rule(pen, child, &children);
        else
            put_tree(pen, child, algorithm, &children);
    lead_here(pen, children);
    put(pen, E_CONCLUDE | (uint64_t)(end - child) / SIZE << WAY);
    for (; child != end; child += SIZE)
        put(pen, E_OBLIGE | (uint64_t)(child[1] - PERMIT) << 4 | (uint64_t)big2(child + 6) << 5);
    lead_out(pen, first, behind);
}

static void put_tree(struct pen *pen, const uint8_t *record, unsigned above, size_t *chain)
{
    put(pen, E_ENTER | (uint64_t)algorithm_of(record) << 4);
    put_inside(pen, record, above, chain);
    put_in_chain(pen, E_LEAVE, chain);
}

uint64_t plain_translate(const uint8_t *book, size_t book_len, uint64_t *programme, size_t programme_len)
{
    uint64_t judged = plain_judge_book(book, book_len);
    if (is_refusal(judged))
        return judged;
    if (programme_len < 8 * (book_len / SIZE) + 8)
        return refusal(7, OF_OUTPUT, 0);

    size_t permits = 0, denies = 0;
    for (const uint8_t *record = book; record != book + book_len; record += SIZE) {
        permits += *record == OBLIGATION && record[1] == PERMIT;
        denies += *record == OBLIGATION && record[1] == DENY;
    }
    struct pen pen = { programme, 0 };
    put(&pen, E_BEGIN | (uint64_t)algorithm_of(book) << 4 | (uint64_t)permits << CUT);
    put_inside(&pen, book, FIRST, NULL);
    put(&pen, E_FINISH);
    for (size_t brought = AT_ONCE; brought < denies; brought += AT_ONCE)
        put(&pen, E_FINISH);
    return 256 * (uint64_t)pen.at;
}

/* ---- The state --------------------------------------------------------------------------------------------- */

/* In the state, truths and answers have other numbers than elsewhere: an Indeterminate truth is FALSE + its status, an
 * Indeterminate answer R_NOT_APPLICABLE + its status. */
enum truth { TRUE, FALSE, MISSING, FAILED };
enum { R_PERMIT, R_DENY, R_NOT_APPLICABLE, R_INDETERMINATE, R_LAST = R_NOT_APPLICABLE + PROCESSING_ERROR };

/* Where the fields of the first number begin; what is behind the last is 0. */
enum {
    AT = 0, DEPTH = 13, NEST = 18, PERMITS = 22, DENIES = 32, THE_CUT = 42, REGISTER = 52, CONJUNCTION_SO_FAR = 55,
    SECTION_SO_FAR = 57, TARGET_SO_FAR = 59, OVER = 61, BEHIND = 62
};

/* What a frame keeps: ranks 0 to 4, then these; of only-one, that one has decided is ONE + the decision. */
enum { STRONGEST = 4, NOBODY, PENDING, TOO_MANY, ONE };

/* A run: the first number taken apart, and what is lent. */
struct run {
    const uint64_t *programme;
    size_t length;
    const uint8_t *request, *request_end;
    uint64_t *frames, *levels;
    uint16_t *places;
    size_t at;
    unsigned depth, nest, permits, denies, cut, reg;
    enum truth conjunction, section, target;
    bool over;
};

static inline unsigned field(uint64_t number, unsigned from, unsigned bits)
{
    return (unsigned)(number >> from) & ((1u << bits) - 1);
}

static inline unsigned least(unsigned a, unsigned b)
{
    return a < b ? a : b;
}

static bool allowed(uint64_t first)
{
    return first >> BEHIND == 0 && field(first, DEPTH, 5) < FRAMES && field(first, NEST, 4) < LEVELS &&
           field(first, PERMITS, 10) <= PLACES && field(first, THE_CUT, 10) + field(first, DENIES, 10) <= PLACES;
}

static void unpack(struct run *run, uint64_t first)
{
    run->at = field(first, AT, 13);
    run->depth = field(first, DEPTH, 5);
    run->nest = field(first, NEST, 4);
    run->permits = field(first, PERMITS, 10);
    run->denies = field(first, DENIES, 10);
    run->cut = field(first, THE_CUT, 10);
    run->reg = least(field(first, REGISTER, 3), R_LAST);
    run->conjunction = (enum truth)field(first, CONJUNCTION_SO_FAR, 2);
    run->section = (enum truth)field(first, SECTION_SO_FAR, 2);
    run->target = (enum truth)field(first, TARGET_SO_FAR, 2);
    run->over = field(first, OVER, 1);
}

static uint64_t pack(const struct run *run)
{
    return (uint64_t)run->at << AT | (uint64_t)run->depth << DEPTH | (uint64_t)run->nest << NEST |
           (uint64_t)run->permits << PERMITS | (uint64_t)run->denies << DENIES | (uint64_t)run->cut << THE_CUT |
           (uint64_t)run->reg << REGISTER | (uint64_t)run->conjunction << CONJUNCTION_SO_FAR |
           (uint64_t)run->section << SECTION_SO_FAR | (uint64_t)run->target << TARGET_SO_FAR |
           (uint64_t)run->over << OVER;
}

uint64_t plain_fresh(uint64_t *numbers, size_t numbers_len, uint16_t *places, size_t places_len)
{
    if (numbers_len < NUMBERS || places_len < PLACES)
        return refusal(7, OF_OUTPUT, 0);
    memset(numbers, 0, NUMBERS * sizeof *numbers);
    memset(places, 0, PLACES * sizeof *places);
    numbers[0] = (uint64_t)FALSE << SECTION_SO_FAR;
    return 0;
}

/* ---- A step ------------------------------------------------------------------------------------------------ */

/* Goes on behind an entry and so many more, with the register and the truths as they are between targets and
 * conditions. */
static inline bool go_on(struct run *run, uint64_t more, unsigned reg)
{
    run->at += 1 + more;
    run->reg = reg;
    run->conjunction = TRUE;
    run->section = FALSE;
    run->target = TRUE;
    return true;
}

static inline enum truth unknown(enum status why)
{
    return (enum truth)(FALSE + why);
}

static inline bool is_unknown(enum truth truth)
{
    return truth > FALSE;
}

static inline enum truth and_of(enum truth a, enum truth b)
{
    return a == FALSE || b == FALSE ? FALSE : a != TRUE ? a : b;
}

static inline enum truth or_of(enum truth a, enum truth b)
{
    return a == TRUE || b == TRUE ? TRUE : a != FALSE ? a : b;
}

/* A target with one section more. */
static inline enum truth target_of(enum truth target, enum truth section)
{
    return is_unknown(target) || section == TRUE ? target : section;
}

/* What the register says of a truth. */
static inline unsigned register_of(enum truth truth)
{
    return truth == TRUE ? R_PERMIT : R_NOT_APPLICABLE + (unsigned)(truth - FALSE);
}

static inline enum status status_of(unsigned answer)
{
    return answer > R_NOT_APPLICABLE ? (enum status)(answer - R_NOT_APPLICABLE) : NO_STATUS;
}

/* What a match or comparison asks. */
struct test {
    unsigned function, type;
    struct designator wanted;
    uint64_t literal;
};

/* The function of this number for values of this type: a name that is ordered is in no translated programme. */
static inline unsigned function_by(unsigned number, unsigned type)
{
    unsigned function = number < EQUAL || number > LESS_OR_EQUAL ? LESS_OR_EQUAL : number;
    if (type == NAME && function != EQUAL)
        return function == GREATER || function == LESS ? NEVER : EQUAL;
    return function;
}

/* What is asked for by the key and the issuer that a programme has. */
static inline struct designator designator_by(uint32_t key, unsigned issuer)
{
    uint8_t bytes[4] = { (uint8_t)(key >> 24), (uint8_t)(key >> 16), (uint8_t)(key >> 8), (uint8_t)key };
    struct designator wanted = { .issuer = issuer };
    memcpy(&wanted.key, bytes, sizeof wanted.key);
    return wanted;
}

/* A double that is not finite is in no translated programme. */
static inline struct test test_by(unsigned function, uint32_t key, unsigned issuer, uint64_t literal)
{
    unsigned type = key >> 16 & 255;
    bool never = type == DOUBLE && !is_finite(literal);
    return (struct test){ never ? NEVER : function_by(function, type), type, designator_by(key, issuer), literal };
}

static inline bool passes(const struct test *test, uint64_t value)
{
    return holds(test->function, test->type, test->literal, value);
}

static inline enum truth match_of(const struct run *run, struct test test, bool must_be_present)
{
    bool found = false;
    for (const uint8_t *entry = run->request; entry != run->request_end; entry += SIZE)
        if (takes(test.wanted, entry)) {
            if (passes(&test, big8(entry + 8)))
                return TRUE;
            found = true;
        }
    return found || !must_be_present ? FALSE : MISSING;
}

static inline enum truth comparison_of(const struct run *run, struct test test)
{
    struct value its = one_and_only(run->request, run->request_end, test.wanted);
    return its.lost ? unknown(its.lost) : passes(&test, its.bytes) ? TRUE : FALSE;
}

static inline bool step_match(struct run *run, uint64_t entry, size_t left)
{
    const uint64_t *more = run->programme + run->at + 1;
    if (left < MORE_OF_TEST)
        return false;
    left -= MORE_OF_TEST;
    uint64_t to_conjunction = entry >> WAY_OF_MATCH;
    unsigned to_section = field(more[1], 0, WAY_BITS), out = field(more[1], WAY_OUT, WAY_BITS);
    if (to_conjunction > left || to_section > left || out > left)
        return false;
    struct test test = test_by(field(entry, 4, 3), (uint32_t)(entry >> 11),
                               field(more[1], ISSUER_OF_MATCH, ISSUER_BITS), more[0]);
    enum truth truth = and_of(run->conjunction, match_of(run, test, field(entry, 7, 1)));

    run->at += MORE_OF_TEST;
    if (truth != FALSE && !field(entry, 8, 1)) {
        run->conjunction = truth;
        run->at += 1;
        return true;
    }
    truth = or_of(run->section, truth);
    run->conjunction = TRUE;
    if (truth != TRUE && !field(entry, 9, 1)) {
        run->section = truth;
        run->at += 1 + to_conjunction;
        return true;
    }
    enum truth target = target_of(run->target, truth);
    run->section = FALSE;
    if (!is_unknown(truth) && !field(entry, 10, 1)) {
        run->target = target;
        run->at += 1 + to_section;
        return true;
    }
    return target == TRUE ? go_on(run, to_section, run->reg) : go_on(run, out, register_of(target));
}

static inline uint64_t level_word(unsigned operation, enum truth value)
{
    return operation | (uint64_t)value << 2;
}

/* Tells the open condition at this height the value of a part; says whether that settles it. */
static inline bool tell(struct run *run, unsigned height, enum truth part)
{
    unsigned operation = least(field(run->levels[height], 0, 2), NOT - AND);
    enum truth value = (enum truth)field(run->levels[height], 2, 2);
    switch (operation + AND) {
    case AND:
        value = and_of(value, part);
        break;
    case OR:
        value = or_of(value, part);
        break;
    default:
        value = is_unknown(part) ? part : part == TRUE ? FALSE : TRUE;
    }
    run->levels[height] = level_word(operation, value);
    return (operation == AND - AND && value == FALSE) || (operation == OR - AND && value == TRUE);
}

static inline bool step_compare(struct run *run, uint64_t entry, size_t left)
{
    const uint64_t *more = run->programme + run->at + 1;
    uint64_t way = entry >> WAY_OF_COMPARE;
    if (left < MORE_OF_TEST || way > left - MORE_OF_TEST)
        return false;
    struct test test =
        test_by(field(entry, 4, 3), (uint32_t)(entry >> 8), field(more[1], 0, ISSUER_BITS), more[0]);
    enum truth truth = comparison_of(run, test);
    if (run->nest == 0)
        return go_on(run, MORE_OF_TEST, register_of(truth));
    return go_on(run, MORE_OF_TEST + (tell(run, run->nest, truth) ? way : 0), run->reg);
}

/* Puts a level on top, where there is room. */
static inline void push_level(struct run *run, uint64_t word)
{
    if (run->nest + 1 < LEVELS)
        run->levels[++run->nest] = word;
}

/* Puts a level in place of the one on top and the one below. */
static inline void replace_levels(struct run *run, uint64_t word)
{
    if (run->nest > 0)
        run->nest--;
    run->levels[run->nest] = word;
}

static inline bool step_open(struct run *run, uint64_t n)
{
    unsigned operation = n < NOT - AND ? (unsigned)n : NOT - AND;
    push_level(run, level_word(operation, operation == OR - AND ? FALSE : TRUE));
    run->at++;
    return true;
}

static inline bool step_close(struct run *run, uint64_t way)
{
    if (run->nest == 0)
        return go_on(run, 0, run->reg);
    enum truth truth = (enum truth)field(run->levels[run->nest], 2, 2);
    run->nest--;
    if (run->nest > 0)
        return go_on(run, tell(run, run->nest, truth) ? way : 0, run->reg);
    return go_on(run, 0, register_of(truth));
}

/* ---- Sums -------------------------------------------------------------------------------------------------- */

/* The word of a value for the levels. Once one is lost, all are to the end of the comparison: they stand as 0, and the
 * truth of the conjunction, idle in conditions, says why the first was. */
static inline uint64_t word_of(struct run *run, struct value value)
{
    if (!is_unknown(run->conjunction))
        run->conjunction = value.lost ? unknown(value.lost) : TRUE;
    return is_unknown(run->conjunction) ? 0 : value.bytes;
}

/* A number beyond the operators is read as the last. */
static inline unsigned operator_by(uint64_t number)
{
    return number < DOUBLE_ADD - ADD ? ADD + (unsigned)number : DOUBLE_ADD;
}

/* The comparison of two words, by its function and type. A type beyond a name is read as double, and a double that is
 * not finite as a name: neither is in a translated programme. */
static inline bool words_pass(uint64_t of, uint64_t a, uint64_t b)
{
    uint64_t type = of >> 3;
    if (type != INTEGER && type != NAME) {
        if (is_finite(a) != is_finite(b))
            return false;
        type = is_finite(a) ? DOUBLE : NAME;
    }
    return holds(function_by(of & 7, (unsigned)type), (unsigned)type, a, b);
}

static inline void step_attribute(struct run *run, uint64_t of)
{
    struct designator wanted = designator_by((uint32_t)of, field(of, ISSUER_OF_PIECE, ISSUER_BITS));
    push_level(run, word_of(run, one_and_only(run->request, run->request_end, wanted)));
}

static inline bool step_sum(struct run *run, uint64_t of, size_t left)
{
    uint64_t second = run->levels[run->nest], first = run->levels[run->nest > 0 ? run->nest - 1 : 0];
    enum truth truth;
    switch (field(run->programme[run->at], PIECE, 2)) {
    case A_LITERAL:
        if (left < 1)
            return false;
        run->at++;
        push_level(run, word_of(run, known(run->programme[run->at])));
        break;
    case AN_ATTRIBUTE:
        step_attribute(run, of);
        break;
    case AN_OPERATOR:
        replace_levels(run, word_of(run, operate(operator_by(of), known(first), known(second))));
        break;
    default:
        truth = is_unknown(run->conjunction) ? run->conjunction : words_pass(of, first, second) ? TRUE : FALSE;
        replace_levels(run, level_word(AND - AND, truth));
        run->conjunction = TRUE;
    }
    run->at++;
    return true;
}

/* ---- Frames ------------------------------------------------------------------------------------------------ */

/* What it keeps is without a status: the first one met, of only-one the last, stands beside it. */
struct frame {
    unsigned algorithm, kept, permits, denies;
    enum status why;
};

static inline struct frame frame_by(uint64_t number)
{
    return (struct frame){ least(field(number, 0, 3), ONLY_ONE), least(field(number, 3, 4), ONE + R_INDETERMINATE),
                           field(number, 7, 10), field(number, 17, 10),
                           (enum status)least(field(number, 27, 2), PROCESSING_ERROR) };
}

static inline uint64_t frame_word(struct frame frame)
{
    return frame.algorithm | frame.kept << 3 | frame.permits << 7 | (uint64_t)frame.denies << 17 |
           (uint64_t)frame.why << 27;
}

/* How strong an answer is, by the algorithm, the effect of a rule, and the decision. */
static const uint8_t ranks[6][2][4] = {
    [FIRST] = { { 4, 2, 0, 1 }, { 4, 2, 0, 1 } },
    [RULES_DENY] = { { 2, 4, 0, 1 }, { 2, 4, 0, 3 } },
    [RULES_PERMIT] = { { 4, 2, 0, 3 }, { 4, 2, 0, 1 } },
    [POLICIES_DENY] = { { 2, 4, 0, 4 }, { 2, 4, 0, 4 } },
    [POLICIES_PERMIT] = { { 4, 2, 0, 1 }, { 4, 2, 0, 1 } },
    [ONLY_ONE] = { { 0 } },
};

/* A frame takes in a child's answer; says whether no later child can change the outcome. */
static inline bool take_in(struct frame *frame, unsigned effect, unsigned answer)
{
    unsigned decision = least(answer, R_INDETERMINATE);
    enum status why = status_of(answer);
    frame->why = frame->algorithm == ONLY_ONE ? first_of(why, frame->why) : first_of(frame->why, why);
    if (frame->kept <= STRONGEST) {
        unsigned rank = ranks[frame->algorithm][effect][decision];
        if (rank > frame->kept)
            frame->kept = rank;
        if (frame->algorithm == ONLY_ONE)
            return false;
        return frame->algorithm == FIRST ? frame->kept > 0 : frame->kept == STRONGEST;
    }
    if (frame->kept == PENDING)
        frame->kept = ONE + decision;
    else if (decision == R_INDETERMINATE)
        frame->kept = TOO_MANY;
    return frame->kept == TOO_MANY;
}

static inline unsigned decision_of(struct frame frame)
{
    bool deny_wins = frame.algorithm == RULES_DENY || frame.algorithm == POLICIES_DENY;
    if (frame.kept >= ONE)
        return frame.kept - ONE;
    if (frame.kept == TOO_MANY)
        return R_INDETERMINATE;
    if (frame.kept > STRONGEST || frame.algorithm == ONLY_ONE || frame.kept == 0)
        return R_NOT_APPLICABLE;
    if (frame.kept == STRONGEST)
        return deny_wins ? R_DENY : R_PERMIT;
    return frame.kept != 2 ? R_INDETERMINATE : deny_wins ? R_PERMIT : R_DENY;
}

/* The decision with its status; in the frame of a translated programme an Indeterminate has one. */
static inline unsigned answer_of(struct frame frame)
{
    unsigned decision = decision_of(frame);
    return decision < R_INDETERMINATE ? decision : R_NOT_APPLICABLE + first_of(frame.why, PROCESSING_ERROR);
}

/* The height of the frame below the one on top; the bottom is below itself. */
static inline unsigned below(const struct run *run)
{
    return run->depth > 0 ? run->depth - 1 : 0;
}

static inline bool step_rule(struct run *run, unsigned effect, uint64_t way)
{
    struct frame frame = frame_by(run->frames[run->depth]);
    bool settled = take_in(&frame, effect, run->reg <= R_DENY ? effect : run->reg);
    run->frames[run->depth] = frame_word(frame);
    return go_on(run, settled ? way : 0, R_PERMIT);
}

static inline void open_frame(struct run *run, uint64_t n)
{
    unsigned algorithm = n < ONLY_ONE ? (unsigned)n : ONLY_ONE;
    if (run->depth + 1 < FRAMES) {
        run->depth++;
        run->frames[run->depth] =
            frame_word((struct frame){ algorithm, algorithm == ONLY_ONE ? NOBODY : 0, run->permits, run->denies,
                                       NO_STATUS });
    }
}

static inline bool step_enter(struct run *run, uint64_t n)
{
    open_frame(run, n);
    run->reg = R_PERMIT;
    run->at++;
    return true;
}

static inline bool step_applies(struct run *run, uint64_t way)
{
    unsigned under = below(run);
    struct frame frame = frame_by(run->frames[under]);
    bool first = frame.kept == NOBODY;
    frame.kept = first ? PENDING : TOO_MANY;
    if (!first)
        frame.why = PROCESSING_ERROR;
    run->frames[under] = frame_word(frame);
    if (first)
        return go_on(run, 0, run->reg);
    run->depth = under;
    return go_on(run, way, R_PERMIT);
}

static inline bool step_conclude(struct run *run, uint64_t way)
{
    struct frame frame = frame_by(run->frames[run->depth]);
    unsigned answer = answer_of(frame);
    if (answer != R_PERMIT)
        run->permits = least(run->permits, frame.permits);
    if (answer != R_DENY)
        run->denies = least(run->denies, frame.denies);
    return go_on(run, answer <= R_DENY ? 0 : way, answer);
}

static inline bool step_oblige(struct run *run, unsigned effect, uint64_t number)
{
    if (number > 65535)
        return false;
    if (run->reg == effect) {
        if (effect == R_PERMIT && run->permits < run->cut)
            run->places[run->permits++] = (uint16_t)number;
        if (effect == R_DENY && run->cut + run->denies < PLACES)
            run->places[run->cut + run->denies++] = (uint16_t)number;
    }
    return go_on(run, 0, run->reg);
}

static inline bool step_leave(struct run *run, uint64_t way)
{
    unsigned under = below(run);
    struct frame frame = frame_by(run->frames[under]);
    bool settled = take_in(&frame, 0, run->reg);
    run->frames[under] = frame_word(frame);
    run->depth = under;
    return go_on(run, settled ? way : 0, R_PERMIT);
}

static inline bool step_begin(struct run *run, uint64_t algorithm, uint64_t cut)
{
    if (cut > PLACES)
        return false;
    run->cut = (unsigned)cut;
    run->permits = run->denies = 0;
    open_frame(run, algorithm);
    return go_on(run, 0, R_PERMIT);
}

static inline bool step_finish(struct run *run)
{
    if (run->reg == R_DENY)
        for (unsigned i = 0; i < AT_ONCE && run->permits < run->denies; i++, run->permits++)
            run->places[run->permits] = run->places[run->cut + run->permits];
    run->over = run->reg != R_DENY || run->permits >= run->denies;
    run->at++;
    return true;
}

/* One step; false, with nothing changed, where it meets entries outside their layout. */
static inline bool step(struct run *run)
{
    if (run->at >= run->length)
        return false;
    uint64_t entry = run->programme[run->at], n = entry >> WAY, rest = entry >> WAY_OF_RULE;
    size_t left = run->length - run->at - 1; /* entries behind it */
    unsigned effect = field(entry, 4, 1);
    switch (entry & 15) {
    case E_BEGIN:
        return step_begin(run, n & 7, entry >> CUT);
    case E_MATCH:
        return step_match(run, entry, left);
    case E_COMPARE:
        return step_compare(run, entry, left);
    case E_OPEN:
        return step_open(run, n);
    case E_CLOSE:
        return n <= left && step_close(run, n);
    case E_RULE:
        return rest <= left && step_rule(run, effect, rest);
    case E_ENTER:
        return step_enter(run, n);
    case E_APPLIES:
        return n <= left && step_applies(run, n);
    case E_CONCLUDE:
        return n <= left && step_conclude(run, n);
    case E_OBLIGE:
        return step_oblige(run, effect, rest);
    case E_LEAVE:
        return n <= left && step_leave(run, n);
    case E_FINISH:
        return step_finish(run);
    case E_SUM:
        return step_sum(run, entry >> OF_PIECE, left);
    default:
        return false;
    }
}

/* ---- A tick ------------------------------------------------------------------------------------------------ */

/* Takes at most so many steps; returns how many, or more than the budget where one meets entries outside their
 * layout. */
static uint64_t take_steps(struct run *run, uint64_t budget)
{
    uint64_t steps = 0;
    for (; steps < budget && !run->over; steps++)
        if (!step(run))
            return UINT64_MAX;
    return steps;
}

/* The same on the state in numbers and places, which a refusal leaves as it was. */
static bool move_on(struct run *run, uint64_t *numbers, uint64_t budget, uint64_t *steps)
{
    uint64_t old_numbers[NUMBERS];
    uint16_t old_places[PLACES];
    memcpy(old_numbers, numbers, sizeof old_numbers);
    memcpy(old_places, run->places, sizeof old_places);
    *steps = take_steps(run, budget);
    if (*steps == UINT64_MAX) {
        memcpy(numbers, old_numbers, sizeof old_numbers);
        memcpy(run->places, old_places, sizeof old_places);
        return false;
    }
    numbers[0] = pack(run);
    return true;
}

/* The number of a finished run; its obligations go to out. */
static uint64_t answer(const struct run *run, uint16_t *out, size_t out_len)
{
    size_t count = run->reg == R_PERMIT ? run->permits : run->reg == R_DENY ? run->denies : 0;
    memcpy(out, run->places, count * sizeof *out);
    memset(out + count, 0, (out_len - count) * sizeof *out);
    return least(run->reg, R_INDETERMINATE) + PERMIT + 256 * (uint64_t)count + ((uint64_t)status_of(run->reg) << 24);
}

uint64_t plain_tick(const uint64_t *programme, size_t programme_len, const uint8_t *request, size_t request_len,
                    uint64_t *numbers, size_t numbers_len, uint16_t *places, size_t places_len, uint64_t budget,
                    uint16_t *out, size_t out_len)
{
    uint64_t refused = plain_judge_request(request, request_len), steps = 0;
    if (refused)
        return refused;
    if (out_len < PLACES)
        return refusal(7, OF_OUTPUT, 0);
    if (programme_len < 1 || programme_len > MOST_PROGRAMME || numbers_len < NUMBERS || places_len < PLACES ||
        !allowed(numbers[0]))
        return refusal(8, OF_RUN, 0);

    struct run run = { .programme = programme, .length = programme_len, .request = request,
                       .request_end = request + request_len, .frames = numbers + 1, .levels = numbers + 1 + FRAMES,
                       .places = places };
    unpack(&run, numbers[0]);
    if (budget > 0 && !run.over && !move_on(&run, numbers, budget, &steps))
        return refusal(8, OF_RUN, 0);
    return (run.over ? answer(&run, out, out_len) : 0) | steps << 32;
}

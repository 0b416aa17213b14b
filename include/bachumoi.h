/* Bachumoi: access decisions of XACML 2.0 over books of fixed-length records, proved right.
 *
 * The functions keep nothing between calls, allocate nothing, print nothing, and may be called from any thread.
 * Whatever the bytes lent, they return, with a decision or a refusal. Of the slices lent to one call, one that is
 * written must not overlap another. An empty slice may be lent as NULL with length 0.
 */
#ifndef BACHUMOI_H
#define BACHUMOI_H

#include <stddef.h>
#include <stdint.h>

#ifdef __cplusplus
extern "C" {
#endif

/* ---- Deciding: link libhost.a ------------------------------------------------------------------------------
 *
 *   book     book_len bytes: 1 to 1,000 records of 20 bytes, parent first
 *   request  request_len bytes: 0 to 64 entries of 20 bytes. An integer's eight bytes, the highest first, are an
 *            int64_t: the unsigned number, less two to the power 64 when the top bit is set. A double is compared as C
 *            compares it: -0.0 is 0.0. A name is told by its eight bytes. A sum in a condition is exact for integers
 *            and rounded once for doubles; one that has no result (no 64 bits hold it, a divisor is 0, a double is not
 *            finite, an attribute is missing or there twice) makes its comparison Indeterminate
 *   out      out_len bytes, for the obligations: at least twice as many bytes as the book has obligation records
 *
 * Bytes 16 and 17 of a record or entry, the higher first, are its issuer. In an entry that is who vouches for its
 * value, 0 for nobody. In a match (kind 06), a comparison with a literal (07, choices 11 to 15) and an attribute of a
 * sum (0A, choice 2) it is whose values are asked for: 0 takes any, nobody's too, and any other number takes its own
 * alone. Every other record has 0 there. Bytes 18 and 19 are 0 in all of them.
 *
 * A text of a book or request has 40 hexadecimal digits a line, a record or entry each; or 32 in every line, where
 * line 1 has as many: bytes 16 to 19 are then 0. These functions take bytes, so a host that itself reads a text of 32
 * digits a line has to put the four zeros there.
 *
 * The number returned is one of two.
 *
 * A decision: decision + 256 x count + 1,099,511,627,776 x code
 *
 *   bits 0-7     1  Permit
 *                2  Deny
 *                3  NotApplicable
 *                4  Indeterminate
 *   bits 8-23    count, how many obligations there are (0 unless Permit or Deny)
 *   bits 40-47   code, why Indeterminate (0 unless Indeterminate):
 *                1  missing attribute: the request has no value of an attribute that is wanted, or none of its issuer
 *                2  processing error: it has several where one is wanted, or a sum has no result, or two children of
 *                   an only-one-applicable set apply
 *
 *   An Indeterminate record has the code of its first Indeterminate child, in the order of the book's lines, of those
 *   that were evaluated: a rule's effect and the algorithm make no difference, and a first operand comes before a
 *   second. So the code speaks of the first thing to mend; when that is mended, the next may show. Only-one-applicable
 *   takes what it meets first, a child whose target is Indeterminate or a second one that applies. A Deny that
 *   deny-overrides makes of an Indeterminate policy is a Deny: its code is 0.
 *
 *   out then holds count numbers of two bytes each, the higher byte first, in the order in which they were handed
 *   up; every other byte of out is zero, an odd last one too.
 *
 *   A book may be sorted, each child with all its lines. Rules under deny-overrides and permit-overrides, and policies
 *   and sets under only-one-applicable: decision, count and out stay. Policies and sets under deny-overrides and
 *   permit-overrides: the decision stays, and count, with the same numbers in out, perhaps in another order, unless
 *   such a deny-overrides set denies and the book does, or such a permit-overrides set permits and the book does. The
 *   code of an Indeterminate may become another. Under first-applicable nothing stays.
 *
 * A refusal: 255 + 256 x number + 65,536 x line + 4,294,967,296 x part
 *
 *   bits 0-7     255
 *   bits 8-15    number, why:
 *                2  more than 1,000 records or 64 entries
 *                3  the book is empty
 *                4  the length is not a multiple of 20
 *                5  a record or entry breaks a field rule: kind, choice, category, type, finite value, function of
 *                   a name, unused bytes, an issuer where none may stand, or a span that its kind cannot have
 *                7  out is too short
 *                9  line 1 is no policy or set, or its span is not the record count
 *                10 a record runs past its parent's end
 *                11 a record is not allowed at that place below its parent, or has the wrong category for its section
 *                   or target; or an operator or a comparison of two values has not exactly two values of one type
 *                   below it (an operator: of its type; names: compared by equal only)
 *                12 a record is nested deeper than 16
 *                (1 is for texts, 8 for programmes, 13 for salvaging: this call gives none of them; 6 is given no more)
 *   bits 16-31   line, the first that breaks the rule, counting records or entries from 1; 0 with 2, 3, 4 and 7
 *   bits 32-39   part, of what:
 *                1  the book
 *                2  the request
 *                3  the output
 *
 *   The book is judged first (3, 4, 2, then the first line with 5, then the first line with 9 to 12, by the lowest
 *   number that it deserves), then the request (4, 2, then the first line with 5), then the output (7). out keeps its
 *   bytes.
 *
 * For example, book A of examples/a with its request for 40 gives 0x102: Deny, one obligation; an out of 4
 * bytes is then 00 12 00 00. With no entry it gives 0x10000000004: Indeterminate, a missing attribute.
 * An empty book gives 0x1000003FF: refused, number 3, line 0, part 1.
 */
uint64_t bachumoi_decide(const uint8_t *book, size_t book_len, const uint8_t *request, size_t request_len,
                         uint8_t *out, size_t out_len);

/* What a number says: of bachumoi_decide and bachumoi_tick alike. Running is no decision, and neither is a refusal. */
enum bachumoi_answer {
    BACHUMOI_RUNNING = 0, /* of a tick alone: no answer yet, the next tick goes on */
    BACHUMOI_PERMIT = 1,
    BACHUMOI_DENY = 2,
    BACHUMOI_NOT_APPLICABLE = 3,
    BACHUMOI_INDETERMINATE = 4,
    BACHUMOI_REFUSED = 255
};

/* The code of an Indeterminate, as the standard's status codes of these names. */
enum bachumoi_status {
    BACHUMOI_NO_STATUS = 0, /* of every number that is not Indeterminate */
    BACHUMOI_MISSING_ATTRIBUTE = 1,
    BACHUMOI_PROCESSING_ERROR = 2
};

/* Taking a number apart. A switch over bachumoi_answer that forgets a case, running say, is warned of by -Wswitch (in
 * -Wall). Count is 0 unless there is a decision; number, line and part are 0 unless it is a refusal. The code stands at
 * other bits in a number of bachumoi_decide than in one of bachumoi_tick, so each has a function of its own. */
static inline enum bachumoi_answer bachumoi_answer(uint64_t number)
{
    unsigned low = (unsigned)(number & 255);
    return low <= BACHUMOI_INDETERMINATE ? (enum bachumoi_answer)low : BACHUMOI_REFUSED;
}
static inline int bachumoi_refused(uint64_t number) { return bachumoi_answer(number) == BACHUMOI_REFUSED; }
static inline int bachumoi_decided(uint64_t number)
{
    return bachumoi_answer(number) != BACHUMOI_RUNNING && bachumoi_answer(number) != BACHUMOI_REFUSED;
}
static inline unsigned bachumoi_count(uint64_t number)
{
    return bachumoi_decided(number) ? (unsigned)(number >> 8 & 65535) : 0;
}
static inline unsigned bachumoi_number(uint64_t number)
{
    return bachumoi_refused(number) ? (unsigned)(number >> 8 & 255) : 0;
}
static inline unsigned bachumoi_line(uint64_t number)
{
    return bachumoi_refused(number) ? (unsigned)(number >> 16 & 65535) : 0;
}
static inline unsigned bachumoi_part(uint64_t number)
{
    return bachumoi_refused(number) ? (unsigned)(number >> 32 & 255) : 0;
}
static inline enum bachumoi_status bachumoi_decide_status(uint64_t number)
{
    return bachumoi_answer(number) == BACHUMOI_INDETERMINATE ? (enum bachumoi_status)(number >> 40 & 255)
                                                             : BACHUMOI_NO_STATUS;
}

/* ---- The rig's loop: link librig.a -------------------------------------------------------------------------
 *
 * A book is translated once, into a programme. A request is then run: from the fresh state, tick by tick, each tick
 * with as many steps as its frame has time for, until a tick says which decision. All that a run knows is in its
 * programme, its request and its state; between ticks they may be kept, copied or moved as the loop likes. Each run has
 * a state of its own and the same request in all its ticks. docs/PROGRAMME.md draws the layout of programme and state.
 *
 * A run takes no more steps than its programme has entries, and at least one, however they are dealt out.
 */
enum {
    BACHUMOI_RECORD = 20,           /* bytes of a record of a book, and of an entry of a request */
    BACHUMOI_ISSUER = 16,           /* the first of the two bytes in them that are the issuer */
    BACHUMOI_MOST_RECORDS = 1000,   /* records of a book */
    BACHUMOI_MOST_ENTRIES = 64,     /* entries of a request */
    BACHUMOI_MOST_PROGRAMME = 8008, /* numbers of a programme: room for any book's */
    BACHUMOI_NUMBERS = 33,          /* numbers of a state: the first number, 17 frames, 15 levels */
    BACHUMOI_PLACES = 1000          /* obligation places of a state; and of the output of a tick */
};

/* The numbers that must be lent to translate a book of so many records. */
#define BACHUMOI_ROOM(records) (8 * (size_t)(records) + 8)

/* Translates a book.
 *
 *   book        book_len bytes, as for bachumoi_decide
 *   programme   programme_len numbers, at least BACHUMOI_ROOM(book_len / BACHUMOI_RECORD)
 *
 * Returns 256 x the number of entries that it has put first in programme, 1 to BACHUMOI_ROOM of them; all other numbers
 * are as they were. Or a refusal, of the book (part 1, as bachumoi_decide gives it), then of the output (7, part 3):
 * programme is as it was.
 */
uint64_t bachumoi_translate(const uint8_t *book, size_t book_len, uint64_t *programme, size_t programme_len);

static inline size_t bachumoi_entries(uint64_t number) { return bachumoi_refused(number) ? 0 : (size_t)(number >> 8); }

/* Makes the fresh state, with which every run begins, whatever its programme.
 *
 *   numbers     numbers_len numbers, at least BACHUMOI_NUMBERS: the first 33 are filled
 *   places      places_len places, at least BACHUMOI_PLACES: the first 1,000 are filled
 *
 * Returns 0. Or the refusal 7 (part 3) where one of them is too short: both are as they were.
 */
uint64_t bachumoi_fresh(uint64_t *numbers, size_t numbers_len, uint16_t *places, size_t places_len);

/* Takes one tick.
 *
 *   programme   programme_len numbers, exactly the entries that bachumoi_translate counted
 *   request     request_len bytes, as for bachumoi_decide
 *   numbers, places   the state, which the tick moves on: the first 33 numbers and the first 1,000 places
 *   budget      the most steps to take, from 0 to the largest number: it takes them all, unless the run ends sooner
 *   out         out_len places, at least BACHUMOI_PLACES, not those of the state
 *
 * The number returned is one of three.
 *
 * Running: 4,294,967,296 x steps
 *
 *   bits 0-7     0, which is no decision
 *   bits 32-63   steps, how many this tick took: its budget
 *
 *   There is no code yet, whatever the run has met. out is as it was.
 *
 * Finished: decision + 256 x count + 16,777,216 x code + 4,294,967,296 x steps
 *
 *   bits 0-7     1 Permit, 2 Deny, 3 NotApplicable, 4 Indeterminate
 *   bits 8-23    count, how many obligations there are (0 unless Permit or Deny)
 *   bits 24-31   code, why Indeterminate, as of bachumoi_decide, there at bits 40-47 (0 unless Indeterminate)
 *   bits 32-63   steps, how many this tick took
 *
 *   out holds count obligations in the order in which they were handed up, and zero in every other place. The next tick
 *   takes no step and says the same.
 *
 * A refusal, as of bachumoi_decide: 255 + 256 x number + 65,536 x line + 4,294,967,296 x part
 *
 *   The request is judged first (4, 2, then the first line with 5; part 2), then the output (7; part 3), then
 *   programme and state (8; part 4): no entry or over 8,008, fewer numbers or places than a state has, a first number
 *   that the layout does not allow, or a step within the budget that meets entries outside their layout. A translated
 *   programme in its own run never meets 8. No step was taken; numbers, places and out are as they were.
 *
 * So a valve may move when bachumoi_answer says BACHUMOI_PERMIT and all obligations in out can be done, and only then.
 */
uint64_t bachumoi_tick(const uint64_t *programme, size_t programme_len, const uint8_t *request, size_t request_len,
                       uint64_t *numbers, size_t numbers_len, uint16_t *places, size_t places_len, uint64_t budget,
                       uint16_t *out, size_t out_len);

/* Steps that a tick took: 0 where it was refused. */
static inline uint64_t bachumoi_steps(uint64_t number) { return bachumoi_refused(number) ? 0 : number >> 32; }

/* Why a tick's answer is Indeterminate. */
static inline enum bachumoi_status bachumoi_tick_status(uint64_t number)
{
    return bachumoi_answer(number) == BACHUMOI_INDETERMINATE ? (enum bachumoi_status)(number >> 24 & 255)
                                                             : BACHUMOI_NO_STATUS;
}

/* ---- Salvaging: link libmender.a ---------------------------------------------------------------------------
 *
 * A book whose line 1 is a set may have spoilt records, as when it was half copied. Salvaging replaces each policy or
 * set directly below line 1 that holds one, and keeps all else.
 *
 *   book       book_len bytes: 1 to 1,000 records of 20 bytes, parent first
 *   mended     mended_len bytes, for the mended book: at least book_len
 *   replaced   replaced_len bytes, for what was replaced: at least twice as many bytes as book has records
 *
 * A record is bad when it breaks a rule for which bachumoi_decide gives 5 or 9 to 12. What it stands below is told by
 * the spans before it, of bad records too; but inside a policy or set directly below line 1 none reaches past its end.
 * A host that itself reads a text puts 20 zero bytes for a line of the right length with a wrong digit: that record is
 * bad, and nothing stands below it.
 *
 * A policy or set directly below line 1 whose own record is not bad, but one in it is, becomes two records: a
 * deny-overrides policy (02 01 00 02 and 16 zeros) and its one Deny rule (03 02 00 01 and 16 zeros), which decide Deny
 * without obligations for every request. The span of line 1 is corrected, and all other records keep their bytes. So a
 * book without bad records keeps them all. What is mended is always accepted by bachumoi_decide and bachumoi_translate.
 * The algorithm of line 1 still says what such a Deny counts for: a host should show what was replaced.
 *
 * The number returned is one of two.
 *
 * Mended: 256 x records + 16,777,216 x replacements
 *
 *   bits 0-7     0, which is no decision
 *   bits 8-23    records, how many the mended book has
 *   bits 24-39   replacements, how many policies and sets were replaced: 0 where no record was bad
 *
 *   mended then holds the records first. replaced holds four bytes a replacement first, in the order of the lines: the
 *   line in book of the policy or set, and how many records it had there, two bytes each, the higher first. Every other
 *   byte of both is as it was.
 *
 * A refusal, as of bachumoi_decide: 255 + 256 x number + 65,536 x line + 4,294,967,296 x part
 *
 *   bits 8-15    number, why:
 *                2  more than 1,000 records
 *                3  the book is empty
 *                4  the length is not a multiple of 20
 *                7  mended or replaced is too short
 *                13 line 1 is bad or no set; or a record is bad that no replacement takes away: that of a policy or set
 *                   directly below line 1, one of line 1's target or obligations, or one that may not stand there
 *   bits 16-31   line, with 13 the first that is such, counting records from 1; 0 with the others
 *   bits 32-39   part: 3 the output, with 7; else 1 the book
 *
 *   They are judged in the order 3, 4, 2, 13, 7. mended and replaced keep their bytes.
 *
 * For example, a deny-overrides set over book A of examples/a whose line 5 is 20 zero bytes gives 0x1000300: three
 * records, one replacement. replaced begins with 00 02 00 06: line 2, six records. Book A itself, whose line 1 is a
 * policy, gives 0x100010DFF: refused, number 13, line 1, part 1.
 */
uint64_t bachumoi_salvage(const uint8_t *book, size_t book_len, uint8_t *mended, size_t mended_len, uint8_t *replaced,
                          size_t replaced_len);

/* Records of a mended book, and how many policies and sets were replaced: 0 where salvaging was refused. */
static inline size_t bachumoi_records(uint64_t number)
{
    return bachumoi_refused(number) ? 0 : (size_t)(number >> 8 & 65535);
}
static inline size_t bachumoi_replacements(uint64_t number)
{
    return bachumoi_refused(number) ? 0 : (size_t)(number >> 24 & 65535);
}

#ifdef __cplusplus
}
#endif

#endif

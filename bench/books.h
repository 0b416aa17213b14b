/* Books and requests as bytes: read from a text, or made for the benchmark. */
#ifndef BOOKS_H
#define BOOKS_H

#include <bachumoi.h>
#include <stddef.h>
#include <stdint.h>

enum {
    RECORD = BACHUMOI_RECORD, MOST_BOOK = BACHUMOI_MOST_RECORDS * RECORD, MOST_REQUEST = BACHUMOI_MOST_ENTRIES * RECORD,
    MOST_OUT = 2 * BACHUMOI_MOST_RECORDS
};

/* Where the issuer of a record or entry stands; a short line of text ends before it, and has so many digits with LF. */
enum { ISSUER = BACHUMOI_ISSUER, SHORT_LINE = 2 * ISSUER + 1 };

/* Reads lines of 40 hexadecimal digits, or of 32 if line 1 has as many, and returns how many bytes the records have.
 * Ends the program at a wrong line, or if there are more bytes than most. */
size_t bytes_of_text(const char *text, uint8_t *bytes, size_t most);
size_t bytes_of_file(const char *path, uint8_t *bytes, size_t most);

/* A permit-overrides set over policies of 9 records, each with a target, two rules with conditions and an obligation.
 * records is 1 more than a multiple of 9, as 10, 100 and 1,000 are. A quarter of the policies apply to growth_request;
 * each of these is Indeterminate for a request of one entry, Deny for 8 or more. So the whole set is walked.
 * Both return the length in bytes. */
size_t growth_book(uint8_t *book, size_t records);
size_t growth_request(uint8_t *request, size_t entries);

/* The same of policies whose Deny rule has a sum of two attributes for its condition, in doubles and in integers by
 * turns: every policy applies to growth_request, Indeterminate for one entry and Deny for 8 or more. */
size_t sums_book(uint8_t *book, size_t records);

/* The growing book, whose tests all ask for the values of one maker, and the request, all vouched for by that maker.
 * They are decided as the other two are, with one comparison more for each entry that a test takes. */
size_t issuers_book(uint8_t *book, size_t records);
size_t issuers_request(uint8_t *request, size_t entries);

/* The growing book with a record of zeros in every tenth policy, each below its head, and how many are so spoilt. */
size_t spoilt_book(uint8_t *book, size_t records, size_t *spoilt);

/* A book of nesting depth 16: sets of one algorithm, one in the other, and in the innermost what fills the rest. */
enum filling { SETS, CONDITIONS, OPERATORS, POLICY_TARGET, RULE_TARGET, FILLINGS };
size_t deep_book(uint8_t *book, unsigned algorithm, unsigned sets, enum filling filling);

/* A book of 1,000 records: sets of one algorithm, one in the other, and in the innermost one record with as many
 * children as there is room for, which would make deep whatever called itself for the next sibling. */
enum width { RULES, POLICIES, OBLIGATIONS, CONJUNCTIONS, MATCHES, PARTS, WIDTHS };
size_t wide_book(uint8_t *book, unsigned algorithm, unsigned sets, enum width width);

/* The books on which stacks are measured, by their numbers from 0 on: the rig's, deep ones, and wide ones with every
 * number of sets that depth 16 allows, since those add to the stack. Returns the length in bytes, or 0 behind the
 * last. */
size_t stack_book(uint8_t *book, size_t number);

/* Chance that repeats with its seed, which is not 0: a number below below. */
struct dice {
    uint64_t seed;
};
unsigned roll(struct dice *dice, unsigned below);

/* An accepted book of 1 to records records, and an accepted request of 0 to entries entries: few keys and few
 * values, so that they often meet. Both return the length in bytes. */
size_t random_book(uint8_t *book, size_t records, struct dice *dice);
size_t random_request(uint8_t *request, size_t entries, struct dice *dice);

/* Gives some records of a book, and the entries of a request, issuers by chance, of whom there are few too. */
void issuers_in_book(uint8_t *book, size_t book_len, struct dice *dice);
void issuers_in_request(uint8_t *request, size_t request_len, struct dice *dice);

#endif

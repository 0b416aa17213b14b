/* Judging and deciding in plain C, as documents 01 and 02 say and without a proof: the yardstick of the benchmark.
 *
 * The numbers are those of include/bachumoi.h: decision + 256 x count + 1,099,511,627,776 x code, or
 * 255 + 256 x number + 65,536 x line + 4,294,967,296 x part for a refusal.
 */
#ifndef PLAIN_H
#define PLAIN_H

#include <stddef.h>
#include <stdint.h>

/* 256 x the number of obligation records of an accepted book, or a refusal (3, 4, 2, then the first 5, then the
 * first of 9 to 12). */
uint64_t plain_judge_book(const uint8_t *book, size_t book_len);

/* 0 for an accepted request, or a refusal (4, 2, then the first 5). */
uint64_t plain_judge_request(const uint8_t *request, size_t request_len);

/* What bachumoi_decide answers, and what it leaves in out. */
uint64_t plain_decide(const uint8_t *book, size_t book_len, const uint8_t *request, size_t request_len,
                      uint8_t *out, size_t out_len);

/* The same from a copy that counts, in looked, the records that it looks at: from left to right, stopping at the first
 * part that settles an and, an or or an algorithm. */
uint64_t counted_decide(const uint8_t *book, size_t book_len, const uint8_t *request, size_t request_len,
                        uint8_t *out, size_t out_len);
extern uint64_t looked;

#endif

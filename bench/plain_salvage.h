/* Salvaging in plain C, as document 02, 6 says and without a proof: the yardstick of the benchmark. */
#ifndef PLAIN_SALVAGE_H
#define PLAIN_SALVAGE_H

#include <stddef.h>
#include <stdint.h>

/* What bachumoi_salvage returns, and what it leaves in mended and replaced. */
uint64_t plain_salvage(const uint8_t *book, size_t book_len, uint8_t *mended, size_t mended_len, uint8_t *replaced,
                       size_t replaced_len);

#endif

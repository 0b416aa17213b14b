/* Translating and running in plain C, with the layout of docs/PROGRAMME.md and without a proof: the yardstick of the
 * benchmark. Each is what include/bachumoi.h says of the function of the same name. */
#ifndef PLAIN_PROGRAMME_H
#define PLAIN_PROGRAMME_H

#include <stddef.h>
#include <stdint.h>

uint64_t plain_translate(const uint8_t *book, size_t book_len, uint64_t *programme, size_t programme_len);

uint64_t plain_fresh(uint64_t *numbers, size_t numbers_len, uint16_t *places, size_t places_len);

uint64_t plain_tick(const uint64_t *programme, size_t programme_len, const uint8_t *request, size_t request_len,
                    uint64_t *numbers, size_t numbers_len, uint16_t *places, size_t places_len, uint64_t budget,
                    uint16_t *out, size_t out_len);

#endif

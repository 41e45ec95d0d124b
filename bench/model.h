/* The layouts in plain C: the results that the library's are compared with. F does not matter here. */
#ifndef MODEL_H
#define MODEL_H

#include <stddef.h>
#include <stdint.h>

struct ledger {
  const uint8_t *bytes;
  const uint32_t *ends;
  uint32_t days;
};

/* What every chain of a book starts with. Its block is not among those that model_compressed counts. */
void model_start(uint32_t scheme, uint32_t n, uint8_t start[32]);

/* Each gives how many it wrote. changed has a byte for each day, not 0 if that day is changed. */
size_t model_book(uint32_t scheme, uint32_t n, const uint8_t start[32], const struct ledger *ledger, uint8_t *book);
size_t model_outcomes(uint32_t scheme, uint32_t n, uint32_t days, const uint8_t *changed, uint8_t *outcomes);
size_t model_list(uint32_t scheme, uint32_t n, uint32_t days, const uint8_t *changed, uint32_t *list);

/* The SHA-256 blocks that the last model_book compressed, counted. */
size_t model_compressed(void);

/* Blocks that sealing takes, where a day is of one block: one for its digest, two for each link. */
size_t model_blocks(uint32_t scheme, uint32_t n, uint32_t days);

size_t day_start(const struct ledger *ledger, uint32_t day);
size_t day_size(const struct ledger *ledger, uint32_t day);

#endif

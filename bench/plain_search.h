/* The search of a tree table in plain C, with the tests of daybook_search, to compare it with. */
#ifndef PLAIN_SEARCH_H
#define PLAIN_SEARCH_H

#include <stddef.h>
#include <stdint.h>

/* N and D are allowed, and list has D places. Gives 0, or the refusal: 12, 13 or 14. progress: looked, found,
 * undecided. */
uint32_t plain_search(uint32_t n, uint32_t days, const uint8_t *outcomes, size_t count, uint32_t limit, uint32_t *list,
                      uint32_t progress[3]);

#endif

/* Seals eight days, alters day 6, checks and reads. */
#include <stdio.h>
#include "daybook.h"

int main(void) {
  uint8_t ledger[] = "wheat 10wheat 20wheat 30wheat 40wheat 50wheat 60wheat 70wheat 80";
  uint32_t ends[8] = {8, 16, 24, 32, 40, 48, 56, 64}, list[8], numbers[5];
  uint8_t book[8 * DAYBOOK_VALUE], work[8 * DAYBOOK_VALUE], outcomes[8];
  if (daybook_seal(DAYBOOK_TILE, 4, 1, 8, ledger, 64, ends, 8, book, sizeof book)) return 1;
  ledger[46] = '9';
  if (daybook_check(DAYBOOK_TILE, 4, 1, 8, ledger, 64, ends, 8, book, sizeof book, work, sizeof work, outcomes, 8)) return 1;
  if (daybook_read(DAYBOOK_TILE, 4, 1, 8, 4, outcomes, 8, list, 8, numbers)) return 1; /* a check passed at day 4 */
  for (uint32_t i = 0; i < numbers[0]; i++) printf("day %u may have been altered\n", list[i]);
  return 0;
}

#include "plain_search.h"

/* The values of the days 1 to g: 2 g less its one bits, and black at each day that N divides and that is no power of
 * two. */
static size_t values_through(uint32_t n, uint32_t g) {
  uint32_t once = 0;
  for (uint32_t p = n; p <= g; p *= 2)
    once++;
  return 2 * (size_t)g - (size_t)__builtin_popcount(g) + g / n - once;
}

static int any_over_1(const uint8_t *outcomes, size_t count) {
  for (size_t i = 0; i < count; i++)
    if (outcomes[i] > 1)
      return 1;
  return 0;
}

/* Whether a set of days gives the table: a chain passes exactly if the last failed day is before it. */
static int accepted(uint32_t n, uint32_t days, const uint8_t *outcomes) {
  uint32_t failed = 0;
  for (uint32_t day = 1; day <= days; day++) {
    if (*outcomes == 0)
      failed = day;
    for (uint32_t span = 1; day % span == 0; span *= 2)
      if (*outcomes++ != (failed + span <= day))
        return 0;
    if (day % n == 0 && (day & (day - 1)) != 0 && *outcomes++ != (failed == 0))
      return 0;
  }
  return 1;
}

struct search {
  uint32_t n;
  const uint8_t *outcomes;
  uint32_t limit;
  uint32_t *list;
  uint32_t *progress;
};

enum { LOOKED, FOUND, UNDECIDED };

static void deal_with(const struct search *s, uint32_t level, uint32_t end) {
  if (s->progress[LOOKED] == s->limit) {
    s->progress[UNDECIDED] += 1u << level;
    return;
  }
  s->progress[LOOKED]++;
  if (s->outcomes[values_through(s->n, end - 1) + level] == 1)
    return;
  if (level == 0) {
    s->list[s->progress[FOUND]++] = end;
    return;
  }
  deal_with(s, level - 1, end - (1u << (level - 1)));
  deal_with(s, level - 1, end);
}

uint32_t plain_search(uint32_t n, uint32_t days, const uint8_t *outcomes, size_t count, uint32_t limit, uint32_t *list,
                      uint32_t progress[3]) {
  struct search s = {n, outcomes, limit, list, progress};
  if (count < values_through(n, days))
    return 12;
  if (any_over_1(outcomes, values_through(n, days)))
    return 13;
  if (!accepted(n, days, outcomes))
    return 14;
  progress[LOOKED] = progress[FOUND] = progress[UNDECIDED] = 0;
  for (uint32_t level = 17; level-- > 0;)
    if (days >> level & 1)
      deal_with(&s, level, days >> level << level);
  return 0;
}

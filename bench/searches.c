#include "searches.h"
#include "calls.h"
#include "plain_search.h"
#include "report.h"

#include "daybook.h"

#include <stdlib.h>
#include <string.h>

struct searches make_searches(uint32_t n, uint32_t days, uint32_t count) {
  struct searches s = {.n = n, .days = days, .limit = UINT32_MAX, .count = count};
  uint32_t run = days / count;
  s.values = value_count(DAYBOOK_TREE, n, days);
  s.changed = room(days);
  s.outcomes = room(s.values);
  s.list = room(days * sizeof *s.list);
  for (uint32_t k = 0; k < count; k++)
    s.changed[k * run + run / 2] = 1;
  require(model_outcomes(DAYBOOK_TREE, n, days, s.changed, s.outcomes) == s.values, "daybook_values is wrong");
  return s;
}

void drop_searches(struct searches *s) {
  free(s->changed);
  free(s->outcomes);
  free(s->list);
}

void search_job(void *arg) {
  struct searches *s = arg;
  uint32_t r = daybook_search(DAYBOOK_TREE, s->n, 1, s->days, s->outcomes, s->values, s->limit, s->list, s->days,
                              s->progress);
  require(r == DAYBOOK_DONE, "daybook_search refused");
}

void plain_search_job(void *arg) {
  struct searches *s = arg;
  uint32_t r = plain_search(s->n, s->days, s->outcomes, s->values, s->limit, s->list, s->progress);
  require(r == DAYBOOK_DONE, "the plain search refused");
}

/* The state of a search with a limit is that of the plain one. */
static void compare_limit(const struct searches *searches, uint32_t limit) {
  struct searches s = *searches, plain = *searches;
  s.limit = plain.limit = limit;
  plain.list = room(plain.days * sizeof *plain.list);
  memset(s.list, 0, s.days * sizeof *s.list);
  search_job(&s);
  plain_search_job(&plain);
  require(memcmp(s.progress, plain.progress, sizeof s.progress) == 0, "the numbers of a search are wrong");
  require(memcmp(s.list, plain.list, s.days * sizeof *s.list) == 0, "the days of a search are wrong");
  free(plain.list);
}

uint32_t compare_searches(struct searches *s) {
  uint32_t *days = room(s->days * sizeof *days);
  size_t count = model_list(DAYBOOK_TREE, s->n, s->days, s->changed, days);
  search_job(s);
  require(s->progress[1] == count && s->progress[2] == 0, "a search is not finished");
  require(memcmp(s->list, days, count * sizeof *days) == 0, "the days of a search are wrong");
  free(days);
  uint32_t looked = s->progress[0];
  for (uint32_t part = 0; part <= 8; part++)
    compare_limit(s, looked / 8 * part);
  compare_limit(s, looked - 1);
  compare_limit(s, looked);
  return looked;
}

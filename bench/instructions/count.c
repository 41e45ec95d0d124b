/* One call on D days, for a count of its instructions. Words: the call, or the changes of the table that is read; the
 * scheme; D. Or: search, the number of changed days, and the limit, of 65,536 days. */
#include "../calls.h"
#include "../report.h"
#include "../searches.h"
#include "../tables.h"

#include <stdio.h>
#include <stdlib.h>
#include <string.h>

#define N 8
#define DAYS_SEARCHED 65536
#define SIZE 40

static void on_books(void (*job)(void *), uint32_t scheme, uint32_t days) {
  struct ledger ledger = make_ledger(days, SIZE);
  struct books books = make_books(scheme, N, ledger);
  job(&books);
  drop_books(&books);
  drop_ledger(&ledger);
}

static void on_table(enum changes changes, uint32_t scheme, uint32_t days) {
  struct tables tables = make_tables(scheme, N, days, 1, changes);
  read_job(&tables);
  drop_tables(&tables);
}

/* Says how many chains were looked at. */
static void on_search(uint32_t count, uint32_t limit) {
  struct searches searches = make_searches(N, DAYS_SEARCHED, count);
  searches.limit = limit;
  search_job(&searches);
  printf("looked %u\n", searches.progress[0]);
  drop_searches(&searches);
}

static enum changes changes_of(const char *word) {
  static const char *const words[CHANGES] = {"clean", "few", "second", "half"};
  for (enum changes c = CLEAN; c < CHANGES; c++)
    if (strcmp(word, words[c]) == 0)
      return c;
  require(0, "calls: seal check clean few second half search");
  return CLEAN;
}

int main(int count, char **words) {
  require(count == 4, "words: call scheme days, or search changed limit");
  uint32_t scheme = (uint32_t)atoi(words[2]), days = (uint32_t)atoi(words[3]);
  if (strcmp(words[1], "search") == 0)
    on_search(scheme, days);
  else if (strcmp(words[1], "seal") == 0)
    on_books(seal_job, scheme, days);
  else if (strcmp(words[1], "check") == 0)
    on_books(check_job, scheme, days);
  else
    on_table(changes_of(words[1]), scheme, days);
  return 0;
}

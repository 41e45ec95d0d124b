/* Two builds of the library in one program, on the same empty days. Words: the call, the scheme and N, for the time of the
 * later build, that of the earlier one = 1; with "old" or "new" behind them one run of that build, for a count of its
 * instructions. */
#include "../calls.h"
#include "../report.h"
#include "../timing.h"

#include <stdio.h>
#include <stdlib.h>
#include <string.h>

#define SECONDS 3.0
#define DAYS 256

enum { BEFORE, AFTER, BUILDS };

/* Those of calls.h, over the earlier build. */
void before_seal_job(void *arg);
void before_close_job(void *arg);
void before_check_job(void *arg);
void before_compare_books(struct books *books);

typedef void job_function(void *arg);

static const struct call {
  const char *name;
  job_function *jobs[BUILDS];
} calls[] = {{"seal", {before_seal_job, seal_job}},
             {"close", {before_close_job, close_job}},
             {"check", {before_check_job, check_job}}};

static job_function *const *call_of(const char *word) {
  for (size_t i = 0; i < sizeof calls / sizeof *calls; i++)
    if (strcmp(word, calls[i].name) == 0)
      return calls[i].jobs;
  require(0, "calls: seal close check");
  return NULL;
}

static int build_of(const char *word) {
  require(strcmp(word, "old") == 0 || strcmp(word, "new") == 0, "builds: old new");
  return strcmp(word, "old") == 0 ? BEFORE : AFTER;
}

/* On days with bytes: of empty ones a chain's value tells how many it covers, and not which. */
static void compare_builds(uint32_t scheme, uint32_t n) {
  struct ledger ledger = make_ledger(DAYS, 40);
  struct books books = make_books(scheme, n, ledger);
  before_compare_books(&books);
  compare_books(&books);
  drop_books(&books);
  drop_ledger(&ledger);
}

static void print_ratio(job_function *const *call, struct books *books) {
  struct job jobs[BUILDS] = {{call[BEFORE], books, 1}, {call[AFTER], books, 1}};
  double t[BUILDS];
  compare_builds(books->scheme, books->n);
  least_times(jobs, BUILDS, SECONDS, t);
  printf("%.3f\n", t[AFTER] / t[BEFORE]);
}

int main(int count, char **words) {
  require(count == 4 || count == 5, "words: call scheme N, or call scheme N build");
  struct ledger ledger = make_ledger(DAYS, 0);
  struct books books = make_books((uint32_t)atoi(words[2]), (uint32_t)atoi(words[3]), ledger);
  job_function *const *call = call_of(words[1]);
  if (count == 4)
    print_ratio(call, &books);
  else
    call[build_of(words[4])](&books);
  drop_books(&books);
  drop_ledger(&ledger);
  return 0;
}

/* Short days: the cost of a day beside its compressions. */
#include "calls.h"
#include "report.h"
#include "timing.h"

#include <stdio.h>

#define SECONDS 3.0
#define DAYS 64 /* or N, if it is more */

enum { BARE, SEAL, CHECK, CLOSE, JOBS };

/* One long day whose digest and link are so many blocks: its bytes, the byte before them and nine bytes
 * of padding and length fill the blocks of the digest; the link has two. */
static struct ledger bare_ledger(size_t blocks) { return make_ledger(1, 64 * (blocks - 2) - 10); }

static double over(double time, double bare) { return 100 * (time / bare - 1); }

static void print_row(uint32_t scheme, uint32_t n, size_t size, double blocks, const double *t) {
  printf("| %s | %u | %zu | %.2f | %+.1f %% | %+.1f %% | %+.1f %% | %.2f |\n", scheme_name(scheme), n, size,
         blocks, over(t[SEAL], t[BARE]), over(t[CHECK], t[BARE]), over(t[CLOSE], t[BARE]),
         t[CHECK] / t[SEAL]);
}

/* Against the same number of blocks one after the other. */
static void note_targets(uint32_t scheme, const double *t) {
  static const double limits[SCHEMES] = {1.15, 1.08, 0.6};
  static const char *const seals[SCHEMES] = {"black: seal against its blocks", "tile: seal against its blocks",
                                             "tree: seal against its blocks one after the other"};
  static const char *const checks[SCHEMES] = {"black: check against its blocks", "tile: check against its blocks",
                                              "tree: check against its blocks one after the other"};
  target_at_most("check against seal, time", t[CHECK] / t[SEAL], 1.1);
  target_at_most(seals[scheme - 1], t[SEAL] / t[BARE], limits[scheme - 1]);
  target_at_most(checks[scheme - 1], t[CHECK] / t[BARE], limits[scheme - 1]);
  if (scheme == 3)
    target_at_most("tree: close against its blocks one after the other", t[CLOSE] / t[BARE], limits[2]);
}

static void row(uint32_t scheme, uint32_t n, size_t size) {
  uint32_t days = n < DAYS ? DAYS : n;
  size_t blocks = model_blocks(scheme, n, days);
  struct ledger ledger = make_ledger(days, size), one = bare_ledger(blocks);
  struct books books = make_books(scheme, n, ledger), bare = make_books(1, 1, one);
  struct job jobs[JOBS] = {{seal_job, &bare, 1}, {seal_job, &books, 1}, {check_job, &books, 1}, {close_job, &books, 1}};
  double t[JOBS];
  compare_books(&books);
  compare_books(&bare);
  least_times(jobs, JOBS, SECONDS, t);
  print_row(scheme, n, size, (double)blocks / days, t);
  note_targets(scheme, t);
  drop_books(&books);
  drop_books(&bare);
  drop_ledger(&ledger);
  drop_ledger(&one);
}

static void rows(uint32_t scheme, uint32_t n) {
  row(scheme, n, 0);
  row(scheme, n, 40);
}

void short_days(void) {
  printf("\n### Short days\n\nTime beyond that of the same number of blocks one after the other, in one long day. "
         "F 1, %d days,\nor N if it is more. Close is the call with its record in bytes, with an add before it where the day "
         "has bytes.\n\n", DAYS);
  printf("| layout | N | bytes a day | blocks a day | seal | check | close | check / seal |\n|---|---|---|---|---|---|---|---|\n");
  for (uint32_t scheme = 1; scheme <= SCHEMES; scheme++) {
    rows(scheme, 8);
    if (scheme == 2)
      rows(scheme, 256);
  }
}

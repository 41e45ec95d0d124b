/* Reading against a plain loop over the same outcomes. */
#include "plain_read.h"
#include "report.h"
#include "tables.h"
#include "timing.h"

#include <stdio.h>

#define SECONDS 1.5
#define DAYS 65536
#define N 8

enum { READ, PLAIN, SCALAR, JOBS };

static struct zeros seen;

static void plain_job(void *arg) {
  struct tables *t = arg;
  require(plain_read(t->outcomes, t->values, &seen), "an outcome is over 1");
}

static void scalar_job(void *arg) {
  struct tables *t = arg;
  require(plain_read_scalar(t->outcomes, t->values, &seen), "an outcome is over 1");
}

static void row(uint32_t scheme, enum changes changes) {
  struct tables tables = make_tables(scheme, N, DAYS, 1, changes);
  struct job jobs[JOBS] = {{read_job, &tables, 1}, {plain_job, &tables, 1}, {scalar_job, &tables, 1}};
  double t[JOBS];
  size_t listed = compare_lists(&tables);
  least_times(jobs, JOBS, SECONDS, t);
  printf("| %s | %s | %zu | %zu | %.2f | %.2f |\n", scheme_name(scheme), changes_name(changes), tables.values,
         listed, t[READ] / t[PLAIN], t[READ] / t[SCALAR]);
  target_at_most(changes == CLEAN ? "read against the plain loop, clean" : "read against the plain loop, changed days",
                 t[READ] / t[PLAIN], 5);
  drop_tables(&tables);
}

void reading(void) {
  printf("\n### Reading\n\nTime per value, the plain loop = 1: gcc -O3, and gcc -O3 -fno-tree-vectorize. "
         "N %d, F 1, %d days.\n\n", N, DAYS);
  printf("| layout | changed days | values | listed | read | read, not vectorised |\n|---|---|---|---|---|---|\n");
  for (uint32_t scheme = 1; scheme <= SCHEMES; scheme++)
    for (enum changes c = CLEAN; c < CHANGES; c++)
      row(scheme, c);
}

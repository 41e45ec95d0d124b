/* Time per day as the number of days grows. */
#include "report.h"
#include "tables.h"
#include "timing.h"

#include <stdio.h>

#define SIZES 5
#define SIZE 40
#define N 8
#define DAYS_A_TURN 4096
#define DAYS_READ 65536

static const uint32_t sizes[SIZES] = {256, 1024, 4096, 16384, 65536};

static void print_row(uint32_t scheme, const char *call, const double *least, const char *text) {
  printf("| %s | %s |", scheme_name(scheme), call);
  for (int i = 0; i < SIZES; i++)
    printf(" %.2f |", least[i] / sizes[i] / (least[0] / sizes[0]));
  printf("\n");
  target_at_most(text, least[SIZES - 1] / sizes[SIZES - 1] / (least[0] / sizes[0]), 1.3);
}

/* Runs in a turn, so that turns have about the same length. */
static int times(uint32_t days) { return days < DAYS_A_TURN ? DAYS_A_TURN / (int)days : 1; }

/* The ledger's first days. */
static struct ledger front(struct ledger ledger, uint32_t days) {
  ledger.days = days;
  return ledger;
}

static void seal_and_check(uint32_t scheme, struct ledger ledger, double seconds) {
  struct books books[SIZES];
  struct job jobs[2 * SIZES];
  double least[2 * SIZES];
  for (int i = 0; i < SIZES; i++) {
    books[i] = make_books(scheme, N, front(ledger, sizes[i]));
    jobs[i] = (struct job){seal_job, &books[i], times(sizes[i])};
    jobs[SIZES + i] = (struct job){check_job, &books[i], times(sizes[i])};
  }
  compare_books(&books[0]);
  compare_books(&books[SIZES - 1]);
  least_times(jobs, 2 * SIZES, seconds, least);
  print_row(scheme, "seal", least, "growth of seal");
  print_row(scheme, "check", least + SIZES, "growth of check");
  for (int i = 0; i < SIZES; i++)
    drop_books(&books[i]);
}

static void read(uint32_t scheme, enum changes changes, const char *call) {
  struct tables tables[SIZES];
  struct job jobs[SIZES];
  double least[SIZES];
  for (int i = 0; i < SIZES; i++) {
    tables[i] = make_tables(scheme, N, sizes[i], DAYS_READ / sizes[i], changes);
    compare_lists(&tables[i]);
    jobs[i] = (struct job){read_job, &tables[i], 1};
  }
  least_times(jobs, SIZES, 1.5, least);
  for (int i = 0; i < SIZES; i++) {
    least[i] /= tables[i].count;
    drop_tables(&tables[i]);
  }
  print_row(scheme, call, least, "growth of read");
}

void growth(void) {
  static const double seconds[SCHEMES] = {5, 7, 22};
  struct ledger ledger = make_ledger(sizes[SIZES - 1], SIZE);
  printf("\n### Growth\n\nTime per day, D %u = 1. N %d, F 1, days of %d bytes.\n\n", sizes[0], N, SIZE);
  printf("| layout | call |");
  for (int i = 0; i < SIZES; i++)
    printf(" D %u |", sizes[i]);
  printf("\n|---|---|---|---|---|---|---|\n");
  for (uint32_t scheme = 1; scheme <= SCHEMES; scheme++) {
    seal_and_check(scheme, ledger, seconds[scheme - 1]);
    read(scheme, CLEAN, "read, clean");
    read(scheme, HALF, "read, half changed");
  }
  drop_ledger(&ledger);
}

/* Searching against a plain search of the same table. */
#include "report.h"
#include "searches.h"
#include "timing.h"

#include <stdio.h>

#define SECONDS 1.5
#define DAYS 65536
#define N 8

enum { SEARCH, PLAIN, TESTS, PLAIN_TESTS, JOBS };

static void row(uint32_t count) {
  struct searches whole = make_searches(N, DAYS, count), none = whole;
  uint32_t looked = compare_searches(&whole);
  double t[JOBS];
  none.limit = 0;
  struct job jobs[JOBS] = {
      {search_job, &whole, 1}, {plain_search_job, &whole, 1}, {search_job, &none, 1}, {plain_search_job, &none, 1}};
  least_times(jobs, JOBS, SECONDS, t);
  printf("| %u | %u | %.2f | %.2f | %.0f %% | %.0f %% |\n", count, looked, t[SEARCH] / t[PLAIN],
         t[TESTS] / t[PLAIN_TESTS], 100 * t[TESTS] / t[SEARCH], 100 * t[PLAIN_TESTS] / t[PLAIN]);
  drop_searches(&whole);
}

void searching(void) {
  printf("\n### Search\n\nTime of a search to the end, and with limit 0, which is its tests alone; a plain search in C "
         "with the same tests = 1.\nThen the tests' share of the time, in both. N %d, %d days, cut into as many runs "
         "as days are changed, the middle one of\neach.\n\n", N, DAYS);
  printf("| changed days | chains looked at | search | limit 0 | tests, the library | tests, plain |\n"
         "|---|---|---|---|---|---|\n");
  row(1);
  row(16);
  row(4096);
  row(DAYS);
}

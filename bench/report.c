#include "report.h"

#include <stdio.h>
#include <stdlib.h>
#include <string.h>

#define TARGETS_LIMIT 32

struct target {
  const char *text;
  double measured;
  double limit;
  int at_least;
};

static struct target targets[TARGETS_LIMIT];
static int target_count;

void require(int holds, const char *what) {
  if (holds)
    return;
  fflush(stdout);
  fprintf(stderr, "bench: %s\n", what);
  exit(1);
}

static struct target *find(const char *text) {
  for (int i = 0; i < target_count; i++)
    if (strcmp(targets[i].text, text) == 0)
      return &targets[i];
  return NULL;
}

static int met(const struct target *t) {
  return t->at_least ? t->measured >= t->limit : t->measured <= t->limit;
}

/* How far a target is met, the greater the better. */
static double margin(double measured, double limit, int at_least) {
  return at_least ? measured / limit : limit / measured;
}

static void note(const char *text, double measured, double limit, int at_least) {
  struct target *t = find(text);
  if (t != NULL && margin(t->measured, t->limit, at_least) <= margin(measured, limit, at_least))
    return;
  require(t != NULL || target_count < TARGETS_LIMIT, "too many targets");
  if (t == NULL)
    t = &targets[target_count++];
  *t = (struct target){text, measured, limit, at_least};
}

void target_at_least(const char *text, double measured, double limit) { note(text, measured, limit, 1); }
void target_at_most(const char *text, double measured, double limit) { note(text, measured, limit, 0); }

void print_targets(void) {
  printf("\n### Targets\n\nThe worst row of each.\n\n");
  printf("| target | limit | measured | |\n|---|---|---|---|\n");
  for (int i = 0; i < target_count; i++) {
    const struct target *t = &targets[i];
    printf("| %s | %s %.2f | %.2f | %s |\n", t->text, t->at_least ? "at least" : "at most", t->limit,
           t->measured, met(t) ? "met" : "missed");
  }
}

/* Long days: sealing and checking against SHA-256 in C over the same bytes. */
#include "calls.h"
#include "report.h"
#include "sha256.h"
#include "timing.h"

#include <stdio.h>
#include <string.h>

#define SECONDS 5.0

enum { SEAL, CHECK, PLAIN, UNROLLED, OPENSSL, JOBS };

/* The black value of a ledger by one of the C hashes, from the start of its chain on; no block function means OpenSSL. */
struct black {
  blocks_function *blocks;
  const struct ledger *ledger;
  const uint8_t *start;
  uint8_t value[32];
};

static void hash(blocks_function *blocks, uint8_t first, const uint8_t *bytes, size_t count, uint8_t *out) {
  if (blocks != NULL)
    digest(blocks, first, bytes, count, out);
  else
    require(openssl_digest(first, bytes, count, out), "OpenSSL failed");
}

static void black_job(void *arg) {
  struct black *b = arg;
  uint8_t link[64];
  memcpy(link, b->start, 32);
  for (uint32_t day = 1; day <= b->ledger->days; day++) {
    const uint8_t *bytes = b->ledger->bytes + day_start(b->ledger, day);
    hash(b->blocks, 0, bytes, day_size(b->ledger, day), link + 32);
    hash(b->blocks, 1, link, 64, b->value);
    memcpy(link, b->value, 32);
  }
}

static void compare_values(const struct books *books, const struct black *blacks, int count) {
  for (int i = 0; i < count; i++)
    require(memcmp(blacks[i].value, books->book, 32) == 0, "a C hash gives another value");
}

static void note_targets(const double *t) {
  double seal = t[PLAIN] / t[SEAL], unrolled = t[PLAIN] / t[UNROLLED];
  target_at_least("long days: sealing against plain C", seal, 1.1);
  target_at_least("long days: sealing, the same, 1.2 or what unrolled C reaches", seal,
                  unrolled < 1.2 ? unrolled : 1.2);
  target_at_most("check against seal, time", t[CHECK] / t[SEAL], 1.1);
}

static void print_row(const char *name, const double *t, int jobs) {
  printf("| %s | %.2f | %.2f | 1.00 | %.2f |", name, t[PLAIN] / t[SEAL], t[PLAIN] / t[CHECK],
         t[PLAIN] / t[UNROLLED]);
  if (jobs > OPENSSL)
    printf(" %.2f |\n", t[PLAIN] / t[OPENSSL]);
  else
    printf(" not here |\n");
}

/* N is the number of days: the book is one black value. */
static void row(const char *name, uint32_t days, size_t size) {
  struct ledger ledger = make_ledger(days, size);
  struct books books = make_books(1, days, ledger);
  uint8_t start[32];
  struct black blacks[] = {
      {plain_blocks, &ledger, start, {0}}, {unrolled_blocks, &ledger, start, {0}}, {NULL, &ledger, start, {0}}};
  struct job jobs[JOBS] = {{seal_job, &books, 1},
                           {check_job, &books, 1},
                           {black_job, &blacks[0], 1},
                           {black_job, &blacks[1], 1},
                           {black_job, &blacks[2], 1}};
  int count = openssl_version() != NULL ? JOBS : OPENSSL;
  double t[JOBS];
  start_of(&books, start);
  compare_books(&books);
  least_times(jobs, count, SECONDS, t);
  compare_values(&books, blacks, count - PLAIN);
  print_row(name, t, count);
  note_targets(t);
  drop_books(&books);
  drop_ledger(&ledger);
}

void long_days(void) {
  printf("\n### Long days\n\nThroughput, plain C = 1. Every column hashes the same bytes and gives the same value.\n\n");
  printf("| days | seal | check | plain C | unrolled C | OpenSSL |\n|---|---|---|---|---|---|\n");
  row("1 of 16 KiB", 1, 1 << 14);
  row("4 of 64 KiB", 4, 1 << 16);
}

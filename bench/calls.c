#include "calls.h"
#include "report.h"

#include "daybook.h"

#include <stdlib.h>
#include <string.h>

const char *scheme_name(uint32_t scheme) {
  static const char *const names[] = {"black", "tile", "tree"};
  return names[scheme - 1];
}

void *room(size_t bytes) {
  void *p = calloc(bytes + 1, 1);
  require(p != NULL, "no memory");
  return p;
}

struct ledger make_ledger(uint32_t days, size_t size) {
  uint8_t *bytes = room(days * size);
  uint32_t *ends = room(days * sizeof *ends);
  uint32_t x = 1;
  for (size_t i = 0; i < days * size; i++) {
    x = x * 1664525 + 1013904223;
    bytes[i] = (uint8_t)(x >> 24);
  }
  for (uint32_t d = 0; d < days; d++)
    ends[d] = (uint32_t)((d + 1) * size);
  return (struct ledger){bytes, ends, days};
}

void drop_ledger(struct ledger *ledger) {
  free((void *)ledger->bytes);
  free((void *)ledger->ends);
}

size_t value_count(uint32_t scheme, uint32_t n, uint32_t days) {
  uint32_t values;
  require(daybook_values(scheme, n, 1, days, &values) == DAYBOOK_DONE, "daybook_values refused");
  return values;
}

struct books make_books(uint32_t scheme, uint32_t n, struct ledger ledger) {
  struct books b = {.scheme = scheme, .n = n, .ledger = ledger};
  b.ledger_size = ledger.ends[ledger.days - 1];
  b.values = value_count(scheme, n, ledger.days);
  b.book = room(32 * b.values);
  b.work = room(32 * (size_t)ledger.days);
  b.outcomes = room(b.values);
  return b;
}

void drop_books(struct books *books) {
  free(books->book);
  free(books->work);
  free(books->outcomes);
}

void seal_job(void *arg) {
  struct books *b = arg;
  uint32_t d = b->ledger.days;
  uint32_t r = daybook_seal(b->scheme, b->n, 1, d, b->ledger.bytes, b->ledger_size, b->ledger.ends, d,
                            b->book, 32 * b->values);
  require(r == DAYBOOK_DONE, "daybook_seal refused");
}

void check_job(void *arg) {
  struct books *b = arg;
  uint32_t d = b->ledger.days;
  uint32_t r = daybook_check(b->scheme, b->n, 1, d, b->ledger.bytes, b->ledger_size, b->ledger.ends, d,
                             b->book, 32 * b->values, b->work, 32 * (size_t)d, b->outcomes, b->values);
  require(r == DAYBOOK_DONE, "daybook_check refused");
}

static size_t close_day(struct books *b, uint8_t *record, uint32_t day, size_t at) {
  size_t size = day_size(&b->ledger, day);
  uint32_t values, added = 0, closed, r = DAYBOOK_DONE;
  if (size > 0)
    r = daybook_add(record, b->ledger.bytes + day_start(&b->ledger, day), size, &added);
  require(r == DAYBOOK_DONE, "daybook_add refused");
  r = daybook_close(record, b->book + 32 * at, 32 * (b->values - at), &values, &closed);
  require(r == DAYBOOK_DONE, "daybook_close refused");
  b->blocks += added + closed;
  return at + values;
}

void close_job(void *arg) {
  struct books *b = arg;
  uint8_t record[DAYBOOK_RECORD];
  size_t at = 0;
  b->blocks = 0;
  require(daybook_open(b->scheme, b->n, 1, record) == DAYBOOK_DONE, "daybook_open refused");
  for (uint32_t day = 1; day <= b->ledger.days; day++)
    at = close_day(b, record, day, at);
}

static int all_pass(const struct books *b) {
  return b->outcomes[0] == 1 && memcmp(b->outcomes, b->outcomes + 1, b->values - 1) == 0;
}

/* Alters a byte of every fifth day, or alters it back, and marks these days. */
static void alter_days(const struct ledger *ledger, uint8_t *changed) {
  uint8_t *bytes = (uint8_t *)ledger->bytes;
  for (uint32_t day = 1; day <= ledger->days; day += 5) {
    bytes[day_start(ledger, day)] ^= 1;
    changed[day - 1] = 1;
  }
}

static void compare_altered(struct books *b) {
  uint8_t *changed = room(b->ledger.days), *outcomes = room(b->values);
  alter_days(&b->ledger, changed);
  check_job(b);
  alter_days(&b->ledger, changed);
  model_outcomes(b->scheme, b->n, b->ledger.days, changed, outcomes);
  require(memcmp(b->outcomes, outcomes, b->values) == 0, "the outcomes of daybook_check are wrong");
  free(changed);
  free(outcomes);
}

/* The blocks of the calls and those forecast are those that the model has compressed. */
static void compare_blocks(const struct books *b) {
  uint32_t d = b->ledger.days, *lengths = room(d * sizeof *lengths);
  uint64_t sizes[3];
  for (uint32_t day = 1; day <= d; day++)
    lengths[day - 1] = (uint32_t)day_size(&b->ledger, day);
  require(daybook_forecast(b->scheme, b->n, 1, d, lengths, d, sizes) == DAYBOOK_DONE, "daybook_forecast refused");
  require(b->blocks == model_compressed(), "the blocks of daybook_add and daybook_close are wrong");
  require(sizes[2] == model_compressed(), "the blocks of daybook_forecast are wrong");
  require(sizes[0] == b->values && sizes[1] == 32 * b->values, "the sizes of daybook_forecast are wrong");
  free(lengths);
}

void start_of(const struct books *b, uint8_t start[32]) {
  memset(start, 0, 32);
  if (daybook_version() >= 800)
    model_start(b->scheme, b->n, start);
}

void compare_books(struct books *b) {
  uint8_t *book = room(32 * b->values), start[32];
  start_of(b, start);
  require(model_book(b->scheme, b->n, start, &b->ledger, book) == b->values, "daybook_values is wrong");
  close_job(b);
  compare_blocks(b);
  require(memcmp(b->book, book, 32 * b->values) == 0, "the book of daybook_close is wrong");
  memset(b->book, 0, 32 * b->values);
  seal_job(b);
  require(memcmp(b->book, book, 32 * b->values) == 0, "the book of daybook_seal is wrong");
  check_job(b);
  require(all_pass(b), "the outcomes of daybook_check are wrong");
  if (b->ledger_size > 0)
    compare_altered(b);
  free(book);
}

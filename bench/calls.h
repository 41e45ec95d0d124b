/* A ledger with its book and buffers, and the library's calls on them as jobs. */
#ifndef CALLS_H
#define CALLS_H

#include "model.h"

#define SCHEMES 3

struct books {
  uint32_t scheme;
  uint32_t n;
  struct ledger ledger;
  size_t ledger_size;
  size_t values;
  size_t blocks; /* compressed by the last close_job */
  uint8_t *book;
  uint8_t *work;
  uint8_t *outcomes;
};

const char *scheme_name(uint32_t scheme);

void *room(size_t bytes);

/* A ledger of days of equal size. */
struct ledger make_ledger(uint32_t days, size_t size);
void drop_ledger(struct ledger *ledger);

/* The number of values in a book. */
size_t value_count(uint32_t scheme, uint32_t n, uint32_t days);

struct books make_books(uint32_t scheme, uint32_t n, struct ledger ledger);
void drop_books(struct books *books);

/* What the chains of this build start with: before version 0.8.0 zeros, whatever the layout. */
void start_of(const struct books *books, uint8_t start[32]);

/* Jobs: arg is struct books. A refusal ends the run. */
void seal_job(void *arg);
void check_job(void *arg);
void close_job(void *arg); /* open, then add and close for each day; days of no bytes are only closed */

/* Seals by seal and by close, checks, and checks with altered days; the run ends if a result is not the
 * model's. Days are all empty or none is. */
void compare_books(struct books *books);

#endif

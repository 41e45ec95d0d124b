#include "model.h"
#include "sha256.h"

#include <string.h>

#define LEVELS 17

enum { BLACK = 1, TILE = 2, TREE = 3 };

static uint32_t lg(uint32_t x) {
  uint32_t r = 0;
  while (x >>= 1)
    r++;
  return r;
}

size_t day_start(const struct ledger *ledger, uint32_t day) { return day == 1 ? 0 : ledger->ends[day - 2]; }

size_t day_size(const struct ledger *ledger, uint32_t day) {
  return ledger->ends[day - 1] - day_start(ledger, day);
}

/* Whether chain c(i) of a tile covers a day. */
static int tile_covers(uint32_t n, uint32_t i, uint32_t day) {
  return i == 0 || ((day - 1) % n / (n >> i)) % 2 == 0;
}

static uint32_t chain_count(uint32_t scheme, uint32_t n) {
  return scheme == BLACK ? 0 : scheme == TILE ? 1 + lg(n) : LEVELS;
}

/* Whether the running chain i, of a tile or of the tree, takes a day; and whether it ends there. */
static int takes(uint32_t scheme, uint32_t n, uint32_t i, uint32_t day) {
  return scheme == TREE || tile_covers(n, i, day);
}

static int ends_at(uint32_t scheme, uint32_t n, uint32_t i, uint32_t day) {
  return day % (scheme == TREE ? 1u << i : n) == 0;
}

static int stores_black(uint32_t scheme, uint32_t n, uint32_t day) {
  int once = scheme == TREE && (day & (day - 1)) == 0;
  return day % n == 0 && !once;
}

/* The blocks that model_book has compressed. */
static size_t compressed;

static void counted_blocks(uint32_t h[8], const uint8_t *bytes, size_t count) {
  compressed += count;
  unrolled_blocks(h, bytes, count);
}

static void link_day(uint8_t value[32], const uint8_t day_digest[32]) {
  uint8_t m[64];
  memcpy(m, value, 32);
  memcpy(m + 32, day_digest, 32);
  digest(counted_blocks, 1, m, 64, value);
}

size_t model_compressed(void) { return compressed; }

void model_start(uint32_t scheme, uint32_t n, uint8_t start[32]) {
  const uint8_t named[2] = {(uint8_t)scheme, (uint8_t)lg(n)};
  digest(unrolled_blocks, 2, named, sizeof named, start);
}

size_t model_book(uint32_t scheme, uint32_t n, const uint8_t start[32], const struct ledger *ledger, uint8_t *book) {
  uint8_t black[32], chain[LEVELS][32], h[32];
  uint32_t count = chain_count(scheme, n);
  size_t values = 0;
  compressed = 0;
  memcpy(black, start, 32);
  for (uint32_t i = 0; i < count; i++)
    memcpy(chain[i], start, 32);
  for (uint32_t day = 1; day <= ledger->days; day++) {
    digest(counted_blocks, 0, ledger->bytes + day_start(ledger, day), day_size(ledger, day), h);
    link_day(black, h);
    for (uint32_t i = 0; i < count; i++) {
      if (takes(scheme, n, i, day))
        link_day(chain[i], h);
      if (ends_at(scheme, n, i, day)) {
        memcpy(book + 32 * values++, chain[i], 32);
        memcpy(chain[i], start, 32);
      }
    }
    if (stores_black(scheme, n, day))
      memcpy(book + 32 * values++, black, 32);
  }
  return values;
}

size_t model_outcomes(uint32_t scheme, uint32_t n, uint32_t days, const uint8_t *changed, uint8_t *outcomes) {
  uint8_t black = 1, chain[LEVELS];
  uint32_t count = chain_count(scheme, n);
  size_t values = 0;
  memset(chain, 1, sizeof chain);
  for (uint32_t day = 1; day <= days; day++) {
    int fails = changed[day - 1] != 0;
    if (fails)
      black = 0;
    for (uint32_t i = 0; i < count; i++) {
      if (fails && takes(scheme, n, i, day))
        chain[i] = 0;
      if (ends_at(scheme, n, i, day)) {
        outcomes[values++] = chain[i];
        chain[i] = 1;
      }
    }
    if (stores_black(scheme, n, day))
      outcomes[values++] = black;
  }
  return values;
}

/* Whether c(i) covers no changed day of the tile that starts at a day. */
static int tile_passes(uint32_t n, uint32_t i, uint32_t start, const uint8_t *changed) {
  for (uint32_t day = start; day < start + n; day++)
    if (changed[day - 1] && tile_covers(n, i, day))
      return 0;
  return 1;
}

/* Days that no passing chain of the tile covers. */
static size_t tile_list(uint32_t n, uint32_t start, const uint8_t *changed, uint32_t *list) {
  size_t listed = 0;
  for (uint32_t day = start; day < start + n; day++) {
    int cleared = 0;
    for (uint32_t i = 0; i <= lg(n); i++)
      cleared |= tile_covers(n, i, day) && tile_passes(n, i, start, changed);
    if (!cleared)
      list[listed++] = day;
  }
  return listed;
}

size_t model_list(uint32_t scheme, uint32_t n, uint32_t days, const uint8_t *changed, uint32_t *list) {
  size_t listed = 0;
  int failed = 0;
  for (uint32_t start = 1; start <= days; start += n) {
    failed |= !tile_passes(n, 0, start, changed);
    if (scheme == TILE)
      listed += tile_list(n, start, changed, list + listed);
    for (uint32_t day = start; scheme != TILE && day < start + n; day++)
      if (scheme == BLACK ? failed : changed[day - 1])
        list[listed++] = day;
  }
  return listed;
}

size_t model_blocks(uint32_t scheme, uint32_t n, uint32_t days) {
  uint32_t count = chain_count(scheme, n);
  size_t links = days;
  for (uint32_t day = 1; day <= days; day++)
    for (uint32_t i = 0; i < count; i++)
      links += (size_t)takes(scheme, n, i, day);
  return days + 2 * links;
}

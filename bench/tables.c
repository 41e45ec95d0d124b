#include "tables.h"
#include "report.h"

#include "daybook.h"

#include <stdlib.h>
#include <string.h>

#define FEW_DAYS 5

const char *changes_name(enum changes changes) {
  static const char *const names[] = {"none", "five", "every second", "half, at random"};
  return names[changes];
}

static void change_days(uint8_t *changed, uint32_t days, enum changes changes) {
  uint32_t x = 1;
  for (uint32_t d = 0; d < days; d++) {
    x = x * 1664525 + 1013904223;
    if (changes == SECOND)
      changed[d] = d % 2 == 1;
    if (changes == HALF)
      changed[d] = x >> 31;
  }
  for (uint32_t k = 1; changes == FEW && k <= FEW_DAYS; k++)
    changed[days / (FEW_DAYS + 1) * k] = 1;
}

struct tables make_tables(uint32_t scheme, uint32_t n, uint32_t days, uint32_t count, enum changes changes) {
  struct tables t = {.scheme = scheme, .n = n, .days = days, .count = count};
  t.values = value_count(scheme, n, days);
  t.changed = room((size_t)days * count);
  t.outcomes = room(t.values * count);
  t.list = room(days * sizeof *t.list);
  change_days(t.changed, days * count, changes);
  for (size_t i = 0; i < count; i++) {
    size_t k = model_outcomes(scheme, n, days, t.changed + i * days, t.outcomes + i * t.values);
    require(k == t.values, "daybook_values is wrong");
  }
  return t;
}

void drop_tables(struct tables *tables) {
  free(tables->changed);
  free(tables->outcomes);
  free(tables->list);
}

static void read_table(struct tables *t, size_t i, uint32_t numbers[5]) {
  uint32_t r = daybook_read(t->scheme, t->n, 1, t->days, t->days - t->n, t->outcomes + i * t->values, t->values,
                            t->list, t->days, numbers);
  require(r == DAYBOOK_DONE, "daybook_read refused");
}

void read_job(void *arg) {
  struct tables *t = arg;
  uint32_t numbers[5];
  for (size_t i = 0; i < t->count; i++)
    read_table(t, i, numbers);
}

size_t compare_lists(struct tables *t) {
  uint32_t *list = room(t->days * sizeof *list);
  uint32_t numbers[5];
  size_t sum = 0;
  for (size_t i = 0; i < t->count; i++) {
    size_t listed = model_list(t->scheme, t->n, t->days, t->changed + i * t->days, list);
    read_table(t, i, numbers);
    require(numbers[0] == listed && memcmp(list, t->list, listed * sizeof *list) == 0, "a list is wrong");
    sum += listed;
  }
  free(list);
  return sum;
}

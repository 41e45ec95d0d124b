/* Tables of outcomes to read. */
#ifndef TABLES_H
#define TABLES_H

#include "calls.h"

enum changes { CLEAN, FEW, SECOND, HALF, CHANGES };

/* Tables of days in sequence: the changed days of all tables together are the same, however they are
 * cut. So smaller tables are not learnt by the processor's branch predictor any better. */
struct tables {
  uint32_t scheme;
  uint32_t n;
  uint32_t days;  /* of a table */
  uint32_t count; /* tables */
  size_t values;  /* of a table */
  uint8_t *changed;
  uint8_t *outcomes;
  uint32_t *list;
};

const char *changes_name(enum changes changes);

struct tables make_tables(uint32_t scheme, uint32_t n, uint32_t days, uint32_t count, enum changes changes);
void drop_tables(struct tables *tables);

/* Reads each table. */
void read_job(void *arg);

/* The run ends if a list is not the model's. Gives the number of days listed. */
size_t compare_lists(struct tables *tables);

#endif

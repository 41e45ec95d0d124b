/* A tree table to search, of days of which some are changed, and searches of it as jobs. */
#ifndef SEARCHES_H
#define SEARCHES_H

#include <stddef.h>
#include <stdint.h>

struct searches {
  uint32_t n;
  uint32_t days;
  uint32_t limit;
  uint32_t count; /* changed days */
  size_t values;
  uint8_t *changed;
  uint8_t *outcomes;
  uint32_t *list;
  uint32_t progress[3]; /* of the last job: looked, found, undecided */
};

/* The days are cut into count runs of equal length, and the middle day of each is changed. */
struct searches make_searches(uint32_t n, uint32_t days, uint32_t count);
void drop_searches(struct searches *searches);

/* Jobs: arg is struct searches. A refusal ends the run. */
void search_job(void *arg);
void plain_search_job(void *arg);

/* Searches with limits up to the end by the library and in plain C; the run ends if they differ, or if the days found
 * are not those changed. Gives the chains that a search to the end looks at. */
uint32_t compare_searches(struct searches *searches);

#endif

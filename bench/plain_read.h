/* A plain loop over outcomes, to compare reading with. One file, compiled twice. */
#ifndef PLAIN_READ_H
#define PLAIN_READ_H

#include <stddef.h>
#include <stdint.h>

struct zeros {
  size_t count;
  size_t first; /* the number of outcomes, if there is no zero */
};

/* 0 if an outcome is over 1. */
int plain_read(const uint8_t *outcomes, size_t count, struct zeros *zeros);        /* gcc -O3 */
int plain_read_scalar(const uint8_t *outcomes, size_t count, struct zeros *zeros); /* -fno-tree-vectorize */

#endif

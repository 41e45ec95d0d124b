/* Digests of whole messages, over a function that takes blocks. */
#include "sha256.h"

#include <string.h>

static const uint32_t initial[8] = {0x6a09e667, 0xbb67ae85, 0x3c6ef372, 0xa54ff53a,
                                    0x510e527f, 0x9b05688c, 0x1f83d9ab, 0x5be0cd19};

static void put_words(const uint32_t h[8], uint8_t out[32]) {
  for (int i = 0; i < 32; i++)
    out[i] = (uint8_t)(h[i / 4] >> (24 - 8 * (i % 4)));
}

/* The last block or two: the used bytes of tail, the padding, the length of the whole. */
static void finish(blocks_function *blocks, uint32_t h[8], uint8_t tail[128], size_t used, size_t bytes) {
  size_t size = used < 56 ? 64 : 128;
  uint64_t bits = 8 * (uint64_t)bytes;
  tail[used] = 0x80;
  memset(tail + used + 1, 0, size - used - 1);
  for (size_t i = 1; i <= 8; i++, bits >>= 8)
    tail[size - i] = (uint8_t)bits;
  blocks(h, tail, size / 64);
}

void digest(blocks_function *blocks, uint8_t first, const uint8_t *bytes, size_t count, uint8_t out[32]) {
  uint32_t h[8];
  uint8_t tail[128];
  size_t taken = count < 63 ? count : 63;
  size_t used = 1 + taken;
  memcpy(h, initial, sizeof h);
  tail[0] = first;
  if (taken > 0)
    memcpy(tail + 1, bytes, taken);
  if (used == 64) {
    size_t whole = (count - taken) / 64;
    blocks(h, tail, 1);
    blocks(h, bytes + taken, whole);
    taken += 64 * whole;
    used = count - taken;
    memcpy(tail, bytes + taken, used);
  }
  finish(blocks, h, tail, used, count + 1);
  put_words(h, out);
}

/* SHA-256 with the rounds written out by macros: no variable moves from round to round, the schedule
 * is a window of 16 words, the constants stand in the instructions. */
#include "sha256.h"

#define ROTR(x, n) ((x) >> (n) | (x) << (32 - (n)))
#define CH(x, y, z) ((z) ^ ((x) & ((y) ^ (z))))
#define MAJ(x, y, z) (((x) & (y)) | ((z) & ((x) | (y))))
#define BIG0(x) (ROTR(x, 2) ^ ROTR(x, 13) ^ ROTR(x, 22))
#define BIG1(x) (ROTR(x, 6) ^ ROTR(x, 11) ^ ROTR(x, 25))
#define SMALL0(x) (ROTR(x, 7) ^ ROTR(x, 18) ^ (x) >> 3)
#define SMALL1(x) (ROTR(x, 17) ^ ROTR(x, 19) ^ (x) >> 10)

#define LOAD(p)                                                                                     \
  ((uint32_t)(p)[0] << 24 | (uint32_t)(p)[1] << 16 | (uint32_t)(p)[2] << 8 | (uint32_t)(p)[3])

/* The word of the first sixteen rounds, and of the others. */
#define FRESH(i) (w[i] = LOAD(bytes + 4 * (i)))
#define MIXED(i)                                                                                    \
  (w[i] += SMALL1(w[((i) + 14) & 15]) + w[((i) + 9) & 15] + SMALL0(w[((i) + 1) & 15]))

#define ROUND(a, b, c, d, e, f, g, h, k, word)                                                      \
  do {                                                                                              \
    uint32_t t = h + BIG1(e) + CH(e, f, g) + (k) + (word);                                          \
    d += t;                                                                                         \
    h = t + BIG0(a) + MAJ(a, b, c);                                                                 \
  } while (0)

#define EIGHT(word, i, k0, k1, k2, k3, k4, k5, k6, k7)                                              \
  ROUND(a, b, c, d, e, f, g, h, k0, word(i));                                                       \
  ROUND(h, a, b, c, d, e, f, g, k1, word(i + 1));                                                   \
  ROUND(g, h, a, b, c, d, e, f, k2, word(i + 2));                                                   \
  ROUND(f, g, h, a, b, c, d, e, k3, word(i + 3));                                                   \
  ROUND(e, f, g, h, a, b, c, d, k4, word(i + 4));                                                   \
  ROUND(d, e, f, g, h, a, b, c, k5, word(i + 5));                                                   \
  ROUND(c, d, e, f, g, h, a, b, k6, word(i + 6));                                                   \
  ROUND(b, c, d, e, f, g, h, a, k7, word(i + 7))

static void compress(uint32_t v[8], const uint8_t *bytes) {
  uint32_t w[16];
  uint32_t a = v[0], b = v[1], c = v[2], d = v[3], e = v[4], f = v[5], g = v[6], h = v[7];
  EIGHT(FRESH, 0, 0x428a2f98, 0x71374491, 0xb5c0fbcf, 0xe9b5dba5, 0x3956c25b, 0x59f111f1, 0x923f82a4, 0xab1c5ed5);
  EIGHT(FRESH, 8, 0xd807aa98, 0x12835b01, 0x243185be, 0x550c7dc3, 0x72be5d74, 0x80deb1fe, 0x9bdc06a7, 0xc19bf174);
  EIGHT(MIXED, 0, 0xe49b69c1, 0xefbe4786, 0x0fc19dc6, 0x240ca1cc, 0x2de92c6f, 0x4a7484aa, 0x5cb0a9dc, 0x76f988da);
  EIGHT(MIXED, 8, 0x983e5152, 0xa831c66d, 0xb00327c8, 0xbf597fc7, 0xc6e00bf3, 0xd5a79147, 0x06ca6351, 0x14292967);
  EIGHT(MIXED, 0, 0x27b70a85, 0x2e1b2138, 0x4d2c6dfc, 0x53380d13, 0x650a7354, 0x766a0abb, 0x81c2c92e, 0x92722c85);
  EIGHT(MIXED, 8, 0xa2bfe8a1, 0xa81a664b, 0xc24b8b70, 0xc76c51a3, 0xd192e819, 0xd6990624, 0xf40e3585, 0x106aa070);
  EIGHT(MIXED, 0, 0x19a4c116, 0x1e376c08, 0x2748774c, 0x34b0bcb5, 0x391c0cb3, 0x4ed8aa4a, 0x5b9cca4f, 0x682e6ff3);
  EIGHT(MIXED, 8, 0x748f82ee, 0x78a5636f, 0x84c87814, 0x8cc70208, 0x90befffa, 0xa4506ceb, 0xbef9a3f7, 0xc67178f2);
  v[0] += a;
  v[1] += b;
  v[2] += c;
  v[3] += d;
  v[4] += e;
  v[5] += f;
  v[6] += g;
  v[7] += h;
}

void unrolled_blocks(uint32_t h[8], const uint8_t *bytes, size_t count) {
  for (size_t i = 0; i < count; i++)
    compress(h, bytes + 64 * i);
}

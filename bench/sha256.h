/* SHA-256 in C, to compare the library with. */
#ifndef SHA256_H
#define SHA256_H

#include <stddef.h>
#include <stdint.h>

/* Takes the hash value h over count blocks of 64 bytes. */
typedef void blocks_function(uint32_t h[8], const uint8_t *bytes, size_t count);

blocks_function plain_blocks;    /* text-book: loops, a schedule of 64 words */
blocks_function unrolled_blocks; /* rounds written out, a window of 16 words */

/* The digest of the byte first and the bytes given. */
void digest(blocks_function *blocks, uint8_t first, const uint8_t *bytes, size_t count, uint8_t out[32]);

/* The same by OpenSSL; 0 where it is not built in. */
int openssl_digest(uint8_t first, const uint8_t *bytes, size_t count, uint8_t out[32]);
const char *openssl_version(void);

#endif

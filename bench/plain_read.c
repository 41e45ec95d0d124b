#include "plain_read.h"

#ifdef SCALAR
#define plain_read plain_read_scalar
#endif

int plain_read(const uint8_t *outcomes, size_t count, struct zeros *zeros) {
  size_t zero_count = 0;
  size_t first = count;
  for (size_t i = 0; i < count; i++) {
    if (outcomes[i] > 1)
      return 0;
    if (outcomes[i] == 0) {
      if (zero_count == 0)
        first = i;
      zero_count++;
    }
  }
  zeros->count = zero_count;
  zeros->first = first;
  return 1;
}

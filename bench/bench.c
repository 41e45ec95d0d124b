/* Ratios of the library's times to those of plain C and to each other. Run by bench/run. */
#include "peers.h"
#include "report.h"
#include "sha256.h"
#include "timing.h"

#include <cpuid.h>
#include <stdio.h>
#include <string.h>

/* Whether the processor has instructions for SHA-256, which OpenSSL then uses. */
static int has_sha_instructions(void) {
  unsigned a, b, c, d;
  return __get_cpuid_count(7, 0, &a, &b, &c, &d) && (b & bit_SHA);
}

static void print_openssl(void) {
  if (openssl_version() == NULL)
    printf("- OpenSSL: its headers are not here, and its column says so\n");
  else
    printf("- %s; it uses the processor's SHA instructions: %s\n", openssl_version(),
           has_sha_instructions() ? "yes" : "no");
}

/* With the word compare each job is run once, for its results alone. */
int main(int count, char **words) {
  int timed = count != 2 || strcmp(words[1], "compare") != 0;
  if (count == 2 && timed)
    return peer(words[1]);
  setvbuf(stdout, NULL, _IOLBF, 0);
  if (timed)
    print_openssl();
  else
    time_once();
  long_days();
  if (timed)
    peers();
  short_days();
  reading();
  searching();
  growth();
  if (timed)
    print_targets();
  return 0;
}

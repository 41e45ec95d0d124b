/* One day of 16 MiB, hashed by the library and by others, each in a process of its own. */
#include "calls.h"
#include "peers.h"
#include "report.h"
#include "sha256.h"

#include <fcntl.h>
#include <stdio.h>
#include <stdlib.h>
#include <string.h>
#include <sys/resource.h>
#include <sys/wait.h>
#include <unistd.h>

#define BYTES (1u << 24)
#define TIMES 4
#define ROUNDS 5

/* The bit of the processor's SHA instructions in OpenSSL's OPENSSL_ia32cap. */
#define WITHOUT_SHA ":~0x20000000"

static struct ledger day;

static void seal_day(void) {
  struct books books = make_books(1, 1, day);
  for (int i = 0; i < TIMES; i++)
    seal_job(&books);
}

static void hash_by(blocks_function *blocks) {
  uint8_t out[32];
  for (int i = 0; i < TIMES; i++)
    digest(blocks, 0, day.bytes, BYTES, out);
}

static void plain(void) { hash_by(plain_blocks); }
static void unrolled(void) { hash_by(unrolled_blocks); }

static void openssl(void) {
  uint8_t out[32];
  for (int i = 0; i < TIMES; i++)
    require(openssl_digest(0, day.bytes, BYTES, out), "OpenSSL failed");
}

/* OpenSSL reads the variable when it is loaded, so the program is run anew. */
static void openssl_without(void) {
  setenv("OPENSSL_ia32cap", WITHOUT_SHA, 1);
  execl("/proc/self/exe", "bench", PEER_OPENSSL, (char *)NULL);
  _exit(1);
}

static char path[] = "/tmp/bench-day-XXXXXX";

static void sha256sum(void) {
  int null = open("/dev/null", O_WRONLY);
  dup2(null, 1);
  execlp("sha256sum", "sha256sum", path, path, path, path, (char *)NULL);
  _exit(1);
}

static void write_day(void) {
  int file = mkstemp(path);
  require(file >= 0 && write(file, day.bytes, BYTES) == (ssize_t)BYTES && close(file) == 0, "no room for 16 MiB in /tmp");
}

static double seconds(struct timeval t) { return (double)t.tv_sec + 1e-6 * (double)t.tv_usec; }

/* The processor's seconds of a process that runs the work. */
static double time_of(void (*work)(void)) {
  struct rusage used;
  int status;
  fflush(stdout);
  pid_t child = fork();
  require(child >= 0, "no process");
  if (child == 0) {
    work();
    _exit(0);
  }
  require(wait4(child, &status, 0, &used) == child && status == 0, "a peer failed");
  return seconds(used.ru_utime) + seconds(used.ru_stime);
}

struct peer {
  const char *name;
  void (*work)(void);
  double least;
};

void peers(void) {
  struct peer all[] = {{"plain C", plain, 0},
                       {"the library, sealing", seal_day, 0},
                       {"unrolled C", unrolled, 0},
                       {"`sha256sum`", sha256sum, 0},
                       {"OpenSSL without SHA instructions", openssl_without, 0},
                       {"OpenSSL", openssl, 0}};
  int count = openssl_version() != NULL ? 6 : 4;
  day = make_ledger(1, BYTES);
  write_day();
  for (int round = 0; round < ROUNDS; round++)
    for (int i = 0; i < count; i++) {
      double t = time_of(all[i].work);
      if (round == 0 || t < all[i].least)
        all[i].least = t;
    }
  unlink(path);
  printf("\n### Peers\n\nThroughput over a day of 16 MiB, plain C = 1; seconds of the processor, each in a process of its "
         "own.\n\n| who | throughput |\n|---|---|\n");
  for (int i = 0; i < count; i++)
    printf("| %s | %.2f |\n", all[i].name, all[0].least / all[i].least);
  drop_ledger(&day);
}

int peer(const char *name) {
  if (strcmp(name, PEER_OPENSSL) != 0)
    return 1;
  day = make_ledger(1, BYTES);
  openssl();
  return 0;
}

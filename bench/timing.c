#include "timing.h"
#include "report.h"

#include <time.h>

#define ROUNDS_LEAST 8
#define JOBS_LIMIT 16

static double clock_seconds(clockid_t clock) {
  struct timespec t;
  clock_gettime(clock, &t);
  return (double)t.tv_sec + 1e-9 * (double)t.tv_nsec;
}

/* One turn, by two clocks. On some virtual machines the processor's own clock now and then stands still for a turn, or
 * jumps; and a turn in which the job was put aside has cold caches. In both the clocks differ. */
struct turn {
  double processor;
  double elapsed;
};

static struct turn turn_of(const struct job *job) {
  double start = clock_seconds(CLOCK_MONOTONIC), processor = clock_seconds(CLOCK_THREAD_CPUTIME_ID);
  for (int i = 0; i < job->times; i++)
    job->run(job->arg);
  processor = clock_seconds(CLOCK_THREAD_CPUTIME_ID) - processor;
  return (struct turn){processor / job->times, (clock_seconds(CLOCK_MONOTONIC) - start) / job->times};
}

static int undisturbed(struct turn t) {
  return t.processor > 0.9 * t.elapsed && t.processor <= t.elapsed * 1.01;
}

static int once;

void time_once(void) { once = 1; }

static int goes_on(int round, double end) {
  return once ? round == 0 : round < ROUNDS_LEAST || clock_seconds(CLOCK_MONOTONIC) < end;
}

static void keep_least(double t, double *least) {
  if (t > 0 && (*least == 0 || t < *least))
    *least = t;
}

void least_times(const struct job *jobs, int count, double seconds, double *least) {
  double any[JOBS_LIMIT] = {0}, end = clock_seconds(CLOCK_MONOTONIC) + seconds;
  require(count <= JOBS_LIMIT, "too many jobs");
  for (int j = 0; j < count; j++)
    least[j] = 0;
  for (int round = 0; goes_on(round, end); round++)
    for (int j = 0; j < count; j++) {
      struct turn t = turn_of(&jobs[j]);
      if (undisturbed(t))
        keep_least(t.processor, &least[j]);
      keep_least(t.elapsed, &any[j]);
    }
  for (int j = 0; j < count; j++)
    if (least[j] == 0)
      least[j] = any[j];
}

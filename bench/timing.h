/* Times of jobs that are run by turns. */
#ifndef TIMING_H
#define TIMING_H

struct job {
  void (*run)(void *arg);
  void *arg;
  int times; /* runs in a turn */
};

/* Runs the jobs by turns for some seconds, eight rounds at least. Gives each job's least time of one run, in seconds of
 * the processor: what other programs take is not in it. Turns that were disturbed do not count; where all were, the
 * least time by the clock is taken. */
void least_times(const struct job *jobs, int count, double seconds, double *least);

/* From here on each job is run once: its results are compared, and its time says nothing. */
void time_once(void);

#endif

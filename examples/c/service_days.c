/* A service that runs once a day, and that may be stopped at any step.
 *
 *   service_days open FOLDER           makes the service
 *   service_days close FOLDER K TEXT   closes day K with TEXT; a repeat does nothing
 *   service_days status FOLDER         says where it stands
 *   service_days check FOLDER          rehashes the season's days against its book and lists those that may be altered
 *
 * FOLDER holds `book` (the values, to be given to the notary), a file `day-K` for each closed day, and `state`: the
 * service's record, the book's digest, and a checksum over these. The layout is the tree, N 1: each day is
 * told apart.
 *
 * A season has 65,536 days and a book of its own: those of season T from 1 on are `book-T` and `day-T-K`. When day 65,536 is
 * closed, the next close is that of day 1 of the next season; until then day 65,536 can be repeated. The season that the
 * record has after a close says whose book its values belong to.
 *
 * A close has one commit: the new `state` takes the place of the old one by a rename. What it says is flushed to disk
 * before, and goes beyond what the old one says: a run that is stopped leaves the service before or after the close, and
 * the next run writes over the rest. Exit status: 0 done or clean, 1 altered, 2 refused, 3 a fault; nothing is written then.
 *
 * A state of version 0.8 has a record of 724 bytes, without the season. It goes on: four zero bytes are appended, season 0.
 * A state of a version before 0.8.0 has a shorter record, whose chains start otherwise. It is named, and its days are closed
 * again in a new folder.
 */
#define _DEFAULT_SOURCE
#include <dirent.h>
#include <errno.h>
#include <fcntl.h>
#include <stdio.h>
#include <stdlib.h>
#include <string.h>
#include <sys/file.h>
#include <sys/stat.h>
#include <unistd.h>
#include "daybook.h"

enum { N = 1, F = 1, DAY_BYTES = 4096, BOOK_BYTES = DAYBOOK_BOOK_LIMIT, VALUES = BOOK_BYTES / DAYBOOK_VALUE };

/* `state`: record, digest of the book, digest of all before. */
enum { DIGEST_AT = DAYBOOK_RECORD, SUM_AT = DIGEST_AT + DAYBOOK_VALUE, STATE_BYTES = SUM_AT + DAYBOOK_VALUE };

/* The same in version 0.8, when a record had no season; and before, when it had no start. */
enum { SEASON_AT = 724, UNNUMBERED_BYTES = SEASON_AT + 2 * DAYBOOK_VALUE };
enum { EARLIER_RECORD = 692, EARLIER_BYTES = EARLIER_RECORD + 2 * DAYBOOK_VALUE };

static void stop(const char *what, const char *name) {
  fprintf(stderr, "service_days: %s%s\n", what, name);
  exit(3);
}

static void refused(uint32_t number) {
  fprintf(stderr, "service_days: refused with %u: %s\n", number, daybook_refusal_text(number));
  exit(2);
}

/* The values that the book of a record has. */
static uint32_t values_of(const uint8_t *record) {
  uint32_t values = 0, number = daybook_record_values(record, &values);
  if (number) refused(number);
  return values;
}

/* The digest of a day of these bytes: a check of one day writes it. */
static void digest(const uint8_t *bytes, uint32_t size, uint8_t out[DAYBOOK_VALUE]) {
  uint8_t book[DAYBOOK_VALUE] = {0}, outcome[1];
  uint32_t number = daybook_check(DAYBOOK_BLACK, 1, 1, 1, bytes, size, &size, 1, book, sizeof book, out, DAYBOOK_VALUE, outcome, 1);
  if (number) refused(number);
}

/* The bytes of a file, at most size of them; -1 if there is no such file. */
static long load(int folder, const char *name, uint8_t *bytes, size_t size) {
  int file = openat(folder, name, O_RDONLY | O_CLOEXEC);
  if (file < 0 && errno == ENOENT) return -1;
  if (file < 0) stop("cannot read ", name);
  size_t count = 0;
  for (;;) {
    uint8_t more;
    ssize_t part = count < size ? read(file, bytes + count, size - count) : read(file, &more, 1);
    if (part < 0 || (part > 0 && count == size)) stop("cannot be read or is too long: ", name);
    if (part == 0) break;
    count += (size_t)part;
  }
  close(file);
  return (long)count;
}

/* Writes the bytes behind the first `at` of a file, which end it then, and flushes them to disk. */
static void save(int folder, const char *name, uint32_t at, const uint8_t *bytes, size_t size) {
  int file = openat(folder, name, O_WRONLY | O_CREAT | O_CLOEXEC, 0666);
  if (file < 0 || ftruncate(file, at) || lseek(file, at, SEEK_SET) < 0) stop("cannot write ", name);
  while (size) {
    ssize_t part = write(file, bytes, size);
    if (part <= 0) stop("cannot write ", name);
    bytes += part;
    size -= (size_t)part;
  }
  if (fsync(file) || close(file)) stop("cannot write ", name);
}

static void sync_folder(int folder) {
  if (fsync(folder)) stop("cannot flush the folder: repeat the command", "");
}

/* The folder, locked against other runs until this one ends. */
static int locked(const char *name) {
  int folder = open(name, O_RDONLY | O_DIRECTORY | O_CLOEXEC);
  if (folder < 0) stop("there is no folder ", name);
  if (flock(folder, LOCK_EX | LOCK_NB)) stop("another run uses ", name);
  return folder;
}

/* Whether these bytes end with the digest of those before. */
static int summed(const uint8_t *bytes, uint32_t size) {
  uint8_t sum[DAYBOOK_VALUE];
  digest(bytes, size - DAYBOOK_VALUE, sum);
  return !memcmp(sum, bytes + size - DAYBOOK_VALUE, sizeof sum);
}

/* Whether a record is of this layout: its numbers, and its chains' start, which is behind what it had before. */
static int own_layout(const uint8_t *record) {
  uint8_t fresh[DAYBOOK_RECORD];
  return !daybook_open(DAYBOOK_TREE, N, F, fresh) && !memcmp(record, fresh, 12) &&
         !memcmp(record + EARLIER_RECORD, fresh + EARLIER_RECORD, SEASON_AT - EARLIER_RECORD);
}

/* The names of a season's files. Those of season 0 have no number. */
static const char *book_name(uint32_t season) {
  static char name[32];
  if (!season) return "book";
  snprintf(name, sizeof name, "book-%u", season);
  return name;
}

static const char *day_name(uint32_t season, uint32_t day) {
  static char name[32];
  if (!season) snprintf(name, sizeof name, "day-%u", day);
  else snprintf(name, sizeof name, "day-%u-%u", season, day);
  return name;
}

/* A state of version 0.8 as one of now: season 0 behind its record. */
static void number_season(uint8_t *state) {
  memmove(state + DIGEST_AT, state + SEASON_AT, UNNUMBERED_BYTES - SEASON_AT);
  memset(state + SEASON_AT, 0, DAYBOOK_RECORD - SEASON_AT);
}

/* The state of the last commit, with the book beside it tested. Bytes of the book past it are of a stopped run. */
static void load_state(int folder, uint8_t *state, uint8_t *book) {
  uint8_t sum[DAYBOOK_VALUE];
  long size = load(folder, "state", state, STATE_BYTES);
  if (size < 0) stop("there is no state: it is missing, or the service was not opened", "");
  if (size == EARLIER_BYTES && summed(state, EARLIER_BYTES))
    stop("this is the record of an earlier version, of 692 bytes: seal its days again", "");
  int unnumbered = size == UNNUMBERED_BYTES;
  if ((!unnumbered && size != STATE_BYTES) || !summed(state, (uint32_t)size)) stop("the state is not whole", "");
  if (unnumbered) number_season(state);
  if (!own_layout(state)) stop("the state is of another layout", "");
  uint32_t length = values_of(state) * DAYBOOK_VALUE;
  const char *name = book_name(daybook_record_season(state));
  if (load(folder, name, book, BOOK_BYTES + DAYBOOK_PART) < (long)length) stop("it is missing or too short: ", name);
  digest(book, length, sum);
  if (memcmp(sum, state + DIGEST_AT, sizeof sum)) stop("the book does not fit the state", "");
}

/* The commit. */
static void save_state(int folder, uint8_t *state, const uint8_t *book) {
  digest(book, values_of(state) * DAYBOOK_VALUE, state + DIGEST_AT);
  digest(state, SUM_AT, state + SUM_AT);
  save(folder, "state.new", 0, state, STATE_BYTES);
  if (renameat(folder, "state.new", folder, "state")) stop("cannot write ", "state");
  sync_folder(folder);
}

static uint8_t state[STATE_BYTES], book[BOOK_BYTES + DAYBOOK_PART];

/* A folder without a state can be made a service only if nothing else is in it but what a stopped open leaves. */
static void test_unused(const char *name) {
  DIR *entries = opendir(name);
  if (!entries) stop("cannot read ", name);
  for (struct dirent *entry; (entry = readdir(entries));) {
    const char *known[] = {".", "..", "book", "state.new"};
    int own = 0;
    for (int i = 0; i < 4; i++) own |= !strcmp(entry->d_name, known[i]);
    if (!own) stop("the folder has no state and is not empty: ", entry->d_name);
  }
  closedir(entries);
}

static int open_service(const char *name) {
  uint8_t old[STATE_BYTES + 1];
  if (mkdir(name, 0777) && errno != EEXIST) stop("cannot make ", name);
  int folder = locked(name), above = openat(folder, "..", O_RDONLY | O_DIRECTORY | O_CLOEXEC);
  int there = load(folder, "state", old, sizeof old) >= 0;
  if (there) {
    load_state(folder, state, book);
    if (daybook_record_days(state) || daybook_record_season(state)) stop("it has days already: ", name);
  } else {
    test_unused(name);
    if (load(folder, "book", book, sizeof book) > 0) stop("there is a book, and no state", "");
    uint32_t number = daybook_open(DAYBOOK_TREE, N, F, state);
    if (number) refused(number);
    save(folder, "book", 0, book, 0);
    sync_folder(folder);
    save_state(folder, state, book);
  }
  sync_folder(folder);
  if (above < 0) stop("cannot open the folder above ", name);
  sync_folder(above);
  printf(there ? "the service is open already\n" : "the service is open\n");
  return 0;
}

static int close_day(const char *name, uint32_t day, const char *text) {
  uint8_t part[DAYBOOK_PART], old[DAY_BYTES];
  uint32_t values = 0, blocks = 0, number;
  size_t size = strlen(text);
  int folder = locked(name);
  load_state(folder, state, book);
  sync_folder(folder); /* the state that was found is on disk: a stopped run may not have come to that */
  uint32_t season = daybook_record_season(state), closed = daybook_record_days(state);
  uint32_t length = values_of(state) * DAYBOOK_VALUE;
  /* behind a full season day 1 is that of the next one; every other day is one of the full season */
  int turns = closed == DAYBOOK_DAYS_LIMIT && season < DAYBOOK_LAST_SEASON;
  if (day >= 1 && day <= closed && !(turns && day == 1)) {
    const char *file = day_name(season, day);
    if (load(folder, file, old, sizeof old) != (long)size || memcmp(old, text, size)) stop("closed with other bytes: ", file);
    printf("day %u is closed already\n", day);
    return 0;
  }
  if (day != (turns ? 1 : closed + 1)) stop("not the next day: ", day_name(season, day));
  if (size > DAY_BYTES) stop("more than this example holds", "");
  if ((number = daybook_add(state, (const uint8_t *)text, size, &blocks))) refused(number);
  if ((number = daybook_close(state, part, sizeof part, &values, &blocks))) refused(number);
  /* the season after the close is the one whose book the values belong to: a new one begins at 0 */
  if (daybook_record_season(state) != season) length = 0;
  season = daybook_record_season(state);
  save(folder, day_name(season, day), 0, (const uint8_t *)text, size);
  save(folder, book_name(season), length, part, values * DAYBOOK_VALUE);
  sync_folder(folder); /* day-K is a new name, and so is the book of a new season */
  memcpy(book + length, part, values * DAYBOOK_VALUE);
  save_state(folder, state, book);
  printf("day %u is closed, %u values\n", day, values);
  return 0;
}

static int show(const char *name) {
  load_state(locked(name), state, book);
  printf("season %u: %u days, %u values\n", daybook_record_season(state), daybook_record_days(state), values_of(state));
  return 0;
}

static int check_days(const char *name) {
  static uint8_t work[DAYBOOK_DAYS_LIMIT * DAYBOOK_VALUE], outcomes[VALUES];
  static uint32_t ends[DAYBOOK_DAYS_LIMIT], list[DAYBOOK_DAYS_LIMIT], numbers[5];
  uint32_t number, end = 0;
  int folder = locked(name);
  load_state(folder, state, book);
  uint32_t season = daybook_record_season(state), d = daybook_record_days(state);
  uint8_t *ledger = malloc((size_t)(d + 1) * DAY_BYTES);
  if (!ledger) stop("no memory for the days", "");
  for (uint32_t i = 0; i < d; i++) {
    long size = load(folder, day_name(season, i + 1), ledger + end, DAY_BYTES);
    if (size < 0) stop("a day is missing: ", day_name(season, i + 1));
    ends[i] = end += (uint32_t)size;
  }
  if ((number = daybook_check(DAYBOOK_TREE, N, F, d, ledger, end, ends, d, book, values_of(state) * DAYBOOK_VALUE,
                              work, sizeof work, outcomes, sizeof outcomes))) refused(number);
  /* 0: no check has passed before, or it is not known */
  if ((number = daybook_read(DAYBOOK_TREE, N, F, d, 0, outcomes, sizeof outcomes, list, DAYBOOK_DAYS_LIMIT, numbers)))
    refused(number);
  if (!numbers[0]) printf("%u days, clean\n", d);
  for (uint32_t i = 0; i < numbers[0]; i++) printf("day %u may have been altered\n", list[i]);
  free(ledger);
  return numbers[0] ? 1 : 0;
}

int main(int count, char **words) {
  if (count == 3 && !strcmp(words[1], "open")) return open_service(words[2]);
  if (count == 5 && !strcmp(words[1], "close")) return close_day(words[2], (uint32_t)strtoul(words[3], NULL, 10), words[4]);
  if (count == 3 && !strcmp(words[1], "status")) return show(words[2]);
  if (count == 3 && !strcmp(words[1], "check")) return check_days(words[2]);
  stop("usage: service_days open FOLDER | close FOLDER K TEXT | status FOLDER | check FOLDER", "");
}

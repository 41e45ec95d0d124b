/* Day books: seal, check, read. Calls of the proved library libdaybook_c.a (x86-64).
 *
 * Each call returns 0, or the number of the refusal. A refused call leaves every array as it was,
 * byte for byte, except that a refused daybook_open writes a record of zeros.
 *
 * What the caller must keep, since C cannot be made to keep it:
 *  - each pointer is valid for its length (given in elements, not bytes), for reading, and for
 *    writing where it is not const; uint32_t and uint64_t arrays are aligned as C aligns them;
 *  - no array that a call writes overlaps another array of that call;
 *  - nothing else writes to these arrays until the call returns.
 * A pointer of length 0 may be null. A record may be anything: every array of DAYBOOK_RECORD bytes
 * is one, and one that the service cannot go on from is refused with 6.
 */
#ifndef DAYBOOK_H
#define DAYBOOK_H

#include <stddef.h>
#include <stdint.h>

#ifdef __cplusplus
extern "C" {
#endif

/* The version of this header: 10000 * major + 100 * minor + patch, and as text. */
#define DAYBOOK_VERSION 900
#define DAYBOOK_VERSION_TEXT "0.9.0"

/* The bytes of a record. To be kept on disk as it is: no padding, the same on every machine.
 * Numbers are 32 bits, little-endian:
 *   offset   0  scheme
 *            4  N, days in a notarisation interval
 *            8  F, intervals per validation
 *           12  days closed, in the season
 *           16  bytes in the open day
 *           20  8 words: hash of the open day
 *           52  8 words: the black chain
 *           84  17 times 8 words: tile chains c(0) .. c(8), or tree levels 0 .. 16
 *          628  64 bytes: block of the open day
 *          692  8 words: the start of a chain, worked out by daybook_open
 *          724  season
 * A record of version 0.8 has 724 bytes and no season. It goes on: four zero bytes are appended, and it
 * is a record of season 0. Before version 0.8.0 a record had 692 bytes and no start: such a one cannot
 * be gone on with, and its days are sealed again.
 */
#define DAYBOOK_RECORD 728

#define DAYBOOK_VALUE 32            /* bytes of a value, and of a day's digest */
#define DAYBOOK_PART 544            /* bytes that are enough for any daybook_close: 17 values */
#define DAYBOOK_DAY_LIMIT 16777216  /* bytes that a day may hold */
#define DAYBOOK_DAYS_LIMIT 65536    /* days in a season, and so in a book */
#define DAYBOOK_LAST_SEASON 65535   /* seasons count from 0 */
#define DAYBOOK_BOOK_LIMIT 6290880  /* bytes that are enough for any book: scheme 3, N 1, 65,536 days */

/* The schemes; the kinds of chains have the same numbers. */
enum daybook_scheme {
  DAYBOOK_BLACK = 1,
  DAYBOOK_TILE = 2,
  DAYBOOK_TREE = 3
};

/* Until version 0.8 refusal 5 was DAYBOOK_BOOK_FULL, and said that 65,536 days were closed. A program that
 * opened a new book when it met 5 is to be looked at: the service now opens the next season by itself, and
 * the values of its next close belong to a new book (daybook_close). So the old name is gone. */
enum daybook_refusal {
  DAYBOOK_DONE = 0,
  DAYBOOK_BAD_SCHEME = 1,        /* scheme is not 1 to 3 */
  DAYBOOK_BAD_N = 2,             /* N is not a power of two from 1 to 256 */
  DAYBOOK_BAD_F = 3,             /* F is not 1 to 64, or not 1 under scheme 3 */
  DAYBOOK_DAY_TOO_LONG = 4,      /* the piece would take the day over its limit */
  DAYBOOK_LAST_SEASON_FULL = 5,  /* 65,536 days are closed in season 65,535; no other season gives it */
  DAYBOOK_BAD_RECORD = 6,        /* scheme, N or F not allowed; days, bytes or season over their limit; or
                                    bytes in the open day beside 65,536 days closed */
  DAYBOOK_BAD_D = 7,             /* D is not 1 to 65,536 and a multiple of F * N */
  DAYBOOK_SHORT_BUFFER = 8,      /* an array to be written is shorter than its need */
  DAYBOOK_FEW_ENDS = 9,          /* fewer than D ends */
  DAYBOOK_BAD_END = 10,          /* an end below the one before, beyond the ledger, or a day over its limit */
  DAYBOOK_SHORT_BOOK = 11,       /* fewer than 32 bytes a value */
  DAYBOOK_FEW_OUTCOMES = 12,     /* fewer outcomes than values */
  DAYBOOK_BAD_OUTCOME = 13,      /* an outcome is neither 0 nor 1 */
  DAYBOOK_IMPOSSIBLE_TABLE = 14, /* no set of changed days gives the outcomes */
  DAYBOOK_FEW_LENGTHS = 16,      /* fewer than D lengths of days */
  DAYBOOK_LONG_DAY = 17,         /* one of the first D lengths is over the day's limit */
  DAYBOOK_NOT_IN_BOOK = 18,      /* a position not below the number of values, or no chain of the book */
  DAYBOOK_BAD_PASSED = 19,       /* the day of the last passed check is not below D, or no multiple of N */
  DAYBOOK_NOT_TREE = 20,         /* a search of a table whose scheme is not 3 */
  DAYBOOK_NOT_COUNTED = 21       /* tile counts of N over 64, or of k that is 0 or over 3 */
};

/* What a refusal says, in words. */
static inline const char *daybook_refusal_text(uint32_t number) {
  switch (number) {
  case DAYBOOK_DONE: return "not refused";
  case DAYBOOK_BAD_SCHEME: return "the scheme is not 1, 2 or 3";
  case DAYBOOK_BAD_N: return "N is not a power of two from 1 to 256";
  case DAYBOOK_BAD_F: return "F is not from 1 to 64, or not 1 under scheme 3";
  case DAYBOOK_DAY_TOO_LONG: return "the piece would take the day over 16,777,216 bytes";
  case DAYBOOK_LAST_SEASON_FULL: return "the last season, 65,535, is full";
  case DAYBOOK_BAD_RECORD:
    return "the record's scheme, N, F, days, bytes or season is not allowed, or it has bytes beside 65,536 days";
  case DAYBOOK_BAD_D: return "D is not from 1 to 65,536 and a multiple of F times N";
  case DAYBOOK_SHORT_BUFFER: return "a buffer to be written is shorter than its need";
  case DAYBOOK_FEW_ENDS: return "there are fewer than D ends";
  case DAYBOOK_BAD_END:
    return "an end is below the one before, beyond the ledger, or makes a day over 16,777,216 bytes";
  case DAYBOOK_SHORT_BOOK: return "the book has fewer than 32 bytes for each value";
  case DAYBOOK_FEW_OUTCOMES: return "there are fewer outcomes than values";
  case DAYBOOK_BAD_OUTCOME: return "an outcome is neither 0 nor 1";
  case DAYBOOK_IMPOSSIBLE_TABLE: return "no set of changed days gives these outcomes";
  case DAYBOOK_FEW_LENGTHS: return "there are fewer than D lengths of days";
  case DAYBOOK_LONG_DAY: return "the length of a day is over 16,777,216 bytes";
  case DAYBOOK_NOT_IN_BOOK: return "the book has no such position or chain";
  case DAYBOOK_BAD_PASSED: return "the day of the last passed check is not below D, or N does not divide it";
  case DAYBOOK_NOT_TREE: return "the scheme is not 3, and only tables of the tree are searched";
  case DAYBOOK_NOT_COUNTED: return "N is over 64, or k is not 1, 2 or 3";
  default: return "a number that is no refusal";
  }
}

/* Open a service at day 1 of season 0: writes its record. Refusals 1 2 3, in that order. */
uint32_t daybook_open(uint32_t scheme, uint32_t n, uint32_t f, uint8_t record[DAYBOOK_RECORD]);

/* Add a piece to the open day; to blocks[0] the SHA-256 blocks that this compressed: those that the
 * piece filled.
 * The turn: where the season is full (65,536 days closed) and not the last, the piece goes to day 1 of the
 * next season, whose chains are fresh; a piece of length 0 opens that season too. The season of the record
 * after the call (daybook_record_season) tells. A refused call leaves the record of the full season.
 * Refusals 6 5 4. */
uint32_t daybook_add(uint8_t record[DAYBOOK_RECORD], const uint8_t *piece, size_t piece_len,
                     uint32_t blocks[1]);

/* Close the open day: writes its values to the front of part, 32 bytes each, their number to
 * values[0], and to blocks[0] the SHA-256 blocks that this compressed; the rest of part stays.
 * The values belong to the book of the season that the record has after the call: each season has a book
 * of its own. Where the season was full and not the last, day 1 of the next one is closed, an empty day.
 * Refusals 6 5 8. */
uint32_t daybook_close(uint8_t record[DAYBOOK_RECORD], uint8_t *part, size_t part_len,
                       uint32_t values[1], uint32_t blocks[1]);

/* Seal a ledger of D days: writes its book to the front of book; the rest stays. ends[d - 1] is where
 * day d ends in the ledger; day 1 starts at 0, every other day where the one before ends.
 * Refusals 1 2 3 7 9 10 8. */
uint32_t daybook_seal(uint32_t scheme, uint32_t n, uint32_t f, uint32_t d,
                      const uint8_t *ledger, size_t ledger_len,
                      const uint32_t *ends, size_t ends_len,
                      uint8_t *book, size_t book_len);

/* Check a ledger against a book: writes the D day digests to the front of work, 32 bytes each, and an
 * outcome for each value, in book order, to the front of outcomes: 1 pass, 0 fail; the rest stays.
 * Refusals 1 2 3 7 9 10 11 8. */
uint32_t daybook_check(uint32_t scheme, uint32_t n, uint32_t f, uint32_t d,
                       const uint8_t *ledger, size_t ledger_len,
                       const uint32_t *ends, size_t ends_len,
                       const uint8_t *book, size_t book_len,
                       uint8_t *work, size_t work_len,
                       uint8_t *outcomes, size_t outcomes_len);

/* Read a table of outcomes: writes the days that may have been altered, ascending, to the front of list
 * (which must have D places, whatever it lists); the rest stays. numbers: listed, first listed, low,
 * high, last good. Listed 0 says clean.
 * passed is the last day at which a check really passed, 0 if none did: below D, and a multiple of N, not
 * necessarily of F * N. Low is the greater of passed and the first listed day less 1, and nothing else
 * goes by it. D - F * N, which is always allowed, supposes that the validation before was made and passed.
 * Refusals 1 2 3 7 19 8 12 13 14. */
uint32_t daybook_read(uint32_t scheme, uint32_t n, uint32_t f, uint32_t d, uint32_t passed,
                      const uint8_t *outcomes, size_t outcomes_len,
                      uint32_t *list, size_t list_len,
                      uint32_t numbers[5]);

/* Search a table of scheme 3 for its altered days, looking at no more than limit chains. The largest
 * chains over the D days are looked at from left to right; when one fails, its left half and then its
 * right half are dealt with fully before whatever follows. Writes the altered days found, ascending, to
 * the front of list (which must have D places, whatever is found); the rest stays. progress: chains
 * looked at, days found, days undecided. Undecided are the days under chains that would come next: the
 * last ones up to D. With none undecided the list is that of daybook_read; else the number of altered
 * days lies between found and found + undecided. A limit of 2 * D is never reached.
 * Refusals 1 2 3 7 8 12 13 14 20. */
uint32_t daybook_search(uint32_t scheme, uint32_t n, uint32_t f, uint32_t d,
                        const uint8_t *outcomes, size_t outcomes_len, uint32_t limit,
                        uint32_t *list, size_t list_len,
                        uint32_t progress[3]);

/* The 32 bits at an offset of a record. */
static inline uint32_t daybook_record_number(const uint8_t record[DAYBOOK_RECORD], size_t offset) {
  return (uint32_t)record[offset] | (uint32_t)record[offset + 1] << 8 |
         (uint32_t)record[offset + 2] << 16 | (uint32_t)record[offset + 3] << 24;
}

/* The season that a record names. That of a full season stays until the next accepted add or close. */
static inline uint32_t daybook_record_season(const uint8_t record[DAYBOOK_RECORD]) {
  return daybook_record_number(record, 724);
}

/* The days closed that a record names, in its season. */
static inline uint32_t daybook_record_days(const uint8_t record[DAYBOOK_RECORD]) {
  return daybook_record_number(record, 12);
}

/* The bytes in the open day that a record names. */
static inline uint32_t daybook_record_open_bytes(const uint8_t record[DAYBOOK_RECORD]) {
  return daybook_record_number(record, 16);
}

/* The number of values in the book of D days, to values[0]. Refusals 1 2 3 7. */
uint32_t daybook_values(uint32_t scheme, uint32_t n, uint32_t f, uint32_t d, uint32_t values[1]);

/* The number of values of the days that a record has closed in its season, to values[0], whether or not
 * they make whole intervals: what the season's closes have written so far. Refusal 6. */
uint32_t daybook_record_values(const uint8_t record[DAYBOOK_RECORD], uint32_t values[1]);

/* Size a season before it is sealed, from the lengths of its days in bytes: to sizes[0] the values of
 * the book, to sizes[1] its bytes, to sizes[2] the SHA-256 blocks that the adds and closes of days 1
 * to D compress in all. Nothing is hashed, and lengths past D are not read.
 * Refusals 1 2 3 7 16 17. */
uint32_t daybook_forecast(uint32_t scheme, uint32_t n, uint32_t f, uint32_t d,
                          const uint32_t *lengths, size_t lengths_len, uint64_t sizes[3]);

/* The chain at a position of the book of D days, counted from 0: to chain[0] its kind (DAYBOOK_BLACK,
 * DAYBOOK_TILE or DAYBOOK_TREE), to chain[1] its index (i of the tile chain c(i), the level of the tree,
 * 0 for black), to chain[2] and chain[3] the first and the last day that it covers. A tile chain from
 * c(1) on ends before its tile does, and from c(2) on it does not cover all days between the two.
 * Refusals 1 2 3 7 18. */
uint32_t daybook_chain_at(uint32_t scheme, uint32_t n, uint32_t f, uint32_t d, uint32_t position,
                          uint32_t chain[4]);

/* The position of the chain that has these four numbers, to position[0]. It undoes daybook_chain_at.
 * All four must agree; a value that scheme 3 stores once is in the book as tree only.
 * Refusals 1 2 3 7 18. */
uint32_t daybook_position_of(uint32_t scheme, uint32_t n, uint32_t f, uint32_t d,
                             const uint32_t chain[4], uint32_t position[1]);

/* How vague one tile of N days is under scheme 2: to counts[0] how many sets of k different days it has,
 * to counts[1] how many days daybook_read lists for them, added up over all these sets. Where N is below
 * k both are 0. Refusals 2 21. */
uint32_t daybook_tile_counts(uint32_t n, uint32_t k, uint32_t counts[2]);

/* The version of the archive, as DAYBOOK_VERSION is that of this header. */
uint32_t daybook_version(void);

#ifdef __cplusplus
}
#endif

#endif

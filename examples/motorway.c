/* Packs a job of edition 3, in C99 or C++, and writes it to standard output: the moment 7.5 m from the abutment of the longer span in
 * a beam continuous over spans of 20 m and 15 m, in cm, of a girder near the median of a motorway deck, whose carriageways are 11 m and
 * 7.6 m wide.
 *
 *   motorway >JOB
 *
 * docs/HOST.md has the commands that build it; `host JOB` prints the job's account.
 */
#include <stdio.h>

#include "hnho.h"

enum {
  PIECES = 14,
  SPACING = 40, /* of the transverse ordinates, in cm */
  FIRST_WIDTH = 1100, /* in cm: three lanes */
  SECOND_WIDTH = 760, /* two lanes */
  FIRST_ORDINATES = (FIRST_WIDTH + SPACING - 1) / SPACING + 1, /* M + 1, M being the width over the spacing, rounded up */
  SECOND_ORDINATES = (SECOND_WIDTH + SPACING - 1) / SPACING + 1,
  EFFECTS = 2,
  ROWS = 2,
  RECORDS = 4
};

static uint8_t job[HNHO_MOST_JOB_BYTES];
static size_t words;

/* Packs the job's next words. */
static void put(const int32_t *next, size_t count) {
  size_t i;
  for (i = 0; i < count; i++)
    hnho_put_word(job, words++, next[i]);
}

/* Packs an effect: its value in N.U, of two words, and its mark. */
static void put_effect(int64_t value, int32_t mark) {
  hnho_put_wide(job, words, value);
  words += 2;
  put(&mark, 1);
}

/* Thirteen words: h 25 dm; spans by sign, 20 m for greatest and (20 m + 15 m) / 2 for least. */
static void put_header(void) {
  static const int32_t header[HNHO_TWO_CARRIAGEWAYS_HEADER_WORDS] = {
    HNHO_EDITION_TWO_CARRIAGEWAYS, 25, PIECES, SPACING, FIRST_WIDTH, HNHO_DYNAMIC_SPANS, 200, EFFECTS, ROWS, RECORDS,
    175, 0, SECOND_WIDTH
  };
  put(header, HNHO_TWO_CARRIAGEWAYS_HEADER_WORDS);
}

/* The influence line, within 500 of 0: from an abutment to the pier and on to the other, a left and a right ordinate a piece. */
static void put_line(void) {
  static const int32_t stations[PIECES + 1] = {0, 130, 262, 400, 295, 200, 117, 50, 0, -31, -45, -45, -36, -20, 0};
  int i;
  for (i = 0; i < PIECES; i++)
    put(stations + i, 2);
}

/* The transverse lines, each from its own carriageway's left kerb. */
static void put_transverse(void) {
  static const int32_t first[FIRST_ORDINATES] = {
    -9, -4, 2, 9, 18, 28, 40, 53, 68, 86, 105, 126, 148, 173, 199, 227, 255, 285, 314, 344, 372, 398, 421, 440, 453, 460, 458, 447, 431
  };
  static const int32_t second[SECOND_ORDINATES] = {
    173, 148, 126, 105, 86, 68, 53, 40, 28, 18, 9, 2, -4, -9, -13, -15, -17, -19, -20, -20
  };
  put(first, FIRST_ORDINATES);
  put(second, SECOND_ORDINATES);
}

/* The effects: dead load, always present, and superimposed dead load. */
static void put_effects(void) {
  put_effect(INT64_C(127700000), HNHO_MARK_ALWAYS);
  put_effect(INT64_C(38310000), HNHO_MARK_OPTIONAL);
}

/* A service row with normal traffic and an ultimate row with overload, both loads on each. */
static void put_table(void) {
  static const int32_t rows[4 * ROWS] = {
    HNHO_ROW_SERVICE, HNHO_LIVE_NORMAL, 1350, 1,
    HNHO_ROW_ULTIMATE, HNHO_LIVE_OVERLOAD, 1500, 3
  };
  static const int32_t records[3 * RECORDS] = {
    1, 1000, 2,
    2, 1000, 0,
    1, 1200, 4,
    2, 1200, 0
  };
  put(rows, 4 * ROWS);
  put(records, 3 * RECORDS);
}

int main(void) {
  put_header();
  put_line();
  put_transverse();
  put_effects();
  put_table();
  if (fwrite(job, 4, words, stdout) != words || fflush(stdout) != 0) {
    fprintf(stderr, "motorway: the job cannot be written\n");
    return 1;
  }
  return 0;
}

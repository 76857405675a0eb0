/* Packs a job of edition 2, in C99 or C++, and writes it to standard output: the moment at the crown of a two-hinged arch of 100 m, in
 * cm, of one of two ribs, with dead load effects past the 1000000000 kN.cm that edition 1 holds.
 *
 *   arch >JOB
 *
 * docs/HOST.md has the commands that build it; `host JOB` prints the job's account.
 */
#include <stdio.h>

#include "hnho.h"

enum {
  PIECES = 20,
  EFFECTS = 4,
  ROWS = 3,
  RECORDS = 6
};

static uint8_t job[HNHO_MOST_JOB_BYTES];
static size_t words;

/* Packs the job's next words. */
static void put(const int32_t *next, size_t count) {
  size_t i;
  for (i = 0; i < count; i++)
    hnho_put_word(job, words++, next[i]);
}

/* Packs an effect: its value in N.U, of two words, and its mark. */
static void put_effect(int64_t value, int32_t mark) {
  hnho_put_wide(job, words, value);
  words += 2;
  put(&mark, 1);
}

/* Twelve words: h 50 dm, g 50 cm, W 900 cm, dynamic kind 1 with its factor in thousandths; the last two are 0. */
static void put_header(void) {
  static const int32_t header[HNHO_NEWTONS_HEADER_WORDS] = {
    HNHO_EDITION_NEWTONS, 50, PIECES, 50, 900, 1, 1109, EFFECTS, ROWS, RECORDS, 0, 0
  };
  put(header, HNHO_NEWTONS_HEADER_WORDS);
}

/* The influence line, from a springing to the crown and down again, a left and a right ordinate a piece. */
static void put_line(void) {
  static const int32_t half[PIECES / 2 + 1] = {0, -61, -113, -148, -160, -142, -88, 0, 140, 320, 547};
  int i;
  for (i = 0; i < PIECES / 2; i++)
    put(half + i, 2);
  for (i = PIECES / 2; i > 0; i--) {
    put(half + i, 1);
    put(half + i - 1, 1);
  }
}

/* The transverse line, from 950 thousandths at the left kerb down to 50. */
static void put_transverse(void) {
  int32_t ordinate;
  for (ordinate = 950; ordinate >= 50; ordinate -= 50)
    put(&ordinate, 1);
}

/* The effects: the dead load as on a simple span and its thrust's relief, always present; the arch's shortening, and braking. */
static void put_effects(void) {
  put_effect(INT64_C(1234567890123), HNHO_MARK_ALWAYS);
  put_effect(INT64_C(-1232098755432), HNHO_MARK_ALWAYS);
  put_effect(INT64_C(-4800000000), HNHO_MARK_OPTIONAL);
  put_effect(INT64_C(3000000000), HNHO_MARK_OPTIONAL);
}

/* A service row with normal traffic; ultimate rows with overload and without traffic. Rows 1 and 3 have records 1, 2 and 3, row 2 has
 * 4, 5, 6 and 3. */
static void put_table(void) {
  static const int32_t rows[4 * ROWS] = {
    HNHO_ROW_SERVICE, HNHO_LIVE_NORMAL, 1350, 1,
    HNHO_ROW_ULTIMATE, HNHO_LIVE_OVERLOAD, 1490, 4,
    HNHO_ROW_ULTIMATE, HNHO_LIVE_NONE, 0, 1
  };
  static const int32_t records[3 * RECORDS] = {
    1, 1000, 2,
    2, 1000, 3,
    3, 1000, 0,
    1, 1350, 5,
    2, 1350, 6,
    4, 1200, 3
  };
  put(rows, 4 * ROWS);
  put(records, 3 * RECORDS);
}

int main(void) {
  put_header();
  put_line();
  put_transverse();
  put_effects();
  put_table();
  if (fwrite(job, 4, words, stdout) != words || fflush(stdout) != 0) {
    fprintf(stderr, "arch: the job cannot be written\n");
    return 1;
  }
  return 0;
}

/* The edges of hnho_train: null pointers, odd lengths, short, exact and long buffers, every limit from inside and outside, every
 * refusal at its places and their order; small trains worked out by hand; and the header's reader. Every rating is held to a
 * small evaluator of stands: the stands shown give the values, and no stand at a station beats them.
 * Every buffer has guard bytes on both sides, or a page beside it that may not be touched; every byte that must keep its contents
 * is looked at.
 *
 *   train_edges
 *
 * Ends with status 1 and a message at the first failure.
 */
#define _DEFAULT_SOURCE
#define PROGRAM "train_edges"
#include "edges.h"

enum slice { LINE, TRAIN, REPORT, SLICES };
#define ALIGNED_SLICE TRAIN
#include "fences.h"

enum {
  OLD_REPORT = 0xc3, /* what the report buffer holds before a call */
  MANY_AXLES = 500,
  MANY_WORDS = 2002
};

static const size_t piece_lengths[] = {1, 2, 5, 10, 25, 50};
enum { PIECE_LENGTHS = sizeof piece_lengths / sizeof *piece_lengths };

/* The call to make. */
static struct {
  size_t h;
  size_t pieces;
  size_t line_bytes;
  int32_t ordinates[MANY_WORDS];
  size_t axles;
  struct hnho_axle train[MANY_AXLES];
  size_t mode;
  size_t report_bytes;
} the;

/* The rating of the last accepted call. */
static struct hnho_rating rating;

static void put_line(uint8_t *bytes) {
  size_t i;
  for (i = 0; i < the.line_bytes / 4; i++)
    hnho_put_word(bytes, i, the.ordinates[i]);
}

/* The line is as it was lent. */
static void expect_kept_line(struct buffer line) {
  struct buffer due = lend(line.n, 0);
  put_line(due.bytes);
  expect(line.n == 0 || memcmp(line.bytes, due.bytes, line.n) == 0, "the line changed");
  take_back(due, "");
}

static int64_t length_in_pieces(void) {
  return (int64_t)(the.train[the.axles - 1].at / the.h);
}

/* The ordinate just left or just right of a station; 0 off the line. */
static int64_t ordinate(int64_t station, int64_t side) {
  int64_t piece = side == HNHO_SIDE_LEFT ? station - 1 : station;
  if (piece < 0 || piece >= (int64_t)the.pieces)
    return 0;
  return the.ordinates[2 * piece + (side == HNHO_SIDE_LEFT)];
}

/* The effect of a stand for greatest, sign 1, or for least, sign -1. */
static int64_t effect(struct hnho_train_stand stand, int64_t sign) {
  int64_t sum = 0;
  size_t i;
  for (i = 0; i < the.axles; i++) {
    int64_t from_first = (int64_t)(the.train[i].at / the.h);
    int64_t from_leftmost = stand.way == HNHO_AS_GIVEN ? from_first : length_in_pieces() - from_first;
    int64_t part = the.train[i].load * ordinate(stand.station + from_leftmost, stand.side);
    if (the.mode == HNHO_ALL_AXLES || sign * part > 0)
      sum += part;
  }
  return sum;
}

/* The value is the furthest of all stands at stations, those wholly off the line among them, and the shown stand gives it.
 * Between stations the effect runs straight, since no piece has two signs. */
static void expect_worst(int64_t value, struct hnho_train_stand shown, int64_t sign, const char *what) {
  struct hnho_train_stand stand;
  expect(shown.way == HNHO_AS_GIVEN || shown.way == HNHO_TURNED, what);
  expect(shown.side == HNHO_SIDE_LEFT || shown.side == HNHO_SIDE_RIGHT, what);
  expect(shown.station >= -length_in_pieces() && shown.station <= (int64_t)the.pieces, what);
  expect(effect(shown, sign) == value, what);
  for (stand.way = 0; stand.way < 2; stand.way++)
    for (stand.side = 0; stand.side < 2; stand.side++)
      for (stand.station = -length_in_pieces() - 1; stand.station <= (int64_t)the.pieces + 1; stand.station++)
        expect(sign * effect(stand, sign) <= sign * value, what);
}

/* Makes the call on buffers of its own and looks at every byte. */
static void call(int number, uint64_t place) {
  struct buffer line = lend_slice(LINE, the.line_bytes, 0);
  struct buffer train = lend_slice(TRAIN, the.axles * sizeof *the.train, 0);
  struct buffer report = lend_slice(REPORT, the.report_bytes, OLD_REPORT);
  size_t written = report.n < HNHO_RATING_BYTES ? report.n : HNHO_RATING_BYTES;
  const struct hnho_axle *axles = (const struct hnho_axle *)(const void *)train.bytes;
  uint64_t result;
  put_line(line.bytes);
  if (train.n > 0)
    memcpy(train.bytes, the.train, train.n);
  result = hnho_train(the.h, the.pieces, line.bytes, line.n, axles, the.axles, the.mode, report.bytes, report.n);
  expect_result(result, number, place);
  expect_kept_line(line);
  expect(train.n == 0 || memcmp(train.bytes, the.train, train.n) == 0, "the train changed");
  expect(all_are(report.bytes, written, report.n, OLD_REPORT), "bytes past the report changed");
  if (result == 0) {
    hnho_read_rating(report.bytes, &rating);
    expect_worst(rating.greatest, rating.greatest_stand, 1, "greatest");
    expect_worst(rating.least, rating.least_stand, -1, "least");
    expect(rating.difference == rating.greatest - rating.least, "the difference");
  } else {
    expect(all_are(report.bytes, 0, written, 0), "a refusal's report is not zero");
  }
  take_back(line, "a byte beside the line changed");
  take_back(train, "a byte beside the train changed");
  take_back(report, "a byte beside the report buffer changed");
}

static void accepted(void) {
  call(HNHO_ACCEPTED, 0);
}

static void accepted_or(int lawful, int number, uint64_t place) {
  if (lawful)
    accepted();
  else
    call(number, place);
}

/* Accepted in this mode, with these values. */
static void rated(size_t mode, int64_t greatest, int64_t least) {
  the.mode = mode;
  accepted();
  expect(rating.greatest == greatest, "greatest by hand");
  expect(rating.least == least, "least by hand");
  expect(rating.difference == greatest - least, "the difference by hand");
}

/* The stand shown, where no other is as good. */
static void expect_shown(struct hnho_train_stand stand, int64_t way, int64_t side, int64_t station, const char *what) {
  expect(stand.way == way && stand.side == side && stand.station == station, what);
}

/* Sets up a call: a line's words, whole pieces of them, and a train; all axles count, and the report just fits. */
#define WORDS(...) (const int32_t[]){__VA_ARGS__}, sizeof((const int32_t[]){__VA_ARGS__}) / sizeof(int32_t)
#define AXLES(...) \
  (const struct hnho_axle[]){__VA_ARGS__}, sizeof((const struct hnho_axle[]){__VA_ARGS__}) / sizeof(struct hnho_axle)
static void given(const char *name, size_t h, const int32_t *ordinates, size_t words, const struct hnho_axle *train,
                  size_t axles) {
  step = name;
  the.h = h;
  the.pieces = words / 2;
  the.line_bytes = 4 * words;
  memcpy(the.ordinates, ordinates, 4 * words);
  the.axles = axles;
  memcpy(the.train, train, axles * sizeof *train);
  the.mode = HNHO_ALL_AXLES;
  the.report_bytes = HNHO_RATING_BYTES;
}

/* A line of three pieces of 10 dm and a train of two axles, two pieces apart. */
static void given_a_train(const char *name) {
  given(name, 10, WORDS(0, 40, 40, 0, -7, -20), AXLES({60, 0}, {120, 20}));
}

/* A level line of so many pieces. */
static void level_line(size_t pieces, int32_t level) {
  size_t i;
  the.pieces = pieces;
  the.line_bytes = 8 * pieces;
  for (i = 0; i < 2 * pieces; i++)
    the.ordinates[i] = level;
}

/* A train of so many axles, so many dm apart. */
static void even_train(size_t axles, uint32_t load, uint32_t apart) {
  size_t i;
  the.axles = axles;
  for (i = 0; i < axles; i++) {
    the.train[i].load = load;
    the.train[i].at = (uint32_t)i * apart;
  }
}

/* The example's truck. Its line falls by 20 a piece of 2 dm from 0, jumps at station 20 from -400 to 600 and falls to 0 at
 * station 50. The truck's axles are at 0, 18 and 24 pieces; turned, 120, 120 and 60 kN are at 0, 6 and 24.
 * Greatest: turned, the leftmost axle just right of the jump: 120 * 600 + 120 * 480 + 60 * 120 = 136800.
 * Least: as given, the last axle just left of the jump, the first off the line at -4: 120 * -280 + 120 * -400 = -81600.
 * Mode 2 has the same values, and for least the turned truck at 14 is as good: its 60 kN at 38 relieve and are dropped. */
static void the_truck(void) {
  int32_t line[100], i;
  for (i = 0; i < 50; i++) {
    line[2 * i] = (i < 20 ? 0 : 1000) - 20 * i;
    line[2 * i + 1] = line[2 * i] - 20;
  }
  given("the truck", 2, line, 100, AXLES({60, 0}, {120, 36}, {120, 48}));
  rated(HNHO_ALL_AXLES, 136800, -81600);
  expect(rating.difference == 218400, "the truck's difference");
  expect_shown(rating.greatest_stand, HNHO_TURNED, HNHO_SIDE_RIGHT, 20, "the truck's greatest stand");
  expect_shown(rating.least_stand, HNHO_AS_GIVEN, HNHO_SIDE_LEFT, -4, "the truck's least stand");
  rated(HNHO_WITHOUT_RELIEF, 136800, -81600);
  expect_shown(rating.greatest_stand, HNHO_TURNED, HNHO_SIDE_RIGHT, 20, "the truck's greatest stand without relief");
}

/* Ordinates at stations 0 to 4: 0, 40, 0, -20, 0, without jumps. Axles of 10 and 30 kN, two pieces apart; s from -2 to 4:
 *   as given, 10 o(s) + 30 o(s + 2): 0, 1200, 0, 400 - 600, 0, -200, 0
 *   turned, 30 o(s) + 10 o(s + 2): 0, 400, 0, 1200 - 200, 0, -600, 0
 * Greatest 1200 as given at -1, the leftmost axle off the line; least -600 turned at 3, the other axle off the line.
 * In mode 2 as given at 1 also has -600, and turned at 1 also 1200. */
static void both_ways_round(void) {
  given("both ways round", 10, WORDS(0, 40, 40, 0, 0, -20, -20, 0), AXLES({10, 0}, {30, 20}));
  rated(HNHO_ALL_AXLES, 1200, -600);
  expect(rating.greatest_stand.way == HNHO_AS_GIVEN && rating.greatest_stand.station == -1, "greatest off the line's left end");
  expect(rating.least_stand.way == HNHO_TURNED && rating.least_stand.station == 3, "least off the line's right end");
  rated(HNHO_WITHOUT_RELIEF, 1200, -600);
}

/* Ordinates at stations 0 to 6: 0, 40, 0, -20, 0, 40, 0, without jumps. Axles of 10 kN at s, s + 2 and s + 4:
 *   all count, s = -3, -1, 1, 3, 5: 400, 400 - 200, 400 - 200 + 400, -200 + 400, 400; 0 where s is even
 *   by axle: greatest 400 + 400 at 1, least -200 wherever an axle is at 3
 * Dropped by their sum, axles would give 600 and 0 in mode 2 as well. */
static void relief_axle_by_axle(void) {
  given("relief axle by axle", 10, WORDS(0, 40, 40, 0, 0, -20, -20, 0, 0, 40, 40, 0), AXLES({10, 0}, {10, 20}, {10, 40}));
  rated(HNHO_ALL_AXLES, 600, 0);
  rated(HNHO_WITHOUT_RELIEF, 800, -200);
  expect(rating.greatest_stand.station == 1, "greatest without relief");
}

/* Both signs of a jump; the ends of a line that is not 0 there; and one side for all axles: station 1 has 10 to its left and 0 to
 * its right, station 2 has 0 and 10, so that two axles a piece apart would count 20 with a side each. */
static void sides(void) {
  given("a jump", 10, WORDS(0, -40, 60, 0), AXLES({100, 0}));
  rated(HNHO_ALL_AXLES, 6000, -4000);
  expect(rating.greatest_stand.side == HNHO_SIDE_RIGHT && rating.greatest_stand.station == 1, "right of the jump");
  expect(rating.least_stand.side == HNHO_SIDE_LEFT && rating.least_stand.station == 1, "left of the jump");
  given("a high right end", 10, WORDS(30, 50), AXLES({2, 0}));
  rated(HNHO_ALL_AXLES, 100, 0);
  expect(rating.greatest_stand.side == HNHO_SIDE_LEFT && rating.greatest_stand.station == 1, "left of the right end");
  given("a high left end", 10, WORDS(50, 30), AXLES({2, 0}));
  rated(HNHO_ALL_AXLES, 100, 0);
  expect(rating.greatest_stand.side == HNHO_SIDE_RIGHT && rating.greatest_stand.station == 0, "right of the left end");
  given("one side for all", 5, WORDS(0, 10, 0, 0, 10, 0), AXLES({1, 0}, {1, 5}));
  rated(HNHO_ALL_AXLES, 10, 0);
  rated(HNHO_WITHOUT_RELIEF, 10, 0);
}

static void shapes(void) {
  size_t i, mode;
  for (mode = 1; mode <= 2; mode++) {
    /* Only one axle can be on: 100 * -10. */
    given("a train longer than the line", 50, WORDS(-10, -10), AXLES({100, 0}, {100, 50}));
    rated(mode, 0, -1000);
    given("a train ten times as long as the line", 50, WORDS(-10, -10), AXLES({100, 0}, {100, 500}));
    rated(mode, 0, -1000);
    /* The groups of 30 and of 70 kN are a piece apart, so one is on. */
    given("equal distances", 10, WORDS(1, 1), AXLES({10, 0}, {20, 0}, {30, 10}, {40, 10}));
    rated(mode, 70, 0);
    /* 12 * 400 * 5000 either way. */
    given("all axles at 0", 1, WORDS(5000, 5000, -5000, -5000), AXLES({400, 0}));
    even_train(12, 400, 0);
    rated(mode, 24000000, -24000000);
    given("a line of zeros", 1, WORDS(0, 0), AXLES({400, 0}));
    rated(mode, 0, 0);
    /* Axles 40 dm apart, the last made to stand at 500: 11 * 40 is 440. All are on the level line at once. */
    given("the largest train", 1, WORDS(0, 0), AXLES({400, 0}));
    level_line(1000, 5000);
    even_train(12, 400, 40);
    the.train[11].at = 500;
    rated(mode, 24000000, 0);
    level_line(1000, -5000);
    rated(mode, 0, -24000000);
    /* One piece: at its two ends, from one side, one axle counts: 5 * 9. */
    for (i = 0; i < PIECE_LENGTHS; i++) {
      given("a line of one piece", piece_lengths[i], WORDS(7, 9), AXLES({3, 0}, {5, (uint32_t)piece_lengths[i]}));
      rated(mode, 45, 0);
    }
  }
}

static void numbers_of_axles(void) {
  size_t n, null;
  given_a_train("so many axles");
  for (n = 1; n <= MANY_AXLES; n++) {
    even_train(n, 100, n > 12 ? 0 : 10);
    accepted_or(n <= HNHO_MOST_AXLES, HNHO_TRAIN_LIMIT, 0);
  }
  step = "too many axles, the first and the last at fault";
  the.train[0].load = 0;
  the.train[MANY_AXLES - 1].load = 401;
  call(HNHO_TRAIN_LIMIT, 0);
  the.axles = 0;
  for (null = 0; null < 2; null++) {
    step = "no axles";
    lie = null ? NULL_IF_EMPTY : GUARDED;
    call(HNHO_TRAIN_LIMIT, 0);
  }
  lie = GUARDED;
}

static void null_pointers(void) {
  lie = NULL_IF_EMPTY;
  given_a_train("a null report");
  the.report_bytes = 0;
  call(HNHO_HEADER_LIMIT, 0);
  given_a_train("a null line");
  the.line_bytes = 0;
  call(HNHO_HEADER_LIMIT, 0);
  step = "a null line of no pieces";
  the.pieces = 0;
  call(HNHO_HEADER_LIMIT, 0);
  step = "three null pointers";
  the.axles = 0;
  the.report_bytes = 0;
  call(HNHO_HEADER_LIMIT, 0);
  lie = GUARDED;
}

static int is_piece_length(size_t h) {
  size_t i;
  for (i = 0; i < PIECE_LENGTHS; i++)
    if (h == piece_lengths[i])
      return 1;
  return 0;
}

/* Numbers that are as a lawful one in their low bits, or whose products are. */
static void huge_arguments(void) {
  const size_t two_32 = (size_t)1 << 32, two_61 = (size_t)1 << 61, two_63 = (size_t)1 << 63;
  const size_t huge[] = {SIZE_MAX, SIZE_MAX - 1, two_63, two_32, two_32 + 1, two_32 + 2, two_32 + 3, two_32 + 10, two_61,
                         two_61 + 3, two_63 + 3, 256 + 1, 65536 + 2};
  size_t i, j;
  for (i = 0; i < sizeof huge / sizeof *huge; i++) {
    given_a_train("a huge h");
    the.h = huge[i];
    call(HNHO_HEADER_LIMIT, 0);
    given_a_train("a huge mode");
    the.mode = huge[i];
    call(HNHO_HEADER_LIMIT, 0);
    given_a_train("a huge N");
    for (j = 0; j < PIECE_LENGTHS; j++) {
      the.h = piece_lengths[j];
      the.pieces = huge[i];
      the.line_bytes = 24;
      call(HNHO_HEADER_LIMIT, 0);
      the.line_bytes = 0;
      call(HNHO_HEADER_LIMIT, 0);
    }
    step = "all three huge";
    the.h = the.mode = huge[i];
    call(HNHO_HEADER_LIMIT, 0);
  }
}

static void arguments(void) {
  size_t i, n;
  given("a piece length", 10, WORDS(0, 1), AXLES({1, 0}));
  for (n = 0; n <= 1001; n++) {
    the.h = n;
    accepted_or(is_piece_length(n), HNHO_HEADER_LIMIT, 0);
  }
  for (i = 0; i < PIECE_LENGTHS; i++) {
    size_t most = 1000 / piece_lengths[i];
    given("a number of pieces", piece_lengths[i], WORDS(0, 1), AXLES({1, 0}));
    level_line(0, 1);
    call(HNHO_HEADER_LIMIT, 0);
    level_line(most, 1);
    accepted();
    level_line(most + 1, 1);
    call(HNHO_HEADER_LIMIT, 0);
  }
  given_a_train("the section's length");
  for (n = 0; n <= 32; n++) {
    the.line_bytes = n;
    accepted_or(n == 24, HNHO_HEADER_LIMIT, 0);
  }
  given_a_train("a piece more or less than the section has");
  the.pieces = 4;
  call(HNHO_HEADER_LIMIT, 0);
  the.pieces = 2;
  call(HNHO_HEADER_LIMIT, 0);
  given_a_train("a mode");
  for (n = 0; n <= 300; n++) {
    the.mode = n;
    accepted_or(n == 1 || n == 2, HNHO_HEADER_LIMIT, 0);
  }
  huge_arguments();
}

static void ordinate_limits(void) {
  static const int32_t outside[] = {5001, -5001, 65541, -65531, INT32_MAX, INT32_MIN, 16777216};
  size_t i, word;
  given_a_train("an ordinate at its limit");
  for (word = 0; word < 6; word++) {
    level_line(3, 0);
    the.ordinates[word] = 5000;
    accepted();
    the.ordinates[word] = -5000;
    accepted();
  }
  step = "an ordinate outside its limits";
  for (word = 0; word < 6; word++)
    for (i = 0; i < sizeof outside / sizeof *outside; i++) {
      level_line(3, 0);
      the.ordinates[word] = outside[i];
      call(HNHO_ORDINATE_LIMIT, word);
    }
  step = "two ordinates outside their limits";
  level_line(3, 0);
  the.ordinates[2] = -5001;
  the.ordinates[5] = 5001;
  call(HNHO_ORDINATE_LIMIT, 2);
  step = "the last ordinate of the longest line";
  the.h = 1;
  level_line(1000, 0);
  the.ordinates[1999] = 5001;
  call(HNHO_ORDINATE_LIMIT, 1999);
}

/* Ordinates that are 5 in their low 16 bits: 5 + 2^16, 5 - 2^16 and, as a signed word, 5 + 2^31; with another of no sign and of
 * either sign at the other end of the piece. */
static void wide_ordinates(void) {
  static const int32_t wide[] = {65541, -65531, INT32_MIN + 5}, beside[] = {0, 5, -5};
  size_t i, j, piece;
  given_a_train("a wide word");
  for (piece = 0; piece < 3; piece++)
    for (i = 0; i < 3; i++)
      for (j = 0; j < 3; j++) {
        level_line(3, 0);
        the.ordinates[2 * piece] = wide[i];
        the.ordinates[2 * piece + 1] = beside[j];
        call(HNHO_ORDINATE_LIMIT, 2 * piece);
        the.ordinates[2 * piece] = beside[j];
        the.ordinates[2 * piece + 1] = wide[i];
        call(HNHO_ORDINATE_LIMIT, 2 * piece + 1);
      }
  given("two wide words", 10, WORDS(1, 1, 1, -65531, 65541, 1), AXLES({1, 0}));
  call(HNHO_ORDINATE_LIMIT, 3);
  given("a piece of two signs, then a wide word", 10, WORDS(1, -1, 1, 1, 1, 65541), AXLES({1, 0}));
  call(HNHO_ORDINATE_LIMIT, 5);
}

static void crossing_pieces(void) {
  static const int32_t crossing[][2] = {{1, -1}, {-1, 1}, {5000, -5000}, {-5000, 5000}, {1, -5000}, {-1, 5000}};
  static const int32_t lawful[][2] = {{0, -1}, {-1, 0}, {0, 1}, {1, 0}, {1, 1}, {-1, -1}, {0, 0}};
  size_t i, piece;
  given_a_train("a piece of two signs");
  for (piece = 0; piece < 3; piece++)
    for (i = 0; i < sizeof crossing / sizeof *crossing; i++) {
      level_line(3, 0);
      memcpy(the.ordinates + 2 * piece, crossing[i], sizeof crossing[i]);
      call(HNHO_PIECE_CROSSES, 2 * piece);
    }
  step = "a piece of one sign";
  for (i = 0; i < sizeof lawful / sizeof *lawful; i++) {
    level_line(3, 0);
    memcpy(the.ordinates + 2, lawful[i], sizeof lawful[i]);
    accepted();
  }
  given("two pieces of two signs", 10, WORDS(1, 1, 1, -1, -1, 1), AXLES({1, 0}));
  call(HNHO_PIECE_CROSSES, 2);
  given("signs that change between pieces", 10, WORDS(1, 1, -1, -1, 1, 1), AXLES({1, 0}));
  rated(HNHO_ALL_AXLES, 1, -1);
  step = "the last piece of the longest line";
  the.h = 1;
  level_line(1000, 1);
  the.ordinates[1999] = -1;
  call(HNHO_PIECE_CROSSES, 1998);
}

static void loads(void) {
  static const uint32_t outside[] = {65536 + 1, 16777216 + 1, UINT32_C(1) << 31, (UINT32_C(1) << 31) + 1, UINT32_MAX};
  size_t i, axle;
  uint32_t load;
  given_a_train("a load");
  for (load = 0; load <= 700; load++)
    for (axle = 0; axle < 2; axle++) {
      even_train(2, 100, 20);
      the.train[axle].load = load;
      accepted_or(load >= 1 && load <= 400, HNHO_TRAIN_LIMIT, axle + 1);
    }
  step = "a load at fault";
  for (axle = 0; axle < 12; axle++)
    for (i = 0; i < sizeof outside / sizeof *outside; i++) {
      even_train(12, 100, 20);
      the.train[axle].load = outside[i];
      call(HNHO_TRAIN_LIMIT, axle + 1);
    }
}

static void distances(void) {
  static const uint32_t outside[] = {550, 1000, 65536 + 100, UINT32_C(1) << 31, UINT32_C(4294967200)};
  size_t i, axle;
  uint32_t at;
  for (i = 0; i < PIECE_LENGTHS; i++) {
    given("a distance", piece_lengths[i], WORDS(3, 0, 0, -2), AXLES({2, 0}, {1, 0}));
    for (at = 0; at <= 600; at++) {
      the.train[1].at = at;
      accepted_or(at <= 500 && at % piece_lengths[i] == 0, HNHO_TRAIN_LIMIT, 2);
    }
  }
  given_a_train("the first axle not at 0");
  for (at = 1; at <= 60; at++) {
    the.train[0].at = at;
    call(HNHO_TRAIN_LIMIT, 1);
  }
  the.axles = 1;
  the.train[0].at = 10;
  call(HNHO_TRAIN_LIMIT, 1);
  step = "a distance at fault";
  for (axle = 0; axle < 12; axle++)
    for (i = 0; i < sizeof outside / sizeof *outside; i++) {
      even_train(12, 100, 20);
      the.train[axle].at = outside[i];
      call(HNHO_TRAIN_LIMIT, axle + 1);
    }
  for (axle = 2; axle < 12; axle++) {
    step = "a distance below the one before";
    even_train(12, 100, 20);
    the.train[axle].at -= 30;
    call(HNHO_TRAIN_LIMIT, axle + 1);
    step = "a distance of the one before";
    the.train[axle].at += 10;
    accepted();
    step = "a distance below the one before, which is lawful but farther";
    the.train[axle - 1].at += 10;
    call(HNHO_TRAIN_LIMIT, axle + 1);
    step = "a distance that h does not divide";
    even_train(12, 100, 20);
    the.train[axle].at -= 5;
    call(HNHO_TRAIN_LIMIT, axle + 1);
  }
}

/* The first axle at fault counts, whatever its fault. */
static void axles_at_fault(void) {
  given_a_train("two axles at fault");
  even_train(5, 100, 20);
  the.train[1].at = 25;
  the.train[3].load = 0;
  call(HNHO_TRAIN_LIMIT, 2);
  the.train[1].at = 20;
  the.train[2].load = 401;
  the.train[4].at = 10;
  call(HNHO_TRAIN_LIMIT, 3);
  the.train[2].load = 400;
  call(HNHO_TRAIN_LIMIT, 4);
  the.train[3].load = 1;
  call(HNHO_TRAIN_LIMIT, 5);
  the.train[4].at = 500;
  accepted();
}

/* A call with all faults of 4, 5 and 10. */
static void given_all_faults(const char *name) {
  given(name, 10, WORDS(1, -1, 0, 0, 0, 5001), AXLES({0, 10}, {401, 5}));
}

static void order(void) {
  given_all_faults("every fault, h first");
  the.h = 3;
  call(HNHO_HEADER_LIMIT, 0);
  given_all_faults("every fault, N first");
  the.pieces = 1001;
  call(HNHO_HEADER_LIMIT, 0);
  given_all_faults("every fault, the section's length first");
  the.line_bytes = 20;
  call(HNHO_HEADER_LIMIT, 0);
  given_all_faults("every fault, the mode first");
  the.mode = 3;
  call(HNHO_HEADER_LIMIT, 0);
  given_all_faults("every fault, the report's length first");
  the.report_bytes = HNHO_RATING_BYTES - 1;
  call(HNHO_HEADER_LIMIT, 0);
  given_all_faults("an ordinate, then a piece of lower place, then the train");
  call(HNHO_ORDINATE_LIMIT, 5);
  step = "an ordinate, then the number of axles";
  the.ordinates[0] = 0;
  the.axles = 0;
  call(HNHO_ORDINATE_LIMIT, 5);
  given_all_faults("an ordinate in a piece of two signs");
  the.ordinates[4] = -1;
  call(HNHO_ORDINATE_LIMIT, 5);
  step = "a piece, then an axle";
  the.ordinates[4] = the.ordinates[5] = 0;
  call(HNHO_PIECE_CROSSES, 0);
  step = "a piece, then the number of axles";
  the.axles = 0;
  call(HNHO_PIECE_CROSSES, 0);
  step = "the number of axles";
  the.ordinates[0] = 0;
  call(HNHO_TRAIN_LIMIT, 0);
  step = "an axle";
  the.axles = 2;
  call(HNHO_TRAIN_LIMIT, 1);
}

static void report_lengths(void) {
  size_t n;
  for (n = 0; n <= 2 * HNHO_RATING_BYTES; n++) {
    int lawful = n >= HNHO_RATING_BYTES;
    given_a_train("a report buffer");
    the.report_bytes = n;
    accepted_or(lawful, HNHO_HEADER_LIMIT, 0);
    step = "a report buffer and an ordinate at fault";
    the.ordinates[1] = 5001;
    call(lawful ? HNHO_ORDINATE_LIMIT : HNHO_HEADER_LIMIT, lawful ? 1 : 0);
    given_a_train("a report buffer and a piece at fault");
    the.report_bytes = n;
    the.ordinates[2] = -1;
    the.ordinates[3] = 1;
    call(lawful ? HNHO_PIECE_CROSSES : HNHO_HEADER_LIMIT, lawful ? 2 : 0);
    given_a_train("a report buffer and an axle at fault");
    the.report_bytes = n;
    the.train[1].load = 0;
    call(lawful ? HNHO_TRAIN_LIMIT : HNHO_HEADER_LIMIT, lawful ? 2 : 0);
    step = "a report buffer and a mode at fault";
    the.mode = 0;
    call(HNHO_HEADER_LIMIT, 0);
  }
}

/* Slices of every kind of length beside a page that may not be touched, with arguments that name more than there is. */
static void beside_fences(void) {
  size_t n;
  the_truck();
  relief_axle_by_axle();
  shapes();
  report_lengths();
  given_a_train("slices beside a fence");
  for (n = 0; n <= 16; n++) {
    even_train(n, 100, 20);
    accepted_or(n >= 1 && n <= 12, HNHO_TRAIN_LIMIT, 0);
  }
  for (n = 0; n <= 32; n++) {
    given_a_train("a section beside a fence");
    the.line_bytes = n;
    accepted_or(n == 24, HNHO_HEADER_LIMIT, 0);
    step = "a short section beside a fence";
    the.h = 1;
    the.pieces = 1000;
    call(HNHO_HEADER_LIMIT, 0);
  }
  ordinate_limits();
  wide_ordinates();
  crossing_pieces();
  axles_at_fault();
}

/* The layout: a report whose number k is k, or k - 9, on a buffer of its length. */
static void rating_reader(void) {
  struct buffer b = lend(72, 0);
  struct hnho_rating r;
  size_t k;
  step = "hnho_read_rating";
  expect(HNHO_RATING_BYTES == 72 && HNHO_RATING_NUMBERS == 9 && HNHO_MOST_AXLES == 12, "the sizes");
  expect(sizeof(struct hnho_axle) == 8, "an axle's bytes");
  expect(offsetof(struct hnho_axle, load) == 0 && offsetof(struct hnho_axle, at) == 4, "an axle's places");
  for (k = 0; k < 9; k++)
    b.bytes[8 * k] = (uint8_t)k;
  memset(&r, 0xff, sizeof r);
  hnho_read_rating(b.bytes, &r);
  expect(r.greatest == 0 && r.least == 1 && r.difference == 2, "the values");
  expect_shown(r.greatest_stand, 3, 4, 5, "greatest's stand");
  expect_shown(r.least_stand, 6, 7, 8, "least's stand");
  memset(b.bytes, 0xff, b.n);
  for (k = 0; k < 9; k++)
    b.bytes[8 * k] = (uint8_t)(256 + k - 9);
  hnho_read_rating(b.bytes, &r);
  expect(r.greatest == -9 && r.least == -8 && r.difference == -7, "values below 0");
  expect_shown(r.greatest_stand, -6, -5, -4, "greatest's stand below 0");
  expect_shown(r.least_stand, -3, -2, -1, "least's stand below 0");
  take_back(b, "a byte beside the report changed");
}

int main(void) {
  rating_reader();
  the_truck();
  both_ways_round();
  relief_axle_by_axle();
  sides();
  shapes();
  numbers_of_axles();
  null_pointers();
  arguments();
  ordinate_limits();
  wide_ordinates();
  crossing_pieces();
  loads();
  distances();
  axles_at_fault();
  order();
  report_lengths();
  put_up_fences();
  lie = BEFORE_A_FENCE;
  beside_fences();
  lie = AFTER_A_FENCE;
  beside_fences();
  lie = AT_ODD_ADDRESSES;
  beside_fences();
  printf(PROGRAM ": %d calls answered as due\n", calls);
  return 0;
}

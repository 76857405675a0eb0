/* Lanes and their factors, on one carriageway of one to five lanes and on every two: different effects in every order, ties, also
 * across the median, lanes that give nothing and lanes that relieve, for either question. What is due is worked out here: a lane's
 * ordinates by trying every centre, in n-ths of a cm; normal by trying every set of lanes; overload by trying every HO lane and every
 * assignment of the factors to any of the other lanes. The line has one sign, so that HO is worth most where HN is.
 *
 *   lane_edges
 *
 * prints one line and exits with 0, or says what is wrong and exits with 1. */
#define PROGRAM "lane_edges"
#include "edges.h"

enum {
  MOST_OF_ONE = 5, /* lanes of a carriageway */
  SPACING = 10,
  MOST_ORDINATES = 209, /* of a carriageway of 2079 cm */
  MOST_WORDS = HNHO_TWO_CARRIAGEWAYS_HEADER_WORDS + 2 + 2 * MOST_ORDINATES + 4
};

/* The line has one piece of 5 m with both ordinates 8, so that only one axle is on: HN is 7 * 50 * 16 + 1600 * 8 and HO
 * 7 * 50 * 16 + 3200 * 8, in 75 N.U. On a line of -8 they are the same below 0. */
enum { HN = 18400, HO = 31200 };

/* Twentieths of every loaded lane in normal where there is one, where there are two .. */
static const int64_t reduced[HNHO_LANES] = {20, 18, 16, 14, 12, 11, 11, 11, 11, 11};

/* Twentieths of the first additional lane, of the second .. */
static const int64_t additional[HNHO_LANES - 1] = {20, 18, 16, 14, 12, 11, 11, 11, 11};

/* Widths of one to five lanes, in cm; each is lanes times a width that SPACING divides. */
static const int32_t widths[MOST_OF_ONE] = {450, 900, 1200, 1600, 2000};

/* A carriageway: its width in cm, its lanes and its transverse ordinates in thousandths. */
struct carriageway {
  int32_t width;
  int32_t n;
  int32_t across[MOST_ORDINATES];
};

/* A lane: its carriageway and its number there, from 0 on; the greatest and the least transverse ordinate at its centres. */
struct lane {
  const struct carriageway *on;
  int32_t number;
  int64_t greatest, least;
};

/* The job: its edition, its carriageways, one or two, and the line's sign. */
static int32_t edition;
static struct carriageway deck[2];
static int carriageways, sign;

/* Its lanes, and the number that stands for a thousandth of a transverse ordinate, so that one at a centre is whole. */
static struct lane lane[HNHO_LANES];
static int lanes;
static int64_t thousandth;

static int32_t lanes_of(int32_t width) {
  return 1 + (width >= 600) + (width >= 970) + (width >= 1340) + (width >= 1710);
}

static int32_t ordinates_of(int32_t width) {
  return (width + SPACING - 1) / SPACING + 1;
}

/* A deck of these widths; a second of 0 is none. */
static void lay(int32_t first_width, int32_t second_width) {
  int c;
  int32_t i;
  deck[0].width = first_width;
  deck[1].width = second_width;
  carriageways = second_width == 0 ? 1 : 2;
  edition = second_width == 0 ? HNHO_EDITION_HIGHWAY : HNHO_EDITION_TWO_CARRIAGEWAYS;
  lanes = 0;
  thousandth = SPACING;
  for (c = 0; c < carriageways; c++) {
    deck[c].n = lanes_of(deck[c].width);
    thousandth *= deck[c].n;
    for (i = 0; i < deck[c].n; i++, lanes++) {
      lane[lanes].on = &deck[c];
      lane[lanes].number = i;
    }
  }
}

/* One transverse ordinate wherever the element of a lane may stand. */
static void level(int i, int32_t thousandths) {
  struct carriageway *on = &deck[lane[i].on - deck];
  const int32_t wide = on->width / on->n;
  int32_t at;
  for (at = lane[i].number * wide; at <= (lane[i].number + 1) * wide; at += SPACING)
    on->across[at / SPACING] = thousandths;
}

/* Ordinates that rise or fall evenly from the left kerb on. */
static void slope(struct carriageway *on, int32_t from, int32_t by) {
  int32_t i;
  for (i = 0; i < ordinates_of(on->width); i++)
    on->across[i] = from + i * by;
}

/* The centres of a lane, in n-ths of a cm from its carriageway's left kerb. */
static int64_t first_centre(const struct lane *l) {
  return l->number * l->on->width + 150 * l->on->n;
}

static int64_t last_centre(const struct lane *l) {
  return (l->number + 1) * l->on->width - 150 * l->on->n;
}

/* The transverse ordinate at a centre, straight between the given ones. */
static int64_t ordinate(const struct carriageway *on, int64_t centre) {
  const int64_t apart = SPACING * on->n, before = centre / apart, past = centre % apart;
  const int64_t weighed = on->across[before] * (apart - past) + (past > 0 ? on->across[before + 1] * past : 0);
  return weighed * (thousandth / apart);
}

static void find_ordinates(struct lane *l) {
  int64_t centre, one;
  l->greatest = l->least = ordinate(l->on, first_centre(l));
  for (centre = first_centre(l); centre <= last_centre(l); centre++) {
    one = ordinate(l->on, centre);
    l->greatest = one > l->greatest ? one : l->greatest;
    l->least = one < l->least ? one : l->least;
  }
}

/* Dynamic factor 1, no effect, and one row without traffic. */
static size_t pack(uint8_t *job) {
  const int32_t header[HNHO_TWO_CARRIAGEWAYS_HEADER_WORDS] = {
    edition, 50, 1, SPACING, deck[0].width, HNHO_DYNAMIC_FACTOR, 1000, 0, 1, 0, 0, 0, deck[1].width
  };
  static const int32_t row[4] = {1, 0, 0, 0};
  const size_t header_words = edition == HNHO_EDITION_HIGHWAY   ? HNHO_HEADER_WORDS
                              : edition == HNHO_EDITION_NEWTONS ? HNHO_NEWTONS_HEADER_WORDS
                                                                : HNHO_TWO_CARRIAGEWAYS_HEADER_WORDS;
  size_t words = 0, i;
  int c;
  for (i = 0; i < header_words; i++)
    hnho_put_word(job, words++, header[i]);
  for (i = 0; i < 2; i++)
    hnho_put_word(job, words++, 8 * sign);
  for (c = 0; c < carriageways; c++)
    for (i = 0; i < (size_t)ordinates_of(deck[c].width); i++)
      hnho_put_word(job, words++, deck[c].across[i]);
  for (i = 0; i < 4; i++)
    hnho_put_word(job, words++, row[i]);
  return words;
}

/* What an element in a lane adds to greatest where `question` is 1, to least where it is -1: all of it, or nothing where it relieves,
 * for its uniform load may be left out and its pair stand off the line. Times the question. */
static int64_t worth(int i, int64_t element, int question) {
  const int64_t most = question * sign > 0 ? lane[i].greatest : -lane[i].least;
  return most > 0 ? most * element : 0;
}

/* The most in normal, in twentieths: every set of lanes. */
static int64_t most_normal(int question) {
  int64_t most = 0, sum;
  int set, i, count;
  for (set = 1; set < 1 << lanes; set++) {
    for (sum = 0, count = 0, i = 0; i < lanes; i++)
      if (set >> i & 1) {
        sum += worth(i, HN, question);
        count++;
      }
    sum *= reduced[count - 1];
    most = sum > most ? sum : most;
  }
  return most;
}

/* The most in overload, in twentieths: each lane in turn stays unloaded or takes HO or a factor, whichever is left, of equal factors
 * the first, and in the end HO is given away and all the factors of some number of additional lanes. */
static int64_t most_overload(int question) {
  int64_t sums[1 << HNHO_LANES]; /* the most by what is given away, HO the lowest bit; below 0 where it cannot be */
  int64_t most = 0, sum;
  int i, j, given, count;
  for (given = 0; given < 1 << lanes; given++)
    sums[given] = given == 0 ? 0 : -1;
  for (i = 0; i < lanes; i++) {
    const int64_t hn = worth(i, HN, question), ho = worth(i, HO, question);
    for (given = (1 << lanes) - 1; given >= 0; given--) {
      if (sums[given] < 0)
        continue;
      for (j = 0; j < lanes; j++) {
        const int second_of_equals = j > 1 && additional[j - 1] == additional[j - 2];
        if ((given >> j & 1) || (second_of_equals && (given >> (j - 1) & 1) == 0))
          continue;
        sum = sums[given] + (j == 0 ? 20 * ho : additional[j - 1] * hn);
        if (sum > sums[given | 1 << j])
          sums[given | 1 << j] = sum;
      }
    }
  }
  for (count = 1; count <= lanes; count++)
    if (sums[(1 << count) - 1] > most)
      most = sums[(1 << count) - 1];
  return most;
}

/* Twentieths of 75 N.U times transverse ordinates in N.U, rounded away from 0: the dynamic factor is 1000, and 3 / 800000 of it is
 * 3 / 800. */
static int64_t in_newtons(int64_t sum) {
  return (3 * sum + 800 * thousandth - 1) / (800 * thousandth);
}

static int is_ho(const struct hnho_lane *entry) {
  return entry->entry == HNHO_HO_RAISING || entry->entry == HNHO_HO_LOWERING;
}

/* What a lane of a placement gives, times the question. */
static int64_t effect_of(const struct hnho_lane *entry, int i, int question) {
  const int sense = entry->entry == HNHO_HN_RAISING || entry->entry == HNHO_HO_RAISING ? 1 : -1;
  return sense == sign ? question * sign * ordinate(lane[i].on, entry->centre) * (is_ho(entry) ? HO : HN) : 0;
}

/* A placement: in overload one HO lane and in normal none; each additional lane with a factor, those of that many, each as often as it
 * is due; no other lane with one; centres within their lanes' limits, in n-ths of their own carriageway; lanes past the last unloaded;
 * and its value is its lanes'. */
static void expect_placement(const struct hnho_placement *p, int64_t value, int question, int overload, const char *what) {
  int64_t set = 0, sum = 0;
  int factors[21] = {0}, due[21] = {0};
  int heavy = 0, light = 0, i;
  for (i = 0; i < HNHO_LANES; i++) {
    const struct hnho_lane *entry = &p->lane[i];
    if (entry->entry == HNHO_UNLOADED) {
      expect(entry->centre == 0 && entry->factor == 0, what);
      continue;
    }
    expect(i < lanes && entry->entry >= HNHO_HN_RAISING && entry->entry <= HNHO_HO_LOWERING, what);
    expect(entry->centre >= first_centre(&lane[i]) && entry->centre <= last_centre(&lane[i]), what);
    set |= INT64_C(1) << i;
    if (is_ho(entry) || !overload) {
      heavy += is_ho(entry);
      expect(entry->factor == 0, what);
      sum += (overload ? 20 : 1) * effect_of(entry, i, question);
    } else {
      expect(entry->factor > 0 && entry->factor <= 20, what);
      factors[entry->factor]++;
      due[additional[light]]++;
      sum += entry->factor * effect_of(entry, i, question);
    }
    light += !is_ho(entry);
  }
  if (!overload && light > 0)
    sum *= reduced[light - 1];
  expect(heavy == overload && p->set == set && memcmp(factors, due, sizeof due) == 0, what);
  expect(question * value == in_newtons(sum), what);
}

/* Each lane's n is its carriageway's. */
static void expect_lanes(const struct hnho_account *a) {
  int i;
  expect(a->first_lanes == deck[0].n && a->second_lanes == (carriageways == 2 ? deck[1].n : 0), "the lanes");
  for (i = 0; i < HNHO_LANES; i++)
    expect(hnho_lane_n(a, (size_t)i) == (i < lanes ? lane[i].on->n : 0), "a lane's n");
}

/* Calls the kernel on the deck and judges every traffic value with its placement. */
static struct hnho_account call(void) {
  uint8_t words[4 * MOST_WORDS];
  struct buffer job = lend(4 * pack(words), 0), patch = lend(1, 0), account = lend(HNHO_ACCOUNT_BYTES, 0);
  struct hnho_account a;
  int i;
  for (i = 0; i < lanes; i++)
    find_ordinates(&lane[i]);
  memcpy(job.bytes, words, job.n);
  expect_result(hnho_solve(job.bytes, job.n, patch.bytes, patch.n, account.bytes, account.n), 0, 0);
  hnho_read_account(account.bytes, &a);
  expect_lanes(&a);
  expect(a.normal_greatest == in_newtons(most_normal(1)), "normal greatest");
  expect(a.normal_least == -in_newtons(most_normal(-1)), "normal least");
  expect(a.overload_greatest == in_newtons(most_overload(1)), "overload greatest");
  expect(a.overload_least == -in_newtons(most_overload(-1)), "overload least");
  expect_placement(&a.normal_greatest_placement, a.normal_greatest, 1, 0, "normal greatest's placement");
  expect_placement(&a.normal_least_placement, a.normal_least, -1, 0, "normal least's placement");
  expect_placement(&a.overload_greatest_placement, a.overload_greatest, 1, 1, "overload greatest's placement");
  expect_placement(&a.overload_least_placement, a.overload_least, -1, 1, "overload least's placement");
  take_back(job, "a byte beside the job changed");
  take_back(patch, "a byte beside the patch buffer changed");
  take_back(account, "a byte beside the account buffer changed");
  return a;
}

/* Every choice of ordinates for the lanes from lane i on out of `count`, with either sign of the line. */
static void every_choice(const int32_t *ordinates, int count, int i) {
  int j;
  if (i == lanes) {
    for (sign = -1; sign <= 1; sign += 2)
      call();
    return;
  }
  for (j = 0; j < count; j++) {
    level(i, ordinates[j]);
    every_choice(ordinates, count, i + 1);
  }
}

static void one_carriageway(void) {
  static const int32_t ordinates[] = {-600, 0, 400, 600, 800, 1000};
  int n;
  step = "lanes of every order";
  for (n = 1; n <= MOST_OF_ONE; n++) {
    lay(widths[n - 1], 0);
    every_choice(ordinates, sizeof ordinates / sizeof *ordinates, 0);
  }
}

/* Every lane at 1000: all of them are loaded, in normal too, for 20, 36, 48, 56, 60, 66, 77 .. twentieths of them rise with each lane,
 * and in overload every factor is given. */
static void loaded_deck(void) {
  struct hnho_account a;
  const int64_t all = (INT64_C(1) << lanes) - 1;
  int64_t beside = 0;
  int i;
  for (i = 0; i < lanes; i++)
    level(i, 1000);
  for (i = 0; i < lanes - 1; i++)
    beside += additional[i];
  for (sign = -1; sign <= 1; sign += 2) {
    const struct hnho_placement *normal = &a.normal_greatest_placement, *overload = &a.overload_greatest_placement;
    a = call();
    if (sign < 0) {
      normal = &a.normal_least_placement;
      overload = &a.overload_least_placement;
    }
    expect(normal->set == all && overload->set == all, "a lane of a loaded deck is not loaded");
    /* 1000 thousandths of a twentieth of 75 N.U are 3 / 800 * 1000 N.U; HN is 23 and HO 39 times 800. */
    expect(a.normal_greatest - a.normal_least == 3 * 1000 * 23 * lanes * reduced[lanes - 1], "normal of a loaded deck");
    expect(a.overload_greatest - a.overload_least == 3 * 1000 * (39 * 20 + 23 * beside), "overload of a loaded deck");
  }
}

/* Different ordinates in some orders: after each call the first goes behind the others, and every third time the next two change
 * places. */
static void different_lanes(void) {
  int32_t ordinates[HNHO_LANES] = {-900, -500, 100, 200, 350, 450, 600, 700, 850, 1000}, first;
  int turn, i;
  for (turn = 0; turn < 3 * HNHO_LANES; turn++) {
    for (i = 0; i < lanes; i++)
      level(i, ordinates[i]);
    for (sign = -1; sign <= 1; sign += 2)
      call();
    first = ordinates[0];
    memmove(ordinates, ordinates + 1, (HNHO_LANES - 1) * sizeof *ordinates);
    ordinates[HNHO_LANES - 1] = first;
    if (turn % 3 == 0) {
      first = ordinates[0];
      ordinates[0] = ordinates[1];
      ordinates[1] = first;
    }
  }
}

/* The same values of one deck and of another. */
static void expect_values(const struct hnho_account *a, const struct hnho_account *b, const char *what) {
  expect(a->normal_greatest == b->normal_greatest && a->normal_least == b->normal_least, what);
  expect(a->overload_greatest == b->overload_greatest && a->overload_least == b->overload_least, what);
}

/* A carriageway alone, in edition 2, and beside one that counts nothing, on either side of the median. */
static void beside_nothing(int32_t width, int32_t nothing) {
  static const int32_t ordinates[MOST_OF_ONE] = {700, -300, 1000, 500, 900};
  struct hnho_account alone, first, second;
  int32_t n = lanes_of(width), i;
  for (sign = -1; sign <= 1; sign += 2) {
    lay(width, 0);
    edition = HNHO_EDITION_NEWTONS;
    for (i = 0; i < n; i++)
      level(i, ordinates[i]);
    alone = call();
    lay(width, nothing);
    slope(&deck[1], 0, 0);
    for (i = 0; i < n; i++)
      level(i, ordinates[i]);
    first = call();
    lay(nothing, width);
    slope(&deck[0], 0, 0);
    for (i = 0; i < n; i++)
      level(lanes - n + i, ordinates[i]);
    second = call();
    expect_values(&alone, &first, "a carriageway first");
    expect_values(&alone, &second, "a carriageway second");
  }
}

/* Every pair of lane counts. */
static void two_carriageways(void) {
  static const int32_t alike[] = {600, 1000}, opposed[] = {-800, 500};
  int i, j;
  for (i = 0; i < MOST_OF_ONE; i++)
    for (j = 0; j < MOST_OF_ONE; j++) {
      lay(widths[i], widths[j]);
      step = "a loaded deck";
      loaded_deck();
      step = "ties across the median";
      every_choice(alike, 2, 0);
      every_choice(opposed, 2, 0);
      step = "different lanes on both sides of the median";
      different_lanes();
      step = "a carriageway beside one that counts nothing";
      beside_nothing(widths[i], widths[j]);
    }
}

/* Every pair of widths next to those where the number of lanes changes, on lines that rise or fall: each lane has one best centre, at
 * an end of its limits, in n-ths of its own carriageway. */
static void every_width(void) {
  static const int32_t edges[] = {300, 599, 600, 601, 969, 970, 1339, 1340, 1709, 1710, 2078, 2079};
  const size_t count = sizeof edges / sizeof *edges;
  size_t i, j;
  int ways;
  step = "widths next to a change of lanes";
  for (i = 0; i < count; i++)
    for (j = 0; j < count; j++)
      for (ways = 0; ways < 4; ways++) {
        lay(edges[i], edges[j]);
        slope(&deck[0], ways & 1 ? -150 : 400, ways & 1 ? 3 : -4);
        slope(&deck[1], ways & 2 ? -300 : 350, ways & 2 ? 4 : -3);
        for (sign = -1; sign <= 1; sign += 2)
          call();
      }
}

int main(void) {
  one_carriageway();
  two_carriageways();
  every_width();
  printf("lane_edges: %d calls answered as due\n", calls);
  return 0;
}

/* The edges of hnho_solve: null pointers, odd lengths, short, exact and long buffers, one refusal of each number; every number of
 * Job A's account and of a farm job's; the limits of editions 2, 3 and 4, and spans by sign; and the header's own functions. Expected
 * numbers are the documents' or worked out from them by hand.
 * Every buffer has guard bytes on both sides; every byte that must keep its contents is looked at.
 *
 *   host_edges JOB-A
 *
 * Ends with status 1 and a message at the first failure.
 */
#define PROGRAM "host_edges"
#include "edges.h"

enum {
  OLD_PATCH = 0x5a, /* what the buffers hold before a call */
  OLD_ACCOUNT = 0xc3,
  WORDS = 85, /* of Job A */
  PIECES = 20,
  TRANSVERSE_AT = 50, /* the first word of each section of Job A */
  EFFECTS_AT = 69,
  ROWS_AT = 71,
  RECORDS_AT = 79,
  RURAL_WORDS = 42, /* of the farm job at W 300 */
  RURAL_MOST_WORDS = 78, /* at W 2080 */
  RURAL_LINE_AT = 11,
  RURAL_EFFECTS = 11,
  WIDE_ACROSS = 7, /* transverse ordinates of a job of edition 2 or 3 on its carriageway of 300 cm */
  WIDE_MOST_SECOND_ACROSS = 43, /* and on a second of 2100 cm */
  WIDE_MOST_EFFECTS = 16,
  WIDE_MOST_WORDS = 13 + 2 + WIDE_ACROSS + WIDE_MOST_SECOND_ACROSS + 3 * WIDE_MOST_EFFECTS + 8 + 3 * WIDE_MOST_EFFECTS + 1
};

/* The furthest that an effect of edition 2 or 3 is from 0, in N.U. */
#define WIDE_MOST INT64_C(100000000000000)

/* Job A, as it was read. */
static uint8_t job_a[4 * WORDS];

/* What a refusal leaves: the patch buffer as before, the account's bytes 0, those past them as before. */
static void expect_cleared(struct buffer patch, struct buffer account) {
  size_t cleared = account.n < HNHO_ACCOUNT_BYTES ? account.n : HNHO_ACCOUNT_BYTES;
  expect(all_are(patch.bytes, 0, patch.n, OLD_PATCH), "a refusal changed the patch buffer");
  expect(all_are(account.bytes, 0, cleared, 0), "a refusal's account is not zero");
  expect(all_are(account.bytes, cleared, account.n, OLD_ACCOUNT), "a refusal changed bytes past the account");
}

/* The ordinate of Job A's line at a station: up by 50 a piece to 500 at its middle and down again, 0 off the line. */
static int64_t ordinate(int64_t station) {
  if (station < 0 || station > PIECES)
    return 0;
  return station <= PIECES / 2 ? 50 * station : 50 * (PIECES - station);
}

/* A pair, its axles five pieces apart, whose ordinates add up to `sum`. */
static void expect_pair(struct hnho_position p, int64_t sum, const char *what) {
  expect(p.station >= -5 && p.station <= PIECES, what);
  expect(ordinate(p.station) + ordinate(p.station + 5) == sum, what);
  expect(p.side == HNHO_SIDE_LEFT || p.side == HNHO_SIDE_RIGHT, what);
}

static int is_lane(struct hnho_lane lane, int entry, int64_t centre, int64_t factor) {
  return lane.entry == entry && lane.centre == centre && lane.factor == factor;
}

static void expect_unloaded_from(const struct hnho_placement *p, int i, const char *what) {
  for (; i < HNHO_LANES; i++)
    expect(is_lane(p->lane[i], HNHO_UNLOADED, 0, 0), what);
}

/* The placement of a greatest value of Job A. Its transverse line falls from left to right, so a lane's best centre is its leftmost:
 * 150 cm and 360 + 150 cm, in halves, with ordinates 712.5 and 262.5. Both lanes at 18 twentieths beat lane 1 alone, and HO is worth
 * most on lane 1, beside which lane 2 is the one additional lane, at 20; in normal no lane has a factor. */
static void expect_greatest_placement(const struct hnho_placement *p, int first_entry, int64_t factor, const char *what) {
  expect(p->set == 3, what);
  expect(is_lane(p->lane[0], first_entry, 300, 0), what);
  expect(is_lane(p->lane[1], HNHO_HN_RAISING, 1020, factor), what);
  expect_unloaded_from(p, 2, what);
}

/* The placement of a least value of Job A, 0: any lanes with lowering elements, whose pair is off the line, at lawful centres, from 300
 * to 420 halves and from 1020 to 1140; `ho` HO elements, beside which an HN element has its factor. */
static void expect_least_placement(const struct hnho_placement *p, int ho, const char *what) {
  const int overload = ho;
  int64_t set = 0;
  int i;
  for (i = 0; i < 2; i++) {
    struct hnho_lane lane = p->lane[i];
    if (is_lane(lane, HNHO_UNLOADED, 0, 0))
      continue;
    expect(lane.entry == HNHO_HN_LOWERING || lane.entry == HNHO_HO_LOWERING, what);
    expect(lane.centre >= 300 + 720 * i && lane.centre <= 420 + 720 * i, what);
    expect(lane.factor == (overload && lane.entry == HNHO_HN_LOWERING ? 20 : 0), what);
    ho -= lane.entry == HNHO_HO_LOWERING;
    set += 1 << i;
  }
  expect(ho == 0, what);
  expect(p->set == set, what);
  expect_unloaded_from(p, 2, what);
}

/* A state of Job A: its one row, whose one effect cannot be left out. The greatest needs the traffic; the least traffic is 0, so the
 * least value is the same with it and without. */
static void expect_state(const struct hnho_state *s, int64_t row, int64_t greatest, int64_t least, const char *what) {
  expect(s->reported == 1, what);
  expect(s->greatest.value == greatest && s->least.value == least, what);
  expect(s->greatest.row == row && s->least.row == row, what);
  expect(s->greatest.left_out == 0 && s->least.left_out == 0, what);
  expect(s->greatest.unladen == 0, what);
  expect(s->least.unladen == 0 || s->least.unladen == 1, what);
  expect(s->greatest.k == 0 && s->least.k == 0, what);
}

/* Job A's account, its patch bytes, and everything past them as before. */
static void expect_job_a(struct buffer patch, struct buffer account) {
  struct hnho_account a;
  expect(all_are(patch.bytes, 0, PIECES, HNHO_PATCH_RAISING), "the patch bytes are not Job A's");
  expect(all_are(patch.bytes, PIECES, patch.n, OLD_PATCH), "bytes past N changed");
  expect(all_are(account.bytes, HNHO_ACCOUNT_BYTES, account.n, OLD_ACCOUNT), "bytes past the account changed");
  hnho_read_account(account.bytes, &a);
  expect(a.normal_greatest == 162556875, "normal greatest");
  expect(a.normal_least == 0, "normal least");
  expect(a.overload_greatest == 263981250, "overload greatest");
  expect(a.overload_least == 0, "overload least");
  expect_pair(a.raising, 750, "the raising pair");
  expect_pair(a.lowering, 0, "the lowering pair");
  expect_greatest_placement(&a.normal_greatest_placement, HNHO_HN_RAISING, 0, "normal greatest's placement");
  expect_least_placement(&a.normal_least_placement, 0, "normal least's placement");
  expect_greatest_placement(&a.overload_greatest_placement, HNHO_HO_RAISING, 20, "overload greatest's placement");
  expect_least_placement(&a.overload_least_placement, 1, "overload least's placement");
  expect_state(&a.service, 1, INT64_C(299451781250), INT64_C(80000000000), "service");
  expect_state(&a.ultimate, 2, INT64_C(491971875000), INT64_C(96000000000), "ultimate");
  expect(a.first_lanes == 2, "lanes of the carriageway");
  expect(a.second_lanes == 0, "lanes of a second carriageway");
  expect(a.records_walked == 2, "records walked, one of each row");
}

/* A governing value of the farm job. None of the effects that its row may leave out is 0, so those left out are known. */
static void expect_governing(struct hnho_governing g, int64_t value, int64_t row, int64_t left_out, int64_t k, const char *what) {
  expect(g.value == value && g.row == row, what);
  expect(g.left_out == left_out, what);
  expect(g.k == k, what);
}

/* The account of the farm job that pack_rural packs, at any lawful width, its patch bytes, and everything past them as before. The
 * line has both ordinates 8 on its one piece of 5 m, all transverse ordinates are 1000 and the dynamic factor is 1: HN is
 * 7 * 50 * 16 + 1600 * 8 = 18400, for only one axle is on, and 18400 * 1000 * 20 * 1000 * 3 / 800000 * 17 / 20 = 1173000 N.U. In
 * kN.U, with DL 1000, SG 4, ST 5, TP 100, EQ 5000 and the others 0:
 *   service greatest: 3A (row 6), 1000 + 4 + 5 + 5000 + 33; service least: 1000 in every row, so row 1's, without SG and ST
 *   ultimate greatest: 3A (row 16), 1300 + 4 + 5 + 5000 + 33; ultimate least: 3A, 800, without SG, ST, TP and EQ */
static void expect_rural_job(struct buffer patch, struct buffer account) {
  struct hnho_account a;
  size_t number;
  expect(all_are(patch.bytes, 0, 1, HNHO_PATCH_RAISING), "the patch byte is not the farm job's");
  expect(all_are(patch.bytes, 1, patch.n, OLD_PATCH), "bytes past N changed");
  expect(all_are(account.bytes, HNHO_ACCOUNT_BYTES, account.n, OLD_ACCOUNT), "bytes past the account changed");
  hnho_read_account(account.bytes, &a);
  expect(a.normal_greatest == 1173000 && a.normal_least == 0, "the normal values");
  expect(a.normal_greatest_placement.set == 1 && a.normal_greatest_placement.lane[0].entry == HNHO_HN_RAISING, "normal's placement");
  expect(a.normal_greatest_placement.lane[0].centre >= 150 && a.normal_greatest_placement.lane[0].centre <= 430 - 150, "its centre");
  expect(a.normal_greatest_placement.lane[0].factor == 0, "its factor");
  expect_unloaded_from(&a.normal_greatest_placement, 1, "normal's placement");
  expect(a.overload_greatest == 0 && a.overload_least == 0, "the overload values");
  for (number = HNHO_OVERLOAD_GREATEST_PLACEMENT; number < HNHO_SERVICE; number++)
    expect(hnho_number(account.bytes, number) == 0, "an overload placement is not zero throughout");
  expect(a.service.reported == 1 && a.ultimate.reported == 1, "a state");
  expect_governing(a.service.greatest, INT64_C(6042000000), 6, 0, 0, "service greatest");
  expect_governing(a.service.least, INT64_C(1000000000), 1, 8 + 16, 0, "service least");
  expect_governing(a.ultimate.greatest, INT64_C(6342000000), 16, 0, 1300, "ultimate greatest");
  expect_governing(a.ultimate.least, INT64_C(800000000), 16, 8 + 16 + 32 + 512, 800, "ultimate least");
  expect(a.service.greatest.unladen == 0, "a row without traffic");
  expect(a.ultimate.greatest.unladen == 0 && a.ultimate.least.unladen == 0, "a row without traffic");
  expect(a.first_lanes == 1 && a.second_lanes == 0 && a.records_walked == 0, "lanes and records");
}

/* The job of edition 2 or 3 that pack_wide packs: its effects, all with one mark, and their factor in both rows. */
static int64_t wide_value[WIDE_MOST_EFFECTS];
static int32_t wide_effects, wide_mark, wide_factor;

/* Both ordinates of its line's one piece, an even number; its dynamic kind, with words 6 and 10; and the factors that are due in
 * thousandths, for greatest and for least. */
static int32_t wide_ordinate = 8, wide_kind = HNHO_DYNAMIC_BELOW_GROUND, wide_spans[2];
static int64_t wide_dynamic[2] = {1000, 1000};

/* The width of a second carriageway, whose transverse ordinates are all 0, and its lanes; 0 for a job of edition 2. */
static int32_t wide_second, wide_second_lanes;

static size_t wide_header_words(void) {
  return wide_second == 0 ? HNHO_NEWTONS_HEADER_WORDS : HNHO_TWO_CARRIAGEWAYS_HEADER_WORDS;
}

/* Transverse ordinates of the second carriageway. */
static size_t wide_second_across(void) {
  return wide_second == 0 ? 0 : (size_t)((wide_second + 49) / 50 + 1);
}

/* The first word of each section of the job. */
static size_t wide_line_at(void) {
  return wide_header_words();
}

static size_t wide_across_at(void) {
  return wide_line_at() + 2;
}

static size_t wide_second_at(void) {
  return wide_across_at() + WIDE_ACROSS;
}

static size_t wide_effects_at(void) {
  return wide_second_at() + wide_second_across();
}

static size_t wide_words(void) {
  return wide_effects_at() + 3 * (size_t)wide_effects + 2 * 4 + 3 * (size_t)wide_effects;
}

/* A value of the job: what its effects on one side of 0 come to where they may be left out, else all of them, and the traffic. Which
 * are left out is known but for those of 0. */
static void expect_wide_governing(struct hnho_governing g, int side, int64_t row, int64_t traffic, const char *what) {
  int64_t value = traffic, left_out = 0, zeros = 0;
  int32_t i;
  for (i = 0; i < wide_effects; i++) {
    int against = side > 0 ? wide_value[i] < 0 : wide_value[i] > 0;
    if (wide_mark == 2 && wide_value[i] == 0)
      zeros |= INT64_C(1) << i;
    else if (wide_mark == 2 && against)
      left_out |= INT64_C(1) << i;
    else
      value += wide_factor * wide_value[i];
  }
  expect(g.value == value && g.row == row, what);
  expect((g.left_out & ~zeros) == left_out, what);
  expect(g.k == 0, what);
}

/* The account of that job. W is 300 and all transverse ordinates are 1000. On a line of 8 HN is 7 * 50 * 16 + 1600 * 8 = 18400, for only
 * one axle is on, and HO 7 * 50 * 16 + 3200 * 8 = 31200; times 1000 * 20 * 3 / 800000 = 3 / 40 they are 1380 and 2340 N.U a thousandth
 * of the dynamic factor, all of it for greatest. On a line of -8 it is the same below 0, all for least, and on any other line as many
 * times as much as its ordinate is 8. A second carriageway gives nothing. Row 1 is service without traffic, row 2 ultimate with
 * overload at 3000. */
static void expect_wide_job(struct buffer patch, struct buffer account) {
  const int raised = wide_ordinate > 0;
  const int64_t hn = 1380 / 4 * (wide_ordinate / 2), ho = 2340 / 4 * (wide_ordinate / 2);
  const int64_t greatest = raised ? wide_dynamic[0] : 0, least = raised ? 0 : wide_dynamic[1];
  const struct hnho_placement *heavy;
  struct hnho_account a;
  expect(all_are(patch.bytes, 0, 1, raised ? HNHO_PATCH_RAISING : HNHO_PATCH_LOWERING), "the patch byte is not the job's");
  expect(all_are(patch.bytes, 1, patch.n, OLD_PATCH), "bytes past N changed");
  expect(all_are(account.bytes, HNHO_ACCOUNT_BYTES, account.n, OLD_ACCOUNT), "bytes past the account changed");
  hnho_read_account(account.bytes, &a);
  expect(a.normal_greatest == hn * greatest && a.normal_least == hn * least, "the normal values");
  expect(a.overload_greatest == ho * greatest && a.overload_least == ho * least, "the overload values");
  heavy = raised ? &a.overload_greatest_placement : &a.overload_least_placement;
  expect(heavy->set == 1 && heavy->lane[0].entry == (raised ? HNHO_HO_RAISING : HNHO_HO_LOWERING), "the HO lane");
  expect(a.service.reported == 1 && a.ultimate.reported == 1, "a state");
  expect_wide_governing(a.service.greatest, 1, 1, 0, "service greatest");
  expect_wide_governing(a.service.least, -1, 1, 0, "service least");
  expect_wide_governing(a.ultimate.greatest, 1, 2, 3000 * ho * greatest, "ultimate greatest");
  expect_wide_governing(a.ultimate.least, -1, 2, 3000 * ho * least, "ultimate least");
  expect(a.service.greatest.unladen == 0 && (raised ? a.ultimate.greatest : a.ultimate.least).unladen == 0, "the traffic");
  expect(a.first_lanes == 1 && a.second_lanes == wide_second_lanes, "lanes");
  expect(a.records_walked == 2 * wide_effects, "records walked, every effect's of each row");
}

/* What an accepted job's buffers are held to. */
static void (*expect_accepted)(struct buffer patch, struct buffer account) = expect_job_a;

/* Calls the kernel on buffers of its own and looks at every byte: the first `bytes` bytes of a job, `null` for null pointers
 * where a length is 0. */
static void call(const uint8_t *words, size_t bytes, size_t patch_bytes, size_t account_bytes, int null, int number, uint64_t place) {
  struct buffer job = bytes == 0 && null ? lend_null() : lend(bytes, 0);
  struct buffer patch = patch_bytes == 0 && null ? lend_null() : lend(patch_bytes, OLD_PATCH);
  struct buffer account = account_bytes == 0 && null ? lend_null() : lend(account_bytes, OLD_ACCOUNT);
  uint64_t result;
  if (bytes > 0)
    memcpy(job.bytes, words, bytes);
  result = hnho_solve(job.bytes, job.n, patch.bytes, patch.n, account.bytes, account.n);
  expect_result(result, number, place);
  expect(bytes == 0 || memcmp(job.bytes, words, bytes) == 0, "the job changed");
  if (result == 0)
    expect_accepted(patch, account);
  else
    expect_cleared(patch, account);
  take_back(job, "a byte beside the job changed");
  take_back(patch, "a byte beside the patch buffer changed");
  take_back(account, "a byte beside the account buffer changed");
}

/* Job A with one word changed. */
static void call_changed(const char *name, size_t word, int32_t value, int number, uint64_t place) {
  uint8_t job[sizeof job_a];
  step = name;
  memcpy(job, job_a, sizeof job);
  hnho_put_word(job, word, value);
  call(job, sizeof job, PIECES, HNHO_ACCOUNT_BYTES, 0, number, place);
}

static void job_lengths(void) {
  uint8_t longer[sizeof job_a + 4];
  size_t n;
  step = "a job of no bytes, not null";
  call(job_a, 0, PIECES, HNHO_ACCOUNT_BYTES, 0, HNHO_NOT_A_JOB, 0);
  step = "a job of one byte";
  call(job_a, 1, PIECES, HNHO_ACCOUNT_BYTES, 0, HNHO_NOT_A_JOB, 0);
  step = "the front of Job A";
  for (n = 0; n < sizeof job_a; n++)
    if (n < 4 * HNHO_HEADER_WORDS || n % 4 != 0)
      call(job_a, n, PIECES, HNHO_ACCOUNT_BYTES, 0, HNHO_NOT_A_JOB, 0);
    else
      call(job_a, n, PIECES, HNHO_ACCOUNT_BYTES, 0, HNHO_WORD_COUNT, WORDS);
  memcpy(longer, job_a, sizeof job_a);
  memset(longer + sizeof job_a, 0, 4);
  step = "Job A and one byte";
  call(longer, sizeof job_a + 1, PIECES, HNHO_ACCOUNT_BYTES, 0, HNHO_NOT_A_JOB, 0);
  step = "Job A and one word";
  call(longer, sizeof longer, PIECES, HNHO_ACCOUNT_BYTES, 0, HNHO_WORD_COUNT, WORDS);
}

static void null_pointers(void) {
  step = "three null pointers";
  call(NULL, 0, 0, 0, 1, HNHO_HEADER_LIMIT, 0);
  step = "a null job and a null patch buffer";
  call(NULL, 0, 0, HNHO_ACCOUNT_BYTES, 1, HNHO_NOT_A_JOB, 0);
  step = "a null patch buffer";
  call(job_a, sizeof job_a, 0, HNHO_ACCOUNT_BYTES, 1, HNHO_PATCH_SHORT, PIECES);
  step = "a null account buffer";
  call(job_a, sizeof job_a, PIECES, 0, 1, HNHO_HEADER_LIMIT, 0);
}

static void account_lengths(void) {
  size_t n;
  step = "a short account buffer";
  for (n = 0; n < HNHO_ACCOUNT_BYTES; n++)
    call(job_a, sizeof job_a, PIECES, n, 0, HNHO_HEADER_LIMIT, 0);
  step = "a short account buffer and no job";
  call(job_a, 1, PIECES, HNHO_ACCOUNT_BYTES - 1, 0, HNHO_HEADER_LIMIT, 0);
  step = "an account buffer of an account's bytes, or more";
  for (n = 0; n <= 9; n++)
    call(job_a, sizeof job_a, PIECES, HNHO_ACCOUNT_BYTES + n, 0, HNHO_ACCEPTED, 0);
  step = "a refused job and a long account buffer";
  call(job_a, 1, PIECES, HNHO_ACCOUNT_BYTES + 8, 0, HNHO_NOT_A_JOB, 0);
}

static void patch_lengths(void) {
  step = "a patch buffer of no bytes, not null";
  call(job_a, sizeof job_a, 0, HNHO_ACCOUNT_BYTES, 0, HNHO_PATCH_SHORT, PIECES);
  step = "a patch buffer of N - 1 bytes";
  call(job_a, sizeof job_a, PIECES - 1, HNHO_ACCOUNT_BYTES, 0, HNHO_PATCH_SHORT, PIECES);
  step = "a patch buffer of N bytes";
  call(job_a, sizeof job_a, PIECES, HNHO_ACCOUNT_BYTES, 0, HNHO_ACCEPTED, 0);
  step = "a patch buffer of N + 8 bytes";
  call(job_a, sizeof job_a, PIECES + 8, HNHO_ACCOUNT_BYTES, 0, HNHO_ACCEPTED, 0);
}

static void refusals(void) {
  size_t word;
  call_changed("edition 5", HNHO_WORD_EDITION, 5, HNHO_NOT_A_JOB, 0);
  call_changed("Job A as edition 2, 50 in word 11", HNHO_WORD_EDITION, HNHO_EDITION_NEWTONS, HNHO_HEADER_LIMIT, 11);
  call_changed("Job A as edition 3, 50 in word 11", HNHO_WORD_EDITION, HNHO_EDITION_TWO_CARRIAGEWAYS, HNHO_HEADER_LIMIT, 11);
  call_changed("Job A as edition 4", HNHO_WORD_EDITION, HNHO_EDITION_RURAL, HNHO_HEADER_LIMIT, HNHO_WORD_E);
  for (word = 1; word < HNHO_HEADER_WORDS; word++)
    call_changed("a header word of -1", word, -1, HNHO_HEADER_LIMIT, word);
  call_changed("N times h over 1000", HNHO_WORD_N, 101, HNHO_HEADER_LIMIT, HNHO_WORD_N);
  call_changed("a record more than there is", HNHO_WORD_C, 3, HNHO_WORD_COUNT, WORDS + 3);
  call_changed("an ordinate of 5001", 10, 5001, HNHO_ORDINATE_LIMIT, 10);
  call_changed("a transverse ordinate of -1001", TRANSVERSE_AT + 18, -1001, HNHO_ORDINATE_LIMIT, TRANSVERSE_AT + 18);
  call_changed("a piece that crosses 0", 13, -1, HNHO_PIECE_CROSSES, 12);
  call_changed("an effect of no kind", EFFECTS_AT + 1, 3, HNHO_TABLE_LIMIT, EFFECTS_AT + 1);
  call_changed("a row of no state", ROWS_AT + 4, 0, HNHO_TABLE_LIMIT, ROWS_AT + 4);
  call_changed("a record of no effect", RECORDS_AT + 3, 2, HNHO_TABLE_LIMIT, RECORDS_AT + 3);
  call_changed("a chain that comes back", RECORDS_AT + 5, 2, HNHO_CHAIN_RETURNS, ROWS_AT + 4);
  call_changed("an effect named twice", RECORDS_AT + 2, 2, HNHO_EFFECT_TWICE, ROWS_AT);
}

/* Job A with 5000 for its first ordinate, the limit with one carriageway. The sum of all ordinates is 10000 + 5000, the pair's
 * 5000 + 250 with its left axle just right of station 0: HN is 70 * 15000 + 1600 * 5250 = 9450000, HO 70 * 15000 + 3200 * 5250 =
 * 17850000, and the lanes are loaded as in Job A. Normal is 9450000 * 975 * 18 * 1300 * 3 / 800000 = 808506562.5, rounded up, overload
 * 20 * (712.5 * 17850000 + 262.5 * 9450000) * 1300 * 3 / 800000. */
static void expect_steep_job(struct buffer patch, struct buffer account) {
  struct hnho_account a;
  expect(all_are(patch.bytes, 0, PIECES, HNHO_PATCH_RAISING), "the patch bytes");
  hnho_read_account(account.bytes, &a);
  expect(a.normal_greatest == 808506563 && a.normal_least == 0, "the normal values");
  expect(a.overload_greatest == 1481878125 && a.overload_least == 0, "the overload values");
  expect(a.raising.station == 0 && a.raising.side == HNHO_SIDE_RIGHT, "the raising pair");
}

static void steep_line(void) {
  expect_accepted = expect_steep_job;
  call_changed("an ordinate of 5000", 10, 5000, HNHO_ACCEPTED, 0);
  expect_accepted = expect_job_a;
}

/* Ordinates that are 5 in their low 16 bits: 5 + 2^16, 5 - 2^16 and, as a signed word, 5 + 2^31. */
static void wide_ordinates(void) {
  static const int32_t wide[] = {65541, -65531, INT32_MIN + 5};
  size_t i;
  for (i = 0; i < sizeof wide / sizeof *wide; i++) {
    call_changed("a wide word, the first left ordinate", 10, wide[i], HNHO_ORDINATE_LIMIT, 10);
    call_changed("a wide word, the first right ordinate", 11, wide[i], HNHO_ORDINATE_LIMIT, 11);
    call_changed("a wide word, a left ordinate", 30, wide[i], HNHO_ORDINATE_LIMIT, 30);
    call_changed("a wide word, the last right ordinate", 49, wide[i], HNHO_ORDINATE_LIMIT, 49);
    call_changed("a wide word, the first transverse ordinate", TRANSVERSE_AT, wide[i], HNHO_ORDINATE_LIMIT, TRANSVERSE_AT);
    call_changed("a wide word, a transverse ordinate", TRANSVERSE_AT + 9, wide[i], HNHO_ORDINATE_LIMIT, TRANSVERSE_AT + 9);
    call_changed("a wide word, the last transverse ordinate", TRANSVERSE_AT + 18, wide[i], HNHO_ORDINATE_LIMIT, TRANSVERSE_AT + 18);
  }
}

/* Packs the farm job of expect_rural_job with this width and barriers; its words. */
static size_t pack_rural(uint8_t *job, int32_t width, int32_t barriers) {
  static const int32_t effects[RURAL_EFFECTS] = {1000, 0, 0, 4, 5, 100, 0, 0, 0, 5000, 0};
  const int32_t header[HNHO_RURAL_HEADER_WORDS] = {HNHO_EDITION_RURAL, 50, 1, 50, width, 2, 0, RURAL_EFFECTS, 0, 0, barriers};
  size_t words = 0;
  int32_t i;
  for (i = 0; i < HNHO_RURAL_HEADER_WORDS; i++)
    hnho_put_word(job, words++, header[i]);
  for (i = 0; i < 2; i++)
    hnho_put_word(job, words++, 8);
  for (i = 0; i < (width + 49) / 50 + 1; i++)
    hnho_put_word(job, words++, 1000);
  for (i = 0; i < RURAL_EFFECTS; i++) {
    hnho_put_word(job, words++, effects[i]);
    hnho_put_word(job, words++, i < 3 ? 1 : 2);
  }
  return words;
}

/* The farm job at W 300 without barriers, with two words changed. */
static void call_rural_changed_twice(const char *name, size_t word, int32_t value, size_t other, int32_t other_value, int number,
                                     uint64_t place) {
  uint8_t job[4 * RURAL_MOST_WORDS];
  size_t words = pack_rural(job, 300, HNHO_BARRIERS_NONE);
  step = name;
  hnho_put_word(job, word, value);
  hnho_put_word(job, other, other_value);
  call(job, 4 * words, 1, HNHO_ACCOUNT_BYTES, 0, number, place);
}

static void call_rural_changed(const char *name, size_t word, int32_t value, int number, uint64_t place) {
  call_rural_changed_twice(name, word, value, word, value, number, place);
}

/* Each width of note with each barriers: at and next to the ends of the bands, and of word 4's own limits. */
static void rural_widths(void) {
  static const struct {
    int32_t width;
    int number[3];
  } due[] = {
    {299, {HNHO_HEADER_LIMIT, HNHO_HEADER_LIMIT, HNHO_HEADER_LIMIT}},
    {300, {HNHO_ACCEPTED, HNHO_ACCEPTED, HNHO_WIDTH_BAND}},
    {369, {HNHO_ACCEPTED, HNHO_ACCEPTED, HNHO_WIDTH_BAND}},
    {370, {HNHO_ACCEPTED, HNHO_ACCEPTED, HNHO_ACCEPTED}},
    {371, {HNHO_WIDTH_BAND, HNHO_WIDTH_BAND, HNHO_ACCEPTED}},
    {430, {HNHO_WIDTH_BAND, HNHO_WIDTH_BAND, HNHO_ACCEPTED}},
    {431, {HNHO_WIDTH_BAND, HNHO_WIDTH_BAND, HNHO_WIDTH_BAND}},
    {2079, {HNHO_WIDTH_BAND, HNHO_WIDTH_BAND, HNHO_WIDTH_BAND}},
    {2080, {HNHO_HEADER_LIMIT, HNHO_HEADER_LIMIT, HNHO_HEADER_LIMIT}}
  };
  uint8_t job[4 * RURAL_MOST_WORDS];
  size_t i;
  int32_t barriers;
  step = "the width of a farm bridge";
  for (i = 0; i < sizeof due / sizeof *due; i++)
    for (barriers = HNHO_BARRIERS_NONE; barriers <= HNHO_BARRIERS_TRAFFIC; barriers++) {
      size_t words = pack_rural(job, due[i].width, barriers);
      int number = due[i].number[barriers - 1];
      call(job, 4 * words, 1, HNHO_ACCOUNT_BYTES, 0, number, number == HNHO_ACCEPTED ? 0 : HNHO_WORD_W);
    }
}

/* The front of the farm job: eleven words are due for its header, ten for edition 1's. */
static void rural_lengths(void) {
  uint8_t job[4 * RURAL_MOST_WORDS];
  size_t bytes = 4 * pack_rural(job, 300, HNHO_BARRIERS_NONE), n;
  step = "the front of the farm job";
  expect(bytes == 4 * RURAL_WORDS, "its words");
  for (n = 0; n < bytes; n++)
    if (n < 4 * HNHO_RURAL_HEADER_WORDS || n % 4 != 0)
      call(job, n, 1, HNHO_ACCOUNT_BYTES, 0, HNHO_NOT_A_JOB, 0);
    else
      call(job, n, 1, HNHO_ACCOUNT_BYTES, 0, HNHO_WORD_COUNT, RURAL_WORDS);
  step = "the farm job and one word";
  hnho_put_word(job, RURAL_WORDS, 0);
  call(job, bytes + 4, 1, HNHO_ACCOUNT_BYTES, 0, HNHO_WORD_COUNT, RURAL_WORDS);
  step = "buffers longer than the farm job needs";
  call(job, bytes, 9, HNHO_ACCOUNT_BYTES + 8, 0, HNHO_ACCEPTED, 0);
  step = "the farm job without a patch buffer";
  call(job, bytes, 0, HNHO_ACCOUNT_BYTES, 1, HNHO_PATCH_SHORT, 1);
  step = "the farm job and a short account buffer";
  call(job, bytes, 1, HNHO_ACCOUNT_BYTES - 1, 0, HNHO_HEADER_LIMIT, 0);
}

static void rural_refusals(void) {
  static const int32_t editions[] = {0, 5, -4, 259, INT32_MIN, INT32_MAX};
  static const int32_t barriers[] = {0, 4, -1, INT32_MIN, INT32_MAX};
  const size_t effects_at = RURAL_WORDS - 2 * RURAL_EFFECTS;
  size_t i;
  for (i = 0; i < sizeof editions / sizeof *editions; i++)
    call_rural_changed("another edition", HNHO_WORD_EDITION, editions[i], HNHO_NOT_A_JOB, 0);
  call_rural_changed("the farm job as edition 1", HNHO_WORD_EDITION, HNHO_EDITION_HIGHWAY, HNHO_HEADER_LIMIT, HNHO_WORD_R);
  call_rural_changed("the farm job as edition 2", HNHO_WORD_EDITION, HNHO_EDITION_NEWTONS, HNHO_HEADER_LIMIT, HNHO_WORD_R);
  call_rural_changed("the farm job as edition 3", HNHO_WORD_EDITION, HNHO_EDITION_TWO_CARRIAGEWAYS, HNHO_HEADER_LIMIT, HNHO_WORD_R);
  for (i = 1; i < HNHO_RURAL_HEADER_WORDS; i++)
    call_rural_changed("a header word of -1", i, -1, HNHO_HEADER_LIMIT, i);
  call_rural_changed("ten effects", HNHO_WORD_E, 10, HNHO_HEADER_LIMIT, HNHO_WORD_E);
  call_rural_changed("twelve effects", HNHO_WORD_E, 12, HNHO_HEADER_LIMIT, HNHO_WORD_E);
  call_rural_changed("a row", HNHO_WORD_R, 1, HNHO_HEADER_LIMIT, HNHO_WORD_R);
  call_rural_changed("a record", HNHO_WORD_C, 1, HNHO_HEADER_LIMIT, HNHO_WORD_C);
  for (i = 0; i < sizeof barriers / sizeof *barriers; i++)
    call_rural_changed("no such barriers", HNHO_WORD_BARRIERS, barriers[i], HNHO_HEADER_LIMIT, HNHO_WORD_BARRIERS);
  call_rural_changed("a width that calls for more words", HNHO_WORD_W, 431, HNHO_WIDTH_BAND, HNHO_WORD_W);
  call_rural_changed("a width too narrow", HNHO_WORD_BARRIERS, HNHO_BARRIERS_TRAFFIC, HNHO_WIDTH_BAND, HNHO_WORD_W);
  call_rural_changed("a piece more than there is", HNHO_WORD_N, 2, HNHO_WORD_COUNT, RURAL_WORDS + 2);
  call_rural_changed("an ordinate of 5001", RURAL_LINE_AT, 5001, HNHO_ORDINATE_LIMIT, RURAL_LINE_AT);
  call_rural_changed("a piece that crosses 0", RURAL_LINE_AT + 1, -1, HNHO_PIECE_CROSSES, RURAL_LINE_AT);
  for (i = 0; i < RURAL_EFFECTS; i++) {
    size_t value = effects_at + 2 * i;
    call_rural_changed("the mark of another effect", value + 1, i < 3 ? 2 : 1, HNHO_TABLE_LIMIT, value + 1);
    call_rural_changed("a mark of 0", value + 1, 0, HNHO_TABLE_LIMIT, value + 1);
    call_rural_changed("a mark of 3", value + 1, 3, HNHO_TABLE_LIMIT, value + 1);
    call_rural_changed("an effect of 1000000001", value, 1000000001, HNHO_TABLE_LIMIT, value);
    call_rural_changed("an effect of -1000000001", value, -1000000001, HNHO_TABLE_LIMIT, value);
    call_rural_changed_twice("an effect and its mark", value, 1000000001, value + 1, 3, HNHO_TABLE_LIMIT, value);
  }
}

static void rural_jobs(void) {
  expect_accepted = expect_rural_job;
  rural_widths();
  rural_lengths();
  rural_refusals();
  expect_accepted = expect_job_a;
}

/* Packs the job of edition 2 or 3; its words. */
static size_t pack_wide(uint8_t *job) {
  const int32_t edition = wide_second == 0 ? HNHO_EDITION_NEWTONS : HNHO_EDITION_TWO_CARRIAGEWAYS;
  const int32_t header[HNHO_TWO_CARRIAGEWAYS_HEADER_WORDS] = {
    edition, 50, 1, 50, 300, wide_kind, wide_spans[0], wide_effects, 2, wide_effects, wide_spans[1], 0, wide_second
  };
  const int32_t rows[] = {1, 0, 0, wide_effects > 0, 2, 2, 3000, wide_effects > 0};
  size_t words = 0, i;
  int32_t effect;
  for (i = 0; i < wide_header_words(); i++)
    hnho_put_word(job, words++, header[i]);
  for (i = 0; i < 2; i++)
    hnho_put_word(job, words++, wide_ordinate);
  for (i = 0; i < WIDE_ACROSS; i++)
    hnho_put_word(job, words++, 1000);
  for (i = 0; i < wide_second_across(); i++)
    hnho_put_word(job, words++, 0);
  for (effect = 0; effect < wide_effects; effect++, words += 3) {
    hnho_put_wide(job, words, wide_value[effect]);
    hnho_put_word(job, words + 2, wide_mark);
  }
  for (i = 0; i < sizeof rows / sizeof *rows; i++)
    hnho_put_word(job, words++, rows[i]);
  for (effect = 1; effect <= wide_effects; effect++) {
    hnho_put_word(job, words++, effect);
    hnho_put_word(job, words++, wide_factor);
    hnho_put_word(job, words++, effect < wide_effects ? effect + 1 : 0);
  }
  return words;
}

static void call_wide(const char *name, int number, uint64_t place) {
  uint8_t job[4 * WIDE_MOST_WORDS];
  size_t words = pack_wide(job);
  step = name;
  call(job, 4 * words, 1, HNHO_ACCOUNT_BYTES, 0, number, place);
}

/* The job with up to two words changed. */
static void call_wide_changed(const char *name, size_t word, int32_t value, size_t other, int32_t other_value, int number,
                              uint64_t place) {
  uint8_t job[4 * WIDE_MOST_WORDS];
  size_t words = pack_wide(job);
  step = name;
  hnho_put_word(job, word, value);
  hnho_put_word(job, other, other_value);
  call(job, 4 * words, 1, HNHO_ACCOUNT_BYTES, 0, number, place);
}

/* One effect of each value of note, with either mark and with the smallest and the largest factor that counts. */
static void wide_values(void) {
  static const int64_t values[] = {
    0, 1, -1, INT64_C(2147483647), INT64_C(2147483648), INT64_C(-2147483648), INT64_C(-2147483649), INT64_C(4294967295),
    INT64_C(4294967296), INT64_C(-4294967295), INT64_C(-4294967296), INT64_C(-4294967297), INT64_C(6442450944), INT64_C(-6442450944),
    WIDE_MOST - 1, WIDE_MOST, -WIDE_MOST + 1, -WIDE_MOST
  };
  size_t i;
  wide_effects = 1;
  for (i = 0; i < sizeof values / sizeof *values; i++)
    for (wide_mark = 1; wide_mark <= 2; wide_mark++)
      for (wide_factor = 1; wide_factor <= 3000; wide_factor += 2999) {
        wide_value[0] = values[i];
        call_wide("a value of two words", HNHO_ACCEPTED, 0);
      }
}

/* Sixteen effects at their limits and at the largest factor in one row: 4.8e18 and the traffic, of either sign and of both. */
static void wide_rows(void) {
  int32_t signs, i;
  wide_effects = WIDE_MOST_EFFECTS;
  wide_factor = 3000;
  for (signs = 0; signs < 4; signs++)
    for (wide_mark = 1; wide_mark <= 2; wide_mark++) {
      for (i = 0; i < wide_effects; i++)
        wide_value[i] = (signs >> i % 2 & 1) == 0 ? WIDE_MOST : -WIDE_MOST;
      call_wide("sixteen effects of two words in one row", HNHO_ACCEPTED, 0);
    }
  wide_effects = 0;
  call_wide("no effects of two words", HNHO_ACCEPTED, 0);
}

/* The front of a job of edition 2 or 3: twelve words are due for its header, with a second carriageway thirteen, and three for each
 * effect. */
static void wide_lengths(void) {
  uint8_t job[4 * WIDE_MOST_WORDS];
  size_t words = pack_wide(job), n;
  step = "the front of a job of edition 2 or 3";
  expect(words == wide_words(), "its words");
  for (n = 0; n < 4 * words; n++)
    if (n < 4 * wide_header_words() || n % 4 != 0)
      call(job, n, 1, HNHO_ACCOUNT_BYTES, 0, HNHO_NOT_A_JOB, 0);
    else
      call(job, n, 1, HNHO_ACCOUNT_BYTES, 0, HNHO_WORD_COUNT, words);
  step = "a job of edition 2 or 3 and one word";
  hnho_put_word(job, words, 0);
  call(job, 4 * words + 4, 1, HNHO_ACCOUNT_BYTES, 0, HNHO_WORD_COUNT, words);
  step = "buffers longer than a job of edition 2 or 3 needs";
  call(job, 4 * words, 9, HNHO_ACCOUNT_BYTES + 8, 0, HNHO_ACCEPTED, 0);
  step = "a job of edition 2 or 3 without a patch buffer";
  call(job, 4 * words, 0, HNHO_ACCOUNT_BYTES, 1, HNHO_PATCH_SHORT, 1);
  step = "a job of edition 2 or 3 and a short account buffer";
  call(job, 4 * words, 1, HNHO_ACCOUNT_BYTES - 1, 0, HNHO_HEADER_LIMIT, 0);
  call_wide_changed("an effect more than there is", HNHO_WORD_E, 3, HNHO_WORD_R, 2, HNHO_WORD_COUNT, words + 3);
  call_wide_changed("an effect fewer than there is", HNHO_WORD_E, 1, HNHO_WORD_R, 2, HNHO_WORD_COUNT, words - 3);
}

static void wide_header(void) {
  static const int32_t editions[] = {0, 5, -2, -3, 258, 259, INT32_MIN, INT32_MAX};
  static const int32_t no_zeros[] = {1, -1, INT32_MIN, INT32_MAX};
  size_t i;
  for (i = 0; i < sizeof editions / sizeof *editions; i++)
    call_wide_changed("another edition", HNHO_WORD_EDITION, editions[i], 10, 1, HNHO_NOT_A_JOB, 0);
  for (i = 1; i < wide_header_words(); i++)
    call_wide_changed("a header word of -1", i, -1, i, -1, HNHO_HEADER_LIMIT, i);
  for (i = 0; i < sizeof no_zeros / sizeof *no_zeros; i++) {
    call_wide_changed("word 10", 10, no_zeros[i], 11, 0, HNHO_HEADER_LIMIT, 10);
    call_wide_changed("word 11", 10, 0, 11, no_zeros[i], HNHO_HEADER_LIMIT, 11);
    call_wide_changed("words 10 and 11", 10, no_zeros[i], 11, no_zeros[i], HNHO_HEADER_LIMIT, 10);
    call_wide_changed("word 11 and a lower one", HNHO_WORD_C, 513, 11, no_zeros[i], HNHO_HEADER_LIMIT, HNHO_WORD_C);
    call_wide_changed("word 11 and an ordinate", 11, no_zeros[i], wide_line_at(), 5001, HNHO_HEADER_LIMIT, 11);
  }
}

/* 6 at the low half of a value past its limits, whatever its halves are, and at a mark that is none; the lower of two. */
static void wide_effect_limits(void) {
  static const int64_t past[] = {WIDE_MOST + 1, -WIDE_MOST - 1, INT64_MIN, INT64_MAX};
  static const int32_t high[] = {23284, -23285, INT32_MIN, INT32_MAX};
  static const int32_t low[] = {0, 1, -1, INT32_MIN, INT32_MAX};
  static const int32_t marks[] = {0, 3, -1, INT32_MIN, INT32_MAX};
  const size_t first = wide_effects_at(), second = wide_effects_at() + 3;
  size_t effect, i, j;
  for (effect = 0; effect < 2; effect++) {
    size_t at = effect == 0 ? first : second;
    for (i = 0; i < sizeof past / sizeof *past; i++) {
      int64_t before = wide_value[effect];
      wide_value[effect] = past[i];
      call_wide("a value past its limits", HNHO_TABLE_LIMIT, at);
      call_wide_changed("a value and its mark", at + 2, 0, at + 2, 0, HNHO_TABLE_LIMIT, at);
      wide_value[effect] = before;
    }
    for (i = 0; i < sizeof high / sizeof *high; i++)
      for (j = 0; j < sizeof low / sizeof *low; j++)
        call_wide_changed("a high half past its limits", at, low[j], at + 1, high[i], HNHO_TABLE_LIMIT, at);
    for (i = 0; i < sizeof marks / sizeof *marks; i++)
      call_wide_changed("a mark that is none", at + 2, marks[i], at + 2, marks[i], HNHO_TABLE_LIMIT, at + 2);
  }
  call_wide_changed("a mark and the next value", first + 2, 3, second + 1, 23284, HNHO_TABLE_LIMIT, first + 2);
  call_wide_changed("a value and a row", second + 1, 23284, second + 3, 3, HNHO_TABLE_LIMIT, second);
  call_wide_changed("a value and an ordinate", first + 1, 23284, wide_line_at(), 5001, HNHO_ORDINATE_LIMIT, wide_line_at());
  call_wide_changed("a value and a piece", first + 1, 23284, wide_line_at() + 1, -1, HNHO_PIECE_CROSSES, wide_line_at());
}

/* 4 at the last transverse ordinate; 6, 7 and 8 at the rows and records, which follow effects of three words. */
static void wide_table_limits(void) {
  const size_t row = wide_effects_at() + 2 * 3, record = row + 2 * 4;
  const size_t words[] = {row, row + 1, row + 2, row + 3, row + 7, record, record + 1, record + 2, record + 5};
  size_t i;
  call_wide_changed("a transverse ordinate", wide_effects_at() - 1, 1001, wide_effects_at() - 1, 1001, HNHO_ORDINATE_LIMIT,
                    wide_effects_at() - 1);
  for (i = 0; i < sizeof words / sizeof *words; i++)
    call_wide_changed("a word of the table", words[i], 3001, words[i], 3001, HNHO_TABLE_LIMIT, words[i]);
  call_wide_changed("a chain that comes back", record + 5, 1, record + 5, 1, HNHO_CHAIN_RETURNS, row);
  call_wide_changed("an effect twice", record + 3, 1, record + 3, 1, HNHO_EFFECT_TWICE, row);
  call_wide_changed("an effect twice, past row 1", record + 3, 1, row + 3, 0, HNHO_EFFECT_TWICE, row + 4);
}

/* Every pair of spans at which the factor's curve ends, begins or is whole, and next to these, each question with its own. */
static void span_factors(void) {
  static const struct {
    int32_t span;
    int64_t thousandths;
  } due[] = {
    {1, 1300}, {2, 1300}, {12, 1300}, {119, 1300}, {120, 1300},
    {121, 1300}, /* 150000 / 501 = 299.4 */
    {122, 1299}, /* 150000 / 502 = 298.8 */
    {123, 1299}, /* 150000 / 503 = 298.2 */
    {219, 1251}, {220, 1250}, {221, 1250}, /* 150000 / 600 = 250 */
    {1619, 1076}, {1620, 1075}, {1621, 1075}, /* 150000 / 2000 = 75 */
    {1999, 1064}, {2000, 1064} /* 150000 / 2380 = 63.03 */
  };
  const size_t spans = sizeof due / sizeof *due;
  size_t greatest, least;
  for (greatest = 0; greatest < spans; greatest++)
    for (least = 0; least < spans; least++)
      for (wide_ordinate = -8; wide_ordinate <= 8; wide_ordinate += 16) {
        wide_spans[0] = due[greatest].span;
        wide_spans[1] = due[least].span;
        wide_dynamic[0] = due[greatest].thousandths;
        wide_dynamic[1] = due[least].thousandths;
        call_wide("spans by sign", HNHO_ACCEPTED, 0);
      }
  wide_ordinate = 8;
}

/* 2 at a kind that is none, then at a span that is none, then at a later word. */
static void span_limits(void) {
  static const int32_t no_spans[] = {0, -1, 2001, 65656, INT32_MIN, INT32_MAX};
  static const int32_t no_kinds[] = {0, 5, -4, 260, INT32_MIN, INT32_MAX};
  const size_t greatest = HNHO_WORD_GREATEST_SPAN, least = HNHO_WORD_LEAST_SPAN;
  size_t word, i, j;
  for (i = 0; i < sizeof no_spans / sizeof *no_spans; i++) {
    int32_t none = no_spans[i];
    call_wide_changed("no span for greatest", greatest, none, greatest, none, HNHO_HEADER_LIMIT, greatest);
    call_wide_changed("no span for least", least, none, least, none, HNHO_HEADER_LIMIT, least);
    call_wide_changed("no span for either", greatest, none, least, none, HNHO_HEADER_LIMIT, greatest);
    for (word = HNHO_WORD_H; word < HNHO_WORD_DYNAMIC_KIND; word++)
      call_wide_changed("no span for greatest and a lower word", word, -1, greatest, none, HNHO_HEADER_LIMIT, word);
    for (word = HNHO_WORD_H; word < HNHO_WORD_LEAST_SPAN; word++)
      call_wide_changed("no span for least and a lower word", word, -1, least, none, HNHO_HEADER_LIMIT, word);
    call_wide_changed("no span for least and word 11", least, none, 11, 1, HNHO_HEADER_LIMIT, least);
    call_wide_changed("no span for least and an ordinate", least, none, wide_line_at(), 5001, HNHO_HEADER_LIMIT, least);
    for (j = 0; j < sizeof no_kinds / sizeof *no_kinds; j++) {
      call_wide_changed("no kind and no span for greatest", HNHO_WORD_DYNAMIC_KIND, no_kinds[j], greatest, none, HNHO_HEADER_LIMIT,
                        HNHO_WORD_DYNAMIC_KIND);
      call_wide_changed("no kind and no span for least", HNHO_WORD_DYNAMIC_KIND, no_kinds[j], least, none, HNHO_HEADER_LIMIT,
                        HNHO_WORD_DYNAMIC_KIND);
    }
  }
  call_wide_changed("word 11 with spans by sign", 11, 1, 11, 1, HNHO_HEADER_LIMIT, 11);
}

/* Kinds 1 to 3 with a value of their own have 0 for word 10, and editions 1 and 4 no kind 4. */
static void kinds_without_spans(void) {
  static const struct {
    int32_t kind, value;
    int64_t thousandths;
  } kinds[] = {{HNHO_DYNAMIC_FACTOR, 1123, 1123}, {HNHO_DYNAMIC_BELOW_GROUND, 0, 1000}, {HNHO_DYNAMIC_FILL, 7, 1279}};
  static const int32_t not_0[] = {1, -1, 120, 2000, INT32_MIN, INT32_MAX};
  size_t i, j;
  for (i = 0; i < sizeof kinds / sizeof *kinds; i++) {
    wide_kind = kinds[i].kind;
    wide_spans[0] = kinds[i].value;
    wide_spans[1] = 0;
    wide_dynamic[0] = wide_dynamic[1] = kinds[i].thousandths;
    call_wide("a kind without spans", HNHO_ACCEPTED, 0);
    wide_ordinate = -8;
    call_wide("a kind without spans, for least", HNHO_ACCEPTED, 0);
    wide_ordinate = 8;
    for (j = 0; j < sizeof not_0 / sizeof *not_0; j++)
      call_wide_changed("a kind without spans, and word 10", HNHO_WORD_LEAST_SPAN, not_0[j], 11, 1, HNHO_HEADER_LIMIT,
                        HNHO_WORD_LEAST_SPAN);
  }
  call_changed("kind 4 in edition 1", HNHO_WORD_DYNAMIC_KIND, HNHO_DYNAMIC_SPANS, HNHO_HEADER_LIMIT, HNHO_WORD_DYNAMIC_KIND);
  call_rural_changed("kind 4 in edition 4", HNHO_WORD_DYNAMIC_KIND, HNHO_DYNAMIC_SPANS, HNHO_HEADER_LIMIT, HNHO_WORD_DYNAMIC_KIND);
}

/* The line's ordinates at their limits and next to these, left and right: 5000 in edition 2 and 500 in edition 3. */
static void wide_line_limits(void) {
  const int32_t most = wide_second == 0 ? 5000 : 500;
  const int32_t past[] = {most + 1, -most - 1, most == 500 ? 5000 : 50000, most == 500 ? -5000 : -50000, most + 65536, INT32_MIN};
  const size_t left = wide_line_at(), right = left + 1;
  size_t i;
  for (wide_ordinate = -most; wide_ordinate <= most; wide_ordinate += 2 * most)
    call_wide("ordinates at their limit", HNHO_ACCEPTED, 0);
  wide_ordinate = 8;
  for (i = 0; i < sizeof past / sizeof *past; i++) {
    call_wide_changed("a left ordinate past its limit", left, past[i], left, past[i], HNHO_ORDINATE_LIMIT, left);
    call_wide_changed("a right ordinate past its limit", right, past[i], right, past[i], HNHO_ORDINATE_LIMIT, right);
    call_wide_changed("both ordinates past their limit", left, past[i], right, past[i], HNHO_ORDINATE_LIMIT, left);
  }
}

/* The job without a dynamic effect. */
static void wide_below_ground(void) {
  wide_kind = HNHO_DYNAMIC_BELOW_GROUND;
  wide_spans[0] = wide_spans[1] = 0;
  wide_dynamic[0] = wide_dynamic[1] = 1000;
}

/* A job of edition 2 or 3, by all that both have. */
static void wide_jobs(void) {
  wide_below_ground();
  wide_values();
  wide_rows();
  wide_effects = 2;
  wide_mark = 2;
  wide_factor = 1350;
  wide_value[0] = INT64_C(4294967301);
  wide_value[1] = -7;
  wide_lengths();
  wide_header();
  wide_line_limits();
  wide_effect_limits();
  wide_table_limits();
  wide_kind = HNHO_DYNAMIC_SPANS;
  span_factors();
  span_limits();
  kinds_without_spans();
  wide_below_ground();
}

static void newton_jobs(void) {
  expect_accepted = expect_wide_job;
  wide_jobs();
  call_wide_changed("edition 2 as 3, an ordinate of 8 for a second width", HNHO_WORD_EDITION, HNHO_EDITION_TWO_CARRIAGEWAYS, 10, 0,
                    HNHO_HEADER_LIMIT, HNHO_WORD_SECOND_W);
  expect_accepted = expect_job_a;
}

/* Second widths at and next to their limits and where the number of lanes changes, with their own number of ordinates. */
static void second_widths(void) {
  static const struct {
    int32_t width, lanes;
  } due[] = {
    {300, 1}, {599, 1}, {600, 2}, {969, 2}, {970, 3}, {1339, 3}, {1340, 4}, {1709, 4}, {1710, 5}, {2079, 5}
  };
  static const int32_t none[] = {299, 2080, 2100, 1};
  size_t i;
  for (i = 0; i < sizeof due / sizeof *due; i++) {
    wide_second = due[i].width;
    wide_second_lanes = due[i].lanes;
    call_wide("a second width", HNHO_ACCEPTED, 0);
  }
  for (i = 0; i < sizeof none / sizeof *none; i++) {
    wide_second = none[i];
    call_wide("no second width", HNHO_HEADER_LIMIT, HNHO_WORD_SECOND_W);
  }
  wide_second = 300;
  wide_second_lanes = 1;
}

/* 2 at a second width that is none, after every other word of the header and before all else. */
static void second_width_limits(void) {
  static const int32_t none[] = {299, 2080, 0, -300, 65836, INT32_MIN, INT32_MAX};
  const size_t second = HNHO_WORD_SECOND_W;
  size_t word, i;
  for (i = 0; i < sizeof none / sizeof *none; i++) {
    call_wide_changed("no second width", second, none[i], second, none[i], HNHO_HEADER_LIMIT, second);
    for (word = HNHO_WORD_H; word < second; word++)
      call_wide_changed("no second width and a lower word", word, -1, second, none[i], HNHO_HEADER_LIMIT, word);
    call_wide_changed("no second width and an ordinate", second, none[i], wide_line_at(), 501, HNHO_HEADER_LIMIT, second);
    call_wide_changed("no second width and a mark", second, none[i], wide_effects_at() + 2, 3, HNHO_HEADER_LIMIT, second);
  }
}

/* 3 at the number of words that either width calls for, by its own ordinates, 50 cm apart. */
static void second_word_counts(void) {
  const size_t first = HNHO_WORD_W, second = HNHO_WORD_SECOND_W, words = wide_words();
  call_wide_changed("a second width of 301", second, 301, second, 301, HNHO_WORD_COUNT, words + 1);
  call_wide_changed("a second width of 350", second, 350, second, 350, HNHO_WORD_COUNT, words + 1);
  call_wide_changed("a second width of 351", second, 351, second, 351, HNHO_WORD_COUNT, words + 2);
  call_wide_changed("a second width of 2079", second, 2079, second, 2079, HNHO_WORD_COUNT, words + 36);
  call_wide_changed("a first width of 301", first, 301, first, 301, HNHO_WORD_COUNT, words + 1);
  call_wide_changed("both widths of 301", first, 301, second, 301, HNHO_WORD_COUNT, words + 2);
  call_wide_changed("both widths of 2079", first, 2079, second, 2079, HNHO_WORD_COUNT, words + 72);
  call_wide_changed("ordinates 10 cm apart", HNHO_WORD_G, 10, HNHO_WORD_G, 10, HNHO_WORD_COUNT, words + 48);
  call_wide_changed("a second width of 301 and an ordinate", second, 301, wide_line_at(), 501, HNHO_WORD_COUNT, words + 1);
  /* edition 2 has a word fewer in the header, and no second carriageway */
  call_wide_changed("edition 3 as 2", HNHO_WORD_EDITION, HNHO_EDITION_NEWTONS, 10, 0, HNHO_WORD_COUNT, words - 1 - WIDE_ACROSS);
  /* edition 1 has three fewer, and two words an effect */
  call_wide_changed("edition 3 as 1", HNHO_WORD_EDITION, HNHO_EDITION_HIGHWAY, 10, 0, HNHO_WORD_COUNT, words - 3 - WIDE_ACROSS - 2);
  call_wide_changed("edition 3 as 4", HNHO_WORD_EDITION, HNHO_EDITION_RURAL, 10, 1, HNHO_HEADER_LIMIT, HNHO_WORD_E);
}

/* 4 at each ordinate of either transverse section, at the lower of two, and before 5. The one centre is at the fourth of each, so that
 * the others count nothing. */
static void second_sections(void) {
  static const int32_t past[] = {1001, -1001, 5000, 65541, INT32_MIN, INT32_MAX};
  const size_t line = wide_line_at(), first = wide_across_at(), second = wide_second_at(), end = wide_effects_at();
  size_t at, i;
  expect(first == 15 && second == 22 && end == 29, "the places of the sections");
  for (at = first; at < end; at++)
    for (i = 0; i < sizeof past / sizeof *past; i++) {
      call_wide_changed("a transverse ordinate", at, past[i], at, past[i], HNHO_ORDINATE_LIMIT, at);
      call_wide_changed("two transverse ordinates", at, past[i], end - 1, -1001, HNHO_ORDINATE_LIMIT, at);
      call_wide_changed("a transverse ordinate and one of the line", at, past[i], line + 1, 501, HNHO_ORDINATE_LIMIT, line + 1);
      call_wide_changed("a transverse ordinate and a piece", at, past[i], line + 1, -8, HNHO_ORDINATE_LIMIT, at);
      call_wide_changed("a transverse ordinate and a mark", at, past[i], end + 2, 3, HNHO_ORDINATE_LIMIT, at);
    }
  for (at = first; at < end; at++)
    if (at != first + 3 && at != second + 3) {
      call_wide_changed("a transverse ordinate of 1000", at, 1000, at, 1000, HNHO_ACCEPTED, 0);
      call_wide_changed("a transverse ordinate of -1000", at, -1000, at, -1000, HNHO_ACCEPTED, 0);
    }
}

static void two_carriageways(void) {
  expect_accepted = expect_wide_job;
  wide_second = 300;
  wide_second_lanes = 1;
  wide_jobs();
  second_widths();
  second_width_limits();
  second_word_counts();
  second_sections();
  expect_accepted = expect_job_a;
}

/* The bytes of values of two words, on a buffer of their length and at its second and third word. */
static void wide_writer(void) {
  static const struct {
    int64_t value;
    uint8_t bytes[8];
  } due[] = {
    {0, {0, 0, 0, 0, 0, 0, 0, 0}},
    {1, {1, 0, 0, 0, 0, 0, 0, 0}},
    {-1, {0xff, 0xff, 0xff, 0xff, 0xff, 0xff, 0xff, 0xff}},
    {INT64_C(2147483648), {0, 0, 0, 0x80, 0, 0, 0, 0}},
    {INT64_C(4294967295), {0xff, 0xff, 0xff, 0xff, 0, 0, 0, 0}},
    {INT64_C(4294967296), {0, 0, 0, 0, 1, 0, 0, 0}},
    {INT64_C(-4294967296), {0, 0, 0, 0, 0xff, 0xff, 0xff, 0xff}},
    {WIDE_MOST, {0, 0x40, 0x7a, 0x10, 0xf3, 0x5a, 0, 0}}, /* 23283 is 0x5af3, 276447232 is 0x107a4000 */
    {-WIDE_MOST, {0, 0xc0, 0x85, 0xef, 0x0c, 0xa5, 0xff, 0xff}},
    {INT64_C(0x0807060504030201), {1, 2, 3, 4, 5, 6, 7, 8}},
    {INT64_MAX, {0xff, 0xff, 0xff, 0xff, 0xff, 0xff, 0xff, 0x7f}},
    {INT64_MIN, {0, 0, 0, 0, 0, 0, 0, 0x80}}
  };
  size_t i;
  step = "hnho_put_wide";
  for (i = 0; i < sizeof due / sizeof *due; i++) {
    struct buffer alone = lend(8, 0x3c), within = lend(16, 0x3c);
    hnho_put_wide(alone.bytes, 0, due[i].value);
    expect(memcmp(alone.bytes, due[i].bytes, 8) == 0, "the bytes");
    hnho_put_wide(within.bytes, 1, due[i].value);
    expect(memcmp(within.bytes + 4, due[i].bytes, 8) == 0, "the place");
    expect(all_are(within.bytes, 0, 4, 0x3c) && all_are(within.bytes, 12, 16, 0x3c), "a word beside it changed");
    take_back(alone, "a byte beside the value changed");
    take_back(within, "a byte beside the words changed");
  }
}

/* The header's reader against numbers of both signs. */
static void number_reader(void) {
  static const uint8_t bytes[] = {
    0xff, 0xff, 0xff, 0xff, 0xff, 0xff, 0xff, 0xff, /* -1 */
    0, 0, 0, 0, 0, 0, 0, 0x80, /* the least */
    0xff, 0xff, 0xff, 0xff, 0xff, 0xff, 0xff, 0x7f, /* the greatest */
    1, 2, 3, 4, 5, 6, 7, 8
  };
  step = "hnho_number";
  expect(hnho_number(bytes, 0) == -1, "-1");
  expect(hnho_number(bytes, 1) == INT64_MIN, "the least");
  expect(hnho_number(bytes, 2) == INT64_MAX, "the greatest");
  expect(hnho_number(bytes, 3) == INT64_C(0x0807060504030201), "the order of bytes");
}

static void expect_placement_at(const struct hnho_placement *p, int64_t place, const char *what) {
  int i;
  expect(p->set == place, what);
  for (i = 0; i < 10; i++) {
    expect(p->lane[i].entry == place + 1 + 3 * i, what);
    expect(p->lane[i].centre == place + 2 + 3 * i, what);
    expect(p->lane[i].factor == place + 3 + 3 * i, what);
  }
}

static void expect_governing_at(struct hnho_governing g, int64_t place, const char *what) {
  expect(g.value == place && g.row == place + 1 && g.left_out == place + 2 && g.unladen == place + 3 && g.k == place + 4, what);
}

static void expect_state_at(const struct hnho_state *s, int64_t place, const char *what) {
  expect(s->reported == place, what);
  expect_governing_at(s->greatest, place + 1, what);
  expect_governing_at(s->least, place + 6, what);
}

/* The layout: an account whose number k is k, on a buffer of its length. */
static void account_reader(void) {
  struct buffer b = lend(1256, 0);
  struct hnho_account a;
  size_t k;
  step = "hnho_read_account";
  expect(HNHO_ACCOUNT_BYTES == 1256 && HNHO_ACCOUNT_NUMBERS == 157 && HNHO_LANES == 10, "the sizes");
  for (k = 0; k < 157; k++)
    b.bytes[8 * k] = (uint8_t)k;
  memset(&a, 0xff, sizeof a);
  hnho_read_account(b.bytes, &a);
  expect(a.normal_greatest == 0 && a.normal_least == 1 && a.overload_greatest == 2 && a.overload_least == 3, "the traffic values");
  expect(a.raising.station == 4 && a.raising.side == 5, "raising");
  expect(a.lowering.station == 6 && a.lowering.side == 7, "lowering");
  expect_placement_at(&a.normal_greatest_placement, 8, "normal greatest's placement");
  expect_placement_at(&a.normal_least_placement, 39, "normal least's placement");
  expect_placement_at(&a.overload_greatest_placement, 70, "overload greatest's placement");
  expect_placement_at(&a.overload_least_placement, 101, "overload least's placement");
  expect_state_at(&a.service, 132, "service");
  expect_state_at(&a.ultimate, 143, "ultimate");
  expect(a.first_lanes == 154 && a.second_lanes == 155 && a.records_walked == 156, "lanes and records");
  take_back(b, "a byte beside the account changed");
}

/* The lanes of the first carriageway, then those of the second, and no more. */
static void lane_reader(void) {
  static const struct {
    int64_t first, second, n[HNHO_LANES];
  } due[] = {
    {0, 0, {0}},
    {1, 0, {1}},
    {5, 0, {5, 5, 5, 5, 5}},
    {1, 1, {1, 1}},
    {3, 2, {3, 3, 3, 2, 2}},
    {2, 5, {2, 2, 5, 5, 5, 5, 5}},
    {5, 5, {5, 5, 5, 5, 5, 5, 5, 5, 5, 5}}
  };
  struct hnho_account a;
  size_t i, j;
  step = "hnho_lane_n";
  memset(&a, 0, sizeof a);
  for (i = 0; i < sizeof due / sizeof *due; i++) {
    a.first_lanes = due[i].first;
    a.second_lanes = due[i].second;
    for (j = 0; j < HNHO_LANES; j++)
      expect(hnho_lane_n(&a, j) == due[i].n[j], "a lane's n");
    expect(hnho_lane_n(&a, HNHO_LANES) == 0, "past the lanes");
  }
}

static void layout(void) {
  step = "hnho_layout";
  expect(HNHO_LAYOUT == 1, "the header's layout");
  expect(hnho_layout() == 1, "the archive's layout");
}

/* Every number's text: there is one, it is a line, no other number's, and names who mends it. */
static void refusal_texts(void) {
  static const char packs[] = "whoever packs the job", lines[] = "whoever works out the lines", factors[] = "whoever keeps the factors";
  static const char host[] = "the host", train[] = "whoever gives the train";
  static const char *const mended_by[] = {"", packs, packs, packs, lines, lines, factors, factors, factors, host, train, packs, ""};
  int texts = (int)(sizeof mended_by / sizeof *mended_by), i, j;
  step = "hnho_refusal_text";
  for (i = 0; i < texts; i++) {
    const char *text = hnho_refusal_text(i);
    expect(text != NULL && text[0] != 0 && strchr(text, '\n') == NULL, "is no line");
    expect(strstr(text, mended_by[i]) != NULL, "does not name who mends it");
    for (j = 0; j < i; j++)
      expect(strcmp(text, hnho_refusal_text(j)) != 0, "is another number's");
  }
  expect(strstr(hnho_refusal_text(HNHO_HEADER_LIMIT), host) != NULL, "does not tell of a short buffer");
  expect(strstr(hnho_refusal_text(HNHO_NOT_A_JOB), "in edition 4 under 11, in edition 2 under 12, in edition 3 under 13") != NULL,
         "does not tell of headers");
  expect(strstr(hnho_refusal_text(HNHO_ORDINATE_LIMIT), "-500 to 500 with two carriageways") != NULL, "does not tell of the limits");
  for (i = -1; i < 256; i += i < 0 ? texts + 1 : 1)
    expect(strcmp(hnho_refusal_text(i), hnho_refusal_text(texts - 1)) == 0, "is of no refusal");
}

static void read_job_a(const char *path) {
  FILE *file = fopen(path, "rb");
  step = path;
  expect(file != NULL, "cannot be opened");
  expect(fread(job_a, 1, sizeof job_a, file) == sizeof job_a, "is too short for Job A");
  expect(fgetc(file) == EOF, "is too long for Job A");
  fclose(file);
}

int main(int argc, char **argv) {
  if (argc != 2) {
    fprintf(stderr, "usage: host_edges JOB-A\n");
    return 2;
  }
  read_job_a(argv[1]);
  layout();
  number_reader();
  wide_writer();
  account_reader();
  lane_reader();
  refusal_texts();
  null_pointers();
  job_lengths();
  account_lengths();
  patch_lengths();
  refusals();
  steep_line();
  wide_ordinates();
  rural_jobs();
  newton_jobs();
  two_carriageways();
  printf("host_edges: %d calls answered as due\n", calls);
  return 0;
}

/* The records walked: tables of editions 1, 2 and 3 whose chains share tails, are empty, jump about or are as long as they can be,
 * beside records that no chain has; a farm job, and refused jobs. Expected numbers are worked out by hand.
 *
 *   chain_edges
 *
 * prints one line and exits with 0, or says what is wrong and exits with 1. */
#define PROGRAM "chain_edges"
#include "edges.h"

enum {
  MOST_EFFECTS = 16,
  MOST_ROWS = 32,
  MOST_RECORDS = 512,
  ACROSS = 7, /* transverse ordinates of a carriageway of 300 cm */
  MOST_WORDS = HNHO_TWO_CARRIAGEWAYS_HEADER_WORDS + 2 + 2 * ACROSS + 3 * MOST_EFFECTS + 4 * MOST_ROWS + 3 * MOST_RECORDS
};

/* A record: its effect and its next, both from 1, and its factor in thousandths. */
struct record {
  int32_t effect, factor, next;
};

/* The table of load factors: effects, all with one mark; each row's limit state, live kind and first record; the records. */
static int32_t effects, mark, rows, records;
static int32_t state[MOST_ROWS], live[MOST_ROWS], first[MOST_ROWS];
static struct record record[MOST_RECORDS];

/* The job's words so far. */
static uint8_t job[4 * MOST_WORDS];
static size_t words;

static void put(int32_t word) {
  hnho_put_word(job, words++, word);
}

/* So many rows, states and live kinds by turns, with empty chains, and so many records of effect 1 that end a chain. */
static void table(int32_t e, int32_t r, int32_t c) {
  int32_t i;
  effects = e;
  mark = HNHO_MARK_ALWAYS;
  rows = r;
  records = c;
  for (i = 0; i < r; i++) {
    state[i] = i % 2 == 0 ? HNHO_ROW_SERVICE : HNHO_ROW_ULTIMATE;
    live[i] = i % 3;
    first[i] = 0;
  }
  for (i = 0; i < c; i++) {
    record[i].effect = 1;
    record[i].factor = 1000;
    record[i].next = 0;
  }
}

/* Records `from` to `to` as one chain in their order, of effects from 1 on. */
static void chain(int32_t from, int32_t to) {
  int32_t i;
  for (i = from; i <= to; i++) {
    record[i - 1].effect = i - from + 1;
    record[i - 1].next = i < to ? i + 1 : 0;
  }
}

static void put_header(int32_t edition) {
  const int32_t header[] = {edition, 50, 1, 50, 300, HNHO_DYNAMIC_BELOW_GROUND, 0, effects, rows, records, 0, 0, 300};
  const size_t count[] = {HNHO_HEADER_WORDS, HNHO_NEWTONS_HEADER_WORDS, HNHO_TWO_CARRIAGEWAYS_HEADER_WORDS};
  size_t i;
  for (i = 0; i < count[edition - 1]; i++)
    put(header[i]);
}

/* An effect of -5, in kN.U or in N.U. */
static void put_effect(int32_t edition) {
  put(-5);
  if (edition != HNHO_EDITION_HIGHWAY)
    put(-1);
  put(mark);
}

/* Packs the table into a job of an edition. */
static void pack(int32_t edition) {
  int32_t i, across = edition == HNHO_EDITION_TWO_CARRIAGEWAYS ? 2 * ACROSS : ACROSS;
  words = 0;
  put_header(edition);
  put(8);
  put(8);
  for (i = 0; i < across; i++)
    put(1000);
  for (i = 0; i < effects; i++)
    put_effect(edition);
  for (i = 0; i < rows; i++) {
    put(state[i]);
    put(live[i]);
    put(live[i] == HNHO_LIVE_NONE ? 0 : 1000);
    put(first[i]);
  }
  for (i = 0; i < records; i++) {
    put(record[i].effect);
    put(record[i].factor);
    put(record[i].next);
  }
}

/* Calls the kernel on the packed job; the records walked of its account, which is 0 throughout where the job is refused. */
static int64_t call(size_t patch_bytes, int number, uint64_t place) {
  struct buffer own = lend(4 * words, 0), patch = lend(patch_bytes, 0), account = lend(HNHO_ACCOUNT_BYTES, 0xc3);
  struct hnho_account a;
  memcpy(own.bytes, job, own.n);
  expect_result(hnho_solve(own.bytes, own.n, patch.bytes, patch.n, account.bytes, account.n), number, place);
  if (number != 0)
    expect(all_are(account.bytes, 0, account.n, 0), "a refusal's account is not zero");
  hnho_read_account(account.bytes, &a);
  take_back(own, "a byte beside the job changed");
  take_back(patch, "a byte beside the patch buffer changed");
  take_back(account, "a byte beside the account changed");
  return a.records_walked;
}

/* The table in each edition: so many records are walked, and none where the patch buffer is too short. */
static void walks(const char *name, int64_t due) {
  int32_t edition;
  step = name;
  for (edition = HNHO_EDITION_HIGHWAY; edition <= HNHO_EDITION_TWO_CARRIAGEWAYS; edition++) {
    pack(edition);
    expect(call(1, 0, 0) == due, "records walked");
    expect(call(0, HNHO_PATCH_SHORT, 1) == 0, "records walked of a refusal");
  }
}

/* The table is refused in each edition at the first word of a row: from there on come this row, those after it and the records. */
static void refuses(const char *name, int number, int32_t row) {
  int32_t edition;
  step = name;
  for (edition = HNHO_EDITION_HIGHWAY; edition <= HNHO_EDITION_TWO_CARRIAGEWAYS; edition++) {
    pack(edition);
    expect(call(1, number, words - (size_t)(4 * (rows - row + 1) + 3 * records)) == 0, "records walked of a refusal");
  }
}

static void empty_chains(void) {
  table(0, 1, 0);
  walks("a row without effects", 0);
  table(16, 32, 0);
  walks("32 empty chains", 0);
  table(16, 32, 512);
  walks("512 records on no chain", 0);
  first[31] = 512;
  walks("one record of 512 on a chain", 1);
}

static void longest_chains(void) {
  int32_t r;
  table(16, 32, 512);
  for (r = 0; r < 32; r++) {
    chain(16 * r + 1, 16 * r + 16);
    first[r] = 16 * r + 1;
  }
  walks("32 rows of 16 records of their own", 512);
  table(16, 32, 16);
  chain(1, 16);
  for (r = 0; r < 32; r++)
    first[r] = 1;
  walks("32 rows of 16 records that they share", 512);
  first[31] = 2;
  walks("one of them a record later", 511);
  table(1, 1, 1);
  first[0] = 1;
  walks("one row, one effect, one record", 1);
}

static void shared_tails(void) {
  int32_t r;
  table(16, 16, 16);
  chain(1, 16);
  for (r = 0; r < 16; r++)
    first[r] = r + 1;
  walks("a row from each record of one chain", 136);
  table(4, 3, 5);
  chain(1, 3);
  record[3].effect = 4; /* record 4 goes on in the middle of the chain of 1, and record 5 at its end */
  record[3].next = 2;
  record[4].effect = 4;
  record[4].next = 3;
  first[0] = 1;
  first[1] = 4;
  first[2] = 5;
  walks("tails of two records and of one", 3 + 3 + 2);
}

/* Records 5, 1, 4, 2 and 3 in this order. */
static void jumping_chain(void) {
  static const int32_t order[] = {5, 1, 4, 2, 3, 0};
  int32_t i;
  table(5, 2, 6);
  for (i = 0; i < 5; i++) {
    record[order[i] - 1].effect = i + 1;
    record[order[i] - 1].next = order[i + 1];
  }
  first[0] = 5;
  first[1] = 2;
  walks("a chain that goes back and forth", 5 + 2);
}

static void states(void) {
  int32_t i;
  table(3, 2, 4);
  chain(1, 3);
  first[0] = 4;
  first[1] = 1;
  walks("service of one record, ultimate of three", 4);
  first[0] = 1;
  first[1] = 4;
  walks("service of three records, ultimate of one", 4);
  for (i = HNHO_ROW_SERVICE; i <= HNHO_ROW_ULTIMATE; i++) {
    state[0] = state[1] = i;
    walks("rows of one state", 4);
  }
}

/* A record counts whatever it gives: with factor 0, and where its effect is left out. */
static void records_without_value(void) {
  int32_t i;
  table(3, 2, 3);
  chain(1, 3);
  first[0] = first[1] = 1;
  mark = HNHO_MARK_OPTIONAL;
  walks("effects left out", 6);
  for (i = 0; i < 3; i++)
    record[i].factor = 0;
  walks("factors of 0", 6);
}

static void refused_chains(void) {
  table(3, 2, 3);
  chain(1, 3);
  first[0] = first[1] = 1;
  record[2].next = 2;
  refuses("a chain that comes back", HNHO_CHAIN_RETURNS, 1);
  record[2].next = 0;
  record[2].effect = 1;
  first[0] = 2;
  refuses("an effect named twice", HNHO_EFFECT_TWICE, 2);
}

/* A farm job: its rows are built in. */
static void farm_job(void) {
  static const int32_t header[] = {HNHO_EDITION_RURAL, 50, 1, 50, 300, HNHO_DYNAMIC_BELOW_GROUND, 0, 11, 0, 0, HNHO_BARRIERS_NONE};
  size_t i;
  step = "a farm job";
  words = 0;
  for (i = 0; i < sizeof header / sizeof *header; i++)
    put(header[i]);
  put(8);
  put(8);
  for (i = 0; i < ACROSS; i++)
    put(1000);
  for (i = 0; i < 11; i++) {
    put(5);
    put(i < 3 ? HNHO_MARK_ALWAYS : HNHO_MARK_OPTIONAL);
  }
  expect(call(1, 0, 0) == 0, "records walked");
}

int main(void) {
  empty_chains();
  longest_chains();
  shared_tails();
  jumping_chain();
  states();
  records_without_value();
  refused_chains();
  farm_job();
  printf("chain_edges: %d calls answered as due\n", calls);
  return 0;
}

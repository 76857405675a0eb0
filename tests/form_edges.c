/* The edges of hnho_write: tables of editions 1, 2 and 3 spelled in every way, with equal forms; each word that a form keeps, and each
 * factor, another; short, exact and long buffers, null pointers, every refusal with its places; farm jobs; the most records and the
 * longest form; and hnho_solve on a job and its form. One form of each edition is written out by hand; the others are the table's plain
 * spelling: row by row, rising by effect, without factors of 0.
 * Every buffer has guard bytes on both sides, or a page beside it that may not be touched; every byte that must keep its contents
 * is looked at.
 *
 *   form_edges
 *
 * Ends with status 1 and a message at the first failure.
 */
#define _DEFAULT_SOURCE
#define PROGRAM "form_edges"
#include "edges.h"

enum { JOB, FORM, REPORT, SLICES };
#define ALIGNED_SLICE (-1)
#include "fences.h"

enum {
  OLD_FORM = 0x5a, /* what the buffers hold before a call */
  OLD_REPORT = 0xc3,
  OLD_PATCH = 0x77,
  MOST_EFFECTS = 16,
  MOST_ROWS = 32,
  MOST_RECORDS = 512,
  MOST_BYTES = HNHO_MOST_JOB_BYTES + 64,
  ROW_WORDS = 4,
  RECORD_WORDS = 3
};

/* A record: its effect and its next, both from 1, and its factor in thousandths. */
struct record {
  int32_t effect, factor, next;
};

/* What a job says: its header's words, and its table, a factor for each row and effect, both from 0 here. */
static int32_t edition, h, pieces, spacing, width, second_width, kind, value, least_span, effects, rows;
static int32_t mark[MOST_EFFECTS], state[MOST_ROWS], live[MOST_ROWS], live_factor[MOST_ROWS], factor[MOST_ROWS][MOST_EFFECTS];

/* How it says it. */
static int32_t first[MOST_ROWS], records;
static struct record record[MOST_RECORDS];

/* The call to make, and the form that is due. */
static uint8_t job[MOST_BYTES], due[MOST_BYTES];
static size_t job_bytes, due_bytes, form_bytes, report_bytes;

/* ---- packing */

static void put(int32_t word) {
  hnho_put_word(job, job_bytes / 4, word);
  job_bytes += 4;
}

static size_t header_words(void) {
  static const size_t count[] = {HNHO_HEADER_WORDS, HNHO_NEWTONS_HEADER_WORDS, HNHO_TWO_CARRIAGEWAYS_HEADER_WORDS};
  return count[edition - 1];
}

/* The transverse ordinates of a carriageway. */
static size_t across(int32_t wide) {
  return (size_t)((wide + spacing - 1) / spacing + 1);
}

static size_t effect_words(void) {
  return edition == HNHO_EDITION_HIGHWAY ? 2 : 3;
}

/* The first word of each section. */
static size_t line_at(void) {
  return header_words();
}

static size_t across_at(void) {
  return line_at() + 2 * (size_t)pieces;
}

static size_t effects_at(void) {
  return across_at() + across(width) + (edition == HNHO_EDITION_TWO_CARRIAGEWAYS ? across(second_width) : 0);
}

static size_t rows_at(void) {
  return effects_at() + effect_words() * (size_t)effects;
}

static size_t records_at(void) {
  return rows_at() + ROW_WORDS * (size_t)rows;
}

static void put_header(void) {
  const int32_t header[] = {edition, h, pieces, spacing, width, kind, value, effects, rows, records, least_span, 0, second_width};
  size_t i;
  for (i = 0; i < header_words(); i++)
    put(header[i]);
}

/* A line that changes its sign at every piece, within 500, and transverse lines. */
static void put_lines(void) {
  int32_t i;
  for (i = 0; i < pieces; i++) {
    int32_t sign = i % 2 == 0 ? 1 : -1;
    put(sign * (i * 37 % 400 + 2));
    put(sign * (i * 53 % 400 + 2));
  }
  for (i = 0; i < (int32_t)across(width); i++)
    put(i * 71 % 1999 - 999);
  for (i = 0; edition == HNHO_EDITION_TWO_CARRIAGEWAYS && i < (int32_t)across(second_width); i++)
    put(i * 89 % 1999 - 999);
}

/* Effects of both signs, the third one's value 0. */
static void put_effects(void) {
  int32_t i;
  for (i = 0; i < effects; i++) {
    int32_t size = i == 2 ? 0 : (i % 2 == 0 ? 1 : -1) * (70001 + i);
    if (edition == HNHO_EDITION_HIGHWAY) {
      put(size);
    } else {
      hnho_put_wide(job, job_bytes / 4, INT64_C(1000000007) * size);
      job_bytes += 8;
    }
    put(mark[i]);
  }
}

/* Packs the table as it is spelled. */
static void pack(void) {
  int32_t i;
  job_bytes = 0;
  put_header();
  put_lines();
  put_effects();
  for (i = 0; i < rows; i++) {
    put(state[i]);
    put(live[i]);
    put(live_factor[i]);
    put(first[i]);
  }
  for (i = 0; i < records; i++) {
    put(record[i].effect);
    put(record[i].factor);
    put(record[i].next);
  }
}

/* ---- tables */

/* A header with room on both sides of its limits, and so many effects and rows without factors. */
static void table(int32_t e, int32_t r) {
  int32_t i;
  h = 25;
  pieces = 3;
  spacing = 40;
  width = 620;
  second_width = 700;
  kind = HNHO_DYNAMIC_FILL;
  value = least_span = 0;
  effects = e;
  rows = r;
  for (i = 0; i < MOST_EFFECTS; i++)
    mark[i] = i % 3 == 0 ? HNHO_MARK_ALWAYS : HNHO_MARK_OPTIONAL;
  for (i = 0; i < MOST_ROWS; i++) {
    state[i] = i % 2 == 0 ? HNHO_ROW_SERVICE : HNHO_ROW_ULTIMATE;
    live[i] = i % 3;
    live_factor[i] = live[i] == HNHO_LIVE_NONE ? 0 : 1000 + 10 * i;
  }
  memset(factor, 0, sizeof factor);
}

/* Factors that are 0 at about one place of `zeros`, none where that is 0, and alike for rows that leave the same by `alike`. */
static void fill(int32_t zeros, int32_t alike) {
  int32_t r, e;
  for (r = 0; r < rows; r++)
    for (e = 0; e < effects; e++)
      factor[r][e] = zeros != 0 && (r % alike * 5 + e * 7) % zeros == 0 ? 0 : (r % alike * 131 + e * 17) % 3000 + 1;
}

/* ---- spellings */

/* How a table is spelled. */
static struct {
  int order;     /* of effects in a chain: rising, falling, each row's own, or each row's own and falling */
  int zeros;     /* factors of 0: none named, some, or all */
  int share;     /* whether rows share every tail that they can */
  int unused;    /* records on no chain: none, ahead of the others, or behind them */
  int numbering; /* of records: as they are made, the other way round, or mixed */
} spelling;

static int32_t put_record(int32_t effect, int32_t thousandths, int32_t next) {
  int32_t i;
  for (i = 0; spelling.share && i < records; i++)
    if (record[i].effect == effect && record[i].factor == thousandths && record[i].next == next)
      return i + 1;
  expect(records < MOST_RECORDS, "too many records");
  record[records].effect = effect;
  record[records].factor = thousandths;
  record[records].next = next;
  return ++records;
}

/* The effect, from 0, at place i of a row's chain. */
static int32_t effect_of(int32_t row, int32_t i) {
  int32_t turned = spelling.order < 2 ? i : (i + row) % effects;
  return spelling.order % 2 == 0 ? turned : effects - 1 - turned;
}

static int named(int32_t row, int32_t effect) {
  return factor[row][effect] != 0 || spelling.zeros == 2 || (spelling.zeros == 1 && (row + effect) % 2 == 0);
}

/* Records on no chain, while there is room: the first leads to itself, the others to the one before. */
static void put_unused(void) {
  int32_t i, room = MOST_RECORDS - rows * effects;
  for (i = 0; i < 3 && i < room && effects > 0; i++) {
    record[records].effect = i % effects + 1;
    record[records].factor = 3000 * (i % 2);
    record[records].next = i == 0 ? records + 1 : records;
    records++;
  }
}

/* Gives the records other numbers: number i goes to the one that `to` has at i. */
static void renumber(const int32_t *to) {
  static struct record before[MOST_RECORDS];
  int32_t i;
  memcpy(before, record, sizeof record);
  for (i = 0; i < records; i++) {
    record[to[i + 1] - 1] = before[i];
    record[to[i + 1] - 1].next = to[before[i].next];
  }
  for (i = 0; i < rows; i++)
    first[i] = to[first[i]];
}

/* The other way round; or the odd numbers first, and then the even ones. */
static void mix(void) {
  static int32_t to[MOST_RECORDS + 1];
  int32_t i;
  to[0] = 0;
  for (i = 1; i <= records; i++)
    to[i] = spelling.numbering == 1 ? records + 1 - i : i % 2 == 1 ? (i + 1) / 2 : (records + 1) / 2 + i / 2;
  renumber(to);
}

static void spell(void) {
  int32_t r, i;
  records = 0;
  if (spelling.unused == 1)
    put_unused();
  for (r = 0; r < rows; r++) {
    first[r] = 0;
    for (i = effects - 1; i >= 0; i--)
      if (named(r, effect_of(r, i)))
        first[r] = put_record(effect_of(r, i) + 1, factor[r][effect_of(r, i)], first[r]);
  }
  if (spelling.unused == 2)
    put_unused();
  if (spelling.numbering != 0)
    mix();
  pack();
}

/* The plain spelling, as the job to write. */
static void spell_plainly(void) {
  int32_t r, e;
  records = 0;
  for (r = 0; r < rows; r++) {
    int32_t *link = &first[r];
    *link = 0;
    for (e = 0; e < effects; e++) {
      if (factor[r][e] == 0)
        continue;
      record[records].effect = e + 1;
      record[records].factor = factor[r][e];
      record[records].next = 0;
      *link = records + 1;
      link = &record[records++].next;
    }
  }
  pack();
}

/* The form that is due is the plain spelling; buffers fit it. */
static void make_due(void) {
  spell_plainly();
  memcpy(due, job, job_bytes);
  due_bytes = form_bytes = job_bytes;
  report_bytes = HNHO_FORM_REPORT_BYTES;
}

static void job_is_due(void) {
  memcpy(job, due, due_bytes);
  job_bytes = due_bytes;
}

/* ---- calls */

static void expect_report(struct buffer report, size_t length) {
  size_t whole = report.n < HNHO_FORM_REPORT_BYTES ? report.n : HNHO_FORM_REPORT_BYTES, i;
  for (i = 0; i < whole; i++)
    expect(report.bytes[i] == (i < sizeof length ? length >> 8 * i & 255u : 0), "a byte of the report");
  expect(all_are(report.bytes, whole, report.n, OLD_REPORT), "bytes past the report changed");
  if (whole == HNHO_FORM_REPORT_BYTES)
    expect(hnho_form_bytes(report.bytes) == length, "the length that the header reads");
}

/* Makes the call on buffers of its own and looks at every byte. */
static void call(int number, uint64_t place) {
  struct buffer own = lend_slice(JOB, job_bytes, 0), form = lend_slice(FORM, form_bytes, OLD_FORM);
  struct buffer report = lend_slice(REPORT, report_bytes, OLD_REPORT);
  size_t written = number == HNHO_ACCEPTED ? due_bytes : 0;
  if (own.n > 0)
    memcpy(own.bytes, job, own.n);
  expect_result(hnho_write(own.bytes, own.n, form.bytes, form.n, report.bytes, report.n), number, place);
  expect(own.n == 0 || memcmp(own.bytes, job, own.n) == 0, "the job changed");
  expect(form.n >= written, "a form longer than its buffer");
  expect(written == 0 || memcmp(form.bytes, due, written) == 0, "another form than is due");
  expect(all_are(form.bytes, written, form.n, OLD_FORM), "bytes past the form, or a refusal's, changed");
  expect_report(report, written);
  take_back(own, "a byte beside the job changed");
  take_back(form, "a byte beside the form changed");
  take_back(report, "a byte beside the report changed");
}

static void accepted(void) {
  call(HNHO_ACCEPTED, 0);
}

/* Refused with each output buffer: none, one byte short of the form, one that fits and a longer one. */
static void refused(int number, uint64_t place) {
  const size_t lengths[] = {0, due_bytes - 1, due_bytes, due_bytes + 9};
  size_t i;
  for (i = 0; i < sizeof lengths / sizeof *lengths; i++) {
    form_bytes = lengths[i];
    call(number, place);
  }
  form_bytes = due_bytes;
}

/* ---- hnho_solve on a job and its form */

struct solved {
  uint8_t patch[HNHO_MOST_PATCH_BYTES];
  uint8_t account[HNHO_ACCOUNT_BYTES];
};

static void solve(const uint8_t *bytes, size_t n, struct solved *into) {
  memset(into->patch, OLD_PATCH, sizeof into->patch);
  expect_result(hnho_solve(bytes, n, into->patch, sizeof into->patch, into->account, sizeof into->account), HNHO_ACCEPTED, 0);
}

/* The effects whose factor in a row, from 1, is not 0; none for row 0, that of a state without rows. */
static int64_t weighty(int64_t row) {
  int64_t set = 0;
  int32_t e;
  for (e = 0; row > 0 && e < effects; e++)
    set |= (int64_t)(factor[row - 1][e] != 0) << e;
  return set;
}

static void expect_same_governing(const struct hnho_governing *one, const struct hnho_governing *other) {
  expect(one->value == other->value && one->row == other->row && one->k == other->k, "a governing value or its row");
  expect((one->left_out & weighty(one->row)) == (other->left_out & weighty(one->row)), "what is left out");
  expect((other->left_out & ~weighty(one->row)) == 0, "the form leaves out what its row does not name");
  expect(one->unladen == other->unladen, "whether the traffic is left out");
}

static void expect_same_state(const struct hnho_state *one, const struct hnho_state *other) {
  expect(one->reported == other->reported, "whether a state has rows");
  expect_same_governing(&one->greatest, &other->greatest);
  expect_same_governing(&one->least, &other->least);
}

/* The form that is due has the job's values, rows, patch bytes, placements and lanes, and walks each of its records once. */
static void expect_carried(void) {
  static struct solved of_job, of_form;
  struct hnho_account one, other;
  solve(job, job_bytes, &of_job);
  solve(due, due_bytes, &of_form);
  hnho_read_account(of_job.account, &one);
  hnho_read_account(of_form.account, &other);
  expect(memcmp(of_job.patch, of_form.patch, sizeof of_job.patch) == 0, "patch bytes");
  expect(memcmp(of_job.account, of_form.account, 8 * HNHO_SERVICE) == 0, "traffic values and placements");
  expect(one.first_lanes == other.first_lanes && one.second_lanes == other.second_lanes, "lanes");
  expect_same_state(&one.service, &other.service);
  expect_same_state(&one.ultimate, &other.ultimate);
  expect(other.records_walked == hnho_word(due, HNHO_WORD_C), "records walked of the form");
  expect(one.records_walked >= other.records_walked, "records walked of the job");
}

/* ---- every spelling */

/* The table's spelling gives the form that is due, and so does the form itself. */
static void spelled_as_due(void) {
  spell();
  accepted();
  expect_carried();
  job_is_due();
  accepted();
}

static void every_spelling(const char *name) {
  step = name;
  make_due();
  for (spelling.order = 0; spelling.order < 4; spelling.order++)
    for (spelling.zeros = 0; spelling.zeros < 3; spelling.zeros++)
      for (spelling.share = 0; spelling.share < 2; spelling.share++)
        for (spelling.unused = 0; spelling.unused < 3; spelling.unused++)
          for (spelling.numbering = 0; spelling.numbering < 3; spelling.numbering++)
            spelled_as_due();
}

static void spellings(void) {
  table(7, 4);
  every_spelling("no factors of seven effects");
  table(8, 2);
  every_spelling("no factors of eight effects");
  table(3, 4);
  every_spelling("no factors");
  fill(0, 4);
  every_spelling("a factor for each row and effect");
  fill(2, 2);
  every_spelling("rows that are alike, and factors of 0");
  fill(3, 1);
  every_spelling("one row, four times");
  table(16, 5);
  fill(4, 3);
  every_spelling("16 effects");
  table(1, 32);
  fill(2, 32);
  every_spelling("32 rows of one effect");
  table(0, 2);
  every_spelling("no effects");
  table(5, 1);
  factor[0][4] = 3000;
  every_spelling("the last effect alone, at its limit");
}

/* ---- the most records */

/* An output buffer of a byte less than the form. */
static void a_byte_short(void) {
  size_t room = form_bytes;
  form_bytes = due_bytes - 1;
  call(HNHO_FORM_SHORT, due_bytes);
  form_bytes = room;
}

/* 32 rows of 16 factors: 512 records of the form, in its job as many, or 16 that all rows share. */
static void most_records(void) {
  step = "512 records of their own";
  memset(&spelling, 0, sizeof spelling);
  table(16, 32);
  fill(0, 32);
  make_due();
  expect(hnho_word(due, HNHO_WORD_C) == MOST_RECORDS, "C");
  spelling.order = 1;
  spelling.numbering = 2;
  spelled_as_due();
  step = "16 records that 32 rows share";
  fill(0, 1);
  make_due();
  spelling.share = 1;
  spell();
  expect(records == 16 && due_bytes == job_bytes + 496 * 12, "a form longer than its job");
  spelled_as_due();
  a_byte_short();
}

/* The longest line and the widest carriageways. */
static void longest_form(void) {
  step = "the longest form";
  table(16, 32);
  fill(0, 1);
  h = 1;
  pieces = 1000;
  spacing = 10;
  width = second_width = 2079;
  make_due();
  expect(edition != HNHO_EDITION_TWO_CARRIAGEWAYS || due_bytes == HNHO_MOST_JOB_BYTES, "HNHO_MOST_JOB_BYTES");
  memset(&spelling, 0, sizeof spelling);
  spelling.share = 1;
  spelled_as_due();
  form_bytes = HNHO_MOST_JOB_BYTES;
  accepted();
  a_byte_short();
}

/* ---- one word another */

/* Whether the kernel writes a form of the job. */
static int is_written(void) {
  static uint8_t form[MOST_BYTES], report[HNHO_FORM_REPORT_BYTES];
  calls++;
  return hnho_write(job, job_bytes, form, sizeof form, report, sizeof report) == 0;
}

/* The form that is due with the word at a place another, where a job like that is accepted: it is its own form, and so not the one that
 * it was. Whether there is one. */
static int kept_another(size_t place) {
  static const int32_t others[] = {50, 10, 4, 3, 2, 1, 0};
  int32_t word = hnho_word(due, place), another;
  size_t i;
  for (i = 0; i < 2 + sizeof others / sizeof *others; i++) {
    another = i == 0 ? word + 1 : i == 1 ? word - 1 : others[i - 2];
    job_is_due();
    hnho_put_word(job, place, another);
    if (another == word || !is_written())
      continue;
    hnho_put_word(due, place, another);
    accepted();
    hnho_put_word(due, place, word);
    return 1;
  }
  return 0;
}

/* Every word before the records but C and the rows' first records, and every record's factor. By themselves the edition, N, E, R, word
 * 11 and, with spans, the dynamic kind or else word 10 cannot be others; nor can the live factor of a row without traffic. */
static void words_another(const char *name) {
  size_t place, fixed = 0, due_fixed = edition == HNHO_EDITION_HIGHWAY ? 4 : 6;
  int32_t i;
  step = name;
  make_due();
  for (place = 0; place < due_bytes / 4; place++) {
    int first_record = place >= rows_at() && place < records_at() && (place - rows_at()) % ROW_WORDS == 3;
    int link = place >= records_at() && (place - records_at()) % RECORD_WORDS != 1;
    if (place != HNHO_WORD_C && !first_record && !link)
      fixed += (size_t)!kept_another(place);
  }
  for (i = 0; i < rows; i++)
    due_fixed += live[i] == HNHO_LIVE_NONE;
  expect(fixed == due_fixed, "words that cannot be others");
}

/* One factor another: 0, one that is not, or next to itself. The forms are those of the tables, and not the one before. */
static void factors_another(void) {
  static uint8_t before[MOST_BYTES];
  int32_t r, e, i;
  step = "one factor another";
  memset(&spelling, 0, sizeof spelling);
  spelling.order = spelling.numbering = 2;
  spelling.zeros = spelling.share = 1;
  make_due();
  memcpy(before, due, sizeof before);
  for (r = 0; r < rows; r++)
    for (e = 0; e < effects; e++)
      for (i = 0; i < 3; i++) {
        int32_t was = factor[r][e];
        factor[r][e] = i == 0 ? 0 : i == 1 ? 3000 : was + 1;
        make_due();
        expect(factor[r][e] == was || memcmp(before, due, sizeof before) != 0, "equal forms");
        spelled_as_due();
        factor[r][e] = was;
      }
}

static void one_word_another(void) {
  table(3, 4);
  fill(2, 4);
  words_another("one word another");
  factors_another();
  if (edition == HNHO_EDITION_HIGHWAY)
    return;
  kind = HNHO_DYNAMIC_SPANS;
  value = 240;
  least_span = 270;
  words_another("one word another, with spans by sign");
}

/* ---- buffers */

static void output_lengths(void) {
  size_t n;
  step = "output buffers of every length";
  make_due();
  spell();
  for (n = 0; n < due_bytes + 40; n++) {
    form_bytes = n;
    if (n < due_bytes)
      call(HNHO_FORM_SHORT, due_bytes);
    else
      accepted();
  }
  form_bytes = due_bytes;
}

/* Report buffers of 0 to 9 bytes and more: a short one is told first, whatever the job and the output buffer. */
static void report_lengths(void) {
  const size_t whole = job_bytes;
  size_t n;
  step = "report buffers";
  for (n = 0; n < HNHO_FORM_REPORT_BYTES; n++) {
    report_bytes = n;
    refused(HNHO_HEADER_LIMIT, 0);
    job_bytes = 0;
    refused(HNHO_HEADER_LIMIT, 0);
    job_bytes = whole - 4;
    refused(HNHO_HEADER_LIMIT, 0);
    job_bytes = whole;
  }
  for (; n < HNHO_FORM_REPORT_BYTES + 12; n++) {
    report_bytes = n;
    accepted();
    form_bytes = 0;
    call(HNHO_FORM_SHORT, due_bytes);
    form_bytes = due_bytes;
  }
  report_bytes = HNHO_FORM_REPORT_BYTES;
}

static void buffers(void) {
  table(3, 4);
  fill(2, 2);
  memset(&spelling, 0, sizeof spelling);
  spelling.order = spelling.unused = spelling.zeros = 2;
  for (lie = GUARDED; lie <= AT_ODD_ADDRESSES; lie++) {
    output_lengths();
    report_lengths();
    step = "an empty job";
    job_bytes = 0;
    refused(HNHO_NOT_A_JOB, 0);
  }
  lie = GUARDED;
}

/* ---- refusals */

/* The spelled job with one word another is refused. */
static void refuses(const char *name, size_t word, int32_t another, int number, uint64_t place) {
  step = name;
  spell();
  hnho_put_word(job, word, another);
  refused(number, place);
}

/* Lengths that are no job's, and words that are no edition; a word too few and one too many. */
static void wrong_lengths(void) {
  size_t whole, n;
  spell();
  whole = job_bytes;
  step = "no job";
  for (n = 0; n < 4 * header_words(); n++) {
    job_bytes = n;
    refused(HNHO_NOT_A_JOB, 0);
  }
  for (n = 1; n < 4; n++) {
    job_bytes = whole - n;
    refused(HNHO_NOT_A_JOB, 0);
  }
  refuses("edition 0", HNHO_WORD_EDITION, 0, HNHO_NOT_A_JOB, 0);
  refuses("edition 5", HNHO_WORD_EDITION, 5, HNHO_NOT_A_JOB, 0);
  refuses("edition 4", HNHO_WORD_EDITION, 4, HNHO_NOT_A_JOB, 0);
  refuses("edition 257", HNHO_WORD_EDITION, 257, HNHO_NOT_A_JOB, 0);
  step = "a word too few or too many";
  spell();
  job_bytes = whole - 4;
  refused(HNHO_WORD_COUNT, whole / 4);
  job_bytes = whole + 4;
  refused(HNHO_WORD_COUNT, whole / 4);
}

/* 2 and 4 to 6 at the words of each section. */
static void wrong_words(void) {
  const int32_t past = edition == HNHO_EDITION_TWO_CARRIAGEWAYS ? 501 : 5001;
  const size_t last_mark = rows_at() - 1;
  size_t i;
  for (i = HNHO_WORD_H; i < header_words(); i++)
    refuses("a header word of -1", i, -1, HNHO_HEADER_LIMIT, i);
  refuses("the first ordinate", line_at(), past, HNHO_ORDINATE_LIMIT, line_at());
  refuses("the last ordinate", across_at() - 1, -past, HNHO_ORDINATE_LIMIT, across_at() - 1);
  for (i = across_at(); i < effects_at(); i++)
    refuses("a transverse ordinate", i, i % 2 == 0 ? 1001 : -1001, HNHO_ORDINATE_LIMIT, i);
  refuses("a piece that crosses", line_at() + 1, -1, HNHO_PIECE_CROSSES, line_at());
  refuses("a later piece that crosses", across_at() - 2, -1, HNHO_PIECE_CROSSES, across_at() - 2);
  refuses("a mark", last_mark, 3, HNHO_TABLE_LIMIT, last_mark);
  refuses("a value", last_mark - 1, INT32_MAX, HNHO_TABLE_LIMIT, last_mark - effect_words() + 1);
  for (i = rows_at(); i < job_bytes / 4; i++)
    refuses("a word of a row or a record", i, i % 2 == 0 ? 3001 : -1, HNHO_TABLE_LIMIT, i);
}

/* 7 and 8 at a row's first word. The spelled chains of rows 1 and 2 have two records at least, and are not shared. */
static void wrong_chains(void) {
  int32_t row;
  for (row = 0; row < 2; row++) {
    const size_t at = rows_at() + ROW_WORDS * (size_t)row;
    size_t head, next;
    spell();
    head = records_at() + RECORD_WORDS * (size_t)(first[row] - 1);
    next = records_at() + RECORD_WORDS * (size_t)(hnho_word(job, head + 2) - 1);
    refuses("a chain that comes back", next + 2, first[row], HNHO_CHAIN_RETURNS, at);
    refuses("a record that leads to itself", head + 2, first[row], HNHO_CHAIN_RETURNS, at);
    refuses("an effect twice", next, hnho_word(job, head), HNHO_EFFECT_TWICE, at);
  }
}

static void refusals(void) {
  table(3, 4);
  fill(0, 4);
  memset(&spelling, 0, sizeof spelling);
  spelling.order = spelling.numbering = 2;
  make_due();
  wrong_lengths();
  spell();
  wrong_words();
  wrong_chains();
}

/* ---- a farm job */

static void put_farm_job(void) {
  static const int32_t header[] = {HNHO_EDITION_RURAL, 50, 1, 50, 300, HNHO_DYNAMIC_BELOW_GROUND, 0, 11, 0, 0, HNHO_BARRIERS_NONE};
  size_t i;
  job_bytes = 0;
  for (i = 0; i < sizeof header / sizeof *header; i++)
    put(header[i]);
  put(8);
  put(8);
  for (i = 0; i < 7; i++)
    put(1000);
  for (i = 0; i < 11; i++) {
    put(5);
    put(i < 3 ? HNHO_MARK_ALWAYS : HNHO_MARK_OPTIONAL);
  }
}

/* A farm job has no form, good or bad: 1 at place 0. */
static void farm_jobs(void) {
  static struct solved of_job;
  size_t whole, i;
  step = "a farm job";
  put_farm_job();
  whole = due_bytes = job_bytes;
  solve(job, job_bytes, &of_job);
  refused(HNHO_NOT_A_JOB, 0);
  step = "a farm job cut short";
  for (i = 0; i < whole; i++) {
    job_bytes = i;
    refused(HNHO_NOT_A_JOB, 0);
  }
  job_bytes = whole + 4;
  refused(HNHO_NOT_A_JOB, 0);
  step = "a farm job with one word at fault";
  for (i = 1; i < whole / 4; i++) {
    put_farm_job();
    hnho_put_word(job, i, i == HNHO_WORD_W ? 371 : INT32_MIN);
    refused(HNHO_NOT_A_JOB, 0);
  }
}

/* ---- by hand */

#define COUNT(words) (sizeof(words) / sizeof *(words))

static void by_hand(const char *name, const int32_t *words, size_t count, const int32_t *form, size_t form_words) {
  size_t i;
  step = name;
  job_bytes = 0;
  for (i = 0; i < count; i++)
    put(words[i]);
  due_bytes = form_bytes = 4 * form_words;
  for (i = 0; i < form_words; i++)
    hnho_put_word(due, i, form[i]);
  report_bytes = HNHO_FORM_REPORT_BYTES;
  accepted();
  form_bytes--;
  call(HNHO_FORM_SHORT, due_bytes);
  form_bytes += 100;
  accepted();
  job_is_due();
  accepted();
}

/* Row 1 has effects 2 and 1, the latter with factor 0; row 2 effects 2, 3 and 1; row 3 the last two of these, whose records it shares;
 * row 4 effect 1 with factor 0. Records 5 and 7 are on no chain. */
#define ROWS_AND_RECORDS \
  1, 1, 1350, 3, 2, 0, 0, 6, 2, 2, 1500, 1, 1, 0, 0, 4, /* rows: state, live kind, live factor, first record */ \
  3, 900, 2, 1, 1100, 0, 2, 1200, 4, 1, 0, 0, 3, 3000, 5, 2, 1, 1, 1, 800, 7 /* records: effect, factor, next */
/* Row 1: effect 2. Row 2: 1, 2, 3. Row 3: 1, 3. Row 4: none. */
#define ROWS_AND_RECORDS_OF_THE_FORM \
  1, 1, 1350, 1, 2, 0, 0, 2, 2, 2, 1500, 5, 1, 0, 0, 0, \
  2, 1200, 0, 1, 1100, 3, 2, 1, 4, 3, 900, 0, 1, 1100, 6, 3, 900, 0
#define ACROSS 1000, 900, 800, 700, 600, 500, 400
#define EFFECTS -5, 1, 7, 2, 1000000000, 1
/* -1 N.U, 2^32 N.U and -2^32 - 2 N.U */
#define WIDE_EFFECTS -1, -1, 1, 0, 1, 2, -2, -2, 1

static void forms_by_hand(void) {
  static const int32_t one[] = {1, 50, 1, 50, 300, 2, 0, 3, 4, 7, 8, 0, ACROSS, EFFECTS, ROWS_AND_RECORDS};
  static const int32_t form_1[] = {1, 50, 1, 50, 300, 2, 0, 3, 4, 6, 8, 0, ACROSS, EFFECTS, ROWS_AND_RECORDS_OF_THE_FORM};
  static const int32_t two[] = {2, 50, 1, 50, 300, 4, 1, 3, 4, 7, 2000, 0, -8, -9, ACROSS, WIDE_EFFECTS, ROWS_AND_RECORDS};
  static const int32_t form_2[] = {2, 50, 1, 50, 300, 4, 1, 3, 4, 6, 2000, 0, -8, -9, ACROSS, WIDE_EFFECTS,
                                   ROWS_AND_RECORDS_OF_THE_FORM};
  static const int32_t three[] = {3, 50, 1, 50, 300, 1, 1300, 3, 4, 7, 0, 0, 350, 500, 0, ACROSS, -1, -2, -3, -4, -5, -6, -7, -1000,
                                  WIDE_EFFECTS, ROWS_AND_RECORDS};
  static const int32_t form_3[] = {3, 50, 1, 50, 300, 1, 1300, 3, 4, 6, 0, 0, 350, 500, 0, ACROSS, -1, -2, -3, -4, -5, -6, -7, -1000,
                                   WIDE_EFFECTS, ROWS_AND_RECORDS_OF_THE_FORM};
  by_hand("edition 1 by hand", one, COUNT(one), form_1, COUNT(form_1));
  by_hand("edition 2 by hand", two, COUNT(two), form_2, COUNT(form_2));
  by_hand("edition 3 by hand", three, COUNT(three), form_3, COUNT(form_3));
}

/* ---- the header's functions */

static void words_read(void) {
  static const struct {
    int32_t word;
    uint8_t bytes[4];
  } known[] = {{0, {0, 0, 0, 0}}, {1, {1, 0, 0, 0}}, {-1, {255, 255, 255, 255}}, {67305985, {1, 2, 3, 4}}, {-2, {254, 255, 255, 255}},
               {INT32_MAX, {255, 255, 255, 127}}, {INT32_MIN, {0, 0, 0, 128}}};
  uint8_t words[12];
  size_t i;
  step = "hnho_word and hnho_put_word";
  for (i = 0; i < COUNT(known); i++) {
    memset(words, OLD_FORM, sizeof words);
    hnho_put_word(words, 1, known[i].word);
    expect(memcmp(words + 4, known[i].bytes, 4) == 0, "the bytes put");
    expect(all_are(words, 0, 4, OLD_FORM) && all_are(words, 8, 12, OLD_FORM), "a byte beside the word changed");
    expect(hnho_word(words, 1) == known[i].word, "the word read");
  }
}

int main(void) {
  put_up_fences();
  words_read();
  forms_by_hand();
  for (edition = HNHO_EDITION_HIGHWAY; edition <= HNHO_EDITION_TWO_CARRIAGEWAYS; edition++) {
    spellings();
    most_records();
    longest_form();
    one_word_another();
    buffers();
    refusals();
  }
  farm_jobs();
  printf("form_edges: %d calls answered as due\n", calls);
  return 0;
}

/* hnho.h - the HN-HO-72 load kernel for hosts in C99 or C++.
 *
 * One call takes a job (an influence line, a transverse line for each carriageway, dynamic factors and a table of load factors, as
 * 32-bit words; a farm bridge's table is built in) to its account (the worst traffic values with a placement that gives each, and the
 * row that governs each limit state), or refuses it with a number and a word place. Another rates a train of axles on an influence
 * line alone. A third writes a job's standard form, equal bytes for jobs that say the same. Link with libhnho.a. docs/HOST.md has the
 * five-minute path.
 *
 * The kernel keeps no state, allocates nothing and does no input or output: any number of threads may call it at once,
 * each with its own patch, account, form and report buffers.
 */
#ifndef HNHO_H
#define HNHO_H

#include <stddef.h>
#include <stdint.h>

#ifdef __cplusplus
extern "C" {
#endif

/* The number of the account's layout in this header. Where hnho_layout() answers another, the archive is not this header's. */
#define HNHO_LAYOUT 1

/* Sizes. */
#define HNHO_ACCOUNT_BYTES 1256  /* an account: HNHO_ACCOUNT_NUMBERS numbers of 8 bytes */
#define HNHO_ACCOUNT_NUMBERS 157
#define HNHO_LANES 10  /* lanes of a placement, up to five of each carriageway */
#define HNHO_MOST_PATCH_BYTES 1000  /* a patch buffer that is long enough for every job: N is at most 1000 */
#define HNHO_MOST_JOB_BYTES 16572  /* the longest accepted job of any edition, and the longest form: 4143 words, of edition 3 */
#define HNHO_RATING_BYTES 72  /* a train's report: HNHO_RATING_NUMBERS numbers of 8 bytes */
#define HNHO_RATING_NUMBERS 9
#define HNHO_MOST_AXLES 12  /* of a train */
#define HNHO_FORM_REPORT_BYTES 8  /* a form's report: one number of 8 bytes, the form's length */

/* The number of the layout in which the archive writes an account. */
uint32_t hnho_layout(void);

/* Solves a job.
 *
 * job, job_bytes: the job, 32-bit words, little-endian, signed but for the low halves of values in N.U. Only read.
 *
 * patch, patch_bytes: a byte a piece of the influence line, so N or more; longer is fine. On acceptance byte i, from 0, gets
 * HNHO_PATCH_RAISING where piece i's ordinates add up to more than 0, HNHO_PATCH_LOWERING where to less, HNHO_PATCH_NEITHER
 * where to 0: a raising element's uniform load lies on the pieces with 1, a lowering one's on those with 2. Bytes past N
 * keep their contents. On a refusal every byte keeps its contents.
 *
 * account, account_bytes: HNHO_ACCOUNT_BYTES or more. The first HNHO_ACCOUNT_BYTES bytes get the account, zeros on a refusal;
 * bytes past them keep their contents. A shorter buffer is refused with 2 at place 0: all of its bytes are set to 0, the patch
 * buffer keeps its contents and the job is not looked at. (A job's own refusal 2 has a place from 1 to 12.)
 *
 * Result: 0 for acceptance, else 256 times the place plus the refusal's number; hnho_refusal and hnho_place take it apart.
 *
 * The three buffers must not overlap. A null pointer is fine with length 0, and with no other length. Every byte string is
 * answered, whatever is in it.
 */
uint64_t hnho_solve(const uint8_t *job, size_t job_bytes, uint8_t *patch, size_t patch_bytes, uint8_t *account, size_t account_bytes);

/* An axle of a train. */
struct hnho_axle {
  uint32_t load;  /* kN: 1 to 400 */
  uint32_t at;    /* dm from the first axle: 0 to 500, a multiple of h, 0 for the first axle, never below the axle before */
};

/* Which axles of a train count. */
enum hnho_train_mode {
  HNHO_ALL_AXLES = 1,
  HNHO_WITHOUT_RELIEF = 2  /* not one that relieves: greatest counts no ordinate below 0, least none above, axle by axle */
};

/* Rates a train: its greatest and its least effect on a line, each with a stand that gives it.
 *
 * h, pieces: piece length in dm and N, the number of pieces, with the limits of words 1 and 2 of a job.
 *
 * line, line_bytes: the line's section as a job has it, 8 * N bytes: a left and a right ordinate a piece, -5000 to 5000, as
 * signed 32-bit words, little-endian. Only read.
 *
 * train, axles: the axles in order, 1 to HNHO_MOST_AXLES of them. Only read.
 *
 * mode: of enum hnho_train_mode.
 *
 * report, report_bytes: HNHO_RATING_BYTES or more. The first HNHO_RATING_BYTES bytes get the rating, zeros on a refusal; bytes
 * past them keep their contents. A shorter buffer is refused with 2 at place 0, and all of its bytes are set to 0.
 *
 * What the rating promises: for every whole k from 1 up, wherever the leftmost axle stands by k-ths of a piece, with the train
 * partly or wholly off the line too, on either side (one for all axles), as given or turned end for end, the loads times their
 * ordinates add up to no more than greatest and no less than least; and the stands in the rating give exactly these. Nothing is
 * rounded. Of equally good stands one is shown.
 *
 * Result: 0 for a rating, else 256 times the place plus the refusal's number: 2 at place 0 (h, N, the section's or the
 * report's length, the mode), 4 or 5 (at a word of the section, counted from 0) or 10 (at an axle).
 *
 * The three buffers must not overlap. A null pointer is fine with length 0, and with no other length. Every line, every train and
 * every number is answered, whatever it is.
 */
uint64_t hnho_train(size_t h, size_t pieces, const uint8_t *line, size_t line_bytes, const struct hnho_axle *train, size_t axles,
                    size_t mode, uint8_t *report, size_t report_bytes);

/* Writes a job's standard form: of all jobs that say the same, one. It is a job itself, of the same edition, for archives and for
 * comparing jobs byte by byte.
 *
 * job, job_bytes: a job of edition 1, 2 or 3. Only read.
 *
 * form, form_bytes: the output buffer; HNHO_MOST_JOB_BYTES is enough for every form. On acceptance the form is put at its front, and
 * the bytes past it keep their contents. On a refusal every byte keeps its contents.
 *
 * report, report_bytes: HNHO_FORM_REPORT_BYTES or more. The first HNHO_FORM_REPORT_BYTES bytes get the form's length in bytes, as
 * hnho_form_bytes reads it, 0 on a refusal; bytes past them keep their contents. A shorter buffer is refused with 2 at place 0: all of
 * its bytes are set to 0, the output buffer keeps its contents and the job is not looked at.
 *
 * The form has the job's header but for C, its lines and effects, and its rows but for their first records. Its records are those
 * that the rows' factors call for and no others, numbered in row order: each row has its own, rising by effect, none with factor 0.
 * A record's next is the one after it, the last one's of a row 0. A row's first record is the first of its own, 0 where it has none.
 * So C is at most R times E, and the form may be longer than its job, where rows share records.
 *
 * What the form promises: two accepted jobs of one edition have equal forms, by length and memcmp, exactly when they have the same
 * header but for C, the same lines and effects, marks included, and in each row the same state, live kind and live factor and for each
 * effect the same factor, 0 where the row's chain does not name it. The form is accepted in the job's edition, and its own form is
 * itself. The traffic values, the states' values with their rows and the patch bytes that hnho_solve gives are the job's, and a
 * placement that attains one of the job's values attains it for the form. Not the job's are records_walked, which is the form's C,
 * and bits of left_out for effects whose factor in the row is 0: in the form the row does not name them.
 *
 * Result: 0 for a form, else 256 times the place plus the refusal's number: 2 at place 0 for a short report buffer, then the job's
 * own 1 to 8 as hnho_solve has them, but 1 at place 0 for every job of edition 4, then 12 for an output buffer shorter than the form,
 * the place being the form's bytes.
 *
 * The three buffers must not overlap. A null pointer is fine with length 0, and with no other length. Every byte string is
 * answered, whatever is in it.
 */
uint64_t hnho_write(const uint8_t *job, size_t job_bytes, uint8_t *form, size_t form_bytes, uint8_t *report, size_t report_bytes);

/* Refusals, each with its place: a word of the job, counted from 0, where nothing else is said. A short account or report buffer is
 * told first, as 2 at place 0. Then the tests run in rising number, but 11 straight after 2; the first that applies is given, with
 * its lowest place. hnho_refusal_text says what is wrong and who mends it.
 */
enum hnho_refusal_number {
  HNHO_ACCEPTED = 0,
  HNHO_NOT_A_JOB = 1,       /* 0; in hnho_write for a job of edition 4, too */
  HNHO_HEADER_LIMIT = 2,    /* the word, 1 to 12 (N times h over 1000 counts at 2); 0 for a short buffer, and in hnho_train */
  HNHO_WORD_COUNT = 3,      /* the number of words due */
  HNHO_ORDINATE_LIMIT = 4,  /* the word */
  HNHO_PIECE_CROSSES = 5,   /* the piece's left ordinate */
  HNHO_TABLE_LIMIT = 6,     /* the word; for a value of two words its low half, whichever half is at fault */
  HNHO_CHAIN_RETURNS = 7,   /* the row's first word */
  HNHO_EFFECT_TWICE = 8,    /* the row's first word */
  HNHO_PATCH_SHORT = 9,     /* N */
  HNHO_TRAIN_LIMIT = 10,    /* the first axle at fault, counted from 1; 0 for the number of axles */
  HNHO_WIDTH_BAND = 11,     /* 4: a farm bridge's clear width outside its barriers' band; tested after 2 and before 3 */
  HNHO_FORM_SHORT = 12      /* the form's bytes: so many are due, and the output buffer has fewer */
};

/* The edition of a job. */
enum hnho_edition {
  HNHO_EDITION_HIGHWAY = 1,
  HNHO_EDITION_NEWTONS = 2,  /* a highway bridge's, with effects in N.U (past 1000000000 kN.U, or not whole kN.U) or spans by sign */
  HNHO_EDITION_TWO_CARRIAGEWAYS = 3,  /* edition 2's, with a second carriageway beyond a median */
  HNHO_EDITION_RURAL = 4
};

/* The barriers of a farm bridge, with the clear widths in cm that go with each, both ends allowed. */
enum hnho_barriers {
  HNHO_BARRIERS_NONE = 1,        /* 300 to 370 */
  HNHO_BARRIERS_PEDESTRIAN = 2,  /* 300 to 370 */
  HNHO_BARRIERS_TRAFFIC = 3      /* 370 to 430 */
};

/* The dynamic kinds, with the value that goes with each. */
enum hnho_dynamic_kind {
  HNHO_DYNAMIC_FACTOR = 1,        /* the factor in thousandths, 1000 to 1300 */
  HNHO_DYNAMIC_BELOW_GROUND = 2,  /* 0: the factor is 1000 */
  HNHO_DYNAMIC_FILL = 3,          /* a culvert top slab under so much fill in cm, 0 to 5000: 1300 less 3 a cm, at least 1000 */
  HNHO_DYNAMIC_SPANS = 4          /* editions 2 and 3: a span in dm for each question, greatest and least, 1 to 2000; a factor is 1300
                                     for spans up to 120 dm, beyond that 1000 and 150000 / (span + 380) rounded up */
};

/* The mark of an effect. */
enum hnho_mark { HNHO_MARK_ALWAYS = 1, HNHO_MARK_OPTIONAL = 2 /* may be left out */ };

/* The limit state of a row, and its live kind. */
enum hnho_row_state { HNHO_ROW_SERVICE = 1, HNHO_ROW_ULTIMATE = 2 };
enum hnho_live_kind { HNHO_LIVE_NONE = 0, HNHO_LIVE_NORMAL = 1, HNHO_LIVE_OVERLOAD = 2 };

/* The words of a job, by place.
 *
 *   0  edition: 1, 2 for effects in N.U or spans by sign, 3 for two carriageways, or 4 for a farm bridge
 *   1  h, piece length in dm: 1, 2, 5, 10, 25 or 50
 *   2  N, pieces: 1 to 1000, N times h at most 1000
 *   3  g, spacing of the transverse ordinates in cm: 10 to 50
 *   4  W, carriageway width in cm: 300 to 2079; in edition 3 the first carriageway's
 *   5  dynamic kind, of enum hnho_dynamic_kind: 1 to 3; in editions 2 and 3 also 4
 *   6  its value; with kind 4 the span for greatest
 *   7  E, effects: 0 to 16; 11 in edition 4
 *   8  R, rows: 1 to 32; 0 in edition 4
 *   9  C, chain records: 0 to 512; 0 in edition 4
 *  10  editions 2 and 3: with kind 4 the span for least, else 0
 *  10  edition 4: of enum hnho_barriers. W is then the clear width and within the barriers' band, else refusal 11
 *  11  editions 2 and 3: reserved, 0
 *  12  edition 3: the second carriageway's width in cm: 300 to 2079
 *
 * After the header, from word 10 on, in edition 4 from word 11 on, in edition 2 from word 12 on, in edition 3 from word 13 on, one
 * section after the other:
 *   2 N    ordinates of the influence line, a left and a right one a piece: -5000 to 5000, in edition 3 -500 to 500, in a unit U of
 *          the sender's
 *   M + 1  transverse ordinates, M = W / g rounded up: -1000 to 1000 in thousandths, the first at the left kerb
 *   M + 1  in edition 3 only: those of the second carriageway, M by its own width, the first at its own left kerb
 *   2 E    effects: value in kN.U, -1000000000 to 1000000000; mark, of enum hnho_mark
 *   3 E    in editions 2 and 3 instead: value in N.U, -100000000000000 to 100000000000000, in two words, the low half unsigned and
 *          then the high half signed, as hnho_put_wide writes it; the same marks
 *   4 R    rows: limit state, of enum hnho_row_state; live kind, of enum hnho_live_kind; live factor 0 to 3000, 0 for kind 0; first
 *          record, 0 to C, 0 for none
 *   3 C    records: effect 1 to E; factor 0 to 3000; next record, 0 to C, 0 for the end of the chain
 * Factors are thousandths. Effects, rows and records count from 1.
 *
 * Edition 4 has no rows and no records: rows 1 to 20 are built in, docs/HOST.md lists them. Its effects are DL, EP, OW, SG, ST, TP,
 * HE, WD, FW, EQ and CN, in this order, the first three marked 1 and the others 2, else refusal 6 at the mark. It has one lane and
 * 0.85 HN, and no HO: overload's values are 0 and its placements unloaded.
 */
enum hnho_word_place {
  HNHO_WORD_EDITION = 0,
  HNHO_WORD_H = 1,
  HNHO_WORD_N = 2,
  HNHO_WORD_G = 3,
  HNHO_WORD_W = 4,
  HNHO_WORD_DYNAMIC_KIND = 5,
  HNHO_WORD_DYNAMIC_VALUE = 6,
  HNHO_WORD_GREATEST_SPAN = 6,  /* in editions 2 and 3 with kind 4 */
  HNHO_WORD_E = 7,
  HNHO_WORD_R = 8,
  HNHO_WORD_C = 9,
  HNHO_WORD_LEAST_SPAN = 10,   /* in editions 2 and 3; 0 but with kind 4 */
  HNHO_WORD_BARRIERS = 10,     /* in edition 4 */
  HNHO_WORD_SECOND_W = 12,     /* in edition 3 */
  HNHO_HEADER_WORDS = 10,      /* of edition 1 */
  HNHO_NEWTONS_HEADER_WORDS = 12,  /* of edition 2 */
  HNHO_TWO_CARRIAGEWAYS_HEADER_WORDS = 13,  /* of edition 3 */
  HNHO_RURAL_HEADER_WORDS = 11  /* of edition 4 */
};

/* Bytes of the patch buffer. */
enum hnho_patch_byte { HNHO_PATCH_NEITHER = 0, HNHO_PATCH_RAISING = 1, HNHO_PATCH_LOWERING = 2 };

/* The ordinate that both axles of a pair, or all axles of a train, take at their stations: just left or just right of them. */
enum hnho_side { HNHO_SIDE_LEFT = 0, HNHO_SIDE_RIGHT = 1 };

/* The way round of a train: the first axle leftmost, or the last, with distances counted from it. */
enum hnho_way { HNHO_AS_GIVEN = 0, HNHO_TURNED = 1 };

/* What a lane carries. */
enum hnho_lane_entry { HNHO_UNLOADED = 0, HNHO_HN_RAISING = 1, HNHO_HN_LOWERING = 2, HNHO_HO_RAISING = 3, HNHO_HO_LOWERING = 4 };

/* Where an axle pair stands. */
struct hnho_position {
  int64_t station;  /* of the left axle, in pieces from the line's left end; below 0 to the left of the line */
  int64_t side;     /* of enum hnho_side */
};

/* What a lane carries in a placement; all 0 for an unloaded lane. */
struct hnho_lane {
  int64_t entry;   /* of enum hnho_lane_entry */
  int64_t centre;  /* in n-ths of a cm from its own carriageway's left kerb, n being the lanes of that carriageway; see hnho_lane_n */
  int64_t factor;  /* in twentieths, of an additional lane, one under HN beside the HO lane of an overload: 20, 18, 16, 14, 12 or,
                      from the sixth on, 11; else 0 */
};

/* A placement of traffic. */
struct hnho_placement {
  int64_t set;                        /* a bit a lane, lane 1 the lowest; 1 for a loaded lane */
  struct hnho_lane lane[HNHO_LANES];  /* from lane 1, the leftmost, at 0; the second carriageway's follow the first's; those past the
                                         job's own are unloaded */
};

/* The row that governs a question of a limit state. */
struct hnho_governing {
  int64_t value;     /* in thousandths of N.U, less than 4.81e18 away from 0; two jobs' values may differ by more than 64 bits hold */
  int64_t row;       /* from 1; the lowest at a tie */
  int64_t left_out;  /* a bit an effect, effect 1 the lowest; 1 where the effect is left out */
  int64_t unladen;   /* 1 where the traffic is left out, else 0, as for a row without traffic */
  int64_t k;         /* of row 16 of a farm job, its factor of DL in thousandths: 1300 or 800, either where both give it; else 0 */
};

/* A limit state. */
struct hnho_state {
  int64_t reported;  /* 1 where the state has a row; else 0, as is all that follows */
  struct hnho_governing greatest;
  struct hnho_governing least;
};

/* An account, as hnho_read_account takes it out of its bytes. All 0 on a refusal. */
struct hnho_account {
  /* Traffic values in N.U: greatest rounded up, least rounded down. */
  int64_t normal_greatest;
  int64_t normal_least;
  int64_t overload_greatest;
  int64_t overload_least;

  /* The axle pair of every raising and of every lowering element. */
  struct hnho_position raising;
  struct hnho_position lowering;

  /* A placement that gives each traffic value. In normal all loaded lanes count one factor, by their number; in overload, of which a
   * farm job has none, the HO lane counts in full, and each additional lane the factor that it shows. */
  struct hnho_placement normal_greatest_placement;
  struct hnho_placement normal_least_placement;
  struct hnho_placement overload_greatest_placement;
  struct hnho_placement overload_least_placement;

  struct hnho_state service;
  struct hnho_state ultimate;

  int64_t first_lanes;     /* lanes of the carriageway, in edition 3 of the first */
  int64_t second_lanes;    /* lanes of the second carriageway; 0 where there is one carriageway */
  int64_t records_walked;  /* records on each row's chain, added up, so that a tail that rows share counts for each of them; at most R
                              times E, and so at most 512; 0 in a farm job, whose rows are built in */
};

/* Where a train stands. */
struct hnho_train_stand {
  int64_t way;      /* of enum hnho_way */
  int64_t side;     /* of enum hnho_side */
  int64_t station;  /* of the leftmost axle, in pieces from the line's left end: from minus the train's length in pieces to N */
};

/* A rating, as hnho_read_rating takes it out of its bytes. All 0 on a refusal. */
struct hnho_rating {
  /* In kN.U, exact. */
  int64_t greatest;
  int64_t least;
  int64_t difference;  /* greatest less least */

  /* A stand that gives each. */
  struct hnho_train_stand greatest_stand;
  struct hnho_train_stand least_stand;
};

/* Places in an account's bytes: number k is signed, of 64 bits, little-endian, and starts at byte 8 * k. The account has places of
 * its own; a number within a part is at the part's place plus its place in the part. So the row of the greatest service value
 * is number HNHO_SERVICE + HNHO_GREATEST + HNHO_ROW.
 */
enum hnho_account_place {
  /* In a position. */
  HNHO_STATION = 0,
  HNHO_SIDE = 1,
  HNHO_POSITION_NUMBERS = 2,

  /* In a lane. */
  HNHO_ENTRY = 0,
  HNHO_CENTRE = 1,
  HNHO_FACTOR = 2,
  HNHO_LANE_NUMBERS = 3,

  /* In a placement; the lanes are HNHO_LANE_NUMBERS apart. */
  HNHO_SET = 0,
  HNHO_LANE_1 = 1,
  HNHO_PLACEMENT_NUMBERS = HNHO_LANE_1 + HNHO_LANES * HNHO_LANE_NUMBERS,

  /* In the greatest or the least of a state. */
  HNHO_VALUE = 0,
  HNHO_ROW = 1,
  HNHO_LEFT_OUT = 2,
  HNHO_UNLADEN = 3,
  HNHO_K = 4,
  HNHO_GOVERNING_NUMBERS = 5,

  /* In a state. */
  HNHO_REPORTED = 0,
  HNHO_GREATEST = 1,
  HNHO_LEAST = HNHO_GREATEST + HNHO_GOVERNING_NUMBERS,
  HNHO_STATE_NUMBERS = HNHO_LEAST + HNHO_GOVERNING_NUMBERS,

  /* In the account. */
  HNHO_NORMAL_GREATEST = 0,
  HNHO_NORMAL_LEAST = 1,
  HNHO_OVERLOAD_GREATEST = 2,
  HNHO_OVERLOAD_LEAST = 3,
  HNHO_RAISING = 4,
  HNHO_LOWERING = HNHO_RAISING + HNHO_POSITION_NUMBERS,
  HNHO_NORMAL_GREATEST_PLACEMENT = HNHO_LOWERING + HNHO_POSITION_NUMBERS,
  HNHO_NORMAL_LEAST_PLACEMENT = HNHO_NORMAL_GREATEST_PLACEMENT + HNHO_PLACEMENT_NUMBERS,
  HNHO_OVERLOAD_GREATEST_PLACEMENT = HNHO_NORMAL_LEAST_PLACEMENT + HNHO_PLACEMENT_NUMBERS,
  HNHO_OVERLOAD_LEAST_PLACEMENT = HNHO_OVERLOAD_GREATEST_PLACEMENT + HNHO_PLACEMENT_NUMBERS,
  HNHO_SERVICE = HNHO_OVERLOAD_LEAST_PLACEMENT + HNHO_PLACEMENT_NUMBERS,
  HNHO_ULTIMATE = HNHO_SERVICE + HNHO_STATE_NUMBERS,
  HNHO_FIRST_LANES = HNHO_ULTIMATE + HNHO_STATE_NUMBERS,
  HNHO_SECOND_LANES = HNHO_FIRST_LANES + 1,
  HNHO_RECORDS_WALKED = HNHO_SECOND_LANES + 1
};

/* Places in a rating's bytes, in the same way. */
enum hnho_rating_place {
  /* In a stand. */
  HNHO_STAND_WAY = 0,
  HNHO_STAND_SIDE = 1,
  HNHO_STAND_STATION = 2,
  HNHO_STAND_NUMBERS = 3,

  /* In the rating. */
  HNHO_RATING_GREATEST = 0,
  HNHO_RATING_LEAST = 1,
  HNHO_RATING_DIFFERENCE = 2,
  HNHO_RATING_GREATEST_STAND = 3,
  HNHO_RATING_LEAST_STAND = HNHO_RATING_GREATEST_STAND + HNHO_STAND_NUMBERS
};

/* A result's refusal number, 0 for acceptance. */
static inline int hnho_refusal(uint64_t result) {
  return (int)(result & 255u);
}

/* A result's place. */
static inline uint64_t hnho_place(uint64_t result) {
  return result >> 8;
}

/* What is wrong with a job, a train or the buffers and who mends it, by the refusal's number; a line without its newline. */
static inline const char *hnho_refusal_text(int number) {
  switch (number) {
  case HNHO_ACCEPTED:
    return "accepted";
  case HNHO_NOT_A_JOB:
    return "under 10 words, in edition 4 under 11, in edition 2 under 12, in edition 3 under 13, a byte count that 4 does not "
           "divide, or word 0 is none of 1 to 4; mended by whoever packs the job";
  case HNHO_HEADER_LIMIT:
    return "a header word outside its limits; mended by whoever packs the job (at place 0 a short account or report buffer, or "
           "h, N, the section's length or the mode of a train's call outside its limits; mended by the host)";
  case HNHO_WORD_COUNT:
    return "not the number of words that the header calls for; mended by whoever packs the job";
  case HNHO_ORDINATE_LIMIT:
    return "an ordinate of the influence line, -500 to 500 with two carriageways and else -5000 to 5000, or of a transverse line, "
           "-1000 to 1000, outside its limits; mended by whoever works out the lines";
  case HNHO_PIECE_CROSSES:
    return "a piece with one ordinate above 0 and one below; mended by whoever works out the lines";
  case HNHO_TABLE_LIMIT:
    return "a word of an effect, a row or a record, or an effect's value of two words, outside its limits; mended by whoever keeps "
           "the factors";
  case HNHO_CHAIN_RETURNS:
    return "a row's chain comes back to a record; mended by whoever keeps the factors";
  case HNHO_EFFECT_TWICE:
    return "a row's chain names an effect twice; mended by whoever keeps the factors";
  case HNHO_PATCH_SHORT:
    return "the patch buffer has fewer bytes than the line has pieces; mended by the host";
  case HNHO_TRAIN_LIMIT:
    return "the number of axles, or an axle's load or distance, outside its limits; mended by whoever gives the train";
  case HNHO_WIDTH_BAND:
    return "a farm bridge's clear width outside its barriers' band; mended by whoever packs the job";
  default:
    return "no refusal of this kernel";
  }
}

/* Number k of an account, a rating or a form's report, on any machine. */
static inline int64_t hnho_number(const uint8_t *numbers, size_t k) {
  uint64_t bits = 0;
  size_t i;
  for (i = 8; i > 0; i--)
    bits = bits << 8 | numbers[8 * k + i - 1];
  return bits >> 63 ? -(int64_t)~bits - 1 : (int64_t)bits;
}

/* The part of an account at a place; hnho_read_account takes them all. */
static inline void hnho_read_position(const uint8_t *bytes, size_t place, struct hnho_position *position) {
  position->station = hnho_number(bytes, place + HNHO_STATION);
  position->side = hnho_number(bytes, place + HNHO_SIDE);
}

static inline void hnho_read_placement(const uint8_t *bytes, size_t place, struct hnho_placement *placement) {
  size_t i;
  placement->set = hnho_number(bytes, place + HNHO_SET);
  for (i = 0; i < HNHO_LANES; i++) {
    size_t lane = place + HNHO_LANE_1 + i * HNHO_LANE_NUMBERS;
    placement->lane[i].entry = hnho_number(bytes, lane + HNHO_ENTRY);
    placement->lane[i].centre = hnho_number(bytes, lane + HNHO_CENTRE);
    placement->lane[i].factor = hnho_number(bytes, lane + HNHO_FACTOR);
  }
}

static inline void hnho_read_governing(const uint8_t *bytes, size_t place, struct hnho_governing *governing) {
  governing->value = hnho_number(bytes, place + HNHO_VALUE);
  governing->row = hnho_number(bytes, place + HNHO_ROW);
  governing->left_out = hnho_number(bytes, place + HNHO_LEFT_OUT);
  governing->unladen = hnho_number(bytes, place + HNHO_UNLADEN);
  governing->k = hnho_number(bytes, place + HNHO_K);
}

static inline void hnho_read_state(const uint8_t *bytes, size_t place, struct hnho_state *state) {
  state->reported = hnho_number(bytes, place + HNHO_REPORTED);
  hnho_read_governing(bytes, place + HNHO_GREATEST, &state->greatest);
  hnho_read_governing(bytes, place + HNHO_LEAST, &state->least);
}

/* Takes an account out of the HNHO_ACCOUNT_BYTES bytes that hnho_solve wrote, on any machine. */
static inline void hnho_read_account(const uint8_t *bytes, struct hnho_account *account) {
  account->normal_greatest = hnho_number(bytes, HNHO_NORMAL_GREATEST);
  account->normal_least = hnho_number(bytes, HNHO_NORMAL_LEAST);
  account->overload_greatest = hnho_number(bytes, HNHO_OVERLOAD_GREATEST);
  account->overload_least = hnho_number(bytes, HNHO_OVERLOAD_LEAST);
  hnho_read_position(bytes, HNHO_RAISING, &account->raising);
  hnho_read_position(bytes, HNHO_LOWERING, &account->lowering);
  hnho_read_placement(bytes, HNHO_NORMAL_GREATEST_PLACEMENT, &account->normal_greatest_placement);
  hnho_read_placement(bytes, HNHO_NORMAL_LEAST_PLACEMENT, &account->normal_least_placement);
  hnho_read_placement(bytes, HNHO_OVERLOAD_GREATEST_PLACEMENT, &account->overload_greatest_placement);
  hnho_read_placement(bytes, HNHO_OVERLOAD_LEAST_PLACEMENT, &account->overload_least_placement);
  hnho_read_state(bytes, HNHO_SERVICE, &account->service);
  hnho_read_state(bytes, HNHO_ULTIMATE, &account->ultimate);
  account->first_lanes = hnho_number(bytes, HNHO_FIRST_LANES);
  account->second_lanes = hnho_number(bytes, HNHO_SECOND_LANES);
  account->records_walked = hnho_number(bytes, HNHO_RECORDS_WALKED);
}

/* The n of lane[i] of a placement, whose centre is in n-ths of a cm: the lanes of its own carriageway; 0 past the lanes of the job. */
static inline int64_t hnho_lane_n(const struct hnho_account *account, size_t i) {
  const int64_t lane = (int64_t)i;
  if (lane < account->first_lanes)
    return account->first_lanes;
  return lane < account->first_lanes + account->second_lanes ? account->second_lanes : 0;
}

static inline void hnho_read_train_stand(const uint8_t *bytes, size_t place, struct hnho_train_stand *stand) {
  stand->way = hnho_number(bytes, place + HNHO_STAND_WAY);
  stand->side = hnho_number(bytes, place + HNHO_STAND_SIDE);
  stand->station = hnho_number(bytes, place + HNHO_STAND_STATION);
}

/* Takes a rating out of the HNHO_RATING_BYTES bytes that hnho_train wrote, on any machine. */
static inline void hnho_read_rating(const uint8_t *bytes, struct hnho_rating *rating) {
  rating->greatest = hnho_number(bytes, HNHO_RATING_GREATEST);
  rating->least = hnho_number(bytes, HNHO_RATING_LEAST);
  rating->difference = hnho_number(bytes, HNHO_RATING_DIFFERENCE);
  hnho_read_train_stand(bytes, HNHO_RATING_GREATEST_STAND, &rating->greatest_stand);
  hnho_read_train_stand(bytes, HNHO_RATING_LEAST_STAND, &rating->least_stand);
}

/* The length of the form in bytes, out of the HNHO_FORM_REPORT_BYTES bytes that hnho_write wrote, on any machine; 0 on a refusal. */
static inline size_t hnho_form_bytes(const uint8_t *report) {
  return (size_t)hnho_number(report, 0);
}

/* A word of a job or of a form, on any machine; the low half of a value in N.U as its 32 bits with a sign. */
static inline int32_t hnho_word(const uint8_t *words, size_t place) {
  uint32_t bits = 0;
  size_t i;
  for (i = 4; i > 0; i--)
    bits = bits << 8 | words[4 * place + i - 1];
  return bits >> 31 ? -(int32_t)~bits - 1 : (int32_t)bits;
}

/* Writes a word of a job or of a line's section, on any machine. */
static inline void hnho_put_word(uint8_t *words, size_t place, int32_t word) {
  uint32_t bits = (uint32_t)word;
  size_t i;
  for (i = 0; i < 4; i++)
    words[4 * place + i] = (uint8_t)(bits >> 8 * i & 255u);
}

/* Writes an effect's value of edition 2 or 3, in N.U: its low half into the word at this place, its high half into the next. */
static inline void hnho_put_wide(uint8_t *words, size_t place, int64_t value) {
  uint64_t bits = (uint64_t)value;
  size_t i;
  for (i = 0; i < 8; i++)
    words[4 * place + i] = (uint8_t)(bits >> 8 * i & 255u);
}

#ifdef __cplusplus
}
#endif

#endif

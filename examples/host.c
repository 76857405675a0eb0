/* A host in C99 or C++: packs Job A or reads the job of a file, calls the kernel and prints its account for a person to read.
 *
 *   host [JOB]
 *
 * docs/HOST.md has the commands that build it.
 */
#include <inttypes.h>
#include <stdio.h>

#include "hnho.h"

enum {
  PIECES = 20,
  TRANSVERSE = 19,
  EFFECTS = 1,
  ROWS = 2,
  RECORDS = 2
};

/* The job, with room for a word more than any has, so that an overlong file is refused. */
static uint8_t job[HNHO_MOST_JOB_BYTES + 4];
static size_t job_bytes;

/* Packs the job's next word. */
static void put(int32_t word) {
  hnho_put_word(job, job_bytes / 4, word);
  job_bytes += 4;
}

/* The ten words that say how many of everything follow. */
static void put_header(void) {
  put(1);       /* edition */
  put(10);      /* h: pieces of 10 dm */
  put(PIECES);  /* N */
  put(40);      /* g: transverse ordinates 40 cm apart */
  put(720);     /* W: carriageway in cm */
  put(1);       /* dynamic kind 1 */
  put(1300);    /* with its factor in thousandths */
  put(EFFECTS);
  put(ROWS);
  put(RECORDS);
}

/* The influence line, rising by 50 a piece to 500 and back; each piece has a left and a right ordinate. */
static void put_line(void) {
  int32_t i;
  for (i = 0; i < PIECES / 2; i++) {
    put(50 * i);
    put(50 * (i + 1));
  }
  for (i = PIECES / 2; i > 0; i--) {
    put(50 * i);
    put(50 * (i - 1));
  }
}

/* The transverse line, from 900 thousandths at the left kerb down to 0. */
static void put_transverse(void) {
  int32_t i;
  for (i = 0; i < TRANSVERSE; i++)
    put(900 - 50 * i);
}

static void put_row(int32_t state, int32_t live, int32_t factor, int32_t first) {
  put(state);
  put(live);
  put(factor);
  put(first);
}

static void put_record(int32_t effect, int32_t factor, int32_t next) {
  put(effect);
  put(factor);
  put(next);
}

/* One effect, always present; a service row with normal traffic and an ultimate row with overload, a record each. */
static void put_table(void) {
  put(80000); /* kN.U */
  put(HNHO_MARK_ALWAYS);
  put_row(HNHO_ROW_SERVICE, HNHO_LIVE_NORMAL, 1350, 1);
  put_row(HNHO_ROW_ULTIMATE, HNHO_LIVE_OVERLOAD, 1500, 2);
  put_record(1, 1000, 0);
  put_record(1, 1200, 0);
}

static void pack_job_a(void) {
  put_header();
  put_line();
  put_transverse();
  put_table();
}

/* Reads a file as the job; 0 where it cannot be opened or read. */
static int read_job(const char *path) {
  FILE *file = fopen(path, "rb");
  int good;
  if (file == NULL)
    return 0;
  job_bytes = fread(job, 1, sizeof job, file);
  good = !ferror(file);
  fclose(file);
  return good;
}

static const char *entry_name(int64_t entry) {
  switch (entry) {
  case HNHO_HN_RAISING: return "HN raising";
  case HNHO_HN_LOWERING: return "HN lowering";
  case HNHO_HO_RAISING: return "HO raising";
  case HNHO_HO_LOWERING: return "HO lowering";
  default: return "unloaded";
  }
}

/* The lanes of each carriageway. */
static void print_lanes(const struct hnho_account *account) {
  printf("  lanes %" PRId64, account->first_lanes);
  if (account->second_lanes != 0)
    printf(" + %" PRId64, account->second_lanes);
}

/* A traffic value and the placement that gives it. A lane's centre is counted from the left kerb of its own carriageway. */
static void print_traffic(const char *name, int64_t value, const struct hnho_placement *placement,
                          const struct hnho_account *account) {
  int i;
  printf("%s %" PRId64 " N.U\n", name, value);
  print_lanes(account);
  printf(", set %" PRId64 "\n", placement->set);
  for (i = 0; i < HNHO_LANES; i++) {
    const struct hnho_lane *lane = &placement->lane[i];
    if (lane->entry != HNHO_UNLOADED)
      printf("  lane %d: %s, centre %" PRId64 "/%" PRId64 " cm, factor %" PRId64 "\n", i + 1, entry_name(lane->entry), lane->centre,
             hnho_lane_n(account, i), lane->factor);
  }
}

static void print_position(const char *name, const struct hnho_position *position) {
  printf("%s pair at station %" PRId64 ", side %s\n", name, position->station, position->side == HNHO_SIDE_LEFT ? "left" : "right");
}

static void print_governing(const char *state, const char *question, const struct hnho_governing *governing) {
  printf("%s %s %" PRId64 " row %" PRId64 ", left out %" PRId64 ", traffic %s", state, question, governing->value, governing->row,
         governing->left_out, governing->unladen ? "left out" : "not left out");
  if (governing->k != 0) /* row 16 of a farm job: the factor of DL in thousandths */
    printf(", k %" PRId64, governing->k);
  printf("\n");
}

static void print_state(const char *name, const struct hnho_state *state) {
  if (!state->reported) {
    printf("%s none\n", name);
    return;
  }
  print_governing(name, "greatest", &state->greatest);
  print_governing(name, "least", &state->least);
}

static void print_account(const struct hnho_account *account) {
  print_traffic("normal greatest", account->normal_greatest, &account->normal_greatest_placement, account);
  print_traffic("normal least", account->normal_least, &account->normal_least_placement, account);
  print_traffic("overload greatest", account->overload_greatest, &account->overload_greatest_placement, account);
  print_traffic("overload least", account->overload_least, &account->overload_least_placement, account);
  print_position("raising", &account->raising);
  print_position("lowering", &account->lowering);
  print_state("service", &account->service);
  print_state("ultimate", &account->ultimate);
  printf("records walked %" PRId64 "\n", account->records_walked);
}

int main(int argc, char **argv) {
  static uint8_t patch[HNHO_MOST_PATCH_BYTES];
  static uint8_t bytes[HNHO_ACCOUNT_BYTES];
  struct hnho_account account;
  uint64_t result;

  if (hnho_layout() != HNHO_LAYOUT) {
    fprintf(stderr, "host: hnho.h and libhnho.a are of different layouts\n");
    return 1;
  }
  if (argc < 2) {
    pack_job_a();
  } else if (!read_job(argv[1])) {
    fprintf(stderr, "host: %s cannot be read\n", argv[1]);
    return 1;
  }

  result = hnho_solve(job, job_bytes, patch, sizeof patch, bytes, sizeof bytes);
  if (result != 0) {
    fprintf(stderr, "refused %d at %" PRIu64 ": %s\n", hnho_refusal(result), hnho_place(result), hnho_refusal_text(hnho_refusal(result)));
    return 1;
  }
  hnho_read_account(bytes, &account);
  print_account(&account);
  return 0;
}

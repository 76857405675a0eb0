/* Calls the kernel on every stored case and prints what comes of each, as crates/replay/stdout has it.
 *
 *   stored_calls JOBS
 *
 * JOBS is crates/replay/data/jobs; second/README.md has its format. Each buffer is of exactly the length that goes with its case.
 * The longest of the jobs that are accepted has HNHO_MOST_JOB_BYTES.
 */
#include <inttypes.h>
#include <stdio.h>
#include <stdlib.h>

#include "hnho.h"

static size_t longest; /* job that was accepted, in bytes */

static void fail(const char *what) {
  fprintf(stderr, "stored_calls: FAILED: %s\n", what);
  exit(1);
}

/* The file's next n bytes. */
static uint8_t *take(FILE *file, size_t n) {
  uint8_t *bytes = malloc(n > 0 ? n : 1);
  if (bytes == NULL)
    fail("no memory");
  if (fread(bytes, 1, n, file) != n)
    fail("the last case is cut short");
  return bytes;
}

static void print_state(const char *name, const struct hnho_state *state) {
  if (state->reported)
    printf("%s greatest %" PRId64 " row %" PRId64 " least %" PRId64 " row %" PRId64 "\n", name, state->greatest.value,
           state->greatest.row, state->least.value, state->least.row);
  else
    printf("%s none\n", name);
}

static void print_account(const struct hnho_account *account) {
  printf("normal greatest %" PRId64 " least %" PRId64 "\n", account->normal_greatest, account->normal_least);
  printf("overload greatest %" PRId64 " least %" PRId64 "\n", account->overload_greatest, account->overload_least);
  print_state("service", &account->service);
  print_state("ultimate", &account->ultimate);
}

/* The sum of the bytes, each times its number from 1 on. */
static uint64_t weighted_sum(const uint8_t *bytes, size_t n) {
  uint64_t sum = 0;
  size_t i;
  for (i = 0; i < n; i++)
    sum += (i + 1) * bytes[i];
  return sum;
}

/* Answers the file's next case; 0 at its end. */
static int answer(FILE *file) {
  uint8_t head[4];
  uint8_t *patch, *job, *bytes;
  struct hnho_account account;
  size_t got = fread(head, 1, sizeof head, file), job_bytes, patch_bytes;
  uint64_t result;
  if (got == 0)
    return 0;
  if (got < sizeof head)
    fail("the last case is cut short");
  job_bytes = head[0] + 256u * head[1];
  patch_bytes = head[2] + 256u * head[3];
  patch = take(file, patch_bytes);
  job = take(file, job_bytes);
  bytes = malloc(HNHO_ACCOUNT_BYTES);
  if (bytes == NULL)
    fail("no memory");
  result = hnho_solve(job, job_bytes, patch, patch_bytes, bytes, HNHO_ACCOUNT_BYTES);
  hnho_read_account(bytes, &account);
  if (result == 0 && job_bytes > longest)
    longest = job_bytes;
  if (result == 0)
    print_account(&account);
  else
    printf("refused %d at %" PRIu64 "\n", hnho_refusal(result), hnho_place(result));
  printf("patch %" PRIu64 " records %" PRId64 "\n", weighted_sum(patch, patch_bytes), account.records_walked);
  free(patch);
  free(job);
  free(bytes);
  return 1;
}

int main(int argc, char **argv) {
  FILE *file = argc == 2 ? fopen(argv[1], "rb") : NULL;
  if (file == NULL) {
    fprintf(stderr, "usage: stored_calls JOBS\n");
    return 2;
  }
  while (answer(file)) {
  }
  fclose(file);
  if (longest != HNHO_MOST_JOB_BYTES)
    fail("the longest job that was accepted has other than HNHO_MOST_JOB_BYTES bytes");
  return 0;
}

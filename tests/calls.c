/* Calls the kernel so many times on one job, train or job whose form is written, or measures the stack that a call uses.
 *   calls job|train|form FILE COUNT    makes COUNT calls, for an instruction count under callgrind
 *   calls job|train|form FILE stack    prints the bytes of stack that one call used
 * A train is a call of tests/train_case.h.
 */
#define _POSIX_C_SOURCE 200809L
#include "train_case.h"
#include <pthread.h>
#include <string.h>

enum { MOST_JOB = 65536, STACK = 1 << 18, PAINT = 0x5a };

static uint8_t job[MOST_JOB];
static size_t job_bytes;
static uint8_t patch[HNHO_MOST_PATCH_BYTES];
static uint8_t account[HNHO_ACCOUNT_BYTES];
static struct train_case train;
static uint8_t form[HNHO_MOST_JOB_BYTES];
static uint8_t report[HNHO_FORM_REPORT_BYTES];

static uint64_t solve(void) {
  return hnho_solve(job, job_bytes, patch, sizeof patch, account, sizeof account);
}

static uint64_t rate(void) {
  return call_train(&train);
}

static uint64_t write_form(void) {
  return hnho_write(job, job_bytes, form, sizeof form, report, sizeof report);
}

static uint64_t nothing(void) {
  return 0;
}

/* A call to make, and its result. */
struct work {
  uint64_t (*call)(void);
  uint64_t result;
};

static void *make(void *made) {
  struct work *work = made;
  work->result = work->call();
  return NULL;
}

/* The bytes of a painted stack that a thread making a call wrote. */
static size_t stack_of(uint64_t (*call)(void)) {
  struct work work = {call, 0};
  uint8_t *stack = NULL;
  pthread_attr_t attributes;
  pthread_t thread;
  size_t untouched = 0;
  if (posix_memalign((void **)&stack, 4096, STACK) != 0) exit(2);
  memset(stack, PAINT, STACK);
  if (pthread_attr_init(&attributes) != 0 || pthread_attr_setstack(&attributes, stack, STACK) != 0 ||
      pthread_create(&thread, &attributes, make, &work) != 0 || pthread_join(thread, NULL) != 0) {
    fprintf(stderr, "calls: no thread\n");
    exit(2);
  }
  while (untouched < STACK && stack[untouched] == PAINT) untouched++;
  free(stack);
  return STACK - untouched;
}

/* Reads a job, to be solved or written, or a train; the call to make on it, or none. */
static uint64_t (*read_case(const char *kind, FILE *file))(void) {
  if (strcmp(kind, "job") == 0 || strcmp(kind, "form") == 0) {
    job_bytes = fread(job, 1, sizeof job, file);
    return strcmp(kind, "job") == 0 ? solve : write_form;
  }
  return strcmp(kind, "train") == 0 && read_train_case(file, &train) ? rate : NULL;
}

int main(int argc, char **argv) {
  FILE *file = argc == 4 ? fopen(argv[2], "rb") : NULL;
  uint64_t (*call)(void) = file == NULL ? NULL : read_case(argv[1], file);
  uint64_t result = 0;
  long count;
  if (call == NULL) {
    fprintf(stderr, "usage: calls job|train|form FILE COUNT|stack\n");
    return 2;
  }
  fclose(file);
  if (strcmp(argv[3], "stack") == 0) {
    size_t base = stack_of(nothing);
    printf("%zu\n", stack_of(call) - base);
    return 0;
  }
  for (count = strtol(argv[3], NULL, 10); count > 0; count--) result |= call();
  return result == 0 ? 0 : 1;
}

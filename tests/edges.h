/* What the tests of the calls' edges share: failing, and buffers with guard bytes on both sides. PROGRAM is who includes it. */
#include <inttypes.h>
#include <stdio.h>
#include <stdlib.h>
#include <string.h>

#include "hnho.h"

enum { GUARD = 64, GUARD_BYTE = 0xa5 };

/* What is being tried, for messages, and the calls so far. */
static const char *step = "";
static int calls;

static void fail(const char *what) {
  fprintf(stderr, PROGRAM ": FAILED: %s: %s\n", step, what);
  exit(1);
}

static void expect(int holds, const char *what) {
  if (!holds)
    fail(what);
}

/* Counts a call and holds its result to a number and a place. */
static void expect_result(uint64_t result, int number, uint64_t place) {
  calls++;
  if (hnho_refusal(result) != number || hnho_place(result) != place) {
    fprintf(stderr, PROGRAM ": FAILED: %s: expected %d at %" PRIu64 ", got %d at %" PRIu64 "\n", step, number, place,
            hnho_refusal(result), hnho_place(result));
    exit(1);
  }
}

/* A buffer with guard bytes on both sides. */
struct buffer {
  uint8_t *all;
  uint8_t *bytes;
  size_t n;
};

static struct buffer lend(size_t n, int fill) {
  struct buffer b;
  b.all = malloc(n + 2 * GUARD);
  expect(b.all != NULL, "no memory");
  memset(b.all, GUARD_BYTE, n + 2 * GUARD);
  b.bytes = b.all + GUARD;
  b.n = n;
  memset(b.bytes, fill, n);
  return b;
}

static inline struct buffer lend_null(void) {
  struct buffer b = {NULL, NULL, 0};
  return b;
}

/* The bytes at places from `from` up to `to` are all the same. */
static int all_are(const uint8_t *bytes, size_t from, size_t to, int byte) {
  size_t i;
  for (i = from; i < to; i++)
    if (bytes[i] != byte)
      return 0;
  return 1;
}

static void take_back(struct buffer b, const char *what) {
  if (b.all == NULL)
    return;
  expect(all_are(b.all, 0, GUARD, GUARD_BYTE), what);
  expect(all_are(b.bytes, b.n, b.n + GUARD, GUARD_BYTE), what);
  free(b.all);
}

/* Makes every call of a file and prints what comes of each: its values, or its refusal. The stands are left out, as any of equally
 * good ones may be shown.
 *
 *   train_calls TRAINS
 *
 * tests/train_case.h has the file's format.
 */
#include <inttypes.h>

#include "train_case.h"

static void print(uint64_t result, const uint8_t *report) {
  struct hnho_rating rating;
  if (result != 0) {
    printf("refused %d at %" PRIu64 "\n", hnho_refusal(result), hnho_place(result));
    return;
  }
  hnho_read_rating(report, &rating);
  printf("greatest %" PRId64 " least %" PRId64 " difference %" PRId64 "\n", rating.greatest, rating.least, rating.difference);
}

int main(int argc, char **argv) {
  FILE *file = argc == 2 ? fopen(argv[1], "rb") : NULL;
  struct train_case c;
  if (file == NULL) {
    fprintf(stderr, "usage: train_calls TRAINS\n");
    return 2;
  }
  while (read_train_case(file, &c)) {
    print(call_train(&c), c.report);
    free(c.line);
    free(c.train);
    free(c.report);
  }
  fclose(file);
  return 0;
}

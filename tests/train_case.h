/* Calls of hnho_train out of a file. Each is six numbers of 8 bytes (h, N, the section's bytes, the axles, the mode, the report's
 * bytes), then the section, the axles (load and distance, 4 bytes each) and the report buffer's contents before the call. Low bytes
 * come first, as in an x86-64's memory.
 */
#include <stdio.h>
#include <stdlib.h>

#include "hnho.h"

struct train_case {
  size_t h;
  size_t pieces;
  uint8_t *line;
  size_t line_bytes;
  struct hnho_axle *train;
  size_t axles;
  size_t mode;
  uint8_t *report;
  size_t report_bytes;
};

/* The file's next n bytes, on memory of just their length. */
static void *take_bytes(FILE *file, size_t n) {
  void *bytes = malloc(n > 0 ? n : 1);
  if (bytes == NULL || fread(bytes, 1, n, file) != n) {
    fprintf(stderr, "FAILED: no memory, or a call is cut short\n");
    exit(1);
  }
  return bytes;
}

/* Reads the file's next call; 0 at its end. */
static int read_train_case(FILE *file, struct train_case *c) {
  int next = fgetc(file);
  uint8_t *head;
  if (next == EOF)
    return 0;
  ungetc(next, file);
  head = take_bytes(file, 48);
  c->h = (size_t)hnho_number(head, 0);
  c->pieces = (size_t)hnho_number(head, 1);
  c->line_bytes = (size_t)hnho_number(head, 2);
  c->axles = (size_t)hnho_number(head, 3);
  c->mode = (size_t)hnho_number(head, 4);
  c->report_bytes = (size_t)hnho_number(head, 5);
  free(head);
  c->line = take_bytes(file, c->line_bytes);
  c->train = take_bytes(file, c->axles * sizeof *c->train);
  c->report = take_bytes(file, c->report_bytes);
  return 1;
}

static uint64_t call_train(const struct train_case *c) {
  return hnho_train(c->h, c->pieces, c->line, c->line_bytes, c->train, c->axles, c->mode, c->report, c->report_bytes);
}

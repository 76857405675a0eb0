/* A host in C99 or C++: rates a train of axles on the influence line of a file and prints its rating for a person to read.
 *
 *   truck H MODE LINE LOAD@AT..
 *
 * H is the piece length in dm, MODE hnho_train's, LINE a file with the line's section and nothing else. An axle is its load in kN and
 * its distance from the first axle in dm. docs/HOST.md has the commands that build it.
 */
#include <ctype.h>
#include <errno.h>
#include <inttypes.h>
#include <stdio.h>
#include <stdlib.h>

#include "hnho.h"

enum {
  PIECE_BYTES = 8,
  MOST_PIECES = 1000
};

/* The line's section, with room for a piece more than any has, so that an overlong file is refused. */
static uint8_t line[(MOST_PIECES + 1) * PIECE_BYTES];
static size_t line_bytes;

/* Reads a file as the line's section; 0 where it cannot be opened or read. */
static int read_line(const char *path) {
  FILE *file = fopen(path, "rb");
  int good;
  if (file == NULL)
    return 0;
  line_bytes = fread(line, 1, sizeof line, file);
  good = !ferror(file);
  fclose(file);
  return good;
}

/* Reads digits that end at the character `end`, as a number up to `most`, and moves past that character; 0 for any other text. */
static int read_number(const char **text, char end, unsigned long most, unsigned long *number) {
  char *past;
  if (!isdigit((unsigned char)**text))
    return 0;
  errno = 0;
  *number = strtoul(*text, &past, 10);
  if (errno != 0 || *number > most || *past != end)
    return 0;
  *text = past + 1;
  return 1;
}

static int read_size(const char *text, size_t *size) {
  unsigned long number;
  if (!read_number(&text, '\0', SIZE_MAX, &number))
    return 0;
  *size = number;
  return 1;
}

/* Reads LOAD@AT. */
static int read_axle(const char *text, struct hnho_axle *axle) {
  unsigned long load, at;
  if (!read_number(&text, '@', UINT32_MAX, &load) || !read_number(&text, '\0', UINT32_MAX, &at))
    return 0;
  axle->load = (uint32_t)load;
  axle->at = (uint32_t)at;
  return 1;
}

static int read_train(char **texts, size_t axles, struct hnho_axle *train) {
  size_t i;
  for (i = 0; i < axles; i++)
    if (!read_axle(texts[i], &train[i]))
      return 0;
  return 1;
}

static void print_stand(const char *name, int64_t value, const struct hnho_train_stand *stand) {
  printf("%s %" PRId64 " kN.U, %s, leftmost axle at station %" PRId64 ", side %s\n", name, value,
         stand->way == HNHO_AS_GIVEN ? "as given" : "turned", stand->station, stand->side == HNHO_SIDE_LEFT ? "left" : "right");
}

static void print_rating(const struct hnho_rating *rating) {
  print_stand("greatest", rating->greatest, &rating->greatest_stand);
  print_stand("least", rating->least, &rating->least_stand);
  printf("difference %" PRId64 " kN.U\n", rating->difference);
}

/* Rates the train on the line that was read, and prints what comes of it; the program's status. */
static int rate(size_t h, size_t mode, const struct hnho_axle *train, size_t axles) {
  uint8_t bytes[HNHO_RATING_BYTES];
  struct hnho_rating rating;
  uint64_t result = hnho_train(h, line_bytes / PIECE_BYTES, line, line_bytes, train, axles, mode, bytes, sizeof bytes);
  if (result != 0) {
    fprintf(stderr, "refused %d at %" PRIu64 ": %s\n", hnho_refusal(result), hnho_place(result),
            hnho_refusal_text(hnho_refusal(result)));
    return 1;
  }
  hnho_read_rating(bytes, &rating);
  print_rating(&rating);
  return 0;
}

int main(int argc, char **argv) {
  size_t h, mode, axles = argc > 4 ? (size_t)argc - 4 : 0;
  struct hnho_axle *train;
  int status;

  if (hnho_layout() != HNHO_LAYOUT) {
    fprintf(stderr, "truck: hnho.h and libhnho.a are of different layouts\n");
    return 1;
  }
  train = (struct hnho_axle *)malloc(axles * sizeof *train);
  if (train == NULL && axles > 0) {
    fprintf(stderr, "truck: no memory\n");
    return 1;
  }
  if (argc < 4 || !read_size(argv[1], &h) || !read_size(argv[2], &mode) || !read_train(argv + 4, axles, train)) {
    fprintf(stderr, "usage: truck H MODE LINE LOAD@AT..\n");
    status = 2;
  } else if (!read_line(argv[3])) {
    fprintf(stderr, "truck: %s cannot be read\n", argv[3]);
    status = 1;
  } else {
    status = rate(h, mode, train, axles);
  }
  free(train);
  return status;
}

/* A host in C99 or C++: writes the standard form of a file's job and prints a page about it for a person to read.
 *
 *   form JOB [FORM]
 *
 * FORM is a file for the form's bytes. docs/HOST.md has the commands that build it.
 */
#include <inttypes.h>
#include <stdio.h>
#include <string.h>

#include "hnho.h"

enum { ROW_WORDS = 4, RECORD_WORDS = 3 };

/* Places in a row and in a record. */
enum { ROW_FIRST = 3, RECORD_EFFECT = 0, RECORD_FACTOR = 1, RECORD_NEXT = 2 };

/* A job, with room for a word more than any has, so that an overlong file is refused. */
struct job {
  uint8_t bytes[HNHO_MOST_JOB_BYTES + 4];
  size_t length;
};

/* The job, its form, and the form's form. */
static struct job job, form, again;

/* Reads a file as the job; 0 where it cannot be opened or read. */
static int read_job(const char *path) {
  FILE *file = fopen(path, "rb");
  int good;
  if (file == NULL)
    return 0;
  job.length = fread(job.bytes, 1, sizeof job.bytes, file);
  good = !ferror(file);
  fclose(file);
  return good;
}

/* Writes the form into a file; 0 where it cannot be opened or written. */
static int store_form(const char *path) {
  FILE *file = fopen(path, "wb");
  int good;
  if (file == NULL)
    return 0;
  good = fwrite(form.bytes, 1, form.length, file) == form.length;
  return fclose(file) == 0 && good;
}

/* Writes the standard form of one job as another; the kernel's result. */
static uint64_t write_form(const struct job *of, struct job *into) {
  uint8_t report[HNHO_FORM_REPORT_BYTES];
  uint64_t result = hnho_write(of->bytes, of->length, into->bytes, sizeof into->bytes, report, sizeof report);
  into->length = hnho_form_bytes(report);
  return result;
}

static void print_size(const char *name, const struct job *of) {
  printf("%s %lu bytes, %" PRId32 " records\n", name, (unsigned long)of->length, hnho_word(of->bytes, HNHO_WORD_C));
}

/* A row's effects with their factors in thousandths. The records are a form's last words, and the rows are before them. */
static void print_row(int32_t row) {
  size_t records = form.length / 4 - RECORD_WORDS * (size_t)hnho_word(form.bytes, HNHO_WORD_C);
  size_t rows = records - ROW_WORDS * (size_t)hnho_word(form.bytes, HNHO_WORD_R);
  int32_t next = hnho_word(form.bytes, rows + ROW_WORDS * (size_t)(row - 1) + ROW_FIRST);
  const char *before = " ";
  printf("row %" PRId32 ":", row);
  if (next == 0)
    printf(" no effect");
  while (next != 0) {
    size_t record = records + RECORD_WORDS * (size_t)(next - 1);
    printf("%seffect %" PRId32 " x %" PRId32, before, hnho_word(form.bytes, record + RECORD_EFFECT),
           hnho_word(form.bytes, record + RECORD_FACTOR));
    next = hnho_word(form.bytes, record + RECORD_NEXT);
    before = ", ";
  }
  printf("\n");
}

static void print_page(void) {
  int32_t row;
  int same = write_form(&form, &again) == 0 && again.length == form.length && memcmp(again.bytes, form.bytes, form.length) == 0;
  print_size("form", &form);
  print_size("job", &job);
  for (row = 1; row <= hnho_word(form.bytes, HNHO_WORD_R); row++)
    print_row(row);
  printf("written again: %s\n", same ? "the same" : "another");
}

int main(int argc, char **argv) {
  uint64_t result;

  if (hnho_layout() != HNHO_LAYOUT) {
    fprintf(stderr, "form: hnho.h and libhnho.a are of different layouts\n");
    return 1;
  }
  if (argc < 2 || argc > 3) {
    fprintf(stderr, "usage: form JOB [FORM]\n");
    return 2;
  }
  if (!read_job(argv[1])) {
    fprintf(stderr, "form: %s cannot be read\n", argv[1]);
    return 1;
  }

  result = write_form(&job, &form);
  if (result != 0) {
    fprintf(stderr, "refused %d at %" PRIu64 ": %s\n", hnho_refusal(result), hnho_place(result),
            hnho_refusal_text(hnho_refusal(result)));
    return 1;
  }
  if (argc == 3 && !store_form(argv[2])) {
    fprintf(stderr, "form: %s cannot be written\n", argv[2]);
    return 1;
  }
  print_page();
  return 0;
}

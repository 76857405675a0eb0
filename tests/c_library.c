/* All of a C library that the archive asks for. */
#include <stddef.h>

void *memcpy(void *to, const void *from, size_t n);
void *memset(void *to, int byte, size_t n);

void *memcpy(void *to, const void *from, size_t n) {
  char *next = to;
  const char *byte = from;
  while (n-- > 0) *next++ = *byte++;
  return to;
}

void *memset(void *to, int byte, size_t n) {
  char *next = to;
  while (n-- > 0) *next++ = (char)byte;
  return to;
}

/* Preloaded, it stands for an input that fails after its first 100 bytes. */
#define _GNU_SOURCE
#include <errno.h>
#include <sys/syscall.h>
#include <unistd.h>

ssize_t read(int fd, void *buffer, size_t size) {
  static int reads;
  if (reads++ > 0) {
    errno = EIO;
    return -1;
  }
  return syscall(SYS_read, fd, buffer, size < 100 ? size : 100);
}

/* Buffers that lie in odd ways, for the tests of the calls' edges: memory between two pages that may not be touched, for each buffer
 * of a call. Who includes it, after _DEFAULT_SOURCE and edges.h, gives SLICES, how many buffers a call has, and ALIGNED_SLICE, the one
 * that is never put at an odd address, or -1. */
#include <sys/mman.h>
#include <unistd.h>

/* Where the buffers lie: between guard bytes; the same, but null where they are empty; right before or right after a page that
 * may not be touched; a byte after one, so that words and numbers are at odd addresses. */
static enum { GUARDED, NULL_IF_EMPTY, BEFORE_A_FENCE, AFTER_A_FENCE, AT_ODD_ADDRESSES } lie;

enum { FENCED_BYTES = 1 << 15 };
static uint8_t *fenced[SLICES];

static void put_up_fences(void) {
  size_t page = (size_t)sysconf(_SC_PAGESIZE);
  int slice;
  step = "fences";
  expect(FENCED_BYTES % page == 0, "pages of another size");
  for (slice = 0; slice < SLICES; slice++) {
    uint8_t *all = mmap(NULL, FENCED_BYTES + 2 * page, PROT_NONE, MAP_PRIVATE | MAP_ANONYMOUS, -1, 0);
    expect(all != MAP_FAILED, "no memory");
    fenced[slice] = all + page;
    expect(mprotect(fenced[slice], FENCED_BYTES, PROT_READ | PROT_WRITE) == 0, "no memory");
  }
}

static struct buffer lend_slice(int slice, size_t n, int fill) {
  struct buffer b;
  if (lie == GUARDED || (lie == NULL_IF_EMPTY && n > 0))
    return lend(n, fill);
  b = lend_null();
  if (lie == NULL_IF_EMPTY)
    return b;
  b.bytes = fenced[slice];
  if (lie == BEFORE_A_FENCE)
    b.bytes += FENCED_BYTES - n;
  if (lie == AT_ODD_ADDRESSES && slice != ALIGNED_SLICE)
    b.bytes++;
  b.n = n;
  memset(b.bytes, fill, n);
  return b;
}

/* Refuses one allocation of the program that this library is loaded into, the one whose number REFUSED_ALLOCATION has, counted
   from 1, and says so on standard error. Built and loaded by tests/memory/run; needs the GNU C library. */

#include <errno.h>
#include <stdlib.h>
#include <unistd.h>

void *__libc_malloc(size_t size);
void *__libc_calloc(size_t count, size_t size);
void *__libc_realloc(void *old, size_t size);
void *__libc_memalign(size_t alignment, size_t size);

/* How many allocations come up to the refused one, with it; at 0 or below none is refused any more. */
static long left;

__attribute__((constructor)) static void begin(void) {
  const char *number = getenv("REFUSED_ALLOCATION");
  left = number ? atol(number) : 0;
}

static int is_refused(void) {
  static const char words[] = "an allocation was refused\n";
  if (__atomic_fetch_sub(&left, 1, __ATOMIC_SEQ_CST) != 1) return 0;
  if (write(2, words, sizeof words - 1) < 0) _exit(99);
  errno = ENOMEM;
  return 1;
}

void *malloc(size_t size) { return is_refused() ? NULL : __libc_malloc(size); }

void *calloc(size_t count, size_t size) { return is_refused() ? NULL : __libc_calloc(count, size); }

void *realloc(void *old, size_t size) { return is_refused() ? NULL : __libc_realloc(old, size); }

void *memalign(size_t alignment, size_t size) { return is_refused() ? NULL : __libc_memalign(alignment, size); }

void *aligned_alloc(size_t alignment, size_t size) { return is_refused() ? NULL : __libc_memalign(alignment, size); }

int posix_memalign(void **made, size_t alignment, size_t size) {
  if (is_refused()) return ENOMEM;
  *made = __libc_memalign(alignment, size);
  return *made ? 0 : ENOMEM;
}

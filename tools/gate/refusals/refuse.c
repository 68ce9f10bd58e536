// Refuses one call for memory: that with the number in REFUSE_CALL, of those that the program makes from its first
// statement on. Where it came to that, the file REFUSE_MARK is there afterwards.
//
//   cc -O2 -shared -fPIC -o refuse.so refuse.c
//   REFUSE_CALL=3 REFUSE_MARK=mark LD_PRELOAD=./refuse.so PROGRAM
#include <errno.h>
#include <fcntl.h>
#include <stdatomic.h>
#include <stdlib.h>
#include <unistd.h>

void *__libc_malloc(size_t);
void *__libc_calloc(size_t, size_t);
void *__libc_realloc(void *, size_t);

static atomic_long calls;
static long refused;
static const char *mark;

__attribute__((constructor)) static void begin(void) {
    const char *number = getenv("REFUSE_CALL");
    mark = getenv("REFUSE_MARK");
    refused = number ? atol(number) : 0;
    atomic_store(&calls, 0);
}

static int is_refused(void) {
    if (atomic_fetch_add(&calls, 1) + 1 != refused) return 0;
    if (mark) close(open(mark, O_WRONLY | O_CREAT, 0644));
    errno = ENOMEM;
    return 1;
}

void *malloc(size_t size) { return is_refused() ? NULL : __libc_malloc(size); }

void *calloc(size_t count, size_t size) { return is_refused() ? NULL : __libc_calloc(count, size); }

void *realloc(void *old, size_t size) { return is_refused() ? NULL : __libc_realloc(old, size); }

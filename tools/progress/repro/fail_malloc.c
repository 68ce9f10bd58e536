/* Loaded before the C library: once the file named by FAIL_IF is there, an allocation of 512 bytes in any thread but the first fails,
   once, and the file named by FAILED is made. So a thread that reads finds no memory, since its pieces have 512 bytes. */
#define _GNU_SOURCE
#include <dlfcn.h>
#include <errno.h>
#include <fcntl.h>
#include <stdlib.h>
#include <sys/syscall.h>
#include <unistd.h>

static int failed;

static int fails(size_t size)
{
    const char *path = getenv("FAIL_IF"), *told = getenv("FAILED");
    if (size != 512 || failed || !path || access(path, F_OK) || syscall(SYS_gettid) == getpid()) return 0;
    failed = 1;
    if (told) close(open(told, O_CREAT | O_WRONLY, 0600));
    errno = ENOMEM;
    return 1;
}

void *malloc(size_t size)
{
    static void *(*real)(size_t);
    if (!real) real = (void *(*)(size_t))dlsym(RTLD_NEXT, "malloc");
    return fails(size) ? NULL : real(size);
}

int posix_memalign(void **out, size_t align, size_t size)
{
    static int (*real)(void **, size_t, size_t);
    if (!real) real = (int (*)(void **, size_t, size_t))dlsym(RTLD_NEXT, "posix_memalign");
    return fails(size) ? ENOMEM : real(out, align, size);
}

void *aligned_alloc(size_t align, size_t size)
{
    static void *(*real)(size_t, size_t);
    if (!real) real = (void *(*)(size_t, size_t))dlsym(RTLD_NEXT, "aligned_alloc");
    return fails(size) ? NULL : real(align, size);
}

/* What the trials of tn.h share. Each allocation goes through here, so that one can be refused and all are counted. */
#include "tn.h"

#include <malloc.h>
#include <stdio.h>
#include <stdlib.h>
#include <string.h>

#define SURE(...) \
    do { \
        if (!(__VA_ARGS__)) { \
            fprintf(stderr, "%s: line %d: %s\n", __FILE__, __LINE__, #__VA_ARGS__); \
            exit(3); \
        } \
    } while (0)

void *__real_malloc(size_t size);
void *__real_realloc(void *old, size_t size);
void __real_free(void *old);

static long live, calls, refused_call;
static size_t asked; /* bytes, since it was set to 0 */
static size_t held;  /* bytes of the blocks that live */

static bool is_refused(void)
{
    return ++calls == refused_call;
}

void *__wrap_malloc(size_t size)
{
    void *made = is_refused() ? NULL : __real_malloc(size);
    live += made != NULL;
    asked += size;
    held += malloc_usable_size(made);
    return made;
}

void *__wrap_realloc(void *old, size_t size)
{
    size_t before = malloc_usable_size(old);
    void *made = is_refused() ? NULL : __real_realloc(old, size);
    live += made != NULL && old == NULL;
    asked += size;
    held += made != NULL ? malloc_usable_size(made) - before : 0;
    return made;
}

void __wrap_free(void *old)
{
    live -= old != NULL;
    held -= malloc_usable_size(old);
    __real_free(old);
}

static const tn_flags standard = TN_STANDARD_FLAGS;

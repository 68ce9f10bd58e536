/* The heap of a library for another processor than the kit's c/liblibc_c.a is for, which has the same three functions. */
#include <stdbool.h>
#include <stdlib.h>

struct block {
    bool is_there;
    void *at;
};

static char nothing;

static struct block block_at(void *at)
{
    return (struct block) { at != NULL, at != NULL ? at : &nothing };
}

struct block rattle_alloc(size_t size, size_t align)
{
    return block_at(malloc(size > 0 ? size : align));
}

struct block rattle_realloc(void *at, size_t before, size_t size, size_t align)
{
    (void)before;
    return block_at(realloc(at, size > 0 ? size : align));
}

void rattle_dealloc(void *at)
{
    free(at);
}

/* What the library asks of the heap, by malloc, realloc and free. On x86-64 the kit's own object stands in its place; this is the same for targets for which
 * the kit has none. malloc aligns to 16 where the library is built for, which is enough for all that it holds. */
#include <stdbool.h>
#include <stddef.h>
#include <stdlib.h>

struct block {
    bool is_there;
    void *at;
};

/* Where a block would be that isn't there: any address but null. */
static char nowhere;

static struct block block_at(void *at)
{
    return (struct block){at != NULL, at != NULL ? at : &nowhere};
}

struct block rattle_alloc(size_t size, size_t align)
{
    return block_at(malloc(size != 0 ? size : align));
}

struct block rattle_realloc(void *at, size_t old_size, size_t size, size_t align)
{
    (void)old_size;
    return block_at(realloc(at, size != 0 ? size : align));
}

void rattle_dealloc(void *at)
{
    free(at);
}

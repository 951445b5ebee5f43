/* heap.c - the memory of the library, from malloc. A host with a heap of its own links three other functions in its place. */
#include "csn.h"
#include <stdlib.h>

/* What is pointed to where there is no memory: it is not null, and nobody reads it. */
static char nothing;

static struct rattle_tried tried(void *p)
{
    struct rattle_tried it = {p != NULL, p != NULL ? p : &nothing};
    return it;
}

struct rattle_tried rattle_alloc(size_t n, size_t a)
{
    return tried(malloc(n != 0 ? n : a));
}

struct rattle_tried rattle_realloc(void *p, size_t kept, size_t n, size_t a)
{
    (void)kept;
    return tried(realloc(p, n != 0 ? n : a));
}

void rattle_dealloc(void *p)
{
    free(p);
}

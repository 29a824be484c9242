/* The heap of a library for a machine that the kit has none for: what the archive calls of it, over malloc, realloc and free.
   It does what the kit's own does. malloc has to give blocks aligned to 16 bytes. */
#include <stddef.h>
#include <stdlib.h>

/* Whether there is a block, and where. */
struct tried {
    size_t is_there;
    void *at;
};

/* What is told where there is none: some address. */
static char nothing;

static struct tried tried(void *at) {
    struct tried told = { at != NULL, at ? at : &nothing };
    return told;
}

/* A block of so many bytes, aligned to at most 16; of none it has the size of its alignment. */
struct tried rattle_alloc(size_t size, size_t align) { return tried(malloc(size ? size : align)); }

/* The block with another size. Where there is none, it is as it was. */
struct tried rattle_realloc(void *at, size_t kept, size_t size, size_t align) {
    (void)kept;
    return tried(realloc(at, size ? size : align));
}

void rattle_dealloc(void *at) { free(at); }

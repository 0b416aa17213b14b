/* Memory with fences. Linked into a program, it gives every block that the program allocates pages of its own, between
 * two that cannot be read. The program dies by a signal at the first byte that it reads or writes
 *
 *   behind a block, for its last byte stands right before the fence; or,
 *   if this is compiled with -DBEFORE, before a block, for its first byte stands right behind the fence;
 *   in a block that was given back, for its pages stay unreadable and are not used again.
 *
 * Where blocks end at a fence, one of n bytes is aligned only as far as n is, which is enough for any array. host/run
 * links it.
 */
#define _DEFAULT_SOURCE
#include <stdint.h>
#include <stdlib.h>
#include <string.h>
#include <sys/mman.h>

/* A multiple of the page of every machine, also of one that emulates smaller pages. */
static const size_t page = 1 << 16;

/* A block has one page with this, a fence, its own pages and a fence. */
struct kept {
    size_t bytes, pages;
};

/* The block's address is on its first page, or on the second fence if it has none. */
static struct kept *kept_of(void *block)
{
    return (struct kept *)(((uintptr_t)block & ~(uintptr_t)(page - 1)) - 2 * page);
}

static void *take(size_t bytes)
{
    const int readable = PROT_READ | PROT_WRITE, own = MAP_PRIVATE | MAP_ANONYMOUS | MAP_NORESERVE;
    size_t pages = bytes / page + (bytes % page > 0);
    char *mapped = bytes > SIZE_MAX / 2 ? MAP_FAILED : mmap(NULL, (pages + 4) * page, PROT_NONE, own, -1, 0);
    if (mapped == MAP_FAILED)
        return NULL;
    char *start = mapped + (page - (uintptr_t)mapped % page) % page, *first = start + 2 * page;
    if (mprotect(start, page, readable) != 0 || (pages > 0 && mprotect(first, pages * page, readable) != 0))
        return NULL;
    *(struct kept *)start = (struct kept){ bytes, pages };
#ifdef BEFORE
    return first;
#else
    return first + pages * page - bytes;
#endif
}

void *malloc(size_t bytes)
{
    return take(bytes);
}

/* Pages come as zeros. */
void *calloc(size_t count, size_t bytes)
{
    return take(bytes > 0 && count > SIZE_MAX / bytes ? SIZE_MAX : count * bytes);
}

void free(void *block)
{
    if (block) {
        struct kept *kept = kept_of(block);
        mprotect(kept, (kept->pages + 3) * page, PROT_NONE);
    }
}

void *realloc(void *block, size_t bytes)
{
    void *moved = take(bytes);
    if (block && moved) {
        size_t had = kept_of(block)->bytes;
        memcpy(moved, block, had < bytes ? had : bytes);
        free(block);
    }
    return moved;
}

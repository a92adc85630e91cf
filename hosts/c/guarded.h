/* Buffers between forbidden pages. The file that includes this defines _DEFAULT_SOURCE first. */
#include <stdint.h>
#include <stdio.h>
#include <stdlib.h>
#include <string.h>
#include <sys/mman.h>
#include <unistd.h>

struct guarded {
    uint8_t *map, *at;
    size_t size;
};

static inline size_t page_size(void)
{
    static size_t page;
    if (page == 0)
        page = (size_t)sysconf(_SC_PAGESIZE);
    return page;
}

static inline struct guarded guard(size_t n, int flush_with_the_end, int fill)
{
    const size_t page = page_size(), inner = (n + page - 1) / page * page;
    struct guarded g;
    g.size = inner + 2 * page;
    g.map = mmap(NULL, g.size, PROT_NONE, MAP_PRIVATE | MAP_ANONYMOUS, -1, 0);
    if (g.map == MAP_FAILED || (inner > 0 && mprotect(g.map + page, inner, PROT_READ | PROT_WRITE) != 0)) {
        perror("mmap");
        exit(1);
    }
    g.at = flush_with_the_end ? g.map + page + inner - n : g.map + page;
    memset(g.at, fill, n);
    return g;
}

/* from here on the buffer may only be read */
static inline void shut(struct guarded g)
{
    const size_t page = page_size();
    if (g.size > 2 * page && mprotect(g.map + page, g.size - 2 * page, PROT_READ) != 0) {
        perror("mprotect");
        exit(1);
    }
}

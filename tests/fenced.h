/* Room to lend that ends, or starts, at a page which may not be touched: an access outside of it stops the program. */
#ifndef FENCED_H
#define FENCED_H
#include <stdint.h>
#include <stdio.h>
#include <stdlib.h>
#include <sys/mman.h>
#include <unistd.h>

struct fenced {
    uint8_t *first;
    size_t size;
};

/* At least so many octets, with such a page before and behind them. */
static struct fenced fenced(size_t most) {
    size_t page = (size_t)sysconf(_SC_PAGESIZE), size = (most + page - 1) / page * page;
    uint8_t *all = mmap(0, size + 2 * page, PROT_NONE, MAP_PRIVATE | MAP_ANONYMOUS, -1, 0);
    if (all == MAP_FAILED || mprotect(all + page, size, PROT_READ | PROT_WRITE)) {
        perror("fenced");
        exit(2);
    }
    return (struct fenced){all + page, size};
}

/* So many octets before the page behind, or behind the page before. */
static void *fenced_part(struct fenced f, size_t octets, int at_end) { return at_end ? f.first + f.size - octets : f.first; }

#endif

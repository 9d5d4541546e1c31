/* What the test programs share: words in bytes, the number that a run has come to, and memory to lend that ends where a page that may not be touched begins, so that a read or a write past the end would end the program. */
#ifndef LENT_H
#define LENT_H

#include <stdint.h>
#include <stdio.h>
#include <stdlib.h>
#include <string.h>
#include <sys/mman.h>
#include <unistd.h>

static inline void put(uint8_t *bytes, size_t at, unsigned word) {
    bytes[at] = (uint8_t)(word % 256);
    bytes[at + 1] = (uint8_t)(word / 256);
}

static inline unsigned get(const uint8_t *bytes, size_t at) {
    return bytes[at] + 256u * bytes[at + 1];
}

/* The number that the root has, if it has a value that is one. docs/BLOCK.md: position 0, its kind, its value's kind, low word and high word. */
static inline int root_number(const uint8_t *block, long *number) {
    enum { POSITION = 37896, WITH_VALUE = 2, NUMBER = 2 };
    long low = (long)get(block, POSITION + 8), high = (long)get(block, POSITION + 10);
    *number = low + 65536 * (high < 32768 ? high : high - 65536);
    return get(block, POSITION) == WITH_VALUE && get(block, POSITION + 6) == NUMBER;
}

struct lent {
    uint8_t *bytes;
    size_t len;
    uint8_t *map;
    size_t room;
};

static inline void sure(int holds, const char *what) {
    if (holds) return;
    perror(what);
    exit(2);
}

static inline size_t page_size(void) {
    return (size_t)sysconf(_SC_PAGESIZE);
}

/* A copy of these bytes to lend; len bytes of 0xaa if there are none. */
static inline struct lent lend(const uint8_t *bytes, size_t len) {
    size_t page = page_size();
    struct lent lent = {NULL, len, NULL, (len / page + 1) * page};
    lent.map = mmap(NULL, lent.room + 2 * page, PROT_NONE, MAP_PRIVATE | MAP_ANONYMOUS, -1, 0);
    sure(lent.map != MAP_FAILED && mprotect(lent.map + page, lent.room, PROT_READ | PROT_WRITE) == 0, "mmap");
    lent.bytes = lent.map + page + lent.room - len;
    if (bytes != NULL) memcpy(lent.bytes, bytes, len);
    if (bytes == NULL) memset(lent.bytes, 0xaa, len);
    return lent;
}

/* The same, and a write into it would end the program too. */
static inline struct lent lend_to_read(const uint8_t *bytes, size_t len) {
    struct lent lent = lend(bytes, len);
    sure(mprotect(lent.map + page_size(), lent.room, PROT_READ) == 0, "mprotect");
    return lent;
}

static inline void take_back(struct lent lent) {
    sure(munmap(lent.map, lent.room + 2 * page_size()) == 0, "munmap");
}

#endif

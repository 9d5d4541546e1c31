/*
 * How often a move copies the tree of threads. `copies < script` lends one choice at a time, round and round over the positions, and counts the copies of a tree's size: it is linked so that the
 * library's calls of memcpy and memmove come here first. No move may make more than four: a fork, a failure and a join that goes on take the tree out, change it and put it back, and today's
 * compiler copies a value where it is handed over and where it is handed back (docs/DECISIONS.md, 67). Of a script with a fork some move makes one: else nothing would have been counted.
 */
#include "lent.h"
#include "oolong.h"

enum { MOST = 4, ROUNDS = 4096, TREE_LEAST = 1000, TREE_MOST = 1024 };

void *__real_memcpy(void *to, const void *from, size_t len);
void *__real_memmove(void *to, const void *from, size_t len);
void *__wrap_memcpy(void *to, const void *from, size_t len);
void *__wrap_memmove(void *to, const void *from, size_t len);

static unsigned copies;

static void count(size_t len) {
    copies += TREE_LEAST <= len && len <= TREE_MOST;
}

void *__wrap_memcpy(void *to, const void *from, size_t len) {
    count(len);
    return __real_memcpy(to, from, len);
}

void *__wrap_memmove(void *to, const void *from, size_t len) {
    count(len);
    return __real_memmove(to, from, len);
}

int main(void) {
    static uint8_t script[OOLONG_SCRIPT_MOST], block[OOLONG_BLOCK];
    size_t len = fread(script, 1, sizeof script, stdin);
    unsigned most = 0, moves = 0;
    struct oolong_run_reply ran = {0};
    sure(oolong_start(script, len, block, sizeof block).number == 0, "Start");
    for (unsigned round = 0; round < ROUNDS && ran.stop == 0; round++) {
        uint8_t choice = (uint8_t)(round % OOLONG_FLAGS);
        copies = 0;
        ran = oolong_run(script, len, block, sizeof block, &choice, 1);
        if (copies > most) most = copies;
        moves += ran.moves;
    }
    printf("%u moves, at most %u copies of the tree in one\n", moves, most);
    return most < 1 || most > MOST;
}

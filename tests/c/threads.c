/*
 * Calls in several threads at once. `threads < text` lends one text, its script and one first block, which may only be read, to all of them; each thread has a file and a block of its own, into
 * which it reads the text, and in which it plays its own choices. What it plays is first played in one thread alone, and every reply, flag and byte of the block after each move must then be the same. It prints nothing unless something is wrong.
 */
#include <pthread.h>

#include "lent.h"
#include "oolong.h"

enum { THREADS = 8, MOVES = 600, GAMES = 4 };

static struct lent text, script, first_block;

struct game {
    unsigned number;
    uint8_t *file, *block; /* the thread's own */
    uint64_t outcome;      /* a sum of all that the calls have answered and written */
};

/* FNV-1a. */
static void add(uint64_t *sum, const void *from, size_t len) {
    const uint8_t *bytes = from;
    for (size_t i = 0; i < len; i++) *sum = (*sum ^ bytes[i]) * 1099511628211u;
}

/* The flagged position that this number picks; 0 if there is none. */
static uint8_t pick(const uint8_t *flags, unsigned number) {
    unsigned flagged = 0;
    for (size_t at = 0; at < OOLONG_FLAGS; at++) flagged += flags[at];
    for (size_t at = 0, left = flagged > 0 ? number % flagged : 0; at < OOLONG_FLAGS; at++)
        if (flags[at] == 1 && left-- == 0) return (uint8_t)at;
    return 0;
}

/* Read, Check, Start, then Offer and Run for each move; Offer on the one first block too, and Silent for one node after another. */
static void *play(void *given) {
    struct game *game = given;
    uint64_t sum = 14695981039346656037u;
    unsigned random = game->number;
    for (unsigned round = 0; round < GAMES; round++) {
        struct oolong_read_reply made = oolong_read(text.bytes, text.len, game->file, OOLONG_FILE);
        add(&sum, &made, sizeof made);
        add(&sum, game->file, OOLONG_FILE);
        struct oolong_check_reply checked = oolong_check(script.bytes, script.len);
        add(&sum, &checked, sizeof checked);
        struct oolong_start_reply started = oolong_start(script.bytes, script.len, game->block, OOLONG_BLOCK);
        add(&sum, &started, sizeof started);
        for (unsigned move = 0; move < MOVES; move++) {
            uint8_t flags[OOLONG_FLAGS], first_flags[OOLONG_FLAGS], choice;
            struct oolong_offer_reply shared = oolong_offer(script.bytes, script.len, first_block.bytes, first_block.len, first_flags, sizeof first_flags);
            struct oolong_offer_reply offered = oolong_offer(script.bytes, script.len, game->block, OOLONG_BLOCK, flags, sizeof flags);
            random = random * 1103515245u + 12345u;
            choice = pick(flags, random >> 16);
            struct oolong_silent_reply counted = oolong_silent(script.bytes, script.len, move % OOLONG_NODES_MOST);
            struct oolong_run_reply ran = oolong_run(script.bytes, script.len, game->block, OOLONG_BLOCK, &choice, 1);
            add(&sum, &shared, sizeof shared);
            add(&sum, first_flags, sizeof first_flags);
            add(&sum, &offered, sizeof offered);
            add(&sum, flags, sizeof flags);
            add(&sum, &counted, sizeof counted);
            add(&sum, &ran, sizeof ran);
            add(&sum, game->block, OOLONG_BLOCK);
            if (ran.stop != OOLONG_SPENT) break;
        }
    }
    game->outcome = sum;
    return NULL;
}

int main(void) {
    static uint8_t bytes[OOLONG_TEXT_MOST], files[THREADS][OOLONG_FILE], blocks[THREADS][OOLONG_BLOCK];
    struct game alone[THREADS], together[THREADS];
    pthread_t threads[THREADS];
    text = lend_to_read(bytes, fread(bytes, 1, sizeof bytes, stdin));
    script = lend_to_read(files[0], oolong_read(text.bytes, text.len, files[0], OOLONG_FILE).length);
    if (oolong_start(script.bytes, script.len, blocks[0], OOLONG_BLOCK).number != OOLONG_OK) return printf("FAIL  the script is not accepted\n"), EXIT_FAILURE;
    first_block = lend_to_read(blocks[0], OOLONG_BLOCK);
    for (unsigned i = 0; i < THREADS; i++) {
        alone[i] = together[i] = (struct game){i, files[i], blocks[i], 0};
        play(&alone[i]);
    }
    for (unsigned i = 0; i < THREADS; i++) sure(pthread_create(&threads[i], NULL, play, &together[i]) == 0, "pthread_create");
    int holds = 1, differ = 0;
    for (unsigned i = 0; i < THREADS; i++) {
        sure(pthread_join(threads[i], NULL) == 0, "pthread_join");
        if (together[i].outcome != alone[i].outcome) printf("FAIL  thread %u plays otherwise beside the others\n", i), holds = 0;
        if (alone[i].outcome != alone[0].outcome) differ = 1;
    }
    if (!differ) printf("FAIL  all threads play the same\n");
    return holds && differ ? EXIT_SUCCESS : EXIT_FAILURE;
}

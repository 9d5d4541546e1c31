/*
 * A block that is written down: `worked SCRIPT WORDS CHOICES FLAGS` reads four files. WORDS are pairs of a byte offset and the word there, and all other words of the block are 0; CHOICES are what
 * leads to it from Start, and FLAGS the positions that can move in it, all in decimal. Offer must take the block and set just these flags, and one Run from Start must make every byte of it. It
 * prints nothing unless something is wrong.
 */
#include "lent.h"
#include "oolong.h"

enum { NUMBERS_MOST = 512 };

static void must(int holds, const char *what, size_t at) {
    if (holds) return;
    printf("FAIL  %s (%zu)\n", what, at);
    exit(EXIT_FAILURE);
}

static size_t bytes_of(const char *name, uint8_t *bytes, size_t most) {
    FILE *file = fopen(name, "rb");
    sure(file != NULL, name);
    size_t len = fread(bytes, 1, most, file);
    fclose(file);
    return len;
}

static size_t numbers_of(const char *name, unsigned *numbers) {
    FILE *file = fopen(name, "r");
    sure(file != NULL, name);
    size_t count = 0;
    while (count < NUMBERS_MOST && fscanf(file, "%u", &numbers[count]) == 1) count++;
    must(feof(file) && count > 0, name, count);
    fclose(file);
    return count;
}

/* Offer on the block, which must set the flags of these positions and no others. */
static void offered(struct lent script, struct lent block, const unsigned *positions, size_t count) {
    uint8_t wanted[OOLONG_FLAGS] = {0};
    struct lent flags = lend(NULL, OOLONG_FLAGS);
    for (size_t i = 0; i < count; i++) wanted[positions[i]] = 1;
    struct oolong_offer_reply reply = oolong_offer(script.bytes, script.len, block.bytes, block.len, flags.bytes, flags.len);
    must(reply.number == OOLONG_OK, "Offer refuses the block", reply.number);
    must(memcmp(flags.bytes, wanted, OOLONG_FLAGS) == 0, "Offer sets other flags", 0);
    take_back(flags);
}

/* Start, and one Run with these choices. */
static void reached(struct lent script, uint8_t *block, const unsigned *choices, size_t count) {
    struct lent list = lend(NULL, count);
    for (size_t i = 0; i < count; i++) list.bytes[i] = (uint8_t)choices[i];
    must(oolong_start(script.bytes, script.len, block, OOLONG_BLOCK).number == OOLONG_OK, "Start is refused", 0);
    struct oolong_run_reply reply = oolong_run(script.bytes, script.len, block, OOLONG_BLOCK, list.bytes, list.len);
    must(reply.number == OOLONG_OK && reply.stop == OOLONG_SPENT && reply.moves == count, "not every choice moves", reply.moves);
    take_back(list);
}

int main(int count, char **names) {
    static uint8_t bytes[OOLONG_SCRIPT_MOST], block[OOLONG_BLOCK], run[OOLONG_BLOCK];
    static unsigned words[NUMBERS_MOST], choices[NUMBERS_MOST], flags[NUMBERS_MOST];
    must(count == 5, "usage: worked SCRIPT WORDS CHOICES FLAGS", 0);
    struct lent script = lend_to_read(bytes, bytes_of(names[1], bytes, sizeof bytes));
    size_t word_count = numbers_of(names[2], words), choice_count = numbers_of(names[3], choices), flag_count = numbers_of(names[4], flags);
    for (size_t i = 0; i + 1 < word_count; i += 2) put(block, words[i], words[i + 1]);
    struct lent lent = lend_to_read(block, sizeof block);
    offered(script, lent, flags, flag_count);
    take_back(lent);
    reached(script, run, choices, choice_count);
    for (size_t at = 0; at < sizeof block; at++) must(block[at] == run[at], "what Run makes differs at byte", at);
    return EXIT_SUCCESS;
}

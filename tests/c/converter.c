/*
 * A converter's use of the engine: check a script before anything is sewn, say where it is at fault, count the silent moves from its nodes, and begin a run. Then the edges that a converter would
 * rather not meet in the field. It prints the longest row of silent moves that there is, and else nothing unless something is wrong. tests/c/player.c plays a script to its end.
 */
#include "lent.h"
#include "oolong.h"

static int failures;

_Static_assert(sizeof(struct oolong_check_reply) == 8 && sizeof(struct oolong_silent_reply) == 6, "the replies of Check and Silent have no byte that is no member's");

static void expect_check(const char *what, struct oolong_check_reply got, unsigned number, unsigned place, unsigned type, unsigned silent) {
    if (got.number == number && got.place == place && got.type == type && got.silent == silent) return;
    printf("FAIL  %s: got %u at %u, type %u, silent %u; wanted %u at %u, type %u, silent %u\n", what, got.number, got.place, got.type, got.silent, number, place, type, silent);
    failures++;
}

/* A script of nodes alone, four words each. */
static size_t nodes_alone(uint8_t *script, const unsigned (*nodes)[4], unsigned count) {
    for (size_t entry = 0; entry < 6; entry++) {
        put(script, 4 * entry, OOLONG_SCRIPT_LEAST);
        put(script, 4 * entry + 2, entry == 5 ? count : 0);
    }
    for (size_t node = 0; node < count; node++)
        for (size_t word = 0; word < 4; word++) put(script, OOLONG_SCRIPT_LEAST + 8 * node + 2 * word, nodes[node][word]);
    return OOLONG_SCRIPT_LEAST + 8 * (size_t)count;
}

static struct oolong_check_reply check_guarded(const uint8_t *script, size_t len) {
    struct lent lent = lend_to_read(script, len);
    struct oolong_check_reply reply = oolong_check(lent.bytes, len);
    take_back(lent);
    return reply;
}

/* The silent moves from a node, of a script in guarded memory. */
static void expect_silent(const char *what, const uint8_t *script, size_t len, uint32_t node, unsigned number, unsigned place, unsigned count) {
    struct lent lent = lend_to_read(script, len);
    struct oolong_silent_reply got = oolong_silent(lent.bytes, len, node);
    take_back(lent);
    if (got.number == number && got.place == place && got.count == count) return;
    printf("FAIL  %s, node %lu: got %u at %u, count %u; wanted %u at %u, count %u\n", what, (unsigned long)node, got.number, got.place, got.count, number, place, count);
    failures++;
}

/* Start in guarded memory: the reply, and whether the block then has one position at a node and is 0 elsewhere, or, after a refusal, every byte that it had. */
static void expect_start(const char *what, const uint8_t *script, size_t len, size_t block_len, unsigned number, unsigned place) {
    struct lent lent = lend_to_read(script, len), block = lend(NULL, block_len), wanted = lend(NULL, block_len);
    if (number == OOLONG_OK) {
        memset(wanted.bytes, 0, block_len);
        put(wanted.bytes, 6, 1);     /* one tree position, */
        put(wanted.bytes, 37896, 1); /* at a node, which is node 0 */
    }
    struct oolong_start_reply got = oolong_start(lent.bytes, len, block.bytes, block_len);
    if (got.number != number || got.place != place) {
        printf("FAIL  %s: got %u at %u; wanted %u at %u\n", what, got.number, got.place, number, place);
        failures++;
    }
    if (memcmp(block.bytes, wanted.bytes, block_len) != 0) {
        printf("FAIL  %s: the block is not %s\n", what, number == OOLONG_OK ? "the initial one" : "as it was");
        failures++;
    }
    take_back(lent);
    take_back(block);
    take_back(wanted);
}

static void checks_of_small_scripts(void) {
    static const unsigned unit_null[][4] = {{7, 0, 1, 0}, {0, 0, 0, 0}};
    static const unsigned start_null[][4] = {{0, 0, 0, 0}};
    uint8_t script[OOLONG_SCRIPT_LEAST + 16];
    size_t len = nodes_alone(script, unit_null, 2);

    expect_check("(Unit)null is accepted with type Unit", oolong_check(script, len), OOLONG_OK, 0, 0, 2);
    expect_check("the same in guarded memory", check_guarded(script, len), OOLONG_OK, 0, 0, 2);
    expect_check("no bytes and no pointer", oolong_check(NULL, 0), OOLONG_NO_LENGTH, 0, 0, 0);
    expect_check("no bytes at a pointer", oolong_check(script, 0), OOLONG_NO_LENGTH, 0, 0, 0);
    for (size_t cut = 0; cut < len; cut++) {
        unsigned number = cut < OOLONG_SCRIPT_LEAST ? OOLONG_NO_LENGTH : OOLONG_NO_PLACES;
        expect_check("a script that is cut", check_guarded(script, cut), number, 0, 0, 0);
        expect_silent("a script that is cut", script, cut, 0, number, 0, 0);
    }
    len = nodes_alone(script, start_null, 1);
    expect_check("a start that is null", check_guarded(script, len), OOLONG_NO_NULL, 24, 0, 0);
    expect_silent("a start that is null", script, len, 0, OOLONG_NO_NULL, 24, 0);
    expect_silent("a start that is null", script, len, 1, OOLONG_NO_NULL, 24, 0);
}

/* Nodes alone: Int is type 1. */
static void checks_of_numbers(void) {
    static const struct {
        const char *what;
        unsigned nodes[5][4], count, number, place, type, silent;
    } cases[] = {
        {"-1", {{10, 65535, 65535, 0}}, 1, OOLONG_OK, 0, 1, 1},
        {"let x = 1 in x + x", {{5, 2, 1, 2}, {10, 1, 0, 0}, {11, 2, 2, 0}}, 3, OOLONG_OK, 0, 1, 2},
        {"(Int)null", {{7, 1, 1, 0}, {0, 0, 0, 0}}, 2, OOLONG_NO_FIT, 32, 0, 0},
        {"(Unit)1", {{7, 0, 1, 0}, {10, 1, 0, 0}}, 2, OOLONG_NO_FIT, 32, 0, 0},
        {"new Int", {{6, 1, 0, 0}}, 1, OOLONG_NO_TYPE, 24, 0, 0},
        {"a cast to the type behind Int", {{7, 2, 1, 0}, {10, 1, 0, 0}}, 2, OOLONG_NO_TYPE, 24, 0, 0},
        {"a constant's unused word", {{10, 1, 0, 1}}, 1, OOLONG_NO_NODE, 24, 0, 0},
        {"a sum's unused word", {{11, 2, 2, 1}}, 1, OOLONG_NO_NODE, 24, 0, 0},
        {"kind 12", {{12, 0, 0, 0}}, 1, OOLONG_NO_NODE, 24, 0, 0},
        {"let x = 1 in lock x in x", {{5, 2, 1, 2}, {10, 1, 0, 0}, {9, 2, 3, 0}, {1, 2, 0, 0}}, 4, OOLONG_NO_MEMBER, 40, 0, 0},
        {"let x = 1 in x.f", {{5, 2, 1, 2}, {10, 1, 0, 0}, {2, 2, 0, 0}}, 3, OOLONG_NO_MEMBER, 40, 0, 0},
        {"let x = 1 in x.f = null", {{5, 2, 1, 2}, {10, 1, 0, 0}, {3, 2, 0, 3}, {0, 0, 0, 0}}, 4, OOLONG_NO_MEMBER, 40, 0, 0},
        {"let x = 1 in x.m(null)", {{5, 2, 1, 2}, {10, 1, 0, 0}, {4, 2, 0, 3}, {0, 0, 0, 0}}, 4, OOLONG_NO_MEMBER, 40, 0, 0},
        {"(Int)let x = 1 in null", {{7, 1, 1, 0}, {5, 2, 2, 3}, {10, 1, 0, 0}, {0, 0, 0, 0}}, 4, OOLONG_NO_FIT, 48, 0, 0},
        {"let x = 1 in x + y", {{5, 2, 1, 2}, {10, 1, 0, 0}, {11, 2, 3, 0}}, 3, OOLONG_NO_VARIABLE, 40, 0, 0},
        {"let x = (Unit)null in x + x", {{5, 2, 1, 3}, {7, 0, 2, 0}, {0, 0, 0, 0}, {11, 2, 2, 0}}, 4, OOLONG_NO_FIT, 48, 0, 0},
    };
    uint8_t script[OOLONG_SCRIPT_LEAST + 40];
    for (size_t i = 0; i < sizeof cases / sizeof *cases; i++) {
        size_t len = nodes_alone(script, cases[i].nodes, cases[i].count);
        expect_check(cases[i].what, check_guarded(script, len), cases[i].number, cases[i].place, cases[i].type, cases[i].silent);
    }
}

/* Every node of a script, and numbers that are no node's: behind the last, and with a node's number as their low half. Of scripts with fields and methods tests/c/reader.c has one. */
static void counts_of_nodes(void) {
    static const struct {
        const char *what;
        unsigned nodes[8][4], count, silent[8], most;
    } cases[] = {
        {"let x = (Unit)(Unit)null in x", {{5, 2, 1, 4}, {7, 0, 2, 0}, {7, 0, 3, 0}, {0, 0, 0, 0}, {1, 2, 0, 0}}, 5, {4, 3, 2, 1, 0}, 4},
        {"let x = let y = 1 in y in (Int)(Int)2", {{5, 2, 1, 4}, {5, 3, 2, 3}, {10, 1, 0, 0}, {1, 3, 0, 0}, {7, 1, 5, 0}, {7, 1, 6, 0}, {10, 2, 0, 0}}, 7, {3, 2, 1, 0, 3, 2, 1}, 3},
        {"(Int)fork{(Unit)null}{1}; (Int)2", {{7, 1, 1, 0}, {8, 2, 4, 5}, {7, 0, 3, 0}, {0, 0, 0, 0}, {10, 1, 0, 0}, {7, 1, 6, 0}, {10, 2, 0, 0}}, 7, {1, 0, 2, 1, 1, 2, 1}, 2},
        {"let x = (Unit)null in (Unit)lock x in (Unit)null",
         {{5, 2, 1, 3}, {7, 0, 2, 0}, {0, 0, 0, 0}, {7, 0, 4, 0}, {9, 2, 5, 0}, {7, 0, 6, 0}, {0, 0, 0, 0}}, 7, {3, 2, 1, 1, 0, 2, 1}, 3},
        {"let x = 1 in (Int)x + x", {{5, 2, 1, 2}, {10, 1, 0, 0}, {7, 1, 3, 0}, {11, 2, 2, 0}}, 4, {2, 1, 1, 0}, 2},
    };
    uint8_t script[OOLONG_SCRIPT_LEAST + 64];
    for (size_t i = 0; i < sizeof cases / sizeof *cases; i++) {
        size_t len = nodes_alone(script, cases[i].nodes, cases[i].count);
        if (oolong_check(script, len).silent != cases[i].most) printf("FAIL  %s: not %u at the most\n", cases[i].what, cases[i].most), failures++;
        for (unsigned node = 0; node < cases[i].count; node++) {
            expect_silent(cases[i].what, script, len, node, OOLONG_OK, 0, cases[i].silent[node]);
            expect_silent(cases[i].what, script, len, 65536 + node, OOLONG_OK, 0, 0);
        }
        const uint32_t no_nodes[] = {cases[i].count, cases[i].count + 1, OOLONG_NODES_MOST, UINT16_MAX, INT32_MAX, UINT32_MAX};
        for (size_t j = 0; j < sizeof no_nodes / sizeof *no_nodes; j++) expect_silent(cases[i].what, script, len, no_nodes[j], OOLONG_OK, 0, 0);
    }
    struct oolong_silent_reply none = oolong_silent(NULL, 0, 0);
    if (none.number != OOLONG_NO_LENGTH || none.place != 0 || none.count != 0) printf("FAIL  no bytes and no pointer: got %u\n", none.number), failures++;
}

static void checks_of_large_scripts(void) {
    static uint8_t script[OOLONG_SCRIPT_MOST + 1];
    static unsigned deep[OOLONG_NODES_MOST][4]; /* casts of casts, and a null at the end */
    for (unsigned node = 0; node + 1 < OOLONG_NODES_MOST; node++) {
        deep[node][0] = 7;
        deep[node][2] = node + 1;
    }
    size_t len = nodes_alone(script, (const unsigned(*)[4])deep, OOLONG_NODES_MOST);
    expect_check("1,024 nodes in one chain", check_guarded(script, len), OOLONG_OK, 0, 0, OOLONG_NODES_MOST);
    for (unsigned node = 0; node <= OOLONG_NODES_MOST; node++) expect_silent("1,024 nodes in one chain", script, len, node, OOLONG_OK, 0, OOLONG_NODES_MOST - node);
    printf("1,024 nodes in one chain: %u silent moves from node 0\n", oolong_silent(script, len, 0).count);
    expect_start("1,024 nodes in one chain", script, len, OOLONG_BLOCK, OOLONG_OK, 0);
    put(script, 22, OOLONG_NODES_MOST + 1);
    expect_check("1,025 nodes", check_guarded(script, len), OOLONG_NO_COUNTS, 0, 0, 0);
    expect_silent("1,025 nodes", script, len, 0, OOLONG_NO_COUNTS, 0, 0);
    memset(script, 0xff, sizeof script);
    expect_check("13,593 bytes", check_guarded(script, sizeof script), OOLONG_NO_LENGTH, 0, 0, 0);
    expect_silent("13,593 bytes", script, sizeof script, 0, OOLONG_NO_LENGTH, 0, 0);
    expect_check("13,592 bytes of 255", check_guarded(script, sizeof script - 1), OOLONG_NO_COUNTS, 0, 0, 0);
}

static void starts(void) {
    static const unsigned unit_null[][4] = {{7, 0, 1, 0}, {0, 0, 0, 0}};
    static const unsigned start_null[][4] = {{0, 0, 0, 0}};
    uint8_t good[OOLONG_SCRIPT_LEAST + 16], bad[OOLONG_SCRIPT_LEAST + 8];
    size_t good_len = nodes_alone(good, unit_null, 2), bad_len = nodes_alone(bad, start_null, 1);

    expect_start("a start", good, good_len, OOLONG_BLOCK, OOLONG_OK, 0);
    expect_start("a start in too small a block", good, good_len, OOLONG_BLOCK - 1, OOLONG_NO_BLOCK_LENGTH, 0);
    expect_start("a start in too large a block", good, good_len, OOLONG_BLOCK + 1, OOLONG_NO_BLOCK_LENGTH, 0);
    expect_start("a start in no block", good, good_len, 0, OOLONG_NO_BLOCK_LENGTH, 0);
    expect_start("a start in a block of layout 1", good, good_len, 49152, OOLONG_NO_BLOCK_LENGTH, 0);
    expect_start("a start of a script that is refused", bad, bad_len, OOLONG_BLOCK, OOLONG_NO_NULL, 24);
    expect_start("the script is asked about before the block", bad, bad_len, 1, OOLONG_NO_NULL, 24);
    expect_start("a start of no script", good, 0, OOLONG_BLOCK, OOLONG_NO_LENGTH, 0);
    struct oolong_start_reply none = oolong_start(good, good_len, NULL, 0);
    if (none.number != OOLONG_NO_BLOCK_LENGTH) printf("FAIL  no block and no pointer: got %u\n", none.number), failures++;
}

int main(void) {
    checks_of_small_scripts();
    checks_of_numbers();
    counts_of_nodes();
    checks_of_large_scripts();
    starts();
    if (failures > 0) printf("%d failed\n", failures);
    return failures == 0 ? EXIT_SUCCESS : EXIT_FAILURE;
}

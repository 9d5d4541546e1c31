/*
 * How much stack the calls use that are lent a script. `stack < script` measures each call on a stack of our own that is painted first: without a script, which is refused at once, on the script, which is one of the
 * usual size, and on scripts that are nested as deep as a file can be. None may use more than the header's OOLONG_STACK_FOR has for a call and its nesting. Then a thread whose stack has just
 * OOLONG_STACK_FOR bytes makes all of the calls, in a process of its own, which a stack that is too small would end. tests/c/read_stack.c does the same with oolong_read.
 */
#include "oolong.h"
#include "stacks.h"

static uint8_t block[OOLONG_BLOCK];

static unsigned check(const uint8_t *script, size_t len) {
    return oolong_check(script, len).number;
}

static unsigned silent(const uint8_t *script, size_t len) {
    return oolong_silent(script, len, 0).number;
}

static unsigned start(const uint8_t *script, size_t len) {
    return oolong_start(script, len, block, sizeof block).number;
}

static unsigned offer(const uint8_t *script, size_t len) {
    uint8_t flags[OOLONG_FLAGS];
    return oolong_offer(script, len, block, sizeof block, flags, sizeof flags).number;
}

static const uint8_t choices[OOLONG_CHOICES_MOST];

static unsigned move(const uint8_t *script, size_t len) {
    return oolong_run(script, len, block, sizeof block, choices, 1).number;
}

static unsigned run(const uint8_t *script, size_t len) {
    return oolong_run(script, len, block, sizeof block, choices, sizeof choices).number;
}

/* In this order, so that the block is one of the script's: that of Start, then that with the first node's frame, if it leaves one. */
static const struct {
    const char *name;
    unsigned (*call)(const uint8_t *, size_t);
} calls[] = {{"Check", check}, {"Silent", silent}, {"Start", start}, {"Offer", offer}, {"Run", move}, {"then Offer", offer}, {"Run", run}};

struct job {
    unsigned (*call)(const uint8_t *, size_t);
    const uint8_t *script;
    size_t len;
    unsigned wanted, number; /* the reply's number: which it must be, and which it is */
};

static void *work(void *given) {
    struct job *job = given;
    job->number = job->call(job->script, job->len);
    return NULL;
}

/* One empty interface and one class of it, and as many nodes of this kind as there is room for in this number of nodes, each with the next as a part; at the end, and where a part is no such
 * node, a new, or the constant 2 where numbers are asked for. */
static size_t chain(uint8_t *script, unsigned kind, unsigned name, unsigned nodes, int numbers) {
    unsigned leaf_kind = numbers ? 10 : 6, type = numbers ? 3 : 2;
    static const unsigned offsets[] = {24, 30, 30, 36, 36, 36};
    static const unsigned counts[] = {1, 0, 1, 0, 0, 0};
    memset(script, 0, OOLONG_SCRIPT_MOST);
    for (size_t entry = 0; entry < 6; entry++) {
        put(script, 4 * entry, offsets[entry]);
        put(script, 4 * entry + 2, counts[entry]);
    }
    put(script, 30, 1);
    size_t step = kind == 7 ? 1 : kind == 5 ? 2 : 3, node = 0;
    for (; node + step < nodes; node += step) {
        size_t at = 36 + 8 * node;
        put(script, at, kind);
        if (kind == 7) put(script, at + 2, type), put(script, at + 4, (unsigned)node + 1);
        if (kind == 5) put(script, at + 2, name), put(script, at + 4, (unsigned)node + 1), put(script, at + 6, (unsigned)node + 2);
        if (kind == 8) put(script, at + 2, (unsigned)node + 3), put(script, at + 4, (unsigned)node + 1), put(script, at + 6, (unsigned)node + 2);
        for (size_t leaf = 1; leaf < step; leaf++) put(script, at + 8 * leaf, leaf_kind), put(script, at + 8 * leaf + 2, 2);
    }
    put(script, 36 + 8 * node, leaf_kind);
    put(script, 36 + 8 * node + 2, 2);
    put(script, 22, (unsigned)node + 1);
    return 36 + 8 * (node + 1);
}

/* The same with casts, in a let in place of the first two. */
static size_t let_and_casts(uint8_t *script) {
    static const unsigned nodes[] = {5, 2, 1, 2, 6, 2, 0, 0};
    size_t len = chain(script, 7, 0, OOLONG_NODES_MOST, 0);
    for (size_t word = 0; word < sizeof nodes / sizeof *nodes; word++) put(script, 36 + 2 * word, nodes[word]);
    return len;
}

/* How many words of a node are parts, and the first of them. */
static size_t parts_of(const uint8_t *node, size_t *first) {
    static const struct {
        size_t first, count;
    } parts[] = {{0, 0}, {0, 0}, {0, 0}, {3, 1}, {3, 1}, {2, 2}, {0, 0}, {2, 1}, {1, 3}, {2, 1}, {0, 0}, {0, 0}};
    *first = parts[node[0]].first;
    return parts[node[0]].count;
}

/* How deep the nodes of an accepted script are nested; none without a script. A part has a larger number than its node. */
static unsigned nesting(const uint8_t *script, size_t len) {
    unsigned depth[OOLONG_NODES_MOST] = {0}, most = 0;
    for (size_t node = 0; len > 0 && node < get(script, 22); node++) {
        const uint8_t *record = script + get(script, 20) + 8 * node;
        size_t first, count = parts_of(record, &first);
        if (depth[node] == 0) depth[node] = 1;
        if (depth[node] > most) most = depth[node];
        for (size_t part = first; part < first + count; part++) depth[get(record, 2 * part)] = depth[node] + 1;
    }
    return most;
}

/* All calls in one thread; NULL if the last has the wanted number. */
static void *work_all(void *given) {
    struct job *job = given;
    for (size_t i = 0; i < sizeof calls / sizeof *calls; i++) job->number = calls[i].call(job->script, job->len);
    return job->number == job->wanted ? NULL : job;
}

/* Says what each call uses on this script; whether all answer with this number, none uses more than the header has for it, and a thread with the header's stack is enough. */
static int within(const char *what, const uint8_t *script, size_t len, unsigned number) {
    struct job job = {NULL, script, len, number, 0};
    unsigned deep = nesting(script, len);
    size_t base = used(idle, NULL), most = 0, has = OOLONG_STACK_FOR(deep);
    int answered = 1;
    printf("%s, nested %u deep:", what, deep);
    for (size_t i = 0; i < sizeof calls / sizeof *calls; i++) {
        job.call = calls[i].call;
        size_t bytes = used(work, &job) - base;
        printf(" %s %zu", calls[i].name, bytes);
        if (job.number != number) printf(" (FAIL  its number is %u and not %u)", job.number, number), answered = 0;
        if (bytes > most) most = bytes;
    }
    answered &= enough(has, work_all, &job);
    printf("; %s: the header says %zu, of which %d are for the thread itself\n", most <= has - THREAD ? "ok" : "FAIL", has, THREAD);
    return answered && most <= has - THREAD;
}

int main(void) {
    static uint8_t script[OOLONG_SCRIPT_MOST];
    static const struct {
        const char *what;
        unsigned kind, name, nodes;
        int numbers;
    } cases[] = {
        {"a cast", 7, 0, 2, 0},
        {"10 casts in casts", 7, 0, 10, 0},
        {"100 casts in casts", 7, 0, 100, 0},
        {"casts in casts", 7, 0, OOLONG_NODES_MOST, 0},
        {"casts in casts of a number", 7, 0, OOLONG_NODES_MOST, 1},
        {"lets in lets", 5, 2, OOLONG_NODES_MOST, 0},
        {"lets of numbers in lets", 5, 2, OOLONG_NODES_MOST, 1},
        {"lets of a large variable number", 5, 65535, OOLONG_NODES_MOST, 0},
        {"forks in left asyncs", 8, 0, OOLONG_NODES_MOST, 0},
    };
    int holds = within("no script", script, 0, OOLONG_NO_LENGTH);
    size_t len = fread(script, 1, sizeof script, stdin);
    holds &= within("the script", script, len, OOLONG_OK);
    for (size_t i = 0; i < sizeof cases / sizeof *cases; i++) {
        len = chain(script, cases[i].kind, cases[i].name, cases[i].nodes, cases[i].numbers);
        holds &= within(cases[i].what, script, len, OOLONG_OK);
    }
    holds &= within("casts in casts in a let", script, let_and_casts(script), OOLONG_OK);
    return holds ? EXIT_SUCCESS : EXIT_FAILURE;
}

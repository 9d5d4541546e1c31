/*
 * How much stack and time oolong_read uses. `read_stack < text` measures it on a painted stack: on no text, on the text, which is one of the usual size, on texts as long as those with smaller
 * tables may be, and on texts of 65,536 bytes that are as deep, as long in casts, or as rich in declarations as a text can be. None may use more of OOLONG_READ_STACK than the header says, and a
 * thread with just so many bytes must be enough, in a process of its own. None may take more than 50 milliseconds of a processor: time that grows with the square of the text's length takes longer.
 * Only names that were chosen to have one hash may take 200.
 */
#include <time.h>

#include "oolong.h"
#include "stacks.h"

/* A text of at most SMALL bytes is read with the smallest tables, and one of at most MIDDLE with smaller ones. */
enum { MOST_MS = 50, MOST_MS_CHOSEN = 200, TIMES = 3, SMALL = 1024, MIDDLE = 16384 };

static uint8_t text[OOLONG_TEXT_MOST + 1], file[OOLONG_FILE];

struct job {
    size_t len;
    unsigned number, place;         /* what the reply must be */
    struct oolong_read_reply reply; /* what it is */
};

/* One call; NULL if the reply is right. */
static void *work(void *given) {
    struct job *job = given;
    job->reply = oolong_read(text, job->len, file, sizeof file);
    return job->reply.number == job->number && job->reply.place == job->place ? NULL : job;
}

/* The milliseconds of a processor that a call takes, the quickest of some. */
static double milliseconds(struct job *job) {
    double least = 1e6;
    for (int i = 0; i < TIMES; i++) {
        clock_t began = clock();
        work(job);
        double took = (double)(clock() - began) * 1e3 / CLOCKS_PER_SEC;
        if (took < least) least = took;
    }
    return least;
}

/* What the header says that a text of this length takes of the stack at most. */
static size_t share(size_t len) {
    size_t has = OOLONG_READ_STACK;
    return len <= SMALL ? has / 20 : len <= MIDDLE ? has / 3 : has - THREAD;
}

/* Says what the text uses; whether the reply is right, and neither stack nor time too much. */
static int within_ms(const char *what, size_t len, unsigned number, unsigned place, int most_ms) {
    struct job job = {len, number, place, {0, 0, 0}};
    size_t has = share(len), bytes = used(work, &job) - used(idle, NULL);
    double took = milliseconds(&job);
    int right = work(&job) == NULL, holds = right && bytes <= has && took < most_ms;
    printf("%s, %zu bytes: stack %zu of %zu, %.1f ms", what, len, bytes, has, took);
    if (!right) printf(" (FAIL  %u at %u and not %u at %u)", job.reply.number, (unsigned)job.reply.place, number, place);
    holds &= enough(OOLONG_READ_STACK, work, &job);
    puts(holds ? "; ok" : "; FAIL");
    return holds;
}

static int within(const char *what, size_t len, unsigned number, unsigned place) {
    return within_ms(what, len, number, place, MOST_MS);
}

/* The text of this piece over and over, in the first len bytes of the text. */
static void repeat(const char *piece, size_t len) {
    size_t size = strlen(piece);
    for (size_t at = 0; at < len; at++) text[at] = (uint8_t)piece[at % size];
}

/* So many casts of a variable, and blanks up to len bytes. */
static size_t casts(unsigned count, size_t len) {
    repeat("(Int)", 5 * count);
    memset(text + 5 * count, ' ', len - 5 * count);
    text[5 * count] = 'x';
    return len;
}

/* Name number i of four letters, large ones and small. */
static void name(char *letters, unsigned i) {
    for (int k = 0; k < 4; k++, i /= 52) letters[k] = (char)(i % 52 < 26 ? 'a' + i % 26 : 'A' + i % 26);
}

/* The hash that names have in crate tokens. */
static unsigned hash(const char *letters) {
    unsigned h = 0;
    for (int k = 0; k < 4; k++) h = (h * 131 + (unsigned char)letters[k]) % 512;
    return h;
}

/* So many empty interfaces, each of a name of its own, 16 bytes each, and in all; if they are chosen, their names have one hash. */
static size_t declarations(unsigned count, int chosen) {
    char declared[] = "interface aaaa{}";
    size_t len = sizeof declared - 1, at = 0;
    for (unsigned i = 0; at < count * len; i++) {
        name(declared + 10, i);
        if (chosen && hash(declared + 10) != 0) continue;
        memcpy(text + at, declared, len);
        at += len;
    }
    return at;
}

/* Declarations, and casts to the last of them, or to the first if they are chosen, six bytes each, as many as there is room for in front of the last byte, which is a number. */
static size_t uses(unsigned count, int chosen) {
    size_t at = declarations(count, chosen);
    uint8_t cast[] = "(aaaa)";
    memcpy(cast + 1, chosen ? text + 10 : text + at - 6, 4);
    for (; at + 6 < OOLONG_TEXT_MOST; at += 6) memcpy(text + at, cast, 6);
    text[at] = '1';
    return at + 1;
}

int main(void) {
    int holds = within("no text", 0, OOLONG_NO_GRAMMAR, 0);
    size_t len = fread(text, 1, sizeof text, stdin);
    holds &= within("the text", len, OOLONG_OK, 0);
    repeat("x.m(", OOLONG_TEXT_MOST);
    holds &= within("256 open calls", SMALL, OOLONG_NO_GRAMMAR, SMALL);
    holds &= within("256 open calls, and a name", SMALL + 1, OOLONG_NO_GRAMMAR, SMALL + 1);
    holds &= within("4,096 open calls", MIDDLE, OOLONG_NO_GRAMMAR, MIDDLE);
    holds &= within("4,096 open calls, and a name", MIDDLE + 1, OOLONG_NO_GRAMMAR, MIDDLE + 1);
    holds &= within("16,384 open calls", OOLONG_TEXT_MOST, OOLONG_NO_GRAMMAR, OOLONG_TEXT_MOST);
    holds &= within("204 casts, and blanks", casts(204, SMALL), OOLONG_OK, 0);
    holds &= within("1,023 casts, and blanks", casts(OOLONG_NODES_MOST - 1, MIDDLE), OOLONG_OK, 0);
    holds &= within("1,023 casts, and more blanks", casts(OOLONG_NODES_MOST - 1, OOLONG_TEXT_MOST), OOLONG_OK, 0);
    holds &= within("13,107 casts", casts(13107, OOLONG_TEXT_MOST), OOLONG_NO_ROOM, 5 * OOLONG_NODES_MOST);
    repeat("(Int)", OOLONG_TEXT_MOST);
    holds &= within("13,107 casts, and an open parenthesis", OOLONG_TEXT_MOST, OOLONG_NO_GRAMMAR, OOLONG_TEXT_MOST);
    len = declarations(4000, 0);
    memcpy(text + len, "null", 4);
    holds &= within("4,000 declarations", len + 4, OOLONG_NO_ROOM, 16 * OOLONG_INTERFACES_MOST);
    len = uses(2000, 0);
    holds &= within("2,000 declarations, and 5,589 uses of the last", len, OOLONG_NO_ROOM, 16 * OOLONG_INTERFACES_MOST);
    len = uses(2000, 1);
    holds &= within_ms("the same with names of one hash, and uses of the first", len, OOLONG_NO_ROOM, 16 * OOLONG_INTERFACES_MOST, MOST_MS_CHOSEN);
    memset(text, ' ', OOLONG_TEXT_MOST);
    holds &= within("blanks", OOLONG_TEXT_MOST, OOLONG_NO_GRAMMAR, OOLONG_TEXT_MOST);
    memset(text, '1', OOLONG_TEXT_MOST);
    holds &= within("digits", OOLONG_TEXT_MOST, OOLONG_NO_ROOM, 0);
    memset(text, 'x', OOLONG_TEXT_MOST);
    holds &= within("one name", OOLONG_TEXT_MOST, OOLONG_OK, 0);
    return holds ? EXIT_SUCCESS : EXIT_FAILURE;
}

/*
 * One script under many schedules. `schedules NUMBER.. < script` plays it with the first position that Offer flags, with the last, and 400 times with positions drawn at random, those that
 * cannot move and those that are not there among them: Run must move just those that Offer flags. Each time it must finish with one of these numbers, and each of them must come up.
 */
#include "lent.h"
#include "oolong.h"

enum { LEFT_FIRST, RIGHT_FIRST, SCHEDULES = 402, DRAWN_FROM = 5, MOST_CHOICES = 65536 };

static uint8_t script[OOLONG_SCRIPT_MOST + 1], block[OOLONG_BLOCK], flags[OOLONG_FLAGS];
static size_t script_len;

static void must(int holds, const char *what, unsigned schedule) {
    if (holds) return;
    printf("FAIL  %s, schedule %u\n", what, schedule);
    exit(EXIT_FAILURE);
}

/* The next of a row of numbers that look drawn at random (xorshift). */
static uint32_t drawn(uint32_t *row) {
    *row ^= *row << 13;
    *row ^= *row >> 17;
    *row ^= *row << 5;
    return *row;
}

/* The position that the schedule names, where Offer has set the flags. */
static uint8_t chosen(unsigned schedule, uint32_t *row) {
    uint8_t able[OOLONG_FLAGS];
    unsigned count = 0;
    for (unsigned position = 0; position < OOLONG_FLAGS; position++)
        if (flags[position] == 1) able[count++] = (uint8_t)position;
    must(count > 0, "nothing can move", schedule);
    if (schedule == LEFT_FIRST) return able[0];
    if (schedule == RIGHT_FIRST) return able[count - 1];
    return (uint8_t)(drawn(row) % DRAWN_FROM);
}

/* The number that a schedule comes to. */
static long played(unsigned schedule) {
    uint32_t row = 2463534242u + schedule;
    long number = 0;
    struct oolong_run_reply reply = {0};
    must(oolong_start(script, script_len, block, sizeof block).number == OOLONG_OK, "Start is refused", schedule);
    for (unsigned choices = 0; reply.stop == OOLONG_SPENT && choices < MOST_CHOICES; choices++) {
        must(oolong_offer(script, script_len, block, sizeof block, flags, sizeof flags).number == OOLONG_OK, "Offer is refused", schedule);
        uint8_t choice = chosen(schedule, &row);
        reply = oolong_run(script, script_len, block, sizeof block, &choice, 1);
        must(reply.number == OOLONG_OK && reply.read == 1, "Run is refused", schedule);
        must(reply.moves == flags[choice], "Run moves what Offer does not flag, or not what it flags", schedule);
    }
    must(reply.stop == OOLONG_FINISHED && root_number(block, &number), "it does not finish with a number", schedule);
    return number;
}

int main(int count, char **words) {
    unsigned times[8] = {0};
    must(2 <= count && count <= 8, "usage: schedules NUMBER.. < script", 0);
    script_len = fread(script, 1, sizeof script, stdin);
    for (unsigned schedule = 0; schedule < SCHEDULES; schedule++) {
        long number = played(schedule);
        int i = 1;
        while (i < count && atol(words[i]) != number) i++;
        must(i < count, "it finishes with something else", schedule);
        times[i]++;
    }
    for (int i = 1; i < count; i++) {
        printf("%s under %u schedules\n", words[i], times[i]);
        must(times[i] > 0, "a number never comes up", SCHEDULES);
    }
    return EXIT_SUCCESS;
}

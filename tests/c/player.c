/*
 * A converter that plays a script. `player STOP MOVES OBJECTS [NUMBER] < script` starts it, always moves the first tree position that Offer flags, and must come to that stop after that many moves
 * and with that many objects; it finishes with a number just where one is given, and with that one. Before each move every thread that is at a node must make as many silent moves, in a copy of the
 * block, as are counted for its node. Then it plays the same choices again, as many as fit into each call, and asks for every refusal of Offer and Run. It prints the number that the script
 * finished with, and else nothing unless something is wrong. `player damaged < script` plays it too, and says what a converter would of its last block, kept as a save and then damaged: in a byte
 * of each part, cut, and, where the script finishes with a number, in that number. `player panel MOVES < script` plays so many moves and shows a time panel of the block that they lead to: a line
 * for each thread.
 */
#include "lent.h"
#include "oolong.h"

enum { MOST_MOVES = 65536 };

/* docs/BLOCK.md: the tree positions, the size of a record, and what its first word says. */
enum { POSITIONS = 37896, POSITION = 14, AT_NODE = 1, WITH_VALUE = 2, FAILED = 3 };

static uint8_t script[OOLONG_SCRIPT_MOST + 1];
static size_t script_len;

static void must(int holds, const char *what) {
    if (holds) return;
    printf("FAIL  %s\n", what);
    exit(EXIT_FAILURE);
}

/* A call that may not be refused: else says why it was, and of a block which part is bad. */
static void must_pass(const char *call, unsigned number, unsigned place) {
    if (number == OOLONG_OK && place == 0) return;
    printf("FAIL  %s is refused with %u at %u%s: %s\n", call, number, place, OOLONG_IS_BLOCK_FAULT(number) ? ", a damaged save" : "", oolong_number_text(number));
    exit(EXIT_FAILURE);
}

static void started(uint8_t *block) {
    struct oolong_start_reply reply = oolong_start(script, script_len, block, OOLONG_BLOCK);
    must_pass("Start", reply.number, reply.place);
}

/* The first position that can move; OOLONG_FLAGS if there is none. */
static size_t first_offered(const uint8_t *block) {
    uint8_t flags[OOLONG_FLAGS];
    memset(flags, 0xaa, sizeof flags);
    struct oolong_offer_reply reply = oolong_offer(script, script_len, block, OOLONG_BLOCK, flags, sizeof flags);
    must_pass("Offer", reply.number, reply.place);
    size_t first = OOLONG_FLAGS;
    for (size_t position = OOLONG_FLAGS; position-- > 0;) {
        must(flags[position] <= 1, "a flag is neither 0 nor 1");
        if (flags[position] == 1) first = position;
    }
    return first;
}

static struct oolong_run_reply ran(uint8_t *block, const uint8_t *choices, size_t count) {
    struct oolong_run_reply reply = oolong_run(script, script_len, block, OOLONG_BLOCK, choices, count);
    must_pass("Run", reply.number, reply.place);
    must(reply.moves <= reply.read && reply.read <= count, "Run read or moved too often");
    return reply;
}

static const uint8_t *position_record(const uint8_t *block, size_t position) {
    return block + POSITIONS + POSITION * position;
}

/* The silent moves from a node. */
static unsigned counted(unsigned node) {
    struct oolong_silent_reply reply = oolong_silent(script, script_len, node);
    must_pass("Silent", reply.number, reply.place);
    return reply.count;
}

/* Is a position a thread at a node of a kind that moves silently? docs/SCRIPT.md: where the nodes are, and their kinds. */
static int is_silent(const uint8_t *block, size_t position) {
    static const int kinds[] = {1, 0, 0, 1, 1, 1, 0, 1, 0, 0, 1, 0};
    const uint8_t *record = position_record(block, position);
    return get(record, 0) == AT_NODE && kinds[get(script, get(script, 20) + 8u * get(record, 2))];
}

/* Does a position move silently next, behind so many choices of it in a copy of the block? Each of them must be a move. */
static int is_silent_behind(const uint8_t *block, size_t position, unsigned count) {
    static uint8_t copy[OOLONG_BLOCK], choices[OOLONG_NODES_MOST];
    memcpy(copy, block, OOLONG_BLOCK);
    memset(choices, (int)position, count);
    must(ran(copy, choices, count).moves == count, "a silent move is not made");
    return is_silent(copy, position);
}

/* Of each thread at a node: as many choices of it as are counted for its node make its silent moves, and one fewer leaves one; unless frames may be full before. */
static void expect_rows(const uint8_t *block) {
    for (size_t position = 0; position < get(block, 6); position++) {
        const uint8_t *record = position_record(block, position);
        if (get(record, 0) != AT_NODE) continue;
        unsigned count = counted(get(record, 2));
        must((count > 0) == is_silent(block, position), "a silent move is not counted, or another one is");
        if (count == 0 || get(block, 4) + count > OOLONG_FRAMES_MOST) continue;
        must(is_silent_behind(block, position, count - 1), "a thread makes fewer silent moves than are counted");
        must(!is_silent_behind(block, position, count), "a thread makes more silent moves than are counted");
    }
}

/* The loop of a converter: offer, choose, move, until the run stops or so many moves are made. Leaves the choices made and how many they are; what it stopped with is the answer. */
static unsigned play(uint8_t *block, uint8_t *choices, size_t *made, size_t most) {
    struct oolong_run_reply reply = ran(block, NULL, 0);
    while (reply.stop == OOLONG_SPENT && *made < most) {
        size_t position = first_offered(block);
        expect_rows(block);
        must(position < OOLONG_FLAGS, "a run that has not ended offers nothing");
        choices[*made] = (uint8_t)position;
        reply = ran(block, &choices[(*made)++], 1);
        must(reply.read == 1 && reply.moves == (reply.stop < OOLONG_FULL_OBJECTS), "what is offered does not move");
    }
    return reply.stop;
}

/* Every choice again, in as few calls as there can be. */
static unsigned replay(uint8_t *block, const uint8_t *choices, size_t count) {
    struct oolong_run_reply reply = ran(block, NULL, 0);
    for (size_t done = 0; reply.stop == OOLONG_SPENT && done < count; done += reply.read) {
        size_t rest = count - done;
        reply = ran(block, choices + done, rest < OOLONG_CHOICES_MOST ? rest : OOLONG_CHOICES_MOST);
    }
    return reply.stop;
}

static void expect_number(const uint8_t *block, unsigned stop, const char *wanted) {
    long number;
    int is_number = stop == OOLONG_FINISHED && root_number(block, &number);
    must(is_number == (wanted != NULL), wanted != NULL ? "the script does not finish with a number" : "the script finishes with a number");
    if (!is_number) return;
    printf("finished with the number %ld\n", number);
    must(number == atol(wanted), "that is not the number wanted");
}

/* What is lent to Offer and to Run, and how both must refuse it. */
struct refusal {
    const char *what;
    size_t script_len, block_len, flags_len, choices_len;
    unsigned number, place;
};

/* The block, the flags and the choices have their lengths. */
static struct refusal bad_block(const char *what, unsigned number) {
    struct refusal r = {what, script_len, OOLONG_BLOCK, OOLONG_FLAGS, OOLONG_CHOICES_MOST, number, 0};
    return r;
}

static void expect_refusal(const struct refusal *r, const uint8_t *bytes) {
    struct lent lent_script = lend_to_read(script, r->script_len), read_block = lend_to_read(bytes, r->block_len), block = lend(bytes, r->block_len);
    struct lent flags = lend(NULL, r->flags_len), same_flags = lend(NULL, r->flags_len), choices = lend_to_read(NULL, r->choices_len);
    struct oolong_offer_reply offered = oolong_offer(lent_script.bytes, r->script_len, read_block.bytes, r->block_len, flags.bytes, r->flags_len);
    must(offered.number == r->number && offered.place == r->place, r->what);
    must(memcmp(flags.bytes, same_flags.bytes, r->flags_len) == 0, "a refused Offer has written");
    struct oolong_run_reply run = oolong_run(lent_script.bytes, r->script_len, block.bytes, r->block_len, choices.bytes, r->choices_len);
    must(run.number == r->number && run.place == r->place && run.stop == 0 && run.read == 0 && run.moves == 0, r->what);
    must(memcmp(block.bytes, bytes, r->block_len) == 0, "a refused Run has written");
    struct lent all[] = {lent_script, read_block, block, flags, same_flags, choices};
    for (size_t i = 0; i < sizeof all / sizeof *all; i++) take_back(all[i]);
}

/* A block in which one type has another high byte, which no type has: that of the first record of an area, if there is one. docs/BLOCK.md: where its count and the type are. */
static void expect_refused_type(const uint8_t *block, size_t count_at, size_t type_at, unsigned number) {
    static uint8_t damaged[OOLONG_BLOCK];
    const struct refusal r = bad_block("a type above 255", number);
    if (get(block, count_at) == 0) return;
    memcpy(damaged, block, OOLONG_BLOCK);
    damaged[type_at + 1] = 1;
    expect_refusal(&r, damaged);
}

/* A word that makes a part of the block bad, whatever else stands there: where there is no first object or binding, its words are unused, and bad by that. docs/BLOCK.md says where each of them
 * stands. */
struct fault {
    const char *what;
    size_t at;
    unsigned word, number;
};

static const struct fault faults[] = {
    {"an object of no class", 8, 65535, OOLONG_NO_BLOCK_OBJECTS},
    {"an object neither open nor shut", 10, 2, OOLONG_NO_BLOCK_OBJECTS},
    {"257 objects", 0, OOLONG_OBJECTS_MOST + 1, OOLONG_NO_BLOCK_OBJECTS},
    {"a word at the end of the objects", 13318, 65535, OOLONG_NO_BLOCK_OBJECTS},
    {"a binding of no type", 13322, 65535, OOLONG_NO_BLOCK_BINDINGS},
    {"a binding beneath itself", 13330, 1, OOLONG_NO_BLOCK_BINDINGS},
    {"2,049 bindings", 2, OOLONG_BINDINGS_MOST + 1, OOLONG_NO_BLOCK_BINDINGS},
    {"a word at the end of the bindings", 37894, 65535, OOLONG_NO_BLOCK_BINDINGS},
    {"no thread", 6, 0, OOLONG_NO_BLOCK_THREADS},
    {"2,049 frames", 4, OOLONG_FRAMES_MOST + 1, OOLONG_NO_BLOCK_THREADS},
    {"a position that is nothing", 37896, 5, OOLONG_NO_BLOCK_THREADS},
    {"a word at the end of the block", OOLONG_BLOCK - 2, 1, OOLONG_NO_BLOCK_THREADS},
};

enum { FAULTS = sizeof faults / sizeof *faults };

/* Each fault, and every two of them: then the earlier part is named. */
static void expect_faults(const uint8_t *block) {
    static uint8_t damaged[OOLONG_BLOCK];
    for (size_t i = 0; i < FAULTS; i++)
        for (size_t j = i; j < FAULTS; j++) {
            const struct refusal r = bad_block(faults[i].what, faults[i].number);
            memcpy(damaged, block, OOLONG_BLOCK);
            put(damaged, faults[j].at, faults[j].word);
            put(damaged, faults[i].at, faults[i].word);
            expect_refusal(&r, damaged);
        }
}

/* Which objects are shut is asked with the threads: of a run that has finished none is. */
static void expect_no_shut(const uint8_t *block) {
    static uint8_t damaged[OOLONG_BLOCK];
    const struct refusal r = bad_block("a shut object that no thread holds", OOLONG_NO_BLOCK_THREADS);
    if (get(block, 0) == 0) return;
    memcpy(damaged, block, OOLONG_BLOCK);
    put(damaged, 10, 1);
    expect_refusal(&r, damaged);
}

static void expect_numbers(void) {
    for (unsigned number = 0; number <= UINT16_MAX; number++)
        must(OOLONG_IS_BLOCK_FAULT(number) == (number == 21 || number == 26 || number == 27), "OOLONG_IS_BLOCK_FAULT");
}

static void refusals(const uint8_t *block) {
    static uint8_t damaged[OOLONG_BLOCK + 1];
    memset(damaged, 0, sizeof damaged);
    const struct refusal cases[] = {
        {"a script that is cut", script_len - 1, OOLONG_BLOCK - 1, OOLONG_FLAGS, 0, OOLONG_NO_PLACES, 0},
        {"a short block", script_len, OOLONG_BLOCK - 1, OOLONG_FLAGS - 1, OOLONG_CHOICES_MOST + 1, OOLONG_NO_BLOCK_LENGTH, 0},
        {"a long block", script_len, OOLONG_BLOCK + 1, OOLONG_FLAGS, 0, OOLONG_NO_BLOCK_LENGTH, 0},
        {"no block", script_len, 0, OOLONG_FLAGS, 0, OOLONG_NO_BLOCK_LENGTH, 0},
        {"a block of layout 1", script_len, 49152, OOLONG_FLAGS, 0, OOLONG_NO_BLOCK_LENGTH, 0},
        {"short flags, long choices", script_len, OOLONG_BLOCK, OOLONG_FLAGS - 1, OOLONG_CHOICES_MOST + 1, OOLONG_NO_BUFFER_LENGTH, 0},
        {"long flags, long choices", script_len, OOLONG_BLOCK, OOLONG_FLAGS + 1, OOLONG_CHOICES_MOST + 1, OOLONG_NO_BUFFER_LENGTH, 0},
        {"a block of zeros", script_len, OOLONG_BLOCK, OOLONG_FLAGS, OOLONG_CHOICES_MOST, OOLONG_NO_BLOCK_THREADS, 0},
    };
    for (size_t i = 0; i < sizeof cases / sizeof *cases; i++) expect_refusal(&cases[i], damaged);
    expect_refused_type(block, 0, 8, OOLONG_NO_BLOCK_OBJECTS);      /* the class of object 0 */
    expect_refused_type(block, 2, 13322, OOLONG_NO_BLOCK_BINDINGS); /* the type of binding 0 */
    expect_faults(block);
}

/* A save is asked about by a Run of no choice, which leaves it as it was. */
static unsigned asked(uint8_t *save, size_t size) {
    static uint8_t kept[OOLONG_BLOCK];
    memcpy(kept, save, size);
    unsigned number = oolong_run(script, script_len, save, size, NULL, 0).number;
    must(memcmp(kept, save, size) == 0, "a save is not as it was");
    return number;
}

static void tell_changed(uint8_t *save, size_t at, unsigned wanted) {
    save[at] ^= 1;
    unsigned number = asked(save, OOLONG_BLOCK);
    save[at] ^= 1;
    must(number == wanted && OOLONG_IS_BLOCK_FAULT(number) == (wanted != OOLONG_OK), "that is not the part that is bad");
    printf("byte %zu changed: %u: %s\n", at, number, number == OOLONG_OK ? "another state of this script, so nobody sees it but a checksum" : oolong_number_text(number));
}

/* What a converter says of a save that is damaged: the block with a byte of each part changed, cut, and with another number as its result (docs/BLOCK.md: the value of position 0). */
static void tell_damage(uint8_t *block) {
    tell_changed(block, 13319, OOLONG_NO_BLOCK_OBJECTS);
    tell_changed(block, 37895, OOLONG_NO_BLOCK_BINDINGS);
    tell_changed(block, 37896, OOLONG_NO_BLOCK_THREADS);
    unsigned number = asked(block, OOLONG_BLOCK - 1);
    must(number == OOLONG_NO_BLOCK_LENGTH && !OOLONG_IS_BLOCK_FAULT(number), "a save that was cut is not refused by its length");
    printf("cut: %u: %s\n", number, oolong_number_text(number));
    if (get(block, 37902) == 2) tell_changed(block, 37904, OOLONG_OK);
}

/* A time panel: of each thread how many silent moves come before its next step, wait or finish. The longest row of the script is its full scale. */
static void show_panel(const uint8_t *block) {
    for (size_t position = 0; position < get(block, 6); position++) {
        const uint8_t *record = position_record(block, position);
        unsigned kind = get(record, 0), node = get(record, 2);
        if (kind == AT_NODE) printf("position %zu, at node %u: silent moves before its next step, wait or finish: %u\n", position, node, counted(node));
        if (kind == WITH_VALUE) printf("position %zu, with a value: no silent move\n", position);
        if (kind == FAILED) printf("position %zu: failed\n", position);
    }
    printf("at most from any node: %u\n", oolong_check(script, script_len).silent);
}

int main(int count, char **words) {
    static uint8_t block[OOLONG_BLOCK], again[OOLONG_BLOCK], first[OOLONG_BLOCK], choices[MOST_MOVES];
    int tells = count == 2 && strcmp(words[1], "damaged") == 0, shows = count == 3 && strcmp(words[1], "panel") == 0;
    must(tells || shows || count == 4 || count == 5, "usage: player STOP MOVES OBJECTS [NUMBER] < script, player damaged < script, or player panel MOVES < script");
    script_len = fread(script, 1, sizeof script, stdin);
    must(oolong_check(script, script_len).number == OOLONG_OK, "the script is not accepted");
    memset(block, 0xaa, sizeof block);
    started(block);
    started(again);
    must(memcmp(block, again, sizeof block) == 0, "two starts differ");
    memcpy(first, block, sizeof block);

    size_t made = 0, most = shows ? (size_t)atoi(words[2]) : MOST_MOVES;
    unsigned stop = play(block, choices, &made, most < MOST_MOVES ? most : MOST_MOVES);
    if (shows) return show_panel(block), EXIT_SUCCESS;
    must(stop != OOLONG_SPENT, "the run does not end");
    if (tells) return tell_damage(block), EXIT_SUCCESS;
    size_t moves = made - (stop >= OOLONG_FULL_OBJECTS);
    unsigned objects = get(block, 0); /* docs/BLOCK.md: the first count of the header */
    if (stop != (unsigned)atoi(words[1]) || moves != (size_t)atoi(words[2]) || objects != (unsigned)atoi(words[3])) {
        printf("FAIL  stopped with %u after %zu moves with %u objects; wanted %s after %s with %s\n", stop, moves, objects, words[1], words[2], words[3]);
        return EXIT_FAILURE;
    }
    expect_number(block, stop, count == 5 ? words[4] : NULL);
    must((first_offered(block) == OOLONG_FLAGS) == (stop < OOLONG_FULL_OBJECTS), "an ended run offers a move, or one at a full store offers none");
    must(replay(again, choices, made) == stop && memcmp(block, again, sizeof block) == 0, "the same choices in fewer calls lead elsewhere");
    must(memcmp(block, first, sizeof block) != 0, "nothing has moved");
    refusals(first);
    refusals(block);
    if (stop == OOLONG_FINISHED) expect_no_shut(block);
    expect_numbers();
    return EXIT_SUCCESS;
}

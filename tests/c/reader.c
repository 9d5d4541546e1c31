/*
 * A converter that takes scripts as their authors type them. `reader < text` is given Figure 10 as a text: it reads it, checks the file, starts it and plays it to its end, which is the number 3.
 * Then the texts that are refused, and the edges. Every reply is known in all its numbers, and so is every byte of the buffer: the file and zeros, or after a refusal what stood there; the bytes in
 * front of the buffer stay as they were, and behind it, and behind the text, stands a page that may not be touched. It prints nothing unless something is wrong.
 */
#include "lent.h"
#include "oolong.h"

static int failures;

static void expect(int holds, const char *what, const char *wrong) {
    if (holds) return;
    printf("FAIL  %s: %s\n", what, wrong);
    failures++;
}

/* A file is known by its words. */
struct file {
    size_t count;
    const uint16_t *words;
};

/* What stands in front of a lent buffer, and is not lent. */
static int front_is_0(struct lent lent) {
    const uint8_t *at = lent.map + page_size();
    while (at < lent.bytes && *at == 0) at++;
    return at == lent.bytes;
}

/* Reads a text into a buffer of so many bytes. Without a file the call must be refused with this number, at this place. */
static void expect_read(const char *what, const void *bytes, size_t len, size_t room, unsigned number, unsigned long place, struct file file) {
    struct lent text = lend_to_read(bytes, len), buffer = lend(NULL, room), wanted = lend(NULL, room);
    if (file.count > 0) memset(wanted.bytes, 0, room);
    for (size_t i = 0; i < file.count; i++) put(wanted.bytes, 2 * i, file.words[i]);
    struct oolong_read_reply got = oolong_read(text.bytes, len, buffer.bytes, room);
    if (got.number != number || got.place != place || got.length != 2 * file.count) {
        printf("FAIL  %s: got %u at %lu, length %u; wanted %u at %lu, length %zu\n", what, got.number, (unsigned long)got.place, got.length, number, place, 2 * file.count);
        failures++;
    }
    expect(memcmp(buffer.bytes, wanted.bytes, room) == 0, what, file.count > 0 ? "the buffer is not the file and zeros" : "the buffer is not as it was");
    expect(front_is_0(buffer), what, "bytes in front of the buffer are written");
    take_back(text);
    take_back(buffer);
    take_back(wanted);
}

static const struct file none = {0, NULL};

static void expect_refused(const char *what, const void *bytes, size_t len, unsigned number, unsigned long place) {
    expect_read(what, bytes, len, OOLONG_FILE, number, place, none);
}

/* The file that docs/GRAMMAR.md has for Figure 10, a record to a line. */
static const uint16_t figure_10[] = {
    24, 1, 30, 2, 42, 1, 48, 1, 52, 3, 76, 24, /* contents */
    0, 2, 0,                                   /* Counter */
    0, 3, 0, 1, 3, 3,                          /* add, get */
    1, 1, 3,                                   /* Cell */
    0, 3,                                      /* cnt */
    2, 3, 0, 17, 0, 3, 0, 19, 1, 3, 3, 23,     /* init, add, get */
    5, 3, 1, 2, 6, 2, 0, 0,                    /* let cell = new Cell in */
    5, 4, 3, 5, 7, 1, 4, 0, 1, 3, 0, 0,        /* let cell2 = (Counter) cell in */
    5, 5, 6, 8, 4, 3, 2, 7, 10, 0, 0, 0,       /* let tmp = cell.init(0) in */
    8, 9, 12, 15,                              /* finish */
    9, 3, 10, 0, 4, 3, 0, 11, 10, 1, 0, 0,     /* lock(cell) in cell.add(1) */
    9, 4, 13, 0, 4, 4, 0, 14, 10, 2, 0, 0,     /* lock(cell2) in cell2.add(2) */
    4, 3, 1, 16, 10, 0, 0, 0,                  /* cell.get(0) */
    3, 0, 0, 18, 1, 1, 0, 0,                   /* this.cnt = n */
    5, 2, 20, 21, 2, 0, 0, 0,                  /* let cnt = this.cnt in */
    3, 0, 0, 22, 11, 2, 1, 0,                  /* this.cnt = (cnt + n) */
    2, 0, 0, 0,                                /* this.cnt */
};

/* The silent moves from each of its nodes: the expression that begins there goes down so often before a variable, a read, a new, a sum, a fork or a lock, or behind a number. */
static const unsigned silent_10[] = {1, 0, 2, 1, 0, 3, 2, 1, 0, 0, 2, 1, 0, 2, 1, 2, 1, 1, 0, 1, 0, 1, 0, 0};

static void expect_silent_10(const uint8_t *file, size_t len) {
    enum { NODES = sizeof silent_10 / sizeof *silent_10 };
    for (uint32_t node = 0; node < NODES + 1; node++) {
        struct oolong_silent_reply got = oolong_silent(file, len, node), none = oolong_silent(file, len, 65536 + node);
        expect(got.number == OOLONG_OK && got.place == 0 && got.count == (node < NODES ? silent_10[node] : 0), "Figure 10", "a wrong count of silent moves");
        expect(none.number == OOLONG_OK && none.place == 0 && none.count == 0, "Figure 10", "a count of silent moves from no node");
    }
}

/* From the text to the end of its run, as a converter goes. */
static void from_text_to_end(const uint8_t *bytes, size_t len) {
    static uint8_t file[OOLONG_FILE], block[OOLONG_BLOCK], flags[OOLONG_FLAGS];
    struct file known = {sizeof figure_10 / sizeof *figure_10, figure_10};
    expect_read("Figure 10", bytes, len, OOLONG_FILE, OOLONG_OK, 0, known);
    struct oolong_read_reply text = oolong_read(bytes, len, file, sizeof file);
    struct oolong_check_reply checked = oolong_check(file, text.length);
    expect(checked.number == OOLONG_OK && checked.place == 0 && checked.type == 3, "Figure 10", "Check does not answer type 3");
    expect(checked.silent == 3, "Figure 10", "Check does not answer 3 silent moves in a row at the most");
    expect_silent_10(file, text.length);
    struct oolong_start_reply started = oolong_start(file, text.length, block, sizeof block);
    expect(started.number == OOLONG_OK && started.place == 0, "Figure 10", "Start is refused");
    struct oolong_run_reply ran = {0};
    unsigned moves = 0;
    while (ran.number == OOLONG_OK && ran.stop == OOLONG_SPENT && moves < 1000) {
        struct oolong_offer_reply offered = oolong_offer(file, text.length, block, sizeof block, flags, sizeof flags);
        uint8_t choice = 0;
        while (choice < OOLONG_FLAGS - 1 && flags[choice] == 0) choice++;
        expect(offered.number == OOLONG_OK && offered.place == 0 && flags[choice] == 1, "Figure 10", "Offer is refused, or offers nothing");
        ran = oolong_run(file, text.length, block, sizeof block, &choice, 1);
        expect(ran.number == OOLONG_OK && ran.place == 0 && ran.read == 1 && ran.moves == 1, "Figure 10", "Run does not make the move");
        moves++;
    }
    long number = 0;
    expect(ran.stop == OOLONG_FINISHED && moves == 44, "Figure 10", "it does not finish after 44 moves");
    expect(root_number(block, &number) && number == 3, "Figure 10", "it does not finish with the number 3");
}

/* A text that is one integer, and the words of its node behind the contents. */
static void expect_integer(const char *text, unsigned low, unsigned high) {
    const uint16_t words[] = {24, 0, 24, 0, 24, 0, 24, 0, 24, 0, 24, 1, 10, (uint16_t)low, (uint16_t)high, 0};
    struct file file = {sizeof words / sizeof *words, words};
    expect_read(text, text, strlen(text), OOLONG_FILE, OOLONG_OK, 0, file);
}

static void integers(void) {
    expect_integer("0", 0, 0);
    expect_integer("- 0", 0, 0);
    expect_integer("-1", 65535, 65535);
    expect_integer("00000000000000065536", 0, 1);
    expect_integer("2147483647", 65535, 32767);
    expect_integer("\t-\r\n2147483648 ", 0, 32768);
}

static void refusals(void) {
    static const struct {
        const char *text;
        unsigned number;
        unsigned long place;
    } cases[] = {
        {"", OOLONG_NO_GRAMMAR, 0},
        {" ", OOLONG_NO_GRAMMAR, 1},
        {"1x", OOLONG_NO_GRAMMAR, 1},
        {"let x = 1 in ", OOLONG_NO_GRAMMAR, 13},
        {"letx = 1 in x", OOLONG_NO_GRAMMAR, 5},
        {"let this = 1 in 1", OOLONG_NO_GRAMMAR, 4},
        {"let x = 1 in (x)", OOLONG_NO_GRAMMAR, 16},
        {"let x = 1 in x // one", OOLONG_NO_GRAMMAR, 15},
        {"null\xc3\xa9", OOLONG_NO_GRAMMAR, 4},
        {"class A implements A { def m(p : A) : A { p } f : A } 1", OOLONG_NO_GRAMMAR, 46},
        {"new C", OOLONG_NO_DECLARATION, 4},
        {"(int) 1", OOLONG_NO_DECLARATION, 1},
        {"interface A {} interface A {} 1", OOLONG_NO_DECLARATION, 25},
        {"interface A {} class A implements B {} 1", OOLONG_NO_DECLARATION, 21},
        {"interface A extends B, A class A implements A {} 1", OOLONG_NO_DECLARATION, 20},
        {"2147483648", OOLONG_NO_ROOM, 0},
        {"(Int) - 2147483649", OOLONG_NO_ROOM, 6},
        {"(C) 2147483648", OOLONG_NO_DECLARATION, 1},
        {"(C) 2147483648 1", OOLONG_NO_GRAMMAR, 15},
    };
    for (size_t i = 0; i < sizeof cases / sizeof *cases; i++) expect_refused(cases[i].text, cases[i].text, strlen(cases[i].text), cases[i].number, cases[i].place);
    expect_refused("a byte 0 behind the text", "1", 2, OOLONG_NO_GRAMMAR, 1);
}

/* A text of this piece so many times, and of an end. */
static size_t repeated(char *text, const char *piece, unsigned times, const char *end) {
    size_t len = 0;
    while (times-- > 0) len += (size_t)sprintf(text + len, piece, times);
    return len + (size_t)sprintf(text + len, "%s", end);
}

/* One record more than a file has room for, and as many as it has. */
static void limits(void) {
    static char text[OOLONG_TEXT_MOST];
    static uint8_t file[OOLONG_FILE];
    static const struct {
        const char *what, *begin, *piece, *end;
        unsigned most;
        int start; /* is the start, and not the last piece, the record that is too many? */
    } cases[] = {
        {"interfaces", "", "interface I%02u{}", "1", OOLONG_INTERFACES_MOST, 0},
        {"signatures", "interface I{", "m%03u(p:I):I ", "}1", OOLONG_SIGNATURES_MOST, 0},
        {"classes", "interface I{}", "class C%02u implements I{}", "1", OOLONG_CLASSES_MOST, 0},
        {"fields", "interface I{}class C implements I{", "f%03u:I ", "}1", OOLONG_FIELDS_MOST, 0},
        {"methods", "interface I{}class C implements I{", "def m%03u(p:I):I{p}", "}1", OOLONG_METHODS_MOST, 0},
        {"nodes", "", "(Int)", "1", OOLONG_NODES_MOST - 1, 1},
        {"nodes of a body, counted before the start", "interface I{}class C implements I{def m(p:I):I{", "(I)", "p}}1", OOLONG_NODES_MOST - 2, 1},
    };
    for (size_t i = 0; i < sizeof cases / sizeof *cases; i++) {
        size_t begin = strlen(cases[i].begin), end = strlen(cases[i].end);
        memcpy(text, cases[i].begin, begin);
        size_t len = begin + repeated(text + begin, cases[i].piece, cases[i].most, cases[i].end);
        struct oolong_read_reply got = oolong_read((uint8_t *)text, len, file, sizeof file);
        expect(got.number == OOLONG_OK && got.place == 0 && got.length >= 32, cases[i].what, "as many as there is room for are refused");
        size_t more = begin + repeated(text + begin, cases[i].piece, cases[i].most + 1, cases[i].end), piece = more - len;
        expect_refused(cases[i].what, text, more, OOLONG_NO_ROOM, cases[i].start ? more - 1 : more - end - piece);
    }
}

static void lengths(void) {
    static uint8_t text[OOLONG_TEXT_MOST + 1];
    static const uint16_t one[] = {24, 0, 24, 0, 24, 0, 24, 0, 24, 0, 24, 1, 10, 1, 0, 0};
    struct file file = {sizeof one / sizeof *one, one};
    memset(text, ' ', sizeof text);
    expect_refused("65,536 blanks", text, OOLONG_TEXT_MOST, OOLONG_NO_GRAMMAR, OOLONG_TEXT_MOST);
    expect_refused("65,537 blanks", text, OOLONG_TEXT_MOST + 1, OOLONG_NO_ROOM, 0);
    text[OOLONG_TEXT_MOST - 1] = '1';
    expect_read("65,536 bytes, the last a number", text, OOLONG_TEXT_MOST, OOLONG_FILE, OOLONG_OK, 0, file);
    expect_refused("the same, and a blank", text, OOLONG_TEXT_MOST + 1, OOLONG_NO_ROOM, 0);
    text[OOLONG_TEXT_MOST - 1] = '*';
    expect_refused("65,536 bytes, the last a stray one", text, OOLONG_TEXT_MOST, OOLONG_NO_GRAMMAR, OOLONG_TEXT_MOST - 1);
    for (size_t room = OOLONG_FILE - 1; room <= OOLONG_FILE + 1; room += 2) {
        expect_read("a number in another buffer", "1", 1, room, OOLONG_NO_ROOM, 0, none);
        expect_read("a stray byte in another buffer", "*", 1, room, OOLONG_NO_ROOM, 0, none);
    }
    expect_read("a number in no buffer", "1", 1, 0, OOLONG_NO_ROOM, 0, none);
    struct lent buffer = lend(NULL, OOLONG_FILE);
    struct oolong_read_reply got = oolong_read(NULL, 0, buffer.bytes, OOLONG_FILE);
    expect(got.number == OOLONG_NO_GRAMMAR && got.place == 0 && got.length == 0, "no bytes and no pointer", "a wrong reply");
    take_back(buffer);
    got = oolong_read((const uint8_t *)"1", 1, NULL, 0);
    expect(got.number == OOLONG_NO_ROOM && got.place == 0 && got.length == 0, "no buffer and no pointer", "a wrong reply");
    got = oolong_read(NULL, 0, NULL, 0);
    expect(got.number == OOLONG_NO_ROOM && got.place == 0 && got.length == 0, "no pointer at all", "a wrong reply");
}

int main(void) {
    static uint8_t text[OOLONG_TEXT_MOST];
    _Static_assert(sizeof(struct oolong_read_reply) == 8, "a reply of Read has 8 bytes");
    from_text_to_end(text, fread(text, 1, sizeof text, stdin));
    integers();
    refusals();
    limits();
    lengths();
    if (failures > 0) printf("%d failed\n", failures);
    return failures == 0 ? EXIT_SUCCESS : EXIT_FAILURE;
}

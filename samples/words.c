/*
 * Turns a sample into the bytes of a script file. A sample is words in decimal, which become two bytes each, low byte first, and comments from '#' to the end of the line. `3*(..)` stands
 * for the words between the brackets three times over, and there a word may be `a+b`: a the first time, and b more each time after that. So `3*(1 4+1)` is 1 4 1 5 1 6.
 */
#include <ctype.h>
#include <stdio.h>
#include <stdlib.h>

enum { WORD_MOST = 65535, GROUP_MOST = 64 };

struct word {
    unsigned first, more;
};

static int c; /* the character that comes next */

static void must(int holds, const char *what) {
    if (holds) return;
    fprintf(stderr, "words: %s\n", what);
    exit(EXIT_FAILURE);
}

static void skip(void) {
    while (c == '#' || isspace(c)) {
        if (c == '#')
            while (c != EOF && c != '\n') c = getchar();
        else
            c = getchar();
    }
}

static unsigned number(void) {
    unsigned value = 0;
    must(isdigit(c), "a number is wanted");
    for (; isdigit(c); c = getchar()) {
        value = value * 10 + (unsigned)(c - '0');
        must(value <= WORD_MOST, "a number is no 16-bit word");
    }
    return value;
}

static void put(unsigned word) {
    must(word <= WORD_MOST, "a sum is no 16-bit word");
    putchar((int)(word % 256));
    putchar((int)(word / 256));
}

/* The words behind `times*(`, and the bracket that ends them. */
static void repeated(unsigned times) {
    struct word group[GROUP_MOST];
    size_t count = 0;
    for (skip(); c != ')'; skip()) {
        must(count < GROUP_MOST, "too many words between brackets");
        group[count].first = number();
        group[count].more = 0;
        if (c == '+') {
            c = getchar();
            group[count].more = number();
        }
        count++;
    }
    c = getchar();
    for (unsigned time = 0; time < times; time++)
        for (size_t i = 0; i < count; i++) put(group[i].first + time * group[i].more);
}

int main(void) {
    c = getchar();
    for (skip(); c != EOF; skip()) {
        unsigned word = number();
        if (c == '*') {
            must(getchar() == '(', "a bracket is wanted");
            c = getchar();
            repeated(word);
        } else {
            put(word);
        }
    }
    return fflush(stdout) == 0 ? EXIT_SUCCESS : EXIT_FAILURE;
}

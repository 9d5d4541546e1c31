/*
 * oolong.h - OOlong scripts in a converter.
 *
 * The engine is a static library, liboolong.a, of proved functions. There are six calls:
 *
 *     oolong_read    makes a script of a text, as an author types it
 *     oolong_check   is this a script that may run, and what is the type of its result?
 *     oolong_silent  how many silent moves does a thread at a node make before its next published step, wait or finish?
 *     oolong_start   writes the state of a run that has not begun into a block of yours
 *     oolong_offer   which threads can move next?
 *     oolong_run     moves threads in the order that you choose
 *
 * GRAMMAR.md, SCRIPT.md and BLOCK.md are installed beside this header, in share/doc/liboolong, and stand in docs/ of the sources.
 *
 * Every call returns, whatever bytes it is lent: you need not check them first. Nothing here allocates memory, keeps anything between calls, reads or writes a file, or calls back.
 * A reply depends on nothing but the lent bytes and lengths. Calls may run at the same time in different threads if each has buffers of its own for what it writes: one script, and any
 * other buffer that the calls only read, may be lent to all of them at once.
 *
 * Buffers. A buffer is lent as a pointer and a length in bytes, at any address. A length of 0 goes with any pointer, NULL too. With a larger length the pointer must point to that many
 * bytes that stay readable, and unwritten by others, until the call returns. A buffer that a call writes (the file in oolong_read, the block in oolong_start and oolong_run, the flags in
 * oolong_offer) must be writable and may not overlap another buffer lent to that call. Parameters that point to const bytes are only read.
 *
 * Numbers. A reply has a number: 0 if the call was not refused, else the number of the first question about your input that gets a no (OOLONG_NO_..). The place goes with it:
 * the byte offset in the script of the lowest record at fault, or 0 where the question is about the script as a whole or about another buffer; of oolong_read the byte offset in the text
 * of the first token at fault (its line is 1 and the line feeds in front of it). A refusal leaves every other number of the reply 0, and EVERY LENT BYTE AS IT WAS.
 *
 * The text. Up to 65,536 bytes of ASCII that an author types; GRAMMAR.md says what may stand there. oolong_read makes a script of it, and no other call is lent a text.
 *
 * The script. A file of 24 to 13,592 bytes; SCRIPT.md says what each byte means. It comes from oolong_read, or from a tool of yours that writes such files.
 *
 * The block. A run's whole state is in the 65,536 bytes of the block, which is yours; BLOCK.md says what each byte means. A state has exactly one block: two runs of a script are in the
 * same state just where memcmp of their blocks is 0. All numbers in it stand low byte first on every machine. Between calls you may keep a block as long as you like, move it, save it to a
 * file and load it again, copy it to come back to that state later, and run the copies on in different ways. Lend it with the script that it was started with. You may also lend a block
 * that was changed, damaged or made by hand: if it is one of the well-formed states of the script, the run goes on from there, and else the call is refused with the number of the first part that
 * is bad: OOLONG_NO_BLOCK_OBJECTS, OOLONG_NO_BLOCK_BINDINGS or OOLONG_NO_BLOCK_THREADS. OOLONG_IS_BLOCK_FAULT asks for any of the three.
 * A block of major version 2 or 3 is as good as before; one that was written by a library of major version 1 (layout 1, 49,152 bytes) is refused with OOLONG_NO_BLOCK_LENGTH: let the old library end its runs, or start them anew.
 *
 * Stack. The calls that are lent a script go as deep as its expressions are nested: OOLONG_STACK_FOR says what a thread needs that makes them. oolong_read needs the same for every nesting, and
 * more of it: OOLONG_READ_STACK.
 *
 * Versions. The names that the linker sees end in the major version: a program that was compiled with the header of another major version does not link with this library, since replies are
 * returned by value and may then have other fields. In C and C++ the calls have the names that are declared here. The header is for gcc and clang, in C from C89 and in C++ from C++98 on.
 * Version 4 has oolong_silent, and one member more at the end of oolong_check's reply: code that names the members of a reply is compiled again as it stands. All else is as in version 3.
 */
#ifndef OOLONG_H
#define OOLONG_H

#include <stddef.h>
#include <stdint.h>

#ifdef __cplusplus
extern "C" {
#endif

/* The major version changes where a call, a reply, a number's meaning or the block's layout does; the minor where something is added; the patch where neither does. */
#define OOLONG_VERSION_MAJOR 4
#define OOLONG_VERSION_MINOR 0
#define OOLONG_VERSION_PATCH 1
#define OOLONG_VERSION (OOLONG_VERSION_MAJOR * 10000 + OOLONG_VERSION_MINOR * 100 + OOLONG_VERSION_PATCH)

/* The number of the block's layout: it changes where a byte of the block changes its meaning. A block that you keep in a file is best kept with this number. */
#define OOLONG_LAYOUT 2

/* The linker's name of a call: its own, and the major version. */
#define OOLONG_TEXT_OF(number) #number
#define OOLONG_LINK_NAME(name, major) __asm__(name "_" OOLONG_TEXT_OF(major))
#define OOLONG_LINKED(name) OOLONG_LINK_NAME(name, OOLONG_VERSION_MAJOR)

/* Limits of a script file. */
#define OOLONG_SCRIPT_LEAST 24u      /* bytes of the shortest file: the contents */
#define OOLONG_SCRIPT_MOST 13592u    /* bytes of the longest */
#define OOLONG_INTERFACES_MOST 64u
#define OOLONG_SIGNATURES_MOST 256u
#define OOLONG_CLASSES_MOST 64u
#define OOLONG_FIELDS_MOST 256u
#define OOLONG_METHODS_MOST 256u
#define OOLONG_NODES_MOST 1024u
#define OOLONG_CLASS_FIELDS_MOST 8u  /* fields of one class */

/* The other buffers. */
#define OOLONG_TEXT_MOST 65536u      /* bytes of the longest text */
#define OOLONG_FILE 13592u           /* bytes of the buffer that oolong_read writes a script file into, exactly */
#define OOLONG_BLOCK 65536u          /* bytes of a state block, exactly */
#define OOLONG_FLAGS 63u             /* bytes of the flags, exactly: one for each tree position that there can be */
#define OOLONG_CHOICES_MOST 4096u    /* bytes of the longest choice list; none is fine */

/* What a block has room for. Objects and bindings are never freed. */
#define OOLONG_OBJECTS_MOST 256u
#define OOLONG_BINDINGS_MOST 2048u   /* variables that got a value: one for a let, two for a call */
#define OOLONG_FRAMES_MOST 2048u     /* unfinished expressions of all threads together */
#define OOLONG_THREADS_MOST 32u      /* threads at one time; with the joins between them at most 63 tree positions */

/* gcc and clang warn of a use of the old name below. */
#if defined(__clang__) || __GNUC__ >= 6
#define OOLONG_OLD_NAME(text) __attribute__((__deprecated__(text)))
#else
#define OOLONG_OLD_NAME(text)
#endif

/* Why a call is refused: the first question, in this order, that gets a no. oolong_check and oolong_silent ask those to 15, oolong_start these and OOLONG_NO_BLOCK_LENGTH, oolong_offer and
 * oolong_run all down to OOLONG_NO_BLOCK_THREADS; oolong_read asks the last three and no others. */
enum oolong_number {
    OOLONG_OK = 0,
    OOLONG_NO_LENGTH = 1,      /* the file is not 24 to 13,592 bytes; place 0 */
    OOLONG_NO_COUNTS = 2,      /* a count is above its limit, or there is no node; place 0 */
    OOLONG_NO_PLACES = 3,      /* a body does not stand where the contents must place it, or the last does not end with the file; place 0 */
    OOLONG_NO_INTERFACE = 4,   /* an interface record is neither a list with 0 nor a join of two earlier interfaces */
    OOLONG_NO_OWNERS = 5,      /* owners' counts do not add up to a section's count; place 0 */
    OOLONG_NO_TYPE = 6,        /* a type word is no type, a class's interface no interface, or the operand of `new` no class */
    OOLONG_NO_NODE = 7,        /* a node's kind, words, parts or uses are out of order, or a method's body is missing (place: the method) */
    OOLONG_NO_NAME = 8,        /* a name stands twice in one list, one class's fields or one class's methods (place: the later), or a class has more than 8 fields */
    OOLONG_NO_JOIN = 9,        /* a join has two meanings with different types for one method name */
    OOLONG_NO_CLASS = 10,      /* a class lacks a method of its interface, or has it with other types */
    OOLONG_NO_VARIABLE = 11,   /* a variable is not bound */
    OOLONG_NO_NULL = 12,       /* the type of a null is to be inferred */
    OOLONG_NO_MEMBER = 13,     /* the target's type lacks the field or method, or the target of a lock is of type Int */
    OOLONG_NO_FIT = 14,        /* an inferred type is not below the wanted one (place: the node that does not fit: an operand, an argument, a value to write or a method's body; of a let, a lock or a fork the innermost last part),
                                  a null stands where Int is wanted (place: the null), or a variable of a sum is not of type Int (place: the sum) */
    OOLONG_NO_SHARING = 15,    /* the two asyncs of a fork share a variable (place: the fork) */
    OOLONG_NO_BLOCK_LENGTH = 20,   /* the block is not 65,536 bytes, as one of layout 1 is not; place 0 */
    OOLONG_NO_BUFFER_LENGTH = 22,  /* there are more than 4,096 choices (oolong_run), or the flags are not 63 bytes (oolong_offer); place 0. Asked before 21 */
    OOLONG_NO_BLOCK_OBJECTS = 21,  /* the block's objects are bad: there are more than 256, a class is no class of this script, a lock word is neither 0 nor 1, a field's value is none, names no
                                      object that is there or does not fit the field's type, or an unused byte of their area is not 0; place 0 */
    /* The old name of 21. Up to version 2 it was the number of every block that is no well-formed state of the script: OOLONG_IS_BLOCK_FAULT asks for that now. */
    OOLONG_NO_BLOCK_FORM OOLONG_OLD_NAME("it means objects only; OOLONG_IS_BLOCK_FAULT is 1 for every bad part of a block") = OOLONG_NO_BLOCK_OBJECTS,
    OOLONG_NO_BLOCK_BINDINGS = 26, /* the objects are sound, and the variable bindings are bad: there are more than 2,048, a type is no type of this script, a value is none, names no object that
                                      is there or does not fit the type, a link does not run to an earlier binding, or an unused byte of their area is not 0; place 0 */
    OOLONG_NO_BLOCK_THREADS = 27,  /* objects and bindings are sound, and the rest is bad: the frames, the tree of threads, which objects are shut, or an unused byte of no other area; place 0 */
    OOLONG_NO_GRAMMAR = 34,     /* the token at the place fits nothing that can be typed behind what stands before it; where the text ends too soon, the place is its length */
    OOLONG_NO_DECLARATION = 35, /* a type has a name that the text declares nowhere, or a name is declared again, as an interface or a class (place: the first such name) */
    OOLONG_NO_ROOM = 36         /* the text is above 65,536 bytes or the buffer is not 13,592 (both asked before 34; place 0), or there are more interfaces, signatures, classes, fields, methods
                                   or nodes than a file may have (place: the first token of the first one too many), or an integer is below -2,147,483,648 or above 2,147,483,647
                                   (place: its first token, which is its minus if it has one): the lowest of these places */
};

#undef OOLONG_OLD_NAME

/* 1 if a call was refused with this number because its block is no well-formed state of the script, whichever part is bad, and else 0. The number is evaluated once. A save that is loaded is asked
 * about by a Run of no choice, which leaves it as it was. One of another length, since it was cut for one, gets OOLONG_NO_BLOCK_LENGTH, which is none of the three. Damage that leaves a well-formed
 * state of the script, as another number in a field does, is not refused: keep a checksum with a save. */
#define OOLONG_IS_BLOCK_FAULT(number) oolong_is_block_fault(number)

static __inline__ int oolong_is_block_fault(unsigned number) {
    return number == OOLONG_NO_BLOCK_OBJECTS || number == OOLONG_NO_BLOCK_BINDINGS || number == OOLONG_NO_BLOCK_THREADS;
}

/* Why oolong_run came back. */
enum oolong_stop {
    OOLONG_SPENT = 0,         /* every choice is read and the run can go on: lend more */
    OOLONG_FINISHED = 1,      /* the script has ended with a value */
    OOLONG_FAILED = 2,        /* the script has ended with a failure: a field, a method or a lock of null was asked for, or a sum was below -2,147,483,648 or above 2,147,483,647 */
    OOLONG_DEADLOCK = 3,      /* no thread can move: each that is left waits for a lock that is never opened */
    OOLONG_FULL_OBJECTS = 4,  /* the move that was chosen last needs a place that the block no longer has, and was not made. Objects and bindings stay full; */
    OOLONG_FULL_BINDINGS = 5, /* frames and threads may become free when other threads move. */
    OOLONG_FULL_FRAMES = 6,
    OOLONG_FULL_THREADS = 7
};

/* Stack that is enough for a thread that makes any of the calls but oolong_read, in bytes, where the script's expressions are nested so deep: a node that is no part of another is nested 1 deep,
 * and a part one deeper than its node. pthread_attr_setstacksize may be given this number as it is. In it are 8,192 bytes for the thread itself, 27,648 for a call, and 410 for each level of
 * nesting, all by measurement on x86-64 with glibc, with some room. Add what your own functions use that make the call; the program's thread-local variables, if they are large, since glibc keeps
 * them, and what it knows of a thread, on the thread's stack; and what signal handlers use, if they run there. OOLONG_STACK is enough for any script, OOLONG_STACK_USUAL for one that is nested at
 * most 100 deep. */
#define OOLONG_STACK_FOR(nesting) (8192u + 27648u + 410u * (nesting))
#define OOLONG_STACK_USUAL OOLONG_STACK_FOR(100u)
#define OOLONG_STACK OOLONG_STACK_FOR(OOLONG_NODES_MOST)

/* The same for a thread that calls oolong_read, with any text: what the call keeps of a text it keeps in tables of a fixed size, so neither its length nor how deep it is nested matters. The 8,192
 * bytes for the thread itself are in it, and what is said above of your own functions goes for it too. A text of at most 16,384 bytes takes a third of it, and one of at most 1,024 a twentieth.
 * In version 2.1.0 the number was 700,000, which is too few now: compile such a program again. */
#define OOLONG_READ_STACK 830000u

struct oolong_read_reply {
    uint16_t number; /* OOLONG_OK, OOLONG_NO_GRAMMAR, OOLONG_NO_DECLARATION or OOLONG_NO_ROOM */
    uint16_t length; /* how many bytes of the buffer are the script file, 32 to 13,592; 0 with a refusal */
    uint32_t place;  /* where in the text the fault is, 0 to 65,536; 0 with OOLONG_OK */
};

/*
 * Read a text: does the grammar of GRAMMAR.md derive it, and within the limits of a script file? Then the one file of its one derivation is written into the buffer, which must be OOLONG_FILE
 * bytes, and the buffer's rest becomes 0. Lend the first `length` bytes of it to the other calls. The text is only read, and needs no 0 at its end.
 *
 * A text that is read need not be accepted: whether its types fit, and all else, oolong_check asks of the file. Its places are offsets in the file; SCRIPT.md says which record stands where, and
 * GRAMMAR.md which token of the text it comes from. Numbers stand for names in the file, so keep the text if its names are still wanted.
 *
 * With OOLONG_NO_ROOM and place 0 it is a length that is at fault, unless both are right: then the text begins with an integer out of range. A text from a file that may be too long is best read
 * into a buffer of OOLONG_TEXT_MOST + 1 bytes: if that is full, the call says so.
 */
struct oolong_read_reply oolong_read(const uint8_t *text, size_t text_len, uint8_t *file, size_t file_len) OOLONG_LINKED("oolong_read");

struct oolong_check_reply {
    uint16_t number; /* OOLONG_OK or OOLONG_NO_.. */
    uint16_t place;  /* where the fault is; 0 with OOLONG_OK */
    uint16_t type;   /* the start's type: 0 Unit, then the interfaces from 1, then the classes, and last Int, the signed 32-bit numbers; 0 with a refusal */
    uint16_t silent; /* the most silent moves in a row from any node, 0 to 1,024: the largest count that oolong_silent answers for this script; 0 with a refusal */
};

/*
 * Check a script: is it within layout and limits, and does OOlong's type system give it a type? The script is only read. The answer depends on nothing but its bytes.
 * A script that gets OOLONG_OK is accepted: only such a script can be started and run. The other calls ask the same questions again, so this call need not come first.
 *
 * `silent` is over all nodes of the script, the bodies of methods that nobody calls included, so no thread of any run makes more silent moves in a row: a time panel may take it for its full scale.
 */
struct oolong_check_reply oolong_check(const uint8_t *script, size_t script_len) OOLONG_LINKED("oolong_check");

struct oolong_silent_reply {
    uint16_t number; /* OOLONG_OK or OOLONG_NO_.. */
    uint16_t place;  /* where the fault is; 0 with OOLONG_OK */
    uint16_t count;  /* how many silent moves come first, 0 to 1,024; 0 where the script has no such node, and with a refusal */
};

/*
 * For a time panel: how many silent moves does a thread that stands at this node make before its next published step, wait or finish? Some moves are no step of the published semantics: the
 * thread goes one part deeper into an expression, or a null or a number becomes its value. They are silent. All other moves are published steps of OOlong: a variable or a field gives its
 * value, a sum is made, an object is made, a field is written, a variable is bound, a method is entered, a lock is taken or opened, a cast is done with, threads fork and join, a thread fails. The
 * count says how many silent moves the thread makes in a row from this node on. Behind them a published step is its next move, or it waits for a lock, or it has finished.
 *
 * What counts: a write, a call, a let and a cast count 1 each, and the count goes on with the part of them that runs first: the value to be written, the argument, what the variable is to be, what
 * is cast. A null or a number counts 1 and ends the row. All else counts 0 and ends the row: a variable, a read, a new, a sum, a fork, and a lock, whether its object is open or shut. So a thread at
 * `let x = new C in ..` has a count of 1, and one at `let x = (C) null in ..` of 3; what stands behind `in` counts for a thread that has come there, and not before.
 *
 * The script is only read, and asked the questions of oolong_check: one that is refused gets the number and place that oolong_check gives it. A number that is no node's, from how many nodes there
 * are up to the largest of 32 bits, is no fault: it is answered with OOLONG_OK and count 0. No block is lent, since the node alone decides. Where the threads of a run stand is read from its
 * block (BLOCK.md): the record of tree position p begins at byte 37,896 + 14 * p, and where its first word is 1 it is a thread at a node, whose number is the second word. A thread with a value
 * (the first word is 2) makes no silent move next: a published step is due, unless it has finished.
 *
 * The count holds however the other threads move in between: none of their moves makes it more or less. But each silent move of a write, a call, a let or a cast needs a place for a frame: where
 * these are full (OOLONG_FULL_FRAMES), the row stops early, until there is room again. And a thread may be dropped, together with a join that fails. Moves of others may also give its position another number. While there is room, oolong_run with `count`
 * choices of the thread's position makes just its silent moves.
 */
struct oolong_silent_reply oolong_silent(const uint8_t *script, size_t script_len, uint32_t node) OOLONG_LINKED("oolong_silent");

struct oolong_start_reply {
    uint16_t number; /* OOLONG_OK or OOLONG_NO_.. */
    uint16_t place;  /* where the fault is; 0 with OOLONG_OK */
};

/*
 * Begin a run: check the script as oolong_check does, then write the state in which nothing has been done over the whole block, whatever stood there: no object, no binding, and one thread
 * at the script's start, which is tree position 0. The block must be OOLONG_BLOCK bytes.
 */
struct oolong_start_reply oolong_start(const uint8_t *script, size_t script_len, uint8_t *block, size_t block_len) OOLONG_LINKED("oolong_start");

struct oolong_offer_reply {
    uint16_t number; /* OOLONG_OK or OOLONG_NO_.. */
    uint16_t place;  /* where the fault is; 0 with OOLONG_OK */
};

/*
 * Which tree positions can move in this block? Threads and joins form a tree, whose positions are numbered from the root, 0, on: a join comes before its left side, and its left side before
 * its right side. Flag number p becomes 1 if position p can move, and 0 if it cannot or is not there. A move that a full store would stop counts as able. The flags are all 0 just where the
 * run has ended (OOLONG_FINISHED, OOLONG_FAILED or OOLONG_DEADLOCK). They hold for this block: after a move ask again, since positions may then stand for other threads.
 */
struct oolong_offer_reply oolong_offer(const uint8_t *script, size_t script_len, const uint8_t *block, size_t block_len, uint8_t *flags, size_t flags_len) OOLONG_LINKED("oolong_offer");

struct oolong_run_reply {
    uint16_t number; /* OOLONG_OK or OOLONG_NO_.. */
    uint16_t place;  /* where the fault is; 0 with OOLONG_OK */
    uint16_t stop;   /* why the call came back: OOLONG_SPENT, OOLONG_FINISHED, .. (0 with a refusal too: look at the number first) */
    uint16_t read;   /* how many choices were read */
    uint16_t moves;  /* how many moves were made: at most the choices read */
};

/*
 * Move. Each choice is a byte that names a tree position, as the flags of oolong_offer do; the position makes one move, and then the next choice is read. A choice of a position that is not
 * there or cannot move is passed over: it counts as read, and changes nothing. The call comes back when the choices are spent, when the run has ended (also before the first choice), or when
 * a store is full for the chosen move; that choice counts as read too. The block is then the state after the last move. Until a store is full, many choices in one call and one choice in
 * each of many calls lead to the same block. The same script and the same choices always end in the same way.
 */
struct oolong_run_reply oolong_run(const uint8_t *script, size_t script_len, uint8_t *block, size_t block_len, const uint8_t *choices, size_t choices_len)
    OOLONG_LINKED("oolong_run");

/* What a reply's number says, in a sentence without a full stop. */
static __inline__ const char *oolong_number_text(unsigned number) {
    switch (number) {
    case OOLONG_OK: return "the call was not refused";
    case OOLONG_NO_LENGTH: return "the script is not 24 to 13,592 bytes long";
    case OOLONG_NO_COUNTS: return "a count of the script is above its limit, or there is no node";
    case OOLONG_NO_PLACES: return "a section does not stand where the table of contents must place it, or the script does not end with the last";
    case OOLONG_NO_INTERFACE: return "an interface is neither a list nor a join of two earlier interfaces";
    case OOLONG_NO_OWNERS: return "the counts of signatures, fields or methods do not add up";
    case OOLONG_NO_TYPE: return "a type, a class's interface or the class of a new does not exist";
    case OOLONG_NO_NODE: return "a node's kind, words, parts or uses are out of order, or a method's body is missing";
    case OOLONG_NO_NAME: return "a name stands twice, or a class has more than 8 fields";
    case OOLONG_NO_JOIN: return "a join has a method with two meanings";
    case OOLONG_NO_CLASS: return "a class lacks a method of its interface, or has it with other types";
    case OOLONG_NO_VARIABLE: return "a variable is not bound";
    case OOLONG_NO_NULL: return "a null stands where its type would have to be inferred";
    case OOLONG_NO_MEMBER: return "the target's type lacks the field or method, or a number is locked";
    case OOLONG_NO_FIT: return "a type does not fit the wanted one, or a null stands where a number is wanted";
    case OOLONG_NO_SHARING: return "the two asyncs of a fork share a variable";
    case OOLONG_NO_BLOCK_LENGTH: return "the block is not 65,536 bytes long";
    case OOLONG_NO_BUFFER_LENGTH: return "there are more than 4,096 choices, or the flags are not 63 bytes long";
    case OOLONG_NO_BLOCK_OBJECTS: return "the block's objects are damaged, or not those of a state of this script";
    case OOLONG_NO_BLOCK_BINDINGS: return "the block's variable bindings are damaged, or not those of a state of this script";
    case OOLONG_NO_BLOCK_THREADS: return "the block's frames, threads, locks or unused rest are damaged, or not those of a state of this script";
    case OOLONG_NO_GRAMMAR: return "the token at the place, or the end of the text, does not fit what stands before it";
    case OOLONG_NO_DECLARATION: return "a type's name is declared nowhere, or again";
    case OOLONG_NO_ROOM: return "the text is above 65,536 bytes, the buffer is not 13,592, the text has too much for one file, or an integer is out of range";
    default: return "no reply has this number";
    }
}

/* What a stop of oolong_run says, in a sentence without a full stop. */
static __inline__ const char *oolong_stop_text(unsigned stop) {
    switch (stop) {
    case OOLONG_SPENT: return "the choices are spent and the run can go on";
    case OOLONG_FINISHED: return "the run has finished with a value";
    case OOLONG_FAILED: return "the run has failed at a null, or at a sum outside the range";
    case OOLONG_DEADLOCK: return "the run is in a deadlock";
    case OOLONG_FULL_OBJECTS: return "the move has no room for an object";
    case OOLONG_FULL_BINDINGS: return "the move has no room for its bindings";
    case OOLONG_FULL_FRAMES: return "the move has no room for a frame";
    case OOLONG_FULL_THREADS: return "the move has no room for a thread";
    default: return "no run stops with this number";
    }
}

#ifdef __cplusplus
}
#endif

#endif

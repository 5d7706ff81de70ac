/* Makes the calls of a file that 'compare --write' wrote (compare/src/record.rs says how), on the library that it is linked
   with, and holds each answer, each byte of each buffer and of the store against the file. For a little-endian processor. */
#include <stdio.h>
#include <stdlib.h>
#include <string.h>
#include "olipranj.h"

enum { FRESH, STEP, LOOK, SAVE, LOAD, PAGE, SERVE, PUT, GOOD };
enum { GUARD = 16, WORDS = sizeof(olipranj_store) / sizeof(uint32_t) };

static FILE *file;
static olipranj_store store;      /* what the calls work on */
static uint32_t expected[WORDS];  /* what the file says that the store is */
static unsigned long calls;

static void fail(const char *what, uint32_t code) {
    fprintf(stderr, "replay: call %lu, code %u: %s\n", calls, code, what);
    exit(1);
}

static void take(void *place, size_t length) {
    if (length > 0 && fread(place, length, 1, file) != 1) {
        fail("the file ends inside a call", PUT);
    }
}

static uint32_t number(void) {
    uint32_t word;
    take(&word, sizeof word);
    return word;
}

static uint64_t wide(void) {
    uint64_t lower = number();
    return lower | (uint64_t)number() << 32;
}

static olipranj_answer call(uint32_t code, const uint32_t *x, uint8_t *buffer, size_t length) {
    olipranj_answer shown = {0, 0, 0, 0, 0};
    switch (code) {
    case FRESH:
        return olipranj_fresh(&store, x[0]);
    case STEP:
        return olipranj_step(&store, x[0], x[1], x[2]);
    case LOOK:
        return olipranj_look(&store, x[0]);
    case SAVE:
        return olipranj_save(&store, buffer, length);
    case LOAD:
        return olipranj_load(&store, buffer, length);
    case PAGE:
        return olipranj_page(&store, x[0], buffer, length);
    case SERVE:
        shown.a = olipranj_serve(&store, x[0], buffer, length);
        return shown;
    case GOOD:
        return olipranj_good(&store);
    }
    fail("no such call", code);
    return shown;
}

/* Reads the words of the store that change. */
static void change_expected(void) {
    uint32_t changed = number();
    for (; changed > 0; changed--) {
        uint32_t at = number();
        if (at >= WORDS) {
            fail("a place outside the store", PUT);
        }
        expected[at] = number();
    }
}

static void check_answer(olipranj_answer answer, uint32_t code) {
    if (answer.number != number()) {
        fail("the answer's number differs", code);
    }
    uint64_t a = wide(), b = wide(), c = wide(), d = wide();
    if (answer.a != a || answer.b != b || answer.c != c || answer.d != d) {
        fail("the answer's a, b, c, d differ", code);
    }
}

/* One call of the file, with bytes around its buffer that it must leave. */
static void replay(uint32_t code) {
    uint32_t x[3] = {number(), number(), number()};
    size_t length = number();
    uint8_t *all = malloc(length + 2 * GUARD), *after = malloc(length + 2 * GUARD);
    if (all == NULL || after == NULL) {
        fail("no memory", code);
    }
    memset(all, 0xA5, length + 2 * GUARD);
    memset(after, 0xA5, length + 2 * GUARD);
    take(all + GUARD, length);
    take(after + GUARD, length);
    olipranj_answer none = {0, 0, 0, 0, 0};
    olipranj_answer answer = code == PUT ? none : call(code, x, all + GUARD, length);
    check_answer(answer, code);
    if (memcmp(all, after, length + 2 * GUARD) != 0) {
        fail("the buffer differs", code);
    }
    change_expected();
    if (code == PUT) {
        memcpy(&store, expected, sizeof store);
    }
    if (memcmp(&store, expected, sizeof store) != 0) {
        fail("the store differs", code);
    }
    free(all);
    free(after);
}

int main(int count, char **words) {
    uint32_t code;
    if (count != 2 || (file = fopen(words[1], "rb")) == NULL) {
        fprintf(stderr, "usage: replay FILE\n");
        return 2;
    }
    while (fread(&code, sizeof code, 1, file) == 1) {
        replay(code);
        calls += code != PUT;
    }
    printf("replay: %lu calls, no difference\n", calls);
    return calls > 0 ? 0 : 1;
}

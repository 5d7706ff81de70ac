/* A portal's first program on the installed library: entries with a carry, a page kept and served, an amendment, the evening and the next morning. */
#include <olipranj.h>
#include <stdio.h>
#include <stdlib.h>
#include <string.h>

static olipranj_store live, spare;

/* The program ends where something is not as wanted. */
static void wanted(int holds, const char *what) {
    if (!holds) {
        fprintf(stderr, "program: %s\n", what);
        exit(1);
    }
}

/* Enters a result; when the root is full, carries from below and enters again. */
static olipranj_answer enter(uint32_t sample, uint32_t analyte, uint32_t value) {
    uint32_t key = 0, node;
    olipranj_answer answer;
    wanted(olipranj_key(sample, analyte, &key), "a key");
    answer = olipranj_enter(&live, key, value);
    if (answer.number != OLIPRANJ_FULL) {
        return answer;
    }
    for (node = 3; node-- > 0;) {
        wanted(olipranj_carry(&live, node, 0).number == OLIPRANJ_DONE, "a carry");
    }
    return olipranj_enter(&live, key, value);
}

int main(void) {
    uint8_t page[OLIPRANJ_LONGEST_PAGE], image[OLIPRANJ_LONGEST_IMAGE];
    uint32_t sample, key = 0;
    olipranj_answer answer, found;
    size_t length;
    wanted(olipranj_layout_fits(), "the library has another layout than the header");
    wanted(olipranj_fresh_live(&live, &spare, 1).number == OLIPRANJ_DONE, "a fresh store");
    for (sample = 1; sample <= 20; sample++) {
        wanted(enter(sample, 1, 100 + sample).number == OLIPRANJ_DONE, "an entry");
    }
    answer = olipranj_page(&live, 7, page, sizeof page);
    wanted(answer.number == OLIPRANJ_DONE, "a page");
    length = (size_t)answer.a;
    wanted(olipranj_serve(&live, 7, page, length) == length, "the kept page is shown");
    wanted(enter(7, 1, 210).number == OLIPRANJ_DONE, "an amendment");
    wanted(olipranj_serve(&live, 7, page, length) == 0, "the notice is due");
    answer = olipranj_save(&live, image, sizeof image);
    wanted(answer.number == OLIPRANJ_DONE, "an image");
    wanted(olipranj_load_live(&live, &spare, image, (size_t)answer.a - 1).number == OLIPRANJ_CUT, "half an image is refused");
    wanted(olipranj_good(&live).number == OLIPRANJ_DONE, "the live store is as it was");
    wanted(olipranj_load_live(&live, &spare, image, (size_t)answer.a).number == OLIPRANJ_DONE, "the image is loaded");
    wanted(olipranj_key(7, 1, &key), "a key");
    found = olipranj_look(&live, key);
    wanted(found.number == OLIPRANJ_DONE && found.a == OLIPRANJ_LOOK_RESULT && found.b == 210, "the amended result");
    printf("program: sample 7 has 210, %s, in an image of %lu bytes\n", olipranj_name(found.number), (unsigned long)answer.a);
    return 0;
}

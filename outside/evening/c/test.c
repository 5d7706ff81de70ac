/* A day with an evening file, and its test: each bit of the file flipped, each byte at which it can be cut. None is taken for good.

       test write NAME    makes a store, keeps its image under the name, damages copies of the file
       test read NAME     loads what was kept under the name
       test long NAME     finds a good file there that is too long for it, and leaves it
*/
#include "evening.h"
#include "olipranj.h"

#include <stdio.h>
#include <stdlib.h>
#include <string.h>

static olipranj_store live, spare;

static void must(int holds, const char *what)
{
    if (!holds) {
        fprintf(stderr, "evening/c/test: not so: %s\n", what);
        exit(1);
    }
}

/* In the evening: the store's image to the file. A store that is not saved is not written. */
static int evening(const char *name)
{
    uint8_t image[EVENING_IMAGE];
    olipranj_answer saved = olipranj_save(&live, image, sizeof image);
    if (saved.number != OLIPRANJ_DONE)
        return EVENING_FAILED;
    return evening_keep(name, image, saved.a);
}

/* In the morning: the file's image to the store. The live store changes only if the image was loaded. */
static int morning(const char *name)
{
    uint8_t image[EVENING_IMAGE];
    size_t length;
    int kept = evening_kept(name, image, sizeof image, &length);
    if (kept != EVENING_DONE)
        return kept;
    return olipranj_load_live(&live, &spare, image, length).number == OLIPRANJ_DONE ? EVENING_DONE : EVENING_DAMAGED;
}

static void a_day(void)
{
    must(olipranj_fresh_live(&live, &spare, 1).number == OLIPRANJ_DONE, "plan 1 exists");
    for (uint32_t number = 0; number < 20; number++) {
        if (live.counts[0] == 8)
            must(olipranj_step(&live, OLIPRANJ_CARRY, 0, 0).number == OLIPRANJ_DONE, "carried");
        uint32_t step = number % 5 == 0 ? OLIPRANJ_WITHDRAW : OLIPRANJ_ENTER;
        must(olipranj_step(&live, step, number * 33000001u, number * 50000000u).number == OLIPRANJ_DONE, "entered");
    }
}

static size_t read_all(const char *name, uint8_t *bytes, size_t room)
{
    FILE *file = fopen(name, "rb");
    must(file != NULL, "the file is there");
    size_t count = fread(bytes, 1, room, file);
    fclose(file);
    return count;
}

static void write_all(const char *name, const uint8_t *bytes, size_t count)
{
    remove(name);
    FILE *file = fopen(name, "wb");
    must(file != NULL && fwrite(bytes, 1, count, file) == count && fclose(file) == 0, "a file is written");
}

/* Whether the bytes, as a file, are found damaged, and the live store goes on. */
static int found(const char *name, const uint8_t *bytes, size_t count)
{
    static olipranj_store before;
    before = live;
    write_all(name, bytes, count);
    return morning(name) == EVENING_DAMAGED && memcmp(&before, &live, sizeof live) == 0;
}

static void damage(const char *name)
{
    uint8_t bytes[2 * EVENING_IMAGE] = {0};
    char copy[EVENING_NAME];
    size_t count = read_all(name, bytes, EVENING_IMAGE);
    snprintf(copy, sizeof copy, "%s.copy", name);
    for (size_t bit = 0; bit < 8 * count; bit++) {
        bytes[bit / 8] ^= (uint8_t)(1 << bit % 8);
        must(found(copy, bytes, count), "a flipped bit is found");
        bytes[bit / 8] ^= (uint8_t)(1 << bit % 8);
    }
    for (size_t length = 0; length < count; length++)
        must(found(copy, bytes, length), "a cut is found");
    must(found(copy, bytes, count + 1), "a longer file is found");
    must(found(copy, bytes, sizeof bytes), "a much longer file is found");
    write_all(copy, bytes, count);
    must(morning(copy) == EVENING_DONE, "the file itself is good");
}

static void old_files_are_kept(const char *name)
{
    uint8_t first[EVENING_IMAGE], again[EVENING_IMAGE];
    char before[EVENING_NAME];
    size_t length, length_again;
    snprintf(before, sizeof before, "%s.before", name);
    must(evening_kept(name, first, sizeof first, &length) == EVENING_DONE, "kept");
    must(olipranj_step(&live, OLIPRANJ_WITHDRAW, 0, 0).number == OLIPRANJ_DONE, "withdrawn");
    must(evening(name) == EVENING_DONE, "kept again");
    must(evening_kept(before, again, sizeof again, &length_again) == EVENING_DONE, "the file before is kept");
    must(length == length_again && memcmp(first, again, length) == 0, "the file before is the one before");
    write_all(name, first, length);
    must(evening(name) == EVENING_DONE, "kept over a damaged file");
    must(evening_kept(before, again, sizeof again, &length_again) == EVENING_DONE, "the file before stays");
    must(length == length_again && memcmp(first, again, length) == 0, "the file before is the last good one before");
    snprintf(before, sizeof before, "%s.damaged", name);
    must(read_all(before, again, sizeof again) == length && memcmp(first, again, length) == 0, "the damaged file is kept too");
    must(evening_kept(name, again, 3, &length_again) == EVENING_LONG, "too little room is said");
    must(evening_keep(name, first, EVENING_IMAGE + 1) == EVENING_LONG, "an image too long is said");
}

/* A longer image that another program kept is no damaged one, and does not give its name away; changed anywhere it is damaged. */
static void a_long_file_stays(const char *name)
{
    uint8_t bytes[2 * EVENING_IMAGE] = {0}, again[2 * EVENING_IMAGE];
    char copy[EVENING_NAME];
    size_t count = read_all(name, bytes, sizeof bytes);
    snprintf(copy, sizeof copy, "%s.copy", name);
    must(morning(name) == EVENING_LONG, "a longer image is said");
    must(evening(name) == EVENING_LONG, "a longer image is not replaced");
    must(read_all(name, again, sizeof again) == count && memcmp(bytes, again, count) == 0, "a longer image stays");
    for (size_t at = 0; at < count; at += at < 8 || at + 8 > count ? 1 : 97) {
        bytes[at] ^= 1;
        must(found(copy, bytes, count), "a flipped bit of a longer file is found");
        bytes[at] ^= 1;
    }
    must(found(copy, bytes, count - 1), "a cut of a longer file is found");
    must(found(copy, bytes, count + 1), "a byte more of a longer file is found");
}

int main(int count, char **words)
{
    must(count == 3, "two words: write, read or long, and a name");
    if (strcmp(words[1], "read") == 0)
        return morning(words[2]) == EVENING_DONE ? 0 : 1;
    a_day();
    if (strcmp(words[1], "long") == 0) {
        a_long_file_stays(words[2]);
        return 0;
    }
    must(evening(words[2]) == EVENING_DONE, "kept");
    damage(words[2]);
    old_files_are_kept(words[2]);
    return 0;
}

/* A portal's day in C, from the first entry to the next morning; outside/day runs it. outside/evening/examples/day.rs and
   outside/python/day.py are the same day: they print the same lines and write the same files. The evening file is that of outside/evening/c.

       day evening NAME    a day, and its evening file
       day morning NAME    the next morning, by another process
*/
#include "evening.h"
#include "olipranj.h"

#include <stdio.h>
#include <stdlib.h>
#include <string.h>

enum { HARDNESS = 1, IRON = 2, NITRATE = 3 };
enum { LAST_OF_DAY = 20, LAST_AMENDED = 10, MOST_PENDING = 64, LONGEST_ENTRY = 1 + 5 + 5 + 1 };
enum { LONGEST_SAVED = MOST_PENDING * LONGEST_ENTRY + 1 + OLIPRANJ_LONGEST_IMAGE };

typedef struct {
    uint8_t bytes[OLIPRANJ_LONGEST_PAGE];
    size_t length;
} page;

/* An entry that the store refused, and how. */
typedef struct {
    uint32_t key, value, refusal;
} pending_entry;

/* The last refused entry of each line. */
typedef struct {
    pending_entry entries[MOST_PENDING];
    size_t count;
} pending_list;

/* The store, a spare one for loads, and what is pending. */
static olipranj_store live, spare;
static pending_list pending;

static void must(int holds, const char *what)
{
    if (!holds) {
        fprintf(stderr, "day: not so: %s\n", what);
        exit(1);
    }
}

static unsigned long copies(void)
{
    unsigned long count = 0;
    for (int node = 0; node < OLIPRANJ_NODE_COUNT; node++)
        count += live.counts[node];
    return count;
}

/* Carries along every edge once, from the last node up to the root, and gives the number of copies carried. */
static uint64_t carry_all(void)
{
    uint64_t carried = 0;
    for (uint32_t node = OLIPRANJ_NODE_COUNT; node-- > 0;) {
        olipranj_answer answer = olipranj_carry(&live, node, 0);
        for (uint32_t edge = 1; answer.number == OLIPRANJ_DONE; edge++) {
            carried += answer.a;
            answer = olipranj_carry(&live, node, edge);
        }
    }
    return carried;
}

/* What was pending for the line is older, and is pending no more. */
static void forget(pending_list *list, uint32_t key)
{
    size_t left = 0;
    for (size_t at = 0; at < list->count; at++)
        if (list->entries[at].key != key)
            list->entries[left++] = list->entries[at];
    list->count = left;
}

static void keep_pending(pending_list *list, uint32_t key, uint32_t value, uint32_t refusal)
{
    pending_entry entry = {key, value, refusal};
    forget(list, key);
    must(list->count < MOST_PENDING, "there is room for what is pending");
    list->entries[list->count++] = entry;
}

/* Enters a result, and carries first if the root is full. A result that is refused all the same is pending: then this is 0. */
static int entered(uint32_t sample, uint32_t analyte, uint32_t value)
{
    uint32_t key = 0;
    must(olipranj_key(sample, analyte, &key), "there is such a line");
    olipranj_answer answer = olipranj_enter(&live, key, value);
    while (answer.number == OLIPRANJ_FULL && carry_all() > 0)
        answer = olipranj_enter(&live, key, value);
    if (answer.number == OLIPRANJ_DONE) {
        forget(&pending, key);
        return 1;
    }
    keep_pending(&pending, key, value, answer.number);
    printf("%u/%u pending: %s\n", (unsigned)sample, (unsigned)analyte, olipranj_name(answer.number));
    return 0;
}

static int is_pending(uint32_t sample)
{
    for (size_t at = 0; at < pending.count; at++)
        if (pending.entries[at].key / (OLIPRANJ_LAST_ANALYTE + 1) == sample)
            return 1;
    return 0;
}

/* Whether the kept page is what a household sees, and not the notice: it is still true, and nothing of the sample is pending. */
static int is_shown(uint32_t sample, const page *kept)
{
    return !is_pending(sample) && olipranj_serve(&live, sample, kept->bytes, kept->length) > 0;
}

/* Makes the sample's page anew if the kept one is not shown. While an entry is pending there is no page: the notice stays. */
static void renew(uint32_t sample, page *kept)
{
    if (!is_shown(sample, kept) && !is_pending(sample)) {
        olipranj_answer answer = olipranj_page(&live, sample, kept->bytes, sizeof kept->bytes);
        must(answer.number == OLIPRANJ_DONE, "the page is made");
        kept->length = answer.a;
    }
}

/* A number's bytes: groups of seven bits, the lowest first. */
static size_t put_number(uint8_t *bytes, uint32_t number)
{
    size_t at = 0;
    for (; number > 0x7f; number >>= 7)
        bytes[at++] = (uint8_t)(number | 0x80);
    bytes[at++] = (uint8_t)number;
    return at;
}

/* Reads the number at an offset, which goes on behind it. */
static uint32_t get_number(const uint8_t *bytes, size_t length, size_t *at)
{
    uint64_t number = 0;
    for (int place = 0; place < 5; place++) {
        must(*at < length, "the bytes hold a number");
        uint8_t byte = bytes[(*at)++];
        number |= (uint64_t)(byte & 0x7f) << 7 * place;
        if (byte < 0x80 && number <= UINT32_MAX)
            return (uint32_t)number;
    }
    must(0, "the number is of 32 bits");
    return 0;
}

/* In the evening: what is pending (1, key, value, refusal for each), then 0, then the image. The image alone would lose what is pending. */
static void save(const char *name)
{
    uint8_t bytes[LONGEST_SAVED];
    size_t at = 0;
    for (size_t entry = 0; entry < pending.count; entry++) {
        at += put_number(bytes + at, OLIPRANJ_ENTER);
        at += put_number(bytes + at, pending.entries[entry].key);
        at += put_number(bytes + at, pending.entries[entry].value);
        at += put_number(bytes + at, pending.entries[entry].refusal);
    }
    at += put_number(bytes + at, 0);
    olipranj_answer saved = olipranj_save(&live, bytes + at, sizeof bytes - at);
    must(saved.number == OLIPRANJ_DONE, "the store is saved");
    must(evening_keep(name, bytes, at + saved.a) == EVENING_DONE, "the evening file is kept");
}

/* In the morning: the file to the store and what is pending. Both change only if the image is loaded. */
static void load(const char *name)
{
    uint8_t bytes[EVENING_IMAGE];
    size_t length, at = 0;
    pending_list kept = {{{0, 0, 0}}, 0};
    must(evening_kept(name, bytes, sizeof bytes, &length) == EVENING_DONE, "the evening file is whole");
    while (get_number(bytes, length, &at) == OLIPRANJ_ENTER) {
        uint32_t key = get_number(bytes, length, &at), value = get_number(bytes, length, &at);
        keep_pending(&kept, key, value, get_number(bytes, length, &at));
    }
    must(bytes[at - 1] == 0, "what is pending ends");
    must(olipranj_load_live(&live, &spare, bytes + at, length - at).number == OLIPRANJ_DONE, "the image is loaded");
    pending = kept;
    printf("loaded, %lu copies held, %lu pending\n", copies(), (unsigned long)pending.count);
}

/* Three results for each sample up to the last. */
static void results(uint32_t last, uint32_t more)
{
    for (uint32_t sample = 1; sample <= last; sample++) {
        entered(sample, HARDNESS, 100 + sample + more);
        entered(sample, IRON, sample + more);
        entered(sample, NITRATE, 2 * sample + more);
    }
}

/* Says how many kept pages are shown, and for how many samples the notice. */
static void shown(const page *pages)
{
    int count = 0;
    for (uint32_t sample = 1; sample <= LAST_OF_DAY; sample++)
        count += is_shown(sample, &pages[sample]);
    printf("%d kept pages shown, %d notices\n", count, LAST_OF_DAY - count);
}

static void say(uint32_t sample, const page *kept)
{
    printf("sample %u: %s\n", (unsigned)sample, is_shown(sample, kept) ? "the kept page" : "the notice");
}

static void print_lines(const page *made)
{
    size_t at = 0;
    uint32_t sample = get_number(made->bytes, made->length, &at);
    for (uint32_t left = get_number(made->bytes, made->length, &at); left > 0; left--) {
        uint32_t analyte = get_number(made->bytes, made->length, &at), value = get_number(made->bytes, made->length, &at);
        uint32_t stamp = get_number(made->bytes, made->length, &at);
        printf("%u/%u is %u, stamp %u\n", (unsigned)sample, (unsigned)analyte, (unsigned)value, (unsigned)stamp);
    }
}

static const char *page_name(const char *name)
{
    static char all[EVENING_NAME];
    must(snprintf(all, sizeof all, "%s.page", name) < (int)sizeof all, "the name is not too long");
    return all;
}

/* A hundred entries, pages kept and served, amendments, the evening file. */
static void day(const char *name)
{
    static page pages[LAST_OF_DAY + 1];
    must(olipranj_fresh_live(&live, &spare, 1).number == OLIPRANJ_DONE, "there is a plan 1");
    results(LAST_OF_DAY, 0);
    for (uint32_t sample = 1; sample <= LAST_OF_DAY; sample++)
        renew(sample, &pages[sample]);
    printf("60 entries, %lu copies held\n", copies());
    shown(pages);
    results(LAST_AMENDED, 1);
    for (uint32_t sample = 1; sample <= LAST_AMENDED; sample++)
        entered(sample, HARDNESS, 200 + sample);
    printf("100 entries, %lu copies held\n", copies());
    shown(pages);
    for (uint32_t sample = 1; sample <= LAST_OF_DAY; sample++)
        renew(sample, &pages[sample]);
    shown(pages);
    print_lines(&pages[7]);
    save(name);
    must(evening_keep(page_name(name), pages[7].bytes, pages[7].length) == EVENING_DONE, "a page is kept");
}

/* The store and a kept page from the files; an amendment; more lines than the store holds. */
static void morning(const char *name)
{
    page kept, none = {{0}, 0};
    uint32_t sample = 100;
    load(name);
    must(evening_kept(page_name(name), kept.bytes, sizeof kept.bytes, &kept.length) == EVENING_DONE, "the page is whole");
    say(7, &kept);
    entered(7, HARDNESS, 180);
    say(7, &kept);
    while (entered(sample, HARDNESS, 1))
        sample++;
    renew(7, &kept);
    renew(sample, &none);
    say(7, &kept);
    say(sample, &none);
    entered(7, NITRATE, 99);
    renew(7, &kept);
    say(7, &kept);
    save(name);
    load(name);
    say(7, &kept);
}

int main(int count, char **words)
{
    must(count == 3, "two words: evening or morning, and a name");
    must(olipranj_layout_fits(), "the library has the header's layout");
    must(strcmp(words[1], "evening") == 0 || strcmp(words[1], "morning") == 0, "the first word is evening or morning");
    if (strcmp(words[1], "evening") == 0)
        day(words[2]);
    else
        morning(words[2]);
    return 0;
}

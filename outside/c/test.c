/* Calls each function of include/olipranj.h from C, and from C++: document 01's P1 to P4 and P10, refusals, kept pages before and after an
   amendment, a live store that a refusal leaves, the longest page and the longest image. Says what differs, and exits with 1 if anything does. */
#include "olipranj.h"

#include <stdio.h>
#include <string.h>

/* What the compiler itself is to find true; in C99 too, and in C++. */
#define FIXED(name, test) typedef char fixed_##name[(test) ? 1 : -1]

typedef struct {
    char before;
    olipranj_store store;
} after_a_byte;

FIXED(slot_size, sizeof(olipranj_slot) == 16);
FIXED(store_size, sizeof(olipranj_store) == 8360);
FIXED(store_aligned, offsetof(after_a_byte, store) == 4);
FIXED(clock_at, offsetof(olipranj_store, clock) == 4);
FIXED(counts_at, offsetof(olipranj_store, counts) == 8);
FIXED(keys_at, offsetof(olipranj_store, keys) == 40);
FIXED(kinds_at, offsetof(olipranj_store, kinds) == 2088);
FIXED(values_at, offsetof(olipranj_store, values) == 4136);
FIXED(stamps_at, offsetof(olipranj_store, stamps) == 6184);
FIXED(slots_at, offsetof(olipranj_store, slots) == 8232);
FIXED(answer_size, sizeof(olipranj_answer) == 40);
FIXED(a_at, offsetof(olipranj_answer, a) == 8);
FIXED(d_at, offsetof(olipranj_answer, d) == 32);
FIXED(longest_page, OLIPRANJ_LONGEST_PAGE == 357);
FIXED(longest_image, OLIPRANJ_LONGEST_IMAGE == 1931);

static int failures = 0;
static int checks = 0;

static void same(const char *what, uint64_t got, uint64_t wanted)
{
    checks++;
    if (got != wanted) {
        failures++;
        printf("%s: %llu, wanted %llu\n", what, (unsigned long long)got, (unsigned long long)wanted);
    }
}

static void bytes(const char *what, const void *got, const void *wanted, size_t length)
{
    checks++;
    if (memcmp(got, wanted, length) != 0) {
        failures++;
        printf("%s: other bytes\n", what);
    }
}

static void answers(const char *what, olipranj_answer got, uint32_t number, uint64_t a, uint64_t b, uint64_t c, uint64_t d)
{
    checks++;
    if (got.number != number || got.a != a || got.b != b || got.c != c || got.d != d) {
        failures++;
        printf("%s: %u %llu %llu %llu %llu, wanted %u %llu %llu %llu %llu\n", what, got.number, (unsigned long long)got.a,
               (unsigned long long)got.b, (unsigned long long)got.c, (unsigned long long)got.d, number, (unsigned long long)a,
               (unsigned long long)b, (unsigned long long)c, (unsigned long long)d);
    }
}

static const uint8_t image[12] = {0x01, 0x01, 0x03, 0x00, 0x01, 0x21, 0x01, 0xD2, 0x01, 0x02, 0x00, 0x00};
static const uint8_t page[6] = {0x01, 0x01, 0x01, 0xD2, 0x01, 0x02};

/* "Fresh: clock 1, nothing held, all slots idle." */
static olipranj_store empty(uint32_t plan)
{
    olipranj_store store;
    memset(&store, 0, sizeof store);
    store.plan = plan;
    store.clock = 1;
    return store;
}

/* The store after the schedule in full: one copy, in node 1. */
static olipranj_store scheduled(void)
{
    olipranj_store store = empty(1);
    store.clock = 3;
    store.counts[1] = 1;
    store.keys[OLIPRANJ_NODE_PLACES] = 33;
    store.kinds[OLIPRANJ_NODE_PLACES] = 1;
    store.values[OLIPRANJ_NODE_PLACES] = 210;
    store.stamps[OLIPRANJ_NODE_PLACES] = 2;
    return store;
}

static void fresh(void)
{
    olipranj_store store, wanted;
    memset(&store, 0xA5, sizeof store);
    answers("fresh 2", olipranj_fresh(&store, 2), OLIPRANJ_DONE, 0, 0, 0, 0);
    wanted = empty(2);
    bytes("fresh 2, the store", &store, &wanted, sizeof store);
    memset(&store, 0xA5, sizeof store);
    answers("fresh 4", olipranj_fresh(&store, 4), OLIPRANJ_PLAN, 0, 0, 0, 0);
    wanted = empty(1);
    bytes("fresh 4, the store", &store, &wanted, sizeof store);
}

/* (P1), with the slot while its search runs. */
static void schedule(void)
{
    olipranj_store store, wanted = scheduled();
    olipranj_slot running = {1, 33, 1, 1};
    memset(&store, 0xA5, sizeof store);
    answers("P1 fresh", olipranj_fresh(&store, 1), OLIPRANJ_DONE, 0, 0, 0, 0);
    answers("P1 enter 33 180", olipranj_step(&store, OLIPRANJ_ENTER, 33, 180), OLIPRANJ_DONE, 1, 0, 0, 0);
    answers("P1 carry 0 0", olipranj_step(&store, OLIPRANJ_CARRY, 0, 0), OLIPRANJ_DONE, 1, 0, 0, 0);
    answers("P1 start 33", olipranj_step(&store, OLIPRANJ_START, 33, 0), OLIPRANJ_DONE, 0, 0, 0, 0);
    answers("P1 step 0", olipranj_step(&store, OLIPRANJ_STEP, 0, 0), OLIPRANJ_GOING, 1, 1, 0, 0);
    bytes("P1 slot 0", &store.slots[0], &running, sizeof running);
    answers("P1 enter 33 210", olipranj_step(&store, OLIPRANJ_ENTER, 33, 210), OLIPRANJ_DONE, 2, 0, 0, 0);
    answers("P1 carry 0 0 again", olipranj_step(&store, OLIPRANJ_CARRY, 0, 0), OLIPRANJ_DONE, 1, 1, 0, 0);
    answers("P1 step 0 again", olipranj_step(&store, OLIPRANJ_STEP, 0, 0), OLIPRANJ_DONE, 2, 210, 2, 2);
    answers("P1 step 0, idle", olipranj_step(&store, OLIPRANJ_STEP, 0, 0), OLIPRANJ_IDLE, 0, 0, 0, 0);
    bytes("P1 the store", &store, &wanted, sizeof store);
    answers("good", olipranj_good(&store), OLIPRANJ_DONE, 0, 0, 0, 0);
    answers("look 33", olipranj_look(&store, 33), OLIPRANJ_DONE, 2, 210, 2, 2);
    answers("look 34", olipranj_look(&store, 34), OLIPRANJ_DONE, 0, 0, 0, 4);
    answers("carry 4 0", olipranj_step(&store, OLIPRANJ_CARRY, 4, 0), OLIPRANJ_NODE, 0, 0, 0, 0);
    answers("carry 0 4", olipranj_step(&store, OLIPRANJ_CARRY, 0, 4), OLIPRANJ_EDGE, 0, 0, 0, 0);
    answers("step number 7", olipranj_step(&store, 7, 1, 2), OLIPRANJ_OP, 0, 0, 0, 0);
    bytes("the store after refusals", &store, &wanted, sizeof store);
}

/* (P2), its image loaded again, and (P4). */
static void images(void)
{
    olipranj_store store = scheduled(), wanted = scheduled();
    uint8_t buffer[16], before[16];
    memset(before, 0xEE, sizeof before);
    memcpy(buffer, before, sizeof before);
    answers("save into 11 bytes", olipranj_save(&store, buffer, 11), OLIPRANJ_SMALL, 12, 0, 0, 0);
    bytes("save into 11 bytes, the buffer", buffer, before, sizeof before);
    answers("P2 save", olipranj_save(&store, buffer, sizeof buffer), OLIPRANJ_DONE, 12, 0, 0, 0);
    bytes("P2 the image", buffer, image, sizeof image);
    bytes("P2 beyond the image", buffer + 12, before, 4);
    memset(&store, 0xA5, sizeof store);
    answers("load", olipranj_load(&store, image, sizeof image), OLIPRANJ_DONE, 1, 0, 0, 0);
    bytes("load, the store", &store, &wanted, sizeof store);
    answers("load 11 bytes", olipranj_load(&store, image, 11), OLIPRANJ_CUT, 11, 0, 0, 0);
    wanted = empty(1);
    bytes("load 11 bytes, the store", &store, &wanted, sizeof store);
    answers("P4 load nothing", olipranj_load(&store, image, 0), OLIPRANJ_CUT, 0, 0, 0, 0);
}

/* (P3), (P10), and the kept page until an amendment. */
static void pages(void)
{
    olipranj_store store = scheduled();
    uint8_t kept[8], before[8];
    memset(before, 0xEE, sizeof before);
    memcpy(kept, before, sizeof before);
    answers("page into 5 bytes", olipranj_page(&store, 1, kept, 5), OLIPRANJ_SMALL, 6, 0, 0, 0);
    answers("P10 page", olipranj_page(&store, 134217728, kept, sizeof kept), OLIPRANJ_SAMPLE, 0, 0, 0, 0);
    bytes("refused pages, the buffer", kept, before, sizeof before);
    answers("P3 page", olipranj_page(&store, 1, kept, sizeof kept), OLIPRANJ_DONE, 6, 0, 0, 0);
    bytes("P3 the page", kept, page, sizeof page);
    bytes("P3 beyond the page", kept + 6, before, 2);
    same("serve", olipranj_serve(&store, 1, kept, 6), 6);
    same("serve of more than a page", olipranj_serve(&store, 1, kept, sizeof kept), 6);
    same("serve of part of a page", olipranj_serve(&store, 1, kept, 5), 0);
    same("serve of nothing", olipranj_serve(&store, 1, kept, 0), 0);
    same("serve of another sample", olipranj_serve(&store, 2, kept, 6), 0);
    same("serve of sample 134217728", olipranj_serve(&store, 134217728, kept, 6), 0);
    answers("amend", olipranj_step(&store, OLIPRANJ_ENTER, 33, 180), OLIPRANJ_DONE, 3, 0, 0, 0);
    same("serve after an amendment", olipranj_serve(&store, 1, kept, 6), 0);
    answers("withdraw", olipranj_step(&store, OLIPRANJ_WITHDRAW, 33, 0), OLIPRANJ_DONE, 4, 0, 0, 0);
    same("serve after a withdrawal", olipranj_serve(&store, 1, kept, 6), 0);
}

/* A store that breaks a rule: BADSTORE, and nothing altered. */
static void bad_store(void)
{
    olipranj_store store = scheduled(), before;
    uint8_t buffer[16], untouched[16];
    store.stamps[OLIPRANJ_NODE_PLACES] = 3;
    before = store;
    memset(untouched, 0xEE, sizeof untouched);
    memcpy(buffer, untouched, sizeof untouched);
    for (uint32_t number = 0; number <= 7; number++) {
        answers("a step on a bad store", olipranj_step(&store, number, 0, 0), OLIPRANJ_BADSTORE, 0, 0, 0, 0);
    }
    answers("look in a bad store", olipranj_look(&store, 33), OLIPRANJ_BADSTORE, 0, 0, 0, 0);
    answers("good of a bad store", olipranj_good(&store), OLIPRANJ_BADSTORE, 0, 0, 0, 0);
    answers("save of a bad store", olipranj_save(&store, buffer, sizeof buffer), OLIPRANJ_BADSTORE, 0, 0, 0, 0);
    answers("page of a bad store", olipranj_page(&store, 1, buffer, sizeof buffer), OLIPRANJ_BADSTORE, 0, 0, 0, 0);
    same("serve of a bad store", olipranj_serve(&store, 1, page, sizeof page), 0);
    bytes("a bad store after them", &store, &before, sizeof store);
    bytes("the buffer after them", buffer, untouched, sizeof untouched);
}

/* A store that the calls work on goes on after a refused fresh or load, and is replaced by an accepted one. */
static void live(void)
{
    olipranj_store store = scheduled(), before = scheduled(), spare, wanted = empty(2);
    uint8_t damaged[sizeof image];
    memset(&spare, 0xA5, sizeof spare);
    memcpy(damaged, image, sizeof image);
    damaged[4] = 0x11;
    answers("fresh 4 for a live store", olipranj_fresh_live(&store, &spare, 4), OLIPRANJ_PLAN, 0, 0, 0, 0);
    answers("half a file", olipranj_load_live(&store, &spare, image, 6), OLIPRANJ_CUT, 6, 0, 0, 0);
    answers("a damaged file", olipranj_load_live(&store, &spare, damaged, sizeof damaged), OLIPRANJ_RULE, 4, 0, 0, 0);
    answers("no file", olipranj_load_live(&store, &spare, NULL, 0), OLIPRANJ_CUT, 0, 0, 0, 0);
    bytes("the live store after refusals", &store, &before, sizeof store);
    answers("fresh 2 for a live store", olipranj_fresh_live(&store, &spare, 2), OLIPRANJ_DONE, 0, 0, 0, 0);
    bytes("fresh 2, the live store", &store, &wanted, sizeof store);
    answers("load for a live store", olipranj_load_live(&store, &spare, image, sizeof image), OLIPRANJ_DONE, 1, 0, 0, 0);
    bytes("load, the live store", &store, &before, sizeof store);
}

/* (P1) again, by the steps' names, and a search that is cancelled. */
static void by_name(void)
{
    olipranj_store store = empty(1), wanted = scheduled();
    uint32_t key = 0;
    same("key of 1/1", olipranj_key(1, 1, &key) == 1 && key == 33, 1);
    answers("enter", olipranj_enter(&store, key, 180), OLIPRANJ_DONE, 1, 0, 0, 0);
    answers("carry", olipranj_carry(&store, 0, 0), OLIPRANJ_DONE, 1, 0, 0, 0);
    answers("start", olipranj_start(&store, key), OLIPRANJ_DONE, 0, 0, 0, 0);
    answers("start another", olipranj_start(&store, 0), OLIPRANJ_DONE, 1, 0, 0, 0);
    answers("step", olipranj_step_search(&store, 0), OLIPRANJ_GOING, 1, 1, 0, 0);
    answers("enter again", olipranj_enter(&store, key, 210), OLIPRANJ_DONE, 2, 0, 0, 0);
    answers("carry again", olipranj_carry(&store, 0, 0), OLIPRANJ_DONE, 1, 1, 0, 0);
    answers("step again", olipranj_step_search(&store, 0), OLIPRANJ_DONE, OLIPRANJ_LOOK_RESULT, 210, 2, 2);
    answers("cancel", olipranj_cancel(&store, 1), OLIPRANJ_DONE, 0, 0, 0, 0);
    answers("cancel again", olipranj_cancel(&store, 1), OLIPRANJ_IDLE, 0, 0, 0, 0);
    bytes("the store by names", &store, &wanted, sizeof store);
    answers("withdraw", olipranj_withdraw(&store, key), OLIPRANJ_DONE, 3, 0, 0, 0);
    answers("look for it", olipranj_look(&store, key), OLIPRANJ_DONE, OLIPRANJ_LOOK_WITHDRAWN, 0, 3, 1);
}

/* The layout number, names, keys, no bytes. */
static void helpers(void)
{
    static const char *const names[] = {"DONE", "GOING", "BADSTORE", "PLAN", "CLOCK", "FULL", "NODE", "EDGE", "SLOTS", "SLOT", "IDLE",
                                        "SMALL", "SAMPLE", "CUT", "NUMBER", "FORMAT", "RULE", "TRAIL", "OP", "MANY", "UNKNOWN"};
    olipranj_store store = scheduled();
    uint32_t key = 7;
    same("layout", olipranj_layout(), OLIPRANJ_LAYOUT);
    same("layout fits", olipranj_layout_fits() == 1, 1);
    for (uint32_t number = 0; number <= OLIPRANJ_MANY + 1; number++) {
        same(names[number], strcmp(olipranj_name(number), names[number]) == 0, 1);
    }
    same("no answer's name", strcmp(olipranj_name(OLIPRANJ_LAST_CLOCK), "UNKNOWN") == 0, 1);
    same("analyte 32", olipranj_key(7, OLIPRANJ_LAST_ANALYTE + 1, &key) == 0, 1);
    same("sample 134217728", olipranj_key(OLIPRANJ_LAST_SAMPLE + 1, 0, &key) == 0, 1);
    same("the key after refusals", key, 7);
    same("the last line", olipranj_key(OLIPRANJ_LAST_SAMPLE, OLIPRANJ_LAST_ANALYTE, &key) == 1, 1);
    same("the last key", key, 4294967295);
    answers("save into no bytes", olipranj_save(&store, olipranj_buffer(NULL, 0), 0), OLIPRANJ_SMALL, 12, 0, 0, 0);
    same("serve no bytes", olipranj_serve(&store, 1, olipranj_bytes(NULL, 0), 0), 0);
    same("some bytes", olipranj_bytes(page, sizeof page) == page, 1);
}

/* Lays down so many results with five-byte keys, values and stamps in a node, at the first key and stamp and those after. */
static void fill(olipranj_store *store, uint32_t node, uint32_t count, uint32_t key, uint32_t stamp)
{
    store->counts[node] = count;
    for (uint32_t i = 0; i < count; i++) {
        uint32_t place = OLIPRANJ_NODE_PLACES * node + i;
        store->keys[place] = key + i;
        store->kinds[place] = 1;
        store->values[place] = 4294967295;
        store->stamps[place] = stamp + i;
    }
}

/* A full store of plan 1 has the longest image, and a sample of 32 results the longest page. */
static void longest(void)
{
    static uint8_t bytes_of[OLIPRANJ_LONGEST_IMAGE];
    olipranj_store store = empty(1), again;
    store.clock = OLIPRANJ_LAST_CLOCK;
    fill(&store, 0, 8, 4294967040, 4294967040);
    fill(&store, 1, 16, 4294967048, 4294967048);
    fill(&store, 2, 32, 4294967064, 4294967064);
    fill(&store, 3, 64, 4294967096, 4294967096);
    answers("a full store", olipranj_good(&store), OLIPRANJ_DONE, 0, 0, 0, 0);
    answers("its image, a byte short", olipranj_save(&store, bytes_of, sizeof bytes_of - 1), OLIPRANJ_SMALL, OLIPRANJ_LONGEST_IMAGE, 0, 0, 0);
    answers("its image", olipranj_save(&store, bytes_of, sizeof bytes_of), OLIPRANJ_DONE, OLIPRANJ_LONGEST_IMAGE, 0, 0, 0);
    answers("its image loaded", olipranj_load(&again, bytes_of, sizeof bytes_of), OLIPRANJ_DONE, OLIPRANJ_MOST_COPIES, 0, 0, 0);
    bytes("a full store again", &again, &store, sizeof store);
    store = empty(1);
    store.clock = OLIPRANJ_LAST_CLOCK;
    fill(&store, 3, 32, 4294967264, 4294967040);
    answers("the longest page", olipranj_page(&store, OLIPRANJ_LAST_SAMPLE, bytes_of, OLIPRANJ_LONGEST_PAGE), OLIPRANJ_DONE,
            OLIPRANJ_LONGEST_PAGE, 0, 0, 0);
    answers("a byte short", olipranj_page(&store, OLIPRANJ_LAST_SAMPLE, bytes_of, OLIPRANJ_LONGEST_PAGE - 1), OLIPRANJ_SMALL,
            OLIPRANJ_LONGEST_PAGE, 0, 0, 0);
}

int main(void)
{
    fresh();
    schedule();
    images();
    pages();
    bad_store();
    live();
    by_name();
    helpers();
    longest();
    printf("%d checks, %d failed\n", checks, failures);
    return failures != 0;
}

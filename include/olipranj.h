/* Olipranj's C interface: the functions of the crate `export_c`, in target/staticlib/libexport.a, which outside/install lays down as libolipranj.a.
   Each keeps the promise that docs/PROMISES.md names. The `static inline` functions below are written here, over those: they are tested
   (outside/c) and not proved.

   First of all: olipranj_fresh and olipranj_load write over the store at `into`, also when they are refused. Never give them the live store,
   the one that a portal works on; olipranj_fresh_live and olipranj_load_live keep it where the call is refused.

   Stores. No function asks anything of a store's numbers: a store that breaks a store rule is answered BADSTORE (by olipranj_serve 0), and what
   stands at `into` is not looked at. A refusal leaves the store and every byte of a buffer as they were, but for the store at `into`. A call
   that is done leaves all bytes of a buffer past those that it wrote.

   Pointers must be valid, aligned for their type, and not NULL; what one call is given must not overlap. From `buffer`, `bytes` and `kept` on
   `length` bytes must be accessible, and `length` must be below 2^63. No bytes are length 0 and a pointer that is not NULL: olipranj_bytes and
   olipranj_buffer make such a pointer of NULL.

   At the same time: calls that take the store as `const` leave it alone, and may overlap on one store, each with a buffer of its own. A call
   that alters a store excludes all other calls on it; the caller keeps them apart. Calls on different stores may always overlap: the library
   keeps nothing between calls, and no place of its own.

   Processors: the archive is for x86-64, with the calls of Linux (System V). For another processor outside/library compiles the same module
   anew, which is compared there (outside/compare) but is not the archive itself. Numbers lie in a store as the processor has them, so a store is
   no file for another one; an image and a page have the same bytes everywhere. */
#ifndef OLIPRANJ_H
#define OLIPRANJ_H

#include <stddef.h>
#include <stdint.h>

/* What a call gives must be used: no answer is dropped in silence. */
#if defined(__GNUC__)
#define OLIPRANJ_MUST_USE __attribute__((warn_unused_result))
#elif defined(__cplusplus) && __cplusplus >= 201703L
#define OLIPRANJ_MUST_USE [[nodiscard]]
#elif defined(__STDC_VERSION__) && __STDC_VERSION__ >= 202311L
#define OLIPRANJ_MUST_USE [[nodiscard]]
#else
#define OLIPRANJ_MUST_USE
#endif

#ifdef __cplusplus
extern "C" {
#endif

/* The layout of this header's types: one more with each change of a field. olipranj_layout gives the library's own. */
enum { OLIPRANJ_LAYOUT = 1 };

/* The sizes: a store's nodes, the places of each and of all, and its search slots. The places are not the room: plans 1, 2 and 3 have room for
   120, 72 and 104 copies in all, and each node for its capacity. */
enum {
    OLIPRANJ_NODE_COUNT = 8,
    OLIPRANJ_NODE_PLACES = 64,
    OLIPRANJ_PLACE_COUNT = OLIPRANJ_NODE_COUNT * OLIPRANJ_NODE_PLACES,
    OLIPRANJ_SLOT_COUNT = 8,
    OLIPRANJ_MOST_COPIES = 120
};

/* The limits: plans are 1 to 3, analytes 0 to 31, samples 0 to 134217727. An entry at the last clock is refused. */
enum { OLIPRANJ_LAST_PLAN = 3, OLIPRANJ_LAST_ANALYTE = 31, OLIPRANJ_LAST_SAMPLE = 134217727 };
#define OLIPRANJ_LAST_CLOCK UINT32_C(4294967295)

/* The longest page and the longest image, in bytes. A number of 32 bits is at most 5 bytes long. A page: 4 for the sample, 1 for the line
   count, and 11 for each of 32 lines (analyte 1, value 5, stamp 5). An image: 1 for the format, 1 for the plan, 5 for the clock, 1 for each node's
   count (at most 64), and 16 for each copy (key 5, kind 1, value 5, stamp 5). The longest is of plan 1, 4 nodes and 120 copies. That none is
   longer and that each is reached is proved. */
enum {
    OLIPRANJ_LONGEST_PAGE = 4 + 1 + 11 * (OLIPRANJ_LAST_ANALYTE + 1),
    OLIPRANJ_LONGEST_IMAGE = 1 + 1 + 5 + 4 * 1 + 16 * OLIPRANJ_MOST_COPIES
};

/* A search slot: 1 if a search runs in it, its key, its node, the nodes visited. An idle slot is all zero. */
typedef struct {
    uint32_t running, key, node, visits;
} olipranj_slot;

/* The store, 8360 bytes, aligned to 4, without padding: node n has the places from OLIPRANJ_NODE_PLACES * n on, and uses the first, as many as its
   count says, by rising key. A copy's kind is 0 withdrawn or 1 result. A store may be copied as bytes. Read it; only the calls write it. */
typedef struct {
    uint32_t plan, clock;
    uint32_t counts[OLIPRANJ_NODE_COUNT];
    uint32_t keys[OLIPRANJ_PLACE_COUNT], kinds[OLIPRANJ_PLACE_COUNT], values[OLIPRANJ_PLACE_COUNT], stamps[OLIPRANJ_PLACE_COUNT];
    olipranj_slot slots[OLIPRANJ_SLOT_COUNT];
} olipranj_store;

/* An answer, 40 bytes: its number, and four numbers, zero unless named at the call. The 4 bytes after the number are padding and hold anything:
   compare answers number by number, not as bytes. */
typedef struct {
    uint32_t number;
    uint64_t a, b, c, d;
} olipranj_answer;

/* The answer numbers. From BADSTORE on they are refusals. Where `a` is named here it is the same for every call. */
enum {
    OLIPRANJ_DONE = 0,     /* the call was done */
    OLIPRANJ_GOING = 1,    /* a search was stepped and has not ended: a its node, b the nodes visited */
    OLIPRANJ_BADSTORE = 2, /* the store breaks a store rule */
    OLIPRANJ_PLAN = 3,     /* no plan has this number: a its offset in the bytes, 0 for fresh */
    OLIPRANJ_CLOCK = 4,    /* an entry at the last clock */
    OLIPRANJ_FULL = 5,     /* the root is full and lacks the key: carry, and enter again */
    OLIPRANJ_NODE = 6,     /* the plan has no such node */
    OLIPRANJ_EDGE = 7,     /* the node has no such edge */
    OLIPRANJ_SLOTS = 8,    /* all slots run */
    OLIPRANJ_SLOT = 9,     /* there is no such slot */
    OLIPRANJ_IDLE = 10,    /* no search runs in the slot */
    OLIPRANJ_SMALL = 11,   /* the buffer is too short: a the bytes needed */
    OLIPRANJ_SAMPLE = 12,  /* the sample is above the last one */
    OLIPRANJ_CUT = 13,     /* the bytes end before a number or inside it: a its offset */
    OLIPRANJ_NUMBER = 14,  /* a number is not in its shortest form, or above 32 bits: a its offset */
    OLIPRANJ_FORMAT = 15,  /* the image's format is not 1: a its offset, 0 */
    OLIPRANJ_RULE = 16,    /* the image breaks a store rule: a the number's offset, or the image's length */
    OLIPRANJ_TRAIL = 17,   /* bytes are left after the image: a the first one's offset */
    OLIPRANJ_OP = 18,      /* no step has this number */
    OLIPRANJ_MANY = 19     /* bytes are left after 256 steps of a schedule; no call here gives it */
};

/* What a look, or a search that ended, found: the answer's `a`, and not a copy's kind, which is one less. */
enum { OLIPRANJ_LOOK_NEVER = 0, OLIPRANJ_LOOK_WITHDRAWN = 1, OLIPRANJ_LOOK_RESULT = 2 };

/* The step numbers. */
enum {
    OLIPRANJ_ENTER = 1,    /* key, value */
    OLIPRANJ_WITHDRAW = 2, /* key */
    OLIPRANJ_CARRY = 3,    /* node, edge */
    OLIPRANJ_START = 4,    /* key */
    OLIPRANJ_STEP = 5,     /* slot */
    OLIPRANJ_CANCEL = 6    /* slot */
};

/* The library's own layout number. If it is not OLIPRANJ_LAYOUT, the caller was built with the header of another library: no call may be made. */
OLIPRANJ_MUST_USE uint32_t olipranj_layout(void);

/* Not for the live store: what stood at `into` is gone, refused or not. See olipranj_fresh_live. Lays down a fresh store of the plan: DONE; or
   PLAN, and a fresh store of plan 1. */
OLIPRANJ_MUST_USE olipranj_answer olipranj_fresh(olipranj_store *into, uint32_t plan);

/* Does one step by its number; numbers that a step does not have are ignored. Each stands below by its name, with what it answers. BADSTORE comes
   first, then OP for a number that no step has. */
OLIPRANJ_MUST_USE olipranj_answer olipranj_step(olipranj_store *store, uint32_t number, uint32_t x, uint32_t y);

/* The check of all store rules alone: DONE or BADSTORE. Every other call on a store makes it too. */
OLIPRANJ_MUST_USE olipranj_answer olipranj_good(const olipranj_store *store);

/* Looks for a key, a whole search at once: DONE, a what was found (LOOK_NEVER, LOOK_WITHDRAWN, LOOK_RESULT), b the value, c the stamp, d the nodes
   visited; BADSTORE. */
OLIPRANJ_MUST_USE olipranj_answer olipranj_look(const olipranj_store *store, uint32_t key);

/* Saves the store's image into the buffer: DONE, a the bytes written; BADSTORE; SMALL, a the bytes needed. Searches are not saved. */
OLIPRANJ_MUST_USE olipranj_answer olipranj_save(const olipranj_store *store, uint8_t *buffer, size_t length);

/* Not for the live store: what stood at `into` is gone, refused or not. See olipranj_load_live. Loads an image: DONE, a the copies held; or
   the first fault (CUT, NUMBER, FORMAT, PLAN, RULE, TRAIL) with its a, and a fresh store of plan 1. The bytes are the image and no more. An image
   is any good store: that the bytes are those that were saved is for the caller's file to tell. */
OLIPRANJ_MUST_USE olipranj_answer olipranj_load(olipranj_store *into, const uint8_t *bytes, size_t length);

/* Writes the sample's page into the buffer: DONE, a the bytes written; BADSTORE; SAMPLE; SMALL, a the bytes needed. */
OLIPRANJ_MUST_USE olipranj_answer olipranj_page(const olipranj_store *store, uint32_t sample, uint8_t *buffer, size_t length);

/* How many bytes of the kept page to show; 0: the notice is due. */
OLIPRANJ_MUST_USE size_t olipranj_serve(const olipranj_store *store, uint32_t sample, const uint8_t *kept, size_t length);

/* From here on what is written in this header. */

/* 1 if the library has the layout of this header, else 0: to be asked once, before all other calls. */
OLIPRANJ_MUST_USE static inline int olipranj_layout_fits(void) {
    return olipranj_layout() == OLIPRANJ_LAYOUT;
}

/* Fresh for the live store, by a spare one that holds nothing of worth: the live store is replaced if the answer is DONE, and else is as it was.
   Two stores, not one twice; what stands in the spare one afterwards does not matter. */
OLIPRANJ_MUST_USE static inline olipranj_answer olipranj_fresh_live(olipranj_store *live, olipranj_store *spare, uint32_t plan) {
    olipranj_answer answer = olipranj_fresh(spare, plan);
    if (answer.number == OLIPRANJ_DONE) {
        *live = *spare;
    }
    return answer;
}

/* No bytes: a pointer that is not NULL, if it was NULL and the length is 0; else the pointer itself. */
OLIPRANJ_MUST_USE static inline const uint8_t *olipranj_bytes(const uint8_t *bytes, size_t length) {
    static const uint8_t none = 0;
    return bytes == NULL && length == 0 ? &none : bytes;
}

/* The same of a buffer to be written. */
OLIPRANJ_MUST_USE static inline uint8_t *olipranj_buffer(uint8_t *buffer, size_t length) {
    static uint8_t none = 0;
    return buffer == NULL && length == 0 ? &none : buffer;
}

/* Load for the live store, likewise. NULL with length 0 is no bytes. */
OLIPRANJ_MUST_USE static inline olipranj_answer olipranj_load_live(olipranj_store *live, olipranj_store *spare, const uint8_t *bytes, size_t length) {
    olipranj_answer answer = olipranj_load(spare, olipranj_bytes(bytes, length), length);
    if (answer.number == OLIPRANJ_DONE) {
        *live = *spare;
    }
    return answer;
}

/* The key of a sample's analyte: 1, and the key is laid down; or 0 if one of them is too large, and nothing is. */
OLIPRANJ_MUST_USE static inline int olipranj_key(uint32_t sample, uint32_t analyte, uint32_t *key) {
    if (sample > OLIPRANJ_LAST_SAMPLE || analyte > OLIPRANJ_LAST_ANALYTE) {
        return 0;
    }
    *key = sample * (OLIPRANJ_LAST_ANALYTE + 1) + analyte;
    return 1;
}

/* The six steps by name, each with its answers; BADSTORE comes before them.
   Enters a result: DONE, a its stamp; CLOCK; FULL. A refused entry leaves the old figure in the store: until it is accepted, show the notice. */
OLIPRANJ_MUST_USE static inline olipranj_answer olipranj_enter(olipranj_store *store, uint32_t key, uint32_t value) {
    return olipranj_step(store, OLIPRANJ_ENTER, key, value);
}

/* Withdraws a line: as an entry. */
OLIPRANJ_MUST_USE static inline olipranj_answer olipranj_withdraw(olipranj_store *store, uint32_t key) {
    return olipranj_step(store, OLIPRANJ_WITHDRAW, key, 0);
}

/* Carries a node's copies along an edge: DONE, a the copies carried, b those discarded, c those left; NODE; EDGE. */
OLIPRANJ_MUST_USE static inline olipranj_answer olipranj_carry(olipranj_store *store, uint32_t node, uint32_t edge) {
    return olipranj_step(store, OLIPRANJ_CARRY, node, edge);
}

/* Starts a search for a key: DONE, a its slot; SLOTS. */
OLIPRANJ_MUST_USE static inline olipranj_answer olipranj_start(olipranj_store *store, uint32_t key) {
    return olipranj_step(store, OLIPRANJ_START, key, 0);
}

/* One step of a slot's search: GOING, a its node, b the nodes visited; DONE, a to d as of olipranj_look, and the slot is idle; SLOT; IDLE. */
OLIPRANJ_MUST_USE static inline olipranj_answer olipranj_step_search(olipranj_store *store, uint32_t slot) {
    return olipranj_step(store, OLIPRANJ_STEP, slot, 0);
}

/* Ends a slot's search before its end: DONE; SLOT; IDLE. */
OLIPRANJ_MUST_USE static inline olipranj_answer olipranj_cancel(olipranj_store *store, uint32_t slot) {
    return olipranj_step(store, OLIPRANJ_CANCEL, slot, 0);
}

/* The name of an answer's number, as above without the beginning; "UNKNOWN" for a number that no answer has. */
OLIPRANJ_MUST_USE static inline const char *olipranj_name(uint32_t number) {
    static const char *const names[] = {"DONE",  "GOING", "BADSTORE", "PLAN",  "CLOCK",  "FULL", "NODE",   "EDGE",   "SLOTS", "SLOT",
                                        "IDLE",  "SMALL", "SAMPLE",   "CUT",   "NUMBER", "FORMAT", "RULE", "TRAIL", "OP",    "MANY"};
    return number < sizeof names / sizeof names[0] ? names[number] : "UNKNOWN";
}

#ifdef __cplusplus
}
#endif

#endif

/* For other processors than x86-64 (see outside/library): the header's functions over the recompiled module's.

   In the module a function with an answer takes the answer's place as its first parameter and gives it back, as C does on
   x86-64. Elsewhere C hands that place over otherwise (on aarch64 in a register of its own). */
#include "olipranj.h"

uint32_t module_olipranj_layout(void);
void *module_olipranj_fresh(olipranj_answer *, olipranj_store *, uint32_t);
void *module_olipranj_step(olipranj_answer *, olipranj_store *, uint32_t, uint32_t, uint32_t);
void *module_olipranj_good(olipranj_answer *, const olipranj_store *);
void *module_olipranj_look(olipranj_answer *, const olipranj_store *, uint32_t);
void *module_olipranj_save(olipranj_answer *, const olipranj_store *, uint8_t *, size_t);
void *module_olipranj_load(olipranj_answer *, olipranj_store *, const uint8_t *, size_t);
void *module_olipranj_page(olipranj_answer *, const olipranj_store *, uint32_t, uint8_t *, size_t);
size_t module_olipranj_serve(const olipranj_store *, uint32_t, const uint8_t *, size_t);

uint32_t olipranj_layout(void) {
    return module_olipranj_layout();
}

olipranj_answer olipranj_fresh(olipranj_store *into, uint32_t plan) {
    olipranj_answer answer;
    module_olipranj_fresh(&answer, into, plan);
    return answer;
}

olipranj_answer olipranj_step(olipranj_store *store, uint32_t number, uint32_t x, uint32_t y) {
    olipranj_answer answer;
    module_olipranj_step(&answer, store, number, x, y);
    return answer;
}

olipranj_answer olipranj_good(const olipranj_store *store) {
    olipranj_answer answer;
    module_olipranj_good(&answer, store);
    return answer;
}

olipranj_answer olipranj_look(const olipranj_store *store, uint32_t key) {
    olipranj_answer answer;
    module_olipranj_look(&answer, store, key);
    return answer;
}

olipranj_answer olipranj_save(const olipranj_store *store, uint8_t *buffer, size_t length) {
    olipranj_answer answer;
    module_olipranj_save(&answer, store, buffer, length);
    return answer;
}

olipranj_answer olipranj_load(olipranj_store *into, const uint8_t *bytes, size_t length) {
    olipranj_answer answer;
    module_olipranj_load(&answer, into, bytes, length);
    return answer;
}

olipranj_answer olipranj_page(const olipranj_store *store, uint32_t sample, uint8_t *buffer, size_t length) {
    olipranj_answer answer;
    module_olipranj_page(&answer, store, sample, buffer, length);
    return answer;
}

size_t olipranj_serve(const olipranj_store *store, uint32_t sample, const uint8_t *kept, size_t length) {
    return module_olipranj_serve(store, sample, kept, length);
}

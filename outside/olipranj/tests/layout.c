/* Prints the sizes and offsets of the header's types and its layout and answer numbers, in the order of layout.rs. */
#include <stdio.h>
#include "olipranj.h"

#define AT(type, field) printf("%zu\n", offsetof(type, field))
#define SIZE(type) printf("%zu\n", sizeof(type))
#define NUMBER(name) printf("%d\n", OLIPRANJ_##name)

int main(void) {
    SIZE(olipranj_slot);
    AT(olipranj_slot, running);
    AT(olipranj_slot, key);
    AT(olipranj_slot, node);
    AT(olipranj_slot, visits);
    SIZE(olipranj_store);
    AT(olipranj_store, plan);
    AT(olipranj_store, clock);
    AT(olipranj_store, counts);
    AT(olipranj_store, keys);
    AT(olipranj_store, kinds);
    AT(olipranj_store, values);
    AT(olipranj_store, stamps);
    AT(olipranj_store, slots);
    SIZE(olipranj_answer);
    AT(olipranj_answer, number);
    AT(olipranj_answer, a);
    AT(olipranj_answer, b);
    AT(olipranj_answer, c);
    AT(olipranj_answer, d);
    SIZE(size_t);
    NUMBER(LAYOUT);
    NUMBER(DONE);
    NUMBER(GOING);
    NUMBER(BADSTORE);
    NUMBER(PLAN);
    NUMBER(CLOCK);
    NUMBER(FULL);
    NUMBER(NODE);
    NUMBER(EDGE);
    NUMBER(SLOTS);
    NUMBER(SLOT);
    NUMBER(IDLE);
    NUMBER(SMALL);
    NUMBER(SAMPLE);
    NUMBER(CUT);
    NUMBER(NUMBER);
    NUMBER(FORMAT);
    NUMBER(RULE);
    NUMBER(TRAIL);
    NUMBER(OP);
    NUMBER(MANY);
    return 0;
}

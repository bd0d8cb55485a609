/* The exported calls behind one function, so that inputs can choose among them. */
#ifndef CALLS_H
#define CALLS_H

#include <stddef.h>
#include <stdint.h>

#include "emdf.h"

enum call {
    BIT_CURSOR, BITS_REMAINING, READ_BITS, READ_BIT, TAKE_BITS, BYTE_ALIGN, VARIABLE_BITS,
    CLASSIFY, READ, FIND_PAYLOAD, MOVE_BODY, VERDICT,
    EDIT_BODY, EDIT_SETTINGS, EDIT_DROP, EDIT_INSERT, EDIT_KEY, EDIT_PROTECTION, BLANK,
    CHECK_RECIPE, RUN_RECIPE,
    CALLS
};

enum { ANSWER_MOST = EMDF_CLASS_ANSWER_BYTES };

struct slice {
    const uint8_t *bytes;
    size_t length;
};

struct request {
    enum call call;
    struct slice source;
    struct slice body;       /* or the primary protection, or the recipe */
    struct slice settings;   /* or the secondary protection */
    uint64_t number;         /* an id or a key id */
    uint64_t ordinal;        /* of a payload with that id */
    size_t position, end, count, place;
    uint8_t width, limit;
    uint32_t profile;
    uint8_t *room;           /* the table, scratch, destination or first buffer */
    size_t room_length;
    uint8_t *second;         /* the second buffer */
    size_t second_length;
    uint8_t *answer;
};

struct facts {
    const char *name;
    size_t answer;
    uint32_t numbers; /* bit n is set where the call can return n by the scope */
    int rooms;        /* how many it is lent to write to, beside its answer */
    int has_carrier;  /* whether it begins with a reading of the source */
};

extern const struct facts FACTS[CALLS];

/* One of the six edits or emdf_blank; one of the two on a recipe. */
int is_edit(enum call call);
int is_recipe(enum call call);

/* Makes the call. */
uint32_t make_call(const struct request *r);

/* Of a call with one room: the refusal that measures it, and the bytes that it says are needed. */
uint32_t short_number(enum call call);
size_t needed_bytes(enum call call, const uint8_t *answer);

/* How many bytes of its one room an accepted call fills. */
size_t filled_bytes(enum call call, const uint8_t *answer);

/* How many pairs of a call and a number there are by the scope. */
unsigned outcomes_in_all(void);

#endif

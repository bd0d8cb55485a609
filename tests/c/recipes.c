#include "recipes.h"

#include <string.h>

/* ---- the form */

uint64_t number_of(const uint8_t *bytes, size_t count)
{
    uint64_t v = 0;
    size_t i;

    for (i = 0; i < count; i++)
        v = v << 8 | bytes[i];
    return v;
}

void put_number(uint8_t *bytes, size_t count, uint64_t v)
{
    size_t i;

    for (i = count; i > 0; i--) {
        bytes[i - 1] = (uint8_t)v;
        v >>= 8;
    }
}

size_t records_in(size_t length)
{
    return length < EMDF_RECIPE_HEAD_BYTES ? 0 : (length - EMDF_RECIPE_HEAD_BYTES) / EMDF_RECIPE_RECORD_BYTES;
}

void put_head(uint8_t *file, size_t first, size_t count)
{
    put_number(file, 2, first);
    put_number(file + 2, 2, count);
}

static size_t start_of(size_t index)
{
    return EMDF_RECIPE_HEAD_BYTES + EMDF_RECIPE_RECORD_BYTES * (index - 1);
}

void put_record(uint8_t *file, size_t index, const struct record *e)
{
    uint8_t *at = file + start_of(index);

    put_number(at, 2, e->next);
    put_number(at + 2, 1, e->kind);
    put_number(at + 3, 1, e->zero);
    put_number(at + 4, 4, e->place);
    put_number(at + 8, 4, e->offset);
    put_number(at + 12, 4, e->length);
}

struct record record_at(const uint8_t *file, size_t index)
{
    const uint8_t *at = file + start_of(index);
    struct record e;

    e.next = (uint32_t)number_of(at, 2);
    e.kind = at[2];
    e.zero = at[3];
    e.place = (uint32_t)number_of(at + 4, 4);
    e.offset = (uint32_t)number_of(at + 8, 4);
    e.length = (uint32_t)number_of(at + 12, 4);
    return e;
}

/* ---- recipes to begin with */

/* Behind the records of each: a key id of 64 ones, and a body. */
static const uint8_t data[DATA_BYTES] = {255, 255, 255, 255, 255, 255, 255, 255, 0xc3, 1, 2, 3, 4, 5, 6, 7};

#define DATA(records) (EMDF_RECIPE_HEAD_BYTES + EMDF_RECIPE_RECORD_BYTES * (records))
#define END(records) CHAIN_BYTES(records)
#define BODY EMDF_RECIPE_BODY
#define DROP EMDF_RECIPE_DROP
#define KEY EMDF_RECIPE_KEY
#define NOWHERE UINT32_MAX

struct shape {
    unsigned first, count;   /* as the head has them */
    unsigned records;        /* as there are */
    struct record record[4];
    unsigned cut;            /* bytes that are left out at the end */
};

static const struct shape RUN[] = {
    /* one edit of each kind; what a drop has as its data, and a key as its place, is no matter */
    {1, 1, 1, {{0, BODY, 0, 0, DATA(1) + 8, 3}}, 0},
    {1, 1, 1, {{0, DROP, 0, 0, NOWHERE, NOWHERE}}, 0},
    {1, 1, 1, {{0, KEY, 0, NOWHERE, DATA(1), 8}}, 0},
    /* several, also where the file ends with the last record */
    {1, 2, 2, {{2, BODY, 0, 0, DATA(2), 0}, {0, DROP, 0, 0, 0, 0}}, DATA_BYTES},
    {1, 4, 4, {{2, KEY, 0, 0, DATA(4), 8}, {3, BODY, 0, 0, DATA(4), 16}, {4, DROP, 0, 0, 0, 0}, {0, KEY, 0, 0, 0, 8}}, 0},
    /* with refused ones: between, first and last, all */
    {1, 3, 3, {{2, KEY, 0, 0, DATA(3), 8}, {3, DROP, 0, NOWHERE, 0, 0}, {0, BODY, 0, 0, DATA(3), 5}}, 0},
    {1, 3, 3, {{2, BODY, 0, NOWHERE, 0, 4}, {3, KEY, 0, 0, DATA(3), 8}, {0, DROP, 0, NOWHERE, 0, 0}}, 0},
    {1, 2, 2, {{2, DROP, 0, NOWHERE, 0, 0}, {0, DROP, 0, NOWHERE, 0, 0}}, 0},
    /* the second record and the fourth; the others aren't asked about */
    {2, 4, 4, {{1, 9, 9, 9, 9, 9}, {4, KEY, 0, 0, DATA(4) + 4, 8}, {9, 0, 1, 0, NOWHERE, 9}, {0, BODY, 0, 1, DATA(4), 2}}, 0},
    /* none, of a file of 4 bytes and of more */
    {0, 65535, 0, {{0}}, DATA_BYTES},
    {0, 1, 1, {{7, 7, 7, 7, 7, 7}}, 0},
    /* the data are the whole file; none, at its end; the head and part of the record; its last bytes */
    {1, 1, 1, {{0, BODY, 0, 0, 0, END(1)}}, 0},
    {1, 1, 1, {{0, BODY, 0, 0, END(1), 0}}, 0},
    {1, 65535, 1, {{0, KEY, 0, 0, 0, 8}}, 0},
    {1, 1, 1, {{0, KEY, 0, 0, END(1) - 8, 8}}, 0},
};

static const struct shape REFUSED[] = {
    /* 22: no 4 bytes */
    {0, 0, 0, {{0}}, END(0)},
    {0, 0, 0, {{0}}, END(0) - 3},
    /* an index outside its rule: the first above the count; the next its own, below it, above the count */
    {2, 1, 2, {{2, DROP, 0, 0, 0, 0}, {0, DROP, 0, 0, 0, 0}}, 0},
    {1, 2, 2, {{1, DROP, 0, 0, 0, 0}, {0, DROP, 0, 0, 0, 0}}, 0},
    {2, 2, 2, {{2, DROP, 0, 0, 0, 0}, {1, DROP, 0, 0, 0, 0}}, 0},
    {1, 1, 2, {{2, DROP, 0, 0, 0, 0}, {0, DROP, 0, 0, 0, 0}}, 0},
    /* a record outside the file, by a byte, first and after an edit; and by far */
    {1, 1, 0, {{0}}, 1},
    {1, 2, 1, {{2, DROP, 0, 0, 0, 0}}, 1},
    {1, 65535, 1, {{65535, KEY, 0, 0, 0, 8}}, 0},
    /* 22 before 23 in a record, and 23 of a record before 22 of the next */
    {1, 1, 1, {{2, 9, 9, 0, NOWHERE, 9}}, 0},
    {1, 65535, 1, {{65535, 4, 0, 0, 0, 0}}, 0},
    /* 23: a kind that isn't listed; a byte that isn't zero */
    {1, 1, 1, {{0, 0, 0, 0, 0, 0}}, 0},
    {1, 1, 1, {{0, 4, 0, 0, 0, 8}}, 0},
    {1, 1, 1, {{0, BODY, 1, 0, 0, 0}}, 0},
    {1, 1, 1, {{0, DROP, 128, 0, 0, 0}}, 0},
    {1, 1, 1, {{0, KEY, 1, 0, 0, 8}}, 0},
    /* a key of another length */
    {1, 1, 1, {{0, KEY, 0, 0, 0, 7}}, 0},
    {1, 1, 1, {{0, KEY, 0, 0, 0, 9}}, 0},
    /* data past the end, by a byte and by far; and where 32 bits don't hold their end */
    {1, 1, 1, {{0, BODY, 0, 0, END(1) - 3, 4}}, 0},
    {1, 1, 1, {{0, BODY, 0, 0, END(1) + 1, 0}}, 0},
    {1, 1, 1, {{0, KEY, 0, 0, END(1) - 7, 8}}, 0},
    {1, 1, 1, {{0, BODY, 0, 0, NOWHERE, NOWHERE}}, 0},
    {1, 1, 1, {{0, BODY, 0, 0, NOWHERE, 9}}, 0},
    {1, 1, 1, {{0, KEY, 0, 0, NOWHERE - 3, 8}}, 0},
    /* after edits that could be run */
    {1, 3, 3, {{2, KEY, 0, 0, DATA(3), 8}, {3, BODY, 0, 0, 0, 8}, {0, 255, 0, 0, 0, 0}}, 0},
    {1, 3, 3, {{2, KEY, 0, 0, DATA(3), 8}, {3, DROP, 0, 0, 0, 0}, {3, DROP, 0, 0, 0, 0}}, 0},
};

enum { RUN_EDITS = 100, REFUSED_EDITS = 1000 };

static uint8_t seed[CHAIN_BYTES(REFUSED_EDITS)];

static void take_shapes(const struct shape *shapes, size_t count, recipe_taker take, void *with)
{
    size_t i, k;

    for (i = 0; i < count; i++) {
        put_head(seed, shapes[i].first, shapes[i].count);
        for (k = 0; k < shapes[i].records; k++)
            put_record(seed, k + 1, &shapes[i].record[k]);
        memcpy(seed + DATA(shapes[i].records), data, sizeof data);
        take(with, seed, END(shapes[i].records) - shapes[i].cut);
    }
}

/* The drops are few, so that payloads are left for the bodies. */
static struct record chain_record(unsigned i, unsigned edits)
{
    struct record e = {i < edits ? i + 1 : 0, i % 16 == 9 ? DROP : i % 2 ? KEY : BODY, 0, i % 3, 0, 8};

    e.offset = (uint32_t)DATA(edits) + i % 9;
    if (e.kind == BODY)
        e.length = i / 2 % 8;
    return e;
}

size_t chain_recipe(uint8_t *file, unsigned edits)
{
    unsigned i;

    put_head(file, edits > 0 ? 1 : 0, edits);
    for (i = 1; i <= edits; i++) {
        struct record e = chain_record(i, edits);
        put_record(file, i, &e);
    }
    memcpy(file + DATA(edits), data, sizeof data);
    return END(edits);
}

void run_recipes(recipe_taker take, void *with)
{
    take_shapes(RUN, sizeof RUN / sizeof RUN[0], take, with);
    take(with, seed, chain_recipe(seed, RUN_EDITS));
}

/* The longest one is refused for its last record alone. */
void refused_recipes(recipe_taker take, void *with)
{
    static const struct record unlisted = {0, 4, 0, 0, 0, 0};
    size_t length;

    take_shapes(REFUSED, sizeof REFUSED / sizeof REFUSED[0], take, with);
    length = chain_recipe(seed, REFUSED_EDITS);
    put_record(seed, REFUSED_EDITS, &unlisted);
    take(with, seed, length);
}

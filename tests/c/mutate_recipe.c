#include "mutate.h"
#include "recipes.h"

/* The recipe of an input. */
struct file {
    uint8_t *bytes;
    size_t length;
};

static struct file file_of(struct input *in)
{
    size_t start = HEAD + split_of(in->bytes, in->length);
    struct file f = {in->bytes + start, in->length - start};

    return f;
}

static uint32_t one_of(const uint32_t *numbers, size_t count, struct random *random)
{
    return numbers[draw_below(random, count)];
}

#define ONE_OF(numbers) one_of(numbers, sizeof numbers / sizeof numbers[0], random)

/* ---- recipes that can be run */

/* Mostly few bytes, anywhere in the file. */
static void mend_data(struct record *e, size_t length, struct random *random)
{
    size_t n = draw_below(random, draw(random) % 16 == 0 ? length + 1 : 24);

    if (e->kind == EMDF_RECIPE_KEY)
        n = 8;
    else if (n > length)
        n = length;
    e->length = (uint32_t)n;
    e->offset = (uint32_t)draw_below(random, length - n + 1);
}

/* Leads on to a later record, mostly the next one. Few are drops, so that payloads are left for the others. */
static void mend_record(struct record *e, size_t index, size_t length, struct random *random)
{
    static const uint32_t kinds[] = {1, 1, 1, 1, 2, 3, 3, 3}, places[] = {0, 0, 0, 0, 1, 2, 3, 9};
    size_t next = index + 1 + (draw(random) % 16 == 0 ? draw_below(random, 4) : 0);

    e->next = (uint32_t)(next <= records_in(length) ? next : 0);
    if (e->kind < EMDF_RECIPE_BODY || e->kind > EMDF_RECIPE_KEY)
        e->kind = ONE_OF(kinds);
    e->zero = 0;
    if (draw(random) % 16 != 0)
        e->place = ONE_OF(places);
    mend_data(e, length, random);
}

/* The whole file, as far as it has records, becomes one chain: no flip of bits makes one of any length. */
static void mend_recipe(struct input *in, struct random *random)
{
    struct file f = file_of(in);
    size_t count = records_in(f.length), i;

    if (f.length < EMDF_RECIPE_HEAD_BYTES)
        return;
    put_head(f.bytes, count > 0 ? 1 : 0, count);
    for (i = 1; i <= count; i++) {
        struct record e = record_at(f.bytes, i);
        mend_record(&e, i, f.length, random);
        put_record(f.bytes, i, &e);
    }
}

static void lengthen_recipe(struct input *in, struct random *random)
{
    size_t records = 1 + draw_below(random, draw(random) % 32 == 0 ? 512 : 8), i;
    size_t n = EMDF_RECIPE_HEAD_BYTES + EMDF_RECIPE_RECORD_BYTES * records;

    if (in->length + n > INPUT_MOST)
        return;
    for (i = 0; i < n; i++)
        in->bytes[in->length + i] = (uint8_t)draw(random);
    in->length += n;
    mend_recipe(in, random);
}

/* ---- recipes at the edges */

static void change_counts(const struct file *f, struct random *random)
{
    uint32_t count = (uint32_t)records_in(f->length);
    uint32_t firsts[] = {0, 1, 1, 2, count, count + 1}, counts[] = {0, 1, count, count, count + 1, 65535};
    uint32_t first = ONE_OF(firsts);

    put_head(f->bytes, first, ONE_OF(counts));
}

static void change_next(struct record *e, uint32_t index, uint32_t count, struct random *random)
{
    uint32_t nexts[] = {0, 0, 1, index - 1, index, index + 1, index + 1, index + 2, count, count + 1, 65535};

    e->next = ONE_OF(nexts);
}

static void change_kind(struct record *e, struct random *random)
{
    static const uint32_t kinds[] = {0, 1, 1, 2, 2, 3, 3, 4, 255}, zeros[] = {0, 0, 0, 1, 128};

    e->kind = ONE_OF(kinds);
    e->zero = ONE_OF(zeros);
}

static void change_place(struct record *e, struct random *random)
{
    uint32_t places[] = {0, 0, 1, 2, 3, 255, UINT32_MAX, (uint32_t)draw(random)};

    e->place = ONE_OF(places);
}

/* Around the file's end, and where 32 bits don't hold it. */
static void change_data(struct record *e, uint32_t length, struct random *random)
{
    uint32_t offsets[] = {0, 0, 4, length - 8, length - 7, length, length + 1, UINT32_MAX, UINT32_MAX - 7};
    uint32_t lengths[] = {0, 1, 7, 8, 8, 9, length, length - e->offset, length - e->offset + 1, UINT32_MAX};

    if (draw(random) % 2 == 0)
        e->offset = ONE_OF(offsets);
    else
        e->length = ONE_OF(lengths);
}

static void change_record(const struct file *f, struct random *random)
{
    uint32_t count = (uint32_t)records_in(f->length), index = 1 + (uint32_t)draw_below(random, count);
    struct record e = record_at(f->bytes, index);

    switch (draw_below(random, 4)) {
    case 0:
        change_next(&e, index, count, random);
        break;
    case 1:
        change_kind(&e, random);
        break;
    case 2:
        change_place(&e, random);
        break;
    default:
        change_data(&e, (uint32_t)f->length, random);
    }
    put_record(f->bytes, index, &e);
}

void change_recipe(struct input *in, struct random *random)
{
    struct file f = file_of(in);

    switch (draw_below(random, 8)) {
    case 0:
    case 1:
        mend_recipe(in, random);
        break;
    case 2:
        lengthen_recipe(in, random);
        break;
    case 3:
        if (f.length >= EMDF_RECIPE_HEAD_BYTES)
            change_counts(&f, random);
        break;
    default:
        if (records_in(f.length) > 0)
            change_record(&f, random);
    }
}

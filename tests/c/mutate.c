#include "mutate.h"

#include <stdlib.h>
#include <string.h>

#include "lent.h"
#include "recipes.h"
#include "seeds.h"

uint64_t draw(struct random *random)
{
    uint64_t z = random->state += UINT64_C(0x9e3779b97f4a7c15);

    z = (z ^ z >> 30) * UINT64_C(0xbf58476d1ce4e5b9);
    z = (z ^ z >> 27) * UINT64_C(0x94d049bb133111eb);
    return z ^ z >> 31;
}

size_t draw_below(struct random *random, size_t n)
{
    return n > 0 ? (size_t)(draw(random) % n) : 0;
}

/* ---- what is kept */

static struct pool new_pool(size_t most)
{
    struct pool pool = {NULL, 0, most};

    pool.items = must_have(calloc(most, sizeof pool.items[0]));
    return pool;
}

struct corpus new_corpus(uint64_t seed, size_t inputs_most, size_t carriers_most)
{
    struct corpus corpus;

    corpus.inputs = new_pool(inputs_most);
    corpus.carriers = new_pool(carriers_most);
    corpus.random.state = seed;
    return corpus;
}

static void keep(struct pool *pool, struct random *random, const uint8_t *bytes, size_t length)
{
    uint8_t *copy = must_have(malloc(length + 1));
    size_t at = pool->count;

    if (pool->count < pool->most) {
        pool->count++;
    } else {
        at = draw_below(random, pool->most);
        free((void *)pool->items[at].bytes);
    }
    memcpy(copy, bytes, length);
    pool->items[at].bytes = copy;
    pool->items[at].length = length;
}

void keep_input(struct corpus *corpus, const struct input *in)
{
    keep(&corpus->inputs, &corpus->random, in->bytes, in->length);
}

void keep_carrier(struct corpus *corpus, const uint8_t *bytes, size_t length)
{
    keep(&corpus->carriers, &corpus->random, bytes, length);
}

/* ---- the first inputs */

static void plain_input(struct input *in, enum call call, const uint8_t *carrier, size_t length)
{
    memset(in->bytes, 0, HEAD);
    in->bytes[AT_CALL] = (uint8_t)call;
    memcpy(in->bytes + HEAD, carrier, length);
    in->length = HEAD + length;
    put_split(in->bytes, length);
}

static void large_input(struct input *in, enum call call, const uint8_t *carrier, size_t length)
{
    plain_input(in, call, carrier, length);
    memset(in->bytes + AT_NUMBER, 255, 8);
    memset(in->bytes + AT_GROUP, 0x55, 8);
    in->bytes[AT_GROUP + 7] = 0x53; /* the most that is writable */
    memcpy(in->bytes + AT_DURATION, "\x00\x40\x07\xff", 4); /* likewise */
    in->bytes[AT_ROOM] = 4;
    in->bytes[AT_ROOM_MORE] = 9;
    in->bytes[AT_WIDTH] = 63;
    in->bytes[AT_LIMIT] = 32;
    in->bytes[AT_PROFILE] = 1;
    in->bytes[AT_PRIMARY_LENGTH] = in->bytes[AT_SECONDARY_LENGTH] = 2; /* 16 bytes */
    in->bytes[AT_BODY_KIND] = 251;
    in->bytes[AT_BODY_LENGTH] = in->bytes[AT_BODY_LENGTH + 1] = length > 4096 ? 255 : 1;
    in->bytes[AT_PRESENT] = 7;
    in->bytes[AT_OFFSET] = 7;
}

/* What the inputs of a recipe are made with. */
struct recipe_inputs {
    const uint8_t *carrier;
    size_t length;
    input_taker take;
    void *with;
};

/* Many edits of a long carrier take time, and reach no more than few of them. */
enum { COPIED_MOST = 400000 };

/* The recipe after the carrier; what chooses the two buffers. */
static void take_recipe(const struct recipe_inputs *s, enum call call, uint8_t rooms, const uint8_t *recipe, size_t length)
{
    static struct input in;

    if (s->length * records_in(length) > COPIED_MOST)
        return;
    plain_input(&in, call, s->carrier, s->length);
    in.bytes[AT_ROOM] = in.bytes[AT_SECOND_ROOM] = rooms;
    memcpy(in.bytes + in.length, recipe, length);
    in.length += length;
    s->take(s->with, &in);
}

static void take_check(void *with, const uint8_t *recipe, size_t length)
{
    take_recipe(with, CHECK_RECIPE, 0, recipe, length);
}

/* With buffers that are just long enough. */
static void take_run(void *with, const uint8_t *recipe, size_t length)
{
    take_recipe(with, RUN_RECIPE, 0, recipe, length);
}

/* With buffers that lack a byte. */
static void take_short_run(void *with, const uint8_t *recipe, size_t length)
{
    take_recipe(with, RUN_RECIPE, 1, recipe, length);
}

/* The recipe lies in the source, as its body. */
static void take_wrapped(void *with, const uint8_t *recipe, size_t length)
{
    static struct input in;
    static uint8_t carrier[EMDF_CARRIER_MOST];
    const struct recipe_inputs *s = with;

    if (length > WRAPPED_MOST)
        return;
    plain_input(&in, RUN_RECIPE, carrier, wrapped_carrier(carrier, recipe, length));
    put_split(in.bytes, WRAPPED_AT);
    in.bytes[AT_OVERLAP] = 1;
    s->take(s->with, &in);
}

/* Of a blank carrier. */
enum { SHORTEST = 7 };

/* Without a carrier every edit is refused. What is asked of a recipe doesn't depend on the carrier: the shortest does for it. */
static void each_recipe(const uint8_t *carrier, size_t length, input_taker take, void *with)
{
    struct recipe_inputs s = {carrier, length, take, with};

    run_recipes(take_run, &s);
    if (length > 0)
        run_recipes(take_short_run, &s);
    if (length != SHORTEST)
        return;
    refused_recipes(take_run, &s);
    run_recipes(take_check, &s);
    refused_recipes(take_check, &s);
    run_recipes(take_wrapped, &s);
}

/* Ids that some carriers have, each with its first three ordinals. */
static void each_find(const uint8_t *carrier, size_t length, input_taker take, void *with)
{
    static const uint64_t ids[] = {1, 2, 11, 14, 31, 40, 600, UINT64_MAX};
    static struct input in;
    size_t i;
    uint8_t ordinal;

    for (i = 0; i < sizeof ids / sizeof ids[0]; i++)
        for (ordinal = 1; ordinal <= 3; ordinal++) {
            plain_input(&in, FIND_PAYLOAD, carrier, length);
            put_number(in.bytes + AT_NUMBER, 8, ids[i]);
            in.bytes[AT_ID_KIND] = ID_OF_INPUT;
            in.bytes[AT_ORDINAL] = ordinal;
            take(with, &in);
        }
}

void each_input(const uint8_t *carrier, size_t length, input_taker take, void *with)
{
    static struct input in;
    unsigned call;

    for (call = 0; call < CHECK_RECIPE; call++) {
        plain_input(&in, call, carrier, length);
        take(with, &in);
        large_input(&in, call, carrier, length);
        take(with, &in);
        /* An id, a key id and a group id of 64 bits in what fits. */
        in.bytes[AT_BODY_KIND] = 3;
        take(with, &in);
    }
    each_find(carrier, length, take, with);
    each_recipe(carrier, length, take, with);
}

struct seeding {
    struct corpus *corpus;
    size_t longest;
    input_taker take;
    void *with;
};

static void add_input(void *with, const struct input *in)
{
    const struct seeding *s = with;

    keep_input(s->corpus, in);
    if (s->take != NULL)
        s->take(s->with, in);
}

static void add_carrier(void *with, const uint8_t *bytes, size_t length)
{
    const struct seeding *s = with;

    if (length > s->longest)
        return;
    keep_carrier(s->corpus, bytes, length);
    each_input(bytes, length, add_input, with);
}

void add_seeds(struct corpus *corpus, size_t longest, input_taker take, void *with)
{
    struct seeding s = {corpus, longest, take, with};

    seed_carriers(add_carrier, &s);
}

/* ---- changes */

static void flip_bit(struct input *in, struct random *random)
{
    size_t at = draw_below(random, in->length);

    in->bytes[at] ^= (uint8_t)(1u << draw_below(random, 8));
}

static void change_byte(struct input *in, struct random *random)
{
    static const uint8_t edges[] = {0, 1, 2, 11, 14, 31, 63, 64, 127, 128, 240, 250, 254, 255};
    size_t at = draw_below(random, in->length);

    in->bytes[at] = (uint8_t)(draw(random) % 2 ? draw(random) : edges[draw_below(random, sizeof edges)]);
}

static void change_head(struct input *in, struct random *random)
{
    in->bytes[draw_below(random, HEAD)] = (uint8_t)draw(random);
}

/* A number near a power of two, or any. */
static void change_number(struct input *in, struct random *random)
{
    static const uint8_t places[] = {AT_NUMBER, AT_POSITION, AT_END_BIT, AT_GROUP};
    uint64_t v = UINT64_C(1) << draw_below(random, 64);
    size_t at = places[draw_below(random, sizeof places)], i;

    v += draw_below(random, 5) - 2;
    if (draw(random) % 4 == 0)
        v = draw(random) >> draw_below(random, 64);
    for (i = 8; i > 0; i--) {
        in->bytes[at + i - 1] = (uint8_t)v;
        v >>= 8;
    }
}

/* Another payload that is looked for: one of the first ones' ids, or the input's number, and an ordinal near 1. */
static void change_find(struct input *in, struct random *random)
{
    in->bytes[AT_PLACE] = (uint8_t)draw_below(random, 12);
    in->bytes[AT_ID_KIND] = (uint8_t)draw_below(random, ID_KINDS);
    in->bytes[AT_ORDINAL] = (uint8_t)draw_below(random, draw(random) % 4 == 0 ? 16 : 4);
    in->bytes[AT_HIGH_BIT] = (uint8_t)draw(random);
    if (draw(random) % 8 == 0)
        in->bytes[AT_ORDINAL] += ORDINAL_AND_HIGH_BIT;
}

/* Where the recipe starts, in the whole input. */
static size_t recipe_start(const struct input *in)
{
    return HEAD + split_of(in->bytes, in->length);
}

static void start_recipe(struct input *in, size_t at)
{
    put_split(in->bytes, at - HEAD);
}

static void insert_bytes(struct input *in, struct random *random)
{
    size_t at = HEAD + draw_below(random, in->length - HEAD + 1), n = 1 + draw_below(random, 8), i;
    size_t recipe = recipe_start(in);

    if (in->length + n > INPUT_MOST)
        return;
    if (at <= recipe)
        start_recipe(in, recipe + n);
    memmove(in->bytes + at + n, in->bytes + at, in->length - at);
    for (i = 0; i < n; i++)
        in->bytes[at + i] = (uint8_t)(draw(random) % 2 ? draw(random) : 0);
    in->length += n;
}

static void delete_bytes(struct input *in, struct random *random)
{
    size_t tail = in->length - HEAD, n = 1 + draw_below(random, tail / 4 + 1), at;
    size_t recipe = recipe_start(in);

    if (n > tail)
        return;
    at = HEAD + draw_below(random, tail - n + 1);
    if (at < recipe)
        start_recipe(in, at + n < recipe ? recipe - n : at);
    memmove(in->bytes + at, in->bytes + at + n, in->length - at - n);
    in->length -= n;
}

/* The end of what a byte belongs to: the carrier, or the recipe after it. */
static size_t end_of_part(const struct input *in, size_t at)
{
    size_t recipe = recipe_start(in);

    return at < recipe ? recipe : in->length;
}

/* A carrier's fields stand at bits, so what follows has to move by bits too. */
static void insert_bit(struct input *in, struct random *random)
{
    size_t at = HEAD + draw_below(random, in->length - HEAD), end = end_of_part(in, at), i;
    unsigned low = (unsigned)draw_below(random, 8), carry, mask = (1u << low) - 1;

    if (at >= in->length)
        return;
    carry = in->bytes[at] & 1;
    in->bytes[at] = (uint8_t)((in->bytes[at] & ~mask & 255) | (in->bytes[at] & mask) >> 1 | (draw(random) & 1) << low);
    for (i = at + 1; i < end; i++) {
        unsigned out = in->bytes[i] & 1;
        in->bytes[i] = (uint8_t)(carry << 7 | in->bytes[i] >> 1);
        carry = out;
    }
}

static void delete_bit(struct input *in, struct random *random)
{
    size_t at = HEAD + draw_below(random, in->length - HEAD), end = end_of_part(in, at), i;
    unsigned mask = (2u << draw_below(random, 8)) - 1;

    for (i = at; i < end; i++) {
        unsigned next = i + 1 < end ? in->bytes[i + 1] >> 7 : 0;
        in->bytes[i] = (uint8_t)((in->bytes[i] & ~mask & 255) | ((in->bytes[i] << 1 | next) & mask));
        mask = 255;
    }
}

/* The rest of the source is another one's. */
static void splice(struct input *in, struct random *random, const struct pool *corpus)
{
    const struct slice *other = &corpus->items[draw_below(random, corpus->count)];
    size_t at = HEAD + draw_below(random, in->length - HEAD + 1), from = HEAD + draw_below(random, other->length - HEAD + 1);
    size_t n = other->length - from, recipe = HEAD + split_of(other->bytes, other->length);

    if (at + n > INPUT_MOST)
        return;
    /* The other one's recipe comes along, unless the own one is cut. */
    if (at <= recipe_start(in))
        start_recipe(in, from <= recipe ? at + recipe - from : at);
    memcpy(in->bytes + at, other->bytes + from, n);
    in->length = at + n;
}

/* The header says what is there, or nearly. */
static void mend_header(struct input *in, struct random *random)
{
    size_t length = source_length(in), declared;

    if (length < 4)
        return;
    declared = length - 4 - (draw(random) % 16 == 0 ? draw_below(random, 3) : 0);
    in->bytes[HEAD] = 0x58;
    in->bytes[HEAD + 1] = 0x38;
    in->bytes[HEAD + 2] = (uint8_t)(declared >> 8);
    in->bytes[HEAD + 3] = (uint8_t)declared;
}

/* What a call takes beside its carrier: a recipe, or an id and an ordinal. Whether it was changed. */
static int change_beside(struct input *in, struct random *random)
{
    enum call call = in->bytes[AT_CALL] % CALLS;

    if (is_recipe(call) && draw(random) % 2 == 0)
        change_recipe(in, random);
    else if (call == FIND_PAYLOAD && draw(random) % 4 == 0)
        change_find(in, random);
    else
        return 0;
    return 1;
}

static void change(struct input *in, struct random *random, const struct pool *corpus)
{
    if (change_beside(in, random))
        return;
    switch (draw_below(random, 12)) {
    case 0:
    case 1:
        flip_bit(in, random);
        break;
    case 2:
        change_byte(in, random);
        break;
    case 3:
    case 4:
        change_head(in, random);
        break;
    case 5:
        change_number(in, random);
        break;
    case 6:
        insert_bytes(in, random);
        break;
    case 7:
        delete_bytes(in, random);
        break;
    case 8:
        insert_bit(in, random);
        break;
    case 9:
        delete_bit(in, random);
        break;
    case 10:
        splice(in, random, corpus);
        break;
    default:
        in->bytes[AT_CALL] = (uint8_t)draw_below(random, CALLS);
    }
}

/* The shorter of two mostly: long carriers take time. */
static const struct slice *choose(const struct pool *pool, struct random *random)
{
    const struct slice *a = &pool->items[draw_below(random, pool->count)];
    const struct slice *b = &pool->items[draw_below(random, pool->count)];
    const struct slice *c = a->length < b->length ? a : b;

    if (c->length > 2048 && draw(random) % 8 != 0)
        c = &pool->items[draw_below(random, pool->count)];
    return c;
}

/* Another carrier, before the same recipe where there is one. */
static void put_carrier(struct input *in, const struct slice *carrier)
{
    size_t recipe = recipe_start(in), n = in->length - recipe;

    if (!is_recipe(in->bytes[AT_CALL] % CALLS) || carrier->length + n > SOURCE_MOST)
        n = 0;
    memmove(in->bytes + HEAD + carrier->length, in->bytes + recipe, n);
    memcpy(in->bytes + HEAD, carrier->bytes, carrier->length);
    put_split(in->bytes, carrier->length);
    in->length = HEAD + carrier->length + n;
}

void mutate(struct input *in, struct corpus *corpus)
{
    struct random *random = &corpus->random;
    const struct slice *base = choose(&corpus->inputs, random);
    size_t n = draw_below(random, draw(random) % 8 == 0 ? 16 : 4) + 1;

    memcpy(in->bytes, base->bytes, base->length);
    in->length = base->length;
    if (corpus->carriers.count > 0 && draw(random) % 4 == 0)
        put_carrier(in, choose(&corpus->carriers, random));
    while (n-- > 0)
        change(in, random, &corpus->inputs);
    if (draw(random) % 4 != 0)
        mend_header(in, random);
}

/* The time of each call on carriers and recipes of doubling length: eight times as much has to take some eight times as long, but
   for the ordinals of ids that have the escape and are all different, each of which may be looked for in all rows before it. */
#include <stdio.h>
#include <string.h>

#include "clock.h"
#include "input.h"
#include "recipes.h"
#include "seeds.h"

enum { ESCAPE = 31 }; /* the first id that has it */
enum { SIZES = 4, ROUNDS = 15, ROOM = 4000 * EMDF_ROW_BYTES, EDITS_LEAST = 500, EDITS_MOST = EDITS_LEAST << (SIZES - 1) };

struct shape {
    const char *name;
    unsigned payloads;
    size_t body_length;
};

/* Many payloads without a body, one with a long one, and many of as many ids. */
enum { PAYLOADS, BODY, ESCAPED_IDS, KINDS };
static const struct shape SHAPES[KINDS][SIZES] = {
    {{"payloads", 500, 0}, {"payloads", 1000, 0}, {"payloads", 2000, 0}, {"payloads", 4000, 0}},
    {{"body", 1, 8000}, {"body", 1, 16000}, {"body", 1, 32000}, {"body", 1, 64000}},
    {{"ids", 500, 0}, {"ids", 1000, 0}, {"ids", 2000, 0}, {"ids", 4000, 0}},
};

static uint8_t carriers[KINDS][SIZES][EMDF_CARRIER_MOST];
static size_t lengths[KINDS][SIZES];
static uint8_t room[ROOM], second[ROOM], recipe[CHAIN_BYTES(EDITS_MOST)];

/* In nanoseconds, the best of some rounds: what else runs on the machine only adds. */
static double time_of(struct request *r)
{
    double best = 0;
    int i;

    for (i = 0; i < ROUNDS; i++) {
        double start = now(), taken;
        make_call(r);
        taken = (now() - start) * 1e9;
        best = i == 0 || taken < best ? taken : best;
    }
    return best;
}

/* The key id of an edit, or id and ordinal of the last payload: seed_carrier has 40 ids by turns, from 1 on. */
static void put_numbers(struct request *r, int kind, unsigned payloads)
{
    r->number = 9;
    if (r->call != FIND_PAYLOAD)
        return;
    r->number = kind == ESCAPED_IDS ? ESCAPE + payloads - 1 : 1 + (payloads - 1) % 40;
    r->ordinal = kind == ESCAPED_IDS ? 1 : 1 + (payloads - 1) / 40;
}

static void time_call(enum call call, int kind)
{
    static uint8_t body[3] = {1, 2, 3}, settings[EMDF_SETTINGS_BYTES], answer[ANSWER_MOST];
    double first = 0, last = 0;
    int i;

    seed_settings(settings, 0);
    printf("%-22s %-10s", FACTS[call].name, SHAPES[kind][0].name);
    for (i = 0; i < SIZES; i++) {
        struct request r;
        memset(&r, 0, sizeof r);
        r.call = call;
        r.source.bytes = carriers[kind][i];
        r.source.length = lengths[kind][i];
        r.place = SHAPES[kind][i].payloads - 1;
        r.body.bytes = body;
        r.body.length = call == EDIT_PROTECTION ? 1 : sizeof body;
        r.settings.bytes = settings;
        r.settings.length = call == EDIT_PROTECTION ? 0 : sizeof settings;
        put_numbers(&r, kind, SHAPES[kind][i].payloads);
        r.room = room;
        r.room_length = sizeof room;
        r.answer = answer;
        last = time_of(&r);
        first = i == 0 ? last : first;
        printf(" %9.0f", last);
    }
    printf("  %5.1f\n", last / first);
}

/* Of a carrier with a short body, so that its length counts for little. */
static void time_recipe(enum call call)
{
    static uint8_t carrier[EMDF_CARRIER_MOST], answer[ANSWER_MOST];
    size_t length = seed_carrier(carrier, 1, 8, 0);
    double first = 0, last = 0;
    int i;

    printf("%-22s %-10s", FACTS[call].name, "records");
    for (i = 0; i < SIZES; i++) {
        struct request r;
        memset(&r, 0, sizeof r);
        r.call = call;
        r.source.bytes = carrier;
        r.source.length = length;
        r.body.bytes = recipe;
        r.body.length = chain_recipe(recipe, EDITS_LEAST << i);
        r.room = room;
        r.second = second;
        r.room_length = r.second_length = sizeof room;
        r.answer = answer;
        last = time_of(&r);
        first = i == 0 ? last : first;
        printf(" %9.0f", last);
    }
    printf("  %5.1f\n", last / first);
}

static size_t make_carrier(uint8_t *carrier, int kind, const struct shape *shape)
{
    if (kind == ESCAPED_IDS)
        return turning_carrier(carrier, shape->payloads, ESCAPE, shape->payloads);
    return seed_carrier(carrier, shape->payloads, shape->body_length, 0);
}

int main(void)
{
    int kind, i;
    unsigned call;

    for (kind = 0; kind < KINDS; kind++)
        for (i = 0; i < SIZES; i++)
            lengths[kind][i] = make_carrier(carriers[kind][i], kind, &SHAPES[kind][i]);
    printf("%-22s %-10s %9s %9s %9s %9s  times\n", "call", "carrier", "1 (ns)", "2", "4", "8");
    for (call = CLASSIFY; call < BLANK; call++)
        for (kind = PAYLOADS; kind <= BODY; kind++)
            time_call(call, kind);
    time_call(READ, ESCAPED_IDS);
    time_call(FIND_PAYLOAD, ESCAPED_IDS);
    time_recipe(CHECK_RECIPE);
    time_recipe(RUN_RECIPE);
    return 0;
}

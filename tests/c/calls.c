#include "calls.h"

/* 4 and 5 are no refusals of a reading: its widths and limits are fixed. */
#define BIT(n) (UINT32_C(1) << (n))
#define FIELDS_REFUSED (BIT(3) | BIT(6) | BIT(7) | BIT(8) | BIT(9) | BIT(10) | BIT(11) | BIT(12))
#define CUT (BIT(1) | BIT(21))
#define READING (BIT(0) | BIT(2) | CUT | FIELDS_REFUSED)
#define EDIT (READING | BIT(19) | BIT(20))
#define RECIPE (BIT(0) | BIT(22) | BIT(23))

/* What is read is writable, and a drop shortens: so 17 and 18 aren't everybody's. */
const struct facts FACTS[CALLS] = {
    {"emdf_bit_cursor", EMDF_BIT_ANSWER_BYTES, BIT(0), 0, 0},
    {"emdf_bits_remaining", EMDF_BIT_ANSWER_BYTES, BIT(0), 0, 0},
    {"emdf_read_bits", EMDF_BIT_ANSWER_BYTES, BIT(0) | BIT(3) | BIT(4), 0, 0},
    {"emdf_read_bit", EMDF_BIT_ANSWER_BYTES, BIT(0) | BIT(3), 0, 0},
    {"emdf_take_bits", EMDF_BIT_ANSWER_BYTES, BIT(0) | BIT(3), 0, 0},
    {"emdf_byte_align", EMDF_BIT_ANSWER_BYTES, BIT(0) | BIT(3), 0, 0},
    {"emdf_variable_bits", EMDF_FIELD_ANSWER_BYTES, BIT(0) | BIT(3) | BIT(5) | BIT(6) | BIT(7), 0, 0},
    {"emdf_classify", EMDF_CLASS_ANSWER_BYTES, BIT(0) | CUT | FIELDS_REFUSED, 0, 1},
    {"emdf_read", EMDF_READ_ANSWER_BYTES, READING | BIT(13), 1, 1},
    {"emdf_find_payload", EMDF_FIND_ANSWER_BYTES, READING | BIT(24), 0, 1},
    {"emdf_move_body", EMDF_MOVE_ANSWER_BYTES, READING | BIT(16) | BIT(19), 1, 1},
    {"emdf_verdict", EMDF_VERDICT_ANSWER_BYTES, READING | BIT(14) | BIT(15), 0, 1},
    {"emdf_edit_body", EMDF_EDIT_ANSWER_BYTES, EDIT | BIT(16) | BIT(18), 1, 1},
    {"emdf_edit_settings", EMDF_EDIT_ANSWER_BYTES, EDIT | BIT(16) | BIT(17) | BIT(18), 1, 1},
    {"emdf_edit_drop", EMDF_EDIT_ANSWER_BYTES, EDIT | BIT(16), 1, 1},
    {"emdf_edit_insert", EMDF_EDIT_ANSWER_BYTES, EDIT | BIT(16) | BIT(17) | BIT(18), 1, 1},
    {"emdf_edit_key", EMDF_EDIT_ANSWER_BYTES, EDIT | BIT(18), 1, 1},
    {"emdf_edit_protection", EMDF_EDIT_ANSWER_BYTES, EDIT | BIT(17) | BIT(18), 1, 1},
    {"emdf_blank", EMDF_EDIT_ANSWER_BYTES, BIT(0) | BIT(17) | BIT(19), 1, 0},
    {"emdf_check_recipe", EMDF_CHECK_ANSWER_BYTES, RECIPE, 0, 0},
    {"emdf_run_recipe", EMDF_RUN_ANSWER_BYTES, RECIPE, 2, 0},
};

static uint32_t bit_call(const struct request *r)
{
    const uint8_t *b = r->source.bytes;
    size_t n = r->source.length;

    switch (r->call) {
    case BIT_CURSOR:
        return emdf_bit_cursor(b, n, r->answer);
    case BITS_REMAINING:
        return emdf_bits_remaining(b, n, r->position, r->end, r->answer);
    case READ_BITS:
        return emdf_read_bits(b, n, r->position, r->end, r->width, r->answer);
    case READ_BIT:
        return emdf_read_bit(b, n, r->position, r->end, r->answer);
    case TAKE_BITS:
        return emdf_take_bits(b, n, r->position, r->end, r->count, r->answer);
    case BYTE_ALIGN:
        return emdf_byte_align(b, n, r->position, r->end, r->answer);
    default:
        return emdf_variable_bits(b, n, r->position, r->end, r->width, r->limit, r->answer);
    }
}

static uint32_t carrier_call(const struct request *r)
{
    const uint8_t *b = r->source.bytes;
    size_t n = r->source.length;

    switch (r->call) {
    case CLASSIFY:
        return emdf_classify(b, n, r->answer);
    case READ:
        return emdf_read(b, n, r->room, r->room_length, r->answer);
    case FIND_PAYLOAD:
        return emdf_find_payload(b, n, r->number, r->ordinal, r->answer);
    case MOVE_BODY:
        return emdf_move_body(b, n, r->place, r->room, r->room_length, r->answer);
    default:
        return emdf_verdict(b, n, r->profile, r->answer);
    }
}

static uint32_t edit_call(const struct request *r)
{
    const struct slice *s = &r->source, *b = &r->body, *t = &r->settings;
    uint8_t *d = r->room;
    size_t n = r->room_length;

    switch (r->call) {
    case EDIT_BODY:
        return emdf_edit_body(s->bytes, s->length, r->place, b->bytes, b->length, d, n, r->answer);
    case EDIT_SETTINGS:
        return emdf_edit_settings(s->bytes, s->length, r->place, t->bytes, t->length, d, n, r->answer);
    case EDIT_DROP:
        return emdf_edit_drop(s->bytes, s->length, r->place, d, n, r->answer);
    case EDIT_INSERT:
        return emdf_edit_insert(s->bytes, s->length, r->place, r->number, t->bytes, t->length, b->bytes, b->length, d, n,
                                r->answer);
    case EDIT_KEY:
        return emdf_edit_key(s->bytes, s->length, r->number, d, n, r->answer);
    case EDIT_PROTECTION:
        return emdf_edit_protection(s->bytes, s->length, b->bytes, b->length, t->bytes, t->length, d, n, r->answer);
    default:
        return emdf_blank(r->number, b->bytes, b->length, t->bytes, t->length, d, n, r->answer);
    }
}

static uint32_t recipe_call(const struct request *r)
{
    const struct slice *s = &r->source, *b = &r->body;

    if (r->call == CHECK_RECIPE)
        return emdf_check_recipe(b->bytes, b->length, r->answer);
    return emdf_run_recipe(s->bytes, s->length, b->bytes, b->length, r->room, r->room_length, r->second, r->second_length,
                           r->answer);
}

int is_edit(enum call call)
{
    return call >= EDIT_BODY && call <= BLANK;
}

int is_recipe(enum call call)
{
    return call == CHECK_RECIPE || call == RUN_RECIPE;
}

uint32_t make_call(const struct request *r)
{
    if (r->call <= VARIABLE_BITS)
        return bit_call(r);
    if (r->call <= VERDICT)
        return carrier_call(r);
    return is_edit(r->call) ? edit_call(r) : recipe_call(r);
}

uint32_t short_number(enum call call)
{
    return call == READ ? EMDF_TABLE_TOO_SHORT : EMDF_DESTINATION_TOO_SHORT;
}

size_t needed_bytes(enum call call, const uint8_t *answer)
{
    return (size_t)emdf_word(answer, 0) * (call == READ ? EMDF_ROW_BYTES : 1);
}

size_t filled_bytes(enum call call, const uint8_t *answer)
{
    if (call == READ)
        return (size_t)emdf_word(answer, EMDF_PAYLOADS) * EMDF_ROW_BYTES;
    if (call == MOVE_BODY)
        return emdf_word(answer, EMDF_BODY_START_BIT) % 8 != 0 ? (size_t)emdf_word(answer, EMDF_BODY_LENGTH) : 0;
    return (size_t)emdf_word(answer, EMDF_WRITTEN_LENGTH);
}

unsigned outcomes_in_all(void)
{
    unsigned call, n, all = 0;

    for (call = 0; call < CALLS; call++)
        for (n = 0; n < 32; n++)
            all += FACTS[call].numbers >> n & 1;
    return all;
}

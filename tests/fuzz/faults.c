#include "faults.h"

#include <string.h>

#include "groups_model.h"
#include "input.h"
#include "recipe_model.h"

static volatile uint8_t sink;

static uint32_t writes_past_destination(const struct request *r)
{
    uint32_t number = make_call(r);

    if (is_edit(r->call) && number == 0)
        r->room[r->room_length] ^= 1;
    return number;
}

static uint32_t writes_before_destination(const struct request *r)
{
    uint32_t number = make_call(r);

    if (is_edit(r->call) && number == 0)
        r->room[-1] ^= 1;
    return number;
}

static uint32_t writes_past_carrier(const struct request *r)
{
    uint32_t number = make_call(r);
    size_t filled = is_edit(r->call) && number == 0 ? filled_bytes(r->call, r->answer) : r->room_length;

    if (filled < r->room_length)
        r->room[filled] ^= 1;
    return number;
}

static uint32_t writes_on_refusal(const struct request *r)
{
    uint32_t number = make_call(r);

    if (is_edit(r->call) && number != 0 && r->room_length > 0)
        r->room[r->room_length / 2] ^= 1;
    return number;
}

static uint32_t writes_row_on_refusal(const struct request *r)
{
    uint32_t number = make_call(r);

    if (r->call == READ && number != 0 && r->room_length >= EMDF_ROW_BYTES)
        r->room[0] ^= 1;
    return number;
}

static uint32_t writes_row_too_many(const struct request *r)
{
    uint32_t number = make_call(r);
    size_t filled = r->call == READ && number == 0 ? filled_bytes(READ, r->answer) : r->room_length;

    if (filled < r->room_length)
        r->room[filled] ^= 1;
    return number;
}

static uint32_t moves_aligned_body(const struct request *r)
{
    uint32_t number = make_call(r);

    if (r->call == MOVE_BODY && number == 0 && filled_bytes(MOVE_BODY, r->answer) == 0 && r->room_length > 0)
        r->room[0] ^= 1;
    return number;
}

static uint32_t reads_past_source(const struct request *r)
{
    sink = r->source.bytes[r->source.length];
    return make_call(r);
}

static uint32_t reads_before_source(const struct request *r)
{
    sink = r->source.bytes[-1];
    return make_call(r);
}

static uint32_t reads_past_body(const struct request *r)
{
    if (r->call == EDIT_BODY || r->call == EDIT_INSERT)
        sink = r->body.bytes[r->body.length];
    return make_call(r);
}

static uint32_t reads_past_settings(const struct request *r)
{
    if (r->call == EDIT_SETTINGS && r->settings.length < EMDF_SETTINGS_BYTES)
        sink = r->settings.bytes[EMDF_SETTINGS_BYTES - 1];
    return make_call(r);
}

static uint32_t writes_source(const struct request *r)
{
    if (r->call == CLASSIFY && r->source.length > 0)
        *(uint8_t *)(uintptr_t)r->source.bytes = 0;
    return make_call(r);
}

static uint32_t writes_past_answer(const struct request *r)
{
    uint32_t number = make_call(r);

    r->answer[FACTS[r->call].answer] ^= 1;
    return number;
}

static uint32_t leaves_answer_byte(const struct request *r)
{
    uint8_t last = r->answer[FACTS[r->call].answer - 1];
    uint32_t number = make_call(r);

    if (r->call == VERDICT)
        r->answer[FACTS[r->call].answer - 1] = last;
    return number;
}

/* As if the destination were always too short. */
static uint32_t answers_19_unmeasured(const struct request *r)
{
    struct request empty = *r;

    if (is_edit(r->call))
        empty.room_length = 0;
    return make_call(&empty);
}

static uint32_t answers_13_unread(const struct request *r)
{
    struct request empty = *r;

    if (r->call == READ)
        empty.room_length = 0;
    return make_call(&empty);
}

static uint32_t returns_unknown_number(const struct request *r)
{
    uint32_t number = make_call(r);

    return number == EMDF_NONZERO_PADDING ? 99 : number;
}

/* As if a header that is cut off were a body that is. */
static uint32_t answers_1_for_21(const struct request *r)
{
    uint32_t number = make_call(r);

    return number == EMDF_TRUNCATED_HEADER ? EMDF_TRUNCATED_CONTAINER : number;
}

static uint32_t returns_other_refusal(const struct request *r)
{
    uint32_t number = make_call(r);

    return is_edit(r->call) && number == EMDF_EXCESS_PADDING ? EMDF_NONZERO_PADDING : number;
}

static uint32_t keeps_state(const struct request *r)
{
    static unsigned long made;
    uint32_t number = make_call(r);

    if (++made % 1000 == 0)
        r->answer[0] ^= 1;
    return number;
}

/* Asks all questions as it should, and then copies the source. */
static uint32_t copies_source(const struct request *r)
{
    static uint8_t aside[SOURCE_MOST];
    struct request other = *r;
    uint32_t number;

    if (!is_edit(r->call) || r->call == BLANK || r->room_length > sizeof aside)
        return make_call(r);
    other.room = aside;
    number = make_call(&other);
    if (number == 0 && r->source.length <= r->room_length) {
        memcpy(r->room, r->source.bytes, r->source.length);
        emdf_set_word(r->answer, EMDF_WRITTEN_LENGTH, r->source.length);
    }
    return number;
}

static uint32_t flips_body_bit(const struct request *r)
{
    uint32_t number = make_call(r);
    size_t filled = r->call == EDIT_SETTINGS && number == 0 ? filled_bytes(r->call, r->answer) : 0;

    if (filled > 40)
        r->room[filled / 2] ^= 16;
    return number;
}

/* The payload is put in with the bytes of its body in another order. */
static uint32_t turns_body(const struct request *r)
{
    static uint8_t turned[BODY_MOST];
    struct request other = *r;
    size_t i;

    if (r->call != EDIT_INSERT && r->call != EDIT_BODY)
        return make_call(r);
    for (i = 0; i < r->body.length; i++)
        turned[i] = r->body.bytes[r->body.length - 1 - i];
    other.body.bytes = turned;
    return make_call(&other);
}

static uint32_t ends_never(const struct request *r)
{
    while (r->call == MOVE_BODY && r->place == 7)
        sink = 0;
    return make_call(r);
}

/* ---- protections that are not cleared, or that should not be */

static int clears(enum call call)
{
    return call >= EDIT_BODY && call <= EDIT_KEY;
}

static struct slice protection_of(const uint8_t *answer, size_t word)
{
    struct slice s;

    s.length = (size_t)emdf_word(answer, word);
    s.bytes = answer + 8 * (word + 1) + EMDF_PROTECTION_BYTES - s.length;
    return s;
}

/* Gives a carrier the source's protections, or of these the secondary one alone. */
static void put_protections(const struct slice *source, uint8_t *carrier, size_t length, int has_primary)
{
    static uint8_t aside[SOURCE_MOST];
    static const uint8_t zeros[EMDF_PROTECTION_BYTES];
    uint8_t class[EMDF_CLASS_ANSWER_BYTES], answer[EMDF_EDIT_ANSWER_BYTES];
    struct slice primary, secondary;

    emdf_classify(source->bytes, source->length, class);
    primary = protection_of(class + 8, EMDF_PRIMARY_LENGTH);
    secondary = protection_of(class + 8, EMDF_SECONDARY_LENGTH);
    memcpy(aside, carrier, length);
    emdf_edit_protection(aside, length, has_primary ? primary.bytes : zeros, primary.length, secondary.bytes, secondary.length,
                         carrier, length, answer);
}

static uint32_t leaves_protections(const struct request *r)
{
    uint32_t number = make_call(r);

    if (clears(r->call) && number == 0)
        put_protections(&r->source, r->room, filled_bytes(r->call, r->answer), 1);
    return number;
}

static uint32_t leaves_secondary_protection(const struct request *r)
{
    uint32_t number = make_call(r);

    if (clears(r->call) && number == 0)
        put_protections(&r->source, r->room, filled_bytes(r->call, r->answer), 0);
    return number;
}

/* As if nothing had to be done where an edit asks for what is there already: then the carrier is as long as it was. */
static uint32_t leaves_what_it_finds(const struct request *r)
{
    static uint8_t aside[SOURCE_MOST];
    uint32_t number = make_call(r);
    size_t length = r->source.length;

    if (!clears(r->call) || number != 0 || filled_bytes(r->call, r->answer) != length)
        return number;
    memcpy(aside, r->room, length);
    put_protections(&r->source, aside, length, 1);
    if (memcmp(aside, r->source.bytes, length) == 0)
        memcpy(r->room, aside, length);
    return number;
}

static uint32_t call_with_zeros(const struct request *r, enum call call)
{
    static const uint8_t zeros[SETTINGS_MOST];
    struct request other = *r;

    if (r->call == call)
        other.body.bytes = other.settings.bytes = zeros;
    return make_call(&other);
}

static uint32_t clears_brought_protections(const struct request *r)
{
    return call_with_zeros(r, EDIT_PROTECTION);
}

static uint32_t clears_blank_protections(const struct request *r)
{
    return call_with_zeros(r, BLANK);
}

/* ---- groups that are counted wrongly */

enum counting { SMALLEST, ESCAPES_TOO, NO_SIZES, NO_KEY, NONE_AT_ALL };

struct count {
    enum counting counting;
    int has_any;
    uint64_t groups;
};

static void count_field(void *with, enum field field, uint64_t groups)
{
    struct count *count = with;

    if ((count->counting == NO_SIZES && field == FIELD_SIZE) || (count->counting == NO_KEY && field == FIELD_KEY))
        return;
    if (count->counting == ESCAPES_TOO && (field == FIELD_KEY || field == FIELD_ID))
        groups++;
    if (!count->has_any || (count->counting == SMALLEST ? groups < count->groups : groups > count->groups))
        count->groups = groups;
    count->has_any = 1;
}

static uint64_t count_wrongly(const struct slice *source, enum counting counting)
{
    static uint8_t table[(size_t)EMDF_PAYLOADS_MOST * EMDF_ROW_BYTES];
    struct count count = {counting, 0, 0};
    struct reading own;

    own.number = emdf_read(source->bytes, source->length, table, sizeof table, own.answer);
    own.rows = table;
    if (counting != NONE_AT_ALL)
        each_field(&own, count_field, &count);
    return count.groups;
}

static uint32_t call_counting(const struct request *r, enum counting counting)
{
    uint32_t number = make_call(r);

    if (r->call != VARIABLE_BITS && counts_groups(r->call, number, r->answer))
        emdf_set_word(r->answer, groups_word(r->call), count_wrongly(&r->source, counting));
    return number;
}

static uint32_t answers_smallest_groups(const struct request *r)
{
    return call_counting(r, SMALLEST);
}

static uint32_t counts_escapes(const struct request *r)
{
    return call_counting(r, ESCAPES_TOO);
}

static uint32_t leaves_sizes_out(const struct request *r)
{
    return call_counting(r, NO_SIZES);
}

static uint32_t leaves_key_out(const struct request *r)
{
    return call_counting(r, NO_KEY);
}

static uint32_t answers_no_groups(const struct request *r)
{
    return call_counting(r, NONE_AT_ALL);
}

/* The bits that say more, of which a field has one fewer than groups. */
static uint32_t counts_more_bits(const struct request *r)
{
    uint32_t number = make_call(r);

    if (r->call == VARIABLE_BITS && number == 0)
        emdf_set_word(r->answer, EMDF_GROUPS, emdf_word(r->answer, EMDF_GROUPS) - 1);
    return number;
}

/* As if a field had a group before its bits are all there. */
static uint32_t counts_refused_groups(const struct request *r)
{
    uint32_t number = make_call(r);

    if (r->call == VARIABLE_BITS && number == EMDF_END_OF_INPUT)
        emdf_set_word(r->answer, EMDF_GROUPS, 1);
    return number;
}

/* A verdict that refuses answers them, too. */
static uint32_t counts_for_refused_verdict(const struct request *r)
{
    uint32_t number = make_call(r);

    if (r->call == VERDICT && number == EMDF_PAYLOAD_COUNT)
        emdf_set_word(r->answer, EMDF_VERDICT_GROUPS, 1);
    return number;
}

/* ---- ordinals that are wrong, and places that they are found at */

/* What the row at a place gets for its ordinal. */
typedef uint64_t (*numbering)(const uint8_t *rows, size_t place, uint64_t ordinal);

static uint32_t call_numbering(const struct request *r, numbering number_anew)
{
    uint32_t number = make_call(r);
    size_t count = r->call == READ && number == 0 ? (size_t)emdf_word(r->answer, EMDF_PAYLOADS) : 0, place;

    for (place = 0; place < count; place++) {
        uint8_t *row = r->room + place * EMDF_ROW_BYTES;
        emdf_set_word(row, EMDF_ROW_ORDINAL, number_anew(r->room, place, emdf_word(row, EMDF_ROW_ORDINAL)));
    }
    return number;
}

static uint64_t one_less(const uint8_t *rows, size_t place, uint64_t ordinal)
{
    (void)rows;
    (void)place;
    return ordinal - 1;
}

static uint32_t numbers_from_0(const struct request *r)
{
    return call_numbering(r, one_less);
}

static uint64_t over_all_ids(const uint8_t *rows, size_t place, uint64_t ordinal)
{
    (void)rows;
    (void)ordinal;
    return place + 1;
}

static uint32_t numbers_over_all_ids(const struct request *r)
{
    return call_numbering(r, over_all_ids);
}

/* As if all ids with the escape were one. */
static uint64_t escaped_as_one(const uint8_t *rows, size_t place, uint64_t ordinal)
{
    uint64_t count = 1;
    size_t i;

    if (emdf_word(rows + place * EMDF_ROW_BYTES, EMDF_ROW_ID) < 31)
        return ordinal;
    for (i = 0; i < place; i++)
        count += emdf_word(rows + i * EMDF_ROW_BYTES, EMDF_ROW_ID) >= 31;
    return count;
}

static uint32_t numbers_escaped_ids_as_one(const struct request *r)
{
    return call_numbering(r, escaped_as_one);
}

/* As if nothing were counted beyond two. */
static uint64_t two_at_most(const uint8_t *rows, size_t place, uint64_t ordinal)
{
    (void)rows;
    (void)place;
    return ordinal > 2 ? 2 : ordinal;
}

static uint32_t numbers_up_to_2(const struct request *r)
{
    return call_numbering(r, two_at_most);
}

static uint32_t finds_one_too_far(const struct request *r)
{
    uint32_t number = make_call(r);

    if (r->call == FIND_PAYLOAD && number == 0)
        emdf_set_word(r->answer, EMDF_FOUND_PLACE, emdf_word(r->answer, EMDF_FOUND_PLACE) + 1);
    return number;
}

/* As if the ordinal were another one. */
static uint32_t call_with_ordinal(const struct request *r, uint64_t ordinal)
{
    struct request other = *r;

    other.ordinal = ordinal;
    return make_call(&other);
}

static uint32_t finds_from_0(const struct request *r)
{
    return call_with_ordinal(r, r->ordinal + 1);
}

static uint32_t finds_the_first_for_0(const struct request *r)
{
    return call_with_ordinal(r, r->ordinal == 0 ? 1 : r->ordinal);
}

static uint32_t finds_by_32_bits(const struct request *r)
{
    return call_with_ordinal(r, (uint32_t)r->ordinal);
}

static uint32_t finds_by_32_bits_of_id(const struct request *r)
{
    struct request other = *r;

    if (r->call == FIND_PAYLOAD)
        other.number = (uint32_t)r->number;
    return make_call(&other);
}

static uint32_t answers_16_for_24(const struct request *r)
{
    uint32_t number = make_call(r);

    return number == EMDF_NO_SUCH_ORDINAL ? EMDF_NO_SUCH_PLACE : number;
}

/* Looks for the payload before all of the carrier is read. */
static uint32_t finds_in_damaged(const struct request *r)
{
    uint32_t number = make_call(r);

    if (r->call != FIND_PAYLOAD || number != EMDF_NONZERO_PADDING)
        return number;
    memset(r->answer, 0, EMDF_FIND_ANSWER_BYTES);
    return EMDF_NO_SUCH_ORDINAL;
}

/* ---- recipes that are checked wrongly */

/* Leads along the chain as far as it is one: the record after a record, which may be the first of all, or 0. */
static size_t record_after(const struct slice *file, size_t index)
{
    size_t next = 0;

    if (file->length >= EMDF_RECIPE_HEAD_BYTES)
        next = index == 0 ? first_record(file) : record_at(file->bytes, index).next;
    return next > index && next <= records_in(file->length) ? next : 0;
}

typedef void (*record_change)(struct record *e, size_t index, size_t file_length);

/* As if the records of the chain were others. */
static uint32_t call_with_others(const struct request *r, record_change change)
{
    static uint8_t copy[SOURCE_MOST];
    struct request other = *r;
    size_t i = 0;

    if (!is_recipe(r->call))
        return make_call(r);
    memcpy(copy, r->body.bytes, r->body.length);
    other.body.bytes = copy;
    while ((i = record_after(&other.body, i)) != 0) {
        struct record e = record_at(copy, i);
        change(&e, i, other.body.length);
        put_record(copy, i, &e);
    }
    return make_call(&other);
}

static void end_at_own(struct record *e, size_t index, size_t file_length)
{
    (void)file_length;
    if (e->next == index)
        e->next = 0;
}

static uint32_t takes_own_index(const struct request *r)
{
    return call_with_others(r, end_at_own);
}

static void pass_in_32_bits(struct record *e, size_t index, size_t file_length)
{
    uint32_t end = e->offset + e->length;

    (void)index;
    if (e->kind == EMDF_RECIPE_DROP || end >= e->offset || end > file_length)
        return;
    e->offset = 0;
    if (e->kind == EMDF_RECIPE_BODY)
        e->length = 0;
}

static uint32_t adds_in_32_bits(const struct request *r)
{
    return call_with_others(r, pass_in_32_bits);
}

static void zero_byte(struct record *e, size_t index, size_t file_length)
{
    (void)index;
    (void)file_length;
    if (e->kind == EMDF_RECIPE_DROP)
        e->zero = 0;
}

static uint32_t takes_any_byte_of_drop(const struct request *r)
{
    return call_with_others(r, zero_byte);
}

static void ask_of_drop(struct record *e, size_t index, size_t file_length)
{
    (void)index;
    if (e->kind == EMDF_RECIPE_DROP && (uint64_t)e->offset + e->length > file_length)
        e->kind = 0;
}

static uint32_t asks_data_of_drop(const struct request *r)
{
    return call_with_others(r, ask_of_drop);
}

static void end_here(struct record *e, size_t index, size_t file_length)
{
    (void)index;
    (void)file_length;
    e->next = 0;
}

static uint32_t makes_first_edit_only(const struct request *r)
{
    return call_with_others(r, end_here);
}

static int is_listed(const struct record *e)
{
    return e->kind >= EMDF_RECIPE_BODY && e->kind <= EMDF_RECIPE_KEY;
}

/* A record off the chain is asked about, too. */
static uint32_t asks_every_record(const struct request *r)
{
    size_t i;

    for (i = 1; is_recipe(r->call) && i <= records_in(r->body.length) && i <= number_of(r->body.bytes + 2, 2); i++) {
        struct record e = record_at(r->body.bytes, i);
        if (!is_listed(&e)) {
            memset(r->answer, 0, FACTS[r->call].answer);
            return EMDF_INVALID_RECORD;
        }
    }
    return make_call(r);
}

/* The record that breaks the chain is the last one to which it leads. */
static uint32_t asks_kind_before_next(const struct request *r)
{
    uint32_t number = make_call(r);
    size_t i = 0;

    while (is_recipe(r->call) && number == EMDF_BROKEN_CHAIN && (i = record_after(&r->body, i)) != 0) {
        struct record e = record_at(r->body.bytes, i);
        if (!is_listed(&e))
            number = EMDF_INVALID_RECORD;
    }
    return number;
}

static uint32_t reads_past_recipe(const struct request *r)
{
    if (is_recipe(r->call))
        sink = r->body.bytes[r->body.length];
    return make_call(r);
}

/* ---- recipes that are run wrongly */

static uint32_t writes_first_of_refused(const struct request *r)
{
    uint32_t number = make_call(r);

    if (r->call == RUN_RECIPE && number != 0 && r->room_length > 0)
        r->room[0] ^= 1;
    return number;
}

static uint32_t writes_second_of_refused(const struct request *r)
{
    uint32_t number = make_call(r);

    if (r->call == RUN_RECIPE && number != 0 && r->second_length > 0)
        r->second[r->second_length - 1] ^= 1;
    return number;
}

static int is_held_in(const struct request *r, uint32_t number, uint64_t holder)
{
    return r->call == RUN_RECIPE && number == 0 && emdf_word(r->answer, EMDF_HOLDER) == holder;
}

static uint32_t writes_past_held(const struct request *r)
{
    uint32_t number = make_call(r);
    size_t held = is_held_in(r, number, EMDF_IN_SECOND) ? (size_t)emdf_word(r->answer, EMDF_HELD_LENGTH) : r->second_length;

    if (held < r->second_length)
        r->second[held] ^= 1;
    return number;
}

/* The buffer that was left last is no longer the carrier's. */
static uint32_t clears_other_buffer(const struct request *r)
{
    uint32_t number = make_call(r);

    if (is_held_in(r, number, EMDF_IN_SECOND))
        r->room[0] = 0;
    return number;
}

static uint32_t forgets_source_length(const struct request *r)
{
    uint32_t number = make_call(r);

    if (is_held_in(r, number, EMDF_IN_SOURCE))
        emdf_set_word(r->answer, EMDF_HELD_LENGTH, 0);
    return number;
}

static uint32_t counts_one_refusal(const struct request *r)
{
    uint32_t number = make_call(r);

    if (r->call == RUN_RECIPE && number == 0 && emdf_word(r->answer, EMDF_REFUSED_EDITS) > 1)
        emdf_set_word(r->answer, EMDF_REFUSED_EDITS, 1);
    return number;
}

static uint32_t leaves_protections_in_recipe(const struct request *r)
{
    uint32_t number = make_call(r);

    if (is_held_in(r, number, EMDF_IN_SECOND))
        put_protections(&r->source, r->second, (size_t)emdf_word(r->answer, EMDF_HELD_LENGTH), 1);
    return number;
}

/* What is done after an edit, where it isn't what should be. */
enum rule { SWITCH_ALWAYS, START_AGAIN, STAY_IN_FIRST };

static uint32_t run_by(enum rule rule, const struct request *r)
{
    static uint8_t aside[SOURCE_MOST];
    const struct buffer buffers[2] = {{r->room, r->room_length}, {r->second, r->second_length}};
    uint64_t words[3] = {EMDF_IN_SOURCE, r->source.length, 0};
    struct slice held = r->source, source;
    size_t edits, i = 0, to = 0;

    if (r->call != RUN_RECIPE || judge_recipe(&r->body, &edits) != 0)
        return make_call(r);
    while ((i = record_after(&r->body, i)) != 0) {
        struct record e = record_at(r->body.bytes, i);
        uint8_t answer[EMDF_EDIT_ANSWER_BYTES];
        int is_accepted;

        /* The buffer to write may be the one that holds the carrier. */
        memcpy(aside, held.bytes, held.length);
        source.bytes = aside;
        source.length = held.length;
        is_accepted = single_edit(&r->body, &e, &source, &buffers[to], answer) == EMDF_ACCEPTED;
        if (is_accepted) {
            words[EMDF_HOLDER] = to == 0 ? EMDF_IN_FIRST : EMDF_IN_SECOND;
            words[EMDF_HELD_LENGTH] = emdf_word(answer, EMDF_WRITTEN_LENGTH);
            held.bytes = buffers[to].bytes;
            held.length = (size_t)words[EMDF_HELD_LENGTH];
        } else {
            words[EMDF_REFUSED_EDITS]++;
        }
        if (rule == START_AGAIN)
            held = r->source;
        if (rule == SWITCH_ALWAYS || (rule == START_AGAIN && is_accepted))
            to = 1 - to;
    }
    for (i = 0; i < 3; i++)
        emdf_set_word(r->answer, i, words[i]);
    return EMDF_ACCEPTED;
}

static uint32_t switches_after_refusal(const struct request *r)
{
    return run_by(SWITCH_ALWAYS, r);
}

static uint32_t starts_again(const struct request *r)
{
    return run_by(START_AGAIN, r);
}

static uint32_t stays_in_first(const struct request *r)
{
    return run_by(STAY_IN_FIRST, r);
}

const struct fault FAULTS[] = {
    {"writes a byte past the destination", writes_past_destination},
    {"writes a byte before the destination", writes_before_destination},
    {"writes a byte past the carrier", writes_past_carrier},
    {"writes the destination of a refused edit", writes_on_refusal},
    {"writes the table of a refused reading", writes_row_on_refusal},
    {"writes a row too many", writes_row_too_many},
    {"moves a body that starts on a byte", moves_aligned_body},
    {"reads a byte past the source", reads_past_source},
    {"reads a byte before the source", reads_before_source},
    {"reads a byte past the body", reads_past_body},
    {"reads settings of another length", reads_past_settings},
    {"writes to the source", writes_source},
    {"writes a byte past the answer", writes_past_answer},
    {"leaves a byte of the answer", leaves_answer_byte},
    {"answers 19 without measuring", answers_19_unmeasured},
    {"answers 13 without measuring", answers_13_unread},
    {"returns a number that is none", returns_unknown_number},
    {"answers 1 for 21", answers_1_for_21},
    {"returns another refusal", returns_other_refusal},
    {"answers by an earlier call", keeps_state},
    {"copies the source for each edit", copies_source},
    {"flips a bit in an edit of settings", flips_body_bit},
    {"turns a body around", turns_body},
    {"leaves the protections as they were", leaves_protections},
    {"leaves the secondary protection as it was", leaves_secondary_protection},
    {"leaves the protections where nothing else changes", leaves_what_it_finds},
    {"clears the protections that an edit brings", clears_brought_protections},
    {"clears the protections of a blank carrier", clears_blank_protections},
    {"answers the smallest number of groups", answers_smallest_groups},
    {"counts an escape as a group", counts_escapes},
    {"leaves the groups of sizes out", leaves_sizes_out},
    {"leaves the groups of the key id out", leaves_key_out},
    {"answers no groups", answers_no_groups},
    {"counts the bits that say more", counts_more_bits},
    {"counts the groups of a refused field", counts_refused_groups},
    {"counts the groups for a refused verdict", counts_for_refused_verdict},
    {"numbers payloads of an id from 0", numbers_from_0},
    {"numbers payloads over all ids", numbers_over_all_ids},
    {"numbers all escaped ids as one", numbers_escaped_ids_as_one},
    {"numbers payloads up to 2", numbers_up_to_2},
    {"finds the place after a payload's", finds_one_too_far},
    {"finds payloads from ordinal 0 on", finds_from_0},
    {"finds the first payload for ordinal 0", finds_the_first_for_0},
    {"finds payloads by 32 bits of the ordinal", finds_by_32_bits},
    {"finds payloads by 32 bits of the id", finds_by_32_bits_of_id},
    {"answers 16 for 24", answers_16_for_24},
    {"answers 24 for a carrier that does not read", finds_in_damaged},
    {"does not end", ends_never},
    {"takes a next index that is the record's own", takes_own_index},
    {"adds offset and length in 32 bits", adds_in_32_bits},
    {"takes a drop whose zero byte is not zero", takes_any_byte_of_drop},
    {"asks for the data of a drop", asks_data_of_drop},
    {"makes the first edit of a recipe only", makes_first_edit_only},
    {"asks about records off the chain", asks_every_record},
    {"asks for a record's kind before its next index", asks_kind_before_next},
    {"reads a byte past the recipe", reads_past_recipe},
    {"writes the first buffer of a refused recipe", writes_first_of_refused},
    {"writes the second buffer of a refused recipe", writes_second_of_refused},
    {"writes a byte past the carrier in the second buffer", writes_past_held},
    {"writes to the buffer that an edit started from", clears_other_buffer},
    {"answers no length for the source", forgets_source_length},
    {"counts no more than one refused edit", counts_one_refusal},
    {"leaves the protections with the edits of a recipe", leaves_protections_in_recipe},
    {"switches buffers after a refused edit", switches_after_refusal},
    {"starts each edit of a recipe from the source", starts_again},
    {"keeps to the first buffer", stays_in_first},
};

const unsigned FAULT_COUNT = sizeof FAULTS / sizeof FAULTS[0];

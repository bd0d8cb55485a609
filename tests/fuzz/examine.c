#include "examine.h"

#include <stdio.h>
#include <stdlib.h>
#include <string.h>

#include "groups_model.h"
#include "lent.h"
#include "ordinals_model.h"
#include "recipe_model.h"

enum {
    ROOM_MOST = EMDF_PAYLOADS_MOST * EMDF_ROW_BYTES + 1024,
    BUFFER_MOST = SOURCE_MOST + 1024, /* of a run's two */
    FIGURES_BYTES = 16 /* of a refusal's two */
};

struct outcome {
    uint32_t number;
    uint8_t answer[ANSWER_MOST];
    size_t filled, second_filled;
    const uint8_t *bytes; /* what it filled the room with, and then the second one */
};

uint32_t (*library_call)(const struct request *) = make_call;
uint64_t inputs_run, calls_made;
uint32_t outcomes_seen[CALLS];
const uint8_t *edited;
size_t edited_length;
const struct input *present_input;
const char *failure_path;

static struct shown source_memory, body_memory, settings_memory;
static struct filled rooms[2], seconds[2], answers[2];
static uint8_t *kept[2], *rows, *edited_rows;
static uint8_t body[BODY_MOST], old_body[BODY_MOST], settings[SETTINGS_MOST];
static uint8_t single_buffers[2][BUFFER_MOST];
static const struct request *present_request;
static size_t present_room;
static int is_new;

/* Two fillings that differ in every byte: what a call leaves unwritten differs between its two runs. */
void prepare_memory(void)
{
    int side;

    source_memory = shown_memory(SOURCE_MOST);
    body_memory = shown_memory(BODY_MOST);
    settings_memory = shown_memory(SETTINGS_MOST);
    for (side = AT_END; side <= AT_START; side++) {
        rooms[side] = filled_memory(ROOM_MOST, side == AT_END ? 0 : 255);
        seconds[side] = filled_memory(BUFFER_MOST, side == AT_END ? 0x3c : 0xc3);
        answers[side] = filled_memory(ANSWER_MOST, side == AT_END ? 0 : 255);
        kept[side] = must_have(malloc(ROOM_MOST));
    }
    rows = must_have(malloc(ROOM_MOST));
    edited_rows = must_have(malloc(ROOM_MOST));
}

/* ---- failures */

static void print_hex(const uint8_t *bytes, size_t length)
{
    size_t i;

    for (i = 0; i < length; i++)
        printf("%02x", bytes[i]);
    printf("\n");
}

static void print_request(const struct request *r)
{
    printf("  call      %s\n", FACTS[r->call].name);
    printf("  source    %zu bytes\n", r->source.length);
    printf("  position  %zu, end %zu, count %zu, width %u, limit %u\n", r->position, r->end, r->count, (unsigned)r->width,
           (unsigned)r->limit);
    printf("  place     %zu, number %llu, ordinal %llu, profile %lu\n", r->place, (unsigned long long)r->number,
           (unsigned long long)r->ordinal, (unsigned long)r->profile);
    printf("  body      %zu bytes (or recipe), settings %zu bytes\n", r->body.length, r->settings.length);
    printf("  room      %zu bytes, second %zu bytes\n", present_room, r->second_length);
}

void failed(const char *what)
{
    FILE *file = failure_path != NULL ? fopen(failure_path, "wb") : NULL;

    printf("FAILED: %s (after %llu inputs)\n", what, (unsigned long long)inputs_run);
    if (present_request != NULL)
        print_request(present_request);
    if (present_input != NULL) {
        printf("  input     %zu bytes: ", present_input->length);
        print_hex(present_input->bytes, present_input->length);
        if (file != NULL && fwrite(present_input->bytes, 1, present_input->length, file) == present_input->length &&
            fclose(file) == 0)
            printf("  kept in   %s (--replay runs it again)\n", failure_path);
    }
    printf("fuzz: %llu inputs, %llu calls, 1 failure\n", (unsigned long long)inputs_run, (unsigned long long)calls_made);
    fflush(stdout);
    _Exit(1);
}

/* ---- one call */

/* How much of what was lent the call may have written. Of a run's two buffers that is all: single edits tell which bytes. */
static void measure_filled(const struct request *r, struct outcome *o)
{
    o->filled = o->second_filled = 0;
    if (o->number != 0)
        return;
    if (r->call == RUN_RECIPE) {
        o->filled = r->room_length;
        o->second_filled = r->second_length;
    } else if (FACTS[r->call].rooms > 0) {
        o->filled = filled_bytes(r->call, r->answer);
    }
}

static void judge_call(const struct request *r, enum side side, struct outcome *o)
{
    size_t answer = FACTS[r->call].answer;

    if (o->number > 31 || !(FACTS[r->call].numbers >> o->number & 1))
        failed("a number that is not one of the call's");
    if (!is_unchanged(&answers[side], r->answer, answer, answer))
        failed("a byte beside the answer changed");
    measure_filled(r, o);
    if (o->filled > r->room_length)
        failed("an answer of more bytes than were lent");
    if (!is_unchanged(&rooms[side], r->room, r->room_length, o->filled) ||
        !is_unchanged(&seconds[side], r->second, r->second_length, o->second_filled))
        failed(o->number != 0 ? "a refusal changed what was lent" : "a byte changed that the call has not to write");
}

/* A recipe that lies in the source is lent there. */
static const uint8_t *show_body(const struct request *asked, const uint8_t *source, enum side side)
{
    uintptr_t from = (uintptr_t)asked->source.bytes, at = (uintptr_t)asked->body.bytes;

    if (at >= from && at + asked->body.length <= from + asked->source.length)
        return source + (at - from);
    return show(&body_memory, asked->body.bytes, asked->body.length, side);
}

static struct outcome perform(const struct request *asked, size_t room, enum side side, uint8_t *copy)
{
    struct request r = *asked;
    struct outcome o;

    r.source.bytes = show(&source_memory, asked->source.bytes, asked->source.length, side);
    r.body.bytes = show_body(asked, r.source.bytes, side);
    r.settings.bytes = show(&settings_memory, asked->settings.bytes, asked->settings.length, side);
    r.room = lend(&rooms[side], room, side);
    r.room_length = room;
    r.second = lend(&seconds[side], r.second_length, side);
    r.answer = lend(&answers[side], FACTS[r.call].answer, side);
    present_request = &r;
    present_room = room;
    o.number = library_call(&r);
    calls_made++;
    judge_call(&r, side, &o);
    memset(o.answer, 0, sizeof o.answer);
    memcpy(o.answer, r.answer, FACTS[r.call].answer);
    memcpy(copy, r.room, o.filled);
    memcpy(copy + o.filled, r.second, o.second_filled);
    o.bytes = copy;
    refill(&answers[side], r.answer, FACTS[r.call].answer);
    refill(&rooms[side], r.room, o.filled);
    refill(&seconds[side], r.second, o.second_filled);
    present_request = asked;
    return o;
}

/* Number and answer are the same in both runs. */
static void compare_answers(const struct request *r, const struct outcome *one, const struct outcome *other)
{
    if (one->number != other->number)
        failed("two runs return two numbers");
    if (memcmp(one->answer, other->answer, sizeof one->answer) != 0)
        failed("two runs answer differently, or a byte of the answer was not written");
    if (!(outcomes_seen[r->call] >> one->number & 1)) {
        outcomes_seen[r->call] |= UINT32_C(1) << one->number;
        is_new = 1;
    }
}

/* The call with its slices against an unreadable page on either side: the same has to come out. */
static struct outcome perform_twice(const struct request *r, size_t room)
{
    struct outcome one = perform(r, room, AT_END, kept[AT_END]);
    struct outcome other = perform(r, room, AT_START, kept[AT_START]);

    compare_answers(r, &one, &other);
    if (memcmp(one.bytes, other.bytes, one.filled) != 0)
        failed("two runs fill the room differently, or left a byte of it unwritten");
    return one;
}

/* First without room, which measures it; then with the room that is chosen. */
static struct outcome perform_in_room(const struct request *r, const struct input *in)
{
    struct outcome bare = perform_twice(r, 0), o;
    int is_short = bare.number == short_number(r->call);
    size_t needed = is_short ? needed_bytes(r->call, bare.answer) : 0, room;

    if (needed > ROOM_MOST - 512 || (is_short && needed == 0))
        failed("more room is asked for than any carrier needs");
    room = in != NULL ? room_of(in, needed) : needed;
    o = perform_twice(r, room);
    /* A table's last part of a row counts for nothing, so a byte too few is a row too few. */
    if (is_short && room >= needed ? o.number != 0 : o.number != bare.number)
        failed("the room's length decides wrongly");
    if (o.number != 0 ? memcmp(o.answer, bare.answer, sizeof o.answer) != 0
                      : is_short && r->call != READ && r->call != MOVE_BODY && emdf_word(o.answer, 0) != needed)
        failed("the answers with and without room disagree");
    return o;
}

/* ---- groups */

/* What is counted in each answer that has a number of groups; it is 0 in those that refuse or have another class. A field is as
   long as its groups. */
static void check_groups(const struct request *r, const struct outcome *o, const struct reading *own)
{
    uint64_t groups = emdf_word(o->answer, groups_word(r->call)), wanted = 0;
    int is_counted = counts_groups(r->call, o->number, o->answer);

    if (is_counted)
        wanted = r->call == VARIABLE_BITS ? groups_of(r->width, emdf_word(o->answer, EMDF_VALUE)) : largest_groups(own);
    if (groups != wanted)
        failed("another number of groups than the values have");
    if (is_counted && r->call == VARIABLE_BITS && emdf_word(o->answer, EMDF_POSITION) != r->position + (r->width + 1) * groups)
        failed("another number of groups than were read");
}

/* ---- ordinals */

static void check_ordinal(void *with, size_t place, uint64_t ordinal)
{
    const struct reading *own = with;

    if (emdf_word(row_of(own, place), EMDF_ROW_ORDINAL) != ordinal)
        failed("a row has another ordinal than its id's count");
}

static void check_found(const struct request *r, const struct outcome *o, const struct reading *own)
{
    size_t place = place_of_ordinal(own, r->number, r->ordinal);
    int is_there = own->number == 0 && place < emdf_word(own->answer, EMDF_PAYLOADS);

    if (own->number == 0 && o->number != (is_there ? EMDF_ACCEPTED : EMDF_NO_SUCH_ORDINAL))
        failed("24 does not tell an id and ordinal that no payload has");
    if (own->number == 0 && (emdf_word(o->answer, EMDF_FOUND_PLACE) != (is_there ? place : 0) || emdf_word(o->answer, 1) != 0))
        failed("another place than that of the id and ordinal");
}

/* ---- readings */

static void read_carrier(const uint8_t *bytes, size_t length, struct reading *own, uint8_t *table)
{
    struct request r;
    struct outcome o;

    memset(&r, 0, sizeof r);
    r.call = READ;
    r.source.bytes = bytes;
    r.source.length = length;
    o = perform_in_room(&r, NULL);
    own->number = o.number;
    memcpy(own->answer, o.answer, sizeof own->answer);
    memcpy(table, o.bytes, o.filled);
    own->rows = table;
    check_groups(&r, &o, own);
    each_ordinal(own, check_ordinal, own);
}

static void check_class(const struct outcome *o, const struct reading *own, const struct slice *s)
{
    uint64_t class = emdf_word(o->answer, EMDF_CLASS), n = emdf_word(own->answer, EMDF_BYTES_CONSUMED);
    size_t length = s->length;
    int is_right;

    if (class == EMDF_PARSED)
        is_right = own->number == 0 && n == length && memcmp(o->answer + 8, own->answer, EMDF_READ_ANSWER_BYTES) == 0;
    else if (class == EMDF_TRAILING_DATA)
        is_right = own->number == 0 && n < length && emdf_word(o->answer, 1) == n && emdf_word(o->answer, 2) == length;
    else if (class == EMDF_NON_EMDF)
        is_right = length < 2 || s->bytes[0] != 0x58 || s->bytes[1] != 0x38;
    else
        is_right = o->number == own->number && memcmp(o->answer + 8, own->answer, FIGURES_BYTES) == 0;
    if (!is_right || (class != EMDF_MALFORMED && o->number != 0))
        failed("the class disagrees with the reading");
}

static int is_of_reading(uint32_t number)
{
    return (number >= EMDF_TRUNCATED_CONTAINER && number <= EMDF_NONZERO_PADDING) || number == EMDF_TRUNCATED_HEADER;
}

/* Every call on a carrier begins with the same reading. */
static void check_reading(const struct request *r, const struct outcome *o, const struct reading *own)
{
    int has_more = own->number == 0 && emdf_word(own->answer, EMDF_BYTES_CONSUMED) < r->source.length;

    if ((own->number == EMDF_TRUNCATED_HEADER) != (r->source.length < 4))
        failed("21 does not tell fewer than 4 bytes");
    if (r->call == CLASSIFY)
        check_class(o, own, &r->source);
    else if (own->number != 0 && (o->number != own->number || memcmp(o->answer, own->answer, FIGURES_BYTES) != 0))
        failed("the refusal is not the reading's");
    else if (own->number == 0 && is_of_reading(o->number))
        failed("a reading's refusal of a carrier that reads");
    else if (is_edit(r->call) && own->number == 0 && has_more != (o->number == EMDF_TRAILING_BYTES))
        failed("20 does not tell bytes after the carrier");
}

/* The carrier that a call left, until the next input. */
static void keep_edited(const uint8_t *bytes, size_t length)
{
    static uint8_t carrier[SOURCE_MOST];

    memcpy(carrier, bytes, length);
    edited = carrier;
    edited_length = length;
}

/* ---- accepted edits */

static uint64_t expected_count(const struct request *r, const struct reading *own)
{
    if (r->call == BLANK)
        return 0;
    return emdf_word(own->answer, EMDF_PAYLOADS) + (r->call == EDIT_INSERT) - (r->call == EDIT_DROP);
}

static int are_equal(const struct slice *a, const struct slice *b)
{
    return a->length == b->length && memcmp(a->bytes, b->bytes, a->length) == 0;
}

static struct slice protection(const struct reading *own, size_t word)
{
    struct slice s;

    s.length = (size_t)emdf_word(own->answer, word);
    s.bytes = own->answer + 8 * (word + 1) + EMDF_PROTECTION_BYTES - s.length;
    return s;
}

static int brings_protections(enum call call)
{
    return call == EDIT_PROTECTION || call == BLANK;
}

static int has_protections(const struct request *r, const struct reading *left)
{
    struct slice primary = protection(left, EMDF_PRIMARY_LENGTH), secondary = protection(left, EMDF_SECONDARY_LENGTH);

    return are_equal(&r->body, &primary) && are_equal(&r->settings, &secondary);
}

static int has_zeros_for_protections(const struct reading *left)
{
    static const uint8_t zeros[EMDF_PROTECTION_BYTES];
    struct slice primary = protection(left, EMDF_PRIMARY_LENGTH), secondary = protection(left, EMDF_SECONDARY_LENGTH);

    return memcmp(primary.bytes, zeros, primary.length) == 0 && memcmp(secondary.bytes, zeros, secondary.length) == 0;
}

/* Zeros as long as the source's. */
static int are_cleared(const struct reading *own, const struct reading *left)
{
    return emdf_word(left->answer, EMDF_PRIMARY_LENGTH) == emdf_word(own->answer, EMDF_PRIMARY_LENGTH) &&
           emdf_word(left->answer, EMDF_SECONDARY_LENGTH) == emdf_word(own->answer, EMDF_SECONDARY_LENGTH) &&
           has_zeros_for_protections(left);
}

/* Whether the payload that was put in or changed is as asked for. */
static int has_payload(const struct request *r, const struct reading *left)
{
    const uint8_t *row = row_of(left, r->place);
    struct slice found;

    if (row == NULL || (r->call == EDIT_INSERT && emdf_word(row, EMDF_ROW_ID) != r->number))
        return 0;
    found.bytes = settings_of_row(row);
    found.length = EMDF_SETTINGS_BYTES;
    if (r->call != EDIT_BODY && !are_equal(&r->settings, &found))
        return 0;
    found.length = body_of_row(row, edited, old_body);
    found.bytes = old_body;
    return r->call == EDIT_SETTINGS || are_equal(&r->body, &found);
}

static int has_what_was_asked(const struct request *r, const struct reading *left)
{
    if (brings_protections(r->call))
        return has_protections(r, left);
    if (r->call == EDIT_BODY || r->call == EDIT_SETTINGS || r->call == EDIT_INSERT)
        return has_payload(r, left);
    return 1;
}

static void check_reads_back(const struct request *r, const struct outcome *o, const struct reading *own)
{
    struct reading left;
    int has_key = r->call == EDIT_KEY || r->call == BLANK;

    read_carrier(edited, edited_length, &left, edited_rows);
    present_request = r;
    if (left.number != 0 || emdf_word(left.answer, EMDF_BYTES_CONSUMED) != emdf_word(o->answer, EMDF_WRITTEN_LENGTH))
        failed("an edited carrier does not read back");
    if (emdf_word(left.answer, EMDF_PAYLOADS) != expected_count(r, own))
        failed("an edited carrier has another count of payloads");
    if (emdf_word(left.answer, EMDF_KEY_ID) != (has_key ? r->number : emdf_word(own->answer, EMDF_KEY_ID)))
        failed("an edited carrier has another key id");
    if (!has_what_was_asked(r, &left))
        failed("an edited carrier has not what was asked for");
    if (!brings_protections(r->call) && !are_cleared(own, &left))
        failed("an edited carrier has not zeros for its protections");
}

/* The edit that has to give the source back, but for protections that were cleared. */
static struct request undoing(const struct request *r, const struct reading *own)
{
    struct request back = *r;
    const uint8_t *row = row_of(own, r->place);

    back.source.bytes = edited;
    back.source.length = edited_length;
    back.call = r->call == EDIT_INSERT ? EDIT_DROP : r->call == EDIT_DROP ? EDIT_INSERT : r->call;
    back.number = emdf_word(own->answer, EMDF_KEY_ID);
    if (row != NULL) {
        if (r->call == EDIT_DROP)
            back.number = emdf_word(row, EMDF_ROW_ID);
        back.settings.bytes = settings_of_row(row);
        back.settings.length = EMDF_SETTINGS_BYTES;
        back.body.bytes = old_body;
        back.body.length = body_of_row(row, r->source.bytes, old_body);
    }
    if (r->call == EDIT_PROTECTION) {
        back.body = protection(own, EMDF_PRIMARY_LENGTH);
        back.settings = protection(own, EMDF_SECONDARY_LENGTH);
    }
    return back;
}

/* Whether the edit asks for what is there already. */
static int asks_the_same(const struct request *r, const struct request *back)
{
    switch (r->call) {
    case EDIT_BODY:
        return are_equal(&r->body, &back->body);
    case EDIT_SETTINGS:
        return are_equal(&r->settings, &back->settings);
    case EDIT_KEY:
        return r->number == back->number;
    case EDIT_PROTECTION:
        return are_equal(&r->body, &back->body) && are_equal(&r->settings, &back->settings);
    default:
        return 0;
    }
}

/* The bits of a key id: 3, and from 7 on a variable field of groups of 4. */
static size_t key_bits(uint64_t key)
{
    size_t bits = 3;

    if (key < 7)
        return bits;
    for (key -= 7; key >= 8; key = key / 8 - 1)
        bits += 4;
    return bits + 4;
}

/* The bit at which a carrier's protections start: after the last payload, the end mark and the codes. */
static size_t protection_bit(const struct reading *own)
{
    size_t count = (size_t)emdf_word(own->answer, EMDF_PAYLOADS);
    size_t end = 34 + key_bits(emdf_word(own->answer, EMDF_KEY_ID));

    if (count > 0)
        end = (size_t)emdf_word(row_of(own, count - 1), EMDF_ROW_BODY_END_BIT);
    return end + 5 + 4;
}

/* The source with zeros for its protections; its padding is zeros as it is. */
static const uint8_t *cleared(const struct slice *source, const struct reading *own)
{
    static uint8_t carrier[SOURCE_MOST];
    size_t from = protection_bit(own), first = from / 8;

    memset(carrier, 0, source->length);
    memcpy(carrier, source->bytes, first);
    if (from % 8 != 0)
        carrier[first] = source->bytes[first] & (uint8_t)(0xff00 >> from % 8);
    return carrier;
}

static void check_undone(const struct request *r, const struct reading *own)
{
    struct request back = undoing(r, own);
    const uint8_t *wanted = r->call == EDIT_PROTECTION ? r->source.bytes : cleared(&r->source, own);
    int is_as_wanted = memcmp(r->source.bytes, wanted, r->source.length) == 0;
    struct outcome o;

    if ((asks_the_same(r, &back) && is_as_wanted) != are_equal(&r->source, &back.source))
        failed("an edit changes the carrier other than it asks for a change");
    o = perform(&back, r->source.length, AT_END, kept[AT_START]);
    present_request = r;
    if (o.number != 0 || o.filled != r->source.length || memcmp(o.bytes, wanted, o.filled) != 0)
        failed("an edit undone does not give the source back, with zeros for protections");
}

static void check_edit(const struct request *r, const struct outcome *o, const struct reading *own)
{
    if (o->filled < 4 || o->filled > EMDF_CARRIER_MOST)
        failed("a carrier of an impossible length");
    keep_edited(o->bytes, o->filled);
    check_reads_back(r, o, own);
    if (r->call != BLANK)
        check_undone(r, own);
}

/* ---- recipes */

/* 22 and 23 have no figures, so the answer to either is zeros. */
static void check_recipe_answer(const struct outcome *o, uint32_t number, const uint64_t words[3])
{
    size_t i;

    if (o->number != number)
        failed("a recipe is not judged as its chain is");
    for (i = 0; i < 3; i++)
        if (emdf_word(o->answer, i) != (number == 0 ? words[i] : 0))
            failed("a recipe has another answer");
}

static void examine_check(const struct request *r)
{
    size_t edits;
    uint32_t number = judge_recipe(&r->body, &edits);
    struct outcome o = perform_twice(r, 0);
    uint64_t words[3] = {edits, 0, 0};

    check_recipe_answer(&o, number, words);
}

/* Every byte of both buffers is as the edits leave it that are made one by one, in buffers of the same bytes. */
static void check_buffers(const struct request *r, const struct outcome *o, enum side side)
{
    struct buffer buffers[2] = {{single_buffers[0], r->room_length}, {single_buffers[1], r->second_length}};
    struct ran ran;

    memcpy(buffers[0].bytes, lend(&rooms[side], r->room_length, side), r->room_length);
    memcpy(buffers[1].bytes, lend(&seconds[side], r->second_length, side), r->second_length);
    ran = run_singly(&r->source, &r->body, buffers);
    check_recipe_answer(o, EMDF_ACCEPTED, ran.words);
    if (memcmp(o->bytes, buffers[0].bytes, r->room_length) != 0)
        failed("the first buffer is not as single edits leave it");
    if (memcmp(o->bytes + o->filled, buffers[1].bytes, r->second_length) != 0)
        failed("the second buffer is not as single edits leave it");
}

static void check_held(const struct request *r, const struct outcome *o)
{
    uint64_t holder = emdf_word(o->answer, EMDF_HOLDER);
    struct reading left;

    if (holder == EMDF_IN_SOURCE)
        return;
    keep_edited(holder == EMDF_IN_FIRST ? o->bytes : o->bytes + o->filled, (size_t)emdf_word(o->answer, EMDF_HELD_LENGTH));
    read_carrier(edited, edited_length, &left, edited_rows);
    present_request = r;
    if (left.number != 0 || emdf_word(left.answer, EMDF_BYTES_CONSUMED) != edited_length)
        failed("a recipe's carrier does not read back");
    if (!has_zeros_for_protections(&left))
        failed("a recipe's carrier has not zeros for its protections");
}

/* The buffers that the input asks for: around the longest that the edits write to each, where both have room enough. */
static void choose_buffers(struct request *r, const struct input *in, uint32_t number)
{
    const struct buffer enough[2] = {{single_buffers[0], EMDF_CARRIER_MOST}, {single_buffers[1], EMDF_CARRIER_MOST}};
    struct ran ran = {{0, 0, 0}, {r->source.length, r->source.length}};

    if (number == EMDF_ACCEPTED)
        ran = run_singly(&r->source, &r->body, enough);
    r->room_length = room_of(in, ran.longest[0]);
    r->second_length = second_room_of(in, ran.longest[1]);
}

static void examine_run(struct request *r, const struct input *in)
{
    static const uint64_t none[3] = {0, 0, 0};
    size_t edits;
    uint32_t number = judge_recipe(&r->body, &edits);
    struct outcome one, other;

    choose_buffers(r, in, number);
    one = perform(r, r->room_length, AT_END, kept[AT_END]);
    other = perform(r, r->room_length, AT_START, kept[AT_START]);
    compare_answers(r, &one, &other);
    if (one.number != EMDF_ACCEPTED || number != EMDF_ACCEPTED) {
        check_recipe_answer(&one, number, none);
        return;
    }
    check_buffers(r, &one, AT_END);
    check_buffers(r, &other, AT_START);
    calls_made += 3 * edits;
    check_held(r, &one);
}

/* ---- every call */

static void examine_call(const struct request *r, const struct input *in, const struct reading *own)
{
    struct outcome o = FACTS[r->call].rooms > 0 ? perform_in_room(r, in) : perform_twice(r, 0);

    if (FACTS[r->call].has_carrier)
        check_reading(r, &o, own);
    if (has_groups(r->call))
        check_groups(r, &o, own);
    if (r->call == FIND_PAYLOAD)
        check_found(r, &o, own);
    if (is_edit(r->call) && o.number == 0)
        check_edit(r, &o, own);
}

int examine(const struct input *in)
{
    struct reading own = UNREAD;
    struct request r;

    present_input = in;
    present_request = NULL;
    inputs_run++;
    is_new = 0;
    edited_length = 0;
    if (FACTS[in->bytes[AT_CALL] % CALLS].has_carrier)
        read_carrier(in->bytes + HEAD, in->length - HEAD, &own, rows);
    r = request_of(in, &own, body, settings);
    present_request = &r;
    if (r.call == CHECK_RECIPE)
        examine_check(&r);
    else if (r.call == RUN_RECIPE)
        examine_run(&r, in);
    else
        examine_call(&r, in, &own);
    present_request = NULL;
    return is_new;
}

#include "input.h"

#include <string.h>

#include "recipes.h"
#include "seeds.h"

const struct reading UNREAD = {EMDF_TRUNCATED_HEADER, {0}, NULL};

static uint64_t number_at(const struct input *in, size_t at, size_t bytes)
{
    return number_of(in->bytes + at, bytes);
}

const uint8_t *row_of(const struct reading *own, size_t place)
{
    if (own->number != 0 || place >= emdf_word(own->answer, EMDF_PAYLOADS))
        return NULL;
    return own->rows + place * EMDF_ROW_BYTES;
}

const uint8_t *settings_of_row(const uint8_t *row)
{
    return row + 8 * EMDF_ROW_HAS_SAMPLE_OFFSET;
}

size_t body_of_row(const uint8_t *row, const uint8_t *source, uint8_t *body)
{
    size_t start = (size_t)emdf_word(row, EMDF_ROW_BODY_START_BIT);
    size_t length = ((size_t)emdf_word(row, EMDF_ROW_BODY_END_BIT) - start) / 8, i;
    unsigned shift = start % 8;

    for (i = 0; i < length; i++) {
        const uint8_t *two = source + start / 8 + i;
        body[i] = (uint8_t)(two[0] << shift | (shift != 0 ? two[1] >> (8 - shift) : 0));
    }
    return length;
}

/* Presences by the scope's settings rule, so that most settings are writable. */
static void ruled_settings(const struct input *in, uint8_t *s)
{
    uint8_t present = in->bytes[AT_PRESENT], values = in->bytes[AT_VALUES];
    int has_offset = present & 1, discard = values >> 1 & 1;
    int has_aligned = !discard && !has_offset, is_aligned = has_aligned && (values & 4);
    int has_last = !discard && (has_offset || is_aligned);

    put_setting(s, EMDF_SETTINGS_HAS_SAMPLE_OFFSET, has_offset, number_at(in, AT_OFFSET, 2) & 4095);
    put_setting(s, EMDF_SETTINGS_HAS_DURATION, present >> 1 & 1, number_at(in, AT_DURATION, 4) & 8388607);
    put_setting(s, EMDF_SETTINGS_HAS_GROUP_ID, present >> 2 & 1, number_at(in, AT_GROUP, 8));
    emdf_set_word(s, EMDF_SETTINGS_CODEC_DATA_PRESENT, values & 1);
    emdf_set_word(s, EMDF_SETTINGS_DISCARD_UNKNOWN_PAYLOAD, (uint64_t)discard);
    put_setting(s, EMDF_SETTINGS_HAS_PAYLOAD_FRAME_ALIGNED, has_aligned, (uint64_t)is_aligned);
    put_setting(s, EMDF_SETTINGS_HAS_CREATE_DUPLICATE, is_aligned, values >> 3 & 1);
    put_setting(s, EMDF_SETTINGS_HAS_REMOVE_DUPLICATE, is_aligned, values >> 4 & 1);
    put_setting(s, EMDF_SETTINGS_HAS_PRIORITY, has_last, in->bytes[AT_PRIORITY] & 63);
    put_setting(s, EMDF_SETTINGS_HAS_PROCESSING_ALLOWED, has_last, in->bytes[AT_PROCESSING] & 7);
}

/* One number of the eighteen is another one. */
static void spoil_settings(const struct input *in, uint8_t *s)
{
    emdf_set_word(s, in->bytes[AT_PRESENT] / 8 % 18, number_at(in, AT_GROUP, 8) >> in->bytes[AT_PROCESSING] % 64);
}

static struct slice choose_settings(const struct input *in, const uint8_t *row, uint8_t *s)
{
    uint8_t kind = in->bytes[AT_SETTINGS_KIND];
    struct slice chosen;

    memset(s, 0, SETTINGS_MOST);
    chosen.bytes = s;
    chosen.length = EMDF_SETTINGS_BYTES;
    if (row != NULL && kind % 4 == 2)
        memcpy(s, settings_of_row(row), EMDF_SETTINGS_BYTES);
    else
        ruled_settings(in, s);
    if (kind % 4 == 1)
        spoil_settings(in, s);
    if (kind >= 240)
        chosen.length = in->bytes[AT_SETTINGS_LENGTH];
    return chosen;
}

static struct slice choose_body(const struct input *in, const uint8_t *row, uint8_t *body)
{
    uint8_t kind = in->bytes[AT_BODY_KIND];
    size_t tail = in->length - HEAD, i;
    struct slice chosen;

    chosen.bytes = body;
    if (row != NULL && kind % 4 == 2) {
        chosen.length = body_of_row(row, in->bytes + HEAD, body);
        return chosen;
    }
    chosen.length = (size_t)number_at(in, AT_BODY_LENGTH, 2) % (kind % 4 == 1 ? 2048 : 64);
    /* Long ones cost time, and few of them reach what they alone reach. */
    if (kind >= 250)
        chosen.length = (size_t)number_at(in, AT_BODY_LENGTH, 2) + (kind - 250) * 892u;
    for (i = 0; i < chosen.length; i++)
        body[i] = (uint8_t)((tail > 0 ? in->bytes[HEAD + i % tail] : 0) + i / 256);
    return chosen;
}

/* The lengths that have a code, and their neighbours. */
static size_t protection_length(uint8_t choice)
{
    static const uint8_t lengths[] = {1, 4, 16, 0, 1, 4, 16, 0, 1, 4, 16, 0, 2, 3, 5, 15, 17, 18};

    return lengths[choice % sizeof lengths];
}

/* Mostly the places of small carriers. */
static size_t place_of(const struct input *in)
{
    uint8_t place = in->bytes[AT_PLACE];

    if (place == 255)
        return (size_t)number_at(in, AT_POSITION, 8);
    return place < 192 ? place % 12 : place;
}

/* Small numbers mostly, since most cursors lie in the slice; the first byte says which. */
static size_t bits_at(const struct input *in, size_t at)
{
    uint64_t v = number_at(in, at, 8);

    return (size_t)(v >> 56 < 128 ? v % (8 * (in->length - HEAD) + 3) : v >> v % 64);
}

/* Mostly below a bound that is a little above what fits. */
static uint8_t around(uint8_t byte, uint8_t bound)
{
    return byte < 224 ? byte % bound : byte;
}

enum { SPLIT_BYTES = AT_OVERLAP - AT_SPLIT };

size_t split_of(const uint8_t *input, size_t length)
{
    size_t split = (size_t)number_of(input + AT_SPLIT, SPLIT_BYTES), tail = length - HEAD;

    return split < tail ? split : tail;
}

void put_split(uint8_t *input, size_t split)
{
    put_number(input + AT_SPLIT, SPLIT_BYTES, split);
}

/* Mostly what lies before the recipe; else the recipe lies in the source, or is all of it. */
size_t source_length(const struct input *in)
{
    if (!is_recipe(in->bytes[AT_CALL] % CALLS) || in->bytes[AT_OVERLAP] % 8 == 1)
        return in->length - HEAD;
    return split_of(in->bytes, in->length);
}

static struct slice choose_recipe(const struct input *in)
{
    size_t split = split_of(in->bytes, in->length);
    struct slice chosen;

    chosen.bytes = in->bytes + HEAD + split;
    chosen.length = in->length - HEAD - split;
    return chosen;
}

/* Mostly the id of the payload at the place, and a small ordinal. */
static void choose_find(const struct input *in, const uint8_t *row, struct request *r)
{
    uint8_t kind = in->bytes[AT_ID_KIND] % ID_KINDS, ordinal = in->bytes[AT_ORDINAL];
    uint64_t high_bit = UINT64_C(1) << (8 + in->bytes[AT_HIGH_BIT] % 56);

    if (row != NULL && kind != ID_OF_INPUT)
        r->number = emdf_word(row, EMDF_ROW_ID) ^ (kind == ID_AND_HIGH_BIT ? high_bit : 0);
    r->ordinal = ordinal % 16;
    if (ordinal >= ORDINAL_OF_INPUT)
        r->ordinal = number_at(in, AT_POSITION, 8);
    else if (ordinal >= ORDINAL_AND_HIGH_BIT)
        r->ordinal |= high_bit;
}

struct request request_of(const struct input *in, const struct reading *own, uint8_t *body, uint8_t *settings)
{
    struct request r;
    const uint8_t *row;

    memset(&r, 0, sizeof r);
    r.call = in->bytes[AT_CALL] % CALLS;
    r.source.bytes = in->bytes + HEAD;
    r.source.length = source_length(in);
    r.number = number_at(in, AT_NUMBER, 8);
    r.position = bits_at(in, AT_POSITION);
    r.end = bits_at(in, AT_END_BIT);
    r.count = bits_at(in, AT_NUMBER);
    r.place = place_of(in);
    r.width = around(in->bytes[AT_WIDTH], 66);
    r.limit = around(in->bytes[AT_LIMIT], 33);
    r.profile = in->bytes[AT_PROFILE] < 128 ? in->bytes[AT_PROFILE] % 2 : (uint32_t)number_at(in, AT_NUMBER, 4);
    row = row_of(own, r.place);
    if (r.call == EDIT_PROTECTION || r.call == BLANK) {
        r.body.bytes = in->bytes + AT_PRIMARY;
        r.body.length = protection_length(in->bytes[AT_PRIMARY_LENGTH]);
        r.settings.bytes = in->bytes + AT_SECONDARY;
        r.settings.length = protection_length(in->bytes[AT_SECONDARY_LENGTH]);
    } else if (is_edit(r.call)) {
        r.body = choose_body(in, row, body);
        r.settings = choose_settings(in, row, settings);
    } else if (is_recipe(r.call)) {
        r.body = choose_recipe(in);
    } else if (r.call == FIND_PAYLOAD) {
        choose_find(in, row, &r);
    }
    return r;
}

static size_t choose_room(uint8_t kind, size_t more, size_t needed)
{
    switch (kind % 6) {
    case 0:
        return needed;
    case 1:
        return needed > 0 ? needed - 1 : 0;
    case 2:
        return more;
    case 3:
        return needed / 2;
    default:
        return needed + more;
    }
}

size_t room_of(const struct input *in, size_t needed)
{
    return choose_room(in->bytes[AT_ROOM], in->bytes[AT_ROOM_MORE], needed);
}

size_t second_room_of(const struct input *in, size_t needed)
{
    return choose_room(in->bytes[AT_SECOND_ROOM], in->bytes[AT_SECOND_MORE], needed);
}

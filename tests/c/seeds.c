#include "seeds.h"

#include <stdlib.h>
#include <string.h>

#include "emdf.h"

void put_setting(uint8_t *settings, size_t i, int is_present, uint64_t value)
{
    emdf_set_word(settings, i, is_present ? 1 : 0);
    emdf_set_word(settings, i + 1, is_present ? value : 0);
}

static void put_last(uint8_t *settings, uint64_t priority, uint64_t processing)
{
    put_setting(settings, EMDF_SETTINGS_HAS_PRIORITY, 1, priority);
    put_setting(settings, EMDF_SETTINGS_HAS_PROCESSING_ALLOWED, 1, processing);
}

static void put_most(uint8_t *settings)
{
    put_setting(settings, EMDF_SETTINGS_HAS_SAMPLE_OFFSET, 1, 2047);
    put_setting(settings, EMDF_SETTINGS_HAS_DURATION, 1, 4196351);
    put_setting(settings, EMDF_SETTINGS_HAS_GROUP_ID, 1, UINT64_C(6148914691236517203));
    emdf_set_word(settings, EMDF_SETTINGS_CODEC_DATA_PRESENT, 1);
    put_last(settings, 31, 3);
}

static void put_wanted(uint8_t *settings)
{
    put_setting(settings, EMDF_SETTINGS_HAS_GROUP_ID, 1, 5);
    emdf_set_word(settings, EMDF_SETTINGS_CODEC_DATA_PRESENT, 1);
    put_setting(settings, EMDF_SETTINGS_HAS_PAYLOAD_FRAME_ALIGNED, 1, 1);
    put_setting(settings, EMDF_SETTINGS_HAS_CREATE_DUPLICATE, 1, 0);
    put_setting(settings, EMDF_SETTINGS_HAS_REMOVE_DUPLICATE, 1, 0);
    put_last(settings, 0, 0);
}

void seed_settings(uint8_t *settings, unsigned kind)
{
    memset(settings, 0, EMDF_SETTINGS_BYTES);
    if (kind == 0)
        put_setting(settings, EMDF_SETTINGS_HAS_PAYLOAD_FRAME_ALIGNED, 1, 0);
    else if (kind == 1)
        emdf_set_word(settings, EMDF_SETTINGS_DISCARD_UNKNOWN_PAYLOAD, 1);
    else if (kind == 2)
        put_most(settings);
    else
        put_wanted(settings);
}

/* A payload more; a carrier that doesn't take it stays. */
static size_t insert(uint8_t *carrier, size_t length, uint64_t place, uint64_t id, unsigned kind, const uint8_t *body,
                     size_t body_length)
{
    static uint8_t next[EMDF_CARRIER_MOST];
    uint8_t settings[EMDF_SETTINGS_BYTES], answer[EMDF_EDIT_ANSWER_BYTES];

    seed_settings(settings, kind);
    if (emdf_edit_insert(carrier, length, (size_t)place, id, settings, sizeof settings, body, body_length, next, sizeof next,
                         answer) != EMDF_ACCEPTED)
        return length;
    length = (size_t)emdf_word(answer, EMDF_WRITTEN_LENGTH);
    memcpy(carrier, next, length);
    return length;
}

/* At the end, and with some body. */
static size_t append(uint8_t *carrier, size_t length, uint64_t place, uint64_t id, unsigned kind, size_t body_length)
{
    static uint8_t body[EMDF_CARRIER_MOST];
    size_t i;

    for (i = 0; i < body_length; i++)
        body[i] = (uint8_t)(i * 7 + place);
    return insert(carrier, length, place, id, kind, body, body_length);
}

static size_t blank(uint8_t *carrier, uint64_t key, size_t primary, size_t secondary)
{
    static const uint8_t bytes[EMDF_PROTECTION_BYTES] = {1, 2, 3, 4, 5, 6, 7, 8, 9, 10, 11, 12, 13, 14, 15, 16};
    uint8_t answer[EMDF_EDIT_ANSWER_BYTES];

    if (emdf_blank(key, bytes, primary, bytes, secondary, carrier, EMDF_CARRIER_MOST, answer) != EMDF_ACCEPTED)
        abort();
    return (size_t)emdf_word(answer, EMDF_WRITTEN_LENGTH);
}

size_t seed_carrier(uint8_t *carrier, unsigned payloads, size_t body_length, int is_wide)
{
    size_t length = is_wide ? blank(carrier, UINT64_MAX, EMDF_PROTECTION_BYTES, EMDF_PROTECTION_BYTES) : blank(carrier, 3, 1, 0);
    unsigned k;

    for (k = 0; k < payloads; k++)
        length = append(carrier, length, k, is_wide ? UINT64_MAX - k : 1 + k % 40, is_wide ? 2 : k % 4, body_length);
    return length;
}

size_t turning_carrier(uint8_t *carrier, unsigned payloads, uint64_t first, unsigned ids)
{
    size_t length = blank(carrier, 0, 1, 0);
    unsigned k;

    for (k = 0; k < payloads; k++)
        length = append(carrier, length, k, first + k % ids, 0, 0);
    return length;
}

/* With settings of 5 bits and a size of one group the body starts on a byte. */
size_t wrapped_carrier(uint8_t *carrier, const uint8_t *body, size_t body_length)
{
    return insert(carrier, blank(carrier, 0, 1, 0), 0, 1, 1, body, body_length);
}

static const struct {
    unsigned payloads;
    size_t body_length;
    int is_wide;
} SHAPES[] = {
    {0, 0, 1}, {1, 3, 1}, {4, 2, 0}, {40, 1, 0}, {9, 300, 0}, {3, 0, 1}, {600, 0, 0}, {1, 60000, 0}, {1, 65523, 0},
};

/* Ids that repeat and such as don't, with the escape and without it; more of them than there are slots. */
static const struct {
    unsigned payloads;
    uint64_t first;
    unsigned ids;
} TURNS[] = {
    {3, 1, 1}, {7, 40, 2}, {6, 29, 3}, {9, UINT64_MAX - 2, 3}, {1200, 31, 1200}, {1200, 31, 600},
};

/* As the profile wants it, in both orders. */
static size_t pair(uint8_t *carrier, uint64_t first, uint64_t second)
{
    size_t length = blank(carrier, 0, 4, 1);

    length = append(carrier, length, 0, first, 3, 2);
    return append(carrier, length, 1, second, 3, 2);
}

void seed_carriers(void (*take)(void *with, const uint8_t *bytes, size_t length), void *with)
{
    static const uint8_t a[] = {0x58, 0x38, 0x00, 0x03, 0x00, 0x12, 0x94};
    static const uint8_t b[] = {0x58, 0x38, 0x00, 0x07, 0x00, 0x42, 0x02, 0xc3, 0x02, 0x52, 0x80};
    static uint8_t carrier[EMDF_CARRIER_MOST];
    size_t i;

    take(with, a, 0);
    take(with, a, sizeof a);
    take(with, b, sizeof b);
    take(with, carrier, pair(carrier, 11, 14));
    take(with, carrier, pair(carrier, 14, 11));
    for (i = 0; i < sizeof SHAPES / sizeof SHAPES[0]; i++)
        take(with, carrier, seed_carrier(carrier, SHAPES[i].payloads, SHAPES[i].body_length, SHAPES[i].is_wide));
    for (i = 0; i < sizeof TURNS / sizeof TURNS[0]; i++)
        take(with, carrier, turning_carrier(carrier, TURNS[i].payloads, TURNS[i].first, TURNS[i].ids));
}

/* A file that is read: what the library finds in it. */
#include "program.h"

enum {
    HEADER_END = 34,      /* sync word, declared length and version, in bits */
    KEY_WIDTH = 3,        /* of the key id, and of each group after its escape */
    KEY_ESCAPE = 7,
    GROUPS_MOST = 31,
    END_MARK_BITS = 5,
    CODES_BITS = 4
};

int load_input(struct input *input, const char *name)
{
    input->name = input_title(name);
    return load_file(name, input->bytes, sizeof input->bytes, "which no carrier is", &input->length);
}

/* Where the key id ends: a carrier that is read has one, and its escape adds a variable field. */
static uint64_t find_key_end(const struct input *input, uint64_t bytes)
{
    uint8_t answer[EMDF_FIELD_ANSWER_BYTES];
    size_t length = (size_t)bytes, end = 8 * length;
    emdf_read_bits(input->bytes, length, HEADER_END, end, KEY_WIDTH, answer);
    if (emdf_word(answer, EMDF_VALUE) == KEY_ESCAPE)
        emdf_variable_bits(input->bytes, length, HEADER_END + KEY_WIDTH, end, KEY_WIDTH, GROUPS_MOST, answer);
    return emdf_word(answer, EMDF_POSITION);
}

const uint8_t *row_at(const struct reading *reading, size_t place)
{
    return reading->rows + place * EMDF_ROW_BYTES;
}

const uint8_t *settings_at(const struct reading *reading, size_t place)
{
    return row_at(reading, place) + 8 * EMDF_ROW_HAS_SAMPLE_OFFSET;
}

void read_carrier(const struct input *input, struct reading *reading)
{
    /* Filled by emdf_read alone, and read only as far as it filled it. */
    static uint8_t table[(size_t)EMDF_PAYLOADS_MOST * EMDF_ROW_BYTES];
    uint64_t protections;
    reading->number = emdf_read(input->bytes, input->length, table, sizeof table, reading->answer);
    reading->rows = table;
    reading->count = 0;
    reading->bytes = 0;
    if (reading->number)
        return;
    reading->count = (size_t)emdf_word(reading->answer, EMDF_PAYLOADS);
    reading->bytes = emdf_word(reading->answer, EMDF_BYTES_CONSUMED);
    protections = emdf_word(reading->answer, EMDF_PRIMARY_LENGTH) + emdf_word(reading->answer, EMDF_SECONDARY_LENGTH);
    reading->key_end = find_key_end(input, reading->bytes);
    reading->end_mark = reading->count ? emdf_word(row_at(reading, reading->count - 1), EMDF_ROW_BODY_END_BIT) : reading->key_end;
    reading->codes = reading->end_mark + END_MARK_BITS;
    reading->protection = reading->codes + CODES_BITS;
    reading->padding = reading->protection + 8 * protections;
}

uint32_t find_place(const struct input *input, struct payload *payload, uint8_t answer[EMDF_FIND_ANSWER_BYTES])
{
    uint32_t number = EMDF_ACCEPTED;
    if (payload->has_ordinal) {
        number = emdf_find_payload(input->bytes, input->length, payload->id, payload->ordinal, answer);
        payload->place = number == EMDF_ACCEPTED ? emdf_word(answer, EMDF_FOUND_PLACE) : SIZE_MAX;
    }
    return number;
}

size_t body_start(const struct input *input, const uint8_t *row, uint8_t *first)
{
    uint8_t answer[EMDF_BIT_ANSWER_BYTES];
    size_t bit = (size_t)emdf_word(row, EMDF_ROW_BODY_START_BIT), end = (size_t)emdf_word(row, EMDF_ROW_BODY_END_BIT), n;
    for (n = 0; bit < end && n < BODY_BYTES_SHOWN; n++, bit += 8) {
        emdf_read_bits(input->bytes, input->length, bit, end, 8, answer);
        first[n] = (uint8_t)emdf_word(answer, EMDF_VALUE);
    }
    return n;
}

/* A protection's bytes are the last ones of its field in the answer. */
static const uint8_t *protection_of(const struct reading *reading, size_t length_place, size_t field_place, size_t *length)
{
    *length = (size_t)emdf_word(reading->answer, length_place);
    return reading->answer + 8 * field_place + EMDF_PROTECTION_BYTES - *length;
}

const uint8_t *primary_of(const struct reading *reading, size_t *length)
{
    return protection_of(reading, EMDF_PRIMARY_LENGTH, EMDF_PRIMARY, length);
}

const uint8_t *secondary_of(const struct reading *reading, size_t *length)
{
    return protection_of(reading, EMDF_SECONDARY_LENGTH, EMDF_SECONDARY, length);
}

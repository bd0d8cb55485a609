/* What an input says: its first bytes choose the call and its arguments, and the rest is the source. For a call on a recipe the
   rest is the source and the recipe. */
#ifndef INPUT_H
#define INPUT_H

#include "calls.h"

/* Where the choices stand. A payload that is looked for takes three of them for how its id and its ordinal are chosen. */
enum {
    AT_CALL = 0, AT_ROOM = 1, AT_PLACE = 2, AT_WIDTH = 3, AT_LIMIT = 4, AT_PROFILE = 5,
    AT_ID_KIND = AT_WIDTH, AT_ORDINAL = AT_LIMIT, AT_HIGH_BIT = AT_PROFILE,
    AT_PRIMARY_LENGTH = 6, AT_SECONDARY_LENGTH = 7,
    AT_NUMBER = 8, AT_POSITION = 16, AT_END_BIT = 24,
    AT_BODY_LENGTH = 32, AT_BODY_KIND = 34, AT_SETTINGS_KIND = 35,
    AT_PRESENT = 36, AT_VALUES = 37, AT_OFFSET = 38, AT_DURATION = 40, AT_GROUP = 44, AT_PRIORITY = 52, AT_PROCESSING = 53,
    AT_SETTINGS_LENGTH = 54, AT_ROOM_MORE = 55,
    AT_PRIMARY = 56, AT_SECONDARY = 74,
    AT_SPLIT = 92, AT_OVERLAP = 95, AT_SECOND_ROOM = 96, AT_SECOND_MORE = 97,
    HEAD = 98
};

/* The kind of an id that is looked for: that of a payload, the same with another high bit, or the number of the input. */
enum { ID_OF_PAYLOAD, ID_AND_HIGH_BIT = 2, ID_OF_INPUT, ID_KINDS };

/* From here on an ordinal has a high bit set, and then it is a number of the input. */
enum { ORDINAL_AND_HIGH_BIT = 192, ORDINAL_OF_INPUT = 240 };

enum {
    SOURCE_MOST = 70000,
    BODY_MOST = 70000,
    INPUT_MOST = HEAD + SOURCE_MOST,
    SETTINGS_MOST = 256
};

struct input {
    size_t length; /* at least HEAD */
    uint8_t bytes[INPUT_MOST];
};

/* What the source reads as, where it does. */
struct reading {
    uint32_t number;
    uint8_t answer[EMDF_READ_ANSWER_BYTES];
    const uint8_t *rows;
};

/* Nothing is known of the source. */
extern const struct reading UNREAD;

/* Where the recipe starts in the rest of an input, for a call on one. */
size_t split_of(const uint8_t *input, size_t length);
void put_split(uint8_t *input, size_t split);

/* How many bytes of the rest are the source. */
size_t source_length(const struct input *in);

/* The request of an input, without its room and answer. What isn't in the input itself is put into the two buffers. */
struct request request_of(const struct input *in, const struct reading *own, uint8_t *body, uint8_t *settings);

/* How long the room has to be that the input asks for, where `needed` bytes are needed; and so the second one. */
size_t room_of(const struct input *in, size_t needed);
size_t second_room_of(const struct input *in, size_t needed);

/* A payload of a reading: its settings, and its body with the bytes that it takes. */
const uint8_t *row_of(const struct reading *own, size_t place);
const uint8_t *settings_of_row(const uint8_t *row);
size_t body_of_row(const uint8_t *row, const uint8_t *source, uint8_t *body);

#endif

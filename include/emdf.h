/* The C host's calls of Ngeritaho. docs/HOST.md says what each answers and what is guaranteed.

   A slice is a pointer and a number of bytes. Where the number is 0 the pointer may be any, NULL too: nothing is read or written
   through it. An answer is never NULL; it has the number of bytes that its parameter says.

   What a call only reads (const uint8_t *) may overlap: a body may lie in the source, and two slices may be the same. What a call
   writes (answer, table, scratch, destination, first, second) must not overlap anything else that is lent to the same call.

   A call asks its questions in the order in which its comment has their numbers. The first "no" is the refusal: the call returns
   the number, and writes its figures to the answer. */
#ifndef EMDF_H
#define EMDF_H

#include <stddef.h>
#include <stdint.h>

#ifdef __cplusplus
extern "C" {
#endif

/* The version of what the calls take and answer. It rises whenever the size or the meaning of an answer, a row, settings or a
   refusal changes, or what a call leaves in a buffer. emdf_version() is the archive's: where the two differ, the header is of
   another library. */
#define EMDF_VERSION 5
uint32_t emdf_version(void);

/* What a call returns: 0, or the number of the refusal, whose figures are the answer's first two numbers (of
   emdf_classify, the two after the class). */
enum {
    EMDF_ACCEPTED = 0,
    EMDF_TRUNCATED_CONTAINER = 1, /* the bytes that the header declares are not all there: declared, available (bytes) */
    EMDF_INVALID_SYNCWORD = 2,    /* actual */
    EMDF_END_OF_INPUT = 3,        /* requested, remaining (bits) */
    EMDF_INVALID_WIDTH = 4,       /* width */
    EMDF_INVALID_VARIABLE_BITS = 5,     /* width, limit */
    EMDF_VARIABLE_BITS_GROUP_LIMIT = 6, /* width, limit */
    EMDF_VALUE_OVERFLOW = 7,
    EMDF_UNSUPPORTED_VERSION = 8, /* version */
    EMDF_NONZERO_RESERVED_DATA = 9,
    EMDF_RESERVED_PRIMARY_PROTECTION_LENGTH = 10,
    EMDF_EXCESS_PADDING = 11,     /* bits */
    EMDF_NONZERO_PADDING = 12,
    EMDF_TABLE_TOO_SHORT = 13,    /* payloads */
    EMDF_PAYLOAD_COUNT = 14,      /* payloads with id 11, payloads with id 14 */
    EMDF_CONFIGURATION = 15,      /* marks, how many of them are set */
    EMDF_NO_SUCH_PAYLOAD = 16,    /* of emdf_move_body */
    EMDF_NO_SUCH_PLACE = 16,      /* of an edit */
    EMDF_NOT_WRITABLE = 17,
    EMDF_TOO_LONG = 18,
    EMDF_SCRATCH_TOO_SHORT = 19,  /* of emdf_move_body: needed (bytes) */
    EMDF_DESTINATION_TOO_SHORT = 19, /* of an edit: needed (bytes) */
    EMDF_TRAILING_BYTES = 20,     /* of an edit: the source is more than one carrier */
    EMDF_TRUNCATED_HEADER = 21,   /* fewer bytes than a header has: 4, available (bytes) */
    EMDF_BROKEN_CHAIN = 22,       /* of a recipe: no 4 bytes, an index that leads nowhere, or a record outside the file */
    EMDF_INVALID_RECORD = 23,     /* of a recipe: a record whose kind, zero byte, length or data are not as they should be */
    EMDF_NO_SUCH_ORDINAL = 24     /* of emdf_find_payload: no payload has that id and ordinal */
};

/* The most bytes that a carrier has, and the most payloads: buffers of these sizes are long enough for every carrier. */
#define EMDF_CARRIER_MOST 65539
#define EMDF_PAYLOADS_MOST 27592

/* The most bytes that a protection has, and the bytes that it takes in an answer. */
#define EMDF_PROTECTION_BYTES 16

/* The size in bytes of a bit call's answer, and where its six numbers stand (see emdf_word). The answer of emdf_variable_bits has
   a seventh. */
#define EMDF_BIT_ANSWER_BYTES 48
#define EMDF_FIELD_ANSWER_BYTES 56
enum {
    EMDF_VALUE = 0,           /* the value read, or a refusal's first figure */
    EMDF_SECOND_FIGURE = 1,   /* a refusal's second figure, or 0 */
    EMDF_POSITION = 2,        /* the cursor after the call: where it was if refused, but after emdf_variable_bits past the last
                                 bit that was read */
    EMDF_END = 3,
    EMDF_WINDOW_POSITION = 4, /* the window of emdf_take_bits, else 0 */
    EMDF_WINDOW_END = 5,
    EMDF_GROUPS = 6           /* of emdf_variable_bits: how many groups the field has, 0 where it is refused */
};

/* The size in bytes of emdf_read's answer, and where its ten numbers stand. */
#define EMDF_READ_ANSWER_BYTES 80
enum {
    EMDF_BYTES_CONSUMED = 0,
    EMDF_KEY_ID = 1,
    EMDF_PAYLOADS = 2,
    EMDF_PRIMARY_LENGTH = 3,
    EMDF_PRIMARY = 4,          /* EMDF_PROTECTION_BYTES, of which the last EMDF_PRIMARY_LENGTH are the protection */
    EMDF_SECONDARY_LENGTH = 6,
    EMDF_SECONDARY = 7,        /* likewise */
    EMDF_LARGEST_GROUPS = 9    /* the largest number of groups of a variable field in the carrier; 0 where it has none */
};

/* The size in bytes of emdf_classify's answer, and where its numbers stand. */
#define EMDF_CLASS_ANSWER_BYTES 88
enum {
    EMDF_CLASS = 0,
    EMDF_CLASS_READING = 1,        /* EMDF_PARSED: the ten numbers of emdf_read, from here on */
    EMDF_CLASS_FIRST_FIGURE = 1,   /* EMDF_MALFORMED: the refusal's figures */
    EMDF_CLASS_SECOND_FIGURE = 2,
    EMDF_CLASS_CONTAINER_BYTES = 1, /* EMDF_TRAILING_DATA */
    EMDF_CLASS_CARRIER_BYTES = 2
};

/* The classes. */
enum {
    EMDF_NON_EMDF = 0,
    EMDF_PARSED = 1,
    EMDF_TRAILING_DATA = 2,
    EMDF_MALFORMED = 3
};

/* The size in bytes of emdf_find_payload's answer, and where the number of an accepted one stands. */
#define EMDF_FIND_ANSWER_BYTES 16
enum {
    EMDF_FOUND_PLACE = 0 /* number 1 is 0 */
};

/* The size in bytes of emdf_move_body's answer, and where its two numbers stand. */
#define EMDF_MOVE_ANSWER_BYTES 16
enum {
    EMDF_BODY_START_BIT = 0,
    EMDF_BODY_LENGTH = 1
};

/* The profiles of emdf_verdict: 0, and any other number. */
enum {
    EMDF_STRICT = 0,
    EMDF_COMPAT = 1
};

/* The size in bytes of emdf_verdict's answer, and where its five numbers stand. */
#define EMDF_VERDICT_ANSWER_BYTES 40
enum {
    EMDF_OAMD_PLACE = 0,
    EMDF_JOC_PLACE = 1,
    EMDF_MARKS = 2,
    EMDF_DEVIATES = 3, /* 1 where any mark is set, else 0 */
    EMDF_VERDICT_GROUPS = 4 /* as EMDF_LARGEST_GROUPS */
};

/* The groups that older receivers read in a variable field. */
#define EMDF_OLDER_GROUPS 4

/* The marks: a setting that is not as the profile wants it, and group ids that are unequal. */
enum {
    EMDF_MARK_OAMD_SAMPLE_OFFSET = 1 << 0,
    EMDF_MARK_OAMD_DURATION = 1 << 1,
    EMDF_MARK_OAMD_GROUP_ID = 1 << 2,
    EMDF_MARK_OAMD_CODEC_DATA_PRESENT = 1 << 3,
    EMDF_MARK_OAMD_DISCARD_UNKNOWN_PAYLOAD = 1 << 4,
    EMDF_MARK_OAMD_PAYLOAD_FRAME_ALIGNED = 1 << 5,
    EMDF_MARK_OAMD_CREATE_DUPLICATE = 1 << 6,
    EMDF_MARK_OAMD_REMOVE_DUPLICATE = 1 << 7,
    EMDF_MARK_OAMD_PRIORITY = 1 << 8,
    EMDF_MARK_OAMD_PROCESSING_ALLOWED = 1 << 9,
    EMDF_MARK_JOC_SAMPLE_OFFSET = 1 << 10,
    EMDF_MARK_JOC_DURATION = 1 << 11,
    EMDF_MARK_JOC_GROUP_ID = 1 << 12,
    EMDF_MARK_JOC_CODEC_DATA_PRESENT = 1 << 13,
    EMDF_MARK_JOC_DISCARD_UNKNOWN_PAYLOAD = 1 << 14,
    EMDF_MARK_JOC_PAYLOAD_FRAME_ALIGNED = 1 << 15,
    EMDF_MARK_JOC_CREATE_DUPLICATE = 1 << 16,
    EMDF_MARK_JOC_REMOVE_DUPLICATE = 1 << 17,
    EMDF_MARK_JOC_PRIORITY = 1 << 18,
    EMDF_MARK_JOC_PROCESSING_ALLOWED = 1 << 19,
    EMDF_MARK_GROUP_IDS_DIFFER = 1 << 20
};

/* The size in bytes of a payload's row in the table, and where its 28 numbers stand. The number before a value is 1 where
   the value is present, and 0, with the value 0, where it is absent. Starts and ends are in bits from the carrier's first. The
   ordinal tells payloads of one id apart: 1 for the first of them in the carrier, 2 for the second, and so on. */
#define EMDF_ROW_BYTES 224
enum {
    EMDF_ROW_ID = 0,
    EMDF_ROW_HAS_SAMPLE_OFFSET = 1,
    EMDF_ROW_SAMPLE_OFFSET = 2,
    EMDF_ROW_HAS_DURATION = 3,
    EMDF_ROW_DURATION = 4,
    EMDF_ROW_HAS_GROUP_ID = 5,
    EMDF_ROW_GROUP_ID = 6,
    EMDF_ROW_CODEC_DATA_PRESENT = 7,
    EMDF_ROW_DISCARD_UNKNOWN_PAYLOAD = 8,
    EMDF_ROW_HAS_PAYLOAD_FRAME_ALIGNED = 9,
    EMDF_ROW_PAYLOAD_FRAME_ALIGNED = 10,
    EMDF_ROW_HAS_CREATE_DUPLICATE = 11,
    EMDF_ROW_CREATE_DUPLICATE = 12,
    EMDF_ROW_HAS_REMOVE_DUPLICATE = 13,
    EMDF_ROW_REMOVE_DUPLICATE = 14,
    EMDF_ROW_HAS_PRIORITY = 15,
    EMDF_ROW_PRIORITY = 16,
    EMDF_ROW_HAS_PROCESSING_ALLOWED = 17,
    EMDF_ROW_PROCESSING_ALLOWED = 18,
    EMDF_ROW_ID_START_BIT = 19,
    EMDF_ROW_ID_END_BIT = 20,
    EMDF_ROW_CONFIG_START_BIT = 21,
    EMDF_ROW_CONFIG_END_BIT = 22,
    EMDF_ROW_SIZE_START_BIT = 23,
    EMDF_ROW_SIZE_END_BIT = 24,
    EMDF_ROW_BODY_START_BIT = 25,
    EMDF_ROW_BODY_END_BIT = 26,
    EMDF_ROW_ORDINAL = 27
};

/* The size in bytes of an edit's or emdf_blank's answer, and where the number of an accepted one stands. */
#define EMDF_EDIT_ANSWER_BYTES 16
enum {
    EMDF_WRITTEN_LENGTH = 0 /* the new carrier's length in bytes; number 1 is 0 */
};

/* The size in bytes of a payload's settings, as the edits take them, and where their 18 numbers stand. They are numbers 1 to 18
   of a row: a payload's settings are the EMDF_SETTINGS_BYTES bytes of its row from 8 * EMDF_ROW_HAS_SAMPLE_OFFSET on. */
#define EMDF_SETTINGS_BYTES 144
enum {
    EMDF_SETTINGS_HAS_SAMPLE_OFFSET = 0,
    EMDF_SETTINGS_SAMPLE_OFFSET = 1,
    EMDF_SETTINGS_HAS_DURATION = 2,
    EMDF_SETTINGS_DURATION = 3,
    EMDF_SETTINGS_HAS_GROUP_ID = 4,
    EMDF_SETTINGS_GROUP_ID = 5,
    EMDF_SETTINGS_CODEC_DATA_PRESENT = 6,
    EMDF_SETTINGS_DISCARD_UNKNOWN_PAYLOAD = 7,
    EMDF_SETTINGS_HAS_PAYLOAD_FRAME_ALIGNED = 8,
    EMDF_SETTINGS_PAYLOAD_FRAME_ALIGNED = 9,
    EMDF_SETTINGS_HAS_CREATE_DUPLICATE = 10,
    EMDF_SETTINGS_CREATE_DUPLICATE = 11,
    EMDF_SETTINGS_HAS_REMOVE_DUPLICATE = 12,
    EMDF_SETTINGS_REMOVE_DUPLICATE = 13,
    EMDF_SETTINGS_HAS_PRIORITY = 14,
    EMDF_SETTINGS_PRIORITY = 15,
    EMDF_SETTINGS_HAS_PROCESSING_ALLOWED = 16,
    EMDF_SETTINGS_PROCESSING_ALLOWED = 17
};

/* A recipe on file: first index and record count, 2 bytes each, then records, numbered from 1. A record is the next index
   (2 bytes), the kind (1), a zero byte, the place (4), the offset of its data in the file (4) and their length (4). All numbers
   are big-endian. Index 0 ends the chain. A key's data are its 8 bytes. */
#define EMDF_RECIPE_HEAD_BYTES 4
#define EMDF_RECIPE_RECORD_BYTES 16
enum {
    EMDF_RECIPE_BODY = 1,
    EMDF_RECIPE_DROP = 2,
    EMDF_RECIPE_KEY = 3
};

/* The size in bytes of emdf_check_recipe's answer, and where the number of an accepted one stands. */
#define EMDF_CHECK_ANSWER_BYTES 16
enum {
    EMDF_RECIPE_EDITS = 0 /* how many edits the recipe has; number 1 is 0 */
};

/* The size in bytes of emdf_run_recipe's answer, and where its three numbers stand. */
#define EMDF_RUN_ANSWER_BYTES 24
enum {
    EMDF_HOLDER = 0,       /* where the carrier now is */
    EMDF_HELD_LENGTH = 1,  /* its length in bytes; in the source, the source's */
    EMDF_REFUSED_EDITS = 2 /* how many edits were refused */
};

/* The slices that may hold the carrier after a recipe. */
enum {
    EMDF_IN_SOURCE = 0,
    EMDF_IN_FIRST = 1,
    EMDF_IN_SECOND = 2
};

/* The i-th number of an answer, a row or settings: 8 bytes, the most significant first. */
static inline uint64_t emdf_word(const uint8_t *answer, size_t i)
{
    uint64_t v = 0;
    size_t k;
    for (k = 0; k < 8; k++)
        v = v << 8 | answer[8 * i + k];
    return v;
}

/* Makes v the i-th number of settings. */
static inline void emdf_set_word(uint8_t *settings, size_t i, uint64_t v)
{
    size_t k;
    for (k = 8; k > 0; k--) {
        settings[8 * i + k - 1] = (uint8_t)(v & 255);
        v >>= 8;
    }
}

/* Bits, most significant first. position and end count bits from the first bit of bytes. Asked: of emdf_read_bits 4, 3; of
   emdf_read_bit, emdf_take_bits and emdf_byte_align 3; of the other two nothing. */
uint32_t emdf_bit_cursor(const uint8_t *bytes, size_t length, uint8_t answer[EMDF_BIT_ANSWER_BYTES]);
uint32_t emdf_bits_remaining(const uint8_t *bytes, size_t length, size_t position, size_t end,
                             uint8_t answer[EMDF_BIT_ANSWER_BYTES]);
uint32_t emdf_read_bits(const uint8_t *bytes, size_t length, size_t position, size_t end, uint8_t width,
                        uint8_t answer[EMDF_BIT_ANSWER_BYTES]);
uint32_t emdf_read_bit(const uint8_t *bytes, size_t length, size_t position, size_t end, uint8_t answer[EMDF_BIT_ANSWER_BYTES]);
uint32_t emdf_take_bits(const uint8_t *bytes, size_t length, size_t position, size_t end, size_t count,
                        uint8_t answer[EMDF_BIT_ANSWER_BYTES]);
uint32_t emdf_byte_align(const uint8_t *bytes, size_t length, size_t position, size_t end,
                         uint8_t answer[EMDF_BIT_ANSWER_BYTES]);

/* A variable field. A refused one has the cursor after the last bit that it read. Asked: 5; then of each group 3 (its value
   bits), 7 (the sum), 3 (its more bit) and, where that is 1, 6 (may a group follow?) and 7 (what it starts from). */
uint32_t emdf_variable_bits(const uint8_t *bytes, size_t length, size_t position, size_t end, uint8_t width, uint8_t limit,
                            uint8_t answer[EMDF_FIELD_ANSWER_BYTES]);

/* A reading is what each call on a carrier begins with. Asked: 21 (are 4 bytes there?), 2, 1 (are the declared bytes there?);
   then field by field, in the carrier's order, 3 of each read, 7 and 6 of a variable field as above, 7 of its sum with an escape,
   9 right after reserved bits; 8 after the version and before the key id; 10 after both protection codes; 11 and 12 at the
   end. */

/* What a range of bytes is. Returns 0 unless it is EMDF_MALFORMED. Asked, where it has 2 bytes and they are the sync word: the
   reading. */
uint32_t emdf_classify(const uint8_t *bytes, size_t length, uint8_t answer[EMDF_CLASS_ANSWER_BYTES]);

/* Reads the carrier at the start of bytes. The table gets a row a payload; the rest of it, and all of it where the call
   refuses, stays as it was. Asked: the reading, 13. */
uint32_t emdf_read(const uint8_t *bytes, size_t length, uint8_t *table, size_t table_length,
                   uint8_t answer[EMDF_READ_ANSWER_BYTES]);

/* Finds the place of the payload that is the ordinal-th of its id in the carrier at the start of bytes: (40, 2) is the second
   payload with id 40, counted from 1 in the carrier's order. No table is needed, and bytes after the carrier are not looked at.
   The place is what the calls below take; it holds for this carrier alone. Asked: the reading, 24 (also for an ordinal 0 or an
   id 0, which no payload has). */
uint32_t emdf_find_payload(const uint8_t *bytes, size_t length, uint64_t id, uint64_t ordinal,
                           uint8_t answer[EMDF_FIND_ANSWER_BYTES]);

/* Copies the body of the payload at place to the scratch, unless it starts on a byte of the carrier. Asked: the reading, 16 and,
   of a body that is copied, 19. */
uint32_t emdf_move_body(const uint8_t *bytes, size_t length, size_t place, uint8_t *scratch, size_t scratch_length,
                        uint8_t answer[EMDF_MOVE_ANSWER_BYTES]);

/* Whether the carrier at the start of bytes meets a profile: EMDF_STRICT or EMDF_COMPAT. Asked: the reading, 14, 15. */
uint32_t emdf_verdict(const uint8_t *bytes, size_t length, uint32_t profile, uint8_t answer[EMDF_VERDICT_ANSWER_BYTES]);

/* The six edits. The source is exactly one carrier; the changed one goes to the first bytes of the destination. The rest of the
   destination, and all of it where the call refuses, stays as it was. Places count from 0; an insert stands before the payload
   at place, or after the last where place is the count. All but emdf_edit_protection write zeros over both protections, whose
   lengths stay. Asked: the reading of the source, 20, 16 (of a place), 17, 18, 19. The answer to 17 is never "no" for a body, a
   drop or a key, and to 18 for a drop. */
uint32_t emdf_edit_body(const uint8_t *source, size_t source_length, size_t place, const uint8_t *body, size_t body_length,
                        uint8_t *destination, size_t destination_length, uint8_t answer[EMDF_EDIT_ANSWER_BYTES]);
uint32_t emdf_edit_settings(const uint8_t *source, size_t source_length, size_t place, const uint8_t *settings,
                            size_t settings_length, uint8_t *destination, size_t destination_length,
                            uint8_t answer[EMDF_EDIT_ANSWER_BYTES]);
uint32_t emdf_edit_drop(const uint8_t *source, size_t source_length, size_t place, uint8_t *destination,
                        size_t destination_length, uint8_t answer[EMDF_EDIT_ANSWER_BYTES]);
uint32_t emdf_edit_insert(const uint8_t *source, size_t source_length, size_t place, uint64_t id, const uint8_t *settings,
                          size_t settings_length, const uint8_t *body, size_t body_length, uint8_t *destination,
                          size_t destination_length, uint8_t answer[EMDF_EDIT_ANSWER_BYTES]);
uint32_t emdf_edit_key(const uint8_t *source, size_t source_length, uint64_t key, uint8_t *destination,
                       size_t destination_length, uint8_t answer[EMDF_EDIT_ANSWER_BYTES]);
uint32_t emdf_edit_protection(const uint8_t *source, size_t source_length, const uint8_t *primary, size_t primary_length,
                              const uint8_t *secondary, size_t secondary_length, uint8_t *destination,
                              size_t destination_length, uint8_t answer[EMDF_EDIT_ANSWER_BYTES]);

/* The carrier of a key id and protections, without payloads, into the destination as an edit's. Asked: 17, 19. */
uint32_t emdf_blank(uint64_t key, const uint8_t *primary, size_t primary_length, const uint8_t *secondary,
                    size_t secondary_length, uint8_t *destination, size_t destination_length,
                    uint8_t answer[EMDF_EDIT_ANSWER_BYTES]);

/* Whether a file is a recipe, and how many edits it has. Asked: 22 of its head; then of each record along the chain 22, 23. */
uint32_t emdf_check_recipe(const uint8_t *recipe, size_t recipe_length, uint8_t answer[EMDF_CHECK_ANSWER_BYTES]);

/* Runs the edits of a recipe in their order, each on the carrier that the last accepted one wrote, the first on the source, and
   into the buffer that does not hold that carrier: the first buffer until an edit is accepted, then by turns. Each edit asks what
   it asks by itself, and a refused one is counted and changes nothing. Asked before any edit: what emdf_check_recipe asks; where
   that refuses, both buffers stay as they were. */
uint32_t emdf_run_recipe(const uint8_t *source, size_t source_length, const uint8_t *recipe, size_t recipe_length, uint8_t *first,
                         size_t first_length, uint8_t *second, size_t second_length, uint8_t answer[EMDF_RUN_ANSWER_BYTES]);

#ifdef __cplusplus
}
#endif

#endif

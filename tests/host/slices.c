/* What emdf.h says of its version, of protections that edits clear, of numbers of groups, of ordinals, and of slices. Length 0
   with NULL is an empty slice, in each argument of each call: what has to come out was taken from the scope. Slices that are only
   read may overlap: the call answers as if they lay apart. */
#include <stdio.h>
#include <string.h>

#include "emdf_names.h"

enum { WORDS_MOST = EMDF_CLASS_ANSWER_BYTES / 8, ROOM = 1024, FILLING = 0x5a };

/* The scope's carriers: without a payload; with the body C3. What drop(0), body(0, C3) and body(0, empty) leave of the second,
   with zeros for its protection. And the second with its body at bit 57: settings of six bits. */
static const uint8_t A[] = {0x58, 0x38, 0x00, 0x03, 0x00, 0x12, 0x94};
static const uint8_t B[] = {0x58, 0x38, 0x00, 0x07, 0x00, 0x42, 0x02, 0xc3, 0x02, 0x52, 0x80};
static const uint8_t CLEARED_A[] = {0x58, 0x38, 0x00, 0x03, 0x00, 0x10, 0x00};
static const uint8_t CLEARED_B[] = {0x58, 0x38, 0x00, 0x07, 0x00, 0x42, 0x02, 0xc3, 0x02, 0x00, 0x00};
static const uint8_t B_EMPTY[] = {0x58, 0x38, 0x00, 0x06, 0x00, 0x42, 0x00, 0x02, 0x00, 0x00};
static const uint8_t UNALIGNED[] = {0x58, 0x38, 0x00, 0x07, 0x00, 0x40, 0x01, 0x61, 0x81, 0x29, 0x40};
static const uint8_t A5[] = {0xa5}, C3[] = {0xc3};

/* A key id of five groups, 7 + 4,680, at bit 37: 8 + 64 + 512 + 4,096 - 1 is the most that four hold. And OAMD and JOC, with seven
   deviations that compat lets pass. */
static const uint8_t FIVE_GROUPS[] = {0x58, 0x38, 0x00, 0x06, 0x38, 0x88, 0x88, 0x01, 0x29, 0x40};
static const uint8_t PAIR[] = {0x58, 0x38, 0x00, 0x0a, 0x02, 0xc8, 0x00, 0x07, 0x10, 0x40, 0x00, 0x00, 0x25, 0x28};

/* Payloads with the ids 40, 1 and 40: after 5 bits of version and key id each has its id (11 bits, 5 bits), settings of five bits
   with discard, and a size of nine for no body. Then the same with a byte after it. And the three rows, from the first number of
   bits on: where the id starts and ends, and where settings, size and body end. */
#define REPEATED_BYTES 0x58, 0x38, 0x00, 0x0c, 0x07, 0xd2, 0x08, 0x00, 0x21, 0x00, 0x7d, 0x20, 0x80, 0x00, 0x94, 0xa0
static const uint8_t REPEATED[] = {REPEATED_BYTES}, REPEATED_AND_MORE[] = {REPEATED_BYTES, 0xff};
#define WORD(v) 0, 0, 0, 0, 0, 0, 0, v
#define WORDS_5(v) WORD(v), WORD(v), WORD(v), WORD(v), WORD(v)
#define ROW(id, start, end, settings, size, body, ordinal) \
    WORD(id), WORDS_5(0), WORD(0), WORD(0), WORD(1), WORDS_5(0), WORDS_5(0), WORD(start), WORD(end), WORD(end), WORD(settings), \
        WORD(settings), WORD(size), WORD(size), WORD(body), WORD(ordinal)
static const uint8_t ROWS[] = {
    ROW(40, 37, 48, 53, 62, 62, 1),
    ROW(1, 62, 67, 72, 81, 81, 1),
    ROW(40, 81, 92, 97, 106, 106, 2),
};

/* Recipes: without an edit; drop(0); body(0, empty) and then drop(0), which make B_EMPTY and CLEARED_A of B; a record outside the
   file; a kind that isn't listed. */
static const uint8_t NO_EDIT[] = {0, 0, 0, 0};
static const uint8_t DROP[] = {0, 1, 0, 1, 0, 0, 2, 0, 0, 0, 0, 0, 0, 0, 0, 0, 0, 0, 0, 0};
static const uint8_t EMPTY_AND_DROP[] = {0, 1, 0, 2, 0, 2, 1, 0, 0, 0, 0, 0, 0, 0, 0, 0, 0, 0, 0, 0,
                                         0, 0, 2, 0, 0, 0, 0, 0, 0, 0, 0, 0, 0, 0, 0, 0};
static const uint8_t NO_RECORD[] = {0, 1, 0, 1};
static const uint8_t NO_KIND[] = {0, 1, 0, 1, 0, 0, 4, 0, 0, 0, 0, 0, 0, 0, 0, 0, 0, 0, 0, 0};

#define OF(bytes) bytes, sizeof(bytes)
#define NONE NULL, 0
#define BARE OF(emdf_settings_bare)

static uint8_t answer[EMDF_CLASS_ANSWER_BYTES + 8], room[ROOM], second[ROOM];
static unsigned checks, failures;

static void fail(const char *what, const char *how)
{
    printf("host: %s: %s\n", what, how);
    failures++;
}

static void check_version(void)
{
    checks++;
    if (emdf_version() != EMDF_VERSION)
        fail("emdf_version()", "another version than the header's");
}

static int is_filling(const uint8_t *bytes, size_t length)
{
    size_t i;
    for (i = 0; i < length; i++)
        if (bytes[i] != FILLING)
            return 0;
    return 1;
}

/* In a room a carrier, or nothing. Then it is as it was. */
static void expect_room(const char *call, uint8_t *lent, const uint8_t *carrier, size_t length)
{
    if ((length > 0 && memcmp(lent, carrier, length) != 0) || !is_filling(lent + length, ROOM - length))
        fail(call, "other bytes in the room");
    memset(lent, FILLING, ROOM);
}

/* The returned number and the answer's words, and nothing beside them; and the room. */
static void expect(const char *call, uint32_t number, size_t answer_bytes, const uint8_t *carrier, size_t length,
                   const uint64_t *wanted)
{
    size_t i;
    checks++;
    if (number != wanted[0])
        fail(call, "another number");
    for (i = 0; i < answer_bytes / 8; i++)
        if (emdf_word(answer, i) != wanted[1 + i])
            fail(call, "another answer");
    if (!is_filling(answer + answer_bytes, sizeof answer - answer_bytes))
        fail(call, "a byte beside the answer");
    expect_room(call, room, carrier, length);
    memset(answer, FILLING, sizeof answer);
}

/* Words that aren't named are 0. */
#define WORDS(...) ((const uint64_t[1 + WORDS_MOST]){__VA_ARGS__})
#define BITS(call, ...) expect(#call, call, EMDF_BIT_ANSWER_BYTES, NONE, WORDS(__VA_ARGS__))
#define FIELD(call, ...) expect(#call, call, EMDF_FIELD_ANSWER_BYTES, NONE, WORDS(__VA_ARGS__))
#define CLASS(call, ...) expect(#call, call, EMDF_CLASS_ANSWER_BYTES, NONE, WORDS(__VA_ARGS__))
#define READING(call, ...) expect(#call, call, EMDF_READ_ANSWER_BYTES, NONE, WORDS(__VA_ARGS__))
#define TABLE(rows, call, ...) expect(#call, call, EMDF_READ_ANSWER_BYTES, rows, sizeof(rows), WORDS(__VA_ARGS__))
#define FOUND(call, ...) expect(#call, call, EMDF_FIND_ANSWER_BYTES, NONE, WORDS(__VA_ARGS__))
#define BODY(call, ...) expect(#call, call, EMDF_MOVE_ANSWER_BYTES, NONE, WORDS(__VA_ARGS__))
#define VERDICT(call, ...) expect(#call, call, EMDF_VERDICT_ANSWER_BYTES, NONE, WORDS(__VA_ARGS__))
#define REFUSED(call, ...) expect(#call, call, EMDF_EDIT_ANSWER_BYTES, NONE, WORDS(__VA_ARGS__))
#define WRITES(carrier, call) expect(#call, call, EMDF_EDIT_ANSWER_BYTES, OF(carrier), WORDS(EMDF_ACCEPTED, sizeof(carrier)))
#define CHECKS(call, ...) expect(#call, call, EMDF_CHECK_ANSWER_BYTES, NONE, WORDS(__VA_ARGS__))

/* No bits are left, wherever the cursor is. */
static void check_bits(void)
{
    BITS(emdf_bit_cursor(NONE, answer), EMDF_ACCEPTED);
    BITS(emdf_bits_remaining(NONE, 0, 0, answer), EMDF_ACCEPTED);
    BITS(emdf_bits_remaining(NONE, 3, 64, answer), EMDF_ACCEPTED, 0, 0, 3, 64);
    BITS(emdf_read_bits(NONE, 0, 0, 0, answer), EMDF_ACCEPTED);
    BITS(emdf_read_bits(NONE, 0, 0, 8, answer), EMDF_END_OF_INPUT, 8, 0);
    BITS(emdf_read_bits(NONE, 0, 64, 64, answer), EMDF_END_OF_INPUT, 64, 0, 0, 64);
    BITS(emdf_read_bits(NONE, 0, 0, 65, answer), EMDF_INVALID_WIDTH, 65);
    BITS(emdf_read_bit(NONE, 0, 0, answer), EMDF_END_OF_INPUT, 1, 0);
    BITS(emdf_read_bit(NONE, 7, 8, answer), EMDF_END_OF_INPUT, 1, 0, 7, 8);
    BITS(emdf_take_bits(NONE, 0, 0, 0, answer), EMDF_ACCEPTED);
    BITS(emdf_take_bits(NONE, 0, 16, 9, answer), EMDF_END_OF_INPUT, 9, 0, 0, 16);
    BITS(emdf_byte_align(NONE, 0, 0, answer), EMDF_ACCEPTED);
    BITS(emdf_byte_align(NONE, 3, 8, answer), EMDF_END_OF_INPUT, 5, 0, 3, 8);
    FIELD(emdf_variable_bits(NONE, 0, 0, 2, 3, answer), EMDF_END_OF_INPUT, 2, 0);
    FIELD(emdf_variable_bits(NONE, 0, 64, 63, 1, answer), EMDF_END_OF_INPUT, 63, 0, 0, 64);
    FIELD(emdf_variable_bits(NONE, 0, 0, 0, 3, answer), EMDF_INVALID_VARIABLE_BITS, 0, 3);
}

static void check_carriers(void)
{
    CLASS(emdf_classify(NONE, answer), EMDF_ACCEPTED, EMDF_NON_EMDF);
    READING(emdf_read(NONE, NONE, answer), EMDF_TRUNCATED_HEADER, 4, 0);
    READING(emdf_read(NONE, OF(room), answer), EMDF_TRUNCATED_HEADER, 4, 0);
    READING(emdf_read(OF(A), NONE, answer), EMDF_ACCEPTED, sizeof A, 0, 0, 1, 0, 0xa5, 0, 0, 0, 0);
    READING(emdf_read(OF(B), NONE, answer), EMDF_TABLE_TOO_SHORT, 1);
    BODY(emdf_move_body(NONE, 0, NONE, answer), EMDF_TRUNCATED_HEADER, 4, 0);
    BODY(emdf_move_body(NONE, 0, OF(room), answer), EMDF_TRUNCATED_HEADER, 4, 0);
    BODY(emdf_move_body(OF(A), 0, NONE, answer), EMDF_NO_SUCH_PAYLOAD);
    BODY(emdf_move_body(OF(B), 0, NONE, answer), EMDF_ACCEPTED, 56, 1);
    BODY(emdf_move_body(OF(B_EMPTY), 0, NONE, answer), EMDF_ACCEPTED, 56, 0);
    BODY(emdf_move_body(OF(UNALIGNED), 0, NONE, answer), EMDF_SCRATCH_TOO_SHORT, 1);
    VERDICT(emdf_verdict(NONE, EMDF_STRICT, answer), EMDF_TRUNCATED_HEADER, 4, 0);
    VERDICT(emdf_verdict(NONE, EMDF_COMPAT, answer), EMDF_TRUNCATED_HEADER, 4, 0);
}

/* Where a call accepts; 0 where it refuses, and where a carrier has no variable field. */
static void check_groups(void)
{
    FIELD(emdf_variable_bits(OF(FIVE_GROUPS), 37, 80, 3, 31, answer), EMDF_ACCEPTED, 4680, 0, 57, 80, 0, 0, 5);
    FIELD(emdf_variable_bits(OF(FIVE_GROUPS), 53, 80, 3, 31, answer), EMDF_ACCEPTED, 0, 0, 57, 80, 0, 0, 1);
    FIELD(emdf_variable_bits(OF(FIVE_GROUPS), 37, 80, 3, 4, answer), EMDF_VARIABLE_BITS_GROUP_LIMIT, 3, 4, 53, 80, 0, 0, 0);
    READING(emdf_read(OF(FIVE_GROUPS), NONE, answer), EMDF_ACCEPTED, sizeof FIVE_GROUPS, 4687, 0, 1, 0, 0xa5, 0, 0, 0, 5);
    CLASS(emdf_classify(OF(FIVE_GROUPS), answer), EMDF_ACCEPTED, EMDF_PARSED, sizeof FIVE_GROUPS, 4687, 0, 1, 0, 0xa5, 0, 0, 0, 5);
    CLASS(emdf_classify(OF(A), answer), EMDF_ACCEPTED, EMDF_PARSED, sizeof A, 0, 0, 1, 0, 0xa5, 0, 0, 0, 0);
    CLASS(emdf_classify(OF(B), answer), EMDF_ACCEPTED, EMDF_PARSED, sizeof B, 0, 1, 1, 0, 0xa5, 0, 0, 0, 1);
    VERDICT(emdf_verdict(OF(PAIR), EMDF_COMPAT, answer), EMDF_ACCEPTED, 0, 1, 0x0023e8, 1, 1);
    VERDICT(emdf_verdict(OF(PAIR), EMDF_STRICT, answer), EMDF_CONFIGURATION, 0x0023e8, 7, 0, 0, 0);
    VERDICT(emdf_verdict(OF(B), EMDF_COMPAT, answer), EMDF_PAYLOAD_COUNT, 0, 0, 0, 0, 0);
}

/* The rows of a table whose ids repeat; and the places by id and ordinal, with 24 for all that no payload has. */
static void check_ordinals(void)
{
    uint8_t short_table[2 * EMDF_ROW_BYTES];
    TABLE(ROWS, emdf_read(OF(REPEATED), OF(room), answer), EMDF_ACCEPTED, sizeof REPEATED, 0, 3, 1, 0, 0xa5, 0, 0, 0, 1);
    TABLE(ROWS, emdf_read(OF(REPEATED), room, sizeof ROWS, answer), EMDF_ACCEPTED, sizeof REPEATED, 0, 3, 1, 0, 0xa5, 0, 0, 0, 1);
    READING(emdf_read(OF(REPEATED), room, sizeof ROWS - 1, answer), EMDF_TABLE_TOO_SHORT, 3);
    READING(emdf_read(OF(REPEATED), OF(short_table), answer), EMDF_TABLE_TOO_SHORT, 3);
    FOUND(emdf_find_payload(OF(REPEATED), 40, 1, answer), EMDF_ACCEPTED, 0);
    FOUND(emdf_find_payload(OF(REPEATED), 1, 1, answer), EMDF_ACCEPTED, 1);
    FOUND(emdf_find_payload(OF(REPEATED), 40, 2, answer), EMDF_ACCEPTED, 2);
    FOUND(emdf_find_payload(OF(REPEATED), 40, 3, answer), EMDF_NO_SUCH_ORDINAL);
    FOUND(emdf_find_payload(OF(REPEATED), 1, 2, answer), EMDF_NO_SUCH_ORDINAL);
    FOUND(emdf_find_payload(OF(REPEATED), 40, 0, answer), EMDF_NO_SUCH_ORDINAL);
    FOUND(emdf_find_payload(OF(REPEATED), 2, 1, answer), EMDF_NO_SUCH_ORDINAL);
    FOUND(emdf_find_payload(OF(REPEATED), 0, 1, answer), EMDF_NO_SUCH_ORDINAL);
    FOUND(emdf_find_payload(OF(REPEATED), 0, 0, answer), EMDF_NO_SUCH_ORDINAL);
    FOUND(emdf_find_payload(OF(REPEATED), UINT64_MAX, UINT64_MAX, answer), EMDF_NO_SUCH_ORDINAL);
    FOUND(emdf_find_payload(OF(REPEATED), 40, UINT64_C(1) << 32 | 1, answer), EMDF_NO_SUCH_ORDINAL);
    FOUND(emdf_find_payload(OF(REPEATED), UINT64_C(1) << 32 | 40, 1, answer), EMDF_NO_SUCH_ORDINAL);
    FOUND(emdf_find_payload(OF(REPEATED_AND_MORE), 40, 2, answer), EMDF_ACCEPTED, 2);
    FOUND(emdf_find_payload(OF(REPEATED_AND_MORE), 40, 3, answer), EMDF_NO_SUCH_ORDINAL);
    FOUND(emdf_find_payload(REPEATED, sizeof REPEATED - 1, 40, 1, answer), EMDF_TRUNCATED_CONTAINER, 12, 11);
    FOUND(emdf_find_payload(REPEATED, 3, 0, 0, answer), EMDF_TRUNCATED_HEADER, 4, 3);
    FOUND(emdf_find_payload(NONE, 1, 1, answer), EMDF_TRUNCATED_HEADER, 4, 0);
    FOUND(emdf_find_payload(OF(A), 1, 1, answer), EMDF_NO_SUCH_ORDINAL);
    FOUND(emdf_find_payload(OF(B), 1, 1, answer), EMDF_ACCEPTED, 0);
}

static void check_sources(void)
{
    REFUSED(emdf_edit_body(NONE, 0, OF(C3), OF(room), answer), EMDF_TRUNCATED_HEADER, 4, 0);
    REFUSED(emdf_edit_body(NONE, 0, NONE, NONE, answer), EMDF_TRUNCATED_HEADER, 4, 0);
    REFUSED(emdf_edit_settings(NONE, 0, BARE, OF(room), answer), EMDF_TRUNCATED_HEADER, 4, 0);
    REFUSED(emdf_edit_settings(NONE, 0, NONE, NONE, answer), EMDF_TRUNCATED_HEADER, 4, 0);
    REFUSED(emdf_edit_drop(NONE, 0, OF(room), answer), EMDF_TRUNCATED_HEADER, 4, 0);
    REFUSED(emdf_edit_drop(NONE, 0, NONE, answer), EMDF_TRUNCATED_HEADER, 4, 0);
    REFUSED(emdf_edit_insert(NONE, 0, 1, BARE, OF(C3), OF(room), answer), EMDF_TRUNCATED_HEADER, 4, 0);
    REFUSED(emdf_edit_insert(NONE, 0, 1, NONE, NONE, NONE, answer), EMDF_TRUNCATED_HEADER, 4, 0);
    REFUSED(emdf_edit_key(NONE, 1, OF(room), answer), EMDF_TRUNCATED_HEADER, 4, 0);
    REFUSED(emdf_edit_key(NONE, 1, NONE, answer), EMDF_TRUNCATED_HEADER, 4, 0);
    REFUSED(emdf_edit_protection(NONE, OF(A5), OF(A5), OF(room), answer), EMDF_TRUNCATED_HEADER, 4, 0);
    REFUSED(emdf_edit_protection(NONE, NONE, NONE, NONE, answer), EMDF_TRUNCATED_HEADER, 4, 0);
}

/* Bodies, settings, protections. */
static void check_contents(void)
{
    WRITES(B_EMPTY, emdf_edit_body(OF(B), 0, NONE, OF(room), answer));
    WRITES(B_EMPTY, emdf_edit_insert(OF(A), 0, 1, BARE, NONE, OF(room), answer));
    REFUSED(emdf_edit_insert(OF(A), 0, 1, NONE, OF(C3), OF(room), answer), EMDF_NOT_WRITABLE);
    REFUSED(emdf_edit_insert(OF(A), 0, 1, NONE, NONE, OF(room), answer), EMDF_NOT_WRITABLE);
    REFUSED(emdf_edit_settings(OF(B), 0, NONE, OF(room), answer), EMDF_NOT_WRITABLE);
    WRITES(A, emdf_edit_protection(OF(A), OF(A5), NONE, OF(room), answer));
    REFUSED(emdf_edit_protection(OF(A), NONE, OF(A5), OF(room), answer), EMDF_NOT_WRITABLE);
    REFUSED(emdf_edit_protection(OF(A), NONE, NONE, OF(room), answer), EMDF_NOT_WRITABLE);
    WRITES(A, emdf_blank(0, OF(A5), NONE, OF(room), answer));
    REFUSED(emdf_blank(0, NONE, OF(A5), OF(room), answer), EMDF_NOT_WRITABLE);
    REFUSED(emdf_blank(0, NONE, NONE, NONE, answer), EMDF_NOT_WRITABLE);
}

/* Each edit but that of the protections writes zeros over them, also where it asks for what is there already. */
static void check_protections(void)
{
    WRITES(CLEARED_B, emdf_edit_body(OF(B), 0, OF(C3), OF(room), answer));
    WRITES(CLEARED_B, emdf_edit_settings(OF(B), 0, BARE, OF(room), answer));
    WRITES(CLEARED_A, emdf_edit_drop(OF(B), 0, OF(room), answer));
    WRITES(CLEARED_B, emdf_edit_insert(OF(A), 0, 1, BARE, OF(C3), OF(room), answer));
    WRITES(CLEARED_A, emdf_edit_key(OF(A), 0, OF(room), answer));
    WRITES(A, emdf_edit_protection(OF(CLEARED_A), OF(A5), NONE, OF(room), answer));
}

/* 19 with what is needed: B, A and B again by its parts. */
static void check_destinations(void)
{
    REFUSED(emdf_edit_body(OF(B), 0, OF(C3), NONE, answer), EMDF_DESTINATION_TOO_SHORT, sizeof B);
    REFUSED(emdf_edit_body(OF(B), 0, NONE, NONE, answer), EMDF_DESTINATION_TOO_SHORT, sizeof B_EMPTY);
    REFUSED(emdf_edit_settings(OF(B), 0, BARE, NONE, answer), EMDF_DESTINATION_TOO_SHORT, sizeof B);
    REFUSED(emdf_edit_drop(OF(B), 0, NONE, answer), EMDF_DESTINATION_TOO_SHORT, sizeof A);
    REFUSED(emdf_edit_insert(OF(A), 0, 1, BARE, OF(C3), NONE, answer), EMDF_DESTINATION_TOO_SHORT, sizeof B);
    REFUSED(emdf_edit_insert(OF(A), 0, 1, BARE, NONE, NONE, answer), EMDF_DESTINATION_TOO_SHORT, sizeof B_EMPTY);
    REFUSED(emdf_edit_key(OF(A), 0, NONE, answer), EMDF_DESTINATION_TOO_SHORT, sizeof A);
    REFUSED(emdf_edit_protection(OF(A), OF(A5), NONE, NONE, answer), EMDF_DESTINATION_TOO_SHORT, sizeof A);
    REFUSED(emdf_blank(0, OF(A5), NONE, NONE, answer), EMDF_DESTINATION_TOO_SHORT, sizeof A);
}

static void check_recipes(void)
{
    CHECKS(emdf_check_recipe(NONE, answer), EMDF_BROKEN_CHAIN);
    CHECKS(emdf_check_recipe(OF(NO_EDIT), answer), EMDF_ACCEPTED, 0);
    CHECKS(emdf_check_recipe(OF(DROP), answer), EMDF_ACCEPTED, 1);
    CHECKS(emdf_check_recipe(OF(EMPTY_AND_DROP), answer), EMDF_ACCEPTED, 2);
    CHECKS(emdf_check_recipe(OF(NO_RECORD), answer), EMDF_BROKEN_CHAIN);
    CHECKS(emdf_check_recipe(OF(NO_KIND), answer), EMDF_INVALID_RECORD);
}

/* What is in the two rooms, and what is answered. */
#define RUN(in_first, in_second, call, ...) \
    do { \
        uint32_t returned = call; \
        expect_room(#call, second, in_second); \
        expect(#call, returned, EMDF_RUN_ANSWER_BYTES, in_first, WORDS(__VA_ARGS__)); \
    } while (0)

/* An edit of an empty source is refused (21), and one into an empty buffer (19): the next one has the same buffer. */
static void check_runs(void)
{
    RUN(NONE, NONE, emdf_run_recipe(NONE, NONE, NONE, NONE, answer), EMDF_BROKEN_CHAIN);
    RUN(NONE, NONE, emdf_run_recipe(OF(B), NONE, OF(room), OF(second), answer), EMDF_BROKEN_CHAIN);
    RUN(NONE, NONE, emdf_run_recipe(OF(B), OF(NO_KIND), NONE, OF(second), answer), EMDF_INVALID_RECORD);
    RUN(NONE, NONE, emdf_run_recipe(OF(B), OF(NO_RECORD), OF(room), NONE, answer), EMDF_BROKEN_CHAIN);
    RUN(NONE, NONE, emdf_run_recipe(NONE, OF(NO_EDIT), NONE, NONE, answer), EMDF_ACCEPTED, EMDF_IN_SOURCE, 0, 0);
    RUN(NONE, NONE, emdf_run_recipe(OF(B), OF(NO_EDIT), NONE, NONE, answer), EMDF_ACCEPTED, EMDF_IN_SOURCE, sizeof B, 0);
    RUN(NONE, NONE, emdf_run_recipe(NONE, OF(EMPTY_AND_DROP), OF(room), OF(second), answer), EMDF_ACCEPTED, EMDF_IN_SOURCE, 0, 2);
    RUN(OF(CLEARED_A), NONE, emdf_run_recipe(OF(B), OF(DROP), OF(room), NONE, answer), EMDF_ACCEPTED, EMDF_IN_FIRST, sizeof A, 0);
    RUN(NONE, NONE, emdf_run_recipe(OF(B), OF(DROP), NONE, OF(second), answer), EMDF_ACCEPTED, EMDF_IN_SOURCE, sizeof B, 1);
    RUN(OF(B_EMPTY), OF(CLEARED_A), emdf_run_recipe(OF(B), OF(EMPTY_AND_DROP), OF(room), OF(second), answer), EMDF_ACCEPTED,
        EMDF_IN_SECOND, sizeof A, 0);
    RUN(OF(B_EMPTY), NONE, emdf_run_recipe(OF(B), OF(EMPTY_AND_DROP), OF(room), NONE, answer), EMDF_ACCEPTED, EMDF_IN_FIRST,
        sizeof B_EMPTY, 1);
    RUN(NONE, NONE, emdf_run_recipe(OF(B), OF(EMPTY_AND_DROP), NONE, OF(second), answer), EMDF_ACCEPTED, EMDF_IN_SOURCE,
        sizeof B, 2);
    RUN(NONE, NONE, emdf_run_recipe(OF(B), OF(EMPTY_AND_DROP), NONE, NONE, answer), EMDF_ACCEPTED, EMDF_IN_SOURCE, sizeof B, 2);
}

/* ---- slices that overlap */

static uint8_t apart[ROOM], apart_answer[EMDF_EDIT_ANSWER_BYTES];

/* The call on slices that lie apart was made into `apart`, the other one into the room. */
static void expect_same(const char *what, uint32_t number_apart, uint32_t number)
{
    size_t length = (size_t)emdf_word(answer, EMDF_WRITTEN_LENGTH);
    checks++;
    if (number_apart != EMDF_ACCEPTED || number != EMDF_ACCEPTED)
        fail(what, "refused");
    else if (memcmp(answer, apart_answer, sizeof apart_answer) != 0 || memcmp(room, apart, sizeof room) != 0)
        fail(what, "another carrier than from slices apart");
    else if (!is_filling(room + length, sizeof room - length))
        fail(what, "a byte after the carrier");
    memset(answer, FILLING, sizeof answer);
    memset(room, FILLING, sizeof room);
    memset(apart, FILLING, sizeof apart);
}

#define APART apart, sizeof apart, apart_answer
#define HERE room, sizeof room, answer

/* A source that has settings as its body, on its bytes 7 and on. */
static void check_overlaps(void)
{
    uint8_t source[200], copy[200], settings[EMDF_SETTINGS_BYTES];
    size_t length, first = 7, most = EMDF_PROTECTION_BYTES;
    uint32_t number = emdf_edit_insert(OF(A), 0, 1, BARE, OF(emdf_settings_profile), source, sizeof source, answer);
    length = (size_t)emdf_word(answer, EMDF_WRITTEN_LENGTH);
    memset(answer, FILLING, sizeof answer);
    memset(apart, FILLING, sizeof apart);
    if (number != EMDF_ACCEPTED || memcmp(source + first, OF(emdf_settings_profile)) != 0) {
        fail("a source with settings in it", "not made");
        return;
    }
    memcpy(copy, source, length);
    memcpy(settings, source + first, sizeof settings);
    expect_same("body: the source", emdf_edit_body(source, length, 0, copy, length, APART),
                emdf_edit_body(source, length, 0, source, length, HERE));
    expect_same("settings: in the source", emdf_edit_settings(source, length, 0, OF(settings), APART),
                emdf_edit_settings(source, length, 0, source + first, sizeof settings, HERE));
    expect_same("insert: settings in the source, which is the body",
                emdf_edit_insert(source, length, 1, 5, OF(settings), copy, length, APART),
                emdf_edit_insert(source, length, 1, 5, source + first, sizeof settings, source, length, HERE));
    expect_same("protection: two that overlap in the source",
                emdf_edit_protection(source, length, copy, most, settings, most, APART),
                emdf_edit_protection(source, length, source, most, source + first, most, HERE));
    expect_same("blank: the same protection twice", emdf_blank(9, copy, most, source, most, APART),
                emdf_blank(9, source, most, source, most, HERE));
}

/* A run of which the recipe lies in the source, and the same run of copies apart: number, answer and both buffers. */
static void expect_same_run(const char *what, const uint8_t *source, size_t length, const uint8_t *recipe, size_t recipe_length)
{
    static uint8_t copy[ROOM], recipe_copy[ROOM], second_apart[ROOM], run_answer[EMDF_RUN_ANSWER_BYTES];
    uint32_t number_apart, number;
    memcpy(copy, source, length);
    memcpy(recipe_copy, recipe, recipe_length);
    memset(second_apart, FILLING, sizeof second_apart);
    number_apart = emdf_run_recipe(copy, length, recipe_copy, recipe_length, OF(apart), OF(second_apart), run_answer);
    number = emdf_run_recipe(source, length, recipe, recipe_length, OF(room), OF(second), answer);
    checks++;
    if (number_apart != number || memcmp(answer, run_answer, sizeof run_answer) != 0)
        fail(what, "another answer than from slices apart");
    if (memcmp(room, apart, sizeof room) != 0 || memcmp(second, second_apart, sizeof second) != 0)
        fail(what, "other buffers than from slices apart");
    memset(answer, FILLING, sizeof answer);
    memset(room, FILLING, sizeof room);
    memset(second, FILLING, sizeof second);
    memset(apart, FILLING, sizeof apart);
}

/* A source that has a recipe as its body, on its bytes 7 and on: the data of the recipe's body edit are the source's, too. */
static void check_recipe_overlaps(void)
{
    static const uint8_t recipe[] = {0, 1, 0, 2, 0, 2, 1, 0, 0, 0, 0, 0, 0, 0, 0, 2, 0, 0, 0, 9,
                                     0, 0, 3, 0, 0, 0, 0, 0, 0, 0, 0, 4, 0, 0, 0, 8};
    uint8_t source[64];
    size_t length, first = 7;
    uint32_t number = emdf_edit_insert(OF(A), 0, 1, BARE, OF(recipe), source, sizeof source, answer);
    length = (size_t)emdf_word(answer, EMDF_WRITTEN_LENGTH);
    memset(answer, FILLING, sizeof answer);
    if (number != EMDF_ACCEPTED || memcmp(source + first, OF(recipe)) != 0) {
        fail("a source with a recipe in it", "not made");
        return;
    }
    number = emdf_run_recipe(source, length, source + first, sizeof recipe, OF(room), OF(second), answer);
    checks++;
    if (number != EMDF_ACCEPTED || emdf_word(answer, EMDF_HOLDER) != EMDF_IN_SECOND || emdf_word(answer, EMDF_REFUSED_EDITS) != 0)
        fail("recipe: in the source", "refused, or an edit of it");
    memset(answer, FILLING, sizeof answer);
    memset(room, FILLING, sizeof room);
    memset(second, FILLING, sizeof second);
    expect_same_run("recipe: in the source", source, length, source + first, sizeof recipe);
    expect_same_run("recipe: the source's last bytes", source, length, source + first, length - first);
    RUN(NONE, NONE, emdf_run_recipe(source, length, source, length, OF(room), OF(second), answer), EMDF_BROKEN_CHAIN);
    RUN(NONE, NONE, emdf_run_recipe(OF(recipe), OF(recipe), OF(room), OF(second), answer), EMDF_ACCEPTED, EMDF_IN_SOURCE,
        sizeof recipe, 2);
    RUN(NONE, NONE, emdf_run_recipe(OF(NO_EDIT), OF(NO_EDIT), OF(room), OF(second), answer), EMDF_ACCEPTED, EMDF_IN_SOURCE,
        sizeof NO_EDIT, 0);
}

int main(void)
{
    memset(answer, FILLING, sizeof answer);
    memset(room, FILLING, sizeof room);
    memset(second, FILLING, sizeof second);
    check_version();
    check_bits();
    check_carriers();
    check_groups();
    check_ordinals();
    check_sources();
    check_contents();
    check_protections();
    check_destinations();
    check_recipes();
    check_runs();
    check_overlaps();
    check_recipe_overlaps();
    printf("host: the version, cleared protections, groups, ordinals, slices that are empty or overlap: %u checks, %u failures\n",
           checks, failures);
    return failures != 0;
}

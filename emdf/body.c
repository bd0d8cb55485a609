/* emdf body and emdf blank: bytes that the library hands out. */
#include <inttypes.h>
#include <stdlib.h>
#include <string.h>

#include "program.h"

int command_body(char **words)
{
    static struct input input;
    static uint8_t scratch[BODY_MOST];
    uint8_t answer[EMDF_MOVE_ANSWER_BYTES], found[EMDF_FIND_ANSWER_BYTES];
    const char *out;
    struct payload payload;
    uint64_t start;
    uint32_t number;
    if (!take_output("body", words, &out))
        return FAILED;
    if (!words[0] || !words[1] || words[2])
        return usage_error("body", "a file and a place are wanted");
    if (!parse_payload(words[1], &payload))
        return usage_error("body", "no place, and no ID#ORDINAL: %s", words[1]);
    if (!load_input(&input, words[0]))
        return FAILED;
    number = find_place(&input, &payload, found);
    if (number != EMDF_ACCEPTED)
        return say_refused(input.name, number, found, "");
    number = emdf_move_body(input.bytes, input.length, (size_t)payload.place, scratch, sizeof scratch, answer);
    if (number != EMDF_ACCEPTED)
        return say_refused(input.name, number, answer, "");
    start = emdf_word(answer, EMDF_BODY_START_BIT);
    return save_file(out ? out : "-", start % 8 ? scratch : input.bytes + start / 8, (size_t)emdf_word(answer, EMDF_BODY_LENGTH));
}

/* ---- blank */

struct blank {
    uint64_t key;
    struct octets primary, secondary;
};

/* 0 after a complaint. */
static int parse_word(const char *word, struct blank *blank)
{
    const char *key = value_of(word, "key"), *primary = value_of(word, "primary"), *secondary = value_of(word, "secondary");
    struct octets *octets = primary ? &blank->primary : &blank->secondary;
    if (key)
        return parse_number(key, &blank->key) ? 1 : (usage_error("blank", "no key id: %s", word), 0);
    if (!primary && !secondary)
        return usage_error("blank", "not key=, primary= or secondary=: %s", word), 0;
    free(octets->bytes);
    return parse_hex(primary ? primary : secondary, octets) ? 1 : (usage_error("blank", "not hexadecimal: %s", word), 0);
}

static int write_blank(const struct blank *blank, const char *out)
{
    static uint8_t carrier[CARRIER_MOST];
    uint8_t answer[EMDF_EDIT_ANSWER_BYTES];
    uint32_t number = emdf_blank(blank->key, blank->primary.bytes, blank->primary.length, blank->secondary.bytes,
                                 blank->secondary.length, carrier, sizeof carrier, answer);
    if (number != EMDF_ACCEPTED)
        return say_refused("blank", number, answer, number == EMDF_NOT_WRITABLE ? PROTECTION_HINT : "");
    return save_file(out ? out : "-", carrier, (size_t)emdf_word(answer, EMDF_WRITTEN_LENGTH));
}

int command_blank(char **words)
{
    struct blank blank = {0, {NULL, 0}, {NULL, 0}};
    const char *out;
    int is_parsed, status = FAILED;
    if (!take_output("blank", words, &out))
        return FAILED;
    is_parsed = parse_hex("00", &blank.primary) && parse_hex("-", &blank.secondary);
    for (; is_parsed && *words; words++)
        is_parsed = parse_word(*words, &blank);
    if (is_parsed)
        status = write_blank(&blank, out);
    free(blank.primary.bytes);
    free(blank.secondary.bytes);
    return status;
}

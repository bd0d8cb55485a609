/* emdf recipe: edits on file. emdf.h has the file's form. */
#include <inttypes.h>
#include <stdlib.h>
#include <string.h>

#include "program.h"

enum {
    RECIPE_MOST = 64 * 1024 * 1024, /* bytes; room for a thousand bodies as long as a carrier holds */
    EDITS_MOST = 65535              /* an index has 2 bytes */
};

/* Where the numbers of a record stand, and the bytes that numbers have. */
enum { NEXT_AT = 0, KIND_AT = 2, PLACE_AT = 4, OFFSET_AT = 8, LENGTH_AT = 12 };
enum { INDEX_BYTES = 2, NUMBER_BYTES = 4, KEY_BYTES = 8 };

/* After the length above which a recipe is neither read nor made. */
static const char LIMIT[] = "emdf's limit for a recipe";

struct recipe {
    const char *name;
    uint8_t *bytes; /* its own, to be freed */
    size_t length;
};

/* ---- the file's form */

static uint64_t number_at(const uint8_t *bytes, size_t count)
{
    uint64_t value = 0;
    size_t i;
    for (i = 0; i < count; i++)
        value = value << 8 | bytes[i];
    return value;
}

static void put_number(uint8_t *bytes, size_t count, uint64_t value)
{
    for (; count; count--, value >>= 8)
        bytes[count - 1] = (uint8_t)(value & 255);
}

/* Records are numbered from 1. */
static uint8_t *record_at(uint8_t *file, size_t index)
{
    return file + EMDF_RECIPE_HEAD_BYTES + (index - 1) * EMDF_RECIPE_RECORD_BYTES;
}

/* ---- reading: only after the library's check, which every record along the chain has passed, and its data */

static size_t first_index(const struct recipe *recipe)
{
    return (size_t)number_at(recipe->bytes, INDEX_BYTES);
}

/* Where a record's data start; not asked of a drop, whose offset may be any. */
static uint8_t *data_of(const struct recipe *recipe, const uint8_t *record)
{
    return recipe->bytes + number_at(record + OFFSET_AT, NUMBER_BYTES);
}

/* The edit of a record; a body's octets are the file's. Answers the next record's index, or 0. */
static size_t take_record(const struct recipe *recipe, size_t index, struct edit *edit)
{
    const uint8_t *record = record_at(recipe->bytes, index);
    memset(edit, 0, sizeof *edit);
    edit->kind = find_recipe_kind(record[KIND_AT]);
    edit->payload.place = number_at(record + PLACE_AT, NUMBER_BYTES);
    if (record[KIND_AT] == EMDF_RECIPE_KEY)
        edit->id = number_at(data_of(recipe, record), KEY_BYTES);
    if (record[KIND_AT] == EMDF_RECIPE_BODY) {
        edit->octets.bytes = data_of(recipe, record);
        edit->octets.length = (size_t)number_at(record + LENGTH_AT, NUMBER_BYTES);
    }
    return (size_t)number_at(record + NEXT_AT, INDEX_BYTES);
}

static int load_recipe(struct recipe *recipe, const char *name)
{
    recipe->name = input_title(name);
    recipe->bytes = (uint8_t *)malloc((size_t)RECIPE_MOST + 1);
    if (!recipe->bytes)
        return complain(NULL, "out of memory"), 0;
    return load_file(name, recipe->bytes, (size_t)RECIPE_MOST + 1, LIMIT, &recipe->length);
}

/* ---- make */

/* 0 after a complaint. A name of another edit starts one wherever it stands. */
static int check_kinds(char **words)
{
    for (; *words; words++) {
        const struct kind *kind = find_kind(*words);
        if (kind && !kind->in_recipe)
            return usage_error("recipe", "%s: a recipe holds body, drop and key alone", kind->name), 0;
    }
    return 1;
}

/* 0 after a complaint: where records have no room for the edits, or no place for what is named by its ordinal. */
static int check_room(const struct edits *edits)
{
    size_t i;
    if (edits->count > EDITS_MOST)
        return usage_error("recipe", "a recipe holds at most %d edits", EDITS_MOST), 0;
    for (i = 0; i < edits->count; i++) {
        const struct edit *edit = &edits->list[i];
        if (edit->payload.has_ordinal)
            return usage_error("recipe", "a recipe has no carrier to find %s in: name its place", edit->words[1]), 0;
        if (edit->payload.place > UINT32_MAX)
            return usage_error("recipe", "a place in a recipe is at most %" PRIu32 ": %s", UINT32_MAX, edit->words[1]), 0;
        if (edit->octets.length > BODY_MOST) /* a file's, which was cut */
            return usage_error("recipe", "a body in a recipe has at most %d bytes: %s", BODY_MOST, edit->words[2]), 0;
    }
    return 1;
}

/* The bytes that an edit has after the records. */
static size_t data_length(const struct edit *edit)
{
    return edit->kind->in_recipe == EMDF_RECIPE_KEY ? (size_t)KEY_BYTES : edit->octets.length;
}

static size_t records_end(const struct edits *edits)
{
    return EMDF_RECIPE_HEAD_BYTES + edits->count * EMDF_RECIPE_RECORD_BYTES;
}

static uint64_t recipe_length(const struct edits *edits)
{
    uint64_t length = records_end(edits);
    size_t i;
    for (i = 0; i < edits->count; i++)
        length += data_length(&edits->list[i]);
    return length;
}

/* An edit's record, and its data from an offset on, in a file of zeros. */
static void put_edit(uint8_t *file, size_t index, size_t next, const struct edit *edit, size_t offset)
{
    uint8_t *record = record_at(file, index);
    put_number(record + NEXT_AT, INDEX_BYTES, next);
    record[KIND_AT] = (uint8_t)edit->kind->in_recipe;
    put_number(record + PLACE_AT, NUMBER_BYTES, edit->payload.place);
    if (edit->kind->in_recipe == EMDF_RECIPE_DROP)
        return; /* offset and length stay 0 */
    put_number(record + OFFSET_AT, NUMBER_BYTES, offset);
    put_number(record + LENGTH_AT, NUMBER_BYTES, data_length(edit));
    if (edit->kind->in_recipe == EMDF_RECIPE_KEY)
        put_number(file + offset, KEY_BYTES, edit->id);
    else
        memcpy(file + offset, edit->octets.bytes, edit->octets.length);
}

/* The records in the edits' order, and then the data in the same order. */
static int write_recipe(const struct edits *edits, const char *out)
{
    uint64_t length = recipe_length(edits);
    size_t offset = records_end(edits), i;
    uint8_t *file;
    int status;
    if (length > RECIPE_MOST)
        return complain("recipe", "longer than %d bytes, %s", RECIPE_MOST, LIMIT);
    file = (uint8_t *)calloc((size_t)length, 1);
    if (!file)
        return complain(NULL, "out of memory");
    put_number(file, INDEX_BYTES, 1);
    put_number(file + INDEX_BYTES, INDEX_BYTES, edits->count);
    for (i = 0; i < edits->count; i++) {
        put_edit(file, i + 1, i + 1 < edits->count ? i + 2 : 0, &edits->list[i], offset);
        offset += data_length(&edits->list[i]);
    }
    status = save_file(out, file, (size_t)length);
    free(file);
    return status;
}

static int make_recipe(char **words)
{
    struct edits edits;
    const char *out;
    int status = FAILED;
    if (!take_output("recipe", words, &out))
        return FAILED;
    if (!words[0])
        return usage_error("recipe", "no edit is named");
    if (!out)
        return usage_error("recipe", "no output is named: -o RECIPE");
    if (!check_kinds(words))
        return FAILED;
    if (parse_edits("recipe", words, &edits) && check_room(&edits))
        status = write_recipe(&edits, out);
    free_edits(&edits);
    return status;
}

/* ---- show */

static int print_recipe(const struct recipe *recipe)
{
    uint8_t answer[EMDF_CHECK_ANSWER_BYTES];
    uint32_t number = emdf_check_recipe(recipe->bytes, recipe->length, answer);
    size_t index;
    struct edit edit;
    if (number != EMDF_ACCEPTED)
        return say_refused(recipe->name, number, answer, "");
    index = first_index(recipe);
    while (index) {
        index = take_record(recipe, index, &edit);
        print_edit(stdout, &edit, SIZE_MAX);
        putchar('\n');
    }
    return DONE;
}

static int show_recipe(char **words)
{
    struct recipe recipe;
    int status = FAILED;
    if (!words[0] || words[1])
        return usage_error("recipe", "show wants a recipe alone");
    if (load_recipe(&recipe, words[0]))
        status = print_recipe(&recipe);
    free(recipe.bytes);
    return status;
}

/* ---- apply */

/* The run counts refusals and doesn't name them. Its edits one by one, in a destination that is as long, are refused as in
   the run. Answers 0 where the source is no carrier: that is said once, for all of them. */
static int say_refusals(struct carriers *c, const struct recipe *recipe)
{
    size_t index = first_index(recipe), i;
    struct edit edit;
    for (i = 0; index; i++) {
        uint32_t number;
        index = take_record(recipe, index, &edit);
        number = run_edit(c, &edit);
        if (number == EMDF_ACCEPTED)
            continue;
        say_edit_refused(c, &edit, i, number);
        if (is_of_source(number))
            return 0;
    }
    return 1;
}

static int run_recipe(struct carriers *c, const struct recipe *recipe, const char *out)
{
    static uint8_t first[CARRIER_MOST], second[CARRIER_MOST];
    uint8_t answer[EMDF_RUN_ANSWER_BYTES];
    uint32_t number = emdf_run_recipe(c->source.bytes, c->source.length, recipe->bytes, recipe->length, first, sizeof first,
                                      second, sizeof second, answer);
    uint64_t holder = emdf_word(answer, EMDF_HOLDER);
    /* The source holds it where no edit was accepted: then say_refusals leaves the source, too. */
    const uint8_t *carrier = holder == EMDF_IN_FIRST ? first : holder == EMDF_IN_SECOND ? second : c->source.bytes;
    int status, is_refused = emdf_word(answer, EMDF_REFUSED_EDITS) != 0;
    if (number != EMDF_ACCEPTED)
        return say_refused(recipe->name, number, answer, "");
    if (is_refused && !say_refusals(c, recipe))
        return REFUSED;
    status = save_file(out, carrier, (size_t)emdf_word(answer, EMDF_HELD_LENGTH));
    return status == DONE && is_refused ? (int)REFUSED : status;
}

static int apply_recipe(char **words)
{
    static struct carriers carriers;
    struct recipe recipe = {NULL, NULL, 0};
    const char *out;
    int status = FAILED;
    if (!take_output("recipe", words, &out))
        return FAILED;
    if (!words[0] || !words[1] || words[2])
        return usage_error("recipe", "apply wants a file and a recipe");
    if (!out)
        return usage_error("recipe", "no output is named: -o OUT");
    if (load_input(&carriers.source, words[0]) && load_recipe(&recipe, words[1]))
        status = run_recipe(&carriers, &recipe, out);
    free(recipe.bytes);
    return status;
}

int command_recipe(char **words)
{
    if (!words[0])
        return usage_error("recipe", "make, show or apply is wanted");
    if (!strcmp(words[0], "make"))
        return make_recipe(words + 1);
    if (!strcmp(words[0], "show"))
        return show_recipe(words + 1);
    if (!strcmp(words[0], "apply"))
        return apply_recipe(words + 1);
    return usage_error("recipe", "not make, show or apply: %s", words[0]);
}

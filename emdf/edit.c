/* Edits: their words, and the calls that make them; and emdf edit, edits in order, each on what the one before it left. */
#include <inttypes.h>
#include <stdlib.h>
#include <string.h>

#include "program.h"

enum { WORD_SHOWN = 40 }; /* characters of it, in a message */

/* ---- arguments: each function answers 0 after a complaint */

static int wants(const struct edit *edit, const char *what)
{
    return usage_error(edit->command, "%s wants %s", edit->kind->name, what), 0;
}

static int parse_place(struct edit *edit)
{
    if (edit->count < 2 || !parse_payload(edit->words[1], &edit->payload))
        return wants(edit, "a place: a number, from 0 on, or ID#ORDINAL");
    return 1;
}

static int has_count(const struct edit *edit, size_t count, const char *what)
{
    return edit->count == count ? 1 : wants(edit, what);
}

/* A body: hexadecimal digits, or a file after an @. */
static int parse_body(struct edit *edit, const char *text)
{
    free(edit->octets.bytes);
    if (*text != '@')
        return parse_hex(text, &edit->octets) ? 1 : wants(edit, "a body: pairs of hexadecimal digits, - for none, or @FILE");
    edit->octets.bytes = (uint8_t *)malloc(BODY_MOST + 1);
    if (!edit->octets.bytes)
        return complain(NULL, "out of memory"), 0;
    /* More than this isn't needed: the library refuses it at any length. */
    return load_file(text + 1, edit->octets.bytes, BODY_MOST + 1, NULL, &edit->octets.length);
}

/* A word "name=value" of a setting, or from=bare, from=profile. */
static int parse_setting(struct edit *edit, const char *word)
{
    const char *text = value_of(word, "from");
    uint64_t value;
    unsigned i;
    if (text && (!strcmp(text, "bare") || !strcmp(text, "profile"))) {
        edit->base = *text == 'b' ? emdf_settings_bare : emdf_settings_profile;
        return 1;
    }
    for (i = 0; !text && i < EMDF_SETTING_COUNT; i++) {
        int is_absent;
        text = value_of(word, emdf_setting_name(i));
        if (!text)
            continue;
        is_absent = !strcmp(text, "absent");
        if (is_absent && !emdf_setting_is_optional(i))
            return usage_error(edit->command, "%s is never absent", emdf_setting_name(i)), 0;
        if (!is_absent && !parse_number(text, &value))
            break;
        edit->is_named[i] = 1;
        emdf_put_setting(edit->values, i, !is_absent, is_absent ? 0 : value);
        return 1;
    }
    return usage_error(edit->command, "%s: no such setting, or no such value: %s", edit->kind->name, word), 0;
}

static int parse_body_edit(struct edit *edit)
{
    return parse_place(edit) && has_count(edit, 3, "a place and a body") && parse_body(edit, edit->words[2]);
}

static int parse_set(struct edit *edit)
{
    size_t i;
    if (!parse_place(edit))
        return 0;
    if (edit->count < 3)
        return wants(edit, "a place, and name=value");
    for (i = 2; i < edit->count; i++)
        if (!parse_setting(edit, edit->words[i]))
            return 0;
    return 1;
}

static int parse_drop(struct edit *edit)
{
    return parse_place(edit) && has_count(edit, 2, "a place alone");
}

static int parse_insert(struct edit *edit)
{
    int has_id = 0;
    size_t i;
    edit->base = emdf_settings_bare;
    if (!parse_place(edit) || !parse_hex("-", &edit->octets))
        return 0;
    for (i = 2; i < edit->count; i++) {
        const char *id = value_of(edit->words[i], "id"), *body = value_of(edit->words[i], "body");
        if (id && !parse_number(id, &edit->id))
            return wants(edit, "id=NUMBER");
        if (id ? !(has_id = 1) : body ? !parse_body(edit, body) : !parse_setting(edit, edit->words[i]))
            return 0;
    }
    return has_id ? 1 : wants(edit, "id=NUMBER");
}

static int parse_key(struct edit *edit)
{
    if (edit->count != 2 || !parse_number(edit->words[1], &edit->id))
        return wants(edit, "a key id: a number");
    return 1;
}

static int parse_protection(struct edit *edit)
{
    if (edit->count != 3 || !parse_hex(edit->words[1], &edit->octets) || !parse_hex(edit->words[2], &edit->secondary))
        return wants(edit, "two protections: pairs of hexadecimal digits, - for none");
    return 1;
}

/* ---- the six calls: each answers the refusal's number, or 0 */

static uint32_t run_body(struct carriers *c, const struct edit *edit)
{
    return emdf_edit_body(c->source.bytes, c->source.length, (size_t)edit->payload.place, edit->octets.bytes, edit->octets.length,
                          c->destination, sizeof c->destination, c->answer);
}

static void name_settings(const struct edit *edit, const uint8_t *base, uint8_t *settings)
{
    uint64_t value;
    unsigned i;
    memcpy(settings, base, EMDF_SETTINGS_BYTES);
    for (i = 0; i < EMDF_SETTING_COUNT; i++)
        if (edit->is_named[i]) {
            int is_present = emdf_setting(edit->values, i, &value);
            emdf_put_setting(settings, i, is_present, value);
        }
}

/* Where there is no such payload, or no carrier, any settings will do: the library says so. */
static uint32_t run_set(struct carriers *c, const struct edit *edit)
{
    uint8_t settings[EMDF_SETTINGS_BYTES];
    struct reading reading;
    const uint8_t *base = edit->base ? edit->base : emdf_settings_bare;
    read_carrier(&c->source, &reading);
    if (!edit->base && edit->payload.place < reading.count)
        base = settings_at(&reading, (size_t)edit->payload.place);
    name_settings(edit, base, settings);
    return emdf_edit_settings(c->source.bytes, c->source.length, (size_t)edit->payload.place, settings, sizeof settings,
                              c->destination, sizeof c->destination, c->answer);
}

static uint32_t run_drop(struct carriers *c, const struct edit *edit)
{
    return emdf_edit_drop(c->source.bytes, c->source.length, (size_t)edit->payload.place, c->destination, sizeof c->destination,
                          c->answer);
}

static uint32_t run_insert(struct carriers *c, const struct edit *edit)
{
    uint8_t settings[EMDF_SETTINGS_BYTES];
    name_settings(edit, edit->base, settings);
    return emdf_edit_insert(c->source.bytes, c->source.length, (size_t)edit->payload.place, edit->id, settings, sizeof settings,
                            edit->octets.bytes, edit->octets.length, c->destination, sizeof c->destination, c->answer);
}

static uint32_t run_key(struct carriers *c, const struct edit *edit)
{
    return emdf_edit_key(c->source.bytes, c->source.length, edit->id, c->destination, sizeof c->destination, c->answer);
}

static uint32_t run_protection(struct carriers *c, const struct edit *edit)
{
    return emdf_edit_protection(c->source.bytes, c->source.length, edit->octets.bytes, edit->octets.length, edit->secondary.bytes,
                                edit->secondary.length, c->destination, sizeof c->destination, c->answer);
}

/* ---- the list of edits */

static const struct kind KINDS[] = {
    {"body", EMDF_RECIPE_BODY, parse_body_edit, run_body},
    {"set", 0, parse_set, run_set},
    {"drop", EMDF_RECIPE_DROP, parse_drop, run_drop},
    {"insert", 0, parse_insert, run_insert},
    {"key", EMDF_RECIPE_KEY, parse_key, run_key},
    {"protection", 0, parse_protection, run_protection},
};

enum { KIND_COUNT = sizeof KINDS / sizeof *KINDS };

const struct kind *find_kind(const char *name)
{
    size_t i;
    for (i = 0; i < KIND_COUNT; i++)
        if (!strcmp(name, KINDS[i].name))
            return &KINDS[i];
    return NULL;
}

const struct kind *find_recipe_kind(unsigned number)
{
    size_t i;
    for (i = 0; i < KIND_COUNT; i++)
        if (number && number == KINDS[i].in_recipe)
            return &KINDS[i];
    return NULL;
}

/* Takes the first edit of words: its name, and all up to the next name of an edit. */
static int parse_edit(struct edit *edit, const char *command, char **words)
{
    memset(edit, 0, sizeof *edit);
    edit->command = command;
    edit->kind = find_kind(words[0]);
    edit->words = words;
    if (!edit->kind)
        return usage_error(command, "no such edit: %s", words[0]), 0;
    for (edit->count = 1; words[edit->count] && !find_kind(words[edit->count]); edit->count++)
        ;
    return edit->kind->parse(edit);
}

int parse_edits(const char *command, char **words, struct edits *edits)
{
    char **word = words;
    int is_parsed = 1;
    while (*word)
        word++;
    edits->count = 0;
    edits->list = (struct edit *)calloc((size_t)(word - words), sizeof *edits->list);
    if (!edits->list)
        return complain(NULL, "out of memory"), 0;
    for (word = words; is_parsed && *word; word += edits->list[edits->count++].count)
        is_parsed = parse_edit(&edits->list[edits->count], command, word);
    return is_parsed;
}

void free_edits(struct edits *edits)
{
    size_t i;
    for (i = 0; i < edits->count; i++) {
        free(edits->list[i].octets.bytes);
        free(edits->list[i].secondary.bytes);
    }
    free(edits->list);
}

void print_edit(FILE *out, const struct edit *edit, size_t octets_shown)
{
    size_t length = edit->octets.length;
    fprintf(out, "%s %" PRIu64, edit->kind->name, edit->kind->in_recipe == EMDF_RECIPE_KEY ? edit->id : edit->payload.place);
    if (edit->kind->in_recipe != EMDF_RECIPE_BODY)
        return;
    fputs(length ? " " : " -", out);
    print_hex(out, edit->octets.bytes, length < octets_shown ? length : octets_shown);
    fputs(length > octets_shown ? ".." : "", out);
}

/* The words as they were typed, cut where they get long. */
static void print_words(const struct edit *edit)
{
    size_t i;
    for (i = 0; i < edit->count; i++) {
        char word[WORD_SHOWN + 1];
        int length = snprintf(word, sizeof word, "%s", edit->words[i]);
        fputs(i ? " " : "", stderr);
        print_text(stderr, word);
        fputs(length > WORD_SHOWN ? ".." : "", stderr);
    }
}

/* What makes contents writable, as far as the edit touches it. */
static const char *find_hint(const struct edit *edit, uint32_t number)
{
    if (number != EMDF_NOT_WRITABLE)
        return "";
    if (!strcmp(edit->kind->name, "protection"))
        return PROTECTION_HINT;
    if (!strcmp(edit->kind->name, "insert") && !edit->id)
        return "; an id is 1 or more";
    return "; emdf(1) says under SETTINGS what can";
}

int is_of_source(uint32_t number)
{
    return number <= EMDF_NONZERO_PADDING || number == EMDF_TRAILING_BYTES || number == EMDF_TRUNCATED_HEADER;
}

int say_edit_refused(const struct carriers *c, const struct edit *edit, size_t i, uint32_t number)
{
    if (is_of_source(number))
        return say_refused(c->source.name, number, c->answer, "");
    fprintf(stderr, "emdf: edit %lu, ", (unsigned long)(i + 1));
    if (edit->words)
        print_words(edit);
    else
        print_edit(stderr, edit, WORD_SHOWN / 2); /* two digits an octet */
    return end_refused(number, c->answer, find_hint(edit, number));
}

/* Where no payload has the id and ordinal, 24 stands for 16: what is asked of the source comes before it. */
uint32_t run_edit(struct carriers *c, const struct edit *edit)
{
    uint8_t answer[EMDF_FIND_ANSWER_BYTES];
    struct edit placed = *edit;
    uint32_t found = find_place(&c->source, &placed.payload, answer), number = edit->kind->run(c, &placed);
    if (number == EMDF_NO_SUCH_PLACE && found != EMDF_ACCEPTED)
        return found;
    if (number == EMDF_ACCEPTED) {
        c->source.length = (size_t)emdf_word(c->answer, EMDF_WRITTEN_LENGTH);
        memcpy(c->source.bytes, c->destination, c->source.length);
    }
    return number;
}

/* ---- the command: the first edit that is refused ends it */

static int run_edits(struct carriers *c, const struct edits *edits, const char *out)
{
    size_t i;
    for (i = 0; i < edits->count; i++) {
        uint32_t number = run_edit(c, &edits->list[i]);
        if (number != EMDF_ACCEPTED)
            return say_edit_refused(c, &edits->list[i], i, number);
    }
    return save_file(out, c->source.bytes, c->source.length);
}

int command_edit(char **words)
{
    static struct carriers carriers;
    struct edits edits;
    const char *out;
    int status = FAILED;
    if (!take_output("edit", words, &out))
        return FAILED;
    if (!words[0])
        return usage_error("edit", "no file is named");
    if (!words[1])
        return usage_error("edit", "no edit is named");
    if (!out)
        return usage_error("edit", "no output is named: -o OUT");
    if (parse_edits("edit", words + 1, &edits) && load_input(&carriers.source, words[0]))
        status = run_edits(&carriers, &edits, out);
    free_edits(&edits);
    return status;
}

/* Words and names for the numbers of emdf.h. */
#include "emdf_names.h"

#define COUNT_OF(table) (sizeof(table) / sizeof *(table))

/* ---- refusals */

struct refusal {
    const char *words;
    const char *figures[2]; /* NULL where there is none */
};

/* By the refusal's number; 16 and 19 are said of a body and of an edit alike. */
static const struct refusal REFUSALS[] = {
    {"accepted", {NULL, NULL}},
    {"fewer bytes than the header declares", {"declared", "available"}},
    {"no sync word", {"actual", NULL}},
    {"too few bits for a field", {"requested", "remaining"}},
    {"a width above 64", {"width", NULL}},
    {"no variable field has this width and limit", {"width", "limit"}},
    {"a variable field has too many groups", {"width", "limit"}},
    {"a field is above 2^64 - 1", {NULL, NULL}},
    {"a version other than 0", {"version", NULL}},
    {"reserved bits are not zero", {NULL, NULL}},
    {"the primary protection has the reserved length", {NULL, NULL}},
    {"more than 7 bits after the protection", {"bits", NULL}},
    {"padding is not zero", {NULL, NULL}},
    {"the table has too few rows", {"payloads", NULL}},
    {"not one OAMD and one JOC payload", {"oamd", "joc"}},
    {"the profile is not met", {"marks", "deviations"}},
    {"no such place", {NULL, NULL}},
    {"the contents cannot be written", {NULL, NULL}},
    {"more than 65535 bytes to declare", {NULL, NULL}},
    {"the destination is too short", {"needed", NULL}},
    {"bytes after the carrier", {NULL, NULL}},
    {"fewer bytes than a header has", {"needed", "available"}},
    {"the recipe's chain is broken", {NULL, NULL}},
    {"a record of the recipe is not of the form", {NULL, NULL}},
    {"no payload with that id and ordinal", {NULL, NULL}},
};

static const struct refusal UNLISTED = {"a refusal that has no words here", {"first", "second"}};

static const struct refusal *find_refusal(uint32_t number)
{
    return number < COUNT_OF(REFUSALS) ? &REFUSALS[number] : &UNLISTED;
}

const char *emdf_refusal_text(uint32_t number)
{
    return find_refusal(number)->words;
}

const char *emdf_refusal_figure(uint32_t number, unsigned i)
{
    return i < 2 ? find_refusal(number)->figures[i] : NULL;
}

/* A sync word, and marks. */
int emdf_refusal_figure_digits(uint32_t number, unsigned i)
{
    return i ? 0 : number == EMDF_INVALID_SYNCWORD ? 4 : number == EMDF_CONFIGURATION ? 6 : 0;
}

/* ---- settings */

enum { ALWAYS_PRESENT = EMDF_SETTINGS_BYTES }; /* no number of settings stands there */

struct setting {
    const char *name;
    size_t presence, value; /* where they stand in settings */
};

static const struct setting SETTINGS[EMDF_SETTING_COUNT] = {
    {"sample_offset", EMDF_SETTINGS_HAS_SAMPLE_OFFSET, EMDF_SETTINGS_SAMPLE_OFFSET},
    {"duration", EMDF_SETTINGS_HAS_DURATION, EMDF_SETTINGS_DURATION},
    {"group_id", EMDF_SETTINGS_HAS_GROUP_ID, EMDF_SETTINGS_GROUP_ID},
    {"codec_data_present", ALWAYS_PRESENT, EMDF_SETTINGS_CODEC_DATA_PRESENT},
    {"discard_unknown_payload", ALWAYS_PRESENT, EMDF_SETTINGS_DISCARD_UNKNOWN_PAYLOAD},
    {"payload_frame_aligned", EMDF_SETTINGS_HAS_PAYLOAD_FRAME_ALIGNED, EMDF_SETTINGS_PAYLOAD_FRAME_ALIGNED},
    {"create_duplicate", EMDF_SETTINGS_HAS_CREATE_DUPLICATE, EMDF_SETTINGS_CREATE_DUPLICATE},
    {"remove_duplicate", EMDF_SETTINGS_HAS_REMOVE_DUPLICATE, EMDF_SETTINGS_REMOVE_DUPLICATE},
    {"priority", EMDF_SETTINGS_HAS_PRIORITY, EMDF_SETTINGS_PRIORITY},
    {"processing_allowed", EMDF_SETTINGS_HAS_PROCESSING_ALLOWED, EMDF_SETTINGS_PROCESSING_ALLOWED},
};

const char *emdf_setting_name(unsigned i)
{
    return i < EMDF_SETTING_COUNT ? SETTINGS[i].name : NULL;
}

int emdf_setting_is_optional(unsigned i)
{
    return i < EMDF_SETTING_COUNT && SETTINGS[i].presence != ALWAYS_PRESENT;
}

int emdf_setting(const uint8_t *settings, unsigned i, uint64_t *value)
{
    *value = 0;
    if (i >= EMDF_SETTING_COUNT || (emdf_setting_is_optional(i) && !emdf_word(settings, SETTINGS[i].presence)))
        return 0;
    *value = emdf_word(settings, SETTINGS[i].value);
    return 1;
}

void emdf_put_setting(uint8_t *settings, unsigned i, int is_present, uint64_t value)
{
    if (i >= EMDF_SETTING_COUNT)
        return;
    if (emdf_setting_is_optional(i))
        emdf_set_word(settings, SETTINGS[i].presence, is_present ? 1 : 0);
    emdf_set_word(settings, SETTINGS[i].value, is_present ? value : 0);
}

/* A number in settings is 8 bytes, the most significant first. */
#define WORD(v) 0, 0, 0, 0, 0, 0, 0, v

const uint8_t emdf_settings_bare[EMDF_SETTINGS_BYTES] = {
    WORD(0), WORD(0), WORD(0), WORD(0), WORD(0), WORD(0), /* sample_offset, duration, group_id: absent */
    WORD(0), WORD(1),                                     /* codec_data_present, discard_unknown_payload */
    WORD(0), WORD(0), WORD(0), WORD(0), WORD(0), WORD(0), WORD(0), WORD(0), WORD(0), WORD(0),
};

const uint8_t emdf_settings_profile[EMDF_SETTINGS_BYTES] = {
    WORD(0), WORD(0), WORD(0), WORD(0), WORD(1), WORD(0), /* sample_offset, duration: absent; group_id 0 */
    WORD(1), WORD(0),                                     /* codec_data_present, discard_unknown_payload */
    WORD(1), WORD(1),                                     /* payload_frame_aligned */
    WORD(1), WORD(0), WORD(1), WORD(0), WORD(1), WORD(0), WORD(1), WORD(0),
};

/* ---- marks */

enum compat { NEVER, WHERE_ZERO, WHERE_ABSENT };

struct mark {
    const char *name, *wanted;
    enum compat passes;
};

static const struct mark MARKS[EMDF_MARK_COUNT] = {
    {"oamd_sample_offset", "absent", NEVER},
    {"oamd_duration", "absent", NEVER},
    {"oamd_group_id", "present", NEVER},
    {"oamd_codec_data_present", "1", WHERE_ZERO},
    {"oamd_discard_unknown_payload", "0", NEVER},
    {"oamd_payload_frame_aligned", "1", WHERE_ZERO},
    {"oamd_create_duplicate", "0", WHERE_ABSENT},
    {"oamd_remove_duplicate", "0", WHERE_ABSENT},
    {"oamd_priority", "0", WHERE_ABSENT},
    {"oamd_processing_allowed", "0", WHERE_ABSENT},
    {"joc_sample_offset", "absent", NEVER},
    {"joc_duration", "absent", NEVER},
    {"joc_group_id", "present", NEVER},
    {"joc_codec_data_present", "1", WHERE_ZERO},
    {"joc_discard_unknown_payload", "0", NEVER},
    {"joc_payload_frame_aligned", "1", NEVER},
    {"joc_create_duplicate", "0", NEVER},
    {"joc_remove_duplicate", "0", NEVER},
    {"joc_priority", "0", NEVER},
    {"joc_processing_allowed", "0", NEVER},
    {"group_ids_differ", "equal", NEVER},
};

const char *emdf_mark_name(unsigned bit)
{
    return bit < EMDF_MARK_COUNT ? MARKS[bit].name : NULL;
}

const char *emdf_mark_wanted(unsigned bit)
{
    return bit < EMDF_MARK_COUNT ? MARKS[bit].wanted : NULL;
}

int emdf_mark_passes_compat(unsigned bit, int is_present, uint64_t value)
{
    if (bit >= EMDF_MARK_COUNT)
        return 0;
    switch (MARKS[bit].passes) {
    case WHERE_ZERO:
        return is_present && value == 0;
    case WHERE_ABSENT:
        return !is_present;
    default:
        return 0;
    }
}

const char *emdf_payload_name(uint64_t id)
{
    return id == 11 ? "OAMD" : id == 14 ? "JOC" : NULL;
}

/* 11, 12 and 13 go by their tens, here and in each hundred. */
const char *emdf_ordinal_ending(uint64_t ordinal)
{
    static const char *const endings[] = {"th", "st", "nd", "rd"};
    return ordinal / 10 % 10 == 1 || ordinal % 10 > 3 ? "th" : endings[ordinal % 10];
}

/* Whether the tables of emdf_names.c go with emdf.h: a word for each refusal, a name for each setting and mark as the header has
   it, and settings that the library takes. */
#include <ctype.h>
#include <stdio.h>
#include <string.h>

#include "emdf_names.h"

enum { CARRIER = 64 }; /* bytes enough for each carrier here */

static int failures;

static void expect(int is_so, const char *what)
{
    if (!is_so) {
        printf("names: %s\n", what);
        failures++;
    }
}

/* Whether a constant's name is the prefix and then the name in capitals. */
static int is_constant(const char *constant, const char *prefix, const char *name)
{
    size_t i, length = strlen(prefix);
    if (!name || strncmp(constant, prefix, length) || strlen(constant) != length + strlen(name))
        return 0;
    for (i = 0; name[i]; i++)
        if (constant[length + i] != toupper((unsigned char)name[i]))
            return 0;
    return 1;
}

#define MARK(bit, constant) \
    expect((constant) == 1 << (bit) && is_constant(#constant, "EMDF_MARK_", emdf_mark_name(bit)), #constant)
#define SETTING(i, constant) expect(is_constant(#constant, "EMDF_SETTINGS_", emdf_setting_name(i)), #constant)

static void check_marks(void)
{
    MARK(0, EMDF_MARK_OAMD_SAMPLE_OFFSET);
    MARK(1, EMDF_MARK_OAMD_DURATION);
    MARK(2, EMDF_MARK_OAMD_GROUP_ID);
    MARK(3, EMDF_MARK_OAMD_CODEC_DATA_PRESENT);
    MARK(4, EMDF_MARK_OAMD_DISCARD_UNKNOWN_PAYLOAD);
    MARK(5, EMDF_MARK_OAMD_PAYLOAD_FRAME_ALIGNED);
    MARK(6, EMDF_MARK_OAMD_CREATE_DUPLICATE);
    MARK(7, EMDF_MARK_OAMD_REMOVE_DUPLICATE);
    MARK(8, EMDF_MARK_OAMD_PRIORITY);
    MARK(9, EMDF_MARK_OAMD_PROCESSING_ALLOWED);
    MARK(10, EMDF_MARK_JOC_SAMPLE_OFFSET);
    MARK(11, EMDF_MARK_JOC_DURATION);
    MARK(12, EMDF_MARK_JOC_GROUP_ID);
    MARK(13, EMDF_MARK_JOC_CODEC_DATA_PRESENT);
    MARK(14, EMDF_MARK_JOC_DISCARD_UNKNOWN_PAYLOAD);
    MARK(15, EMDF_MARK_JOC_PAYLOAD_FRAME_ALIGNED);
    MARK(16, EMDF_MARK_JOC_CREATE_DUPLICATE);
    MARK(17, EMDF_MARK_JOC_REMOVE_DUPLICATE);
    MARK(18, EMDF_MARK_JOC_PRIORITY);
    MARK(19, EMDF_MARK_JOC_PROCESSING_ALLOWED);
    MARK(20, EMDF_MARK_GROUP_IDS_DIFFER);
    expect(!emdf_mark_name(EMDF_MARK_COUNT) && !emdf_mark_wanted(EMDF_MARK_COUNT), "a mark too many");
}

static void check_settings(void)
{
    unsigned i;
    SETTING(0, EMDF_SETTINGS_SAMPLE_OFFSET);
    SETTING(1, EMDF_SETTINGS_DURATION);
    SETTING(2, EMDF_SETTINGS_GROUP_ID);
    SETTING(3, EMDF_SETTINGS_CODEC_DATA_PRESENT);
    SETTING(4, EMDF_SETTINGS_DISCARD_UNKNOWN_PAYLOAD);
    SETTING(5, EMDF_SETTINGS_PAYLOAD_FRAME_ALIGNED);
    SETTING(6, EMDF_SETTINGS_CREATE_DUPLICATE);
    SETTING(7, EMDF_SETTINGS_REMOVE_DUPLICATE);
    SETTING(8, EMDF_SETTINGS_PRIORITY);
    SETTING(9, EMDF_SETTINGS_PROCESSING_ALLOWED);
    expect(!emdf_setting_name(EMDF_SETTING_COUNT), "a setting too many");
    for (i = 0; i < EMDF_SETTING_COUNT; i++) {
        uint8_t settings[EMDF_SETTINGS_BYTES] = {0};
        uint64_t value = 7;
        emdf_put_setting(settings, i, 1, 5);
        expect(emdf_setting(settings, i, &value) && value == 5, "a setting that is put is there");
        emdf_put_setting(settings, i, 0, 5);
        expect(emdf_setting(settings, i, &value) == !emdf_setting_is_optional(i) && value == 0, "and can be absent again");
    }
}

/* The last refusal of emdf.h has words, and the number after it has none. */
static void check_refusals(void)
{
    const char *unlisted = emdf_refusal_text(UINT32_MAX);
    uint32_t number;
    for (number = 0; number <= EMDF_NO_SUCH_ORDINAL; number++)
        expect(emdf_refusal_text(number) != unlisted, "a refusal without words");
    expect(emdf_refusal_text(EMDF_NO_SUCH_ORDINAL + 1) == unlisted, "a refusal that emdf.h hasn't");
    expect(strcmp(emdf_refusal_text(EMDF_TRUNCATED_HEADER), emdf_refusal_text(EMDF_TRUNCATED_CONTAINER)), "1 and 21 in other words");
    expect(strcmp(emdf_refusal_text(EMDF_BROKEN_CHAIN), emdf_refusal_text(EMDF_INVALID_RECORD)), "22 and 23 in other words");
    expect(!emdf_refusal_figure(EMDF_BROKEN_CHAIN, 0) && !emdf_refusal_figure(EMDF_INVALID_RECORD, 0), "22 and 23 have no figure");
    expect(strcmp(emdf_refusal_text(EMDF_NO_SUCH_ORDINAL), emdf_refusal_text(EMDF_NO_SUCH_PLACE)), "16 and 24 in other words");
    expect(!emdf_refusal_figure(EMDF_NO_SUCH_ORDINAL, 0), "24 has no figure");
    expect(!strcmp(emdf_refusal_text(EMDF_NONZERO_PADDING), "padding is not zero"), "12 in words");
    expect(!strcmp(emdf_refusal_figure(EMDF_CONFIGURATION, 1), "deviations"), "15's second figure");
    expect(!emdf_refusal_figure(EMDF_EXCESS_PADDING, 1) && !emdf_refusal_figure(EMDF_EXCESS_PADDING, 2), "11 has one figure");
}

static void check_endings(void)
{
    static const struct {
        uint64_t ordinal;
        const char *ending;
    } typed[] = {
        {0, "th"},   {1, "st"},   {2, "nd"},   {3, "rd"},   {4, "th"},   {9, "th"},    {10, "th"},   {11, "th"},
        {12, "th"},  {13, "th"},  {14, "th"},  {19, "th"},  {20, "th"},  {21, "st"},   {22, "nd"},   {23, "rd"},
        {24, "th"},  {100, "th"}, {101, "st"}, {102, "nd"}, {103, "rd"}, {110, "th"},  {111, "th"},  {112, "th"},
        {113, "th"}, {114, "th"}, {121, "st"}, {122, "nd"}, {123, "rd"}, {1011, "th"}, {1021, "st"}, {UINT64_MAX, "th"},
    };
    size_t i;
    for (i = 0; i < sizeof typed / sizeof *typed; i++)
        expect(!strcmp(emdf_ordinal_ending(typed[i].ordinal), typed[i].ending), typed[i].ending);
}

/* A payload more in a carrier; what it then is takes the place of what it was. */
static void insert(uint8_t *carrier, size_t *length, size_t place, uint64_t id, const uint8_t *settings, const char *what)
{
    uint8_t next[CARRIER] = {0}, answer[EMDF_EDIT_ANSWER_BYTES], none[1] = {0};
    expect(!emdf_edit_insert(carrier, *length, place, id, settings, EMDF_SETTINGS_BYTES, none, 0, next, sizeof next, answer), what);
    *length = (size_t)emdf_word(answer, EMDF_WRITTEN_LENGTH);
    memcpy(carrier, next, sizeof next);
}

/* A payload of each constant goes into a carrier, and two of the profile's are what strict accepts. */
static void check_constants(void)
{
    uint8_t carrier[CARRIER], answer[EMDF_EDIT_ANSWER_BYTES], verdict[EMDF_VERDICT_ANSWER_BYTES];
    const uint8_t primary[1] = {0}, none[1] = {0};
    size_t length;
    expect(!emdf_blank(0, primary, 1, none, 0, carrier, sizeof carrier, answer), "blank");
    length = (size_t)emdf_word(answer, EMDF_WRITTEN_LENGTH);
    insert(carrier, &length, 0, 1, emdf_settings_bare, "bare");
    insert(carrier, &length, 0, 11, emdf_settings_profile, "OAMD");
    insert(carrier, &length, 1, 14, emdf_settings_profile, "JOC");
    expect(!emdf_verdict(carrier, length, EMDF_STRICT, verdict) && !emdf_word(verdict, EMDF_MARKS), "the profile's settings");
    expect(emdf_word(verdict, EMDF_VERDICT_GROUPS) == 1, "the profile's settings: a group for each field");
}

int main(void)
{
    check_marks();
    check_settings();
    check_refusals();
    check_endings();
    check_constants();
    return failures != 0;
}

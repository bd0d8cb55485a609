/* emdf verdict, and what it says of a carrier. */
#include <inttypes.h>

#include "program.h"

enum { OAMD_ID = 11, JOC_ID = 14, GROUP_ID = 2 /* the setting */ };

void judge(const struct input *input, uint32_t profile, struct verdict *verdict)
{
    verdict->profile = profile;
    verdict->number = emdf_verdict(input->bytes, input->length, profile, verdict->answer);
}

const char *profile_name(uint32_t profile)
{
    return profile == EMDF_STRICT ? "strict" : "compat";
}

/* Both an acceptance and refusal 15 have marks. */
static int has_marks(const struct verdict *verdict)
{
    return verdict->number == EMDF_ACCEPTED || verdict->number == EMDF_CONFIGURATION;
}

static uint64_t marks_of(const struct verdict *verdict)
{
    return emdf_word(verdict->answer, verdict->number == EMDF_ACCEPTED ? (size_t)EMDF_MARKS : 0);
}

static unsigned count_ones(uint64_t marks)
{
    unsigned ones = 0;
    for (; marks; marks &= marks - 1)
        ones++;
    return ones;
}

void print_verdict(const struct verdict *verdict)
{
    if (verdict->number != EMDF_ACCEPTED) {
        printf("refused by %s, ", profile_name(verdict->profile));
        print_refusal(stdout, verdict->number, emdf_word(verdict->answer, 0), emdf_word(verdict->answer, 1));
        return;
    }
    printf("accepted by %s: OAMD at place %" PRIu64 ", JOC at place %" PRIu64 " (marks 0x%06" PRIx64 ", deviations %u)",
           profile_name(verdict->profile), emdf_word(verdict->answer, EMDF_OAMD_PLACE),
           emdf_word(verdict->answer, EMDF_JOC_PLACE), marks_of(verdict), count_ones(marks_of(verdict)));
}

/* ---- deviations */

/* The settings of the payload with this id, of which a verdict with marks says that there is one. */
static const uint8_t *settings_of(const struct reading *reading, uint64_t id)
{
    size_t place = 0;
    while (place + 1 < reading->count && emdf_word(row_at(reading, place), EMDF_ROW_ID) != id)
        place++;
    return settings_at(reading, place);
}

struct found {
    int is_present;
    uint64_t value;
};

static struct found find_setting(const struct reading *reading, uint64_t id, unsigned setting)
{
    struct found found;
    found.is_present = emdf_setting(settings_of(reading, id), setting, &found.value);
    return found;
}

/* What stands where the mark is set: a setting of one payload or, for the last mark, of both. */
struct deviation {
    int is_of_both;
    struct found found, other;
};

static struct deviation deviation_at(const struct reading *reading, unsigned bit)
{
    struct deviation deviation;
    deviation.is_of_both = bit == 2 * EMDF_SETTING_COUNT;
    deviation.found = find_setting(reading, bit >= EMDF_SETTING_COUNT && !deviation.is_of_both ? JOC_ID : OAMD_ID,
                                   deviation.is_of_both ? (unsigned)GROUP_ID : bit % EMDF_SETTING_COUNT);
    deviation.other = find_setting(reading, JOC_ID, GROUP_ID);
    return deviation;
}

static int passes(const struct deviation *deviation, unsigned bit)
{
    return emdf_mark_passes_compat(bit, deviation->found.is_present, deviation->found.value);
}

static void print_found(struct found found)
{
    if (found.is_present)
        printf("%" PRIu64, found.value);
    else
        printf("absent");
}

static void print_deviations(const struct verdict *verdict, const struct reading *reading)
{
    unsigned bit;
    for (bit = 0; bit < EMDF_MARK_COUNT; bit++) {
        struct deviation deviation;
        if (!(marks_of(verdict) >> bit & 1))
            continue;
        deviation = deviation_at(reading, bit);
        printf("  %s: wanted %s, found ", emdf_mark_name(bit), emdf_mark_wanted(bit));
        print_found(deviation.found);
        if (deviation.is_of_both) {
            printf(" and ");
            print_found(deviation.other);
        }
        printf(passes(&deviation, bit) ? "; passes in compat\n" : "; refused in compat\n");
    }
}

/* ---- JSON */

static void print_json_found(struct found found)
{
    if (found.is_present)
        printf("%" PRIu64, found.value);
    else
        printf("null");
}

static void print_json_deviations(const struct verdict *verdict, const struct reading *reading)
{
    const char *comma = "";
    unsigned bit;
    printf(",\"marks\":%" PRIu64 ",\"deviations\":[", marks_of(verdict));
    for (bit = 0; bit < EMDF_MARK_COUNT; bit++) {
        struct deviation deviation;
        if (!(marks_of(verdict) >> bit & 1))
            continue;
        deviation = deviation_at(reading, bit);
        printf("%s{\"mark\":\"%s\",\"bit\":%u,\"wanted\":\"%s\",\"found\":", comma, emdf_mark_name(bit), bit, emdf_mark_wanted(bit));
        if (deviation.is_of_both) {
            putchar('[');
            print_json_found(deviation.found);
            putchar(',');
            print_json_found(deviation.other);
            putchar(']');
        } else {
            print_json_found(deviation.found);
        }
        printf(",\"compat\":%s}", passes(&deviation, bit) ? "true" : "false");
        comma = ",";
    }
    putchar(']');
}

void print_json_verdict(const struct verdict *verdict, const struct reading *reading)
{
    printf("{\"profile\":\"%s\",\"accepted\":", profile_name(verdict->profile));
    if (verdict->number == EMDF_ACCEPTED) {
        printf("true,\"oamd\":%" PRIu64 ",\"joc\":%" PRIu64, emdf_word(verdict->answer, EMDF_OAMD_PLACE),
               emdf_word(verdict->answer, EMDF_JOC_PLACE));
    } else {
        printf("false,");
        print_json_refusal(verdict->number, emdf_word(verdict->answer, 0), emdf_word(verdict->answer, 1));
    }
    if (has_marks(verdict))
        print_json_deviations(verdict, reading);
    putchar('}');
}

/* ---- the command */

static void print_file(const struct input *input, const struct verdict *verdict, const struct reading *reading)
{
    print_text(stdout, input->name);
    printf(": ");
    print_verdict(verdict);
    if (!reading->number && reading->bytes < input->length) {
        printf("; ");
        print_count(input->length - reading->bytes, "byte");
        printf(" after the carrier");
    }
    putchar('\n');
    if (has_marks(verdict))
        print_deviations(verdict, reading);
}

static void print_json_file(const struct input *input, const struct verdict *verdict, const struct reading *reading)
{
    printf("{\"file\":");
    print_json_text(input->name);
    printf(",\"bytes\":%lu,\"trailing_bytes\":", (unsigned long)input->length);
    if (reading->number)
        printf("null");
    else
        printf("%" PRIu64, input->length - reading->bytes);
    printf(",\"verdict\":");
    print_json_verdict(verdict, reading);
    puts("}");
}

static int judge_file(const char *name, uint32_t profile, int is_json)
{
    static struct input input;
    struct reading reading;
    struct verdict verdict;
    if (!load_input(&input, name))
        return FAILED;
    read_carrier(&input, &reading);
    judge(&input, profile, &verdict);
    (is_json ? print_json_file : print_file)(&input, &verdict, &reading);
    return verdict.number ? REFUSED : DONE;
}

int command_verdict(char **words)
{
    int is_json = take_flag(words, "--json"), strict = take_flag(words, "--strict"), compat = take_flag(words, "--compat");
    int status = DONE;
    if (find_option(words))
        return usage_error("verdict", "no option %s", find_option(words));
    if (strict + compat > 1)
        return usage_error("verdict", "one of --strict and --compat");
    if (!*words)
        return usage_error("verdict", "no file is named");
    for (; *words; words++) {
        int of_file = judge_file(*words, compat ? EMDF_COMPAT : EMDF_STRICT, is_json);
        status = of_file > status ? of_file : status;
    }
    return status;
}

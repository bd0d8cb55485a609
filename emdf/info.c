/* emdf info: what stands in a file. */
#include <inttypes.h>

#include "program.h"

/* What the library says of a file. */
struct report {
    struct input input;
    uint32_t number; /* of the classification */
    uint8_t is[EMDF_CLASS_ANSWER_BYTES];
    struct reading reading;
};

static const char *const PARTS[] = {"id", "settings", "size", "body"};

/* ---- text */

static void print_class(const struct report *report)
{
    const struct input *input = &report->input;
    switch (emdf_word(report->is, EMDF_CLASS)) {
    case EMDF_PARSED:
        printf("parsed: one carrier of ");
        print_count(input->length, "byte");
        break;
    case EMDF_TRAILING_DATA:
        printf("trailing data: a carrier of ");
        print_count(emdf_word(report->is, EMDF_CLASS_CONTAINER_BYTES), "byte");
        printf(", and ");
        print_count(input->length - emdf_word(report->is, EMDF_CLASS_CONTAINER_BYTES), "byte");
        printf(" after it");
        break;
    case EMDF_MALFORMED:
        printf("malformed, ");
        print_refusal(stdout, report->number, emdf_word(report->is, EMDF_CLASS_FIRST_FIGURE),
                      emdf_word(report->is, EMDF_CLASS_SECOND_FIGURE));
        break;
    default:
        printf(input->length ? "no carrier: it starts with " : "no carrier: it is empty");
        print_hex(stdout, input->bytes, input->length < 2 ? input->length : 2);
        if (input->length)
            printf(" and not with the sync word 5838");
    }
    putchar('\n');
}

static void print_protection(const char *name, const uint8_t *bytes, size_t length)
{
    printf(", %s protection ", name);
    if (length)
        print_hex(stdout, bytes, length);
    else
        printf("none");
}

static void print_groups(uint64_t largest)
{
    if (!largest) {
        printf(", no variable field");
        return;
    }
    printf(", largest variable field ");
    print_count(largest, "group");
    if (largest > EMDF_OLDER_GROUPS)
        printf(", above the %d of older receivers", EMDF_OLDER_GROUPS);
}

static void print_container(const struct reading *reading)
{
    size_t primary_length, secondary_length;
    const uint8_t *primary = primary_of(reading, &primary_length), *secondary = secondary_of(reading, &secondary_length);
    printf("  container: ");
    print_count(reading->bytes, "byte");
    printf(", key id %" PRIu64 ", ", emdf_word(reading->answer, EMDF_KEY_ID));
    print_count(reading->count, "payload");
    print_protection("primary", primary, primary_length);
    print_protection("secondary", secondary, secondary_length);
    printf(", ");
    print_count(8 * reading->bytes - reading->padding, "bit");
    printf(" of padding");
    print_groups(emdf_word(reading->answer, EMDF_LARGEST_GROUPS));
    putchar('\n');
}

static void print_settings(const uint8_t *settings)
{
    uint64_t value;
    unsigned i;
    printf("    settings:");
    for (i = 0; i < EMDF_SETTING_COUNT; i++)
        if (emdf_setting(settings, i, &value))
            printf(" %s=%" PRIu64, emdf_setting_name(i), value);
    putchar('\n');
}

static void print_spans(const uint8_t *row)
{
    size_t i;
    printf("    spans:");
    for (i = 0; i < sizeof PARTS / sizeof *PARTS; i++)
        printf("%s %s %" PRIu64 "..%" PRIu64, i ? "," : "", PARTS[i], emdf_word(row, EMDF_ROW_ID_START_BIT + 2 * i),
               emdf_word(row, EMDF_ROW_ID_END_BIT + 2 * i));
    putchar('\n');
}

static uint64_t body_size(const uint8_t *row)
{
    return (emdf_word(row, EMDF_ROW_BODY_END_BIT) - emdf_word(row, EMDF_ROW_BODY_START_BIT)) / 8;
}

static void print_body(const struct input *input, const uint8_t *row)
{
    uint8_t first[BODY_BYTES_SHOWN];
    uint64_t start = emdf_word(row, EMDF_ROW_BODY_START_BIT);
    size_t n = body_start(input, row, first);
    printf("    body: ");
    print_count(body_size(row), "byte");
    if (start % 8)
        printf(" at bit %" PRIu64, start);
    else
        printf(" at byte %" PRIu64, start / 8);
    if (n)
        printf(": ");
    print_hex(stdout, first, n);
    puts(n < body_size(row) ? ".." : "");
}

static void print_payload(const struct report *report, size_t place)
{
    const uint8_t *row = row_at(&report->reading, place);
    const char *name = emdf_payload_name(emdf_word(row, EMDF_ROW_ID));
    uint64_t ordinal = emdf_word(row, EMDF_ROW_ORDINAL);
    printf("  payload %lu: id %" PRIu64 " (%" PRIu64 "%s)", (unsigned long)place, emdf_word(row, EMDF_ROW_ID), ordinal,
           emdf_ordinal_ending(ordinal));
    if (name)
        printf(", %s", name);
    putchar('\n');
    print_settings(settings_at(&report->reading, place));
    print_spans(row);
    print_body(&report->input, row);
}

static void print_profile(const struct report *report, uint32_t profile)
{
    struct verdict verdict;
    judge(&report->input, profile, &verdict);
    printf("  ");
    print_verdict(&verdict);
    putchar('\n');
}

static void print_report(const struct report *report)
{
    size_t place;
    print_text(stdout, report->input.name);
    printf(": ");
    print_class(report);
    if (report->reading.number)
        return;
    print_container(&report->reading);
    print_ruler(&report->reading);
    for (place = 0; place < report->reading.count; place++)
        print_payload(report, place);
    print_profile(report, EMDF_STRICT);
    print_profile(report, EMDF_COMPAT);
}

/* ---- JSON */

static void print_json_span(const char *name, uint64_t start, uint64_t end)
{
    printf("\"%s\":[%" PRIu64 ",%" PRIu64 "]", name, start, end);
}

static void print_json_hex(const char *name, const uint8_t *bytes, size_t length)
{
    printf("\"%s\":\"", name);
    print_hex(stdout, bytes, length);
    putchar('"');
}

static void print_json_container(const struct report *report)
{
    const struct reading *reading = &report->reading;
    size_t primary_length, secondary_length;
    const uint8_t *primary = primary_of(reading, &primary_length), *secondary = secondary_of(reading, &secondary_length);
    printf(",\"container\":{\"bytes\":%" PRIu64 ",\"trailing_bytes\":%" PRIu64 ",\"key_id\":%" PRIu64 ",\"payloads\":%lu,",
           reading->bytes, report->input.length - reading->bytes, emdf_word(reading->answer, EMDF_KEY_ID),
           (unsigned long)reading->count);
    print_json_hex("primary", primary, primary_length);
    putchar(',');
    print_json_hex("secondary", secondary, secondary_length);
    printf(",\"largest_groups\":%" PRIu64 ",\"spans\":{", emdf_word(reading->answer, EMDF_LARGEST_GROUPS));
    print_json_span("header", 0, 32);
    putchar(',');
    print_json_span("key", 32, reading->key_end);
    putchar(',');
    print_json_span("end_mark", reading->end_mark, reading->codes);
    putchar(',');
    print_json_span("codes", reading->codes, reading->protection);
    putchar(',');
    print_json_span("protection", reading->protection, reading->padding);
    putchar(',');
    print_json_span("padding", reading->padding, 8 * reading->bytes);
    printf("}}");
}

static void print_json_settings(const uint8_t *settings)
{
    uint64_t value;
    unsigned i;
    printf(",\"settings\":{");
    for (i = 0; i < EMDF_SETTING_COUNT; i++) {
        printf("%s\"%s\":", i ? "," : "", emdf_setting_name(i));
        if (emdf_setting(settings, i, &value))
            printf("%" PRIu64, value);
        else
            printf("null");
    }
    putchar('}');
}

static void print_json_payload(const struct report *report, size_t place)
{
    const uint8_t *row = row_at(&report->reading, place);
    const char *name = emdf_payload_name(emdf_word(row, EMDF_ROW_ID));
    uint8_t first[BODY_BYTES_SHOWN];
    size_t i, n = body_start(&report->input, row, first);
    printf("%s{\"place\":%lu,\"id\":%" PRIu64 ",\"ordinal\":%" PRIu64 ",\"name\":", place ? "," : "", (unsigned long)place,
           emdf_word(row, EMDF_ROW_ID), emdf_word(row, EMDF_ROW_ORDINAL));
    if (name)
        printf("\"%s\"", name);
    else
        printf("null");
    print_json_settings(settings_at(&report->reading, place));
    printf(",\"spans\":{");
    for (i = 0; i < sizeof PARTS / sizeof *PARTS; i++) {
        if (i)
            putchar(',');
        print_json_span(PARTS[i], emdf_word(row, EMDF_ROW_ID_START_BIT + 2 * i), emdf_word(row, EMDF_ROW_ID_END_BIT + 2 * i));
    }
    printf("},\"size\":%" PRIu64 ",", body_size(row));
    print_json_hex("first", first, n);
    putchar('}');
}

static void print_json_carrier(const struct report *report)
{
    struct verdict verdict;
    size_t place;
    print_json_container(report);
    printf(",\"payloads\":[");
    for (place = 0; place < report->reading.count; place++)
        print_json_payload(report, place);
    printf("],\"strict\":");
    judge(&report->input, EMDF_STRICT, &verdict);
    print_json_verdict(&verdict, &report->reading);
    printf(",\"compat\":");
    judge(&report->input, EMDF_COMPAT, &verdict);
    print_json_verdict(&verdict, &report->reading);
}

static void print_json_report(const struct report *report)
{
    static const char *const classes[] = {"non-emdf", "parsed", "trailing-data", "malformed"};
    uint64_t is = emdf_word(report->is, EMDF_CLASS);
    printf("{\"file\":");
    print_json_text(report->input.name);
    printf(",\"bytes\":%lu,\"class\":\"%s\"", (unsigned long)report->input.length, classes[is]);
    if (is == EMDF_MALFORMED) {
        printf(",\"refusal\":{");
        print_json_refusal(report->number, emdf_word(report->is, EMDF_CLASS_FIRST_FIGURE),
                           emdf_word(report->is, EMDF_CLASS_SECOND_FIGURE));
        putchar('}');
    }
    if (!report->reading.number)
        print_json_carrier(report);
    puts("}");
}

/* ---- the command */

static int show_file(const char *name, int is_json)
{
    static struct report report;
    if (!load_input(&report.input, name))
        return FAILED;
    report.number = emdf_classify(report.input.bytes, report.input.length, report.is);
    read_carrier(&report.input, &report.reading);
    (is_json ? print_json_report : print_report)(&report);
    return report.reading.number ? REFUSED : DONE;
}

int command_info(char **words)
{
    int is_json = take_flag(words, "--json"), status = DONE;
    if (find_option(words))
        return usage_error("info", "no option %s", find_option(words));
    if (!*words)
        return usage_error("info", "no file is named");
    for (; *words; words++) {
        int of_file = show_file(*words, is_json);
        status = of_file > status ? of_file : status;
    }
    return status;
}

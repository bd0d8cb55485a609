/* A commissioning panel in a terminal: loads a file, shows the EMDF carrier in it and gives a verdict on it.
   One command a line on standard input; HELP lists them. panel FILE [strict|compat] does all three at once and ends.
   Every answer of the library comes through emdf.h. */
#define _POSIX_C_SOURCE 200112L /* for isatty and strcasecmp */

#include <errno.h>
#include <inttypes.h>
#include <stdio.h>
#include <string.h>
#include <strings.h>
#include <unistd.h>

#include "emdf_names.h"

enum {
    /* Linux takes paths of up to 4,095 bytes; a key and blanks stand before them. */
    LINE_MOST = 4095 + 32,

    BODY_BYTES_SHOWN = 16,
    RULER_MARKS = 64
};

/* The exit status: the largest that an answer had. */
enum { FINE, REFUSED, FAILED };

struct panel {
    uint8_t file[EMDF_CARRIER_MOST + 1]; /* the byte more tells a file that is too long */
    size_t length;
    int is_loaded, is_ended, status;
    uint32_t profile;
    const char *argument; /* what stands after the key in the line */
};

/* Rows are filled by emdf_read alone, and read only as far as it filled them. */
static uint8_t table[(size_t)EMDF_PAYLOADS_MOST * EMDF_ROW_BYTES];

static void raise_status(struct panel *panel, int status)
{
    if (panel->status < status)
        panel->status = status;
}

/* ---- refusals */

/* number, words and figures by name. */
static void print_refusal(uint32_t number, const uint8_t *answer, size_t first)
{
    unsigned i;
    printf("number=%" PRIu32 " words=\"%s\"", number, emdf_refusal_text(number));
    for (i = 0; i < 2 && emdf_refusal_figure(number, i); i++) {
        int digits = emdf_refusal_figure_digits(number, i);
        printf(" %s=", emdf_refusal_figure(number, i));
        if (digits)
            printf("0x%0*" PRIx64, digits, emdf_word(answer, first + i));
        else
            printf("%" PRIu64, emdf_word(answer, first + i));
    }
    putchar('\n');
}

/* ---- INPUT */

/* ten is emdf_read's answer, or emdf_classify's after the class. */
static void print_reading(const char *title, const uint8_t *ten)
{
    uint64_t groups = emdf_word(ten, EMDF_LARGEST_GROUPS);
    printf("%s bytes=%" PRIu64 " key=%" PRIu64 " payloads=%" PRIu64 " groups=%" PRIu64 "%s", title,
           emdf_word(ten, EMDF_BYTES_CONSUMED), emdf_word(ten, EMDF_KEY_ID), emdf_word(ten, EMDF_PAYLOADS), groups,
           groups > EMDF_OLDER_GROUPS ? " above-older-receivers" : "");
}

static void print_class(struct panel *panel)
{
    uint8_t answer[EMDF_CLASS_ANSWER_BYTES];
    uint32_t number = emdf_classify(panel->file, panel->length, answer);
    switch (emdf_word(answer, EMDF_CLASS)) {
    case EMDF_NON_EMDF:
        puts("class non-emdf");
        raise_status(panel, REFUSED);
        break;
    case EMDF_PARSED:
        print_reading("class parsed", answer + 8 * EMDF_CLASS_READING);
        putchar('\n');
        break;
    case EMDF_TRAILING_DATA:
        printf("class trailing-data container=%" PRIu64 " file=%" PRIu64 "\n",
               emdf_word(answer, EMDF_CLASS_CONTAINER_BYTES), emdf_word(answer, EMDF_CLASS_CARRIER_BYTES));
        break;
    default:
        printf("class malformed ");
        print_refusal(number, answer, EMDF_CLASS_FIRST_FIGURE);
        raise_status(panel, REFUSED);
    }
}

/* NULL where the whole file was read, else why it wasn't. */
static const char *load_file(struct panel *panel)
{
    const char *failure = NULL;
    FILE *file = fopen(panel->argument, "rb");
    if (!file)
        return strerror(errno);
    panel->length = fread(panel->file, 1, sizeof panel->file, file);
    if (ferror(file))
        failure = strerror(errno);
    else if (panel->length > EMDF_CARRIER_MOST)
        failure = "longer than 65539 bytes, which no carrier is";
    fclose(file);
    return failure;
}

static void press_input(struct panel *panel)
{
    const char *failure = load_file(panel);
    /* After a failure the file before it is gone too, so that no verdict is taken for that of this one. */
    panel->is_loaded = !failure;
    if (failure) {
        printf("error input %s: %s; nothing is loaded\n", panel->argument, failure);
        raise_status(panel, FAILED);
        return;
    }
    printf("input bytes=%lu\n", (unsigned long)panel->length);
    print_class(panel);
}

/* ---- STREAM */

struct part {
    const char *name;
    char mark; /* in the ruler */
    size_t start, end; /* where they stand in a row */
};

static const struct part PARTS[] = {
    {"id", 'i', EMDF_ROW_ID_START_BIT, EMDF_ROW_ID_END_BIT},
    {"settings", 's', EMDF_ROW_CONFIG_START_BIT, EMDF_ROW_CONFIG_END_BIT},
    {"size", 'z', EMDF_ROW_SIZE_START_BIT, EMDF_ROW_SIZE_END_BIT},
    {"body", 'b', EMDF_ROW_BODY_START_BIT, EMDF_ROW_BODY_END_BIT},
};

enum { PART_COUNT = sizeof PARTS / sizeof *PARTS };

static void print_bytes(const uint8_t *bytes, size_t length)
{
    size_t i;
    if (!length)
        printf("none");
    for (i = 0; i < length; i++)
        printf("%02x", (unsigned)bytes[i]);
}

/* A protection's bytes are the last ones of its field in the answer. */
static void print_protection(const char *name, const uint8_t *answer, size_t length_place, size_t field_place)
{
    size_t length = (size_t)emdf_word(answer, length_place);
    printf(" %s=", name);
    print_bytes(answer + 8 * field_place + EMDF_PROTECTION_BYTES - length, length);
}

static void print_settings(const uint8_t *row)
{
    const uint8_t *settings = row + 8 * EMDF_ROW_HAS_SAMPLE_OFFSET;
    uint64_t value;
    unsigned i;
    printf("  settings");
    for (i = 0; i < EMDF_SETTING_COUNT; i++)
        if (emdf_setting(settings, i, &value))
            printf(" %s=%" PRIu64, emdf_setting_name(i), value);
    putchar('\n');
}

static void print_spans(const uint8_t *row)
{
    size_t i;
    printf("  spans");
    for (i = 0; i < PART_COUNT; i++)
        printf(" %s=%" PRIu64 "..%" PRIu64, PARTS[i].name, emdf_word(row, PARTS[i].start),
               emdf_word(row, PARTS[i].end));
    putchar('\n');
}

/* One scale serves the whole payload. Bits that don't fill a mark get one, so that no part vanishes. */
static void print_ruler(const uint8_t *row)
{
    uint64_t start = emdf_word(row, EMDF_ROW_ID_START_BIT), end = emdf_word(row, EMDF_ROW_BODY_END_BIT), bit;
    uint64_t bits_a_mark = (end - start + RULER_MARKS - 1) / RULER_MARKS;
    size_t i;
    printf("  ruler ");
    for (i = 0; i < PART_COUNT; i++) {
        printf("%" PRIu64 "|", emdf_word(row, PARTS[i].start));
        for (bit = emdf_word(row, PARTS[i].start); bit < emdf_word(row, PARTS[i].end); bit += bits_a_mark)
            putchar(PARTS[i].mark);
        putchar('|');
    }
    printf("%" PRIu64 " bits_a_mark=%" PRIu64 "\n", end, bits_a_mark);
}

/* The row has the body's span, so its first bytes are read there: a move call would read the whole carrier for each body. */
static void print_body(const struct panel *panel, const uint8_t *row)
{
    uint8_t first[BODY_BYTES_SHOWN], answer[EMDF_BIT_ANSWER_BYTES];
    size_t start = (size_t)emdf_word(row, EMDF_ROW_BODY_START_BIT), end = (size_t)emdf_word(row, EMDF_ROW_BODY_END_BIT);
    size_t length = (end - start) / 8, n;
    for (n = 0; n < length && n < BODY_BYTES_SHOWN; n++) {
        emdf_read_bits(panel->file, panel->length, start + 8 * n, end, 8, answer);
        first[n] = (uint8_t)emdf_word(answer, EMDF_VALUE);
    }
    printf("  body %s bytes=%lu first=", start % 8 ? "unaligned" : "aligned", (unsigned long)length);
    print_bytes(first, n);
    puts(n < length ? ".." : "");
}

static void print_payload(const struct panel *panel, size_t place)
{
    const uint8_t *row = table + place * EMDF_ROW_BYTES;
    uint64_t ordinal = emdf_word(row, EMDF_ROW_ORDINAL);
    printf("payload %lu id=%" PRIu64 " (%" PRIu64 "%s)\n", (unsigned long)place, emdf_word(row, EMDF_ROW_ID), ordinal,
           emdf_ordinal_ending(ordinal));
    print_settings(row);
    print_spans(row);
    print_ruler(row);
    print_body(panel, row);
}

static void press_stream(struct panel *panel)
{
    uint8_t answer[EMDF_READ_ANSWER_BYTES];
    uint32_t number = emdf_read(panel->file, panel->length, table, sizeof table, answer);
    size_t place;
    if (number) {
        printf("error stream: ");
        print_refusal(number, answer, 0);
        raise_status(panel, REFUSED);
        return;
    }
    print_reading("container", answer);
    print_protection("primary", answer, EMDF_PRIMARY_LENGTH, EMDF_PRIMARY);
    print_protection("secondary", answer, EMDF_SECONDARY_LENGTH, EMDF_SECONDARY);
    putchar('\n');
    for (place = 0; place < emdf_word(answer, EMDF_PAYLOADS); place++)
        print_payload(panel, place);
}

/* ---- PROFILE and COMMIT */

static const char *profile_name(const struct panel *panel)
{
    return panel->profile == EMDF_STRICT ? "strict" : "compat";
}

static void press_profile(struct panel *panel)
{
    int is_strict = !strcasecmp(panel->argument, "strict");
    if (!is_strict && strcasecmp(panel->argument, "compat")) {
        puts("error profile: strict or compat");
        raise_status(panel, FAILED);
        return;
    }
    panel->profile = is_strict ? EMDF_STRICT : EMDF_COMPAT;
    printf("profile %s\n", profile_name(panel));
}

static unsigned count_ones(uint64_t marks)
{
    unsigned ones = 0;
    for (; marks; marks &= marks - 1)
        ones++;
    return ones;
}

static void press_commit(struct panel *panel)
{
    uint8_t answer[EMDF_VERDICT_ANSWER_BYTES];
    uint32_t number = emdf_verdict(panel->file, panel->length, panel->profile, answer);
    printf("verdict %s profile=%s ", number ? "refused" : "accepted", profile_name(panel));
    if (number) {
        print_refusal(number, answer, 0);
        raise_status(panel, REFUSED);
    } else {
        printf("oamd=%" PRIu64 " joc=%" PRIu64 " marks=0x%06" PRIx64 " deviations=%u\n", emdf_word(answer, EMDF_OAMD_PLACE),
               emdf_word(answer, EMDF_JOC_PLACE), emdf_word(answer, EMDF_MARKS), count_ones(emdf_word(answer, EMDF_MARKS)));
    }
}

/* ---- the keys */

static void press_quit(struct panel *panel)
{
    panel->is_ended = 1;
}

static void press_help(struct panel *panel);

struct key {
    const char *name;
    const char *argument; /* what has to follow, or "" */
    int needs_file;
    void (*press)(struct panel *panel);
    const char *effect;
};

static const struct key KEYS[] = {
    {"INPUT", "FILE", 0, press_input, "loads a file of up to 65539 bytes; its length and class"},
    {"STREAM", "", 1, press_stream, "payloads, spans in bits, rulers (i id, s settings, z size, b body), bodies"},
    {"PROFILE", "strict|compat", 0, press_profile, "sets the policy of COMMIT, strict at the start"},
    {"COMMIT", "", 1, press_commit, "the verdict on the carrier at the file's start"},
    {"HELP", "", 0, press_help, "these lines"},
    {"QUIT", "", 0, press_quit, "ends the panel"},
};

enum { KEY_COUNT = sizeof KEYS / sizeof *KEYS };

static void press_help(struct panel *panel)
{
    size_t i;
    (void)panel;
    for (i = 0; i < KEY_COUNT; i++)
        printf("%-7s %-13s  %s\n", KEYS[i].name, KEYS[i].argument, KEYS[i].effect);
}

/* Says what is wrong with the line, 0 where nothing is. */
static int is_wrong(const struct panel *panel, const struct key *key)
{
    if (key == KEYS + KEY_COUNT)
        puts("error unknown command; HELP lists them");
    else if (!*panel->argument != !*key->argument)
        printf("error usage: %s%s%s\n", key->name, *key->argument ? " " : "", key->argument);
    else if (key->needs_file && !panel->is_loaded)
        puts("error nothing is loaded");
    else
        return 0;
    return 1;
}

static void press_key(struct panel *panel, const char *name)
{
    const struct key *key = KEYS;
    while (key < KEYS + KEY_COUNT && strcasecmp(name, key->name))
        key++;
    if (is_wrong(panel, key))
        raise_status(panel, FAILED);
    else
        key->press(panel);
}

/* ---- lines */

/* 0 at the end of the input. A line that can't be taken whole is passed over whole, and is a blank one. */
static int read_line(struct panel *panel, char *line)
{
    size_t length = 0;
    int is_whole = 1, c = getchar();
    if (c == EOF)
        return 0;
    for (; c != EOF && c != '\n'; c = getchar()) {
        if (c == '\0' || length == LINE_MOST)
            is_whole = 0;
        else
            line[length++] = (char)c;
    }
    line[is_whole ? length : 0] = '\0';
    if (!is_whole) {
        puts("error the line is too long or has a zero byte");
        raise_status(panel, FAILED);
    }
    return 1;
}

/* A blank line and a remark, which starts with #, have no answer. */
static void answer_line(struct panel *panel, char *line)
{
    static const char blanks[] = " \t\v\f\r";
    char *name = line + strspn(line, blanks), *name_end = name + strcspn(name, blanks), *end = name + strlen(name);
    while (end > name_end && strchr(blanks, end[-1]))
        *--end = '\0';
    panel->argument = name_end + strspn(name_end, blanks);
    *name_end = '\0';
    if (*name && *name != '#')
        press_key(panel, name);
}

static void answer_lines(struct panel *panel)
{
    char line[LINE_MOST + 1];
    int is_terminal = isatty(STDIN_FILENO);
    while (!panel->is_ended) {
        if (is_terminal)
            printf("panel> ");
        fflush(stdout); /* whoever drives the panel waits for the answer */
        if (!read_line(panel, line))
            break;
        answer_line(panel, line);
    }
    if (ferror(stdin))
        raise_status(panel, FAILED);
}

/* Loads, shows and judges one file. */
static void answer_file(struct panel *panel, const char *name, const char *profile)
{
    panel->argument = profile ? profile : "strict";
    press_profile(panel);
    panel->argument = name;
    if (panel->status == FINE)
        press_input(panel);
    if (!panel->is_loaded)
        return;
    press_stream(panel);
    press_commit(panel);
}

int main(int count, char **words)
{
    static struct panel panel; /* nothing is loaded, and the profile is strict */
    if (count > 3) {
        fputs("usage: panel [FILE [strict|compat]]\n", stderr);
        return FAILED;
    }
    if (count > 1)
        answer_file(&panel, words[1], count > 2 ? words[2] : NULL);
    else
        answer_lines(&panel);
    if (fflush(stdout) || ferror(stdout))
        raise_status(&panel, FAILED);
    return panel.status;
}

/* Words of the command line. */
#include <stdlib.h>
#include <string.h>

#include "program.h"

int take_output(const char *command, char **words, const char **out)
{
    char **kept = words;
    *out = NULL;
    for (; *words; words++) {
        if (strcmp(*words, "-o")) {
            *kept++ = *words;
            continue;
        }
        if (!words[1] || !*words[1])
            return usage_error(command, "-o wants a file's name"), 0;
        if (*out)
            return usage_error(command, "-o stands twice"), 0;
        *out = *++words;
    }
    *kept = NULL;
    return 1;
}

int take_flag(char **words, const char *name)
{
    char **kept = words;
    int count = 0;
    for (; *words; words++) {
        if (strcmp(*words, name))
            *kept++ = *words;
        else
            count++;
    }
    *kept = NULL;
    return count;
}

const char *find_option(char **words)
{
    while (*words && ((*words)[0] != '-' || !(*words)[1]))
        words++;
    return *words;
}

static int parse_digits(const char *text, const char *end, uint64_t *value)
{
    *value = 0;
    if (text == end)
        return 0;
    for (; text < end; text++) {
        unsigned digit = (unsigned)(*text - '0');
        if (*text < '0' || *text > '9' || *value > (UINT64_MAX - digit) / 10)
            return 0;
        *value = *value * 10 + digit;
    }
    return 1;
}

int parse_number(const char *text, uint64_t *value)
{
    return parse_digits(text, text + strlen(text), value);
}

/* A place is a number of the library's, which has the machine's width. */
int parse_payload(const char *text, struct payload *payload)
{
    const char *mark = strchr(text, '#');
    memset(payload, 0, sizeof *payload);
    payload->has_ordinal = mark != NULL;
    if (!mark)
        return parse_number(text, &payload->place) && payload->place <= SIZE_MAX;
    return parse_digits(text, mark, &payload->id) && parse_number(mark + 1, &payload->ordinal);
}

/* -1 where it is none. */
static int hex_digit(char c)
{
    static const char digits[] = "0123456789abcdef0123456789ABCDEF";
    const char *at = c ? strchr(digits, c) : NULL;
    return at ? (int)((at - digits) % 16) : -1;
}

int parse_hex(const char *text, struct octets *octets)
{
    size_t length = strcmp(text, "-") ? strlen(text) : 0, i;
    octets->length = length / 2;
    octets->bytes = (uint8_t *)malloc(octets->length + 1); /* no slice is NULL */
    if (!octets->bytes || length % 2 || !*text)
        return 0;
    for (i = 0; i < octets->length; i++) {
        int high = hex_digit(text[2 * i]), low = hex_digit(text[2 * i + 1]);
        if (high < 0 || low < 0)
            return 0;
        octets->bytes[i] = (uint8_t)(16 * high + low);
    }
    return 1;
}

const char *value_of(const char *word, const char *name)
{
    size_t length = strlen(name);
    return !strncmp(word, name, length) && word[length] == '=' ? word + length + 1 : NULL;
}

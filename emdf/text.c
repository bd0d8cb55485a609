/* Words, figures and names in what is printed. */
#include <inttypes.h>

#include "program.h"

/* How many bytes the control character at text takes, in UTF-8; 0 where none stands there. */
static size_t control_length(const unsigned char *text)
{
    if (text[0] < 0x20 || text[0] == 0x7f)
        return 1;
    return text[0] == 0xc2 && text[1] >= 0x80 && text[1] < 0xa0 ? 2 : 0;
}

void print_text(FILE *out, const char *text)
{
    const unsigned char *at = (const unsigned char *)text;
    while (*at) {
        size_t length = control_length(at);
        fputc(length ? '?' : *at, out);
        at += length ? length : 1;
    }
}

void print_count(uint64_t n, const char *noun)
{
    printf("%" PRIu64 " %s%s", n, noun, n == 1 ? "" : "s");
}

void print_hex(FILE *out, const uint8_t *bytes, size_t length)
{
    size_t i;
    for (i = 0; i < length; i++)
        fprintf(out, "%02x", (unsigned)bytes[i]);
}

/* ---- refusals */

void print_refusal(FILE *out, uint32_t number, uint64_t first, uint64_t second)
{
    const uint64_t figures[2] = {first, second};
    unsigned i;
    fprintf(out, "%" PRIu32 ": %s", number, emdf_refusal_text(number));
    for (i = 0; i < 2 && emdf_refusal_figure(number, i); i++) {
        int digits = emdf_refusal_figure_digits(number, i);
        fprintf(out, "%s%s ", i ? ", " : " (", emdf_refusal_figure(number, i));
        if (digits)
            fprintf(out, "0x%0*" PRIx64, digits, figures[i]);
        else
            fprintf(out, "%" PRIu64, figures[i]);
    }
    if (i)
        fputc(')', out);
}

int end_refused(uint32_t number, const uint8_t *answer, const char *hint)
{
    fputs(": refused, ", stderr);
    print_refusal(stderr, number, emdf_word(answer, 0), emdf_word(answer, 1));
    fprintf(stderr, "%s\n", hint);
    return REFUSED;
}

int say_refused(const char *about, uint32_t number, const uint8_t *answer, const char *hint)
{
    fputs("emdf: ", stderr);
    print_text(stderr, about);
    return end_refused(number, answer, hint);
}

void print_json_refusal(uint32_t number, uint64_t first, uint64_t second)
{
    const uint64_t figures[2] = {first, second};
    unsigned i;
    printf("\"number\":%" PRIu32 ",\"words\":\"%s\",\"figures\":{", number, emdf_refusal_text(number));
    for (i = 0; i < 2 && emdf_refusal_figure(number, i); i++)
        printf("%s\"%s\":%" PRIu64, i ? "," : "", emdf_refusal_figure(number, i), figures[i]);
    putchar('}');
}

/* ---- JSON */

/* How many bytes the UTF-8 character at text takes; 0 where none stands there. */
static size_t character_length(const unsigned char *text)
{
    size_t length = text[0] < 0x80 ? 1 : text[0] < 0xc2 ? 0 : text[0] < 0xe0 ? 2 : text[0] < 0xf0 ? 3 : text[0] < 0xf5 ? 4 : 0, i;
    for (i = 1; i < length; i++)
        if ((text[i] & 0xc0) != 0x80)
            return 0;
    /* overlong forms, surrogates, and what is above U+10FFFF */
    if ((text[0] == 0xe0 && text[1] < 0xa0) || (text[0] == 0xed && text[1] > 0x9f) || (text[0] == 0xf0 && text[1] < 0x90) ||
        (text[0] == 0xf4 && text[1] > 0x8f))
        return 0;
    return length;
}

void print_json_text(const char *text)
{
    const unsigned char *at = (const unsigned char *)text;
    putchar('"');
    while (*at) {
        size_t length = character_length(at);
        if (!length)
            printf("\\ufffd");
        else if (*at == '"' || *at == '\\')
            printf("\\%c", *at);
        else if (control_length(at))
            printf("\\u%04x", (unsigned)at[control_length(at) - 1]); /* c2 80 to c2 9f are U+0080 to U+009F */
        else
            fwrite(at, 1, length, stdout);
        at += length ? length : 1;
    }
    putchar('"');
}

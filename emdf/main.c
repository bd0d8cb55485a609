/* emdf: inspects and edits EMDF carriers in files. */
#include <stdarg.h>
#include <string.h>

#include "program.h"

struct command {
    const char *name;
    int (*run)(char **words);
    const char *usage, *effect;
};

static const struct command COMMANDS[] = {
    {"info", command_info, "[--json] FILE..", "what stands in each file"},
    {"verdict", command_verdict, "[--strict|--compat] [--json] FILE..", "whether it meets TS 103 420, and where it does not; strict if neither is named"},
    {"body", command_body, "FILE PLACE [-o OUT]", "the body of the payload at a place"},
    {"blank", command_blank, "[key=ID] [primary=HEX] [secondary=HEX] [-o OUT]", "a carrier without payloads"},
    {"edit", command_edit, "FILE -o OUT EDIT..", "edits, each on what the one before it left"},
    {"recipe", command_recipe, "make -o RECIPE EDIT..", "a file of edits: body, drop and key alone"},
    {"recipe", command_recipe, "show RECIPE", "its edits, a line each, in the words that make and edit take"},
    {"recipe", command_recipe, "apply FILE RECIPE -o OUT", "its edits on a carrier; one that is refused is said, and left out"},
};

static const char DETAILS[] =
    "\n"
    "The edits:\n"
    "  body PLACE HEX|@FILE                        another body\n"
    "  set PLACE NAME=VALUE..                      other settings; what is not named stays\n"
    "  drop PLACE                                  a payload less\n"
    "  insert PLACE id=ID [NAME=VALUE..] [body=HEX|@FILE]\n"
    "                                              a payload more, before PLACE\n"
    "  key ID                                      another key id\n"
    "  protection HEX HEX                          other primary and secondary protection\n"
    "\n"
    "FILE or RECIPE - is standard input, after -o standard output. Places count from 0.\n"
    "PLACE may be ID#ORDINAL, but not in a recipe: 40#2 is the second payload with id 40,\n"
    "of a list of edits the second in what the edits before it left.\n"
    "HEX is pairs of hexadecimal digits, or - for no bytes. NAME is a setting:\n";

static const char STATUS[] =
    "VALUE is a number, or absent. from=bare or from=profile names all ten at once.\n"
    "\n"
    "Exit status: 0 done or accepted, 1 refused, malformed or no carrier, 2 usage, input\n"
    "or output. emdf(1) has the rest.\n";

enum { COMMAND_COUNT = sizeof COMMANDS / sizeof *COMMANDS };

/* A command that takes words of several forms has a row of the table for each. */
static void print_usage(FILE *out, const char *name)
{
    size_t i;
    for (i = 0; i < COMMAND_COUNT; i++)
        if (!strcmp(name, COMMANDS[i].name))
            fprintf(out, "usage: emdf %s %s\n", name, COMMANDS[i].usage);
}

int usage_error(const char *name, const char *format, ...)
{
    char text[201]; /* a word may be long */
    va_list values;
    int length;
    va_start(values, format);
    length = vsnprintf(text, sizeof text, format, values);
    va_end(values);
    fprintf(stderr, "emdf: %s: ", name);
    print_text(stderr, text);
    fputs(length >= (int)sizeof text ? "..\n" : "\n", stderr);
    print_usage(stderr, name);
    return FAILED;
}

static int print_help(void)
{
    size_t i;
    puts("emdf inspects and edits EMDF carriers in files.\n");
    for (i = 0; i < COMMAND_COUNT; i++)
        printf("  emdf %s %s\n      %s\n", COMMANDS[i].name, COMMANDS[i].usage, COMMANDS[i].effect);
    fputs(DETAILS, stdout);
    for (i = 0; i < EMDF_SETTING_COUNT; i++)
        printf("%s%s", i % 3 ? ", " : i ? ",\n  " : "  ", emdf_setting_name((unsigned)i));
    printf(".\n%s", STATUS);
    return DONE;
}

int main(int count, char **words)
{
    size_t i;
    if (count < 2) {
        fputs("emdf: no command is named\nusage: emdf info|verdict|body|blank|edit|recipe ..; emdf --help says more\n", stderr);
        return FAILED;
    }
    if (!strcmp(words[1], "--help") || !strcmp(words[1], "help"))
        return finish_output(print_help());
    for (i = 0; i < COMMAND_COUNT; i++)
        if (!strcmp(words[1], COMMANDS[i].name))
            return finish_output(words[2] && !strcmp(words[2], "--help") ? (print_usage(stdout, words[1]), (int)DONE)
                                                                      : COMMANDS[i].run(words + 2));
    fputs("emdf: no command is called ", stderr);
    print_text(stderr, words[1]);
    fputs("\nusage: emdf info|verdict|body|blank|edit|recipe ..; emdf --help says more\n", stderr);
    return FAILED;
}

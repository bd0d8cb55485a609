/* The parts of the program emdf. Every answer about a carrier comes through emdf.h. */
#ifndef PROGRAM_H
#define PROGRAM_H

#include <stdio.h>

#include "emdf_names.h"

/* The exit status. */
enum {
    DONE = 0,    /* or accepted */
    REFUSED = 1, /* or malformed, or no carrier */
    FAILED = 2   /* usage, input or output */
};

/* After the refusal of a protection's length. */
#define PROTECTION_HINT "; primary has 1, 4 or 16 bytes, secondary 0, 1, 4 or 16"

enum {
    CARRIER_MOST = EMDF_CARRIER_MOST,
    /* A body lies in the declared bytes, which follow the first 4; no carrier has a longer one. */
    BODY_MOST = CARRIER_MOST - 4,
    BODY_BYTES_SHOWN = 16
};

/* ---- files.c */

/* "emdf: ABOUT: ..." on standard error; about may be NULL. Answers FAILED. */
int complain(const char *about, const char *format, ...);

/* A file's name as messages have it: standard input for "-". */
const char *input_title(const char *name);

/* Reads all of a file, of standard input for "-", into at most room bytes. Answers 0 and complains where it can't be read, and
   where it fills the room: limit is what is said of the length before that. Where limit is NULL it may be cut. */
int load_file(const char *name, uint8_t *bytes, size_t room, const char *limit, size_t *length);

/* Writes bytes to standard output for "-", else to a file that is complete and on disk before it takes the name. */
int save_file(const char *name, const uint8_t *bytes, size_t length);

/* Whether all of standard output was written. */
int finish_output(int status);

/* ---- text.c */

/* A text with its control characters as '?'. */
void print_text(FILE *out, const char *text);

/* A text as a string of JSON. */
void print_json_text(const char *text);

/* A number and a noun: "1 byte", "2 bytes". */
void print_count(uint64_t n, const char *noun);

void print_hex(FILE *out, const uint8_t *bytes, size_t length);

/* "15: the profile is not met (marks 0x0023e8, deviations 7)". */
void print_refusal(FILE *out, uint32_t number, uint64_t first, uint64_t second);

/* ": refused, 16: no such place" and a hint on standard error: the end of a message. Answers REFUSED. */
int end_refused(uint32_t number, const uint8_t *answer, const char *hint);

/* "emdf: ABOUT: refused, .." on standard error. Answers REFUSED. */
int say_refused(const char *about, uint32_t number, const uint8_t *answer, const char *hint);

/* The members "number", "words" and "figures" of an object of JSON. */
void print_json_refusal(uint32_t number, uint64_t first, uint64_t second);

/* ---- carrier.c */

struct input {
    const char *name;
    uint8_t bytes[CARRIER_MOST + 1]; /* the byte more tells a file that is too long */
    size_t length;
};

/* What emdf_read answered, and the rows that it filled. */
struct reading {
    uint32_t number;
    uint8_t answer[EMDF_READ_ANSWER_BYTES];
    const uint8_t *rows;
    size_t count;     /* 0 where it refused */
    uint64_t bytes;   /* of the carrier */
    uint64_t key_end; /* in bits, as all that follows */
    uint64_t end_mark, codes, protection, padding;
};

int load_input(struct input *input, const char *name);
void read_carrier(const struct input *input, struct reading *reading);
const uint8_t *row_at(const struct reading *reading, size_t place);
const uint8_t *settings_at(const struct reading *reading, size_t place);

/* The first bytes of a payload's body, at most BODY_BYTES_SHOWN; answers how many. */
size_t body_start(const struct input *input, const uint8_t *row, uint8_t *first);

/* A protection's bytes, and their number. */
const uint8_t *primary_of(const struct reading *reading, size_t *length);
const uint8_t *secondary_of(const struct reading *reading, size_t *length);

/* A payload as words name it: by its place or, where has_ordinal, as the ordinal-th of its id. */
struct payload {
    int has_ordinal;
    uint64_t place, id, ordinal;
};

/* The place of a payload in the carrier that is read; one that words name by its place has it already. Answers the refusal's
   number, or 0; where it refuses the place is one that no carrier has. */
uint32_t find_place(const struct input *input, struct payload *payload, uint8_t answer[EMDF_FIND_ANSWER_BYTES]);

/* ---- verdict.c */

struct verdict {
    uint32_t profile, number;
    uint8_t answer[EMDF_VERDICT_ANSWER_BYTES];
};

void judge(const struct input *input, uint32_t profile, struct verdict *verdict);
const char *profile_name(uint32_t profile);

/* "accepted by strict: ..." or "refused by strict, 15: ...", without an end of line. */
void print_verdict(const struct verdict *verdict);

/* An object of JSON, the deviations with what was found in it. */
void print_json_verdict(const struct verdict *verdict, const struct reading *reading);

/* ---- ruler.c */

void print_ruler(const struct reading *reading);

/* ---- the commands: words are what follows the command's name; each answers an exit status */

int command_info(char **words);
int command_verdict(char **words);
int command_body(char **words);
int command_blank(char **words);
int command_edit(char **words);
int command_recipe(char **words);

/* "emdf: COMMAND: ..." and the command's usage. Answers FAILED. */
int usage_error(const char *command, const char *format, ...);

/* ---- arguments.c */

/* Takes "-o OUT" out of words. OUT stays NULL where it isn't there. Answers 0 where OUT is missing or named twice. */
int take_output(const char *command, char **words, const char **out);

/* Takes the option out of words. Answers how often it was there. */
int take_flag(char **words, const char *name);

/* A word that starts with - and is more than that, or NULL. */
const char *find_option(char **words);

/* 0 where the text is no decimal number of 64 bits. */
int parse_number(const char *text, uint64_t *value);

/* PLACE or ID#ORDINAL. 0 where the text is neither. */
int parse_payload(const char *text, struct payload *payload);

struct octets {
    uint8_t *bytes; /* its own, to be freed */
    size_t length;
};

/* Pairs of hexadecimal digits, "-" for none. 0 where the text is neither. */
int parse_hex(const char *text, struct octets *octets);

/* The value of a word "name=value", or NULL where it has another name. */
const char *value_of(const char *word, const char *name);

/* ---- edit.c */

struct edit;

/* The carrier so far, and where the next one goes. */
struct carriers {
    struct input source;
    uint8_t destination[CARRIER_MOST];
    uint8_t answer[EMDF_EDIT_ANSWER_BYTES];
};

struct kind {
    const char *name;
    unsigned in_recipe; /* its number there; 0 where a recipe has none */
    int (*parse)(struct edit *edit);
    uint32_t (*run)(struct carriers *c, const struct edit *edit);
};

struct edit {
    const char *command; /* whose words they are */
    const struct kind *kind;
    char **words; /* its name, and what follows it up to the next edit; NULL where it comes from a recipe */
    size_t count;
    struct payload payload; /* before which one an insert stands */
    uint64_t id; /* of an insert's payload, or a key */
    const uint8_t *base; /* the settings that it starts from; NULL: those of the payload */
    uint8_t values[EMDF_SETTINGS_BYTES]; /* where is_named */
    int is_named[EMDF_SETTING_COUNT];
    struct octets octets, secondary; /* a body, which is the file's where it comes from a recipe; or the protections */
};

struct edits {
    struct edit *list; /* to be freed by free_edits */
    size_t count;
};

/* NULL where no edit is called so, or has this number in a recipe. */
const struct kind *find_kind(const char *name);
const struct kind *find_recipe_kind(unsigned number);

/* Takes words, of which there are some, as edits for a command. Answers 0 after a complaint. */
int parse_edits(const char *command, char **words, struct edits *edits);
void free_edits(struct edits *edits);

/* An edit that a recipe may hold, in the words that are parsed; of a body's octets at most so many, and then "..". */
void print_edit(FILE *out, const struct edit *edit, size_t octets_shown);

/* Makes an edit, and the carrier that it writes the next one's source. Answers the refusal's number, or 0. */
uint32_t run_edit(struct carriers *c, const struct edit *edit);

/* Whether a refusal comes from reading the source, so that every edit of it is refused so. */
int is_of_source(uint32_t number);

/* Says of the source or of the i-th edit, counted from 0, what run_edit answered. Answers REFUSED. */
int say_edit_refused(const struct carriers *c, const struct edit *edit, size_t i, uint32_t number);

#endif

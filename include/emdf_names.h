/* Words and names for the numbers of emdf.h: refusals and their figures, settings, marks, known payload ids, ordinals.
   They stand in emdf_names.c, a file of tables that a host compiles beside its own. */
#ifndef EMDF_NAMES_H
#define EMDF_NAMES_H

#include "emdf.h"

#ifdef __cplusplus
extern "C" {
#endif

/* A refusal in words. */
const char *emdf_refusal_text(uint32_t number);

/* The name of a refusal's first (i = 0) or second (i = 1) figure; NULL where it has none. */
const char *emdf_refusal_figure(uint32_t number, unsigned i);

/* How many hexadecimal digits the figure is best shown with; 0 where it is a number to count by. */
int emdf_refusal_figure_digits(uint32_t number, unsigned i);

/* The ten settings in their order in a row: the name, as emdf.h has it in its constants; NULL from 10 on. */
#define EMDF_SETTING_COUNT 10
const char *emdf_setting_name(unsigned i);

/* The setting i of settings bytes. Returns 1 and its value where it is present; else 0, with the value 0. */
int emdf_setting(const uint8_t *settings, unsigned i, uint64_t *value);

/* Whether setting i can be absent: codec_data_present and discard_unknown_payload can't. */
int emdf_setting_is_optional(unsigned i);

/* Makes setting i of settings bytes present with a value, or absent; one that can't be absent becomes 0 then. */
void emdf_put_setting(uint8_t *settings, unsigned i, int is_present, uint64_t value);

/* Settings that are writable: everything absent and discard_unknown_payload 1; and what the profile wants, with group_id 0. */
extern const uint8_t emdf_settings_bare[EMDF_SETTINGS_BYTES];
extern const uint8_t emdf_settings_profile[EMDF_SETTINGS_BYTES];

/* The 21 marks of a verdict, by their bit: the name, as emdf.h has it in its constants, and what is wanted; NULL from 21 on. */
#define EMDF_MARK_COUNT 21
const char *emdf_mark_name(unsigned bit);
const char *emdf_mark_wanted(unsigned bit);

/* Whether compat lets the mark pass where its setting was found so. */
int emdf_mark_passes_compat(unsigned bit, int is_present, uint64_t value);

/* What the payloads of an id are called: 11 "OAMD", 14 "JOC"; NULL for another id. */
const char *emdf_payload_name(uint64_t id);

/* What stands behind the digits of an ordinal: "st", "nd", "rd" or "th", as in 1st, 2nd, 3rd, 11th. */
const char *emdf_ordinal_ending(uint64_t ordinal);

#ifdef __cplusplus
}
#endif

#endif

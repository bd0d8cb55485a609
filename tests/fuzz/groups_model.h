/* How many groups variable fields have, by the scope's definition and from values alone. */
#ifndef GROUPS_MODEL_H
#define GROUPS_MODEL_H

#include "input.h"

/* The variable fields of a carrier: of its key id, and of each payload. */
enum field { FIELD_KEY, FIELD_ID, FIELD_DURATION, FIELD_GROUP_ID, FIELD_SIZE };

/* The groups of a field that has this value. */
uint64_t groups_of(size_t width, uint64_t value);

/* Calls `take` with each field that stands in a carrier that was read, and its groups. */
void each_field(const struct reading *own, void (*take)(void *with, enum field field, uint64_t groups), void *with);

/* The most that a field of a carrier has, 0 where there is none. */
uint64_t largest_groups(const struct reading *own);

/* Whether the call's answer has a number of groups, and which number it is. */
int has_groups(enum call call);
size_t groups_word(enum call call);

/* Whether that number counts in this answer, and is not just 0: where the call accepts, and says that a carrier is parsed. */
int counts_groups(enum call call, uint32_t number, const uint8_t *answer);

#endif

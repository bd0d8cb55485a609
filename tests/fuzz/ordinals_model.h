/* Which of the payloads of its id a payload is, by the scope's definition and from the ids of rows alone. */
#ifndef ORDINALS_MODEL_H
#define ORDINALS_MODEL_H

#include "input.h"

/* Hands over the place and the ordinal of each payload of a carrier that was read. */
void each_ordinal(const struct reading *own, void (*take)(void *with, size_t place, uint64_t ordinal), void *with);

/* The place of the ordinal-th payload with an id; as many as there are payloads where none is that. */
size_t place_of_ordinal(const struct reading *own, uint64_t id, uint64_t ordinal);

#endif

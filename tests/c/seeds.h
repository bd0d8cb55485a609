/* Carriers to begin with: the scope's, and some that the library writes from a blank one. */
#ifndef SEEDS_H
#define SEEDS_H

#include <stddef.h>
#include <stdint.h>

/* Hands each carrier to `take`, with what `with` is. */
void seed_carriers(void (*take)(void *with, const uint8_t *bytes, size_t length), void *with);

/* A setting that has a presence: 1 and its value, or 0 and 0. */
void put_setting(uint8_t *settings, size_t i, int is_present, uint64_t value);

/* Settings of a kind: 0 the shortest; 1 discard; 2 every number at its most; 3 as the profile wants them. */
void seed_settings(uint8_t *settings, unsigned kind);

/* A carrier of this many payloads with bodies of these lengths, ids and key ids of 64 bits where `is_wide`. Its length. */
size_t seed_carrier(uint8_t *carrier, unsigned payloads, size_t body_length, int is_wide);

/* A carrier of this many payloads without bodies, whose ids are so many numbers from `first` on, by turns. Its length. */
size_t turning_carrier(uint8_t *carrier, unsigned payloads, uint64_t first, unsigned ids);

/* A carrier of one payload, with a body of at most 255 bytes, which it has from its byte WRAPPED_AT on. Its length. */
enum { WRAPPED_AT = 7, WRAPPED_MOST = 255 };
size_t wrapped_carrier(uint8_t *carrier, const uint8_t *body, size_t body_length);

#endif

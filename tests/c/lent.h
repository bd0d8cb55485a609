/* Memory that is lent to the library: between unreadable pages and among bytes that are looked at after each call. */
#ifndef LENT_H
#define LENT_H

#include <stddef.h>
#include <stdint.h>

/* Where a slice lies: with its last byte before an unreadable page, or with its first byte after one. */
enum side { AT_END, AT_START };

/* The caller writes through one view; the library gets the other one, which can't be written. */
struct shown {
    uint8_t *written;
    const uint8_t *read;
    size_t size;
};

/* Filled with a pattern, of which a copy is kept. */
struct filled {
    uint8_t *bytes;
    uint8_t *pattern;
    size_t size;
};

/* Memory that can't be had ends the run with 2. */
void *must_have(void *memory);

/* So many bytes that are zero, in whole pages, between two others that nobody may touch. */
uint8_t *guarded_memory(size_t size);

struct shown shown_memory(size_t size);
struct filled filled_memory(size_t size, uint8_t flip);

/* The slice with these bytes, as the library sees it. */
const uint8_t *show(const struct shown *m, const uint8_t *bytes, size_t length, enum side side);

/* A slice of the filled memory. */
uint8_t *lend(const struct filled *m, size_t length, enum side side);

/* Whether every byte around the slice, and of the slice from `from` on, is as it was. */
int is_unchanged(const struct filled *m, const uint8_t *slice, size_t length, size_t from);

/* The slice's bytes are the pattern again. */
void refill(const struct filled *m, uint8_t *slice, size_t length);

#endif

#define _GNU_SOURCE /* for memfd_create */

#include "lent.h"

#include <stdio.h>
#include <stdlib.h>
#include <string.h>
#include <sys/mman.h>
#include <unistd.h>

/* How far around a slice its neighbours are looked at. */
enum { MARGIN = 1024 };

void *must_have(void *memory)
{
    if (memory == MAP_FAILED || memory == NULL) {
        perror("memory for the run");
        exit(2);
    }
    return memory;
}

static size_t in_pages(size_t size)
{
    size_t page = (size_t)sysconf(_SC_PAGESIZE);

    return (size + page - 1) / page * page;
}

/* Room for so many bytes, whole pages, between two others that nobody may touch. */
static uint8_t *between_pages(size_t size)
{
    size_t page = (size_t)sysconf(_SC_PAGESIZE);
    uint8_t *p = must_have(mmap(NULL, size + 2 * page, PROT_NONE, MAP_PRIVATE | MAP_ANONYMOUS, -1, 0));

    return p + page;
}

uint8_t *guarded_memory(size_t size)
{
    int flags = MAP_PRIVATE | MAP_ANONYMOUS | MAP_FIXED;

    return must_have(mmap(between_pages(size), size, PROT_READ | PROT_WRITE, flags, -1, 0));
}

struct shown shown_memory(size_t size)
{
    struct shown m;
    int file = memfd_create("shown", 0);

    m.size = in_pages(size);
    if (file < 0 || ftruncate(file, (off_t)m.size) != 0)
        must_have(NULL);
    m.written = must_have(mmap(NULL, m.size, PROT_READ | PROT_WRITE, MAP_SHARED, file, 0));
    m.read = must_have(mmap(between_pages(m.size), m.size, PROT_READ, MAP_SHARED | MAP_FIXED, file, 0));
    close(file);
    return m;
}

struct filled filled_memory(size_t size, uint8_t flip)
{
    struct filled m;
    size_t i;

    m.size = in_pages(size);
    m.bytes = guarded_memory(m.size);
    m.pattern = must_have(malloc(m.size));
    for (i = 0; i < m.size; i++)
        m.pattern[i] = (uint8_t)((i * 167 + (i >> 8) * 29 + 91) ^ flip);
    memcpy(m.bytes, m.pattern, m.size);
    return m;
}

const uint8_t *show(const struct shown *m, const uint8_t *bytes, size_t length, enum side side)
{
    size_t start = side == AT_END ? m->size - length : 0;

    if (length > 0)
        memcpy(m->written + start, bytes, length);
    return m->read + start;
}

uint8_t *lend(const struct filled *m, size_t length, enum side side)
{
    return m->bytes + (side == AT_END ? m->size - length : 0);
}

int is_unchanged(const struct filled *m, const uint8_t *slice, size_t length, size_t from)
{
    size_t start = (size_t)(slice - m->bytes);
    size_t low = start < MARGIN ? 0 : start - MARGIN;
    size_t high = m->size - (start + length) < MARGIN ? m->size : start + length + MARGIN;

    return memcmp(m->bytes + low, m->pattern + low, start - low) == 0 &&
           memcmp(slice + from, m->pattern + start + from, high - (start + from)) == 0;
}

void refill(const struct filled *m, uint8_t *slice, size_t length)
{
    memcpy(slice, m->pattern + (slice - m->bytes), length);
}

#include "ordinals_model.h"

#include <stdlib.h>

struct named {
    uint64_t id;
    size_t place;
};

static size_t payloads_of(const struct reading *own)
{
    return own->number == 0 ? (size_t)emdf_word(own->answer, EMDF_PAYLOADS) : 0;
}

static int by_id_and_place(const void *one, const void *other)
{
    const struct named *a = one, *b = other;

    if (a->id != b->id)
        return a->id < b->id ? -1 : 1;
    return a->place < b->place ? -1 : a->place > b->place;
}

/* In the order of ids, and of places within an id, the ordinal is the count since the id began. */
void each_ordinal(const struct reading *own, void (*take)(void *with, size_t place, uint64_t ordinal), void *with)
{
    static struct named all[EMDF_PAYLOADS_MOST];
    size_t count = payloads_of(own), i;
    uint64_t ordinal = 0;

    for (i = 0; i < count; i++) {
        all[i].id = emdf_word(row_of(own, i), EMDF_ROW_ID);
        all[i].place = i;
    }
    qsort(all, count, sizeof all[0], by_id_and_place);
    for (i = 0; i < count; i++) {
        ordinal = i > 0 && all[i].id == all[i - 1].id ? ordinal + 1 : 1;
        take(with, all[i].place, ordinal);
    }
}

size_t place_of_ordinal(const struct reading *own, uint64_t id, uint64_t ordinal)
{
    size_t count = payloads_of(own), place;
    uint64_t met = 0;

    for (place = 0; place < count; place++)
        if (emdf_word(row_of(own, place), EMDF_ROW_ID) == id && ++met == ordinal)
            return place;
    return count;
}

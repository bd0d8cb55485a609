#include "recipe_model.h"

size_t first_record(const struct slice *file)
{
    return (size_t)number_of(file->bytes, 2);
}

/* The place is anything, and of a drop the data, too. */
static int is_in_form(const struct record *e, uint64_t file_length)
{
    if (e->kind < EMDF_RECIPE_BODY || e->kind > EMDF_RECIPE_KEY || e->zero != 0)
        return 0;
    if (e->kind == EMDF_RECIPE_DROP)
        return 1;
    if (e->kind == EMDF_RECIPE_KEY && e->length != 8)
        return 0;
    return (uint64_t)e->offset + e->length <= file_length;
}

static uint32_t judge_record(const struct slice *file, size_t count, size_t index)
{
    struct record e;

    if (file->length < 4 + 16 * index)
        return EMDF_BROKEN_CHAIN;
    e = record_at(file->bytes, index);
    if (e.next != 0 && (e.next <= index || e.next > count))
        return EMDF_BROKEN_CHAIN;
    return is_in_form(&e, file->length) ? EMDF_ACCEPTED : EMDF_INVALID_RECORD;
}

/* A next index is above its record's, so the chain ends. */
uint32_t judge_recipe(const struct slice *file, size_t *edits)
{
    size_t index, count;

    *edits = 0;
    if (file->length < 4)
        return EMDF_BROKEN_CHAIN;
    index = first_record(file);
    count = (size_t)number_of(file->bytes + 2, 2);
    if (index > count)
        return EMDF_BROKEN_CHAIN;
    while (index != 0) {
        uint32_t number = judge_record(file, count, index);
        if (number != EMDF_ACCEPTED)
            return number;
        ++*edits;
        index = record_at(file->bytes, index).next;
    }
    return EMDF_ACCEPTED;
}

uint32_t single_edit(const struct slice *file, const struct record *e, const struct slice *source,
                     const struct buffer *destination, uint8_t *answer)
{
    const uint8_t *s = source->bytes;
    uint8_t *d = destination->bytes;
    size_t n = source->length, room = destination->length;

    switch (e->kind) {
    case EMDF_RECIPE_BODY:
        return emdf_edit_body(s, n, e->place, file->bytes + e->offset, e->length, d, room, answer);
    case EMDF_RECIPE_DROP:
        return emdf_edit_drop(s, n, e->place, d, room, answer);
    default:
        return emdf_edit_key(s, n, number_of(file->bytes + e->offset, 8), d, room, answer);
    }
}

struct ran run_singly(const struct slice *source, const struct slice *file, const struct buffer *buffers)
{
    struct ran ran = {{EMDF_IN_SOURCE, 0, 0}, {0, 0}};
    struct slice held = *source;
    size_t index = first_record(file);

    while (index != 0) {
        struct record e = record_at(file->bytes, index);
        /* Into the one that doesn't hold the edit's source, the first where neither holds it. */
        size_t to = ran.words[EMDF_HOLDER] == EMDF_IN_FIRST ? 1 : 0;
        uint8_t answer[EMDF_EDIT_ANSWER_BYTES];

        if (single_edit(file, &e, &held, &buffers[to], answer) == EMDF_ACCEPTED) {
            held.bytes = buffers[to].bytes;
            held.length = (size_t)emdf_word(answer, EMDF_WRITTEN_LENGTH);
            ran.words[EMDF_HOLDER] = to == 0 ? EMDF_IN_FIRST : EMDF_IN_SECOND;
            if (held.length > ran.longest[to])
                ran.longest[to] = held.length;
        } else {
            ran.words[EMDF_REFUSED_EDITS]++;
        }
        index = e.next;
    }
    ran.words[EMDF_HELD_LENGTH] = held.length;
    return ran;
}

/* Recipes by the scope: whether a file is one, and what its edits leave when each is a call of its own. */
#ifndef RECIPE_MODEL_H
#define RECIPE_MODEL_H

#include "calls.h"
#include "recipes.h"

/* 0 and how many edits the recipe has, or its refusal. */
uint32_t judge_recipe(const struct slice *file, size_t *edits);

/* The first record of a chain, or 0. */
size_t first_record(const struct slice *file);

struct buffer {
    uint8_t *bytes;
    size_t length;
};

/* The edit of a record by itself. */
uint32_t single_edit(const struct slice *file, const struct record *e, const struct slice *source,
                     const struct buffer *destination, uint8_t *answer);

struct ran {
    uint64_t words[3];    /* as the run answers them */
    size_t longest[2];    /* of what was written to each buffer */
};

/* The edits of a recipe that isn't refused, one by one in two buffers. */
struct ran run_singly(const struct slice *source, const struct slice *file, const struct buffer *buffers);

#endif

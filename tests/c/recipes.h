/* Recipes of edits on file: their form, and some to begin with. */
#ifndef RECIPES_H
#define RECIPES_H

#include <stddef.h>
#include <stdint.h>

#include "emdf.h"

/* A record's fields, in their order on file. */
struct record {
    uint32_t next, kind, zero, place, offset, length;
};

/* A number on file: so many bytes, the most significant first. */
uint64_t number_of(const uint8_t *bytes, size_t count);
void put_number(uint8_t *bytes, size_t count, uint64_t v);

/* How many whole records a file of so many bytes has. */
size_t records_in(size_t length);

/* The head of a file, and a record of it, counted from 1. */
void put_head(uint8_t *file, size_t first, size_t count);
void put_record(uint8_t *file, size_t index, const struct record *e);
struct record record_at(const uint8_t *file, size_t index);

/* A chain of so many edits, of each kind some, with its data behind the records. Its length. */
enum { DATA_BYTES = 16 };
#define CHAIN_BYTES(edits) (EMDF_RECIPE_HEAD_BYTES + EMDF_RECIPE_RECORD_BYTES * (edits) + DATA_BYTES)
size_t chain_recipe(uint8_t *file, unsigned edits);

typedef void (*recipe_taker)(void *with, const uint8_t *file, size_t length);

/* Hands each recipe to `take`, with what `with` is: some that are run; some that are refused, for each reason there is. */
void run_recipes(recipe_taker take, void *with);
void refused_recipes(recipe_taker take, void *with);

#endif

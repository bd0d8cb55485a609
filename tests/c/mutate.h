/* Inputs made of earlier ones. */
#ifndef MUTATE_H
#define MUTATE_H

#include "input.h"

struct random {
    uint64_t state;
};

uint64_t draw(struct random *random);
size_t draw_below(struct random *random, size_t n);

/* Byte strings that are kept; when there are `most` of them, a new one takes an old one's place. */
struct pool {
    struct slice *items;
    size_t count, most;
};

struct corpus {
    struct pool inputs, carriers;
    struct random random;
};

/* One that is empty, for so many inputs and carriers. */
struct corpus new_corpus(uint64_t seed, size_t inputs_most, size_t carriers_most);

void keep_input(struct corpus *corpus, const struct input *in);
void keep_carrier(struct corpus *corpus, const uint8_t *bytes, size_t length);

/* What is done with an input, with what `with` is. */
typedef void (*input_taker)(void *with, const struct input *in);

/* Hands over three inputs of each call on a carrier: everything else zero; every argument large; and so with a short body. Of the
   calls on a recipe it hands over some for each recipe to begin with, and of the one that finds a payload some ids and ordinals
   more. */
void each_input(const uint8_t *carrier, size_t length, input_taker take, void *with);

/* Keeps each seed carrier of at most `longest` bytes, keeps each input of it, and hands the input over unless take is NULL. */
void add_seeds(struct corpus *corpus, size_t longest, input_taker take, void *with);

/* Makes a new input of a corpus that isn't empty. */
void mutate(struct input *in, struct corpus *corpus);

/* Changes the recipe of an input. */
void change_recipe(struct input *in, struct random *random);

#endif

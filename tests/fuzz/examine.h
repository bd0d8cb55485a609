/* Puts an input to the library and checks what it did. */
#ifndef EXAMINE_H
#define EXAMINE_H

#include "input.h"

/* The library; the self-check puts wrong ones here. */
extern uint32_t (*library_call)(const struct request *);

/* Inputs examined, calls made, and bit n of each call where it returned n. */
extern uint64_t inputs_run, calls_made;
extern uint32_t outcomes_seen[CALLS];

void prepare_memory(void);

/* Returns whether a call returned a number that it hadn't before. The carrier that an edit or a recipe left is `edited_length`
   bytes at `edited`, or 0. A failure doesn't return. */
int examine(const struct input *in);

extern const uint8_t *edited;
extern size_t edited_length;

/* Reports what went wrong in the present input, which is kept in a file, and ends the run with 1. */
void failed(const char *what);

/* The input that a failure is reported of, and the file for it. */
extern const struct input *present_input;
extern const char *failure_path;

#endif

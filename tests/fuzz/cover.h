/* Which basic blocks of the library were reached: a breakpoint on each one's first instruction, taken away when it is met. */
#ifndef COVER_H
#define COVER_H

/* Reads the blocks' addresses from a file that blocks.awk wrote, and sets the breakpoints. */
void cover_start(const char *path);

/* How many blocks there are, and how many were reached. */
extern unsigned blocks_in_all, blocks_reached;

/* The blocks that were not reached, one a line. */
void cover_print_missed(void);

#endif

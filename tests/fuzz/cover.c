#define _GNU_SOURCE /* for the registers in a signal's context */

#include "cover.h"

#include <stdio.h>
#include <stdlib.h>
#include <ucontext.h>

#include "traps.h"

enum { BLOCKS_MOST = 8192, NAME_MOST = 96 };

struct block {
    uintptr_t address;
    uint8_t first_byte;
    int is_reached;
    char function[NAME_MOST];
};

unsigned blocks_in_all, blocks_reached;
static struct block blocks[BLOCKS_MOST];

#if defined(__x86_64__)

static int by_address(const void *a, const void *b)
{
    uintptr_t x = ((const struct block *)a)->address, y = ((const struct block *)b)->address;

    return (x > y) - (x < y);
}

static struct block *block_at(uintptr_t address)
{
    size_t low = 0, high = blocks_in_all;

    while (low < high) {
        size_t middle = (low + high) / 2;
        if (blocks[middle].address < address)
            low = middle + 1;
        else
            high = middle;
    }
    return low < blocks_in_all && blocks[low].address == address ? &blocks[low] : NULL;
}

/* The instruction's own byte is put back, and the instruction is run. */
static void on_trap(int number, siginfo_t *info, void *context)
{
    greg_t *ip = &((ucontext_t *)context)->uc_mcontext.gregs[REG_RIP];
    struct block *b = block_at((uintptr_t)*ip - 1);

    (void)info;
    if (b == NULL || b->is_reached) {
        /* A trap of somebody else's. */
        signal(number, SIG_DFL);
        return;
    }
    b->is_reached = 1;
    blocks_reached++;
    *(volatile uint8_t *)b->address = b->first_byte;
    *ip -= 1;
}

static void read_blocks(const char *path)
{
    FILE *file = fopen(path, "r");
    unsigned long long address;

    if (file == NULL) {
        perror(path);
        exit(2);
    }
    while (blocks_in_all < BLOCKS_MOST && fscanf(file, "%llx %95s", &address, blocks[blocks_in_all].function) == 2)
        blocks[blocks_in_all++].address = (uintptr_t)address;
    fclose(file);
    qsort(blocks, blocks_in_all, sizeof blocks[0], by_address);
}

static void set_breakpoints(void)
{
    unsigned i;

    for (i = 0; i < blocks_in_all; i++) {
        uint8_t *first = (uint8_t *)blocks[i].address;
        blocks[i].first_byte = *first;
        *first = BREAKPOINT;
    }
}

void cover_start(const char *path)
{
    read_blocks(path);
    if (blocks_in_all == 0)
        return;
    handle_signal(SIGTRAP, on_trap);
    /* Some systems forbid it; the checks hold without knowing what is reached. */
    if (open_code(blocks[0].address, blocks[blocks_in_all - 1].address)) {
        set_breakpoints();
    } else {
        perror("fuzz: no breakpoints in the library");
        blocks_in_all = 0;
    }
}

#else

/* Breakpoints are a matter of the processor; elsewhere inputs are drawn without knowing what they reach. */
void cover_start(const char *path)
{
    (void)path;
}

#endif

void cover_print_missed(void)
{
    unsigned i;

    for (i = 0; i < blocks_in_all; i++)
        if (!blocks[i].is_reached)
            printf("missed %lx %s\n", (unsigned long)blocks[i].address, blocks[i].function);
}

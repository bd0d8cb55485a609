/* The stack that each exported call takes: it runs on a stack filled with a pattern, which tells how far down it wrote.
   Small inputs are also run step by step, which tells how far down the stack pointer went. */
#define _GNU_SOURCE /* for the registers in a signal's context */

#include <stdio.h>
#include <stdlib.h>
#include <string.h>
#include <ucontext.h>

#include "lent.h"
#include "mutate.h"
#include "recipes.h"
#include "seeds.h"
#include "traps.h"

#if !defined(__x86_64__)
#error "the stack is measured by breakpoints of x86-64"
#endif

enum { STACK = 1 << 15, ROOM = SOURCE_MOST + 1200 * EMDF_ROW_BYTES };

typedef void (*code)(void);

static const code ENTRIES[CALLS] = {
    (code)emdf_bit_cursor, (code)emdf_bits_remaining, (code)emdf_read_bits, (code)emdf_read_bit, (code)emdf_take_bits,
    (code)emdf_byte_align, (code)emdf_variable_bits, (code)emdf_classify, (code)emdf_read,
    (code)emdf_find_payload, (code)emdf_move_body, (code)emdf_verdict, (code)emdf_edit_body, (code)emdf_edit_settings,
    (code)emdf_edit_drop, (code)emdf_edit_insert, (code)emdf_edit_key, (code)emdf_edit_protection, (code)emdf_blank,
    (code)emdf_check_recipe, (code)emdf_run_recipe,
};

struct measured {
    size_t written;  /* from the return address down to the lowest byte that changed */
    size_t reserved; /* from there down to the lowest stack pointer */
    size_t frames;   /* an upper bound of that, from the machine code */
    uint64_t inputs;
    const char *deepest;
};

static struct measured most[CALLS];
static const char *present_name;
static int is_stepped = 1;

static uint8_t *stack;
static ucontext_t here, there;
static struct request present;
static uint32_t returned;

/* ---- where the call begins */

enum { TRAP_FLAG = 0x100, STEPPED_MOST = 300 };

static uint8_t *entry;
static uint8_t entry_byte;
static uintptr_t entry_stack, lowest_pointer;
static int wants_steps, is_stepping;

/* One instruction further; the return takes the last word off. */
static void on_step(greg_t *registers)
{
    uintptr_t pointer = (uintptr_t)registers[REG_RSP];

    if (pointer < lowest_pointer)
        lowest_pointer = pointer;
    if (pointer >= entry_stack) {
        is_stepping = 0;
        registers[REG_EFL] &= ~TRAP_FLAG;
    }
}

/* Has a stack of its own, so that it writes nothing on the measured one. */
static void on_trap(int number, siginfo_t *info, void *context)
{
    greg_t *registers = ((ucontext_t *)context)->uc_mcontext.gregs;

    (void)number;
    (void)info;
    if (is_stepping) {
        on_step(registers);
        return;
    }
    *(volatile uint8_t *)entry = entry_byte;
    registers[REG_RIP] -= 1;
    /* The return address lies there already, and counts. */
    lowest_pointer = (uintptr_t)registers[REG_RSP];
    entry_stack = lowest_pointer + sizeof(void *);
    if (wants_steps) {
        is_stepping = 1;
        registers[REG_EFL] |= TRAP_FLAG;
    }
}

static void set_breakpoint(enum call call)
{
    memcpy(&entry, &ENTRIES[call], sizeof entry);
    if (!open_code((uintptr_t)entry, (uintptr_t)entry)) {
        perror("a breakpoint in the library");
        exit(2);
    }
    entry_byte = *entry;
    *(volatile uint8_t *)entry = BREAKPOINT;
}

/* ---- one call */

static void run_there(void)
{
    returned = make_call(&present);
}

static size_t measure_with(uint8_t filling)
{
    size_t low = 0;

    memset(stack, filling, STACK);
    set_breakpoint(present.call);
    getcontext(&there);
    there.uc_stack.ss_sp = stack;
    there.uc_stack.ss_size = STACK;
    there.uc_link = &here;
    makecontext(&there, run_there, 0);
    swapcontext(&here, &there);
    while (low < STACK && stack[low] == filling)
        low++;
    return (size_t)(entry_stack - (uintptr_t)(stack + low));
}

/* A recipe of one edit goes as deep as any. */
static int is_small(const struct request *r)
{
    return r->source.length + r->body.length <= STEPPED_MOST && (!is_recipe(r->call) || r->body.length <= CHAIN_BYTES(1));
}

/* Twice, since a byte that is written may be the pattern's. */
static void measure(const struct request *r)
{
    static uint8_t room[ROOM], second[ROOM], answer[ANSWER_MOST];
    struct measured *m = &most[r->call];
    size_t one, other;

    present = *r;
    present.room = room;
    present.second = second;
    present.answer = answer;
    wants_steps = 0;
    one = measure_with(0xa7);
    wants_steps = is_stepped && is_small(r);
    other = measure_with(0x58);
    if (other > one)
        one = other;
    if (entry_stack - lowest_pointer > m->reserved)
        m->reserved = entry_stack - lowest_pointer;
    if (one > m->written) {
        m->written = one;
        m->deepest = present_name;
    }
    m->inputs++;
}

/* ---- the inputs */

/* With room for what is written, and with none. */
static void measure_input(void *with, const struct input *in)
{
    static uint8_t body[BODY_MOST], settings[SETTINGS_MOST];
    struct request r = request_of(in, &UNREAD, body, settings);

    (void)with;
    r.room_length = r.second_length = ROOM;
    measure(&r);
    r.room_length = r.second_length = 0;
    measure(&r);
}

static void measure_carrier(void *with, const uint8_t *bytes, size_t length)
{
    each_input(bytes, length, measure_input, with);
}

static void measure_changed(unsigned inputs)
{
    static struct input in;
    struct corpus corpus = new_corpus(1, 1024, 1024);

    add_seeds(&corpus, 4096, NULL, NULL);
    while (inputs-- > 0) {
        mutate(&in, &corpus);
        measure_input(NULL, &in);
    }
}

static void measure_named(const char *name, unsigned payloads, size_t body_length, int is_wide)
{
    static uint8_t carrier[EMDF_CARRIER_MOST];

    present_name = name;
    measure_carrier(NULL, carrier, seed_carrier(carrier, payloads, body_length, is_wide));
}

/* What frames.awk found: a name and a number a line. */
static void read_frames(const char *path)
{
    FILE *file = fopen(path, "r");
    char name[64];
    size_t bytes;
    unsigned call;

    if (file == NULL) {
        perror(path);
        exit(2);
    }
    while (fscanf(file, "%63s %zu", name, &bytes) == 2)
        for (call = 0; call < CALLS; call++)
            if (strcmp(name, FACTS[call].name) == 0)
                most[call].frames = bytes;
    fclose(file);
}

static void measure_all(void)
{
    measure_named("no payload", 0, 0, 0);
    measure_named("ids, key id and group ids at their most", 3, 5, 1);
    is_stepped = 0;
    measure_named("512 payloads", 512, 3, 0);
    measure_named("a body of 60,000 bytes", 1, 60000, 0);
    present_name = "the scope's carriers and written ones";
    seed_carriers(measure_carrier, NULL);
    present_name = "changed inputs";
    measure_changed(20000);
}

/* Whether no call went deeper than its frames. */
static int print_table(void)
{
    unsigned call;
    size_t deepest = 0, frames = 0;
    int is_bounded = 1;

    printf("%-22s %8s %8s %8s %8s  %s\n", "call", "written", "reserved", "frames", "runs", "most written first by");
    for (call = 0; call < CALLS; call++) {
        const struct measured *m = &most[call];
        printf("%-22s %8zu %8zu %8zu %8llu  %s\n", FACTS[call].name, m->written, m->reserved, m->frames,
               (unsigned long long)m->inputs, m->deepest);
        deepest = m->reserved > deepest ? m->reserved : deepest;
        frames = m->frames > frames ? m->frames : frames;
        /* What lies below the stack pointer is at most 128 bytes. */
        is_bounded = is_bounded && m->reserved <= m->frames && m->written <= m->frames + 128;
    }
    printf("stack: at most %zu bytes measured, %zu by the frames%s\n", deepest, frames, is_bounded ? "" : ": NOT BOUNDED");
    return is_bounded;
}

int main(int count, char **words)
{
    /* An unreadable page lies below, so a call that needs more stops the run. */
    stack = guarded_memory(STACK);
    handle_signal(SIGTRAP, on_trap);
    if (count > 1)
        read_frames(words[1]);
    measure_all();
    return !print_table();
}

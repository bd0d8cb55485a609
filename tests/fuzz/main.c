/* A fuzzer for the library: inputs that reach a new block or a new outcome are kept and changed further. */
#define _GNU_SOURCE /* for signals and setitimer beside C99 */

#include <inttypes.h>
#include <signal.h>
#include <stdio.h>
#include <stdlib.h>
#include <string.h>
#include <sys/time.h>
#include <sys/wait.h>
#include <unistd.h>

#include "clock.h"
#include "cover.h"
#include "examine.h"
#include "faults.h"
#include "mutate.h"
#include "traps.h"

enum { INPUTS_KEPT = 8192, CARRIERS_KEPT = 512 };

struct options {
    double seconds;
    uint64_t inputs, seed;
    int is_self_check, shows_missed;
    uint64_t fault; /* a planted fault, counted from 1, or 0 */
    const char *replay, *blocks, *failure;
};


/* ---- calls that don't come back */

/* Seconds of the processor's time that one call may take. */
static int patience = 10;

static void on_fault(int number, siginfo_t *info, void *context)
{
    (void)info;
    (void)context;
    signal(number, SIG_DFL);
    failed(number == SIGSEGV || number == SIGBUS ? "memory was touched that was not lent" : "a call was stopped by a signal");
}

static void on_tick(int number, siginfo_t *info, void *context)
{
    static uint64_t seen;
    static int ticks;

    (void)number;
    (void)info;
    (void)context;
    ticks = seen == calls_made ? ticks + 1 : 0;
    seen = calls_made;
    if (ticks >= patience)
        failed("a call does not end");
}

static void catch_signals(void)
{
    static const int faults[] = {SIGSEGV, SIGBUS, SIGILL, SIGFPE};
    struct itimerval second = {{1, 0}, {1, 0}};
    size_t i;

    for (i = 0; i < sizeof faults / sizeof faults[0]; i++)
        handle_signal(faults[i], on_fault);
    handle_signal(SIGVTALRM, on_tick);
    setitimer(ITIMER_VIRTUAL, &second, NULL);
}

/* ---- the run */

static void try_input(void *with, const struct input *in)
{
    struct corpus *corpus = with;
    unsigned reached = blocks_reached;
    int is_new = examine(in);

    if (is_new || blocks_reached != reached)
        keep_input(corpus, in);
    /* Carriers that edits leave are inputs that no flip of bits finds. */
    if (edited_length > 0 && edited_length <= 4096 && draw(&corpus->random) % 64 == 0)
        keep_carrier(corpus, edited, edited_length);
}

/* How many inputs were kept. */
static size_t fuzz(uint64_t seed, double seconds, uint64_t inputs)
{
    static struct input in;
    struct corpus corpus = new_corpus(seed, INPUTS_KEPT, CARRIERS_KEPT);
    double until = now() + seconds;

    if (emdf_version() != EMDF_VERSION)
        failed("the library has another version than its header");
    add_seeds(&corpus, EMDF_CARRIER_MOST, try_input, &corpus);
    while (inputs_run < inputs && (inputs_run % 64 != 0 || now() < until)) {
        mutate(&in, &corpus);
        try_input(&corpus, &in);
    }
    return corpus.inputs.count;
}

static unsigned outcomes_met(void)
{
    unsigned call, n, met = 0;

    for (call = 0; call < CALLS; call++)
        for (n = 0; n < 32; n++)
            met += outcomes_seen[call] >> n & 1;
    return met;
}

static void print_outcomes_missed(void)
{
    unsigned call, n;

    for (call = 0; call < CALLS; call++)
        for (n = 0; n < 32; n++)
            if ((FACTS[call].numbers & ~outcomes_seen[call]) >> n & 1)
                printf("missed %s returning %u\n", FACTS[call].name, n);
}

static int run_fuzz(const struct options *o)
{
    double start = now();
    size_t kept = fuzz(o->seed, o->seconds, o->inputs);

    if (o->shows_missed) {
        cover_print_missed();
        print_outcomes_missed();
    }
    printf("fuzz: seed %" PRIu64 ", %.1f s, %" PRIu64 " inputs, %" PRIu64
           " calls, blocks %u of %u, outcomes %u of %u, corpus %zu, 0 failures\n",
           o->seed, now() - start, inputs_run, calls_made, blocks_reached, blocks_in_all, outcomes_met(), outcomes_in_all(),
           kept);
    return 0;
}

static int replay(const char *path)
{
    static struct input in;
    FILE *file = fopen(path, "rb");

    if (file == NULL) {
        perror(path);
        return 2;
    }
    in.length = fread(in.bytes, 1, sizeof in.bytes, file);
    fclose(file);
    if (in.length < HEAD) {
        fprintf(stderr, "%s: shorter than an input\n", path);
        return 2;
    }
    examine(&in);
    printf("fuzz: %s passes\n", path);
    return 0;
}

/* ---- the self-check */

enum { CHECK_SECONDS = 20, CHECK_INPUTS = 400000, CONTROL_INPUTS = 20000 };

/* Runs in a process of its own, since a failure ends the process; its first line goes to `line`. Returns its status. */
static int run_apart(uint32_t (*call)(const struct request *), uint64_t seed, uint64_t inputs, char *line, size_t size)
{
    int ends[2], status = -1;
    FILE *from;
    pid_t child;

    if (pipe(ends) != 0 || fflush(stdout) != 0 || (child = fork()) < 0)
        exit(2);
    if (child == 0) {
        dup2(ends[1], 1);
        library_call = call;
        patience = 2;
        catch_signals();
        fuzz(seed, CHECK_SECONDS, inputs);
        /* Breakpoints that aren't met would leave the fuzzer without a guide. */
        if (blocks_reached < blocks_in_all / 2)
            failed("few blocks were reached");
        _exit(0);
    }
    close(ends[1]);
    line[0] = '\0';
    from = fdopen(ends[0], "r");
    if (from == NULL || fgets(line, (int)size, from) == NULL)
        snprintf(line, size, "nothing\n");
    while (fgetc(from) != EOF)
        continue;
    fclose(from);
    waitpid(child, &status, 0);
    return WIFEXITED(status) ? WEXITSTATUS(status) : -1;
}

static int self_check(uint64_t seed)
{
    char line[256];
    unsigned i, missed = 0;
    int is_clean = run_apart(make_call, seed, CONTROL_INPUTS, line, sizeof line) == 0;

    if (!is_clean)
        printf("the library itself: %s", line);
    for (i = 0; i < FAULT_COUNT; i++) {
        int status = run_apart(FAULTS[i].call, seed, CHECK_INPUTS, line, sizeof line);
        int is_caught = status == 1 && strncmp(line, "FAILED: ", 8) == 0;
        printf("%s: %s: %s", is_caught ? "caught" : "NOT CAUGHT", FAULTS[i].name, is_caught ? line + 8 : "\n");
        missed += !is_caught;
    }
    printf("fuzz self-check: %u of %u faults caught, the library itself %s\n", FAULT_COUNT - missed, FAULT_COUNT,
           is_clean ? "passes" : "FAILS");
    return missed > 0 || !is_clean;
}

/* ---- options */

static void usage(void)
{
    fprintf(stderr, "usage: tests/fuzz/run [--seconds N] [--inputs N] [--seed N] [--missed] [--replay FILE] [--fault N] "
                    "[--self-check]\n");
    exit(2);
}

static uint64_t number_in(const char *text)
{
    char *end;
    unsigned long long v;

    if (text == NULL || text[0] < '0' || text[0] > '9')
        usage();
    v = strtoull(text, &end, 10);
    if (*end != '\0')
        usage();
    return v;
}

/* An option with a value; whether `name` is one. */
static int take_value(struct options *o, const char *name, const char *value)
{
    if (strcmp(name, "--seconds") == 0)
        o->seconds = (double)number_in(value);
    else if (strcmp(name, "--inputs") == 0)
        o->inputs = number_in(value);
    else if (strcmp(name, "--seed") == 0)
        o->seed = number_in(value);
    else if (strcmp(name, "--fault") == 0)
        o->fault = number_in(value);
    else if (value == NULL)
        return 0;
    else if (strcmp(name, "--replay") == 0)
        o->replay = value;
    else if (strcmp(name, "--blocks") == 0)
        o->blocks = value;
    else if (strcmp(name, "--failure") == 0)
        o->failure = value;
    else
        return 0;
    return 1;
}

static struct options read_options(char **words)
{
    struct options o = {60, 1000000000, 1, 0, 0, 0, NULL, NULL, NULL};

    while (*words != NULL) {
        if (strcmp(*words, "--self-check") == 0)
            o.is_self_check = 1;
        else if (strcmp(*words, "--missed") == 0)
            o.shows_missed = 1;
        else if (take_value(&o, *words, words[1]))
            words++;
        else
            usage();
        words++;
    }
    return o;
}

int main(int count, char **words)
{
    struct options o = read_options(words + (count > 0));

    prepare_memory();
    if (o.blocks != NULL)
        cover_start(o.blocks);
    if (o.is_self_check)
        return self_check(o.seed);
    if (o.fault > FAULT_COUNT)
        usage();
    if (o.fault > 0)
        library_call = FAULTS[o.fault - 1].call;
    /* An input that is run again stays where it is. */
    failure_path = o.replay == NULL ? o.failure : NULL;
    catch_signals();
    return o.replay != NULL ? replay(o.replay) : run_fuzz(&o);
}

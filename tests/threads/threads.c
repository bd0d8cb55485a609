/* The exported calls from several threads at once: every answer has to be the one that a single thread got before. */
#define _GNU_SOURCE /* for pthread barriers beside C99 */

#include <inttypes.h>
#include <pthread.h>
#include <stdio.h>
#include <stdlib.h>
#include <string.h>

#include "clock.h"
#include "lent.h"
#include "mutate.h"

enum {
    THREADS = 8,
    CASES = 6000,
    ROOM = 200000,
    ROUNDS_MOST = 10000,
    SHARED = 64 << 20, /* bytes for the slices of all cases */
    MARGIN = 64, /* bytes beside the rooms and the answer that have to stay */
    FILLING = 0x5a
};

/* A call and what came of it on one thread. Its slices lie in memory that the library can't write. */
struct known {
    struct request request;
    uint32_t number;
    uint64_t digest; /* of the whole answer and the whole rooms */
};

/* What a thread writes to, of its own. */
struct workplace {
    uint8_t room[MARGIN + ROOM + MARGIN];
    uint8_t second[MARGIN + ROOM + MARGIN];
    uint8_t answer[MARGIN + ANSWER_MOST + MARGIN];
};

struct worker {
    pthread_t thread;
    unsigned place;
    double seconds;
    uint64_t calls, differences;
    struct workplace *work;
};

static struct known cases[CASES];
static size_t case_count;
static pthread_barrier_t start;

static struct shown shared;
static size_t shared_used;

/* ---- one call */

/* The self-check's fault: right on one thread, since it has but one answer for all. */
static uint32_t call_with_state(const struct request *asked)
{
    static uint8_t kept[ANSWER_MOST];
    struct request r = *asked;
    uint32_t number;

    r.answer = kept;
    number = make_call(&r);
    memcpy(asked->answer, kept, FACTS[r.call].answer);
    return number;
}

static uint32_t (*library_call)(const struct request *) = make_call;

static uint64_t digest(uint64_t d, const uint8_t *bytes, size_t length)
{
    size_t i;

    for (i = 0; i + 8 <= length; i += 8) {
        uint64_t v;
        memcpy(&v, bytes + i, 8);
        d = (d ^ v) * UINT64_C(0x9e3779b97f4a7c15);
        d ^= d >> 29;
    }
    for (; i < length; i++)
        d = (d ^ bytes[i]) * UINT64_C(0x100000001b3);
    return d;
}

/* The bytes beside what is lent count too, so a write there is a difference. */
static uint32_t call_once(const struct request *asked, struct workplace *work, uint64_t *found)
{
    struct request r = *asked;
    uint32_t number;

    memset(work->room, FILLING, MARGIN + r.room_length + MARGIN);
    memset(work->second, FILLING, MARGIN + r.second_length + MARGIN);
    memset(work->answer, FILLING, sizeof work->answer);
    r.room = work->room + MARGIN;
    r.second = work->second + MARGIN;
    r.answer = work->answer + MARGIN;
    number = library_call(&r);
    *found = digest(number, work->answer, sizeof work->answer);
    *found = digest(*found, work->room, MARGIN + r.room_length + MARGIN);
    *found = digest(*found, work->second, MARGIN + r.second_length + MARGIN);
    return number;
}

/* ---- the cases */

static const uint8_t *share(const uint8_t *bytes, size_t length)
{
    size_t at = shared_used;

    if (at + length > shared.size)
        return NULL;
    if (length > 0)
        memcpy(shared.written + at, bytes, length);
    shared_used += length;
    return shared.read + at;
}

static size_t room_for(const struct request *r, uint8_t choice)
{
    size_t room = r->call == READ ? 40 * EMDF_ROW_BYTES : r->source.length + r->body.length + 100;

    if (choice % 4 == 3)
        room /= 4;
    return room < ROOM ? room : ROOM;
}

static void add_case(void *with, const struct input *in)
{
    static uint8_t body[BODY_MOST], settings[SETTINGS_MOST];
    struct known *k = &cases[case_count];
    int rooms;

    if (case_count == CASES)
        return;
    k->request = request_of(in, &UNREAD, body, settings);
    rooms = FACTS[k->request.call].rooms;
    k->request.room_length = rooms > 0 ? room_for(&k->request, in->bytes[AT_ROOM]) : 0;
    k->request.second_length = rooms > 1 ? room_for(&k->request, in->bytes[AT_SECOND_ROOM]) : 0;
    k->request.source.bytes = share(k->request.source.bytes, k->request.source.length);
    k->request.body.bytes = share(k->request.body.bytes, k->request.body.length);
    k->request.settings.bytes = share(k->request.settings.bytes, k->request.settings.length);
    if (k->request.source.bytes == NULL || k->request.body.bytes == NULL || k->request.settings.bytes == NULL)
        return;
    k->number = call_once(&k->request, with, &k->digest);
    case_count++;
}

static void make_cases(struct workplace *work)
{
    static struct input in;
    struct corpus corpus = new_corpus(1, 1024, 1024);
    size_t tries;

    add_seeds(&corpus, EMDF_CARRIER_MOST, add_case, work);
    for (tries = 0; tries < 4 * CASES && case_count < CASES; tries++) {
        mutate(&in, &corpus);
        add_case(work, &in);
    }
}

/* ---- the threads */

/* A step that leads through all cases: it has no divisor in common with their number. */
static size_t step_of(unsigned place)
{
    size_t step = 7 + 4 * place, a, b;

    for (;; step++) {
        for (a = step, b = case_count; b != 0;) {
            size_t rest = a % b;
            a = b;
            b = rest;
        }
        if (a == 1)
            return step;
    }
}

static int agrees(const struct worker *w, size_t at)
{
    const struct known *k = &cases[at];
    uint64_t found;
    uint32_t number = call_once(&k->request, w->work, &found);

    if (number == k->number && found == k->digest)
        return 1;
    printf("threads: thread %u: %s differs from its single-threaded answer (case %zu)\n", w->place, FACTS[k->request.call].name,
           at);
    return 0;
}

/* All cases at least once, then until the time is over. */
static void *work_through(void *with)
{
    struct worker *w = with;
    size_t at = w->place * (case_count / THREADS), step = step_of(w->place);
    uint64_t calls_most = (uint64_t)ROUNDS_MOST * case_count;
    double until;

    pthread_barrier_wait(&start);
    until = now() + w->seconds;
    while (w->calls < case_count || (w->calls < calls_most && (w->calls % 16 != 0 || now() < until))) {
        if (!agrees(w, at)) {
            w->differences++;
            break;
        }
        w->calls++;
        at = (at + step) % case_count;
    }
    return NULL;
}

static struct workplace *new_workplace(void)
{
    return must_have(malloc(sizeof(struct workplace)));
}

static void run_threads(struct worker *workers, double seconds)
{
    unsigned i;

    pthread_barrier_init(&start, NULL, THREADS);
    for (i = 0; i < THREADS; i++) {
        workers[i].place = i;
        workers[i].seconds = seconds;
        workers[i].work = new_workplace();
        if (pthread_create(&workers[i].thread, NULL, work_through, &workers[i]) != 0)
            exit(2);
    }
    for (i = 0; i < THREADS; i++)
        pthread_join(workers[i].thread, NULL);
}

/* Returns how many threads met a difference. */
static uint64_t report(const struct worker *workers, double seconds)
{
    uint64_t calls = 0, differences = 0;
    unsigned i;

    for (i = 0; i < THREADS; i++) {
        calls += workers[i].calls;
        differences += workers[i].differences;
    }
    printf("threads: %d threads, %.0f s, %zu cases, %" PRIu64 " calls, %" PRIu64 " differences\n", THREADS, seconds, case_count,
           calls, differences);
    return differences;
}

int main(int count, char **words)
{
    static struct worker workers[THREADS];
    double seconds = count > 1 ? atof(words[1]) : 5;
    int is_self_check = count > 2 && strcmp(words[2], "--self-check") == 0;
    uint64_t differences;

    if (is_self_check)
        library_call = call_with_state;
    shared = shown_memory(SHARED);
    make_cases(new_workplace());
    run_threads(workers, seconds);
    differences = report(workers, seconds);
    if (is_self_check)
        printf("threads self-check: a library with state is %s\n", differences > 0 ? "caught" : "NOT CAUGHT");
    return is_self_check ? differences == 0 : differences > 0;
}

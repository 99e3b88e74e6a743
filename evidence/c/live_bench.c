/* live_bench HEADING FOLDER...: measures live calls from C. Each folder holds a
 * workload's title, table.bin and trace.bin. The trace's events are read
 * beforehand, and its calls made one by one on an lsq_queue; a replay of the
 * same trace through lsq_replay must give the same answers, values, memory and
 * counts, and is measured beside it. Prints a table in Markdown. */
#define _POSIX_C_SOURCE 200809L
#include <stdio.h>
#include <stdlib.h>
#include <string.h>
#include <time.h>

#include "lsq.h"

#define ROUNDS 9
/* Seconds that a round plays each of the two. */
#define SAMPLE 0.03

struct bytes {
    uint8_t *at;
    size_t length;
};

struct call {
    uint32_t kind, first, second;
};

struct workload {
    struct bytes title, table, trace;
    uint32_t load_depth, store_depth, first, words;
    struct call *calls;
    size_t count;
};

/* What playing a workload leaves. */
struct played {
    uint32_t *memory, *values;
    uint8_t *answers, *given;
    uint32_t counts[2];
};

static void fail(const char *what)
{
    fprintf(stderr, "live_bench: %s\n", what);
    exit(1);
}

static void *room(size_t count, size_t size)
{
    void *at = calloc(count + 1, size);
    if (at == NULL)
        fail("no memory");
    return at;
}

static struct bytes read_file(const char *folder, const char *name)
{
    char path[4096];
    if (snprintf(path, sizeof path, "%s/%s", folder, name) >= (int)sizeof path)
        fail("a path is too long");
    FILE *file = fopen(path, "rb");
    if (file == NULL || fseek(file, 0, SEEK_END) != 0)
        fail(path);
    struct bytes bytes;
    bytes.length = (size_t)ftell(file);
    bytes.at = room(bytes.length, 1);
    rewind(file);
    if (fread(bytes.at, 1, bytes.length, file) != bytes.length)
        fail(path);
    fclose(file);
    return bytes;
}

/* The number at a place of a trace in which the library found no fault. */
static uint32_t number(const struct bytes *trace, size_t *at)
{
    uint32_t value = 0;
    for (int shift = 0;; shift += 7) {
        uint8_t byte = trace->at[(*at)++];
        value |= (uint32_t)(byte & 0x7F) << shift;
        if (byte < 0x80)
            return value;
    }
}

static void read_calls(struct workload *w)
{
    size_t at = 0;
    w->load_depth = number(&w->trace, &at);
    w->store_depth = number(&w->trace, &at);
    w->first = number(&w->trace, &at);
    w->words = number(&w->trace, &at);
    w->calls = room(w->count, sizeof *w->calls);
    for (size_t i = 0; i < w->count; i++) {
        struct call *call = &w->calls[i];
        call->kind = number(&w->trace, &at);
        call->first = number(&w->trace, &at);
        if (call->kind >= 1 && call->kind <= 3)
            call->second = number(&w->trace, &at);
    }
}

static struct workload read_workload(const char *folder)
{
    struct workload w;
    w.title = read_file(folder, "title");
    w.table = read_file(folder, "table.bin");
    w.trace = read_file(folder, "trace.bin");
    if (lsq_trace_fault(w.table.at, w.table.length, w.trace.at, w.trace.length) != LSQ_ACCEPTED)
        fail("a workload that cannot be played");
    w.count = lsq_event_count(w.table.at, w.table.length, w.trace.at, w.trace.length);
    read_calls(&w);
    return w;
}

static struct played unplayed(const struct workload *w)
{
    struct played played;
    played.memory = room(w->words, sizeof *played.memory);
    played.values = room(w->count, sizeof *played.values);
    played.answers = room(w->count, sizeof *played.answers);
    played.given = room(w->count, sizeof *played.given);
    played.counts[0] = played.counts[1] = 0;
    return played;
}

static void play_replay(const struct workload *w, struct played *p)
{
    p->counts[0] = p->counts[1] = 0;
    uint32_t answer = lsq_replay(w->table.at, w->table.length, w->trace.at, w->trace.length,
                                 p->memory, w->words, p->counts, 2, p->answers, w->count,
                                 p->given, w->count, p->values, w->count);
    if (answer != LSQ_ACCEPTED)
        fail("a replay was refused");
}

static uint32_t make(lsq_queue *q, const struct call *call, uint32_t *memory, size_t words,
                     lsq_counts *counts, uint32_t *value)
{
    switch (call->kind) {
    case 0: return lsq_activate(q, call->first);
    case 1: return lsq_load_address(q, call->first, call->second);
    case 2: return lsq_store_address(q, call->first, call->second);
    case 3: return lsq_store_data(q, call->first, call->second);
    case 4: return lsq_serve(q, memory, words, counts, call->first, value);
    case 5: return lsq_write(q, memory, words, call->first);
    default: return lsq_take(q, call->first, value);
    }
}

static void play_live(const struct workload *w, struct played *p)
{
    lsq_queue q;
    lsq_counts counts = {0, 0};
    if (lsq_open(&q, w->table.at, w->table.length, w->load_depth, w->store_depth, w->first, w->words)
        != LSQ_ACCEPTED)
        fail("an opening was refused");
    for (size_t i = 0; i < w->count; i++) {
        const struct call *call = &w->calls[i];
        uint32_t value = 0;
        uint32_t answer = make(&q, call, p->memory, w->words, &counts, &value);
        p->answers[i] = (uint8_t)answer;
        p->given[i] = answer == LSQ_ACCEPTED && (call->kind == 4 || call->kind == 6);
        p->values[i] = value;
    }
    p->counts[0] = counts.loads;
    p->counts[1] = counts.forwarded;
}

static int same(const struct workload *w, const struct played *a, const struct played *b)
{
    return memcmp(a->memory, b->memory, w->words * sizeof *a->memory) == 0
        && memcmp(a->values, b->values, w->count * sizeof *a->values) == 0
        && memcmp(a->answers, b->answers, w->count) == 0
        && memcmp(a->given, b->given, w->count) == 0
        && memcmp(a->counts, b->counts, sizeof a->counts) == 0;
}

static double processor_time(void)
{
    struct timespec time;
    if (clock_gettime(CLOCK_THREAD_CPUTIME_ID, &time) != 0)
        fail("no clock of the thread's processor time");
    return (double)time.tv_sec + 1e-9 * (double)time.tv_nsec;
}

typedef void player(const struct workload *, struct played *);

/* Nanoseconds a call of a workload that is played for the time of a sample. */
static double sample(player *play, const struct workload *w, struct played *p)
{
    size_t plays = 0;
    double start = processor_time(), time = 0;
    for (; time < SAMPLE; time = processor_time() - start, plays++)
        play(w, p);
    return 1e9 * time / (double)(plays * w->count);
}

static int by_size(const void *a, const void *b)
{
    double x = *(const double *)a, y = *(const double *)b;
    return (x > y) - (x < y);
}

static void print_row(const struct workload *w)
{
    struct played live = unplayed(w), replayed = unplayed(w);
    double lives[ROUNDS], replays[ROUNDS];
    play_live(w, &live);
    play_replay(w, &replayed);
    if (!same(w, &live, &replayed))
        fail("live calls and a replay differ");
    for (int i = 0; i < ROUNDS; i++) {
        lives[i] = sample(play_live, w, &live);
        replays[i] = sample(play_replay, w, &replayed);
    }
    qsort(lives, ROUNDS, sizeof *lives, by_size);
    qsort(replays, ROUNDS, sizeof *replays, by_size);
    printf("| %.*s | %.0f (%.0f to %.0f) | %.0f (%.0f to %.0f) |\n", (int)w->title.length,
           (const char *)w->title.at, lives[ROUNDS / 2], lives[0], lives[ROUNDS - 1],
           replays[ROUNDS / 2], replays[0], replays[ROUNDS - 1]);
}

int main(int argc, char **argv)
{
    if (argc < 3)
        fail("usage: live_bench HEADING FOLDER...");
    printf("| %s | Live, ns a call | Replay, ns a call |\n|---|---|---|\n", argv[1]);
    for (int i = 2; i < argc; i++) {
        struct workload w = read_workload(argv[i]);
        print_row(&w);
    }
    printf("\n");
    return 0;
}

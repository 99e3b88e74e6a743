/* Runs the loop h[x[i]] += 1 on a live queue: a group of a load and a store is
 * activated for each i, addresses and data arrive call by call, and whatever is
 * ready is served or written. Midway the queue is saved to a file, forgotten,
 * and read back. Prints what came out, and the page of what was taken; exits
 * with 1 where it is not what the plain loop gives. */
#include <inttypes.h>
#include <stdio.h>
#include <stdlib.h>
#include <string.h>

#include "lsq.h"

#define ITERATIONS 200
#define WORDS 16
#define DEPTH 8
#define FIRST_SERIAL 4294967290u
/* Stores are written in one step of so many, so that loads get ahead of them. */
#define WRITE_EVERY 3

/* One group: load port 0, then store port 0. */
static const uint8_t table[] = {0x02, 0x01, 0x01, 0x01, 0x00, 0x00, 0x01, 0x00};

struct loop {
    lsq_queue queue;
    uint32_t h[WORDS];
    lsq_counts counts;
    lsq_shift_record taken;
    /* Iterations that were activated, got their addresses, got their data. */
    uint32_t activated, addressed, added;
};

static uint32_t x(uint32_t i)
{
    return (i * 1103515245u + 12345u) >> 16 & (WORDS - 1);
}

/* Ends the program where a call is refused that must not be. */
static void must(uint32_t answer, const char *call)
{
    if (answer != LSQ_ACCEPTED) {
        fprintf(stderr, "%s: refused with %" PRIu32 "\n", call, answer);
        exit(1);
    }
}

/* Activates the group as often as there is room. */
static void activate(struct loop *loop)
{
    while (loop->activated < ITERATIONS) {
        uint32_t answer = lsq_activate(&loop->queue, 0);
        if (answer == LSQ_NO_PLACE)
            return;
        must(answer, "activate");
        loop->activated++;
    }
}

/* Gives two iterations the addresses that they wait for. */
static void give_addresses(struct loop *loop)
{
    for (int i = 0; i < 2 && loop->addressed < loop->activated; i++) {
        uint32_t address = x(loop->addressed++);
        must(lsq_load_address(&loop->queue, 0, address), "load address");
        must(lsq_store_address(&loop->queue, 0, address), "store address");
    }
}

static void serve_ready(struct loop *loop)
{
    uint32_t serials[LSQ_ENTRIES], value;
    size_t count;
    must(lsq_ready_loads(&loop->queue, serials, LSQ_ENTRIES, &count), "ready loads");
    for (size_t i = 0; i < count; i++)
        must(lsq_serve(&loop->queue, loop->h, WORDS, &loop->counts, serials[i], &value), "serve");
}

/* Takes the values that were loaded, and hands on each with 1 added. */
static void add(struct loop *loop)
{
    for (;; loop->added++) {
        uint32_t value, answer = lsq_take_recorded(&loop->queue, &loop->taken, 0, &value);
        if (answer == LSQ_NONE_UNTAKEN || answer == LSQ_NOT_SERVED)
            return;
        must(answer, "take");
        must(lsq_store_data(&loop->queue, 0, value + 1), "store data");
    }
}

static void write_ready(struct loop *loop)
{
    uint32_t serials[LSQ_ENTRIES];
    size_t count;
    must(lsq_ready_stores(&loop->queue, serials, LSQ_ENTRIES, &count), "ready stores");
    for (size_t i = 0; i < count; i++)
        must(lsq_write(&loop->queue, loop->h, WORDS, serials[i]), "write");
}

/* Saves the queue to a file, forgets it, and goes on from the file. */
static void save_and_go_on(lsq_queue *queue)
{
    uint8_t bytes[LSQ_QUEUE_BYTES];
    printf("saved midway: %u loads and %u stores queued\n", queue->frame.loads.count,
           queue->frame.stores.count);
    lsq_save(queue, bytes);
    memset(queue, 0, sizeof *queue);
    FILE *file = tmpfile();
    if (file == NULL || fwrite(bytes, sizeof bytes, 1, file) != 1 || fseek(file, 0, SEEK_SET) != 0
        || fread(bytes, sizeof bytes, 1, file) != 1) {
        fprintf(stderr, "the queue was not saved\n");
        exit(1);
    }
    fclose(file);
    lsq_restore(queue, bytes);
    must(lsq_sound(queue) ? LSQ_ACCEPTED : LSQ_UNSOUND, "restore");
}

static void run(struct loop *loop)
{
    int saved = 0;
    for (uint32_t step = 0; loop->queue.frame.stores.count > 0 || loop->added < ITERATIONS; step++) {
        activate(loop);
        give_addresses(loop);
        serve_ready(loop);
        add(loop);
        if (!saved && loop->added >= ITERATIONS / 2) {
            save_and_go_on(&loop->queue);
            saved = 1;
        }
        if (step % WRITE_EVERY == 0)
            write_ready(loop);
    }
}

static void print_page(lsq_shift_record taken)
{
    uint8_t page[LSQ_PAGE_BYTES];
    must(lsq_page(taken, page, sizeof page).answer, "page");
    fwrite(page, 1, sizeof page, stdout);
}

int main(void)
{
    struct loop loop;
    uint32_t plain[WORDS] = {0};
    memset(&loop, 0, sizeof loop);
    must(lsq_open(&loop.queue, table, sizeof table, DEPTH, DEPTH, FIRST_SERIAL, WORDS), "open");
    run(&loop);
    for (uint32_t i = 0; i < ITERATIONS; i++)
        plain[x(i)]++;
    printf("h");
    for (size_t i = 0; i < WORDS; i++)
        printf(" %" PRIu32, loop.h[i]);
    uint64_t share = lsq_share(loop.counts.loads, loop.counts.forwarded);
    printf("\nloads %" PRIu32 " forwarded %" PRIu32 " share %" PRIu64 "\n", loop.counts.loads,
           loop.counts.forwarded, share);
    int same = memcmp(loop.h, plain, sizeof plain) == 0;
    printf("%s the plain loop gives\n", same ? "as" : "not as");
    print_page(loop.taken);
    return same && loop.counts.loads == ITERATIONS && loop.counts.forwarded > 0
        && loop.taken.takes[0] == ITERATIONS ? 0 : 1;
}

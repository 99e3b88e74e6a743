/* Makes a group from what a compiler knows of a circuit: its accesses, and pairs
 * of which the first must come before the second. Prints the order, the group's
 * loads and stores with their offsets, and the table's bytes; then opens a queue
 * on those bytes and activates the group once. Last, one pair more closes a
 * circle, and the list is refused. Exits with 1 where a call is refused that must
 * not be, or the other way round. */
#include <inttypes.h>
#include <stdio.h>
#include <stdlib.h>
#include <string.h>

#include "lsq.h"

#define COUNT 5
#define DEPTH 8
#define WORDS 16
/* The most bytes that a table of one group takes. */
#define TABLE_BYTES 68

enum { LOAD, STORE };

/* The circuit, by access number: x = a[i] is 2, a[i] = .. is 1, b[j] = .. is 3;
 * 0 and 4 read a and b again. */
static const uint8_t kinds[COUNT] = {LOAD, STORE, LOAD, STORE, LOAD};
static const uint8_t ports[COUNT] = {0, 0, 3, 1, 5};

/* a[i] is read before a[i] and b[j] are written, and each of these is written
 * before it is read again. The last pair, left out at first, closes a circle. */
static const lsq_precedence pairs[] = {{2, 1}, {1, 0}, {2, 3}, {3, 4}, {4, 2}};
#define RIGHT_PAIRS 4

/* Ends the program where a call is refused that must not be. */
static void must(uint32_t answer, const char *call)
{
    if (answer != LSQ_ACCEPTED) {
        fprintf(stderr, "%s: refused with %" PRIu32 "\n", call, answer);
        exit(1);
    }
}

/* Orders the accesses by the first `count` pairs. */
static lsq_ordered order_by(uint32_t count)
{
    lsq_precedences listed = {.count = count};
    memcpy(listed.pairs, pairs, count * sizeof *pairs);
    return lsq_order(COUNT, listed);
}

static void print_circuit(void)
{
    for (int i = 0; i < COUNT; i++)
        printf("access %d: %s port %d\n", i, kinds[i] == LOAD ? "load" : "store", ports[i]);
    for (int i = 0; i < RIGHT_PAIRS; i++)
        printf("%" PRIu32 " before %" PRIu32 "\n", pairs[i].first, pairs[i].second);
}

static void print_order(const lsq_ordered *order)
{
    printf("order:");
    for (int i = 0; i < order->count; i++)
        printf(" %d", order->accesses[i]);
    printf("\n");
}

/* An access is offset + 256 * port. */
static void print_accesses(const char *kind, const uint16_t *accesses, uint32_t count)
{
    for (uint32_t i = 0; i < count; i++)
        printf("%s port %d, offset %d\n", kind, accesses[i] / 256, accesses[i] % 256);
}

/* The one group's accesses stand at the front. */
static void print_group(const lsq_table *table)
{
    print_accesses("load", table->loads, table->groups[0] >> 8 & 255);
    print_accesses("store", table->stores, table->groups[0] >> 24);
}

/* The table of the group in this order. */
static lsq_table table_of(lsq_ordered order)
{
    lsq_accesses accesses = {{0}, {0}};
    memcpy(accesses.kinds, kinds, sizeof kinds);
    memcpy(accesses.ports, ports, sizeof ports);
    return lsq_table_in_order(order, accesses);
}

int main(void)
{
    print_circuit();
    lsq_ordered order = order_by(RIGHT_PAIRS);
    must(order.answer, "order");
    print_order(&order);
    lsq_table table = table_of(order);
    print_group(&table);

    uint8_t bytes[TABLE_BYTES];
    lsq_written written = lsq_write_table(table, bytes, sizeof bytes);
    must(written.answer, "write table");
    printf("table:");
    for (uint64_t i = 0; i < written.count; i++)
        printf(" %02X", bytes[i]);
    printf("\n");

    lsq_queue queue;
    must(lsq_open(&queue, bytes, written.count, DEPTH, DEPTH, 0, WORDS), "open");
    must(lsq_activate(&queue, 0), "activate");
    printf("activated: %d loads and %d stores queued\n", queue.frame.loads.count,
           queue.frame.stores.count);

    lsq_precedence closing = pairs[RIGHT_PAIRS];
    lsq_ordered refused = order_by(RIGHT_PAIRS + 1);
    printf("with %" PRIu32 " before %" PRIu32 ": refused with %d\n", closing.first, closing.second,
           refused.answer);
    return refused.answer == LSQ_CIRCLE ? 0 : 1;
}

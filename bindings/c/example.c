/* Replays the scope paper's case K1: two activations of a group of one load
 * and one store, whose second load gets the first store's data. Prints each
 * event's answer and value, the memory, the counts, and the page of what was
 * taken; exits with 1 where the end is not what the paper says. */
#include <inttypes.h>
#include <stdio.h>
#include <stdlib.h>

#include "lsq.h"

static const uint8_t table[] = {0x02, 0x01, 0x01, 0x01, 0x00, 0x00, 0x01, 0x00};

static const uint8_t trace[] = {
    0x02, 0x02, 0xFF, 0xFF, 0xFF, 0xFF, 0x0F, 0x04, /* depths, first serial, memory length */
    0x00, 0x00,                                     /* activate */
    0x00, 0x00,                                     /* activate */
    0x01, 0x00, 0x03,                               /* load address */
    0x01, 0x00, 0x03,                               /* load address */
    0x04, 0x00,                                     /* serve: an earlier store has no address */
    0x04, 0xFF, 0xFF, 0xFF, 0xFF, 0x0F,             /* serve */
    0x06, 0x00,                                     /* take */
    0x02, 0x00, 0x03,                               /* store address */
    0x03, 0x00, 0x01,                               /* store data */
    0x04, 0x00,                                     /* serve: forwarded */
    0x05, 0xFF, 0xFF, 0xFF, 0xFF, 0x0F,             /* write */
    0x06, 0x00,                                     /* take */
};

static void print_event(size_t number, uint8_t answer, uint8_t given, uint32_t value)
{
    if (given)
        printf("%zu %u %" PRIu32 "\n", number, answer, value);
    else
        printf("%zu %u -\n", number, answer);
}

/* Prints the page of a record, and says whether it could. */
static int print_page(lsq_shift_record taken)
{
    uint8_t page[LSQ_PAGE_BYTES];
    lsq_written written = lsq_page(taken, page, sizeof page);
    return written.answer == LSQ_ACCEPTED
        && fwrite(page, 1, sizeof page, stdout) == written.count;
}

int main(void)
{
    uint32_t fault = lsq_trace_fault(table, sizeof table, trace, sizeof trace);
    if (fault != LSQ_ACCEPTED) {
        fprintf(stderr, "refused: %" PRIu32 "\n", fault);
        return 1;
    }
    size_t events = lsq_event_count(table, sizeof table, trace, sizeof trace);
    size_t words = lsq_memory_length(table, sizeof table, trace, sizeof trace);
    uint32_t *memory = calloc(words, sizeof *memory);
    uint8_t *answers = calloc(events + 1, sizeof *answers);
    uint8_t *given = calloc(events + 1, sizeof *given);
    uint32_t *values = calloc(events + 1, sizeof *values);
    uint32_t counts[2] = {0, 0};
    lsq_shift_record none = {{0}, {0}};
    if (memory == NULL || answers == NULL || given == NULL || values == NULL)
        return 1;
    lsq_replayed played = lsq_replay_recorded(table, sizeof table, trace, sizeof trace, memory, words,
                                              counts, 2, answers, events, given, events, values,
                                              events, none);
    for (size_t i = 0; i < events; i++)
        print_event(i + 1, answers[i], given[i], values[i]);
    uint64_t share = lsq_share(counts[0], counts[1]);
    printf("word 3 %" PRIu32 "\n", memory[3]);
    printf("loads %" PRIu32 " forwarded %" PRIu32 " share %" PRIu64 "\n", counts[0], counts[1], share);
    int right = print_page(played.kept) && played.answer == LSQ_ACCEPTED && events == 12
        && answers[4] == LSQ_EARLIER_STORE_ADDRESS && given[9] == 1 && values[9] == 1
        && memory[3] == 1 && share == 500 && played.kept.takes[0] == 2 && played.kept.values[0] == 1;
    free(memory);
    free(answers);
    free(given);
    free(values);
    return right ? 0 : 1;
}

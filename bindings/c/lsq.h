/* The group-allocated load-store queue: the functions of two libraries, which
 * `rt lib` in crates/exports and in crates/live writes to out/ there, and a live
 * queue on top. libexports.a has the replays, the text and the share; liblive.a
 * the calls on a queue, the shift record and its page, a group's order from pairs
 * and its table, and tables, numbers and events as bytes. A program links those
 * that it calls.
 *
 * What is proved, and what is not. Every function that is declared here and
 * not defined is one of the libraries': its whole outcome, for whatever it is
 * handed, is stated and proved. The `static inline` functions at the end, on an
 * lsq_queue, are plain C over those and are not proved; each is a few lines.
 *
 * Every function is total: it tests what it is handed. Those that can refuse
 * give a number of enum lsq_answer, by itself or in a field `answer`; what the
 * others give is said at each. Nothing is allocated and nothing is kept between
 * calls. A run of bytes or numbers is a pointer and a length (in elements).
 * What the caller owes, since C cannot show it:
 *   - a pointer is not NULL, even where its length is 0, and is aligned for
 *     its type;
 *   - as many elements as the length says can be read (and written, where the
 *     pointer is not const);
 *   - a run that is written overlaps no other run of the same call.
 */
#ifndef LSQ_H
#define LSQ_H

#include <stddef.h>
#include <stdint.h>
#include <string.h>

#ifdef __cplusplus
#define LSQ_HOLDS(condition) static_assert(condition, #condition)
extern "C" {
#else
#define LSQ_HOLDS(condition) _Static_assert(condition, #condition)
#endif

/* The version of this header and of the Rust wrapper. */
#define LSQ_VERSION "0.1.0"

/* The least length of the text buffer of lsq_text: no text is longer. */
#define LSQ_TEXT_BYTES 1224789

/* The length of every shift page, and the least length of the buffer of
 * lsq_page. */
#define LSQ_PAGE_BYTES 1394

/* Answers of the functions below, and of a replay's events. */
enum lsq_answer {
    LSQ_ACCEPTED = 0,
    LSQ_BYTES_END = 1,              /* the bytes end inside or before a number */
    LSQ_FIFTH_BYTE = 2,             /* a fifth byte above 0F */
    LSQ_FIELDS = 3,                 /* fields per access not 2 */
    LSQ_GROUP_COUNT = 4,            /* number of groups not 1 to 16 */
    LSQ_ACCESS_COUNTS = 5,          /* a group's loads or stores above 16 */
    LSQ_PORT_RANGE = 6,             /* port above 31 */
    LSQ_PORT_SEEN = 7,              /* port seen before */
    LSQ_OFFSET = 8,                 /* offset out of order or disagreeing */
    LSQ_LEFT_OVER = 9,              /* bytes left over behind a table */
    LSQ_TOO_SHORT = 10,             /* a lent buffer is too short */
    LSQ_LOAD_DEPTH = 11,            /* load depth not 1 to 64 */
    LSQ_STORE_DEPTH = 12,           /* store depth not 1 to 64 */
    LSQ_MEMORY_LENGTH = 13,         /* memory length not 1 to 4096 */
    LSQ_GROUP_TOO_LARGE = 14,       /* a group has more accesses than a depth */
    LSQ_NO_GROUP = 20,              /* no such group */
    LSQ_NO_PLACE = 21,              /* too few free places on either side */
    LSQ_NO_PORT = 22,               /* port not in the table */
    LSQ_ADDRESS_RANGE = 23,         /* address not below the memory length */
    LSQ_NONE_WAITS = 24,            /* no entry waits for the argument */
    LSQ_NO_SERIAL = 25,             /* serial not in the queue */
    LSQ_ALREADY_DONE = 26,          /* already served, or already written */
    LSQ_NO_ADDRESS = 27,            /* the entry has no address */
    LSQ_EARLIER_STORE_ADDRESS = 28, /* an earlier store has no address, and no nearer one has the load's */
    LSQ_NO_DATA = 29,               /* the store (to forward from) has no data */
    LSQ_OTHER_MEMORY = 30,          /* lent memory has another length */
    LSQ_LOAD_CONFLICT = 31,         /* an earlier unserved load has no address or the same one */
    LSQ_STORE_CONFLICT = 32,        /* an earlier unwritten store has no address or the same one */
    LSQ_NONE_UNTAKEN = 33,          /* no untaken load of the port is queued */
    LSQ_NOT_SERVED = 34,            /* the port's oldest untaken load is unserved */
    LSQ_KIND = 35,                  /* an event's kind is above 6 */
    LSQ_FILE_TOO_LONG = 36,         /* above 16,384 bytes; in the text of lsq_text alone */
    LSQ_UNSOUND = 40,               /* no right queue: see lsq_sound_in */
    LSQ_PAGE_TOO_SHORT = 41,        /* a page buffer has fewer than 1,394 bytes */
    LSQ_PADDED_NUMBER = 42,         /* the last of a number's several bytes is 00 */
    LSQ_UNLISTED = 43,              /* more than 32 accesses or 64 pairs, or a pair naming an
                                       access not listed */
    LSQ_CIRCLE = 44                 /* a circle of pairs */
};

/* 0 where the bytes are a right table, else 1 to 9 or 42. */
uint32_t lsq_table_fault(const uint8_t *table, size_t table_len);

/* The table's fault; else the fault of the trace's four leading numbers, then
 * of opening, then of the first faulty event (1, 2, 11 to 14, 35, 42); else 0. */
uint32_t lsq_trace_fault(const uint8_t *table, size_t table_len,
                         const uint8_t *trace, size_t trace_len);

/* How many events the trace has: the length that a replay's buffers need. 0
 * where lsq_trace_fault is not 0. */
uint64_t lsq_event_count(const uint8_t *table, size_t table_len,
                         const uint8_t *trace, size_t trace_len);

/* The memory length that the trace asks for, in words. 0 where
 * lsq_trace_fault is not 0. */
uint32_t lsq_memory_length(const uint8_t *table, size_t table_len,
                           const uint8_t *trace, size_t trace_len);

/* Plays every event of the trace from a fresh opening, on the memory and the
 * counts (counts[0] loads, counts[1] forwarded) as lent.
 *
 * Answers, in this order: the fault that lsq_table_fault gives; 10 where
 * counts_len is below 2; the fault that lsq_trace_fault gives; 30 where
 * memory_len is not lsq_memory_length; 10 where answers_len, given_len or
 * values_len is below lsq_event_count. Everything lent then keeps its contents.
 *
 * Else 0: answers[i] is the answer of event i; given[i] is 1 where the event
 * gave a value (an accepted serve or take), else 0; values[i] is that value, or
 * 0. The rest of the buffers and of counts keeps its contents. */
uint32_t lsq_replay(const uint8_t *table, size_t table_len,
                    const uint8_t *trace, size_t trace_len,
                    uint32_t *memory, size_t memory_len,
                    uint32_t *counts, size_t counts_len,
                    uint8_t *answers, size_t answers_len,
                    uint8_t *given, size_t given_len,
                    uint32_t *values, size_t values_len);

/* What was taken at each of the load ports 0 to 31: how many takes were
 * accepted, a count that stops at 4294967295, and the last value. A record of no
 * take is 0 in every field; a record may come from anywhere and hold anything. */
typedef struct lsq_shift_record {
    uint32_t takes[32], values[32];
} lsq_shift_record;

/* What a replay that keeps a record answers: what lsq_replay answers, and the
 * record that the takes leave. */
typedef struct lsq_replayed {
    uint32_t answer;
    lsq_shift_record kept;
} lsq_replayed;

/* Plays the trace as lsq_replay does, and keeps the record of what it takes,
 * going on from the one that is handed in. A refused replay hands back the very
 * record. */
lsq_replayed lsq_replay_recorded(const uint8_t *table, size_t table_len,
                                 const uint8_t *trace, size_t trace_len,
                                 uint32_t *memory, size_t memory_len,
                                 uint32_t *counts, size_t counts_len,
                                 uint8_t *answers, size_t answers_len,
                                 uint8_t *given, size_t given_len,
                                 uint32_t *values, size_t values_len,
                                 lsq_shift_record kept);

/* Thousandths of the loads that were forwarded, to the nearest, an exact half
 * to the even neighbour; 0 for no loads. */
uint64_t lsq_share(uint32_t loads, uint32_t forwarded);

/* Writes the text that `play` prints for these two files at the front of out
 * and gives its length; the rest of out keeps its contents. 0, and nothing is
 * written, where out_len is below LSQ_TEXT_BYTES. */
uint64_t lsq_text(const uint8_t *table, size_t table_len,
                  const uint8_t *trace, size_t trace_len,
                  uint8_t *out, size_t out_len);

/* ---- Tables, and the bytes of tables, numbers and events ---- */

/* A group table. A group's number says where its accesses stand: the first
 * load's place + 256 * how many loads + 65536 * the first store's place +
 * 16777216 * how many stores. An access's number is offset + 256 * port: how
 * many accesses of the other kind come before it in the group, and its port.
 * Places beyond the count, or that no group has, mean nothing. */
typedef struct lsq_table {
    uint8_t count;
    uint32_t groups[16];
    uint16_t loads[32], stores[32];
} lsq_table;

/* What reading a table answers: 0, or 1 to 9 or 42 and the table of no groups,
 * which is 0 in every field. */
typedef struct lsq_table_read {
    uint32_t answer;
    lsq_table table;
} lsq_table_read;

/* What a writer answers: 0 and how many bytes stand at the front of the buffer,
 * or the refusal number and 0. The rest of the buffer, or all of it where the
 * writer refuses, keeps its contents. */
typedef struct lsq_written {
    uint32_t answer;
    uint64_t count;
} lsq_written;

/* Reads a table that takes up all of the bytes. */
lsq_table_read lsq_read_table(const uint8_t *bytes, size_t bytes_len);

/* Writes a table, whatever its record holds: 4, 5, 8, 6, 7, then 10. */
lsq_written lsq_write_table(lsq_table table, uint8_t *out, size_t out_len);

/* Writes a number in the fewest bytes: 10. */
lsq_written lsq_write_number(uint32_t value, uint8_t *out, size_t out_len);

/* Writes an event: 35 for a kind above 6, then 10. Kinds: 0 activate (group),
 * 1 load address (port, address), 2 store address (port, address), 3 store data
 * (port, word), 4 serve (serial), 5 write (serial), 6 take (port). Of a kind
 * with one number the second is not looked at. */
lsq_written lsq_write_event(uint32_t kind, uint32_t first, uint32_t second,
                            uint8_t *out, size_t out_len);

/* ---- A group's order from pairs, and its table ---- */

/* The most accesses that can be ordered, and the most pairs. */
#define LSQ_ACCESSES 32
#define LSQ_PAIRS 64

/* A pair: the access `first` has to come before the access `second`. */
typedef struct lsq_precedence {
    uint32_t first, second;
} lsq_precedence;

/* As many pairs as the count says. Places beyond it mean nothing. */
typedef struct lsq_precedences {
    uint32_t count;
    lsq_precedence pairs[LSQ_PAIRS];
} lsq_precedences;

/* What ordering answers: 0 and the order, which is the first `count` places, or
 * 43 or 44 and no access. The places beyond are 0 and mean nothing. */
typedef struct lsq_ordered {
    uint8_t answer, count, accesses[LSQ_ACCESSES];
} lsq_ordered;

/* The order of accesses that respects all pairs and is first when orders are
 * compared by access number from the left: 43, then 44. Listed are the accesses
 * below `accesses`; 0 accesses have the empty order. An access paired with itself
 * is a circle. A repeated pair asks no more than one does, but each counts
 * towards the LSQ_PAIRS. */
lsq_ordered lsq_order(uint32_t accesses, lsq_precedences pairs);

/* The kind and the port of each access, by its number: kind 0 is a load, and any
 * other a store. Places of accesses that an order does not have mean nothing. */
typedef struct lsq_accesses {
    uint8_t kinds[LSQ_ACCESSES], ports[LSQ_ACCESSES];
} lsq_accesses;

/* The table whose one group has the accesses in this order, offsets counted. The
 * group's program order is then the given order, and no offset is wrong: the
 * table is right just where there are at most 16 of each kind and the ports are
 * 0 to 31, each once among its kind. Where it is not right, lsq_write_table says
 * which of 5, 6, 7 it is. A record from elsewhere than lsq_order may name an
 * access twice; the group then has it twice.
 *
 * It is the table of no groups, 0 in every field, which writing and opening refuse
 * with 4, where the record is a refusal, or has a count above LSQ_ACCESSES, or an
 * access above 31 among the first `count`. */
lsq_table lsq_table_in_order(lsq_ordered order, lsq_accesses accesses);

/* ---- The shift record, and its page ---- */

/* The record once this value was taken at this port: the port's count is one
 * more, if it has not stopped, and its value is this one. A port above 31
 * changes nothing. */
lsq_shift_record lsq_recorded(lsq_shift_record kept, uint32_t port, uint32_t value);

/* Writes the page of a record at the front of out: 41. It is LSQ_PAGE_BYTES bytes
 * of text: the lines LOAD PORTS, one for each port, and END. A port stands in
 * columns 1 to 2, its accepted takes in 7 to 16 and the last value taken in 31
 * to 40, right-aligned; a port with no take shows 0 and 0. */
lsq_written lsq_page(lsq_shift_record kept, uint8_t *out, size_t out_len);

/* ---- A queue, and the library's calls on it ---- */

/* One side of a queue: its depth, how many entries it holds, and the next
 * serial. */
typedef struct lsq_side {
    uint8_t depth, count;
    uint32_t next;
} lsq_side;

/* All of a queue but its entries: its table, the memory length that it was
 * opened for, and both sides. */
typedef struct lsq_frame {
    lsq_table table;
    uint16_t memory_length;
    lsq_side loads, stores;
} lsq_frame;

/* Loads served, and loads forwarded. When either stands at 4294967295 both
 * stop. */
typedef struct lsq_counts {
    uint32_t loads, forwarded;
} lsq_counts;

/* What opening answers. The frame of a refused opening is 0 in every field. */
typedef struct lsq_opened {
    uint32_t answer;
    lsq_frame frame;
} lsq_opened;

/* What a call that may move the sides answers: the number, 1 or 0 as it gave a
 * value or none, the value or 0, and both sides that follow. The rest of the
 * frame stays as it is. */
typedef struct lsq_step {
    uint32_t answer, given, value;
    lsq_side loads, stores;
} lsq_step;

/* The same for serving, which changes the counts and no side. */
typedef struct lsq_service {
    uint32_t answer, given, value;
    lsq_counts counts;
} lsq_service;

/* What a ready call answers: 0 and how many serials stand at the front of the
 * run, or the refusal number and 0. */
typedef struct lsq_listed {
    uint32_t answer;
    uint64_t count;
} lsq_listed;

/* Numbers that a side's entries are packed into, one each. */
#define LSQ_ENTRIES 64

/* The library's calls go by parts: the frame is handed over by value, and the
 * entries of both sides, from the oldest, are lent as two runs of LSQ_ENTRIES
 * numbers. An entry is its port (bits 0 to 4), whether it has its address
 * (bit 5), whether it has its word, which is a load's value or a store's data
 * (bit 6), whether a load was taken or a store written (bit 7), how many queued
 * entries of the other kind come before it (bits 8 to 15), its address (bits 16
 * to 31) and its word (the rest). Numbers beyond a side's count mean nothing,
 * nor do the bits of an address or a word that an entry has not: an accepted
 * call may leave anything there.
 *
 * The parts may come from anywhere. Each call first answers 40 (LSQ_UNSOUND)
 * where a run has another length than LSQ_ENTRIES, a depth or the memory length
 * is outside its limits, a side holds more entries than its depth, an entry
 * remembers more of the other kind than are held, a filled-in address is not
 * below the memory length, or the table meets one of 4 to 8. A refused call
 * leaves everything lent as it was, and gives back the sides, or the counts,
 * that it was handed. */

/* Opens a queue on a table's bytes: 1 to 9 or 42 of the table, then 11 to 14.
 * Both series of serials begin at `first`. The queue holds no entry, so the two
 * runs of entries that go with the frame may hold anything. */
lsq_opened lsq_open_in(const uint8_t *table, size_t table_len, uint32_t load_depth,
                       uint32_t store_depth, uint32_t first, uint32_t memory_length);

/* 0 where a call with these parts would answer 40, else 1. */
uint32_t lsq_sound_in(lsq_frame frame, const uint64_t *loads, size_t loads_len,
                      const uint64_t *stores, size_t stores_len);

/* Queues a group's accesses: 40, 20, 21. An empty group, with no load
 * and no store, takes no place: a full queue accepts it. */
lsq_step lsq_activate_in(lsq_frame frame, uint64_t *loads, size_t loads_len,
                         uint64_t *stores, size_t stores_len, uint32_t group);

/* Gives an address to the port's oldest load that has none: 40, 22, 23, 24. */
uint32_t lsq_load_address_in(lsq_frame frame, uint64_t *loads, size_t loads_len,
                             const uint64_t *stores, size_t stores_len,
                             uint32_t port, uint32_t address);

/* Gives an address to the port's oldest store that has none: 40, 22, 23, 24. */
uint32_t lsq_store_address_in(lsq_frame frame, const uint64_t *loads, size_t loads_len,
                              uint64_t *stores, size_t stores_len,
                              uint32_t port, uint32_t address);

/* Gives data to the port's oldest store that has none: 40, 22, 24. */
uint32_t lsq_store_data_in(lsq_frame frame, const uint64_t *loads, size_t loads_len,
                           uint64_t *stores, size_t stores_len,
                           uint32_t port, uint32_t word);

/* Serves the load with this serial and counts it: 40, 30, 25 to 29. */
lsq_service lsq_serve_in(lsq_frame frame, uint64_t *loads, size_t loads_len,
                         const uint64_t *stores, size_t stores_len,
                         const uint32_t *memory, size_t memory_len,
                         lsq_counts counts, uint32_t serial);

/* Writes the store with this serial to memory: 40, 30, 25, 26, 27, 29, 31, 32. */
lsq_step lsq_write_in(lsq_frame frame, uint64_t *loads, size_t loads_len,
                      uint64_t *stores, size_t stores_len,
                      uint32_t *memory, size_t memory_len, uint32_t serial);

/* Takes the value of the port's oldest untaken load: 40, 22, 33, 34. */
lsq_step lsq_take_in(lsq_frame frame, uint64_t *loads, size_t loads_len,
                     uint64_t *stores, size_t stores_len, uint32_t port);

/* Puts the serials of the loads that serve would now accept, or of the stores
 * that write would now accept, oldest first, at the front of out: 40, 10. The
 * rest of out keeps its contents; LSQ_ENTRIES places are always enough. */
lsq_listed lsq_ready_loads_in(lsq_frame frame, const uint64_t *loads, size_t loads_len,
                              const uint64_t *stores, size_t stores_len,
                              uint32_t *out, size_t out_len);
lsq_listed lsq_ready_stores_in(lsq_frame frame, const uint64_t *loads, size_t loads_len,
                               const uint64_t *stores, size_t stores_len,
                               uint32_t *out, size_t out_len);

/* ---- A live queue: inline, in plain C, not proved ---- */

/* A queue in one piece. It is plain data with no pointer inside: it may be
 * copied, saved, and sent to another host, as it stands where that host has the
 * same layout (the assertions at the end of this file) and the same order of
 * bytes, or else by lsq_save.
 * As it stands it has bytes between its fields that mean nothing and may hold
 * anything. The memory is the caller's, and no part of it.
 *
 * Whatever a queue holds when it comes back, the calls test it (40) and go by
 * what it holds. That each port gets the values of one access after another is
 * proved of every list of calls on parts, from an opened frame with any two runs
 * of LSQ_ENTRIES numbers, on one memory (parts-demand3 of the crate sequential). Each
 * of the library's functions states the same rule of the same parts; no theorem
 * speaks of lists of these functions. */
typedef struct lsq_queue {
    lsq_frame frame;
    uint64_t loads[LSQ_ENTRIES], stores[LSQ_ENTRIES];
} lsq_queue;

/* Each of these but lsq_sound answers 0 or the refusal number of the call that
 * it stands on. A refusal leaves *q, *value, *counts, *kept, *count, memory and
 * out as they were. Besides what every call is owed, q points to an lsq_queue,
 * and nothing else that is handed over lies inside it. */

/* An accepted opening sets every field of *q, so that it can be saved. */
static inline uint32_t lsq_open(lsq_queue *q, const uint8_t *table, size_t table_len,
                                uint32_t load_depth, uint32_t store_depth,
                                uint32_t first, uint32_t memory_length)
{
    lsq_opened opened = lsq_open_in(table, table_len, load_depth, store_depth, first, memory_length);
    if (opened.answer == LSQ_ACCEPTED) {
        memset(q, 0, sizeof *q);
        q->frame = opened.frame;
    }
    return opened.answer;
}

/* 1 where no call answers 40, else 0. */
static inline uint32_t lsq_sound(const lsq_queue *q)
{
    return lsq_sound_in(q->frame, q->loads, LSQ_ENTRIES, q->stores, LSQ_ENTRIES);
}

/* Puts both sides of an accepted step in place. */
static inline uint32_t lsq_follow(lsq_queue *q, const lsq_step *step)
{
    if (step->answer == LSQ_ACCEPTED) {
        q->frame.loads = step->loads;
        q->frame.stores = step->stores;
    }
    return step->answer;
}

static inline uint32_t lsq_activate(lsq_queue *q, uint32_t group)
{
    lsq_step step = lsq_activate_in(q->frame, q->loads, LSQ_ENTRIES, q->stores, LSQ_ENTRIES, group);
    return lsq_follow(q, &step);
}

static inline uint32_t lsq_load_address(lsq_queue *q, uint32_t port, uint32_t address)
{
    return lsq_load_address_in(q->frame, q->loads, LSQ_ENTRIES, q->stores, LSQ_ENTRIES,
                               port, address);
}

static inline uint32_t lsq_store_address(lsq_queue *q, uint32_t port, uint32_t address)
{
    return lsq_store_address_in(q->frame, q->loads, LSQ_ENTRIES, q->stores, LSQ_ENTRIES,
                                port, address);
}

static inline uint32_t lsq_store_data(lsq_queue *q, uint32_t port, uint32_t word)
{
    return lsq_store_data_in(q->frame, q->loads, LSQ_ENTRIES, q->stores, LSQ_ENTRIES, port, word);
}

static inline uint32_t lsq_serve(lsq_queue *q, const uint32_t *memory, size_t memory_len,
                                 lsq_counts *counts, uint32_t serial, uint32_t *value)
{
    lsq_service service = lsq_serve_in(q->frame, q->loads, LSQ_ENTRIES, q->stores, LSQ_ENTRIES,
                                       memory, memory_len, *counts, serial);
    if (service.answer == LSQ_ACCEPTED) {
        *counts = service.counts;
        *value = service.value;
    }
    return service.answer;
}

static inline uint32_t lsq_write(lsq_queue *q, uint32_t *memory, size_t memory_len,
                                 uint32_t serial)
{
    lsq_step step = lsq_write_in(q->frame, q->loads, LSQ_ENTRIES, q->stores, LSQ_ENTRIES,
                                 memory, memory_len, serial);
    return lsq_follow(q, &step);
}

static inline uint32_t lsq_take(lsq_queue *q, uint32_t port, uint32_t *value)
{
    lsq_step step = lsq_take_in(q->frame, q->loads, LSQ_ENTRIES, q->stores, LSQ_ENTRIES, port);
    if (step.answer == LSQ_ACCEPTED)
        *value = step.value;
    return lsq_follow(q, &step);
}

/* Takes as lsq_take does. An accepted take changes the port's two numbers in the
 * record, and no others. */
static inline uint32_t lsq_take_recorded(lsq_queue *q, lsq_shift_record *kept, uint32_t port,
                                         uint32_t *value)
{
    uint32_t answer = lsq_take(q, port, value);
    if (answer == LSQ_ACCEPTED)
        *kept = lsq_recorded(*kept, port, *value);
    return answer;
}

static inline uint32_t lsq_ready_loads(const lsq_queue *q, uint32_t *out, size_t out_len,
                                       size_t *count)
{
    lsq_listed listed = lsq_ready_loads_in(q->frame, q->loads, LSQ_ENTRIES, q->stores, LSQ_ENTRIES,
                                           out, out_len);
    if (listed.answer == LSQ_ACCEPTED)
        *count = (size_t)listed.count;
    return listed.answer;
}

static inline uint32_t lsq_ready_stores(const lsq_queue *q, uint32_t *out, size_t out_len,
                                        size_t *count)
{
    lsq_listed listed = lsq_ready_stores_in(q->frame, q->loads, LSQ_ENTRIES, q->stores, LSQ_ENTRIES,
                                            out, out_len);
    if (listed.answer == LSQ_ACCEPTED)
        *count = (size_t)listed.count;
    return listed.answer;
}

/* ---- A saved queue: inline, in plain C, not proved ---- */

/* Bytes that a queue is saved in: every field in turn, lowest byte first, the
 * same on every host, and the same as Queue::to_bytes of the Rust wrapper. */
#define LSQ_QUEUE_BYTES 1231

static inline uint8_t *lsq_put(uint8_t *at, uint64_t number, int bytes)
{
    for (; bytes > 0; bytes--, number >>= 8)
        *at++ = (uint8_t)number;
    return at;
}

static inline const uint8_t *lsq_get(const uint8_t *at, uint64_t *number, int bytes)
{
    *number = 0;
    for (int i = 0; i < bytes; i++)
        *number |= (uint64_t)*at++ << 8 * i;
    return at;
}

static inline uint8_t *lsq_put_table(uint8_t *at, const lsq_table *table)
{
    at = lsq_put(at, table->count, 1);
    for (int i = 0; i < 16; i++)
        at = lsq_put(at, table->groups[i], 4);
    for (int i = 0; i < 32; i++)
        at = lsq_put(at, table->loads[i], 2);
    for (int i = 0; i < 32; i++)
        at = lsq_put(at, table->stores[i], 2);
    return at;
}

static inline const uint8_t *lsq_get_pairs(const uint8_t *at, uint16_t *pairs)
{
    for (int i = 0; i < 32; i++, at += 2)
        pairs[i] = (uint16_t)(at[0] | at[1] << 8);
    return at;
}

static inline const uint8_t *lsq_get_table(const uint8_t *at, lsq_table *table)
{
    uint64_t group;
    table->count = *at++;
    for (int i = 0; i < 16; i++) {
        at = lsq_get(at, &group, 4);
        table->groups[i] = (uint32_t)group;
    }
    return lsq_get_pairs(lsq_get_pairs(at, table->loads), table->stores);
}

static inline uint8_t *lsq_put_side(uint8_t *at, const lsq_side *side)
{
    return lsq_put(lsq_put(lsq_put(at, side->depth, 1), side->count, 1), side->next, 4);
}

static inline const uint8_t *lsq_get_side(const uint8_t *at, lsq_side *side)
{
    uint64_t next;
    side->depth = at[0];
    side->count = at[1];
    at = lsq_get(at + 2, &next, 4);
    side->next = (uint32_t)next;
    return at;
}

/* Puts the queue down in LSQ_QUEUE_BYTES bytes. */
static inline void lsq_save(const lsq_queue *q, uint8_t *out)
{
    out = lsq_put(lsq_put_table(out, &q->frame.table), q->frame.memory_length, 2);
    out = lsq_put_side(lsq_put_side(out, &q->frame.loads), &q->frame.stores);
    for (int i = 0; i < LSQ_ENTRIES; i++)
        out = lsq_put(out, q->loads[i], 8);
    for (int i = 0; i < LSQ_ENTRIES; i++)
        out = lsq_put(out, q->stores[i], 8);
}

/* Sets every field of the queue from LSQ_QUEUE_BYTES bytes: those that lsq_save
 * put down, or any. */
static inline void lsq_restore(lsq_queue *q, const uint8_t *in)
{
    uint64_t memory_length;
    in = lsq_get(lsq_get_table(in, &q->frame.table), &memory_length, 2);
    q->frame.memory_length = (uint16_t)memory_length;
    in = lsq_get_side(lsq_get_side(in, &q->frame.loads), &q->frame.stores);
    for (int i = 0; i < LSQ_ENTRIES; i++)
        in = lsq_get(in, &q->loads[i], 8);
    for (int i = 0; i < LSQ_ENTRIES; i++)
        in = lsq_get(in, &q->stores[i], 8);
}

/* ---- The layout that the library was compiled for ---- */

LSQ_HOLDS(sizeof(size_t) == 8);
LSQ_HOLDS(sizeof(lsq_table) == 196);
LSQ_HOLDS(offsetof(lsq_table, groups) == 4);
LSQ_HOLDS(offsetof(lsq_table, loads) == 68);
LSQ_HOLDS(offsetof(lsq_table, stores) == 132);
LSQ_HOLDS(sizeof(lsq_table_read) == 200);
LSQ_HOLDS(sizeof(lsq_side) == 8);
LSQ_HOLDS(offsetof(lsq_side, next) == 4);
LSQ_HOLDS(sizeof(lsq_frame) == 216);
LSQ_HOLDS(offsetof(lsq_frame, memory_length) == 196);
LSQ_HOLDS(offsetof(lsq_frame, loads) == 200);
LSQ_HOLDS(offsetof(lsq_frame, stores) == 208);
LSQ_HOLDS(sizeof(lsq_counts) == 8);
LSQ_HOLDS(sizeof(lsq_opened) == 220);
LSQ_HOLDS(sizeof(lsq_step) == 28);
LSQ_HOLDS(sizeof(lsq_service) == 20);
LSQ_HOLDS(sizeof(lsq_listed) == 16);
LSQ_HOLDS(sizeof(lsq_written) == 16);
LSQ_HOLDS(sizeof(lsq_precedence) == 8);
LSQ_HOLDS(offsetof(lsq_precedence, second) == 4);
LSQ_HOLDS(sizeof(lsq_precedences) == 516);
LSQ_HOLDS(offsetof(lsq_precedences, pairs) == 4);
LSQ_HOLDS(sizeof(lsq_ordered) == 34);
LSQ_HOLDS(offsetof(lsq_ordered, accesses) == 2);
LSQ_HOLDS(sizeof(lsq_accesses) == 64);
LSQ_HOLDS(offsetof(lsq_accesses, ports) == 32);
LSQ_HOLDS(sizeof(lsq_shift_record) == 256);
LSQ_HOLDS(offsetof(lsq_shift_record, values) == 128);
LSQ_HOLDS(sizeof(lsq_replayed) == 260);
LSQ_HOLDS(offsetof(lsq_replayed, kept) == 4);
LSQ_HOLDS(sizeof(lsq_queue) == 1240);
LSQ_HOLDS(offsetof(lsq_queue, loads) == 216);
LSQ_HOLDS(offsetof(lsq_queue, stores) == 728);

#undef LSQ_HOLDS

#ifdef __cplusplus
}
#endif

#endif

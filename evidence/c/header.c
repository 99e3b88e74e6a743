/* The inline functions of lsq.h under names that can be linked to, so that they
 * can be held to the reference as the library's own are; and the functions of the
 * shift record, of pairs and of orders, so that C hands one over by value and gets
 * one back. */
#include "lsq.h"

uint32_t header_open(lsq_queue *q, const uint8_t *table, size_t table_len, uint32_t load_depth,
                     uint32_t store_depth, uint32_t first, uint32_t memory_length)
{
    return lsq_open(q, table, table_len, load_depth, store_depth, first, memory_length);
}

uint32_t header_sound(const lsq_queue *q)
{
    return lsq_sound(q);
}

uint32_t header_activate(lsq_queue *q, uint32_t group)
{
    return lsq_activate(q, group);
}

uint32_t header_load_address(lsq_queue *q, uint32_t port, uint32_t address)
{
    return lsq_load_address(q, port, address);
}

uint32_t header_store_address(lsq_queue *q, uint32_t port, uint32_t address)
{
    return lsq_store_address(q, port, address);
}

uint32_t header_store_data(lsq_queue *q, uint32_t port, uint32_t word)
{
    return lsq_store_data(q, port, word);
}

uint32_t header_serve(lsq_queue *q, const uint32_t *memory, size_t memory_len, lsq_counts *counts,
                      uint32_t serial, uint32_t *value)
{
    return lsq_serve(q, memory, memory_len, counts, serial, value);
}

uint32_t header_write(lsq_queue *q, uint32_t *memory, size_t memory_len, uint32_t serial)
{
    return lsq_write(q, memory, memory_len, serial);
}

uint32_t header_take(lsq_queue *q, uint32_t port, uint32_t *value)
{
    return lsq_take(q, port, value);
}

uint32_t header_take_recorded(lsq_queue *q, lsq_shift_record *kept, uint32_t port, uint32_t *value)
{
    return lsq_take_recorded(q, kept, port, value);
}

lsq_ordered header_order(uint32_t accesses, lsq_precedences pairs)
{
    return lsq_order(accesses, pairs);
}

lsq_table header_table_in_order(lsq_ordered order, lsq_accesses accesses)
{
    return lsq_table_in_order(order, accesses);
}

lsq_shift_record header_recorded(lsq_shift_record kept, uint32_t port, uint32_t value)
{
    return lsq_recorded(kept, port, value);
}

lsq_written header_page(lsq_shift_record kept, uint8_t *out, size_t out_len)
{
    return lsq_page(kept, out, out_len);
}

uint32_t header_ready_loads(const lsq_queue *q, uint32_t *out, size_t out_len, size_t *count)
{
    return lsq_ready_loads(q, out, out_len, count);
}

uint32_t header_ready_stores(const lsq_queue *q, uint32_t *out, size_t out_len, size_t *count)
{
    return lsq_ready_stores(q, out, out_len, count);
}

void header_save(const lsq_queue *q, uint8_t *out)
{
    lsq_save(q, out);
}

void header_restore(lsq_queue *q, const uint8_t *in)
{
    lsq_restore(q, in);
}

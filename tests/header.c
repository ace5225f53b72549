/*
 * The calls and questions of include/station.h, on the trial of document 01. Every buffer is memory of its own of exactly its size,
 * so that valgrind sees a byte too many.
 */
#undef NDEBUG
#include "station.h"

#include <assert.h>
#include <stdlib.h>

enum { BLOCKS = 4, HEADS = 2 };

static struct station_tables tables;

static void *bytes(size_t number)
{
    void *memory = malloc(number);
    assert(memory != NULL);
    return memory;
}

static uint8_t *hash_of(uint8_t byte)
{
    uint8_t *hash = (uint8_t *)bytes(STATION_HASH_BYTES);
    memset(hash, byte, STATION_HASH_BYTES);
    return hash;
}

static void lend(struct station_tables *t, size_t n, size_t m)
{
    t->blocks = n;
    t->heads = m;
    t->hashes = (uint8_t *)bytes(STATION_HASH_BYTES * n);
    t->parents = (uint32_t *)bytes(sizeof *t->parents * n);
    t->sequences = (uint32_t *)bytes(sizeof *t->sequences * n);
    t->counts = (uint8_t *)bytes(n);
    t->flags = (uint8_t *)bytes(n);
    t->tips = (uint32_t *)bytes(sizeof *t->tips * m);
    t->tails = (uint32_t *)bytes(sizeof *t->tails * m);
    t->missing = (uint8_t *)bytes(STATION_HASH_BYTES * m);
    t->requested = (uint64_t *)bytes(sizeof *t->requested * m);
    t->arrivals = (uint64_t *)bytes(sizeof *t->arrivals * m);
    t->connected = (uint8_t *)bytes(m);
    t->held = (struct station_active_head *)bytes(sizeof *t->held);
    t->mark = (uint8_t *)bytes(STATION_MARK_BYTES(n, m));
}

static void give_back(struct station_tables *t)
{
    void *buffers[] = { t->hashes, t->parents, t->sequences, t->counts, t->flags, t->tips, t->tails,
                        t->missing, t->requested, t->arrivals, t->connected, t->held, t->mark };
    for (size_t i = 0; i < sizeof buffers / sizeof *buffers; i++)
        free(buffers[i]);
}

static struct station_answer admit(uint32_t sequence, uint8_t hash, uint8_t previous, uint64_t arrival)
{
    uint8_t *own = hash_of(hash);
    uint8_t *parents = hash_of(previous);
    struct station_answer answer = station_tables_admit(&tables, sequence, own, parents, arrival);
    free(own);
    free(parents);
    return answer;
}

static bool is_hash(const uint8_t *hash, uint8_t byte)
{
    uint8_t *expected = hash_of(byte);
    bool same = memcmp(hash, expected, STATION_HASH_BYTES) == 0;
    free(expected);
    return same;
}

static bool gives(struct station_answer answer, uint32_t value)
{
    return station_refusal(answer) == STATION_DONE && station_value(answer) == value;
}

static bool refuses(struct station_answer answer, uint32_t refusal)
{
    return station_refusal(answer) == refusal && station_value(answer) == STATION_NONE_REF;
}

static void check_block(uint32_t slot, uint8_t hash, uint32_t parent, uint32_t sequence, uint8_t count, bool active)
{
    struct station_block block;
    assert(station_tables_get(&tables, slot, &block));
    assert(is_hash(block.hash, hash));
    assert(block.parent == parent && block.sequence == sequence);
    assert(block.count == count && block.active == active);
    assert(station_tables_head_ref_count(&tables, slot) == count);
    assert(station_tables_status(&tables, slot) == (uint32_t)(active ? STATION_ACTIVE : STATION_STORED));
}

static void check_head(uint32_t slot, uint32_t tip, bool connected, uint32_t anchor, uint8_t missing, uint64_t arrival)
{
    struct station_head head;
    assert(station_tables_head(&tables, slot, &head));
    assert(head.tip == tip && head.anchor == anchor && head.connected == connected);
    assert(is_hash(head.missing, missing) && head.requested == 0 && head.arrival == arrival);
    assert(station_tables_slot_of_head(&tables, tip) == slot);
    struct station_anchor kept = station_tables_locate_anchor(&tables, tip);
    assert(kept.slot == anchor && kept.connected == connected);
    assert(station_tables_walks_to_active_chain(&tables, tip) == connected);
}

static void trial(void)
{
    const uint64_t retry = 5;
    struct station_request request;
    assert(gives(station_tables_fresh(&tables), 0));
    assert(station_tables_active_head(&tables) == STATION_NONE_REF);
    assert(gives(admit(5, 0x0a, 0x09, 1), 0));
    assert(gives(admit(6, 0x0b, 0x0a, 2), 1));
    assert(gives(admit(6, 0x0c, 0x0a, 3), 2));
    assert(gives(station_tables_timer(&tables, 10, &retry, &request), 0));
    assert(request.sequence == 4 && is_hash(request.hash, 0x09));
    assert(gives(station_tables_promote(&tables, 0), 0));
    assert(station_tables_active_head(&tables) == 0);
    assert(refuses(admit(6, 0x0b, 0x0a, 4), STATION_REFUSED_KNOWN));
    assert(gives(admit(7, 0x0d, 0x0e, 20), 3));

    struct station_block none;
    check_block(0, 0x0a, STATION_NONE_REF, 5, 1, true);
    assert(!station_tables_get(&tables, 1, &none) && !station_tables_get(&tables, BLOCKS, &none));
    check_block(2, 0x0c, 0, 6, 1, false);
    check_block(3, 0x0d, STATION_NONE_REF, 7, 1, false);
    check_head(0, 3, false, 3, 0x0e, 20);
    check_head(1, 2, true, 0, 0, 3);
}

static void questions(void)
{
    uint8_t *pass = hash_of(0x0a);
    assert(station_tables_find(&tables, 5, pass) == 0);
    assert(station_tables_find(&tables, 6, pass) == STATION_NONE_REF);
    assert(station_tables_find_parent(&tables, 6, pass) == 0);
    assert(station_tables_find_parent(&tables, 5, pass) == STATION_NONE_REF);
    free(pass);
    assert(station_tables_next_free_index(&tables) == 1);
    assert(station_tables_head_ref_count(&tables, 1) == STATION_NONE_REF);
    assert(station_tables_status(&tables, BLOCKS) == STATION_NONE_REF);
    assert(station_tables_count(&tables) == 2 && station_tables_has_stored_head(&tables));
    assert(station_tables_slot_of_head(&tables, 0) == STATION_NONE_REF);
    struct station_head head;
    assert(!station_tables_head(&tables, HEADS, &head));

    uint32_t *slots = (uint32_t *)bytes(sizeof *slots * 2);
    assert(station_tables_mark_subtree(&tables, 0, slots, 2) == 2 && slots[0] == 0 && slots[1] == 2);
    slots[1] = 77;
    assert(station_tables_mark_subtree(&tables, 0, slots, 1) == 2 && slots[0] == 0 && slots[1] == 77);
    free(slots);
    assert(station_tables_mark_subtree(&tables, 0, NULL, 0) == 2);
    assert(station_tables_mark_subtree(&tables, 1, NULL, 0) == 0);

    struct station_rank heavy = { 9, 3, { 2 } };
    struct station_rank light = { 8, 7, { 1 } };
    assert(station_rank_outranks(&heavy, &light) && !station_rank_outranks(&light, &heavy));
}

static void under(void)
{
    uint32_t *highest = (uint32_t *)bytes(sizeof *highest);
    assert(gives(station_tables_under(&tables, 0, highest), 2) && *highest == 6);
    assert(gives(station_tables_under(&tables, 3, highest), 1) && *highest == 7);
    assert(gives(station_tables_under(&tables, 0, NULL), 2));
    *highest = 77;
    assert(refuses(station_tables_under(&tables, 1, highest), STATION_REFUSED_NO_BLOCK) && *highest == 77);
    assert(refuses(station_tables_under(&tables, BLOCKS, NULL), STATION_REFUSED_NO_BLOCK));

    /* A ring of parents: each of its two blocks is met at every other level of the four. */
    tables.parents[0] = 2;
    assert(gives(station_tables_under(&tables, 0, highest), 4) && *highest == 6);
    tables.parents[0] = STATION_NONE_REF;
    free(highest);
}

static bool is_row(const struct station_head_row *row, uint32_t tip, uint32_t sequence, uint32_t kind, uint32_t anchor)
{
    return row->tip == tip && row->sequence == sequence && row->kind == kind && row->anchor == anchor;
}

static void screen(void)
{
    struct station_head_row *rows = (struct station_head_row *)bytes(sizeof *rows * HEADS);
    assert(gives(station_tables_screen(&tables, rows, HEADS), 2));
    assert(is_row(&rows[0], 3, 7, STATION_HEAD_STORED, 3));
    assert(is_row(&rows[1], 2, 6, STATION_HEAD_CONNECTED, 0));

    /* Head 1 has an empty tip, and then one out of range, and stands first; its flag has other bits, too. */
    const uint32_t tips[] = { 1, BLOCKS };
    tables.connected[1] = 0xfe;
    for (size_t i = 0; i < sizeof tips / sizeof *tips; i++) {
        tables.tips[1] = tips[i];
        assert(gives(station_tables_screen(&tables, rows, HEADS), 2));
        assert(is_row(&rows[0], tips[i], STATION_NONE_REF, STATION_HEAD_STORED, 0));
        assert(is_row(&rows[1], 3, 7, STATION_HEAD_STORED, 3));
    }

    /* With no head 1 its record stays; and all records do where a list is too short. */
    rows[0].tip = rows[1].tip = 77;
    tables.tips[1] = STATION_NONE_REF;
    assert(refuses(station_tables_screen(&tables, rows, HEADS - 1), STATION_REFUSED_SHORT_LIST));
    assert(refuses(station_tables_screen(&tables, NULL, HEADS), STATION_REFUSED_SHORT_LIST));
    assert(rows[0].tip == 77 && rows[1].tip == 77);
    assert(gives(station_tables_screen(&tables, rows, HEADS), 1));
    assert(is_row(&rows[0], 3, 7, STATION_HEAD_STORED, 3) && is_row(&rows[1], 77, 7, STATION_HEAD_STORED, 3));
    tables.tips[1] = 2;
    tables.connected[1] = 1;
    free(rows);
}

static void timers(void)
{
    const uint64_t retry = 5;
    struct station_request request;
    uint64_t time = 77;
    assert(gives(station_tables_earliest_deadline(&tables, &retry, &time), 1) && time == 0);
    assert(gives(station_tables_timer(&tables, 30, NULL, &request), 0));
    assert(request.sequence == 6 && is_hash(request.hash, 0x0e));
    assert(gives(station_tables_earliest_deadline(&tables, &retry, &time), 1) && time == 35);
    assert(gives(station_tables_earliest_deadline(&tables, NULL, &time), 1) && time == 90);
    request.sequence = 77;
    assert(gives(station_tables_timer(&tables, 34, &retry, &request), STATION_NONE_REF));
    assert(request.sequence == 77);
    assert(gives(station_tables_remove(&tables, 3), 1));
    time = 77;
    assert(gives(station_tables_earliest_deadline(&tables, NULL, &time), 0) && time == 77);
}

static void refusals(void)
{
    assert(gives(station_tables_promote(&tables, 2), 0));
    assert(refuses(station_tables_promote(&tables, 0), STATION_REFUSED_NOT_NEXT));
    assert(refuses(station_tables_remove(&tables, 0), STATION_REFUSED_HOLDS_ACTIVE));
    assert(refuses(station_tables_remove(&tables, 1), STATION_REFUSED_NO_BLOCK));
    assert(refuses(station_tables_promote(&tables, station_value(admit(5, 0x0a, 0x09, 1))), STATION_REFUSED_NO_BLOCK));
    assert(refuses(admit(STATION_NONE_REF, 0x0a, 0x09, 1), STATION_REFUSED_RESERVED_SEQUENCE));
    assert(refuses(admit(5, 0, 0x09, 1), STATION_REFUSED_ZERO_HASH));

    struct station_tables too_large;
    lend(&too_large, STATION_MOST_BLOCKS + 1, STATION_MOST_HEADS);
    assert(refuses(station_tables_fresh(&too_large), STATION_REFUSED_SHAPE));
    assert(refuses(station_tables_under(&too_large, STATION_NONE_REF, NULL), STATION_REFUSED_SHAPE));
    assert(refuses(station_tables_screen(&too_large, NULL, 0), STATION_REFUSED_SHAPE));
    give_back(&too_large);
}

/* A block whose hashes are given as they stand in the tables. */
static void hashes_of_the_tables(void)
{
    const uint8_t *first = tables.hashes;
    const uint8_t *third = tables.hashes + 2 * STATION_HASH_BYTES;
    assert(gives(station_tables_admit(&tables, 7, first, third, 40), 1));
    check_block(1, 0x0a, 2, 7, 1, false);
}

int main(void)
{
    lend(&tables, BLOCKS, HEADS);
    trial();
    questions();
    under();
    screen();
    timers();
    refusals();
    hashes_of_the_tables();
    assert(gives(station_tables_restart(&tables, 50), 0));
    give_back(&tables);
    return 0;
}

/*
 * A store saved to a file, loaded and restarted; and what restart refuses of that. The stores are heap memory, so that valgrind sees a
 * byte that is saved undefined.
 */
#undef NDEBUG
#include "station.h"

#include <assert.h>
#include <stdio.h>
#include <stdlib.h>

enum { BLOCKS = 5, HEADS = 2 };

typedef STATION_STORE(BLOCKS, HEADS) desk_store;
typedef STATION_STORE(BLOCKS + 1, HEADS) larger_store;

/* Whether the fields fill the store, so that no byte of it is padding. */
#define IS_FULL(n, m)                                                                                                  \
    do {                                                                                                               \
        typedef STATION_STORE(n, m) full;                                                                              \
        assert(sizeof(full) == 42 * (n) + 57 * (m) + 4 + STATION_MARK_BYTES(n, m));                                    \
    } while (0)

static void no_padding(void)
{
    IS_FULL(1, 2);
    IS_FULL(1, 3);
    IS_FULL(1, 4);
    IS_FULL(1, 5);
    IS_FULL(2, 4);
    IS_FULL(2, 5);
    IS_FULL(2, 6);
    IS_FULL(2, 7);
    IS_FULL(STATION_MOST_BLOCKS, STATION_MOST_HEADS);
}

static desk_store *new_store(void)
{
    desk_store *store = (desk_store *)malloc(sizeof *store);
    assert(store != NULL);
    return store;
}

static struct station_answer admit(struct station_tables *t, uint32_t sequence, uint8_t hash, uint8_t previous)
{
    uint8_t own[STATION_HASH_BYTES];
    uint8_t parents[STATION_HASH_BYTES];
    memset(own, hash, sizeof own);
    memset(parents, previous, sizeof parents);
    return station_tables_admit(t, sequence, own, parents, 1);
}

static bool done(struct station_answer answer)
{
    return station_refusal(answer) == STATION_DONE;
}

/* Blocks 1 and 2 are siblings, and 1 is confirmed. */
static void book(struct station_tables *t)
{
    assert(done(station_tables_fresh(t)));
    assert(done(admit(t, 5, 0x0a, 0x09)));
    assert(done(admit(t, 6, 0x0b, 0x0a)));
    assert(done(admit(t, 6, 0x0c, 0x0a)));
    assert(done(station_tables_promote(t, 0)));
    assert(done(station_tables_promote(t, 1)));
}

static desk_store *saved_and_loaded(const desk_store *store)
{
    FILE *file = tmpfile();
    desk_store *loaded = new_store();
    assert(file != NULL);
    assert(fwrite(store, sizeof *store, 1, file) == 1);
    rewind(file);
    assert(fread(loaded, sizeof *loaded, 1, file) == 1);
    fclose(file);
    return loaded;
}

/* Restart's refusal of the store, which it leaves as it stood. */
static uint32_t refusal_of(desk_store *store)
{
    desk_store *before = saved_and_loaded(store);
    struct station_tables tables = STATION_LEND(*store);
    struct station_answer answer = station_tables_restart(&tables, 10);
    assert(!done(answer) && memcmp(store, before, sizeof *store) == 0);
    free(before);
    return station_refusal(answer);
}

static void the_record_comes_back(const desk_store *store)
{
    desk_store *loaded = saved_and_loaded(store);
    struct station_tables tables = STATION_LEND(*loaded);
    assert(done(station_tables_restart(&tables, 10)));
    assert(station_tables_active_head(&tables) == 1);
    assert(station_refusal(station_tables_promote(&tables, 2)) == STATION_REFUSED_NOT_NEXT);
    free(loaded);
}

static void counts_and_heads_may_be_anything(const desk_store *store)
{
    desk_store *whole = saved_and_loaded(store);
    desk_store *damaged = saved_and_loaded(store);
    memset(damaged->counts, 0xaa, 3);
    memset(damaged->tips, 1, sizeof damaged->tips);
    memset(damaged->tails, 2, sizeof damaged->tails);
    memset(damaged->missing, 3, sizeof damaged->missing);
    memset(damaged->requested, 4, sizeof damaged->requested);
    memset(damaged->arrivals, 5, sizeof damaged->arrivals);
    memset(damaged->connected, 6, sizeof damaged->connected);
    struct station_tables first = STATION_LEND(*whole);
    struct station_tables second = STATION_LEND(*damaged);
    assert(done(station_tables_restart(&first, 10)) && done(station_tables_restart(&second, 10)));
    assert(memcmp(whole, damaged, sizeof *whole) == 0);
    free(whole);
    free(damaged);
}

static void zeros_are_no_store(void)
{
    desk_store *zeros = new_store();
    memset(zeros, 0, sizeof *zeros);
    assert(refusal_of(zeros) == STATION_REFUSED_STORE);
    free(zeros);
}

static void another_layout_is_refused(const desk_store *store)
{
    desk_store *other = saved_and_loaded(store);
    other->mark[sizeof other->mark - 9]++;
    assert(refusal_of(other) == STATION_REFUSED_STORE);
    free(other);
}

static void another_size_is_refused(void)
{
    larger_store *larger = (larger_store *)malloc(sizeof *larger);
    desk_store *loaded = new_store();
    assert(larger != NULL);
    struct station_tables tables = STATION_LEND(*larger);
    book(&tables);
    memcpy(loaded, larger, sizeof *loaded);
    assert(refusal_of(loaded) == STATION_REFUSED_STORE);
    free(larger);
    free(loaded);
}

/* Lost, older than the blocks, no slot, and of a block that is not active. */
static void another_record_is_refused(const desk_store *store)
{
    const uint32_t records[] = { STATION_NONE_REF, 0, BLOCKS, 2 };
    for (size_t i = 0; i < sizeof records / sizeof *records; i++) {
        desk_store *other = saved_and_loaded(store);
        other->held.slot = records[i];
        assert(refusal_of(other) == STATION_REFUSED_RECORD);
        free(other);
    }
}

/* The chain begins at a block whose parent is there and not active. */
static void a_lost_record_is_refused(void)
{
    desk_store *store = new_store();
    struct station_tables tables = STATION_LEND(*store);
    assert(done(station_tables_fresh(&tables)));
    assert(done(admit(&tables, 5, 0x0a, 0x09)));
    assert(done(admit(&tables, 6, 0x0b, 0x0a)));
    assert(done(station_tables_promote(&tables, 1)));
    store->held.slot = STATION_NONE_REF;
    assert(refusal_of(store) == STATION_REFUSED_RECORD);
    free(store);
}

int main(void)
{
    no_padding();
    desk_store *store = new_store();
    struct station_tables tables = STATION_LEND(*store);
    book(&tables);
    the_record_comes_back(store);
    counts_and_heads_may_be_anything(store);
    zeros_are_no_store();
    another_layout_is_refused(store);
    another_size_is_refused();
    another_record_is_refused(store);
    a_lost_record_is_refused();
    free(store);
    return 0;
}

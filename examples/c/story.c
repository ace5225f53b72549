/*
 * The story: a station saves its store, comes up again with a full, forked head table, its counts at zero, and restarts; a
 * third branch evicts one of the two that share a pass's block; and the pass stays.
 *
 *     bash examples/c/run
 */
#include "station.h"

#include <inttypes.h>
#include <stdbool.h>
#include <stdio.h>
#include <stdlib.h>
#include <string.h>

enum { SEQUENCE = 5, PASS = 0x0a, BEFORE = 0x09 };

static STATION_STORE(4, 2) store;
static struct station_tables tables = STATION_LEND(store);

static struct station_answer admit(uint32_t sequence, uint8_t hash, uint8_t previous, uint64_t arrival)
{
    uint8_t own[STATION_HASH_BYTES];
    uint8_t parents[STATION_HASH_BYTES];
    memset(own, hash, sizeof own);
    memset(parents, previous, sizeof parents);
    return station_tables_admit(&tables, sequence, own, parents, arrival);
}

/* Ends the story where it goes another way. */
static void must(bool is_so, const char *where)
{
    if (!is_so) {
        fprintf(stderr, "the story ends: %s\n", where);
        exit(EXIT_FAILURE);
    }
}

/* The value of a call that the story does not expect to be refused. */
static uint32_t accepted(struct station_answer answer)
{
    must(station_refusal(answer) == STATION_DONE, station_refusal_text(station_refusal(answer)));
    return station_value(answer);
}

/* Prints why a call is refused that must be. */
static void refused(const char *asked, struct station_answer answer)
{
    must(station_refusal(answer) != STATION_DONE, asked);
    printf("%s %s.\n", asked, station_refusal_text(station_refusal(answer)));
}

static void show(const char *when)
{
    puts(when);
    for (uint32_t slot = 0; slot < tables.blocks; slot++) {
        struct station_block block;
        if (!station_tables_get(&tables, slot, &block))
            continue;
        printf("  %" PRIu32 ": sequence %" PRIu32, slot, block.sequence);
        if (block.parent != STATION_NONE_REF)
            printf(" on %" PRIu32, block.parent);
        printf(", count %u%s\n", block.count, block.active ? ", confirmed" : "");
    }
}

/* A crash leaves the old file or the new one. Where power may fail the file is also flushed to the disk before the rename. */
static void save(const char *path)
{
    char second[FILENAME_MAX];
    must(snprintf(second, sizeof second, "%s.new", path) < (int)sizeof second, "a shorter path");
    FILE *file = fopen(second, "wb");
    must(file != NULL, second);
    must(fwrite(&store, sizeof store, 1, file) == 1, second);
    must(fclose(file) == 0 && rename(second, path) == 0, path);
}

static void load(const char *path)
{
    FILE *file = fopen(path, "rb");
    must(file != NULL, path);
    must(fread(&store, sizeof store, 1, file) == 1 && fgetc(file) == EOF, path);
    fclose(file);
}

static void restarted(const char *path, bool confirmed)
{
    accepted(station_tables_fresh(&tables));
    uint32_t pass = accepted(admit(SEQUENCE, PASS, BEFORE, 1));
    accepted(admit(6, 0x0b, PASS, 2));
    accepted(admit(6, 0x0c, PASS, 3));
    if (confirmed)
        accepted(station_tables_promote(&tables, pass));
    show("Two branches share its block:");

    save(path);
    memset(&store, 0, sizeof store);
    puts("The store is saved to a file, and the station stops.");
    load(path);
    memset(store.counts, 0, sizeof store.counts);
    show("It comes up again and loads the file, without the counts:");
    accepted(station_tables_restart(&tables, 10));
    show("Restart sets them from the blocks:");
}

static uint32_t third_branch(void)
{
    uint32_t slot = accepted(admit(7, 0x0d, 0x0e, 20));
    show("A third branch evicts the lower one, and the pass stays:");
    return slot;
}

static void fourth_branch(void)
{
    accepted(admit(8, 0x0f, 0x10, 30));
    show("A fourth evicts the other, and the pass stays:");
}

static void sell_again(void)
{
    refused("Sold again?", admit(SEQUENCE, PASS, BEFORE, 40));
}

static void cancel(void)
{
    uint8_t hash[STATION_HASH_BYTES];
    memset(hash, PASS, sizeof hash);
    refused("Cancelled?", station_tables_remove(&tables, station_tables_find(&tables, SEQUENCE, hash)));
}

/* Only the record knows that the chain goes on from the pass alone. */
static void confirm_instead(uint32_t slot)
{
    refused("Another confirmed instead?", station_tables_promote(&tables, slot));
}

int main(int number, char **words)
{
    must(number == 2, "story FILE");
    puts("The pass is booked.");
    restarted(words[1], false);
    third_branch();
    sell_again();

    puts("\nThe pass is confirmed.");
    restarted(words[1], true);
    uint32_t other = third_branch();
    fourth_branch();
    sell_again();
    cancel();
    confirm_instead(other);
    return EXIT_SUCCESS;
}

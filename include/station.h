/*
 * The booking chain's block tree and its heads, over memory that the caller owns.
 *
 * A block names its parent by hash. Promoted blocks are the active chain, and its last block is the active head. A head is
 * the tip of a branch: connected if the branch meets the active chain, or else stored, waiting for a missing block.
 *
 * Tables of n block slots (1 to 1,024) and m head slots (2 to 64) live in a store. Nothing is kept between two calls:
 * nothing is allocated, there are no globals, and tables that share no memory may be used by different threads at once.
 *
 *     static STATION_STORE(1024, 64) store;
 *     static struct station_tables tables = STATION_LEND(store);
 *
 *     struct station_answer answer = station_tables_fresh(&tables);
 *     if (station_refusal(answer) != STATION_DONE)
 *         puts(station_refusal_text(station_refusal(answer)));
 *
 * The first part of this header is what a program uses: the tables, the calls and questions on them, and what a station
 * must write to disk. The second part has the entry points of libstation.a, which take the buffers as bare slices of any
 * length. The third has the bodies of the first.
 *
 * The entry points are proved to meet their contracts on all lengths, contents, slots, hashes and clocks. That this header
 * declares them as they are is tested, not proved, and so are its inline functions.
 */
#ifndef STATION_H
#define STATION_H

#if !defined(__x86_64__) || !defined(__LP64__) || !defined(__ELF__)
#error "libstation.a is for x86-64 with 64-bit pointers and ELF objects"
#endif

#include <stdbool.h>
#include <stddef.h>
#include <stdint.h>
#include <string.h>

#ifdef __cplusplus
extern "C" {
#endif

#define STATION_VERSION_MAJOR 0
#define STATION_VERSION_MINOR 4
#define STATION_VERSION_PATCH 0
#define STATION_VERSION "0.4.0"

/* Ignoring the answer of such a function warns. */
#if (defined(__cplusplus) && __cplusplus >= 201703L) || (defined(__STDC_VERSION__) && __STDC_VERSION__ > 201710L)
#define STATION_CHECKED [[nodiscard]]
#else
#define STATION_CHECKED __attribute__((warn_unused_result))
#endif

/* In a parameter: the array has at least so many elements. C++ has no word for it. */
#ifdef __cplusplus
#define STATION_AT_LEAST
#else
#define STATION_AT_LEAST static
#endif

/* What must hold of a layout: where it does not, nothing compiles. C99 has no word for it, and the compilers lend theirs. */
#ifdef __cplusplus
#define STATION_ASSERT(holds, words) static_assert(holds, words)
#else
#define STATION_ASSERT(holds, words) __extension__ _Static_assert(holds, words)
#endif

/* Names no slot: no parent, no active head, nothing found, the value of a refused call. No block has it as its sequence. */
#define STATION_NONE_REF UINT32_C(4294967295)

/* Hashes are ordered from their first byte on. */
#define STATION_HASH_BYTES 32

#define STATION_MOST_BLOCKS 1024
#define STATION_MOST_HEADS 64

/* ==== Part 1: the tables ==== */

/* ---- Answers and refusals
 *
 * A call does its work and answers with a value, or refuses and has changed nothing. Where several of the refusals 1 to 10
 * apply the lowest is given. Those from 100 on are of this header alone.
 */

/* Read by station_refusal and station_value. */
struct station_answer {
    uint64_t number;
};

enum {
    STATION_DONE = 0,
    STATION_REFUSED_SHAPE = 1,
    STATION_REFUSED_HASH_LENGTH = 2,
    STATION_REFUSED_NO_BLOCK = 3,
    STATION_REFUSED_RESERVED_SEQUENCE = 4,
    STATION_REFUSED_ZERO_HASH = 5,
    STATION_REFUSED_KNOWN = 6,
    STATION_REFUSED_FULL = 7,
    STATION_REFUSED_NOT_NEXT = 8,
    STATION_REFUSED_HOLDS_ACTIVE = 9,
    STATION_REFUSED_SHORT_LIST = 10,
    STATION_REFUSED_STORE = 100,
    STATION_REFUSED_RECORD = 101
};

/* The refusal, or STATION_DONE. */
STATION_CHECKED static inline uint32_t station_refusal(struct station_answer answer);

/* The value of an accepted call; STATION_NONE_REF of a refused one. */
STATION_CHECKED static inline uint32_t station_value(struct station_answer answer);

STATION_CHECKED static inline const char *station_refusal_text(uint32_t refusal);

/* ---- The store, and what a station writes to disk
 *
 * All that must outlast the station stands in its store:
 *
 *     hashes, parents, sequences, flags   of the blocks, together and as one call left them
 *     held                                the record, which names the active head
 *     mark                                by which the store is known
 *
 * The counts of blocks, and all that is kept of the heads, may come back as anything: restart works them out. An empty
 * slot must come back empty, with its count 0. One write saves it all, and fresh leaves no byte of it undefined:
 *
 *     fwrite(&store, sizeof store, 1, file)
 *
 * Save after each accepted fresh, admit, promote and remove, before anyone is told of its answer, and save whole: write a
 * second file, flush it to the disk and rename it over the first, so that a crash leaves the old store or the new one and
 * nothing in between. A record that is older than the blocks, or lost, would let another block be promoted in the place of
 * a confirmed one.
 *
 * When the station comes up again, read the file into a store of the same n and m, lend that, and call restart before all
 * else. A store of zeros is not a fresh one. Restart refuses a store that fresh did not begin, or of another layout, n or m
 * (STATION_REFUSED_STORE), and a record that is not the last block of the active chain (STATION_REFUSED_RECORD). It
 * believes the rest: that parents are there and one lower in sequence, that the active blocks are one line, and that no two
 * blocks have the same sequence and hash. Calls from fresh tables on leave nothing else.
 */

/* The record: the slot of the active head, or STATION_NONE_REF. Only fresh and promote write it. */
struct station_active_head {
    uint32_t slot;
};

/* The number of the store's layout, and the bytes of its mark, which fill the store up to a multiple of 8. */
#define STATION_LAYOUT 1
#define STATION_MARK_BYTES(n, m) (16 + (12 - (2 * (n) + (m)) % 8) % 8)

/* Memory for tables of n block slots and m head slots, without padding. */
#define STATION_STORE(n, m)                                                                                            \
    struct {                                                                                                           \
        uint64_t requested[m], arrivals[m];                                                                            \
        uint32_t parents[n], sequences[n], tips[m], tails[m];                                                          \
        struct station_active_head held;                                                                               \
        uint8_t hashes[STATION_HASH_BYTES * (n)], missing[STATION_HASH_BYTES * (m)];                                   \
        uint8_t counts[n], flags[n], connected[m], mark[STATION_MARK_BYTES(n, m)];                                     \
    }

/* Initialises a struct station_tables over such memory. Fresh comes next, or what was saved and restart. */
#define STATION_LEND(store)                                                                                            \
    {                                                                                                                  \
        sizeof (store).counts, sizeof (store).connected,                                                               \
        (store).hashes, (store).parents, (store).sequences, (store).counts, (store).flags,                             \
        (store).tips, (store).tails, (store).missing, (store).requested, (store).arrivals, (store).connected,          \
        &(store).held, (store).mark                                                                                    \
    }

/*
 * The number of slots, a buffer for each field, the record and the mark. They may be set by hand, too, over memory that is
 * laid out in another way; what must be on disk is the same.
 */
struct station_tables {
    size_t blocks;
    size_t heads;

    /* Of a block slot each. */
    uint8_t *hashes;     /* 32 bytes a slot */
    uint32_t *parents;   /* the parent's slot, or STATION_NONE_REF */
    uint32_t *sequences; /* STATION_NONE_REF in an empty slot */
    uint8_t *counts;     /* the children that keep the block, 1 for a tip */
    uint8_t *flags;      /* bit 0: on the active chain; bits 1 and 2: the status, 3 reads as Stored */

    /* Of a head slot each. */
    uint32_t *tips;      /* the block slot of the head, or STATION_NONE_REF in an empty one */
    uint32_t *tails;     /* the anchor: the block where the tip's parent walk first meets the active chain, or else ends */
    uint8_t *missing;    /* 32 bytes a slot: the hash of the block that a stored head waits for */
    uint64_t *requested; /* when that was last asked for, 0 for never */
    uint64_t *arrivals;  /* when the head's last block came */
    uint8_t *connected;  /* bit 0: the walk meets the active chain; otherwise the head is stored */

    struct station_active_head *held;
    uint8_t *mark;       /* STATION_MARK_BYTES(blocks, heads) */
};

/* ---- Calls
 *
 * Hashes are 32 bytes. They are copied first, so they may stand in the tables.
 */

/* Empties all slots, all heads and the record. Refuses 1. */
STATION_CHECKED static inline struct station_answer station_tables_fresh(struct station_tables *t);

/*
 * Stores an arriving block, whose parent has the hash `previous` and need not be there, and answers with its slot, the
 * lowest empty one. It gets or moves a head, a full head table evicts one, and blocks that waited for it are linked.
 * Refuses 1, 4, 5, 6 and 7.
 */
STATION_CHECKED static inline struct station_answer station_tables_admit(
    struct station_tables *t, uint32_t sequence, const uint8_t hash[STATION_AT_LEAST STATION_HASH_BYTES],
    const uint8_t previous[STATION_AT_LEAST STATION_HASH_BYTES], uint64_t arrival);

/*
 * Puts the block on the active chain, as its new head, and works out the heads' anchors again. The block is never freed
 * from then on. Refuses 1, 3 and 8.
 */
STATION_CHECKED static inline struct station_answer station_tables_promote(struct station_tables *t, uint32_t slot);

/* Frees the block and all above it and answers with their number; heads, anchors and counts follow. Refuses 1, 3 and 9. */
STATION_CHECKED static inline struct station_answer station_tables_remove(struct station_tables *t, uint32_t slot);

/*
 * Answers with how many blocks hang under this one, itself among them, and writes the highest sequence among them; a null
 * `highest` asks for the number alone. The count goes from the block to its children and from those to theirs, at most n
 * levels with its own. On tables reached by calls from fresh ones it is as many as mark_subtree lists. In a damaged table a
 * block met at several levels counts at each, so that it may be up to n * n - n + 1, and the way down, which is a recursion,
 * may take some 120 KiB of stack, where the other calls take 6. The tables stay as they are. Refuses 1 and 3, and then
 * writes nothing.
 */
STATION_CHECKED static inline struct station_answer station_tables_under(
    const struct station_tables *t, uint32_t slot, uint32_t *highest);

/* A record of the head screen: what a head keeps, and the sequence of its tip. */
struct station_head_row {
    uint32_t tip;      /* a block slot */
    uint32_t sequence; /* STATION_NONE_REF where the tip is empty or out of range */
    uint32_t kind;     /* STATION_HEAD_STORED or STATION_HEAD_CONNECTED */
    uint32_t anchor;   /* a block slot, or STATION_NONE_REF */
};

STATION_ASSERT(sizeof(struct station_head_row) == 16, "a record of the head screen is 16 bytes");
STATION_ASSERT(offsetof(struct station_head_row, tip) == 0, "the tip comes first");
STATION_ASSERT(offsetof(struct station_head_row, sequence) == 4, "the sequence comes second");
STATION_ASSERT(offsetof(struct station_head_row, kind) == 8, "the kind comes third");
STATION_ASSERT(offsetof(struct station_head_row, anchor) == 12, "the anchor comes last");

/* The kind of a head, which is not the status of a block. */
enum { STATION_HEAD_STORED = 0, STATION_HEAD_CONNECTED = 1 };

/*
 * Fills the caller's list with a record for each head in use and answers with their number; records past the last head keep
 * their contents. They stand by the tip's sequence, highest first, then by its hash, lowest first, then by head slot, lowest
 * first. In a damaged table a tip that is empty or out of range shows STATION_NONE_REF and sorts with a zero hash, so that
 * its head stands first. `room` counts records, not bytes: t->heads of them at least, however many heads are in use;
 * STATION_MOST_HEADS are enough for any tables, and null `rows` have none. The tables stay as they are. Refuses 1 and 10, and
 * then writes nothing, and its value is no number of records.
 */
STATION_CHECKED static inline struct station_answer station_tables_screen(
    const struct station_tables *t, struct station_head_row *rows, size_t room);

/* A block to ask for: the sequence that it should have, and its hash. */
struct station_request {
    uint32_t sequence;
    uint8_t hash[STATION_HASH_BYTES];
};

/*
 * Chooses the stored head whose missing block is to be asked for now, notes the time at the head, answers with the head's
 * slot and writes the request. Where none is due it answers with STATION_NONE_REF and writes nothing. A head that was asked
 * for is due again `*retry` ticks later; a null `retry` stands for 60. Refuses 1.
 */
STATION_CHECKED static inline struct station_answer station_tables_timer(
    struct station_tables *t, uint64_t now, const uint64_t *retry, struct station_request *request);

/*
 * Answers with 1 and writes when the first stored head is due, or with 0 where none is stored. `retry` as in timer.
 * Refuses 1.
 */
STATION_CHECKED static inline struct station_answer station_tables_earliest_deadline(
    const struct station_tables *t, const uint64_t *retry, uint64_t *time);

/*
 * After a restart of the station: sets the counts from the blocks alone and then makes the heads anew, which take the
 * time as their arrival and have no request and no missing hash noted. Refuses 1, and before that 100 and 101.
 */
STATION_CHECKED static inline struct station_answer station_tables_restart(struct station_tables *t, uint64_t now);

/* ---- Questions
 *
 * These refuse nothing and change nothing. STATION_NONE_REF stands for none.
 */

struct station_block {
    uint8_t hash[STATION_HASH_BYTES];
    uint32_t parent;
    uint32_t sequence;
    uint8_t count;
    bool active;
};

struct station_head {
    uint8_t missing[STATION_HASH_BYTES];
    uint64_t requested;
    uint64_t arrival;
    uint32_t tip;
    uint32_t anchor;
    bool connected;
};

/* Where a parent walk ends: at the first block on the active chain, or else at its last block. */
struct station_anchor {
    uint32_t slot;
    bool connected;
};

struct station_rank {
    uint64_t value;
    uint16_t length;
    uint8_t hash[STATION_HASH_BYTES];
};

/* The slot of the active head. */
STATION_CHECKED static inline uint32_t station_tables_active_head(const struct station_tables *t);

/* Whether the slot is occupied: then the block is written. */
STATION_CHECKED static inline bool station_tables_get(
    const struct station_tables *t, uint32_t slot, struct station_block *block);

/* Whether the head slot is in use: then the head is written. */
STATION_CHECKED static inline bool station_tables_head(
    const struct station_tables *t, uint32_t slot, struct station_head *head);

/* The lowest slot with this sequence and hash. */
STATION_CHECKED static inline uint32_t station_tables_find(
    const struct station_tables *t, uint32_t sequence, const uint8_t hash[STATION_AT_LEAST STATION_HASH_BYTES]);

/* The slot of the parent that a block of this sequence and previous hash would have; sequence 0 has none. */
STATION_CHECKED static inline uint32_t station_tables_find_parent(
    const struct station_tables *t, uint32_t sequence, const uint8_t previous[STATION_AT_LEAST STATION_HASH_BYTES]);

/* The lowest empty slot. */
STATION_CHECKED static inline uint32_t station_tables_next_free_index(const struct station_tables *t);

/* The count of the block in this slot. */
STATION_CHECKED static inline uint32_t station_tables_head_ref_count(const struct station_tables *t, uint32_t slot);

/* The status of the block in this slot. */
enum { STATION_STORED = 0, STATION_CONNECTED = 1, STATION_ACTIVE = 2 };
STATION_CHECKED static inline uint32_t station_tables_status(const struct station_tables *t, uint32_t slot);

/*
 * How many blocks stand at or above the root, which are those that remove would free. Their slots, in order, are written to
 * `slots` as far as there is room; a null `slots` has none.
 */
STATION_CHECKED static inline uint32_t station_tables_mark_subtree(
    const struct station_tables *t, uint32_t root, uint32_t *slots, size_t room);

/* Whether the parent walk from this slot meets the active chain. */
STATION_CHECKED static inline bool station_tables_walks_to_active_chain(const struct station_tables *t, uint32_t slot);

/* Where the parent walk from this slot ends. */
STATION_CHECKED static inline struct station_anchor station_tables_locate_anchor(
    const struct station_tables *t, uint32_t slot);

/* How many heads are in use. */
STATION_CHECKED static inline uint32_t station_tables_count(const struct station_tables *t);

/* Whether a head in use is stored, which is to say not connected. */
STATION_CHECKED static inline bool station_tables_has_stored_head(const struct station_tables *t);

/* The lowest head slot with this tip. */
STATION_CHECKED static inline uint32_t station_tables_slot_of_head(const struct station_tables *t, uint32_t tip);

/* Whether the first branch goes before the second: by higher value, then greater length, then lower hash. */
STATION_CHECKED static inline bool station_rank_outranks(
    const struct station_rank *first, const struct station_rank *second);

/* ==== Part 2: the entry points ====
 *
 * station_NAME does what station_tables_NAME does, on slices. A slice is a pointer and its number of elements; the pointer is
 * aligned, not null and valid for so many, and a slice that is written overlaps no other. The buffers hold what struct
 * station_tables says. A call answers with one number: the refusal in its upper half, or 0 there and the value in its lower
 * half; station_answered makes an answer of it.
 */

/* ---- Calls */

STATION_CHECKED uint64_t station_fresh(
    uint8_t *hashes, size_t hashes_len, uint32_t *parents, size_t parents_len,
    uint32_t *sequences, size_t sequences_len, uint8_t *counts, size_t counts_len, uint8_t *flags, size_t flags_len,
    uint32_t *tips, size_t tips_len, uint32_t *tails, size_t tails_len, uint8_t *missing, size_t missing_len,
    uint64_t *requested, size_t requested_len, uint64_t *arrivals, size_t arrivals_len,
    uint8_t *connected, size_t connected_len,
    struct station_active_head *held);

/* `active` is the record's slot. Refuses 1, 2, 4, 5, 6 and 7. */
STATION_CHECKED uint64_t station_admit(
    uint8_t *hashes, size_t hashes_len, uint32_t *parents, size_t parents_len,
    uint32_t *sequences, size_t sequences_len, uint8_t *counts, size_t counts_len, uint8_t *flags, size_t flags_len,
    uint32_t *tips, size_t tips_len, uint32_t *tails, size_t tails_len, uint8_t *missing, size_t missing_len,
    uint64_t *requested, size_t requested_len, uint64_t *arrivals, size_t arrivals_len,
    uint8_t *connected, size_t connected_len,
    uint32_t active, uint32_t sequence, const uint8_t *hash, size_t hash_len,
    const uint8_t *previous, size_t previous_len, uint64_t arrival);

STATION_CHECKED uint64_t station_promote(
    const uint8_t *hashes, size_t hashes_len, const uint32_t *parents, size_t parents_len,
    const uint32_t *sequences, size_t sequences_len, const uint8_t *counts, size_t counts_len,
    uint8_t *flags, size_t flags_len,
    const uint32_t *tips, size_t tips_len, uint32_t *tails, size_t tails_len, uint8_t *missing, size_t missing_len,
    uint64_t *requested, size_t requested_len, const uint64_t *arrivals, size_t arrivals_len,
    uint8_t *connected, size_t connected_len,
    struct station_active_head *held, uint32_t slot);

STATION_CHECKED uint64_t station_remove(
    uint8_t *hashes, size_t hashes_len, uint32_t *parents, size_t parents_len,
    uint32_t *sequences, size_t sequences_len, uint8_t *counts, size_t counts_len, uint8_t *flags, size_t flags_len,
    uint32_t *tips, size_t tips_len, uint32_t *tails, size_t tails_len, uint8_t *missing, size_t missing_len,
    uint64_t *requested, size_t requested_len, uint64_t *arrivals, size_t arrivals_len,
    uint8_t *connected, size_t connected_len,
    uint32_t root);

/* The highest sequence is written to highest[0]. */
STATION_CHECKED uint64_t station_under(
    const uint8_t *hashes, size_t hashes_len, const uint32_t *parents, size_t parents_len,
    const uint32_t *sequences, size_t sequences_len, const uint8_t *counts, size_t counts_len,
    const uint8_t *flags, size_t flags_len,
    const uint32_t *tips, size_t tips_len, const uint32_t *tails, size_t tails_len,
    const uint8_t *missing, size_t missing_len, const uint64_t *requested, size_t requested_len,
    const uint64_t *arrivals, size_t arrivals_len, const uint8_t *connected, size_t connected_len,
    uint32_t slot, uint32_t *highest, size_t highest_len);

STATION_CHECKED uint64_t station_screen(
    const uint8_t *hashes, size_t hashes_len, const uint32_t *parents, size_t parents_len,
    const uint32_t *sequences, size_t sequences_len, const uint8_t *counts, size_t counts_len,
    const uint8_t *flags, size_t flags_len,
    const uint32_t *tips, size_t tips_len, const uint32_t *tails, size_t tails_len,
    const uint8_t *missing, size_t missing_len, const uint64_t *requested, size_t requested_len,
    const uint64_t *arrivals, size_t arrivals_len, const uint8_t *connected, size_t connected_len,
    struct station_head_row *rows, size_t rows_len);

/*
 * `span` ticks where `given` is not 0, else 60. Where a head is asked for, claimed[0] is the sequence of its missing block
 * and wanted[0] to wanted[31] are the hash.
 */
STATION_CHECKED uint64_t station_timer(
    const uint8_t *hashes, size_t hashes_len, const uint32_t *parents, size_t parents_len,
    const uint32_t *sequences, size_t sequences_len, const uint8_t *counts, size_t counts_len,
    const uint8_t *flags, size_t flags_len,
    const uint32_t *tips, size_t tips_len, const uint32_t *tails, size_t tails_len,
    const uint8_t *missing, size_t missing_len, uint64_t *requested, size_t requested_len,
    const uint64_t *arrivals, size_t arrivals_len, const uint8_t *connected, size_t connected_len,
    uint64_t clock, uint32_t given, uint64_t span,
    uint32_t *claimed, size_t claimed_len, uint8_t *wanted, size_t wanted_len);

/* `given` and `span` as in timer. The time is written to time[0]. */
STATION_CHECKED uint64_t station_earliest_deadline(
    const uint8_t *hashes, size_t hashes_len, const uint32_t *parents, size_t parents_len,
    const uint32_t *sequences, size_t sequences_len, const uint8_t *counts, size_t counts_len,
    const uint8_t *flags, size_t flags_len,
    const uint32_t *tips, size_t tips_len, const uint32_t *tails, size_t tails_len,
    const uint8_t *missing, size_t missing_len, const uint64_t *requested, size_t requested_len,
    const uint64_t *arrivals, size_t arrivals_len, const uint8_t *connected, size_t connected_len,
    uint32_t given, uint64_t span, uint64_t *time, size_t time_len);

/* `active` is the record's slot. Refuses 1 alone: mark and record are not looked at. */
STATION_CHECKED uint64_t station_restart(
    uint8_t *hashes, size_t hashes_len, uint32_t *parents, size_t parents_len,
    uint32_t *sequences, size_t sequences_len, uint8_t *counts, size_t counts_len, uint8_t *flags, size_t flags_len,
    uint32_t *tips, size_t tips_len, uint32_t *tails, size_t tails_len, uint8_t *missing, size_t missing_len,
    uint64_t *requested, size_t requested_len, uint64_t *arrivals, size_t arrivals_len,
    uint8_t *connected, size_t connected_len,
    uint32_t active, uint64_t clock);

/* ---- Questions
 *
 * STATION_NONE_REF stands for none, 1 and 0 for yes and no. What a slice is too short for reads as in an empty slot; a hash is
 * the first 32 bytes of its slice.
 */

STATION_CHECKED uint32_t station_find(
    const uint8_t *hashes, size_t hashes_len, const uint32_t *sequences, size_t sequences_len,
    uint32_t sequence, const uint8_t *hash, size_t hash_len);

STATION_CHECKED uint32_t station_next_free_index(const uint32_t *sequences, size_t sequences_len);

STATION_CHECKED uint32_t station_find_parent(
    const uint8_t *hashes, size_t hashes_len, const uint32_t *sequences, size_t sequences_len,
    uint32_t sequence, const uint8_t *previous, size_t previous_len);

/* 1 if the slot is occupied: then hash is its hash, and words[0] to words[3] are its parent, sequence, count and flags. */
STATION_CHECKED uint32_t station_get(
    const uint8_t *hashes, size_t hashes_len, const uint32_t *parents, size_t parents_len,
    const uint32_t *sequences, size_t sequences_len, const uint8_t *counts, size_t counts_len,
    const uint8_t *flags, size_t flags_len,
    uint32_t slot, uint8_t *hash, size_t hash_len, uint32_t *words, size_t words_len);

STATION_CHECKED uint32_t station_head_ref_count(
    const uint32_t *sequences, size_t sequences_len, const uint8_t *counts, size_t counts_len, uint32_t slot);

STATION_CHECKED uint32_t station_status(
    const uint32_t *sequences, size_t sequences_len, const uint8_t *flags, size_t flags_len, uint32_t slot);

STATION_CHECKED uint32_t station_mark_subtree(
    const uint32_t *parents, size_t parents_len, const uint32_t *sequences, size_t sequences_len,
    uint32_t root, uint32_t *out, size_t out_len);

STATION_CHECKED uint32_t station_walks_to_active_chain(
    const uint32_t *parents, size_t parents_len, const uint32_t *sequences, size_t sequences_len,
    const uint8_t *flags, size_t flags_len, uint32_t start);

STATION_CHECKED uint32_t station_count(const uint32_t *tips, size_t tips_len);

STATION_CHECKED uint32_t station_has_stored_head(
    const uint32_t *tips, size_t tips_len, const uint8_t *connected, size_t connected_len);

STATION_CHECKED uint32_t station_slot_of_head(const uint32_t *tips, size_t tips_len, uint32_t tip);

/* Where the parent walk from this slot ends, with 2^32 added where that is on the active chain. */
STATION_CHECKED uint64_t station_locate_anchor(
    const uint32_t *parents, size_t parents_len, const uint32_t *sequences, size_t sequences_len,
    const uint8_t *flags, size_t flags_len, uint32_t start);

STATION_CHECKED uint32_t station_outranks(
    uint64_t value, uint16_t len, const uint8_t *hash, size_t hash_len,
    uint64_t value2, uint16_t len2, const uint8_t *hash2, size_t hash2_len);

/* ==== Part 3: the bodies of part 1 ==== */

/* The arguments of an entry point that takes the buffers of the blocks, or all eleven. */
#define STATION_BLOCKS(t)                                                                                              \
    (t)->hashes, STATION_HASH_BYTES * (t)->blocks, (t)->parents, (t)->blocks, (t)->sequences, (t)->blocks,             \
        (t)->counts, (t)->blocks, (t)->flags, (t)->blocks
#define STATION_BUFFERS(t)                                                                                             \
    STATION_BLOCKS(t), (t)->tips, (t)->heads, (t)->tails, (t)->heads, (t)->missing, STATION_HASH_BYTES * (t)->heads,   \
        (t)->requested, (t)->heads, (t)->arrivals, (t)->heads, (t)->connected, (t)->heads

static inline struct station_answer station_answered(uint64_t number)
{
    struct station_answer answer = { number };
    return answer;
}

static inline struct station_answer station_refused(uint32_t refusal)
{
    return station_answered((uint64_t)refusal << 32);
}

static inline uint32_t station_refusal(struct station_answer answer)
{
    return (uint32_t)(answer.number >> 32);
}

static inline uint32_t station_value(struct station_answer answer)
{
    return station_refusal(answer) == STATION_DONE ? (uint32_t)answer.number : STATION_NONE_REF;
}

static inline const char *station_refusal_text(uint32_t refusal)
{
    switch (refusal) {
    case STATION_DONE:
        return "done";
    case STATION_REFUSED_SHAPE:
        return "the tables are not of 1 to 1,024 block slots and 2 to 64 head slots, or a buffer's length does not fit them";
    case STATION_REFUSED_HASH_LENGTH:
        return "the block's hash or its previous hash is not 32 bytes long";
    case STATION_REFUSED_NO_BLOCK:
        return "the slot is out of range or empty";
    case STATION_REFUSED_RESERVED_SEQUENCE:
        return "the sequence 4,294,967,295 is reserved";
    case STATION_REFUSED_ZERO_HASH:
        return "the block's hash is all zeros";
    case STATION_REFUSED_KNOWN:
        return "a block with this sequence and hash is already there";
    case STATION_REFUSED_FULL:
        return "no block slot is empty";
    case STATION_REFUSED_NOT_NEXT:
        return "the block's parent is not the active head";
    case STATION_REFUSED_HOLDS_ACTIVE:
        return "the slot's subtree has a block on the active chain";
    case STATION_REFUSED_SHORT_LIST:
        return "the list has fewer records than there are head slots";
    case STATION_REFUSED_STORE:
        return "what was loaded is no store of this layout and of this many slots";
    case STATION_REFUSED_RECORD:
        return "the record is not the last block of the active chain";
    default:
        return "not a refusal";
    }
}

/* Byte i of the mark: zeros, and then the last 16 bytes of the store: its name, its layout, n and m. */
static inline uint8_t station_mark_at(const struct station_tables *t, size_t i)
{
    static const uint8_t name[8] = { 's', 't', 'a', 't', 'i', 'o', 'n', STATION_LAYOUT };
    size_t zeros = STATION_MARK_BYTES(t->blocks, t->heads) - 16;
    uint64_t slots = (uint64_t)t->blocks | (uint64_t)t->heads << 32;
    if (i < zeros)
        return 0;
    return i - zeros < 8 ? name[i - zeros] : (uint8_t)(slots >> 8 * (i - zeros - 8));
}

static inline bool station_has_mark(const struct station_tables *t)
{
    for (size_t i = 0; i < STATION_MARK_BYTES(t->blocks, t->heads); i++)
        if (t->mark[i] != station_mark_at(t, i))
            return false;
    return true;
}

/* Whether the record names an active block that has no active child, or nothing where no block is active. */
static inline bool station_record_fits(const struct station_tables *t)
{
    uint32_t held = t->held->slot;
    for (size_t i = 0; i < t->blocks; i++)
        if ((t->flags[i] & 1) == 1 && (held == STATION_NONE_REF || t->parents[i] == held))
            return false;
    return held == STATION_NONE_REF || (held < t->blocks && (t->flags[held] & 1) == 1);
}

static inline struct station_answer station_tables_fresh(struct station_tables *t)
{
    struct station_answer answer = station_answered(station_fresh(STATION_BUFFERS(t), t->held));
    if (station_refusal(answer) == STATION_DONE)
        for (size_t i = 0; i < STATION_MARK_BYTES(t->blocks, t->heads); i++)
            t->mark[i] = station_mark_at(t, i);
    return answer;
}

static inline struct station_answer station_tables_admit(
    struct station_tables *t, uint32_t sequence, const uint8_t hash[STATION_AT_LEAST STATION_HASH_BYTES],
    const uint8_t previous[STATION_AT_LEAST STATION_HASH_BYTES], uint64_t arrival)
{
    uint8_t own[STATION_HASH_BYTES];
    uint8_t parents[STATION_HASH_BYTES];
    memcpy(own, hash, sizeof own);
    memcpy(parents, previous, sizeof parents);
    return station_answered(station_admit(
        STATION_BUFFERS(t), t->held->slot, sequence, own, sizeof own, parents, sizeof parents, arrival));
}

static inline struct station_answer station_tables_promote(struct station_tables *t, uint32_t slot)
{
    return station_answered(station_promote(STATION_BUFFERS(t), t->held, slot));
}

static inline struct station_answer station_tables_remove(struct station_tables *t, uint32_t slot)
{
    return station_answered(station_remove(STATION_BUFFERS(t), slot));
}

static inline struct station_answer station_tables_under(
    const struct station_tables *t, uint32_t slot, uint32_t *highest)
{
    uint32_t none;
    return station_answered(station_under(
        STATION_BUFFERS(t), slot, highest != NULL ? highest : &none, highest != NULL ? 1 : 0));
}

static inline struct station_answer station_tables_screen(
    const struct station_tables *t, struct station_head_row *rows, size_t room)
{
    struct station_head_row none;
    return station_answered(station_screen(STATION_BUFFERS(t), rows != NULL ? rows : &none, rows != NULL ? room : 0));
}

static inline struct station_answer station_tables_timer(
    struct station_tables *t, uint64_t now, const uint64_t *retry, struct station_request *request)
{
    return station_answered(station_timer(
        STATION_BUFFERS(t), now, retry != NULL, retry != NULL ? *retry : 0,
        &request->sequence, 1, request->hash, sizeof request->hash));
}

static inline struct station_answer station_tables_earliest_deadline(
    const struct station_tables *t, const uint64_t *retry, uint64_t *time)
{
    return station_answered(station_earliest_deadline(
        STATION_BUFFERS(t), retry != NULL, retry != NULL ? *retry : 0, time, 1));
}

static inline struct station_answer station_tables_restart(struct station_tables *t, uint64_t now)
{
    if (!station_has_mark(t))
        return station_refused(STATION_REFUSED_STORE);
    if (!station_record_fits(t))
        return station_refused(STATION_REFUSED_RECORD);
    return station_answered(station_restart(STATION_BUFFERS(t), t->held->slot, now));
}

static inline uint32_t station_tables_active_head(const struct station_tables *t)
{
    return t->held->slot;
}

static inline bool station_tables_get(const struct station_tables *t, uint32_t slot, struct station_block *block)
{
    uint32_t words[4];
    if (station_get(STATION_BLOCKS(t), slot, block->hash, sizeof block->hash, words, 4) == 0)
        return false;
    block->parent = words[0];
    block->sequence = words[1];
    block->count = (uint8_t)words[2];
    block->active = (words[3] & 1) == 1;
    return true;
}

static inline bool station_tables_head(const struct station_tables *t, uint32_t slot, struct station_head *head)
{
    if (slot >= t->heads || t->tips[slot] == STATION_NONE_REF)
        return false;
    memcpy(head->missing, t->missing + (size_t)STATION_HASH_BYTES * slot, sizeof head->missing);
    head->requested = t->requested[slot];
    head->arrival = t->arrivals[slot];
    head->tip = t->tips[slot];
    head->anchor = t->tails[slot];
    head->connected = (t->connected[slot] & 1) == 1;
    return true;
}

static inline uint32_t station_tables_find(
    const struct station_tables *t, uint32_t sequence, const uint8_t hash[STATION_AT_LEAST STATION_HASH_BYTES])
{
    return station_find(
        t->hashes, STATION_HASH_BYTES * t->blocks, t->sequences, t->blocks, sequence, hash, STATION_HASH_BYTES);
}

static inline uint32_t station_tables_find_parent(
    const struct station_tables *t, uint32_t sequence, const uint8_t previous[STATION_AT_LEAST STATION_HASH_BYTES])
{
    return station_find_parent(
        t->hashes, STATION_HASH_BYTES * t->blocks, t->sequences, t->blocks, sequence, previous, STATION_HASH_BYTES);
}

static inline uint32_t station_tables_next_free_index(const struct station_tables *t)
{
    return station_next_free_index(t->sequences, t->blocks);
}

static inline uint32_t station_tables_head_ref_count(const struct station_tables *t, uint32_t slot)
{
    return station_head_ref_count(t->sequences, t->blocks, t->counts, t->blocks, slot);
}

static inline uint32_t station_tables_status(const struct station_tables *t, uint32_t slot)
{
    return station_status(t->sequences, t->blocks, t->flags, t->blocks, slot);
}

static inline uint32_t station_tables_mark_subtree(
    const struct station_tables *t, uint32_t root, uint32_t *slots, size_t room)
{
    uint32_t none;
    return station_mark_subtree(
        t->parents, t->blocks, t->sequences, t->blocks, root, slots != NULL ? slots : &none, slots != NULL ? room : 0);
}

static inline bool station_tables_walks_to_active_chain(const struct station_tables *t, uint32_t slot)
{
    return station_walks_to_active_chain(
        t->parents, t->blocks, t->sequences, t->blocks, t->flags, t->blocks, slot) == 1;
}

static inline struct station_anchor station_tables_locate_anchor(const struct station_tables *t, uint32_t slot)
{
    uint64_t at = station_locate_anchor(
        t->parents, t->blocks, t->sequences, t->blocks, t->flags, t->blocks, slot);
    struct station_anchor anchor = { (uint32_t)at, at >> 32 == 1 };
    return anchor;
}

static inline uint32_t station_tables_count(const struct station_tables *t)
{
    return station_count(t->tips, t->heads);
}

static inline bool station_tables_has_stored_head(const struct station_tables *t)
{
    return station_has_stored_head(t->tips, t->heads, t->connected, t->heads) == 1;
}

static inline uint32_t station_tables_slot_of_head(const struct station_tables *t, uint32_t tip)
{
    return station_slot_of_head(t->tips, t->heads, tip);
}

static inline bool station_rank_outranks(const struct station_rank *first, const struct station_rank *second)
{
    return station_outranks(
        first->value, first->length, first->hash, sizeof first->hash,
        second->value, second->length, second->hash, sizeof second->hash) == 1;
}

#ifdef __cplusplus
}
#endif

#endif

/* The index, for C and C++. Two B-trees of 8-byte keys in a pool of bytes that the caller lends, so that alarms can be asked for by time in one
 * and by pen in the other; nothing is allocated and nothing is kept between calls.
 *
 * The trees have the numbers 0 and 1, each an order and a minimum of its own, and no entry in common. They share the pool's nodes: a node that
 * one frees serves either. A batch on one tree changes nothing of the other but how many nodes are unused for it (ALARM_TOO_FEW_NODES).
 *
 * Every function but alarm_pool_len returns ALARM_DONE, 0, if the call was done, and else the number of a refusal (below). A refused call
 * leaves every buffer as it was, the small ones too. A slice is a pointer and a count of its elements; an array is a pointer to that many.
 *
 * What the caller owes: each pointer is valid for its count through the call and aligned for its type; a buffer that is not const overlaps
 * no other one of the call; a bool is 0 or 1. The pointer of a slice whose count is 0 is not read: NULL will do.
 *
 * A reference is a place and a size. Place 0 marks a deletion: such an entry is dead, the others are live. Keys ascend, equal
 * neighbours allowed.
 *
 * THREADS: there are no globals, and a call touches what it is lent and nothing else. So calls on different pools may run at once, and so
 * may calls on one pool that take it as const, each with buffers of its own. alarm_open and the batches need their pool alone, and
 * alarm_pack its target.
 *
 * STACK: at most 16 KB a call; the gate holds each call to it. docs/POOL.md has what each was seen to take.
 */
#ifndef ALARM_INDEX_H
#define ALARM_INDEX_H

#include <stdbool.h>
#include <stddef.h>
#include <stdint.h>

/* The version of these declarations: the first number rises where a call or a name changes its meaning, the second where one is added. */
#define ALARM_INDEX_MAJOR 3
#define ALARM_INDEX_MINOR 1

/* The layout of a pool (docs/POOL.md). A pool of another layout is refused as ALARM_NOT_SOUND: so are all that were made up to version 2.0, which
 * have layout 1 and one tree. */
#define ALARM_LAYOUT 2

/* The archive's counts have 64 bits, and its flags one byte. Where the compiler stops here, the archive is not for this processor. */
typedef char alarm_size_t_has_8_bytes[sizeof(size_t) == 8 ? 1 : -1];
typedef char alarm_bool_has_1_byte[sizeof(bool) == 1 ? 1 : -1];

/* What a function returns. Of the refusals that apply, the first in this list is given, in every call. */
enum alarm_refusal {
    ALARM_DONE = 0,
    ALARM_WRONG_SETTING = 1,       /* opening: a setting or the pool's length is wrong */
    ALARM_NOT_SOUND = 2,           /* any other call on a pool: it is not sound */
    ALARM_NO_TREE = 19,            /* any call that names a tree: its number is not 0 or 1 */
    ALARM_SETTINGS_DIFFER = 17,    /* alarm_pack: the order or the minimum of either tree differs between the two pools */
    ALARM_TARGET_NOT_NEW = 18,     /* alarm_pack: the target is not a new pool */
    ALARM_BATCH_TOO_LONG = 3,      /* a batch longer than the tree's order */
    ALARM_REFERENCES_DIFFER = 4,   /* places, sizes and keys differ in number */
    ALARM_KEYS_DESCEND = 5,        /* keys descend somewhere */
    ALARM_TOO_DEEP = 6,            /* any batch but alarm_remove: the tree's depth is already 8 */
    ALARM_LINE_EMPTY = 8,          /* a line to read is empty */
    ALARM_LINE_NOT_HEX = 9,        /* a line of odd length, or a byte that is not 0-9, a-f */
    ALARM_UNKNOWN_HEADER = 13,     /* header not 0 or 1 */
    ALARM_LINE_NOT_WHOLE = 10,     /* header known, rest no whole number of entries */
    ALARM_TOO_MANY_ENTRIES = 11,   /* more than 32 entries */
    ALARM_KEYS_NOT_ASCENDING = 12, /* keys not strictly ascending */
    ALARM_TOO_FEW_NODES = 7,       /* any batch but alarm_remove: n keys at the tree's depth d, the pool has fewer than
                                    * n * max(d, 2) + 4 unused nodes;
                                    * alarm_pack: the target has fewer nodes than both packed trees need */
    ALARM_NO_NODE = 14,            /* no i-th node */
    ALARM_LINE_MALFORMED = 15,     /* of the desk program alone: no function returns it */
    ALARM_LINE_TOO_SHORT = 16      /* the line buffer is too short */
};

/* The places of counts, */
enum { ALARM_ADDED = 0, ALARM_REPLACED = 1, ALARM_REMOVED = 2, ALARM_NOTHING = 3 };
/* of totals, */
enum { ALARM_LIVE = 0, ALARM_DEAD = 1, ALARM_SIZE_SUM = 2 };
/* of told, the third by a scan and a portion alone, the fourth by a portion, */
enum { ALARM_WRITTEN = 0, ALARM_MORE = 1, ALARM_OPENED = 2, ALARM_ENDED = 3 };
/* of from, where a portion starts, */
enum { ALARM_FROM_BOUNDED = 0, ALARM_FROM_INCLUDED = 1, ALARM_FROM_KEY = 2 };
/* and of head, with the kinds that stand in the first of them. */
enum { ALARM_KIND = 0, ALARM_ENTRIES = 1 };
enum { ALARM_INTERIOR = 0, ALARM_LEAF = 1 };

enum {
    ALARM_TREES = 2,
    ALARM_NODES_LEAST = 8,
    ALARM_NODES_MOST = 16384,
    ALARM_ORDER_LEAST = 4,
    ALARM_ORDER_MOST = 32,
    ALARM_DEPTH_MOST = 8,
    ALARM_ENTRY_LEN = 24,     /* an entry in `out`, in bytes */
    ALARM_FRAME_ENTRIES = 32, /* the most entries of a frame */
    ALARM_LINE_LEN = 1794     /* the longest line of a frame */
};

/* alarm_pool_len as a constant, for a pool that is static: static uint8_t pool[ALARM_POOL_LEN(16, 4, 4)]. The settings must be in limits. */
#define ALARM_POOL_LEN(nodes, order0, order1) \
    (sizeof(uint64_t) * (8 + (nodes) * (2 + 6 * ((order0) > (order1) ? (order0) : (order1)))))

#ifdef __cplusplus
extern "C" {
#endif

/* The exact length of a pool, in bytes; 0 if a setting is wrong. nodes, of both trees together: 8 to 16384. Of tree 0 and of tree 1: order, the
 * most entries of a node: 4 to 32; minimum, the length below which a node is joined: 1 to (order + 1) / 2. */
uint64_t alarm_pool_len(uint64_t nodes, uint64_t order0, uint64_t minimum0, uint64_t order1, uint64_t minimum1);

/* Makes the pool two empty leaves, one of each tree, whatever it held. Refused as 1. */
uint32_t alarm_open(uint8_t *pool, size_t pool_n, uint64_t nodes, uint64_t order0, uint64_t minimum0, uint64_t order1, uint64_t minimum1);

/* Copies both trees of the source into the target, a new pool of the same orders and minimums: each level has as few nodes as its entries need,
 * every one of them full but the last, and slots go out in preorder, to tree 0 first. The entries are the same in the same order, dead ones
 * too. The source is only read, and the two must not overlap. The target may have another number of nodes; as many as the source has are
 * always enough. A pool of which both trees were emptied again is new. Refused as 2 for either pool, 17, 18, 7. */
uint32_t alarm_pack(const uint8_t *source, size_t source_n, uint8_t *target, size_t target_n);

/* THE CALLS ON ONE TREE of a pool: `tree` is 0 or 1. Any other number is refused as 19, straight after 2. */

/* totals: live entries, dead entries, the sum of the sizes of the live ones. Refused as 2, 19. */
uint32_t alarm_totals(const uint8_t *pool, size_t pool_n, uint64_t tree, uint64_t totals[3]);

/* BATCHES of at most as many keys as the tree's order, taken first to last. counts: keys that added, replaced, removed, did nothing. */

/* Sets every key to one reference. Refused as 2, 19, 3, 5, 6, 7. */
uint32_t alarm_set(uint8_t *pool, size_t pool_n, uint64_t tree, const uint64_t *keys, size_t keys_n, uint64_t place, uint32_t size,
                   uint64_t counts[4]);

/* Sets each key to its own reference: as many places and sizes as keys. Refused as 2, 19, 3 to 7. */
uint32_t alarm_set_each(uint8_t *pool, size_t pool_n, uint64_t tree, const uint64_t *keys, size_t keys_n, const uint64_t *places,
                        size_t places_n, const uint32_t *sizes, size_t sizes_n, uint64_t counts[4]);

/* Removes every key that is present. Refused as 2, 19, 3, 5. */
uint32_t alarm_remove(uint8_t *pool, size_t pool_n, uint64_t tree, const uint64_t *keys, size_t keys_n, uint64_t counts[4]);

/* For every key that is as expected: sets it to place and size if `set`, and removes it if not. Expected is the reference of
 * expected_place and expected_size if `holds`, and that the key is absent if not; a dead entry is present. Refused as 2, 19, 3, 5, 6, 7. */
uint32_t alarm_compare(uint8_t *pool, size_t pool_n, uint64_t tree, const uint64_t *keys, size_t keys_n, bool holds, uint64_t expected_place,
                       uint32_t expected_size, bool set, uint64_t place, uint32_t size, uint64_t counts[4]);

/* LISTINGS: an entry in `out` is 24 bytes, key, place, size, each 8 bytes little-endian (alarm_entry_at reads one). The first entries that
 * fit whole are written, and no byte behind them is touched. */

/* Lists one entry for each key that is present, dead entries too, equal keys each time. told: entries written, and 1 if another was
 * due, else 0. Refused as 2, 19, 5. */
uint32_t alarm_get(const uint8_t *pool, size_t pool_n, uint64_t tree, const uint64_t *keys, size_t keys_n, uint8_t *out, size_t out_n,
                   uint64_t told[2]);

/* Lists the live entries from start to end whose size is `least` or more, upwards, or downwards if `down`. An end that is not bounded
 * reads neither of its other two values; a bounded one is part of the range if included. told: entries written, 1 if another was due,
 * else 0, and nodes opened. Refused as 2, 19. alarm_scan_range, below, takes the bounds as a struct. */
uint32_t alarm_scan(const uint8_t *pool, size_t pool_n, uint64_t tree, bool start_bounded, bool start_included, uint64_t start,
                    bool end_bounded, bool end_included, uint64_t end, bool down, uint32_t least, uint8_t *out, size_t out_n,
                    uint64_t told[3]);

/* Lists in portions, upwards, as a screen shows ten alarms and then ten more: as alarm_scan does, from a start that the caller keeps.
 *
 * from: whether the start is bounded and whether it is included, each if it is not 0, and its key; of a start that is not bounded the other two
 * are not read. Afterwards it is the start of the next portion: {1, 0, the last key shown}, or as it was where nothing was shown. The end and
 * `least` are as of alarm_scan, the same in every portion of a listing. told: entries written, 1 if another was due, else 0, nodes opened, and 1
 * if the listing has ended, else 0. It ends with the first portion whose `out` has room for an entry and that has no more due, be it full or
 * empty. A portion without such room shows nothing, leaves `from` as it was, and ends no listing.
 *
 * The pool is only read, and keeps nothing of a listing: batches on either tree may come between portions. Each portion is right for the tree at
 * its moment. Keys ascend over the whole listing, so none is shown twice. A key that is live, in range and of size `least` or more at every one
 * of these moments is shown exactly once before the listing ends. A call after the end is a portion from there, with what was set behind the
 * last key since.
 *
 * Each portion tests the whole pool first, as every call does: the larger the portion, the less an entry costs. Refused as 2, 19.
 * alarm_portion_range, below, takes the end and `least` from a struct. */
uint32_t alarm_portion(const uint8_t *pool, size_t pool_n, uint64_t tree, uint64_t from[3], bool end_bounded, bool end_included, uint64_t end,
                       uint32_t least, uint8_t *out, size_t out_n, uint64_t told[4]);

/* FRAMES: a node as one line of lower-case hexadecimal, without a line feed. The longest has 1794 digits. */

/* Writes the i-th node of the tree's preorder walk, counted from 0. len: the line's length. Refused as 2, 19, 14, 16. */
uint32_t alarm_frame(const uint8_t *pool, size_t pool_n, uint64_t tree, uint64_t i, uint8_t *line, size_t line_n, uint64_t *len);

/* Reads a line. head: 1 for a leaf or 0 for an interior, and how many entries. wide: places, or size sums. narrow: sizes, or child numbers.
 * live and dead: of an interior. Every place past the entries is 0, and what a kind has not is 0. Refused as 8 to 13. */
uint32_t alarm_read_frame(const uint8_t *line, size_t line_n, uint64_t head[2], uint64_t keys[32], uint64_t wide[32], uint32_t narrow[32],
                          uint32_t live[32], uint32_t dead[32]);

/* Writes a leaf of the first `count` entries. len: the line's length. Refused as 11, 12, 16. */
uint32_t alarm_write_leaf(uint64_t count, const uint64_t keys[32], const uint64_t places[32], const uint32_t sizes[32], uint8_t *line,
                          size_t line_n, uint64_t *len);

/* Writes an interior of the first `count` entries. len: the line's length. Refused as 11, 12, 16. */
uint32_t alarm_write_interior(uint64_t count, const uint64_t keys[32], const uint32_t children[32], const uint32_t live[32],
                              const uint32_t dead[32], const uint64_t sums[32], uint8_t *line, size_t line_n, uint64_t *len);

/* IN THIS HEADER ALONE: no symbol of the archive. */

struct alarm_entry {
    uint64_t key;
    uint64_t place;
    uint32_t size;
};

/* Eight bytes, little-endian. */
static inline uint64_t alarm_word(const uint8_t *bytes) {
    uint64_t word = 0;
    int i;
    for (i = 7; i >= 0; i--)
        word = word << 8 | bytes[i];
    return word;
}

/* The i-th entry of a listing, counted from 0: i is below told[ALARM_WRITTEN]. */
static inline struct alarm_entry alarm_entry_at(const uint8_t *out, size_t i) {
    const uint8_t *bytes = out + ALARM_ENTRY_LEN * i;
    struct alarm_entry entry;
    entry.key = alarm_word(bytes);
    entry.place = alarm_word(bytes + 8);
    entry.size = (uint32_t)alarm_word(bytes + 16);
    return entry;
}

/* How far a range goes at one of its ends. */
enum alarm_bound { ALARM_UNBOUNDED = 0, ALARM_INCLUDED = 1, ALARM_EXCLUDED = 2 };

/* What a scan or a listing in portions lists. All zeros: every live entry, upwards. */
struct alarm_range {
    enum alarm_bound from; /* unbounded: start is not read */
    uint64_t start;
    enum alarm_bound to; /* unbounded: end is not read */
    uint64_t end;
    bool down;      /* of a scan; portions go upwards */
    uint32_t least; /* the smallest size listed */
};

/* alarm_scan over a range. */
static inline uint32_t alarm_scan_range(const uint8_t *pool, size_t pool_n, uint64_t tree, const struct alarm_range *range, uint8_t *out,
                                        size_t out_n, uint64_t told[3]) {
    return alarm_scan(pool, pool_n, tree, range->from != ALARM_UNBOUNDED, range->from == ALARM_INCLUDED, range->start,
                      range->to != ALARM_UNBOUNDED, range->to == ALARM_INCLUDED, range->end, range->down, range->least, out, out_n, told);
}

/* Where the first portion of a range starts. */
static inline void alarm_range_start(const struct alarm_range *range, uint64_t from[3]) {
    from[ALARM_FROM_BOUNDED] = range->from != ALARM_UNBOUNDED;
    from[ALARM_FROM_INCLUDED] = range->from == ALARM_INCLUDED;
    from[ALARM_FROM_KEY] = range->start;
}

/* alarm_portion up to the end of a range. A whole listing, where `out` has room for an entry:
 *
 *     alarm_range_start(&range, from);
 *     do {
 *         if (alarm_portion_range(pool, pool_n, tree, from, &range, out, sizeof out, told) != ALARM_DONE)
 *             return;
 *         show(out, told[ALARM_WRITTEN]);
 *     } while (!told[ALARM_ENDED]);
 */
static inline uint32_t alarm_portion_range(const uint8_t *pool, size_t pool_n, uint64_t tree, uint64_t from[3],
                                           const struct alarm_range *range, uint8_t *out, size_t out_n, uint64_t told[4]) {
    return alarm_portion(pool, pool_n, tree, from, range->to != ALARM_UNBOUNDED, range->to == ALARM_INCLUDED, range->end, range->least, out,
                         out_n, told);
}

#ifdef __cplusplus
}
#endif

#endif

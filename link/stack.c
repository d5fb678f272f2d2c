/* How many bytes of stack each call takes, at orders 4, 16 and 32 of both trees, on the deepest trees that there are: depth 7 for a batch that
 * sets, for it is refused at 8, and depth 8 for any other call; what is packed has depth 8, or as many levels as can be when it is packed.
 * Each call is made on tree 0 and on tree 1, the other one being an empty leaf, and the more is told. It runs on a thread of its own whose
 * stack is painted first, and what is no longer painted after the call was used. Counted from the frame of the function that makes the call.
 * Ends with 1 where a call takes more than MOST.
 *
 *     cc -O1 -pthread -Wl,-z,now -Iinclude link/stack.c "$(link/archive)" -o target/stack && target/stack
 *
 * (-z now: what the loader takes to find memcpy at the first call is not the call's.)
 */
#include "alarm_index.h"
#include <pthread.h>
#include <stdio.h>
#include <stdlib.h>
#include <string.h>

enum { MOST = 1 << 14, STACK = 1 << 18, PAINT = 0xa5, NODES = 2048, TURNS = 200, GAP = 64, ROOM = 7 << 20 };

static uint8_t pool[ROOM], target[ROOM], out[NODES * ALARM_ORDER_MOST * ALARM_ENTRY_LEN], line[ALARM_LINE_LEN];
static uint64_t tree, order, minimum, pool_n, top, batch_n, len, counts[4], from[3], told[4], head[2];
static uint64_t keys[32], places[32], batch[32];
static uint32_t sizes[32], live[32], dead[32];

/* TREES. A sound pool written by hand (docs/POOL.md), since batches reach such depths at order 32 only after a long way. The nodes on the
 * way to the last leaf, and the sibling before each of them, have `width` rows; any other node has one. So there are few nodes, and yet a
 * change of the last leaf goes all the way up: where these nodes are full, a key above all others splits each of them and the root.
 *
 * Such a tree has few entries, and packed it is shallow. So there is another: a root over two children, all below them full. */

enum wide { THIN, BESIDE, ON_THE_WAY, OVER_TWO, FULL };
static uint64_t slots, width;

static uint64_t rows_of(enum wide wide) { return wide == THIN ? 1 : wide == OVER_TWO ? 2 : wide == FULL ? order : width; }

static enum wide child_of(enum wide wide, uint64_t behind) {
    if (wide == OVER_TWO || wide == FULL)
        return FULL;
    return wide != ON_THE_WAY || behind > 1 ? THIN : behind == 1 ? BESIDE : ON_THE_WAY;
}

static void put(uint64_t slot, uint64_t word, uint64_t n) {
    uint8_t *at = pool + 8 * (8 + slot * (2 + 6 * order) + word);
    for (int i = 0; i < 8; i++)
        at[i] = (uint8_t)(n >> 8 * i);
}

static void put_row(uint64_t slot, uint64_t i, uint64_t key, uint64_t body, uint64_t size) {
    put(slot, 2 + 3 * i, key);
    put(slot, 3 + 3 * i, body);
    put(slot, 4 + 3 * i, size);
}

/* Writes a node of a height into a slot, with all below it, and answers how many entries there are; the greatest key is `top`. */
static uint64_t plant(uint64_t slot, int height, enum wide wide) {
    uint64_t rows = rows_of(wide), entries = 0;
    put(slot, 0, 2 * tree + (height == 0 ? 1 : 2));
    put(slot, 1, rows);
    for (uint64_t i = 0; i < rows; i++) {
        uint64_t child = slots, below = 1;
        if (height == 0) {
            put_row(slot, i, top += GAP, 256, 16);
        } else {
            slots++;
            below = plant(child, height - 1, child_of(wide, rows - 1 - i));
            put_row(slot, i, top, child << 40 | below << 20, 16 * below);
        }
        entries += below;
    }
    return entries;
}

/* The roots stand in the slots 0 and 1. */
static void planted(uint64_t nodes, int depth, enum wide wide) {
    slots = ALARM_TREES, top = 0;
    pool_n = alarm_pool_len(nodes, order, minimum, order, minimum);
    if (pool_n > ROOM || alarm_open(pool, pool_n, nodes, order, minimum, order, minimum))
        exit(1);
    plant(tree, depth - 1, wide);
    if (alarm_totals(pool, pool_n, tree, told))
        exit(1);
}

static void grow(int depth, uint64_t rows) {
    width = rows;
    planted(NODES, depth, ON_THE_WAY);
}

/* The other one, as deep as there are nodes for; packed it is as deep. */
static void full_tree(void) {
    uint64_t below = 1, more;
    int depth = 2;
    while (depth < ALARM_DEPTH_MOST && (more = 1 + order * below, ALARM_TREES + 2 * more <= ALARM_NODES_MOST))
        below = more, depth++;
    planted(ALARM_TREES + 2 * below, depth, OVER_TWO);
}

/* CALLS, each with buffers that are not on its stack. */

static uint32_t length(void) { return alarm_pool_len(NODES, order, minimum, order, minimum) == 0; }
static uint32_t opening(void) { return alarm_open(pool, pool_n, NODES, order, minimum, order, minimum); }
static uint32_t totals(void) { return alarm_totals(pool, pool_n, tree, told); }
static uint32_t pack(void) { return alarm_pack(pool, pool_n, target, pool_n); }
static uint32_t set(void) { return alarm_set(pool, pool_n, tree, batch, batch_n, 256, 16, counts); }
static uint32_t set_each(void) { return alarm_set_each(pool, pool_n, tree, batch, batch_n, places, batch_n, sizes, batch_n, counts); }
static uint32_t take(void) { return alarm_remove(pool, pool_n, tree, batch, batch_n, counts); }
static uint32_t compare(void) { return alarm_compare(pool, pool_n, tree, batch, batch_n, false, 0, 0, true, 256, 16, counts); }
static uint32_t get(void) { return alarm_get(pool, pool_n, tree, batch, batch_n, out, sizeof out, told); }
static uint32_t scan(void) { return alarm_scan(pool, pool_n, tree, false, false, 0, false, false, 0, false, 0, out, sizeof out, told); }
static uint32_t scan_down(void) { return alarm_scan(pool, pool_n, tree, false, false, 0, false, false, 0, true, 0, out, sizeof out, told); }
static uint32_t portion(void) {
    from[ALARM_FROM_BOUNDED] = 0; /* which the call before has changed */
    return alarm_portion(pool, pool_n, tree, from, false, false, 0, 0, out, sizeof out, told);
}
/* the last node: of the slots in use one is the other tree's */
static uint32_t frame(void) { return alarm_frame(pool, pool_n, tree, slots - ALARM_TREES, line, sizeof line, &len); }
static uint32_t write_leaf(void) { return alarm_write_leaf(32, keys, places, sizes, line, sizeof line, &len); }
static uint32_t write_interior(void) { return alarm_write_interior(32, keys, sizes, live, dead, places, line, sizeof line, &len); }
static uint32_t read_frame(void) { return alarm_read_frame(line, len, head, keys, places, sizes, live, dead); }

/* MEASURING */

static uint32_t (*call)(void), code;
static uint8_t *stack;
static size_t used;

static void *run(void *unused) {
    code = call();
    const uint8_t *low = stack;
    while (*low == PAINT)
        low++;
    used = (size_t)((const uint8_t *)__builtin_frame_address(0) - low);
    return unused;
}

static size_t measure(uint32_t (*f)(void)) {
    pthread_attr_t attr;
    pthread_t thread;
    memset(stack, PAINT, STACK);
    call = f;
    pthread_attr_init(&attr);
    if (pthread_attr_setstack(&attr, stack, STACK) || pthread_create(&thread, &attr, run, NULL) || pthread_join(thread, NULL))
        exit(1);
    pthread_attr_destroy(&attr);
    if (code || used > MOST)
        exit(1);
    return used;
}

/* A batch of up to `order` keys that ascend: above all others in the first turn, and from then on anywhere. */
static void choose(int turn) {
    batch_n = 1 + (uint64_t)turn % order;
    uint64_t key = turn == 0 ? top : (uint64_t)rand() % top;
    for (uint64_t i = 0; i < batch_n; i++)
        batch[i] = key += 1 + (turn % 3 == 0 ? 0 : (uint64_t)rand() % (GAP * order));
}

static size_t larger(size_t a, size_t b) { return a > b ? a : b; }

/* The most that a batch takes, over turns that start from trees of this depth, full and as short as they may be, in tree 0 and in tree 1. */
static size_t batches(uint32_t (*f)(void), int depth) {
    size_t most = 0;
    for (int turn = 0; turn < TURNS; turn++) {
        tree = (uint64_t)turn % ALARM_TREES;
        grow(depth, turn / 2 % 2 == 0 ? order : minimum < 2 ? 2 : minimum);
        choose(turn / 4);
        most = larger(most, measure(f));
    }
    return most;
}

static size_t removals(void) {
    size_t most = batches(take, 8);
    for (uint64_t n = 1; n <= order; n++) /* the last keys, of a path that is as short as it may be */
        for (tree = 0; tree < ALARM_TREES; tree++) {
            grow(8, minimum);
            batch_n = n;
            for (uint64_t i = 0; i < n; i++)
                batch[i] = top - GAP * (n - 1 - i);
            most = larger(most, measure(take));
        }
    return most;
}

/* A call that changes no pool, on trees of depth 8. */
static size_t looks(uint32_t (*f)(void)) {
    size_t most = 0;
    for (tree = 0; tree < ALARM_TREES; tree++) {
        grow(8, order);
        most = larger(most, measure(f));
    }
    return most;
}

/* The pool at hand, packed into one of its settings. */
static size_t packed(void) {
    uint64_t nodes = alarm_word(pool + 8);
    if (alarm_open(target, pool_n, nodes, order, minimum, order, minimum))
        exit(1);
    return measure(pack);
}

static size_t packings(void) {
    size_t most = 0;
    for (tree = 0; tree < ALARM_TREES; tree++) {
        grow(8, order);
        most = larger(most, packed());
        full_tree();
        most = larger(most, packed());
    }
    return most;
}

enum { CALLS = 16 };
static const char *names[CALLS] = {"pool_len", "open", "totals", "pack", "set", "set_each", "compare", "remove",
                                   "get", "scan", "scan, down", "portion", "frame", "write_leaf", "write_interior", "read_frame"};
static size_t seen[3][CALLS];

static void at_order(uint64_t n, size_t *most) {
    order = n, minimum = (n + 1) / 2, tree = 0;
    *most++ = measure(length);
    grow(1, 1);
    *most++ = measure(opening);
    *most++ = looks(totals);
    *most++ = packings();
    *most++ = batches(set, 7);
    *most++ = batches(set_each, 7);
    *most++ = batches(compare, 7);
    *most++ = removals();
    *most++ = batches(get, 8);
    *most++ = looks(scan);
    *most++ = looks(scan_down);
    *most++ = looks(portion);
    *most++ = looks(frame);
    for (uint64_t i = 0; i < 32; i++)
        keys[i] = i;
    *most++ = measure(write_leaf);
    *most++ = measure(write_interior);
    *most++ = measure(read_frame);
}

int main(void) {
    static const uint64_t orders[3] = {4, 16, 32};
    stack = aligned_alloc(4096, STACK);
    if (!stack)
        return 1;
    for (int i = 0; i < 3; i++)
        at_order(orders[i], seen[i]);
    printf("%-14s %8s %8s %8s\n", "bytes at order", "4", "16", "32");
    for (int i = 0; i < CALLS; i++)
        printf("%-14s %8zu %8zu %8zu\n", names[i], seen[0][i], seen[1][i], seen[2][i]);
    return 0;
}

/* Opens a pool, sets, compares, removes, gets, scans, lists in portions, frames and packs, in both trees, and prints what each call answered.
 * What it must print: alarm.stdout.
 *
 *     cc -Iinclude link/alarm.c "$(link/archive)" -o target/alarm && target/alarm | diff - link/alarm.stdout
 */
#include "alarm_index.h"
#include <inttypes.h>
#include <stdio.h>
#include <string.h>

/* docs/POOL.md has both lengths */
typedef char the_desk_pool[ALARM_POOL_LEN(16, 4, 4) == 3392 ? 1 : -1];
typedef char the_largest_pool[ALARM_POOL_LEN(ALARM_NODES_MOST, ALARM_ORDER_MOST, ALARM_ORDER_MOST) == 25428032 ? 1 : -1];

/* the day shift asks by time, the night shift by pen */
enum { BY_TIME = 0, BY_PEN = 1 };

static uint8_t pool[ALARM_POOL_LEN(16, 4, 4)];
static const size_t n = sizeof pool;

static void numbers(const char *call, uint32_t code, const uint64_t *told, size_t len) {
    printf("%s %" PRIu32 ":", call, code);
    for (size_t i = 0; i < len; i++)
        printf(" %" PRIu64, told[i]);
    putchar('\n');
}

static void entries(const uint8_t *out, uint64_t len) {
    for (size_t i = 0; i < len; i++) {
        const struct alarm_entry e = alarm_entry_at(out, i);
        printf("  %" PRIu64 " at %" PRIu64 ", %" PRIu32 " bytes\n", e.key, e.place, e.size);
    }
}

/* the constant is the length that the archive gives, for all orders and every number of nodes */
static bool lengths_agree(void) {
    for (uint64_t nodes = ALARM_NODES_LEAST; nodes <= ALARM_NODES_MOST; nodes++)
        for (uint64_t order = ALARM_ORDER_LEAST; order <= ALARM_ORDER_MOST; order++) {
            const uint64_t other = ALARM_ORDER_LEAST + nodes % (ALARM_ORDER_MOST - ALARM_ORDER_LEAST + 1);
            if (alarm_pool_len(nodes, order, 1, other, 1) != ALARM_POOL_LEN(nodes, order, other))
                return false;
        }
    return true;
}

static uint64_t nodes(const uint8_t *of, size_t of_n, uint64_t tree) {
    uint8_t line[ALARM_LINE_LEN];
    uint64_t i = 0, len;
    while (alarm_frame(of, of_n, tree, i, line, sizeof line, &len) == ALARM_DONE)
        i++;
    return i;
}

/* 48 alarms, of which two of four are cleared, by time, and every fourth of them by pen: leaves that are half empty, packed into a second
 * pool */
static void packing(void) {
    static uint8_t worn[ALARM_POOL_LEN(40, 4, 5)], before[sizeof worn], fresh[ALARM_POOL_LEN(13, 4, 5)], other[ALARM_POOL_LEN(16, 5, 5)];
    const size_t worn_n = sizeof worn, fresh_n = sizeof fresh, small_n = ALARM_POOL_LEN(12, 4, 5);
    uint64_t counts[4], totals[3], told[3];
    alarm_open(worn, worn_n, 40, 4, 2, 5, 2);
    for (uint64_t k = 1; k <= 48; k++) {
        const uint64_t pen = 1000 - k;
        alarm_set(worn, worn_n, BY_TIME, &k, 1, 256 + k, 16, counts);
        if (k % 4 == 0)
            alarm_set(worn, worn_n, BY_PEN, &pen, 1, 256 + k, 16, counts);
    }
    for (uint64_t k = 1; k <= 48; k += 4) {
        const uint64_t cleared[2] = {k + 1, k + 2};
        alarm_remove(worn, worn_n, BY_TIME, cleared, 2, counts);
    }
    memcpy(before, worn, worn_n);
    for (uint64_t tree = 0; tree < ALARM_TREES; tree++) {
        numbers("worn", alarm_totals(worn, worn_n, tree, totals), totals, 3);
        printf("  in %" PRIu64 " nodes\n", nodes(worn, worn_n, tree));
    }

    printf("pack %" PRIu32 ", no pool\n", alarm_pack(worn, worn_n, other, sizeof other));
    alarm_open(other, sizeof other, 16, 5, 2, 5, 2);
    printf("pack %" PRIu32 ", of another order\n", alarm_pack(worn, worn_n, other, sizeof other));
    alarm_open(fresh, fresh_n, 13, 4, 2, 5, 3);
    printf("pack %" PRIu32 ", of another minimum\n", alarm_pack(worn, worn_n, fresh, fresh_n));
    alarm_open(fresh, fresh_n, 13, 4, 2, 5, 2);
    const uint64_t one = 1;
    alarm_set(fresh, fresh_n, BY_PEN, &one, 1, 0, 0, counts);
    printf("pack %" PRIu32 ", not new\n", alarm_pack(worn, worn_n, fresh, fresh_n));
    alarm_open(fresh, small_n, 12, 4, 2, 5, 2);
    printf("pack %" PRIu32 ", too small by a node\n", alarm_pack(worn, worn_n, fresh, small_n));
    alarm_open(fresh, fresh_n, 13, 4, 2, 5, 2);
    printf("pack %" PRIu32 "\n", alarm_pack(worn, worn_n, fresh, fresh_n));
    printf("pack %" PRIu32 ", no longer new\n", alarm_pack(worn, worn_n, fresh, fresh_n));
    for (uint64_t tree = 0; tree < ALARM_TREES; tree++) {
        numbers("packed", alarm_totals(fresh, fresh_n, tree, totals), totals, 3);
        printf("  in %" PRIu64 " nodes\n", nodes(fresh, fresh_n, tree));
    }
    printf("worn %s\n", memcmp(before, worn, worn_n) ? "CHANGED" : "as it was");

    uint8_t out[3 * ALARM_ENTRY_LEN];
    const struct alarm_range newest = {ALARM_UNBOUNDED, 0, ALARM_UNBOUNDED, 0, true, 0};
    for (uint64_t tree = 0; tree < ALARM_TREES; tree++) {
        numbers("scan_range", alarm_scan_range(fresh, fresh_n, tree, &newest, out, sizeof out, told), told, 3);
        entries(out, told[ALARM_WRITTEN]);
    }
}

/* what is done by pen leaves the alarms by time as they were; the two draw on one set of unused nodes; a third tree there is not */
static void two_trees(void) {
    static uint8_t small[ALARM_POOL_LEN(8, 4, 6)];
    const size_t small_n = sizeof small;
    const uint64_t keys[5] = {1, 2, 3, 4, 5};
    uint64_t counts[4], totals[3], told[2] = {7, 7}, len = 7;
    uint8_t line[ALARM_LINE_LEN];
    alarm_open(small, small_n, 8, 4, 2, 6, 3);
    for (size_t i = 0; i < 5; i++)
        alarm_set(small, small_n, BY_TIME, keys + i, 1, 300, 16, counts);
    numbers("by time", alarm_totals(small, small_n, BY_TIME, totals), totals, 3);
    numbers("by pen", alarm_set(small, small_n, BY_PEN, keys, 1, 300, 16, counts), counts, 4);
    numbers("by time", alarm_remove(small, small_n, BY_TIME, keys + 3, 1, counts), counts, 4);
    numbers("by pen", alarm_set(small, small_n, BY_PEN, keys, 1, 300, 9, counts), counts, 4);
    numbers("by pen", alarm_totals(small, small_n, BY_PEN, totals), totals, 3);
    numbers("by time", alarm_totals(small, small_n, BY_TIME, totals), totals, 3);
    numbers("by time", alarm_set(small, small_n, BY_TIME, keys, 5, 300, 16, counts), counts, 4);
    numbers("by pen", alarm_remove(small, small_n, BY_PEN, keys, 5, counts), counts, 4);
    for (uint64_t tree = 0; tree < ALARM_TREES; tree++)
        if (alarm_frame(small, small_n, tree, 0, line, sizeof line, &len) == ALARM_DONE)
            printf("%.*s\n", (int)len, (const char *)line);
    numbers("no tree", alarm_totals(small, small_n, ALARM_TREES, totals), totals, 3);
    numbers("no tree", alarm_set(small, small_n, UINT64_MAX, keys, 5, 1, 1, counts), counts, 4);
    numbers("no tree", alarm_get(small, small_n, 2, keys, 5, NULL, 0, told), told, 2);
    numbers("no tree", alarm_frame(small, small_n, 2, 99, NULL, 0, &len), &len, 1);
    small[0] = 1; /* the layout of a pool of one tree */
    numbers("no tree, no pool", alarm_totals(small, small_n, ALARM_TREES, totals), totals, 3);
}

/* an alarm that is cleared takes no space, whatever its size; a pool whose sum still counts it, as sums did before version 2, is not sound */
static void clearing(void) {
    static uint8_t few[ALARM_POOL_LEN(16, 4, 4)];
    uint64_t counts[4], totals[3], told[3];
    alarm_open(few, sizeof few, 16, 4, 2, 4, 2);
    for (uint64_t k = 1; k <= 5; k++)
        alarm_set(few, sizeof few, BY_TIME, &k, 1, 256 + k, 16, counts);
    const uint64_t four = 4;
    numbers("cleared", alarm_set(few, sizeof few, BY_TIME, &four, 1, 0, 100, counts), counts, 4);
    numbers("totals", alarm_totals(few, sizeof few, BY_TIME, totals), totals, 3);
    numbers("scan", alarm_scan(few, sizeof few, BY_TIME, false, false, 0, false, false, 0, false, 50, NULL, 0, told), told, 3);
    few[8 * 15] = 116; /* the sum of the second leaf, which was 16 */
    numbers("totals", alarm_totals(few, sizeof few, BY_TIME, totals), totals, 3);
}

/* the alarms of a night, which the handheld asks for ten at a time */
static uint8_t night[ALARM_POOL_LEN(16, 16, 4)], screen[10 * ALARM_ENTRY_LEN];
static const size_t night_n = sizeof night, ten = sizeof screen;

static void portion(uint32_t code, const uint64_t told[4], const uint64_t from[3]) {
    numbers("portion", code, told, 4);
    printf("  shows");
    for (size_t i = 0; i < told[ALARM_WRITTEN]; i++)
        printf(" %" PRIu64, alarm_entry_at(screen, i).key);
    printf("\n  next from %" PRIu64 " %" PRIu64 " %" PRIu64 "\n", from[ALARM_FROM_BOUNDED], from[ALARM_FROM_INCLUDED], from[ALARM_FROM_KEY]);
}

/* while the ten are read, three are struck out, of which two were shown, and three come in: one too late to be shown, one in time, and one above
 * all */
static void ten_and_ten_more(void) {
    const struct alarm_range since_30 = {ALARM_INCLUDED, 30, ALARM_UNBOUNDED, 0, false, 0};
    const uint64_t struck[3] = {110, 120, 130}, come[3] = {35, 125, 245}, pen = 9, newest = 250;
    uint64_t counts[4], from[3], told[4];
    alarm_open(night, night_n, 16, 16, 8, 4, 2);
    for (uint64_t k = 10; k <= 240; k += 10)
        alarm_set(night, night_n, BY_TIME, &k, 1, 256 + k, 16, counts);

    alarm_range_start(&since_30, from);
    portion(alarm_portion_range(night, night_n, BY_TIME, from, &since_30, screen, ten, told), told, from);
    numbers("by time", alarm_remove(night, night_n, BY_TIME, struck, 3, counts), counts, 4);
    numbers("by time", alarm_set(night, night_n, BY_TIME, come, 3, 300, 16, counts), counts, 4);
    numbers("by pen", alarm_set(night, night_n, BY_PEN, &pen, 1, 300, 16, counts), counts, 4);
    portion(alarm_portion_range(night, night_n, BY_TIME, from, &since_30, screen, ten, told), told, from);

    /* refused, it leaves the screen too; without room it shows nothing, and stays where it was */
    portion(alarm_portion_range(night, night_n, ALARM_TREES, from, &since_30, screen, ten, told), told, from);
    portion(alarm_portion_range(night, night_n, BY_TIME, from, &since_30, NULL, 0, told), told, from);
    portion(alarm_portion_range(night, night_n, BY_TIME, from, &since_30, screen, ten, told), told, from);

    /* what comes after the end can still be asked for */
    alarm_set(night, night_n, BY_TIME, &newest, 1, 300, 16, counts);
    portion(alarm_portion_range(night, night_n, BY_TIME, from, &since_30, screen, ten, told), told, from);
}

/* twenty alarms are two portions: the second is full, and no more is due */
static void twenty(void) {
    const struct alarm_range before_240 = {ALARM_INCLUDED, 30, ALARM_EXCLUDED, 240, false, 0};
    uint64_t from[3], told[4], past[3] = {7, 7, 251};
    alarm_range_start(&before_240, from);
    do {
        portion(alarm_portion_range(night, night_n, BY_TIME, from, &before_240, screen, ten, told), told, from);
    } while (!told[ALARM_ENDED]);

    /* none is large enough, or none is behind the start: it stays as it was given, to its flags, and the listing ends, if there is room */
    portion(alarm_portion(night, night_n, BY_TIME, from, false, false, 0, 17, screen, ten, told), told, from);
    portion(alarm_portion(night, night_n, BY_TIME, past, false, false, 0, 0, screen, ten, told), told, past);
    portion(alarm_portion(night, night_n, BY_TIME, past, false, false, 0, 0, NULL, 0, told), told, past);
    night[0] = 1; /* the layout of a pool of one tree */
    portion(alarm_portion(night, night_n, BY_TIME, past, false, false, 0, 0, screen, ten, told), told, past);
}

/* a slice of no elements may be NULL, in every call that takes one */
static void without_elements(void) {
    uint64_t counts[4], from[3] = {0}, told[4], head[2], wide[32] = {0}, keys[32] = {0}, len = 0, totals[3] = {7, 7, 7};
    uint32_t narrow[32] = {0}, live[32] = {0}, dead[32] = {0};
    numbers("no set", alarm_set(pool, n, BY_TIME, NULL, 0, 1, 1, counts), counts, 4);
    numbers("no set_each", alarm_set_each(pool, n, BY_TIME, NULL, 0, NULL, 0, NULL, 0, counts), counts, 4);
    numbers("no remove", alarm_remove(pool, n, BY_TIME, NULL, 0, counts), counts, 4);
    numbers("no compare", alarm_compare(pool, n, BY_TIME, NULL, 0, false, 0, 0, false, 0, 0, counts), counts, 4);
    numbers("no get", alarm_get(pool, n, BY_TIME, NULL, 0, NULL, 0, told), told, 2);
    const struct alarm_range all = {ALARM_UNBOUNDED, 0, ALARM_UNBOUNDED, 0, false, 0};
    numbers("no scan", alarm_scan_range(pool, n, BY_TIME, &all, NULL, 0, told), told, 3);
    numbers("no portion", alarm_portion_range(pool, n, BY_TIME, from, &all, NULL, 0, told), told, 4);
    numbers("no frame", alarm_frame(pool, n, BY_TIME, 0, NULL, 0, &len), &len, 1);
    printf("no read_frame %" PRIu32 "\n", alarm_read_frame(NULL, 0, head, keys, wide, narrow, live, dead));
    numbers("no write_leaf", alarm_write_leaf(0, keys, wide, narrow, NULL, 0, &len), &len, 1);
    numbers("no write_interior", alarm_write_interior(0, keys, narrow, live, dead, wide, NULL, 0, &len), &len, 1);
    printf("no pool %" PRIu32 "\n", alarm_open(NULL, 0, 16, 4, 2, 4, 2));
    numbers("no pool", alarm_totals(NULL, 0, BY_TIME, totals), totals, 3);
    printf("no pack %" PRIu32 "\n", alarm_pack(NULL, 0, NULL, 0));
}

int main(void) {
    printf("pool %" PRIu64 ", with a wrong minimum %" PRIu64 "\n", alarm_pool_len(16, 4, 2, 4, 2), alarm_pool_len(16, 4, 2, 4, 3));
    printf("lengths %s\n", lengths_agree() ? "agree" : "differ");
    memset(pool, 170, n);

    /* an unopened pool is refused, and the small buffer is as it was */
    uint64_t totals[3] = {7, 7, 7}, counts[4] = {7, 7, 7, 7};
    numbers("totals", alarm_totals(pool, n, BY_TIME, totals), totals, 3);
    printf("open %" PRIu32 "\n", alarm_open(pool, n - 1, 16, 4, 2, 4, 2));
    printf("open %" PRIu32 "\n", alarm_open(pool, n, 16, 4, 2, 4, 2));
    printf("layout %s\n", pool[0] == ALARM_LAYOUT ? "agrees" : "differs");

    const uint64_t keys[5] = {1, 2, 3, 4, 5}, places[4] = {257, 258, 259, 260}, down[2] = {2, 1};
    const uint32_t sizes[4] = {16, 16, 16, 16};
    numbers("set_each", alarm_set_each(pool, n, BY_TIME, keys, 4, places, 4, sizes, 4, counts), counts, 4);
    numbers("set_each", alarm_set_each(pool, n, BY_TIME, keys, 4, places, 3, sizes, 4, counts), counts, 4);
    numbers("set", alarm_set(pool, n, BY_TIME, keys + 4, 1, 261, 16, counts), counts, 4);
    numbers("set", alarm_set(pool, n, BY_TIME, keys, 5, 1, 1, counts), counts, 4);
    numbers("remove", alarm_remove(pool, n, BY_TIME, down, 2, counts), counts, 4);
    numbers("totals", alarm_totals(pool, n, BY_TIME, totals), totals, 3);

    uint8_t line[ALARM_LINE_LEN];
    uint64_t len = 0;
    uint32_t code;
    for (uint64_t i = 0; (code = alarm_frame(pool, n, BY_TIME, i, line, sizeof line, &len)) == ALARM_DONE; i++)
        printf("%.*s\n", (int)len, (const char *)line);
    printf("frame %" PRIu32 ", the last had %" PRIu64 " digits\n", code, len);

    /* the last frame, read and written again, and with eight more zeros */
    uint64_t head[2] = {0}, k[32], wide[32];
    uint32_t narrow[32], live[32], dead[32];
    numbers("read_frame", alarm_read_frame(line, len, head, k, wide, narrow, live, dead), head, 2);
    printf("  %" PRIu64 " at %" PRIu64 ", %" PRIu32 " bytes\n", k[1], wide[1], narrow[1]);
    numbers("write_leaf", alarm_write_leaf(head[ALARM_ENTRIES], k, wide, narrow, line, sizeof line, &len), &len, 1);
    numbers("write_leaf", alarm_write_leaf(33, k, wide, narrow, line, sizeof line, &len), &len, 1);
    memset(line + len, '0', 8);
    numbers("read_frame", alarm_read_frame(line, len + 8, head, k, wide, narrow, live, dead), head, 2);
    alarm_frame(pool, n, BY_TIME, 0, line, sizeof line, &len);
    numbers("read_frame", alarm_read_frame(line, len, head, k, wide, narrow, live, dead), head, 2);
    printf("  child %" PRIu32 " has %" PRIu32 " live, %" PRIu32 " dead, %" PRIu64 " bytes, up to %" PRIu64 "\n", narrow[0], live[0],
           dead[0], wide[0], k[0]);
    numbers("write_interior", alarm_write_interior(head[ALARM_ENTRIES], k, narrow, live, dead, wide, line, 4, &len), &len, 1);
    numbers("write_interior", alarm_write_interior(head[ALARM_ENTRIES], k, narrow, live, dead, wide, line, sizeof line, &len), &len, 1);

    uint8_t out[5 * ALARM_ENTRY_LEN];
    uint64_t told[3];
    const uint64_t asked[3] = {2, 2, 9};
    numbers("get", alarm_get(pool, n, BY_TIME, asked, 3, out, sizeof out, told), told, 2);
    entries(out, told[ALARM_WRITTEN]);
    const struct alarm_range behind_three = {ALARM_EXCLUDED, 3, ALARM_INCLUDED, 5, false, 0};
    numbers("scan", alarm_scan(pool, n, BY_TIME, true, false, 3, true, true, 5, false, 0, out, sizeof out, told), told, 3);
    numbers("scan_range", alarm_scan_range(pool, n, BY_TIME, &behind_three, out, sizeof out, told), told, 3);
    entries(out, told[ALARM_WRITTEN]);
    numbers("scan", alarm_scan(pool, n, BY_TIME, false, false, 0, false, false, 0, true, 0, out, 49, told), told, 3);
    entries(out, told[ALARM_WRITTEN]);
    numbers("scan", alarm_scan(pool, n, BY_TIME, false, false, 0, false, false, 0, false, 17, out, sizeof out, told), told, 3);

    /* an expectation that is met, one that is not, and a removal of what is absent */
    numbers("compare", alarm_compare(pool, n, BY_TIME, keys, 2, true, 257, 16, true, 300, 20, counts), counts, 4);
    const uint64_t six = 6;
    numbers("compare", alarm_compare(pool, n, BY_TIME, &six, 1, false, 0, 0, true, 0, 9, counts), counts, 4);
    numbers("compare", alarm_compare(pool, n, BY_TIME, keys + 4, 1, true, 261, 16, false, 0, 0, counts), counts, 4);
    numbers("remove", alarm_remove(pool, n, BY_TIME, keys + 4, 1, counts), counts, 4);
    numbers("totals", alarm_totals(pool, n, BY_TIME, totals), totals, 3);
    two_trees();
    clearing();
    ten_and_ten_more();
    twenty();
    packing();
    without_elements();
    return 0;
}

/* The route desk called from C and C++: run A1 of the scope document, made singly, as a morning, by limited Takes and
 * from a task file, with its path; the keys that a row stores; the refusals that numbers, lengths and pointers of a
 * caller lead to; and that a refused call writes nothing.
 * Prints how many checks passed, or the first that did not. */
#include <stdio.h>
#include <stdlib.h>
#include <string.h>

#include "route_desk.h"

static int checks;

#define CHECK(fact) check((fact), #fact, __LINE__)

static void check(int holds, const char *fact, int line) {
    checks += 1;
    if (!holds) {
        fprintf(stderr, "interface: tests/c/calls.c, line %d: %s\n", line, fact);
        exit(1);
    }
}

static int is(uint64_t reply, unsigned kind, uint32_t value) {
    return DESK_CASE(reply) == kind && DESK_VALUE(reply) == value;
}

static int refused(uint64_t reply, uint32_t number) { return is(reply, DESK_REFUSED, number); }

/* ---- Task A ---- */

static const uint32_t passages[18] = {0, 1, 2, 0, 2, 5, 1, 2, 1, 2, 3, 2, 1, 4, 9, 3, 4, 1};
static const uint32_t estimates[25] = {0};

static uint64_t open_a(size_t n, size_t goal, size_t w, size_t e, uint32_t *row, size_t row_len) {
    return desk_open(n, 2, 0, goal, w, e, passages, 18, estimates, 25, row, row_len);
}

static uint64_t take_a(uint32_t *row, size_t row_len, size_t worker) {
    return desk_take(row, row_len, passages, 18, estimates, 25, worker);
}

static uint64_t take_limited_a(uint32_t *row, size_t row_len, size_t worker, size_t limit) {
    return desk_take_limited(row, row_len, passages, 18, estimates, 25, worker, limit);
}

static uint64_t bring_a(uint32_t *row, size_t row_len, size_t worker) {
    return desk_bring(row, row_len, passages, 18, estimates, 25, worker);
}

static uint64_t path_a(const uint32_t *row, size_t row_len, uint16_t *buffer, size_t buffer_len, size_t at) {
    return desk_path(row, row_len, passages, 18, estimates, 25, buffer, buffer_len, at);
}

static uint64_t morning_a(uint32_t *row, size_t row_len, const uint32_t *events, size_t events_len, uint64_t *replies,
                          size_t replies_len) {
    return desk_morning(row, row_len, passages, 18, estimates, 25, events, events_len, replies, replies_len);
}

/* A row of numbers that are none of the desk's. */
static void junk(uint32_t *row, size_t row_len) {
    for (size_t i = 0; i < row_len; i++) {
        row[i] = (uint32_t)(i + 1) * 2654435761u;
    }
}

/* Numbers that are out of range wherever they are given, though what is left of some in fewer bits would do. */
static const size_t wide[] = {65535, 65536, 65636, ((size_t)1 << 32) + 100, (size_t)1 << 32, (size_t)-1};
enum { WIDE = sizeof wide / sizeof wide[0] };

/* ---- Run A1 ---- */

struct call {
    int is_bring;
    size_t worker;
    unsigned kind;
    uint32_t value;
};

static const struct call run_a1[] = {
    {0, 0, DESK_TOOK, 0}, {0, 1, DESK_WAIT, 0}, {1, 0, DESK_BROUGHT, 2}, {0, 0, DESK_TOOK, 1}, {0, 1, DESK_WAIT, 1},
    {1, 0, DESK_BROUGHT, 2}, {0, 1, DESK_TOOK, 2}, {0, 0, DESK_WAIT, 2}, {1, 1, DESK_BROUGHT, 1}, {0, 0, DESK_TOOK, 3},
    {0, 1, DESK_WAIT, 3}, {1, 0, DESK_BROUGHT, 1}, {0, 1, DESK_FOUND, 6}};
enum { CALLS = sizeof run_a1 / sizeof run_a1[0] };

/* Each call on two rows in turn, which know nothing of each other. */
static void run_singly(uint32_t *row) {
    uint32_t other[DESK_ROW];
    CHECK(is(open_a(5, 4, 100, 100, row, DESK_ROW), DESK_OPENED, 0));
    CHECK(is(open_a(5, 4, 100, 100, other, DESK_ROW), DESK_OPENED, 0));
    for (int i = 0; i < CALLS; i++) {
        uint32_t *const rows[2] = {row, other};
        for (int r = 0; r < 2; r++) {
            uint64_t reply = run_a1[i].is_bring ? bring_a(rows[r], DESK_ROW, run_a1[i].worker)
                                                : take_a(rows[r], DESK_ROW, run_a1[i].worker);
            CHECK(is(reply, run_a1[i].kind, run_a1[i].value));
        }
    }
    CHECK(memcmp(row, other, sizeof other) == 0);
}

static void run_as_a_morning(const uint32_t *singly) {
    uint32_t row[DESK_ROW], events[CALLS];
    uint64_t replies[CALLS + 1];
    replies[CALLS] = 77;
    CHECK(is(open_a(5, 4, 100, 100, row, DESK_ROW), DESK_OPENED, 0));
    for (int i = 0; i < CALLS; i++) {
        events[i] = run_a1[i].is_bring ? DESK_BRING_EVENT(run_a1[i].worker) : DESK_TAKE_EVENT(run_a1[i].worker);
    }
    CHECK(is(morning_a(row, DESK_ROW, events, CALLS, replies, CALLS + 1), DESK_DONE, 0));
    for (int i = 0; i < CALLS; i++) {
        CHECK(is(replies[i], run_a1[i].kind, run_a1[i].value));
    }
    CHECK(replies[CALLS] == 77);
    CHECK(memcmp(row, singly, sizeof row) == 0);
}

/* The comparisons that each Take of the run makes when it is a limited one: the goal is tried first once it is open. */
static const uint32_t comparisons[CALLS] = {0, 0, 0, 0, 1, 0, 1, 1, 0, 1, 1, 0, 0};

/* As many comparisons as a Take makes are enough; with one fewer it is cut short, and the row stays as it was. */
static void run_limited(const uint32_t *singly) {
    uint32_t row[DESK_ROW], before[DESK_ROW];
    CHECK(is(open_a(5, 4, 100, 100, row, DESK_ROW), DESK_OPENED, 0));
    for (int i = 0; i < CALLS; i++) {
        uint64_t reply;
        if (run_a1[i].is_bring) {
            reply = bring_a(row, DESK_ROW, run_a1[i].worker);
        } else {
            memcpy(before, row, sizeof row);
            if (comparisons[i] > 0) {
                reply = take_limited_a(row, DESK_ROW, run_a1[i].worker, comparisons[i] - 1);
                CHECK(is(reply, DESK_CUT, comparisons[i] - 1) && DESK_COMPARISONS(reply) == comparisons[i] - 1);
                CHECK(memcmp(row, before, sizeof row) == 0);
            }
            reply = take_limited_a(row, DESK_ROW, run_a1[i].worker, comparisons[i]);
        }
        CHECK(is(reply, run_a1[i].kind, run_a1[i].value) && DESK_COMPARISONS(reply) == comparisons[i]);
    }
    CHECK(memcmp(row, singly, sizeof row) == 0);
    CHECK(take_limited_a(row, DESK_ROW, 0, 0) == take_a(row, DESK_ROW, 0));
    CHECK(refused(take_limited_a(row, DESK_ROW, 0, DESK_MOST_COMPARISONS), 10));
    CHECK(refused(take_limited_a(row, DESK_ROW - 1, 0, DESK_MOST_COMPARISONS), 8));
    for (int i = 0; i < WIDE; i++) {
        CHECK(refused(take_limited_a(row, DESK_ROW, wide[i], wide[i]), 9));
        CHECK(is(open_a(5, 4, 100, 100, before, DESK_ROW), DESK_OPENED, 0));
        CHECK(is(take_limited_a(before, DESK_ROW, 0, wide[i]), DESK_TOOK, 0));
        CHECK(take_limited_a(before, DESK_ROW, 0, wide[i]) == take_a(before, DESK_ROW, 0));
    }
    CHECK(memcmp(row, singly, sizeof row) == 0);
}

static void read_paths(const uint32_t *found) {
    uint16_t buffer[6] = {7, 7, 7, 7, 7, 7};
    static const uint16_t untouched[6] = {7, 7, 7, 7, 7, 7}, written[6] = {7, 0, 1, 2, 3, 4};
    CHECK(refused(path_a(found, DESK_ROW, buffer, 6, 2), 15));
    for (int i = 0; i < WIDE; i++) {
        CHECK(refused(path_a(found, DESK_ROW, buffer, 6, wide[i]), 15));
    }
    CHECK(refused(path_a(found, DESK_ROW, NULL, 0, 0), 15));
    CHECK(memcmp(buffer, untouched, sizeof buffer) == 0);
    CHECK(is(path_a(found, DESK_ROW, buffer, 6, 1), DESK_READ, 5));
    CHECK(memcmp(buffer, written, sizeof buffer) == 0);
}

/* ---- Keys ---- */

/* Task B: 1 from each state to each other, and E 300. With W 100 each key is 100 above that of the label, but the
 * goal's. */
static const uint32_t apart[25] = {0, 1, 1, 1, 1, 1, 0, 1, 1, 1, 1, 1, 0, 1, 1, 1, 1, 1, 0, 1, 1, 1, 1, 1, 0};

static int has_keys(const uint32_t *row, uint64_t a, uint64_t b, uint64_t c, uint64_t d, uint64_t e) {
    for (size_t s = 5; s < 256; s++) {
        if (DESK_KEY(row, s) != 0) {
            return 0;
        }
    }
    return DESK_KEY(row, 0) == a && DESK_KEY(row, 1) == b && DESK_KEY(row, 2) == c && DESK_KEY(row, 3) == d &&
           DESK_KEY(row, 4) == e;
}

/* Every call with this table is refused with 8, and leaves the row and what it was lent. */
static int all_refused(const uint32_t *row, const uint32_t *table) {
    static const uint32_t events[1] = {DESK_TAKE_EVENT(1)};
    uint32_t after[DESK_ROW];
    uint16_t buffer[5] = {7, 7, 7, 7, 7};
    uint64_t replies[1] = {77};
    memcpy(after, row, sizeof after);
    return refused(desk_take(after, DESK_ROW, passages, 18, table, 25, 1), 8) &&
           desk_take_limited(after, DESK_ROW, passages, 18, table, 25, 1, DESK_MOST_COMPARISONS) ==
               desk_take(after, DESK_ROW, passages, 18, table, 25, 1) &&
           refused(desk_bring(after, DESK_ROW, passages, 18, table, 25, 0), 8) &&
           refused(desk_path(after, DESK_ROW, passages, 18, table, 25, buffer, 5, 0), 8) && buffer[0] == 7 &&
           is(desk_morning(after, DESK_ROW, passages, 18, table, 25, events, 1, replies, 1), DESK_DONE, 0) &&
           refused(replies[0], 8) && memcmp(after, row, sizeof after) == 0;
}

/* A key off by one, by a bit of either half, lost, or of an unseen state; and with other estimates to the goal, another
 * W or another label. */
static void refuse_keys(const uint32_t *good) {
    uint32_t row[DESK_ROW];
    for (size_t s = 0; s < 5; s++) {
        for (int half = 0; half < 2; half++) {
            for (int bit = 0; bit < 32; bit += 31) {
                memcpy(row, good, sizeof row);
                row[DESK_KEY_PLACE(s) + half] ^= (uint32_t)1 << bit;
                CHECK(all_refused(row, apart));
            }
        }
    }
    memcpy(row, good, sizeof row);
    row[DESK_KEY_PLACE(2)] = 0;
    CHECK(all_refused(row, apart));
    memcpy(row, good, sizeof row);
    row[DESK_KEY_PLACE(3)] = 100;
    CHECK(all_refused(row, apart));
    memcpy(row, good, sizeof row);
    row[4] = 99;
    CHECK(all_refused(row, apart));
    memcpy(row, good, sizeof row);
    row[263 + 2] -= 1;
    CHECK(all_refused(row, apart));
    CHECK(all_refused(good, estimates));
}

static void keep_keys(const uint32_t *found) {
    static const uint32_t far[4] = {0, 255000000, 255000000, 0};
    uint32_t row[DESK_ROW];
    CHECK(DESK_ROW == 1319);
    CHECK(DESK_KEY_PLACE(0) == 807 && DESK_KEY_PLACE(1) == 809 && DESK_KEY_PLACE(255) == DESK_ROW - 2);
    CHECK(has_keys(found, 0, 200, 300, 500, 600));
    junk(row, DESK_ROW);
    CHECK(is(desk_open(5, 2, 0, 4, 100, 300, passages, 18, apart, 25, row, DESK_ROW), DESK_OPENED, 0));
    CHECK(has_keys(row, 100, 0, 0, 0, 0));
    CHECK(is(desk_take(row, DESK_ROW, passages, 18, apart, 25, 0), DESK_TOOK, 0));
    CHECK(has_keys(row, 100, 0, 0, 0, 0));
    CHECK(is(desk_bring(row, DESK_ROW, passages, 18, apart, 25, 0), DESK_BROUGHT, 2));
    CHECK(has_keys(row, 100, 300, 600, 0, 0));
    refuse_keys(row);
    /* past n, and of an unseen state's label, nothing is asked */
    row[DESK_KEY_PLACE(5)] = 1;
    row[DESK_ROW - 1] = 4294967295u;
    row[263 + 3] = 7;
    CHECK(is(desk_take(row, DESK_ROW, passages, 18, apart, 25, 0), DESK_TOOK, 1));
    CHECK(is(desk_bring(row, DESK_ROW, passages, 18, apart, 25, 0), DESK_BROUGHT, 2));
    CHECK(row[DESK_KEY_PLACE(5)] == 1 && row[DESK_ROW - 1] == 4294967295u);
    row[DESK_KEY_PLACE(5)] = row[DESK_ROW - 1] = 0;
    CHECK(has_keys(row, 100, 300, 400, 0, 1100));
    /* 10000 times 255000000 */
    CHECK(is(desk_open(2, 1, 1, 0, 10000, 10000, NULL, 0, far, 4, row, DESK_ROW), DESK_OPENED, 0));
    CHECK(row[809] == 3084393472u && row[810] == 593);
    CHECK(has_keys(row, 0, ((uint64_t)593 << 32) + 3084393472u, 0, 0, 0));
    CHECK(is(desk_take(row, DESK_ROW, NULL, 0, far, 4, 0), DESK_TOOK, 1));
}

/* ---- Refusals ---- */

static int is_blank(const uint32_t *row) {
    for (int i = 0; i < DESK_ROW; i++) {
        if (row[i] != 0) {
            return 0;
        }
    }
    return 1;
}

/* A refused opening hands back no machine: all numbers are 0. No weight is cut to a smaller one. */
static void refuse_openings(void) {
    uint32_t row[DESK_ROW];
    for (int i = 0; i < WIDE; i++) {
        junk(row, DESK_ROW);
        CHECK(refused(open_a(5, 4, wide[i], 100, row, DESK_ROW), 3) && is_blank(row));
        junk(row, DESK_ROW);
        CHECK(refused(open_a(5, 4, 100, wide[i], row, DESK_ROW), 3) && is_blank(row));
        CHECK(refused(open_a(5, 4, wide[i], wide[i], row, DESK_ROW), 3) && is_blank(row));
        CHECK(refused(open_a(wide[i], 4, wide[i], 100, row, DESK_ROW), 1) && is_blank(row));
        CHECK(refused(open_a(5, wide[i], wide[i], 100, row, DESK_ROW), 2) && is_blank(row));
    }
    CHECK(refused(take_a(row, DESK_ROW, 0), 8) && is_blank(row));
}

/* Every call refuses a row of another length, and leaves it. */
static void refuse_lengths(void) {
    static const size_t lengths[] = {0, 1, 807, DESK_ROW - 1, DESK_ROW + 1, 2 * DESK_ROW};
    static const uint32_t events[1] = {0};
    uint32_t row[2 * DESK_ROW], before[2 * DESK_ROW];
    uint16_t buffer[5] = {7, 7, 7, 7, 7};
    uint64_t replies[1] = {77};
    junk(row, 2 * DESK_ROW);
    memcpy(before, row, sizeof row);
    for (int i = 0; i < 6; i++) {
        uint32_t *lent = lengths[i] == 0 ? NULL : row;
        CHECK(refused(open_a(5, 4, 100, 100, lent, lengths[i]), 8));
        CHECK(refused(open_a(0, 4, 100, 100, lent, lengths[i]), 8));
        CHECK(refused(take_a(lent, lengths[i], 0), 8));
        CHECK(take_limited_a(lent, lengths[i], 0, DESK_MOST_COMPARISONS) == take_a(lent, lengths[i], 0));
        CHECK(refused(bring_a(lent, lengths[i], 0), 8));
        CHECK(refused(path_a(lent, lengths[i], buffer, 5, 0), 8));
        CHECK(refused(morning_a(lent, lengths[i], events, 1, replies, 1), 8));
    }
    CHECK(memcmp(row, before, sizeof row) == 0);
    CHECK(buffer[0] == 7 && buffer[4] == 7 && replies[0] == 77);
}

/* Numbers that are too large for their fields, though what is left of them in fewer bits would do. */
static void refuse_fields(void) {
    static const struct {
        int place;
        uint32_t added;
    } wider[] = {{4, 65536},   {5, 65536},   {6, 256},     {7, 256},    {262, 256},
                 {519, 65536}, {774, 65536}, {775, 65536}, {806, 65536}};
    uint32_t row[DESK_ROW], before[DESK_ROW];
    uint16_t buffer[5] = {7, 7, 7, 7, 7};
    for (int i = 0; i < 9; i++) {
        CHECK(is(open_a(5, 4, 100, 100, row, DESK_ROW), DESK_OPENED, 0));
        row[wider[i].place] += wider[i].added;
        memcpy(before, row, sizeof row);
        CHECK(refused(take_a(row, DESK_ROW, 0), 8));
        CHECK(refused(bring_a(row, DESK_ROW, 0), 8));
        CHECK(refused(path_a(row, DESK_ROW, buffer, 5, 0), 8));
        CHECK(memcmp(row, before, sizeof row) == 0 && buffer[0] == 7);
    }
}

static void refuse_calls(void) {
    uint32_t row[DESK_ROW], before[DESK_ROW];
    uint16_t buffer[5] = {7, 7, 7, 7, 7};
    CHECK(is(open_a(5, 4, 100, 100, row, DESK_ROW), DESK_OPENED, 0));
    memcpy(before, row, sizeof row);
    CHECK(refused(bring_a(row, DESK_ROW, 0), 11));
    CHECK(refused(take_a(row, DESK_ROW, 2), 9));
    for (int i = 0; i < WIDE; i++) {
        CHECK(refused(take_a(row, DESK_ROW, wide[i]), 9));
        CHECK(refused(bring_a(row, DESK_ROW, wide[i]), 9));
    }
    CHECK(refused(path_a(row, DESK_ROW, buffer, 5, 0), 13));
    CHECK(memcmp(row, before, sizeof row) == 0);
    CHECK(buffer[0] == 7 && buffer[4] == 7);
}

static void refuse_mornings(void) {
    static const uint32_t events[3] = {0, 131072, 65536};
    uint32_t row[DESK_ROW], before[DESK_ROW];
    uint64_t replies[3] = {77, 77, 77};
    CHECK(is(open_a(5, 4, 100, 100, row, DESK_ROW), DESK_OPENED, 0));
    memcpy(before, row, sizeof row);
    CHECK(refused(morning_a(row, DESK_ROW, events, 3, replies, 2), 16));
    CHECK(refused(morning_a(row, DESK_ROW, events, 1, NULL, 0), 16));
    CHECK(refused(morning_a(row, DESK_ROW, events, 3, replies, 3), 18));
    CHECK(is(morning_a(row, DESK_ROW, NULL, 0, NULL, 0), DESK_DONE, 0));
    CHECK(memcmp(row, before, sizeof row) == 0);
    CHECK(replies[0] == 77 && replies[1] == 77 && replies[2] == 77);
    /* a worker too large for an event is refused as in a single call, and is no other event */
    for (int i = 0; i < WIDE; i++) {
        const uint32_t by_none[2] = {DESK_TAKE_EVENT(wide[i]), DESK_BRING_EVENT(wide[i])};
        CHECK(is(morning_a(row, DESK_ROW, by_none, 2, replies, 2), DESK_DONE, 0));
        CHECK(refused(replies[0], 9) && refused(replies[1], 9));
    }
    CHECK(DESK_TAKE_EVENT(0) == 0 && DESK_BRING_EVENT(31) == 65567);
    CHECK(DESK_TAKE_EVENT(-1) == 65535 && DESK_BRING_EVENT(-1) == 131071);
    CHECK(memcmp(row, before, sizeof row) == 0);
}

/* ---- Pointers that are NULL where the length is 0 ---- */

static void lend_nothing(void) {
    uint32_t row[DESK_ROW];
    uint16_t buffer[1] = {7};
    CHECK(is(desk_open(1, 1, 0, 0, 100, 100, NULL, 0, estimates, 1, row, DESK_ROW), DESK_OPENED, 0));
    CHECK(is(desk_take(row, DESK_ROW, NULL, 0, estimates, 1, 0), DESK_FOUND, 0));
    CHECK(is(desk_path(row, DESK_ROW, NULL, 0, estimates, 1, buffer, 1, 0), DESK_READ, 1) && buffer[0] == 0);
    CHECK(refused(desk_open(1, 1, 0, 0, 100, 100, NULL, 0, NULL, 0, row, DESK_ROW), 1));
    CHECK(is(desk_open(2, 1, 0, 1, 100, 100, NULL, 0, estimates, 4, row, DESK_ROW), DESK_OPENED, 0));
    CHECK(is(desk_take(row, DESK_ROW, NULL, 0, estimates, 4, 0), DESK_TOOK, 0));
    CHECK(is(desk_bring(row, DESK_ROW, NULL, 0, estimates, 4, 0), DESK_BROUGHT, 0));
    CHECK(is(desk_take(row, DESK_ROW, NULL, 0, estimates, 4, 0), DESK_NOPATH, 0));
}

/* ---- Maps and printing ---- */

static int is_map(uint64_t reply, uint32_t cells, uint32_t links, uint32_t refusal) {
    return DESK_MAP_CELLS(reply) == cells && DESK_MAP_PASSAGES(reply) == links && DESK_MAP_REFUSAL(reply) == refusal;
}

static void read_maps(void) {
    static const char two[] = "type octile\nheight 1\nwidth 3\nmap\n.G@\n";
    static const char one[] = "type octile\nheight 1\nwidth 1\nmap\n.\n";
    static const uint32_t to_and_fro[7] = {0, 1, 1000, 1, 0, 1000, 77}, apart[5] = {0, 1000, 1000, 0, 77};
    const uint8_t *text = (const uint8_t *)two;
    uint32_t links[7] = {77, 77, 77, 77, 77, 77, 77}, table[5] = {77, 77, 77, 77, 77};
    CHECK(is_map(desk_map(NULL, 0, links, 7, table, 5), 0, 0, 31));
    CHECK(is_map(desk_map(text, sizeof two - 2, links, 7, table, 5), 0, 0, 32));
    CHECK(is_map(desk_map(text, sizeof two - 1, links, 5, table, 5), 0, 0, 34));
    CHECK(is_map(desk_map(text, sizeof two - 1, links, 7, table, 3), 0, 0, 34));
    CHECK(is_map(desk_map(text, sizeof two - 1, NULL, 0, NULL, 0), 0, 0, 34));
    CHECK(links[0] == 77 && links[6] == 77 && table[0] == 77 && table[4] == 77);
    CHECK(is_map(desk_map((const uint8_t *)one, sizeof one - 1, NULL, 0, table, 1), 1, 0, 0) && table[0] == 0);
    CHECK(is_map(desk_map(text, sizeof two - 1, links, 7, table, 5), 2, 2, 0));
    CHECK(memcmp(links, to_and_fro, sizeof links) == 0 && memcmp(table, apart, sizeof table) == 0);
    CHECK(desk_map_spot(text, sizeof two - 1, 1) == 1 && desk_map_state(text, sizeof two - 1, 0, 1) == 1);
    CHECK(desk_map_spot(NULL, 0, 0) == DESK_NO_SPOT && desk_map_state(NULL, 0, 0, 0) == DESK_NO_STATE);
    for (int i = 0; i < WIDE; i++) {
        CHECK(desk_map_spot(text, sizeof two - 1, wide[i]) == DESK_NO_SPOT);
        CHECK(desk_map_state(text, sizeof two - 1, wide[i], 0) == DESK_NO_STATE);
        CHECK(desk_map_state(text, sizeof two - 1, 0, wide[i]) == DESK_NO_STATE);
    }
}

static void print_files(void) {
    static const char no_file[] = "file 21 0\n";
    static uint8_t text[DESK_ROOM];
    memset(text, '.', sizeof text);
    CHECK(desk_print(NULL, 0, NULL, 0) == 0);
    CHECK(desk_print(NULL, 0, text, DESK_ROOM - 1) == 0 && text[0] == '.');
    CHECK(desk_print(NULL, 0, text, DESK_ROOM) == sizeof no_file - 1);
    CHECK(memcmp(text, no_file, sizeof no_file - 1) == 0 && text[sizeof no_file - 1] == '.');
}

/* ---- Task files ---- */

/* A file that is made here, byte by byte. */
static uint8_t file[DESK_FILE_ROOM + 4];
static size_t file_len;

static void put(int bytes, uint32_t number) {
    for (; bytes > 0; bytes--) {
        file[file_len++] = (uint8_t)number;
        number >>= 8;
    }
}

static void put_record(uint32_t payload, uint32_t kind) {
    put(2, payload);
    put(2, kind);
}

static void put_head(uint32_t n, uint32_t k, uint32_t goal) {
    file_len = 0;
    put_record(12, 1);
    put(2, n);
    put(2, k);
    put(2, 0);
    put(2, goal);
    put(2, 100);
    put(2, 101);
}

static void put_passages(int count) {
    for (int i = 0; i < count; i++) {
        put_record(8, 2);
        put(2, passages[3 * (i % 6)]);
        put(2, passages[3 * (i % 6) + 1]);
        put(4, passages[3 * (i % 6) + 2]);
    }
}

static void put_zeros(uint32_t n) {
    for (uint32_t row = 0; row < n; row++) {
        put_record(2 + 4 * n, 3);
        put(2, row);
        for (uint32_t column = 0; column < n; column++) {
            put(4, 0);
        }
    }
}

static void put_takes(int count) {
    for (int i = 0; i < count; i++) {
        put_record(2, 4);
        put(2, 0);
    }
}

/* Task A at E 101, with the calls of run A1: 296 bytes. */
static void put_a1(void) {
    put_head(5, 2, 4);
    put_passages(6);
    put_zeros(5);
    for (int i = 0; i < CALLS; i++) {
        put_record(2, 4);
        put(1, (uint32_t)run_a1[i].is_bring);
        put(1, (uint32_t)run_a1[i].worker);
    }
}

/* What a file is read into: rooms that are enough for any, and one place more. */
static struct rows {
    uint32_t numbers[DESK_FILE_NUMBERS + 1];
    uint32_t passages[DESK_FILE_PASSAGES_ROOM + 1];
    uint32_t estimates[DESK_FILE_ESTIMATES_ROOM + 1];
    uint32_t events[DESK_FILE_EVENTS_ROOM + 1];
} in, blank;

static void clear(void) { memset(&in, 77, sizeof in); }

static uint64_t read_to(size_t numbers_len, size_t passages_len, size_t estimates_len, size_t events_len) {
    return desk_file_read(file, file_len, in.numbers, numbers_len, in.passages, passages_len, in.estimates,
                          estimates_len, in.events, events_len);
}

static uint64_t read_all(void) {
    return read_to(DESK_FILE_NUMBERS, DESK_FILE_PASSAGES_ROOM, DESK_FILE_ESTIMATES_ROOM, DESK_FILE_EVENTS_ROOM);
}

/* What a task is written to. */
static uint8_t buffer[DESK_FILE_ROOM + 1];

static uint64_t write_a(size_t n, size_t k, size_t start, size_t goal, size_t w, size_t e, size_t passages_len,
                        size_t estimates_len, size_t events_len, size_t buffer_len) {
    return desk_file_write(n, k, start, goal, w, e, in.passages, passages_len, in.estimates, estimates_len, in.events,
                           events_len, buffer, buffer_len);
}

/* What was read, written again. */
static uint64_t write_again(size_t buffer_len) {
    const uint32_t *x = in.numbers;
    return write_a(x[0], x[1], x[2], x[3], x[4], x[5], 3 * x[6], x[0] * x[0], x[7], buffer_len);
}

static int is_fault(uint64_t reply, unsigned number, uint32_t offset) {
    return DESK_FILE_REFUSAL(reply) == number && DESK_FILE_OFFSET(reply) == offset &&
           memcmp(&in, &blank, sizeof in) == 0;
}

/* The buffer is as it was from a place on. */
static int is_kept(size_t from) {
    for (size_t i = from; i < sizeof buffer; i++) {
        if (buffer[i] != 88) {
            return 0;
        }
    }
    return 1;
}

static int is_unwritten(uint64_t reply, unsigned number) {
    return DESK_FILE_REFUSAL(reply) == number && DESK_FILE_LENGTH(reply) == 0 && is_kept(0);
}

/* The file that was made is read and written again: the same bytes, and no others. */
static void read_and_write(void) {
    clear();
    CHECK(read_all() == 0);
    memset(buffer, 88, sizeof buffer);
    CHECK(is_unwritten(write_again(file_len - 1), 26));
    uint64_t reply = write_again(DESK_FILE_ROOM + 1);
    CHECK(DESK_FILE_REFUSAL(reply) == 0 && DESK_FILE_LENGTH(reply) == file_len);
    CHECK(memcmp(buffer, file, file_len) == 0 && is_kept(file_len));
    memset(buffer, 88, sizeof buffer);
    CHECK(DESK_FILE_LENGTH(write_again(file_len)) == file_len);
}

static void run_from_a_file(void) {
    static const uint32_t numbers[DESK_FILE_NUMBERS] = {5, 2, 0, 4, 100, 101, 6, CALLS};
    uint32_t row[DESK_ROW];
    uint64_t replies[CALLS];
    put_a1();
    CHECK(file_len == 296);
    read_and_write();
    CHECK(memcmp(in.numbers, numbers, sizeof numbers) == 0);
    CHECK(memcmp(in.numbers + DESK_FILE_NUMBERS, blank.numbers + DESK_FILE_NUMBERS, sizeof blank.numbers[0]) == 0);
    CHECK(memcmp(in.passages, passages, sizeof passages) == 0);
    CHECK(memcmp(in.passages + 18, blank.passages + 18, sizeof blank.passages - sizeof passages) == 0);
    CHECK(memcmp(in.estimates, estimates, sizeof estimates) == 0);
    CHECK(memcmp(in.estimates + 25, blank.estimates + 25, sizeof blank.estimates - sizeof estimates) == 0);
    CHECK(memcmp(in.events + CALLS, blank.events + CALLS, (DESK_FILE_EVENTS_ROOM + 1 - CALLS) * sizeof(uint32_t)) == 0);
    CHECK(is(desk_open(in.numbers[0], in.numbers[1], in.numbers[2], in.numbers[3], in.numbers[4], in.numbers[5],
                       in.passages, 18, in.estimates, 25, row, DESK_ROW), DESK_OPENED, 0));
    CHECK(is(morning_a(row, DESK_ROW, in.events, in.numbers[7], replies, CALLS), DESK_DONE, 0));
    for (int i = 0; i < CALLS; i++) {
        CHECK(is(replies[i], run_a1[i].kind, run_a1[i].value));
    }
}

/* The largest files, and a smallest one, for which nothing need be lent for passages and events. */
static void fill_rooms(void) {
    put_head(64, 32, 63);
    put_passages(512);
    put_zeros(64);
    put_takes(7101);
    read_and_write();
    CHECK(in.numbers[0] == 64 && in.numbers[6] == 512 && in.numbers[7] == 7101);
    put_head(1, 1, 0);
    put_zeros(1);
    put_takes(10918);
    read_and_write();
    CHECK(in.numbers[0] == 1 && in.numbers[6] == 0 && in.numbers[7] == 10918);
    put_head(1, 1, 0);
    put_zeros(1);
    read_and_write();
    clear();
    CHECK(desk_file_read(file, file_len, in.numbers, DESK_FILE_NUMBERS, NULL, 0, in.estimates, 1, NULL, 0) == 0);
    CHECK(in.numbers[7] == 0 && in.estimates[0] == 0);
    CHECK(desk_file_write(1, 1, 0, 0, 100, 101, NULL, 0, in.estimates, 1, NULL, 0, buffer, file_len) == file_len);
    CHECK(memcmp(buffer, file, file_len) == 0);
}

/* Faults, each with its offset, and the places that are too few. */
static void refuse_files(void) {
    clear();
    file_len = 0;
    CHECK(is_fault(read_all(), 21, 0));
    CHECK(is_fault(desk_file_read(NULL, 0, in.numbers, DESK_FILE_NUMBERS, NULL, 0, NULL, 0, NULL, 0), 21, 0));
    put_a1();
    file_len -= 1;
    CHECK(is_fault(read_all(), 21, 290));
    put_head(5, 2, 4);
    CHECK(is_fault(read_all(), 21, 16));
    put_record(0, 5);
    CHECK(is_fault(read_all(), 22, 16));
    put_head(65, 2, 4);
    CHECK(is_fault(read_all(), 23, 0));
    put_head(5, 2, 4);
    put_passages(513);
    CHECK(is_fault(read_all(), 23, 16 + 12 * 512));
    put_head(5, 2, 4);
    put_passages(6);
    put_zeros(5);
    put_takes(10887);
    CHECK(file_len == DESK_FILE_ROOM + 4 && is_fault(read_all(), 23, 65536));
    put_a1();
    CHECK(is_fault(read_to(DESK_FILE_NUMBERS, 17, 25, CALLS), 27, 0));
    CHECK(is_fault(read_to(DESK_FILE_NUMBERS, 18, 24, CALLS), 27, 0));
    CHECK(is_fault(read_to(DESK_FILE_NUMBERS, 18, 25, CALLS - 1), 27, 0));
    CHECK(is_fault(desk_file_read(file, file_len, in.numbers, DESK_FILE_NUMBERS, NULL, 0, NULL, 0, NULL, 0), 27, 0));
    CHECK(is_fault(read_to(DESK_FILE_NUMBERS - 1, 18, 25, CALLS), 27, 0));
    CHECK(is_fault(desk_file_read(NULL, 0, NULL, 0, NULL, 0, NULL, 0, NULL, 0), 27, 0));
    CHECK(read_to(DESK_FILE_NUMBERS, 18, 25, CALLS) == 0);
}

/* Tasks that no file can carry, and places that are too few. Numbers that opening refuses are written all the same. */
static void refuse_writing(void) {
    static const uint32_t many[65 * 65] = {0};
    put_a1();
    clear();
    CHECK(read_all() == 0);
    memset(buffer, 88, sizeof buffer);
    for (int i = 0; i < WIDE; i++) {
        CHECK(is_unwritten(write_a(wide[i], 2, 0, 4, 100, 101, 18, 25, CALLS, DESK_FILE_ROOM), 24));
    }
    for (int i = 1; i < WIDE; i++) {
        CHECK(is_unwritten(write_a(5, wide[i], 0, 4, 100, 101, 18, 25, CALLS, DESK_FILE_ROOM), 24));
        CHECK(is_unwritten(write_a(5, 2, wide[i], 4, 100, 101, 18, 25, CALLS, DESK_FILE_ROOM), 24));
        CHECK(is_unwritten(write_a(5, 2, 0, wide[i], 100, 101, 18, 25, CALLS, DESK_FILE_ROOM), 24));
        CHECK(is_unwritten(write_a(5, 2, 0, 4, wide[i], 101, 18, 25, CALLS, DESK_FILE_ROOM), 24));
        CHECK(is_unwritten(write_a(5, 2, 0, 4, 100, wide[i], 18, 25, CALLS, DESK_FILE_ROOM), 24));
    }
    CHECK(is_unwritten(write_a(0, 2, 0, 4, 100, 101, 18, 0, CALLS, DESK_FILE_ROOM), 24));
    CHECK(is_unwritten(desk_file_write(65, 2, 0, 4, 100, 101, many, 0, many, 65 * 65, many, 0, buffer, DESK_FILE_ROOM),
                       24));
    CHECK(is_unwritten(write_a(5, 2, 0, 4, 100, 101, 17, 25, CALLS, DESK_FILE_ROOM), 24));
    CHECK(is_unwritten(write_a(5, 2, 0, 4, 100, 101, 18, 24, CALLS, DESK_FILE_ROOM), 24));
    CHECK(is_unwritten(desk_file_write(5, 2, 0, 4, 100, 101, NULL, 0, NULL, 0, NULL, 0, buffer, DESK_FILE_ROOM), 24));
    /* 512 passages are carried, and one more isn't */
    CHECK(is_unwritten(desk_file_write(5, 2, 0, 4, 100, 101, many, 1536, many, 25, many, 0, buffer, 100), 26));
    CHECK(is_unwritten(desk_file_write(5, 2, 0, 4, 100, 101, many, 1539, many, 25, many, 0, buffer, DESK_FILE_ROOM),
                       24));
    /* a passage's end, an event's worker and an event's call */
    in.passages[15] = 65536;
    CHECK(is_unwritten(write_a(5, 2, 0, 4, 100, 101, 18, 25, CALLS, DESK_FILE_ROOM), 24));
    in.passages[15] = 0;
    in.passages[16] = 65536;
    CHECK(is_unwritten(write_a(5, 2, 0, 4, 100, 101, 18, 25, CALLS, DESK_FILE_ROOM), 24));
    in.passages[16] = 0;
    in.events[CALLS - 1] = DESK_TAKE_EVENT(256);
    CHECK(is_unwritten(write_a(5, 2, 0, 4, 100, 101, 18, 25, CALLS, DESK_FILE_ROOM), 24));
    in.events[CALLS - 1] = DESK_BRING_EVENT(-1);
    CHECK(is_unwritten(write_a(5, 2, 0, 4, 100, 101, 18, 25, CALLS, DESK_FILE_ROOM), 24));
    in.events[CALLS - 1] = 131072;
    CHECK(is_unwritten(write_a(5, 2, 0, 4, 100, 101, 18, 25, CALLS, DESK_FILE_ROOM), 24));
    /* 24 comes before 25, and 25 before 26 */
    memset(in.events, 0, sizeof in.events);
    CHECK(is_unwritten(write_a(1, 2, 0, 4, 100, 65536, 0, 1, 10919, 0), 24));
    CHECK(is_unwritten(write_a(1, 2, 0, 4, 100, 65535, 0, 1, 10919, 0), 25));
    CHECK(is_unwritten(write_a(1, 2, 0, 4, 100, 65535, 0, 1, 10918, 65533), 26));
    CHECK(is_unwritten(desk_file_write(1, 2, 0, 4, 100, 100, NULL, 0, in.estimates, 1, NULL, 0, NULL, 0), 26));
    in.passages[15] = in.passages[16] = 65535;
    in.passages[17] = DESK_BLOCKED;
    in.estimates[24] = 4294967295u;
    in.events[0] = DESK_BRING_EVENT(255);
    CHECK(DESK_FILE_LENGTH(write_a(5, 65535, 65535, 65535, 65535, 65535, 18, 25, 1, 224)) == 224);
}

int main(void) {
    uint32_t row[DESK_ROW];
    run_singly(row);
    run_as_a_morning(row);
    run_limited(row);
    read_paths(row);
    keep_keys(row);
    refuse_openings();
    refuse_lengths();
    refuse_fields();
    refuse_calls();
    refuse_mornings();
    lend_nothing();
    read_maps();
    print_files();
    memset(&blank, 77, sizeof blank);
    run_from_a_file();
    fill_rooms();
    refuse_files();
    refuse_writing();
    printf("%d\n", checks);
    return 0;
}

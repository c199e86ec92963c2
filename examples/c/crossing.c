/* The example day of examples/crossing.txt, with a look at the join before it and at the board, and
 * then a strike, a bundle and more boxes than there are numbers, called from C. From the repository's
 * folder:
 *
 *     bash tools/build
 *     cc -Iinclude examples/c/crossing.c target/staticlib/libexports.a -o target/crossing
 *     target/crossing
 */
#include <inttypes.h>
#include <stdint.h>
#include <stdio.h>

#include "silttongs.h"

static uint8_t table[SILTTONGS_BYTES];
static uint8_t board[SILTTONGS_BOARD];
static uint8_t sheet[SILTTONGS_SHEET];

static void show(const char *step, uint64_t answer) {
    printf("%-26s code %2u  value %" PRIu32 "\n", step, (unsigned)silttongs_code(answer),
           silttongs_value(answer));
}

static const char *state(uint64_t answer) {
    static const char *const states[] = {"neither", "timed", "struck"};
    return states[silttongs_state(answer)];
}

static void show_query(const char *step, uint64_t answer) {
    printf("%-26s code %2u  value %" PRIu32 "  %s\n", step, (unsigned)silttongs_code(answer),
           silttongs_value(answer), state(answer));
}

static void show_preview(const char *step, uint64_t answer) {
    printf("%-26s code %2u  value %" PRIu32 "  %s  gain %u\n", step,
           (unsigned)silttongs_code(answer), silttongs_value(answer), state(answer),
           (unsigned)silttongs_gain(answer));
}

static void show_fill(const char *step, uint64_t answer) {
    printf("%-26s code %2u  own %u  total %u\n", step, (unsigned)silttongs_code(answer),
           (unsigned)silttongs_own(answer), (unsigned)silttongs_total(answer));
}

/* Writes a number into so many bytes, the least significant first. */
static void put(uint8_t *bytes, int count, uint32_t n) {
    for (; count-- > 0; n >>= 8) *bytes++ = (uint8_t)n;
}

/* Writes a record of a bundle; its tablet and number are not looked at. */
static void put_record(uint8_t *r, uint8_t kind, uint16_t bib, uint32_t v) {
    r[0] = kind;
    put(r + 2, 2, bib);
    put(r + 4, 4, v);
}

/* The number of so many bytes, the least significant first. */
static uint32_t number(const uint8_t *bytes, int count) {
    uint32_t n = 0;
    while (count-- > 0) n = n << 8 | bytes[count];
    return n;
}

static void show_entry(const uint8_t *e) {
    printf("    kind %u  tablet %u  bib %" PRIu32 "  v %" PRIu32 "  number %" PRIu32 "\n",
           (unsigned)e[0], (unsigned)e[1], number(e + 2, 2), number(e + 4, 4), number(e + 8, 4));
}

/* The bibs that are struck or timed at box 0, by closed transactions. */
static void show_board(const char *when) {
    static const char *const states[] = {"neither", "timed", "struck"};
    printf("the board %s\n", when);
    for (uint16_t bib = 0; bib < SILTTONGS_BOARD / SILTTONGS_BOARD_ENTRY; bib++) {
        uint8_t state = silttongs_board_state(board, bib);
        if (state == SILTTONGS_NEITHER) continue;
        printf("    bib %u  value %" PRIu32 "  %s\n", (unsigned)bib,
               silttongs_board_value(board, bib), states[state]);
    }
}

int main(void) {
    size_t n = sizeof table, m = sizeof board;
    show_query("query before fresh", silttongs_query(table, n, 0, 0, 7));
    show("fresh", silttongs_fresh(table, n, board, m, 0));
    show("update 0/0 Time 61000", silttongs_update(table, n, 0, 0, SILTTONGS_TIME, 7, 61000));
    show("yield 0", silttongs_yield(table, n, board, m, 0));
    show("fork box 0", silttongs_fork(table, n, 0));
    show("update 1/1 Penalty 5000", silttongs_update(table, n, 1, 1, SILTTONGS_PENALTY, 7, 5000));
    show("fork box 1", silttongs_fork(table, n, 1));
    show("yield 1", silttongs_yield(table, n, board, m, 1));
    show("update 0/0 Time 60000", silttongs_update(table, n, 0, 0, SILTTONGS_TIME, 7, 60000));
    show("yield 0", silttongs_yield(table, n, board, m, 0));
    show_query("query 0/1", silttongs_query(table, n, 0, 1, 7));
    show_fill("fill box 0", silttongs_fill(table, n, 0));
    show_fill("fill box 1", silttongs_fill(table, n, 1));
    show_preview("preview 0 with 1", silttongs_preview(table, n, 0, 1, 7));
    show_preview("preview 1 with 0", silttongs_preview(table, n, 1, 0, 7));
    show_board("before the join");
    show("join 0 with 1", silttongs_join(table, n, board, m, 0, 1));
    show_board("after the join");
    show_fill("fill box 0", silttongs_fill(table, n, 0));
    show_fill("fill box 1", silttongs_fill(table, n, 1));

    uint64_t listed = silttongs_list(table, n, 0, sheet, sizeof sheet);
    show("list box 0", listed);
    for (uint32_t i = 0; i < silttongs_value(listed); i++) show_entry(sheet + SILTTONGS_ENTRY * i);

    show_query("query 1/0", silttongs_query(table, n, 1, 0, 7));
    show("update 0/1 Strike", silttongs_update(table, n, 0, 1, SILTTONGS_STRIKE, 7, 0));

    /* Struck on the main box, the bib stays so until a Time. */
    show("update 1/0 Strike", silttongs_update(table, n, 1, 0, SILTTONGS_STRIKE, 7, 0));
    show("update 1/0 Earliest 59000",
         silttongs_update(table, n, 1, 0, SILTTONGS_EARLIEST, 7, 59000));
    show_query("query 1/0", silttongs_query(table, n, 1, 0, 7));
    show_query("query 0/0", silttongs_query(table, n, 0, 0, 7));
    show_board("while tablet 1 has not yielded");
    show("update 1/0 Time 62000", silttongs_update(table, n, 1, 0, SILTTONGS_TIME, 7, 62000));
    show_query("query 1/0", silttongs_query(table, n, 1, 0, 7));

    /* A bundle is taken whole or not at all, and closes the transaction. */
    uint8_t records[2 * SILTTONGS_ENTRY] = {0};
    put_record(records, SILTTONGS_PENALTY, 7, 3000);
    put_record(records + SILTTONGS_ENTRY, SILTTONGS_TIME, 1000, 63000);
    show("bundle 1/0, bib 1000",
         silttongs_bundle(table, n, board, m, 1, 0, records, sizeof records));
    put_record(records + SILTTONGS_ENTRY, SILTTONGS_TIME, 8, 63000);
    show("bundle 1/0", silttongs_bundle(table, n, board, m, 1, 0, records, sizeof records));
    show_board("after the bundle");
    show_query("query 0/0", silttongs_query(table, n, 0, 0, 7));
    show("bundle 1/0, a byte short",
         silttongs_bundle(table, n, board, m, 1, 0, records, sizeof records - 1));

    /* A board of another length is refused. */
    show("yield 0, a short board", silttongs_yield(table, n, board, m - 1, 0));

    /* Boxes 2 to 63 are sent off; then the number that was handed in longest ago is used again. */
    show("yield 0", silttongs_yield(table, n, board, m, 0));
    for (int box = 2; box < 64; box++) silttongs_fork(table, n, 0);
    show("fork box 0, the 64th time", silttongs_fork(table, n, 0));
    show("fork box 0, 64 are out", silttongs_fork(table, n, 0));
    show("join 0 with 40", silttongs_join(table, n, board, m, 0, 40));
    show("fork box 0", silttongs_fork(table, n, 0));
    return 0;
}

/* A club day: single-main, with two boxes that are synced with the main box now and then, and one
 * that is sent off later. From the repository's folder:
 *
 *     bash tools/build
 *     cc -Iinclude examples/c/club.c target/staticlib/libexports.a -o target/club
 *     target/club
 */
#include <inttypes.h>
#include <stdint.h>
#include <stdio.h>

#include "silttongs.h"

static uint8_t table[SILTTONGS_BYTES];
static uint8_t board[SILTTONGS_BOARD];
static const size_t n = sizeof table, m = sizeof board;

/* Prints a step and its answer, and gives the value. */
static uint8_t show(const char *step, uint64_t answer) {
    printf("%-22s code %2u  value %" PRIu32 "\n", step, (unsigned)silttongs_code(answer),
           silttongs_value(answer));
    return (uint8_t)silttongs_value(answer);
}

/* One entry of a tablet, in a transaction of its own. */
static void enter(const char *step, uint8_t tablet, uint8_t box, uint8_t kind, uint32_t v) {
    show(step, silttongs_update(table, n, tablet, box, kind, 7, v));
    silttongs_yield(table, n, board, m, tablet);
}

/* How bib 7 stands on a box. */
static void look(const char *step, uint8_t tablet, uint8_t box) {
    show(step, silttongs_query(table, n, tablet, box, 7));
    silttongs_yield(table, n, board, m, tablet);
}

int main(void) {
    show("fresh, single-main", silttongs_fresh(table, n, board, m, 1));
    uint8_t start = show("fork box 0", silttongs_fork(table, n, 0));
    uint8_t finish = show("fork box 0", silttongs_fork(table, n, 0));

    /* Boxes come from box 0 and go back to it alone. */
    show("fork box 1", silttongs_fork(table, n, start));
    show("join 2 with 1", silttongs_join(table, n, board, m, finish, start));

    /* A box that is synced has all that box 0 got before, and then its own. It goes on under the
     * number that the sync answers. */
    enter("finish: Time 61000", 1, finish, SILTTONGS_TIME, 61000);
    enter("start: Penalty 5000", 0, start, SILTTONGS_PENALTY, 5000);
    look("start: bib 7", 0, start);
    finish = show("sync the finish", silttongs_sync(table, n, board, m, finish));
    start = show("sync the start", silttongs_sync(table, n, board, m, start));
    look("start: bib 7", 0, start);
    look("finish: bib 7", 1, finish);

    /* A box in use is not synced, and stays as it is. */
    show("update, not yielded", silttongs_update(table, n, 1, finish, SILTTONGS_PENALTY, 7, 1000));
    show("sync the finish", silttongs_sync(table, n, board, m, finish));
    show("yield", silttongs_yield(table, n, board, m, 1));
    finish = show("sync the finish", silttongs_sync(table, n, board, m, finish));
    look("finish: bib 7", 1, finish);

    /* A box that starts later sees all that was synced before. */
    uint8_t late = show("fork box 0", silttongs_fork(table, n, 0));
    look("late box: bib 7", 2, late);

    /* With 64 boxes out no further one starts, but each can still be synced. */
    while (silttongs_code(silttongs_fork(table, n, 0)) == SILTTONGS_TAKEN) {
    }
    show("fork box 0, 64 out", silttongs_fork(table, n, 0));
    show("sync the finish", silttongs_sync(table, n, board, m, finish));

    /* What the day costs: each box ever started, and the updates. */
    printf("the bill: %" PRIu32 " cents, of a member %" PRIu32 "\n",
           silttongs_value(silttongs_bill(table, n, 0)), silttongs_value(silttongs_bill(table, n, 1)));
    return 0;
}

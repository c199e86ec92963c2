/* Before the protest: the main box is marked and goes on, and the jury comes back to the mark by a
 * fork. Both are listed. From the repository's folder:
 *
 *     bash tools/build
 *     cc -Iinclude examples/c/protest.c target/staticlib/libexports.a -o target/protest
 *     target/protest
 */
#include <inttypes.h>
#include <stdint.h>
#include <stdio.h>
#include <string.h>

#include "silttongs.h"

static uint8_t table[SILTTONGS_BYTES];
static uint8_t board[SILTTONGS_BOARD];
static uint8_t sheet[SILTTONGS_SHEET];
static const size_t n = sizeof table, m = sizeof board;

/* Prints a step and its answer, and gives the value. */
static uint8_t show(const char *step, uint64_t answer) {
    printf("%-28s code %2u  value %" PRIu32 "\n", step, (unsigned)silttongs_code(answer),
           silttongs_value(answer));
    return (uint8_t)silttongs_value(answer);
}

/* One entry of a tablet of bib 7, in a transaction of its own. */
static void enter(const char *step, uint8_t tablet, uint8_t box, uint8_t kind, uint32_t v) {
    show(step, silttongs_update(table, n, tablet, box, kind, 7, v));
    silttongs_yield(table, n, board, m, tablet);
}

/* A name is lent without the byte behind its letters. */
static uint64_t mark(uint8_t box, const char *name) {
    return silttongs_mark(table, n, box, (const uint8_t *)name, strlen(name));
}

static uint64_t drop(const char *name) {
    return silttongs_drop(table, n, (const uint8_t *)name, strlen(name));
}

/* The number of four bytes, the least significant first. */
static uint32_t number(const uint8_t *bytes) {
    return bytes[0] | (uint32_t)bytes[1] << 8 | (uint32_t)bytes[2] << 16 | (uint32_t)bytes[3] << 24;
}

/* Lists a box: kind and v of each update. */
static void list(const char *step, uint8_t box) {
    static const char *const kinds[] = {"Time", "Earliest", "Penalty", "Strike"};
    uint8_t count = show(step, silttongs_list(table, n, box, sheet, sizeof sheet));
    for (const uint8_t *e = sheet; count > 0; count--, e += SILTTONGS_ENTRY)
        printf("    %s %" PRIu32 "\n", kinds[e[0] - 1], number(e + 4));
}

int main(void) {
    show("fresh", silttongs_fresh(table, n, board, m, 0));
    enter("finish: Time 61000", 0, 0, SILTTONGS_TIME, 61000);
    uint8_t jury = show("mark box 0, JURY", mark(0, "JURY"));
    enter("jury: Penalty 5000", 1, 0, SILTTONGS_PENALTY, 5000);

    /* A marked box is listed and forked, and nothing else: it stays as it is. */
    enter("update of the mark", 1, jury, SILTTONGS_STRIKE, 0);
    show("query of the mark", silttongs_query(table, n, 1, jury, 7));
    show("join 0 with the mark", silttongs_join(table, n, board, m, 0, jury));
    list("list of the mark", jury);

    /* A name is four letters A to Z, and borne once. */
    show("mark box 0, JURY", mark(0, "JURY"));
    show("mark box 0, Noon", mark(0, "Noon"));
    show("drop NOON", drop("NOON"));

    /* The protest is upheld: the jury comes back by a fork. Box 0 goes on as it was. */
    uint8_t back = show("fork the mark", silttongs_fork(table, n, jury));
    enter("came back: Penalty 1000", 2, back, SILTTONGS_PENALTY, 1000);
    list("list of box 0", 0);
    list("list of what came back", back);

    /* Box 0 never takes it over, so its own list is the result. A box that comes later from the same
     * mark does take it over. */
    show("join 0 with what came back", silttongs_join(table, n, board, m, 0, back));
    uint8_t later = show("fork the mark", silttongs_fork(table, n, jury));
    show("join with what came back", silttongs_join(table, n, board, m, later, back));
    list("list of the later box", later);

    /* A dropped mark gives 4, as a box that was handed in; its name is free again. */
    show("drop JURY", drop("JURY"));
    show("fork the mark", silttongs_fork(table, n, jury));
    show("mark the later box, JURY", mark(later, "JURY"));

    /* A single-main day has no marks. */
    show("fresh, single-main", silttongs_fresh(table, n, board, m, 1));
    show("mark box 0, JURY", mark(0, "JURY"));
    return 0;
}

/* Four courses, one log: four tables share a card of 8,192 updates. Course 1 runs into it, and course 2
 * still takes its 1,024th update. From the repository's folder:
 *
 *     bash tools/build
 *     cc -Iinclude examples/c/federation.c target/staticlib/libexports.a -o target/federation
 *     target/federation
 */
#include <inttypes.h>
#include <stdint.h>
#include <stdio.h>

#include "silttongs.h"

static uint8_t table[SILTTONGS_COURSES][SILTTONGS_BYTES];
static uint8_t board[SILTTONGS_COURSES][SILTTONGS_BOARD];
static uint8_t records[SILTTONGS_BUNDLE][SILTTONGS_ENTRY];

/* All four tables, as every call takes them; and the board of a course. */
#define N SILTTONGS_BYTES
#define TABLES table[0], N, table[1], N, table[2], N, table[3], N
#define BOARD(course) board[course], SILTTONGS_BOARD

static void show(const char *step, uint8_t course, uint64_t answer) {
    printf("course %u  %-26s code %2u  value %" PRIu32 "\n", course, step,
           (unsigned)silttongs_code(answer), silttongs_value(answer));
}

static uint64_t fresh(uint8_t course) {
    return silttongs_course_fresh(TABLES, course, BOARD(course), 0);
}

/* One update of bib 7. */
static uint64_t update(uint8_t course) {
    return silttongs_course_update(TABLES, course, 0, 0, SILTTONGS_TIME, 7, 61000);
}

/* A bundle of so many, by another tablet. */
static uint64_t bundle(uint8_t course, size_t count) {
    return silttongs_course_bundle(TABLES, course, BOARD(course), 1, 0, records[0],
                                   count * SILTTONGS_ENTRY);
}

/* So many updates, 64 at a time; the answer of the last bundle. */
static uint64_t take(uint8_t course, size_t count) {
    uint64_t answer = 0;
    for (; count > SILTTONGS_BUNDLE; count -= SILTTONGS_BUNDLE)
        answer = bundle(course, SILTTONGS_BUNDLE);
    return count > 0 ? bundle(course, count) : answer;
}

/* How many updates each course has taken. */
static void totals(void) {
    printf("taken:");
    for (uint8_t course = 0; course < SILTTONGS_COURSES; course++)
        printf(" %u", (unsigned)silttongs_total(silttongs_course_fill(TABLES, course, 0)));
    printf("\n");
}

/* Until all four are tables, every other call is refused; so is a fifth course. */
static void begin(void) {
    show("fresh", 0, fresh(0));
    show("update", 0, update(0));
    for (uint8_t course = 1; course < SILTTONGS_COURSES; course++)
        show("fresh", course, fresh(course));
    show("update", 4, update(4));
}

/* A byte of course 3 is damaged, and a cell out of its range: no call is taken until its fresh. */
static void damage(void) {
    table[3][39808] = 255;
    show("query", 2, silttongs_course_query(TABLES, 2, 0, 0, 7));
    show("fresh", 3, fresh(3));
    show("query", 2, silttongs_course_query(TABLES, 2, 0, 0, 7));
}

int main(void) {
    for (size_t i = 0; i < SILTTONGS_BUNDLE; i++) {
        records[i][0] = SILTTONGS_TIME;
        records[i][2] = 7;
        records[i][4] = (uint8_t)(1 + i);
    }
    begin();

    /* The log of course 0 is full, and with course 1 so is the card: each of the others has its 1,024. */
    show("4,096 updates", 0, take(0, 4096));
    show("2,047 updates", 1, take(1, 2047));
    show("bundle of 2", 1, bundle(1, 2));
    show("bundle of 1", 1, bundle(1, 1));
    show("update", 0, update(0));
    show("update", 1, update(1));
    totals();

    /* Course 2 has 1,024 assured, and no more. */
    show("1,023 updates", 2, take(2, 1023));
    show("the 1,024th", 2, update(2));
    show("yield", 2, silttongs_course_yield(TABLES, 2, BOARD(2), 0));
    show("one more", 2, update(2));

    /* A course made fresh gives its updates back; its board is cleared, the others stay. */
    show("fresh", 0, fresh(0));
    show("one more", 2, update(2));
    show("yield", 2, silttongs_course_yield(TABLES, 2, BOARD(2), 0));
    totals();
    for (uint8_t course = 0; course < SILTTONGS_COURSES; course++)
        printf("board %u: bib 7 has %" PRIu32 "\n", course, silttongs_board_value(board[course], 7));

    damage();
    return 0;
}

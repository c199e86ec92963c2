/* The revision table for timing boxes: its calls, for C and C++.
 *
 * Link target/staticlib/libexports.a, which `tools/build` writes for x86-64 Linux.
 *
 * A table is a buffer of SILTTONGS_BYTES bytes that the caller lends for each call; nothing else
 * is kept. `table` points to `length` bytes that no one else reads or writes during the call, and
 * is not null; so do `board`, `sheet`, `records`, `name` and `order`, to bytes apart from the table's
 * and from each other's. Every content and every number is answered: what is proved of the calls has
 * no precondition besides.
 *
 * A board is a second buffer, of SILTTONGS_BOARD bytes, that shows how every bib stands at box 0, by
 * closed transactions only, so that it is read without a query. For each bib from 0 on it has five
 * bytes: 1 if the bib is struck and else 0, then its value, the least significant byte first, 0 if it
 * is struck. silttongs_fresh clears it. silttongs_yield, silttongs_bundle, silttongs_join and
 * silttongs_sync apply what they bring to box 0 to the entries of its bibs, and no other byte of it is
 * changed; no other call takes it. So a board that silttongs_fresh cleared and that is lent to every
 * call that takes one is right at every moment. A board that was not lent to one of them is out of date
 * from then on, and no call tells. Every content is answered: where an update is brought, the entry
 * found is struck if its first byte is 1, and has its value if it is any other.
 *
 * Each call hands back its answer in one number: silttongs_code is 0 if the call was taken, else
 * says why it was refused; silttongs_value is the value named below, 0 in a refusal. A query's and a
 * preview's have the bib's state besides, silttongs_state, and a preview's has silttongs_gain. A
 * refusal changes no byte. The checks run in ascending order of their codes, but where said below.
 *
 * Nothing is allocated. A call needs up to 96 KiB of stack.
 *
 * The calls whose names begin with silttongs_course_ are for four tables on one card: see below.
 *
 * A box is a revision of the table, a tablet is a client. Boxes are 0 to 63, tablets 0 to 15,
 * bibs 0 to 999, and a day takes 4,096 updates. 64 boxes may be out at a time, marked ones among them,
 * and any number be sent off and handed in: a box number means the latest box that bore it.
 */
#ifndef SILTTONGS_H
#define SILTTONGS_H

#include <stddef.h>
#include <stdint.h>

#ifdef __cplusplus
extern "C" {
#endif

/* The length of a table. */
#define SILTTONGS_BYTES 65536

/* The length of a board, and of a bib's entry on it. */
#define SILTTONGS_BOARD 5000
#define SILTTONGS_BOARD_ENTRY 5

/* The length of an entry of a listing, and of a sheet that every listing fits. A record of a bundle is
 * as long as an entry. */
#define SILTTONGS_ENTRY 12
#define SILTTONGS_SHEET 49152

/* How many records a bundle has at most. */
#define SILTTONGS_BUNDLE 64

/* The length of a mark's name. */
#define SILTTONGS_NAME 4

/* How many courses a federation day has, the updates that the card of all four holds, and those that
 * each course has assured. */
#define SILTTONGS_COURSES 4
#define SILTTONGS_CARD 8192
#define SILTTONGS_ASSURED 1024

/* Why a call was refused. */
enum {
    SILTTONGS_TAKEN = 0,          /* it was not */
    SILTTONGS_NO_TABLE = 1,       /* wrong length, or a cell is out of its range; course above 3 */
    SILTTONGS_STRANGE_TABLET = 2, /* tablet above 15 */
    SILTTONGS_NEVER_SENT = 3,     /* box number not yet given out */
    SILTTONGS_HANDED_IN = 4,      /* the latest box of that number was handed in, or dropped */
    SILTTONGS_BAD_ENTRY = 5,      /* bib above 999, or update kind not 1 to 4 */
    SILTTONGS_OTHER_BOX_OPEN = 6, /* the tablet's open transaction is on another box */
    SILTTONGS_IN_USE = 7,         /* the box is busy; for update, query, bundle with another tablet */
    SILTTONGS_NOT_CAUGHT_UP = 8,  /* the box has not seen the tablet's last event */
    SILTTONGS_LOG_FULL = 9,       /* 4,096 updates taken */
    SILTTONGS_NO_BOX_LEFT = 10,   /* 64 boxes are out */
    SILTTONGS_NOT_JOINABLE = 11,  /* box 0, the joiner itself, its fork unseen, or its start seen */
    SILTTONGS_SHEET_SHORT = 12,   /* the listing needs more bytes */
    SILTTONGS_WRONG_BUNDLE = 14,  /* no record, more than 64, or bytes not a multiple of 12 */
    SILTTONGS_OFF_THE_LINE = 15,  /* single-main day: a mark; or not box 0 is forked, or joined into */
    SILTTONGS_MARKED_BOX = 16,    /* the box is marked */
    SILTTONGS_BAD_NAME = 17,      /* for a mark: not four letters A to Z, or in use */
    SILTTONGS_NO_SUCH_MARK = 18,  /* for a drop: no mark that is out has the name */
    SILTTONGS_WRONG_BOARD = 19,   /* a board of another length than 5,000 bytes */
    SILTTONGS_SHARED_LOG_FULL = 20, /* on four courses: with one update more the card would hold too many */
    SILTTONGS_BAD_LIST = 21       /* for a verify: length or offset under 8, or they do not fit the count */
};

/* The kinds of update, and what each does to a bib. */
enum {
    SILTTONGS_TIME = 1,     /* the value becomes v; lifts a strike, with v = 0 too */
    SILTTONGS_EARLIEST = 2, /* the smaller of value and v, of those not 0; leaves a struck bib so */
    SILTTONGS_PENALTY = 3,  /* v is added, modulo 2 to the 32nd; not on value 0 or a struck bib */
    SILTTONGS_STRIKE = 4    /* the bib is struck; v is not looked at */
};

/* The states of a bib, as a query or a preview tells them. */
enum {
    SILTTONGS_NEITHER = 0, /* not struck, and its value is 0; also in a refusal */
    SILTTONGS_TIMED = 1,   /* not struck, and its value is not 0 */
    SILTTONGS_STRUCK = 2   /* struck; the value told is 0 */
};

/* The code of an answer. */
static inline uint8_t silttongs_code(uint64_t answer) { return (uint8_t)(answer >> 32); }

/* The value of an answer. */
static inline uint32_t silttongs_value(uint64_t answer) { return (uint32_t)answer; }

/* The state of a query's or a preview's answer; SILTTONGS_NEITHER for all other calls. */
static inline uint8_t silttongs_state(uint64_t answer) { return (uint8_t)(answer >> 40); }

/* The gain of a preview's answer; 0 for all other calls. */
static inline uint16_t silttongs_gain(uint64_t answer) { return (uint16_t)(answer >> 48); }

/* The two numbers of a fill's answer: the box's own updates, and those of the whole table. */
static inline uint16_t silttongs_own(uint64_t answer) { return (uint16_t)answer; }
static inline uint16_t silttongs_total(uint64_t answer) { return (uint16_t)(answer >> 16); }

/* How a bib from 0 to 999 stands on a board: its state, and its value, 0 if it is struck. */
static inline uint32_t silttongs_board_value(const uint8_t *board, uint16_t bib) {
    const uint8_t *entry = board + SILTTONGS_BOARD_ENTRY * (size_t)bib;
    if (entry[0] == 1) return 0;
    return entry[1] | (uint32_t)entry[2] << 8 | (uint32_t)entry[3] << 16 | (uint32_t)entry[4] << 24;
}
static inline uint8_t silttongs_board_state(const uint8_t *board, uint16_t bib) {
    if (board[SILTTONGS_BOARD_ENTRY * (size_t)bib] == 1) return SILTTONGS_STRUCK;
    return silttongs_board_value(board, bib) == 0 ? SILTTONGS_NEITHER : SILTTONGS_TIMED;
}

/* Starts a new day, whatever the bytes were: box 0 alone, every bib 0 and not struck. The board is
 * cleared, whatever it was. Codes 1, for the length only, and 19. Value: 0.
 *
 * single_main is 0 for an ordinary day. Any other byte makes it a single-main day: boxes come from
 * box 0 and go back to it alone, and SILTTONGS_OFF_THE_LINE refuses all else. The choice is kept in
 * the table until the next fresh that is taken. */
uint64_t silttongs_fresh(uint8_t *table, size_t length, uint8_t *board, size_t board_length,
                         uint8_t single_main);

/* Enters an update of a bib on a box, in the tablet's transaction there, which it opens if need
 * be. Codes 1 to 4, 16, 5 to 9, in this order. Value: how many updates the day took before it, its
 * number. */
uint64_t silttongs_update(uint8_t *table, size_t length, uint8_t tablet, uint8_t box, uint8_t kind,
                          uint16_t bib, uint32_t v);

/* Looks up a bib on a box, in the tablet's transaction there, which it opens if need be. It writes
 * to the table: a query is an event. Codes 1 to 4, 16, 5 to 8, in this order (of 5, the bib only).
 * State: whether the bib is struck, timed or neither, as the updates visible on the box leave it.
 * Value: its value in thousandths of a second; 0 if it is struck or has no time. */
uint64_t silttongs_query(uint8_t *table, size_t length, uint8_t tablet, uint8_t box, uint16_t bib);

/* Closes the tablet's transaction, if it has one. If that is on box 0, its updates are brought to the
 * board. Codes 1, 19, 2, in this order. Value: 0. */
uint64_t silttongs_yield(uint8_t *table, size_t length, uint8_t *board, size_t board_length,
                         uint8_t tablet);

/* Sends a new box off from a box, marked or not. Codes 1, 3, 4, 15, 7, 10, in this order; 15 for
 * another box than 0 on a single-main day. Value: the new box's number, the next that was never used;
 * once all were, the number handed in or dropped longest ago. */
uint64_t silttongs_fork(uint8_t *table, size_t length, uint8_t box);

/* Hands a box in: the joiner takes over the joinee's updates, behind its own. If the joiner is box 0,
 * they are brought to the board. Codes 1, 19, 3, 4, 15, 16, 7, 11, in this order; 15 for another joiner
 * than box 0 on a single-main day, 16 if either box is marked. Value: how many updates the joiner
 * gained.
 *
 * However many those are, the table differs from its former bytes at no more than 256 places. */
uint64_t silttongs_join(uint8_t *table, size_t length, uint8_t *board, size_t board_length,
                        uint8_t joiner, uint8_t joinee);

/* Hands a box in to box 0 and sends a new one off from there, on any day: as silttongs_join into box 0
 * and then silttongs_fork of box 0, but both or neither. Codes 1, 19, 3, 4, 16, 7, 11, as for that join.
 * Value: the new box's number.
 *
 * The old number is handed in before the new one is taken. So while numbers are left that were never
 * used it takes the next of them, and with 64 boxes out it answers the number that it was given: go on
 * with the value, not with `box`. The table differs from its former bytes at no more than 512 places. */
uint64_t silttongs_sync(uint8_t *table, size_t length, uint8_t *board, size_t board_length,
                        uint8_t box);

/* Marks a box, marked or not: a new box is sent off from it as by silttongs_fork, and bears the name
 * of four letters A to Z that is lent. It can be listed, filled, forked and marked, but not written,
 * queried or joined, in either role, so that it stays as it is. It is out, and counts among the 64.
 * Codes 1, 3, 4, 15, 7, 10, 17, in this order; 15 for every box on a single-main day. Value: the new
 * box's number, as for silttongs_fork.
 *
 * To come back to what was marked is to fork the mark: nothing is rewound, and all other boxes go on.
 * A box that was forked from a mark can never be taken over by box 0, since nobody joins into a marked
 * box: that join gives 11. Only boxes that come later from the same mark can take it over. So the list
 * of the box that came back is the result, not that of box 0. */
uint64_t silttongs_mark(uint8_t *table, size_t length, uint8_t box, const uint8_t *name,
                        size_t name_length);

/* Drops the mark of a name. Its number is free as if it were handed in, in the one order of joins,
 * syncs and drops: it gives 4 until it is used again. The name is free too. Boxes that were forked from
 * the mark stay. Codes 1, 18; 18 also for what is no name. Value: 0. */
uint64_t silttongs_drop(uint8_t *table, size_t length, const uint8_t *name, size_t name_length);

/* Writes the updates visible on a box to the sheet, in the order in which they apply, whatever
 * their numbers. Codes 1, 3, 4, 7, 12. Value: their count n.
 *
 * An entry has 12 bytes: kind (1), tablet (1), bib (2), v (4) and the update's number (4), each
 * with its least significant byte first. Bytes of the sheet from 12 n on stay. The table is only
 * read: a list is no event. */
uint64_t silttongs_list(const uint8_t *table, size_t length, uint8_t box, uint8_t *sheet,
                        size_t sheet_length);

/* Tells how full a box is, busy or not. Codes 1, 3, 4. In place of a value it has two numbers, both
 * 0 in a refusal: silttongs_own, the updates taken on the box and on boxes joined into it, directly
 * or through others, but not those it inherited at its start; and silttongs_total, the updates taken
 * by the whole table.
 *
 * From fresh on, through the calls alone, the own updates of all boxes out come to the total. The
 * table is only read: a fill is no event. */
uint64_t silttongs_fill(const uint8_t *table, size_t length, uint8_t box);

/* Enters 1 to 64 updates on a box and closes the tablet's transaction there, which they open if need
 * be: as silttongs_update one by one and then silttongs_yield, but all or none. On box 0 the whole
 * transaction is brought to the board, with what was entered singly before. Codes 1, 14, 19, then that
 * of the earliest update that would be refused, 2 to 9 or 16. Value: the first update's number.
 *
 * A record has 12 bytes, laid out as an entry of a listing; its tablet and number are not looked at. */
uint64_t silttongs_bundle(uint8_t *table, size_t length, uint8_t *board, size_t board_length,
                          uint8_t tablet, uint8_t box, const uint8_t *records,
                          size_t records_length);

/* Tells what a join would bring: the state and value of a bib at the joiner after it, and
 * silttongs_gain, how many updates the joiner would gain. Codes 1, 3, 4, 15, 16, 7, 11 as for the join,
 * and then 5, for the bib. In a refusal the state is SILTTONGS_NEITHER, value and gain are 0.
 *
 * The table is only read: a preview is no event. */
uint64_t silttongs_preview(const uint8_t *table, size_t length, uint8_t joiner, uint8_t joinee,
                           uint16_t bib);

/* Checks an order of the day's updates that other software made. Codes 1, 21. Value: 1 if it has every
 * update taken today exactly once and no other number, and every box that is out, marked or not, has
 * its listed updates standing in it in the listed order, those of open transactions too; else 0.
 *
 * The order is a file: a header of a count and an offset, 4 bytes each, then update numbers of 2 bytes,
 * all least significant byte first; bytes between header and numbers are not looked at. The table is
 * only read. */
uint64_t silttongs_verify(const uint8_t *table, size_t length, const uint8_t *order,
                          size_t order_length);

/* Tells what the day costs until now, in cents: 350 for each box ever started, box 0 included, and 45
 * for each started hundred of updates; a member has 15 percent off that sum, the discount rounded down;
 * 2,000 at least. Any byte but 0 is a member's. Code 1. Value: the bill.
 *
 * A number that is used again counts again; a mark does not count, but a fork of it does, and so does a
 * sync. The count of boxes stops at 65,535. No further call of the day lowers a bill; fresh begins anew.
 * The table is only read. */
uint64_t silttongs_bill(const uint8_t *table, size_t length, uint8_t member);

/* Four courses, one log: a federation day runs four tables, and the card for all four holds
 * SILTTONGS_CARD updates. Each table still takes 4,096 and has SILTTONGS_ASSURED of them assured.
 *
 * Each call above has one for a course: it is lent all four tables, of courses 0 to 3, then the number of
 * its course, then what the call on that table takes, the board first. None of table0 to table3 may be
 * null, whichever course is named, and all lent buffers lie apart from one another: the four tables,
 * and the board, sheet, records, name or order. No byte of the other three tables is changed. A call
 * answers and writes as the call on the course's table does (so a join changes at most 256 places of it,
 * a sync 512), but for two codes:
 *
 * SILTTONGS_NO_TABLE, if the number is above 3, or any of the four buffers has a wrong length or a cell
 * out of its range. silttongs_course_fresh looks at the number and at the length of its own table alone.
 * Until all four are tables, every other call meets 1.
 *
 * SILTTONGS_SHARED_LOG_FULL, checked after 9, for an update, and for each update of a bundle in turn: if
 * with it the sum over the four tables of the larger of SILTTONGS_ASSURED and the updates taken would be
 * above SILTTONGS_CARD. To make a course fresh gives its updates back.
 *
 * Once all four were made fresh, and nothing but these calls writes in them, a call that would leave its
 * course with no more than SILTTONGS_ASSURED updates, if it were taken, is never turned away on account
 * of the others.
 *
 * Each course has its own board, lent to its own calls alone. */
uint64_t silttongs_course_fresh(uint8_t *table0, size_t length0, uint8_t *table1, size_t length1,
                                uint8_t *table2, size_t length2, uint8_t *table3, size_t length3,
                                uint8_t course, uint8_t *board, size_t board_length,
                                uint8_t single_main);
uint64_t silttongs_course_update(uint8_t *table0, size_t length0, uint8_t *table1, size_t length1,
                                 uint8_t *table2, size_t length2, uint8_t *table3, size_t length3,
                                 uint8_t course, uint8_t tablet, uint8_t box, uint8_t kind,
                                 uint16_t bib, uint32_t v);
uint64_t silttongs_course_query(uint8_t *table0, size_t length0, uint8_t *table1, size_t length1,
                                uint8_t *table2, size_t length2, uint8_t *table3, size_t length3,
                                uint8_t course, uint8_t tablet, uint8_t box, uint16_t bib);
uint64_t silttongs_course_yield(uint8_t *table0, size_t length0, uint8_t *table1, size_t length1,
                                uint8_t *table2, size_t length2, uint8_t *table3, size_t length3,
                                uint8_t course, uint8_t *board, size_t board_length,
                                uint8_t tablet);
uint64_t silttongs_course_fork(uint8_t *table0, size_t length0, uint8_t *table1, size_t length1,
                               uint8_t *table2, size_t length2, uint8_t *table3, size_t length3,
                               uint8_t course, uint8_t box);
uint64_t silttongs_course_join(uint8_t *table0, size_t length0, uint8_t *table1, size_t length1,
                               uint8_t *table2, size_t length2, uint8_t *table3, size_t length3,
                               uint8_t course, uint8_t *board, size_t board_length, uint8_t joiner,
                               uint8_t joinee);
uint64_t silttongs_course_sync(uint8_t *table0, size_t length0, uint8_t *table1, size_t length1,
                               uint8_t *table2, size_t length2, uint8_t *table3, size_t length3,
                               uint8_t course, uint8_t *board, size_t board_length, uint8_t box);
uint64_t silttongs_course_mark(uint8_t *table0, size_t length0, uint8_t *table1, size_t length1,
                               uint8_t *table2, size_t length2, uint8_t *table3, size_t length3,
                               uint8_t course, uint8_t box, const uint8_t *name,
                               size_t name_length);
uint64_t silttongs_course_drop(uint8_t *table0, size_t length0, uint8_t *table1, size_t length1,
                               uint8_t *table2, size_t length2, uint8_t *table3, size_t length3,
                               uint8_t course, const uint8_t *name, size_t name_length);
uint64_t silttongs_course_list(const uint8_t *table0, size_t length0, const uint8_t *table1,
                               size_t length1, const uint8_t *table2, size_t length2,
                               const uint8_t *table3, size_t length3, uint8_t course, uint8_t box,
                               uint8_t *sheet, size_t sheet_length);
uint64_t silttongs_course_fill(const uint8_t *table0, size_t length0, const uint8_t *table1,
                               size_t length1, const uint8_t *table2, size_t length2,
                               const uint8_t *table3, size_t length3, uint8_t course, uint8_t box);
uint64_t silttongs_course_bundle(uint8_t *table0, size_t length0, uint8_t *table1, size_t length1,
                                 uint8_t *table2, size_t length2, uint8_t *table3, size_t length3,
                                 uint8_t course, uint8_t *board, size_t board_length,
                                 uint8_t tablet, uint8_t box, const uint8_t *records,
                                 size_t records_length);
uint64_t silttongs_course_preview(const uint8_t *table0, size_t length0, const uint8_t *table1,
                                  size_t length1, const uint8_t *table2, size_t length2,
                                  const uint8_t *table3, size_t length3, uint8_t course,
                                  uint8_t joiner, uint8_t joinee, uint16_t bib);
uint64_t silttongs_course_verify(const uint8_t *table0, size_t length0, const uint8_t *table1,
                                 size_t length1, const uint8_t *table2, size_t length2,
                                 const uint8_t *table3, size_t length3, uint8_t course,
                                 const uint8_t *order, size_t order_length);
uint64_t silttongs_course_bill(const uint8_t *table0, size_t length0, const uint8_t *table1,
                               size_t length1, const uint8_t *table2, size_t length2,
                               const uint8_t *table3, size_t length3, uint8_t course,
                               uint8_t member);

#ifdef __cplusplus
}
#endif

#endif

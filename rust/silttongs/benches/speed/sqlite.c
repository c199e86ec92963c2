// The same days in SQLite, in memory: what a club would pick instead. It reads cases from standard input and writes a line for
// each: nanoseconds of the fastest sample, and the value of the last call. The benchmark compiles and runs it where SQLite is
// installed; nothing else needs it.
//
// A box is its rows: those that it sees, in listed order, indexed by bib. A fork copies the rows of the box that is sent from,
// a join those that are the joinee's own. Only what the days need is here: no call is refused.
#include <sqlite3.h>
#include <stdint.h>
#include <stdio.h>
#include <stdlib.h>
#include <string.h>
#include <time.h>

enum { BOXES = 64, UPDATES = 4096, LINE = 12, CALLS = 100000, SAMPLES = 200 };

struct call {
    char name;
    int args[5];
};

// How many rows each box has, which of them are its own, how many boxes and updates there are.
struct state {
    int rows[BOXES], own[BOXES], boxes, taken;
};

static sqlite3 *db;
static sqlite3_stmt *begin, *commit, *insert, *copy, *read_bib, *read_box, *undo;
static struct state state;
static int is_open;
static unsigned char sheet[LINE * UPDATES];

static void must(int right) {
    if (!right) {
        fprintf(stderr, "sqlite: %s\n", sqlite3_errmsg(db));
        exit(1);
    }
}

static sqlite3_stmt *prepared(const char *text) {
    sqlite3_stmt *statement;
    must(sqlite3_prepare_v3(db, text, -1, SQLITE_PREPARE_PERSISTENT, &statement, NULL) == SQLITE_OK);
    return statement;
}

static void bind(sqlite3_stmt *statement, int count, const int *values) {
    for (int i = 0; i < count; i++) {
        must(sqlite3_bind_int64(statement, i + 1, values[i]) == SQLITE_OK);
    }
}

static void run(sqlite3_stmt *statement) {
    must(sqlite3_step(statement) == SQLITE_DONE);
    sqlite3_reset(statement);
}

static void open_database(void) {
    must(sqlite3_open(":memory:", &db) == SQLITE_OK);
    must(sqlite3_exec(db,
        "CREATE TABLE entry (box INTEGER, place INTEGER, number INTEGER, tablet INTEGER, kind INTEGER, bib INTEGER, v INTEGER,"
        " PRIMARY KEY (box, place)) WITHOUT ROWID;"
        "CREATE INDEX by_bib ON entry (box, bib, place, kind, v)", NULL, NULL, NULL) == SQLITE_OK);
    begin = prepared("BEGIN");
    commit = prepared("COMMIT");
    insert = prepared("INSERT INTO entry VALUES (?1, ?2, ?3, ?4, ?5, ?6, ?7)");
    copy = prepared("INSERT INTO entry SELECT ?1, place + ?2, number, tablet, kind, bib, v FROM entry WHERE box = ?3 AND place >= ?4");
    read_bib = prepared("SELECT kind, v FROM entry WHERE box = ?1 AND bib = ?2 ORDER BY place DESC");
    read_box = prepared("SELECT kind, tablet, bib, v, number FROM entry WHERE box = ?1 ORDER BY place");
    undo = prepared("DELETE FROM entry WHERE box = ?1 AND place >= ?2");
}

static void close_database(void) {
    sqlite3_stmt *all[] = {begin, commit, insert, copy, read_bib, read_box, undo};
    for (size_t i = 0; i < sizeof all / sizeof *all; i++) {
        sqlite3_finalize(all[i]);
    }
    sqlite3_close(db);
}

static void begin_if_closed(void) {
    if (!is_open) {
        run(begin);
        is_open = 1;
    }
}

static void commit_if_open(void) {
    if (is_open) {
        run(commit);
        is_open = 0;
    }
}

static long update(const int *args) {
    int box = args[1];
    begin_if_closed();
    bind(insert, 7, (int[]){box, state.rows[box], state.taken, args[0], args[2], args[3], args[4]});
    run(insert);
    state.rows[box]++;
    return state.taken++;
}

// The rows of one box from a place on, behind those of another.
static int copied(int to, int from, int place) {
    int count = state.rows[from] - place;
    begin_if_closed();
    bind(copy, 4, (int[]){to, state.rows[to] - place, from, place});
    run(copy);
    commit_if_open();
    state.rows[to] += count;
    return count;
}

static long fork_box(int box) {
    int child = state.boxes++;
    copied(child, box, 0);
    state.own[child] = state.rows[child];
    return child;
}

static long join(int joiner, int joinee) {
    return copied(joiner, joinee, state.own[joinee]);
}

static uint32_t earliest(uint32_t value, uint32_t v) {
    return value == 0 || (v != 0 && v < value) ? v : value;
}

// The bib's rows from the last one back to a Time or a Strike, then their effects in listed order; a struck bib's value is 0.
static long query(int box, int bib) {
    static int kinds[UPDATES];
    static uint32_t values[UPDATES];
    int count = 0, is_struck = 0;
    uint32_t value = 0;
    bind(read_bib, 2, (int[]){box, bib});
    while (sqlite3_step(read_bib) == SQLITE_ROW) {
        kinds[count] = sqlite3_column_int(read_bib, 0);
        values[count] = (uint32_t)sqlite3_column_int64(read_bib, 1);
        count++;
        if (kinds[count - 1] == 1 || kinds[count - 1] == 4) {
            break;
        }
    }
    sqlite3_reset(read_bib);
    while (count-- > 0) {
        switch (kinds[count]) {
        case 1: is_struck = 0; value = values[count]; break;
        case 2: value = is_struck ? 0 : earliest(value, values[count]); break;
        case 3: value = value == 0 ? 0 : value + values[count]; break;
        default: is_struck = 1; value = 0;
        }
    }
    return value;
}

static void put(unsigned char *to, int width, uint32_t value) {
    for (int i = 0; i < width; i++) {
        to[i] = (unsigned char)(value >> (8 * i));
    }
}

static long list(int box) {
    int count = 0;
    bind(read_box, 1, &box);
    for (; sqlite3_step(read_box) == SQLITE_ROW; count++) {
        unsigned char *line = sheet + LINE * count;
        line[0] = (unsigned char)sqlite3_column_int(read_box, 0);
        line[1] = (unsigned char)sqlite3_column_int(read_box, 1);
        put(line + 2, 2, (uint32_t)sqlite3_column_int(read_box, 2));
        put(line + 4, 4, (uint32_t)sqlite3_column_int64(read_box, 3));
        put(line + 8, 4, (uint32_t)sqlite3_column_int(read_box, 4));
    }
    sqlite3_reset(read_box);
    return count;
}

static long make(const struct call *call) {
    const int *args = call->args;
    switch (call->name) {
    case 'u': return update(args);
    case 'y': commit_if_open(); return 0;
    case 'f': return fork_box(args[0]);
    case 'j': return join(args[0], args[1]);
    case 'q': return query(args[0], args[1]);
    default: return list(args[0]);
    }
}

// What the calls of a sample added is taken away again.
static void restore(const struct state *before) {
    commit_if_open();
    for (int box = 0; box < BOXES; box++) {
        if (state.rows[box] != before->rows[box]) {
            bind(undo, 2, (int[]){box, before->rows[box]});
            run(undo);
        }
    }
    state = *before;
}

static long nanoseconds(void) {
    struct timespec now;
    clock_gettime(CLOCK_MONOTONIC, &now);
    return now.tv_sec * 1000000000L + now.tv_nsec;
}

// The fastest of some samples; fewer where a sample is long.
static void timed(const char *name, const struct call *calls, int count) {
    struct state before = state;
    long fastest = -1, value = 0, spent = 0;
    for (int sample = 0; sample < SAMPLES && (sample < 3 || spent < 1000000000L); sample++) {
        long start = nanoseconds();
        for (int i = 0; i < count; i++) {
            value = make(&calls[i]);
        }
        long took = nanoseconds() - start;
        fastest = fastest < 0 || took < fastest ? took : fastest;
        spent += took;
        restore(&before);
    }
    printf("%ld\t%ld\t%s", fastest, value, name);
}

// A case is a line "case NAME", the calls that make its day, a line "timed", the calls that are timed, and a line "end".
int main(void) {
    static struct call calls[CALLS];
    static char line[256], name[256];
    int count = 0;
    while (fgets(line, sizeof line, stdin)) {
        struct call *call = &calls[count];
        if (!strncmp(line, "case ", 5)) {
            strcpy(name, line + 5);
            memset(&state, 0, sizeof state);
            state.boxes = 1;
            open_database();
        } else if (!strcmp(line, "timed\n")) {
            for (int i = 0; i < count; i++) {
                make(&calls[i]);
            }
            commit_if_open();
            count = 0;
        } else if (!strcmp(line, "end\n")) {
            timed(name, calls, count);
            close_database();
            count = 0;
        } else {
            int *args = call->args;
            must(sscanf(line, "%c %d %d %d %d %d", &call->name, args, args + 1, args + 2, args + 3, args + 4) > 1);
            must(++count < CALLS);
        }
    }
    return 0;
}

/* Four duties and three drivers: a roster is indexed, asked about, walked over, changed, and refused; then four duties with the edge rule, and the calendar of their driver; then nothing at all. */
#include <stdio.h>
#include <string.h>
#include "turepawon.h"

enum { ROWS = 4, VALUES = 3 };

static uint8_t marks[TUREPAWON_MARKS(ROWS, VALUES)];
static size_t keys[TUREPAWON_KEYS(ROWS, VALUES)];
static int64_t ranks[TUREPAWON_RANKS(ROWS)];
static size_t records[TUREPAWON_RECORDS(ROWS)];
static size_t members[TUREPAWON_MEMBERS(ROWS)];

#define TABLES ROWS, VALUES, 0, marks, sizeof marks, keys, TUREPAWON_KEYS(ROWS, VALUES), ranks, TUREPAWON_RANKS(ROWS)
#define INDEX records, TUREPAWON_RECORDS(ROWS), members, TUREPAWON_MEMBERS(ROWS)
#define CURSOR &start, &length, &variant, &longest

/* All legal, all may be empty, duties 0 and 1 required, every driver a candidate, a driver's key is the driver. */
static void fill_tables(void) {
    memset(marks + TUREPAWON_REQUIRED_START(ROWS, VALUES), 1, 2);
    memset(marks + TUREPAWON_MAY_BE_EMPTY_START(ROWS, VALUES), 1, ROWS);
    memset(marks + TUREPAWON_CANDIDATE_COUNTS_START(ROWS, VALUES), VALUES, ROWS);
    memset(marks + TUREPAWON_LEGAL_START(ROWS, VALUES), 1, ROWS * VALUES);
    memset(marks + TUREPAWON_CAPACITY_GIVEN_START(ROWS, VALUES), 1, ROWS * VALUES);
    for (size_t row = 0; row < ROWS; row++)
        for (size_t value = 0; value < VALUES; value++) {
            marks[TUREPAWON_CANDIDATES_START(ROWS, VALUES) + TUREPAWON_CANDIDATE(row, value)] = (uint8_t)value;
            keys[TUREPAWON_CAPACITY_START(ROWS, VALUES) + TUREPAWON_CELL(VALUES, row, value)] = value;
        }
}

static void ask(const char *what, const size_t *rows, const size_t *values, size_t length) {
    uint8_t answer = 0;
    uint8_t code = turepawon_assignment_feasible_after_edits(TABLES, INDEX, rows, length, values, length, &answer);
    if (code != 0)
        printf("%s: refused (%d)\n", what, code);
    else
        printf("%s: %s\n", what, answer ? "yes" : "no");
}

static void print_list(const size_t *rows, const size_t *values, size_t count) {
    for (size_t i = 0; i < count; i++)
        if (values[i] == TUREPAWON_EMPTY)
            printf("%s %zu is left empty", i == 0 ? "" : ",", rows[i]);
        else
            printf("%s %zu gets %zu", i == 0 ? "" : ",", rows[i], values[i]);
    printf("\n");
}

/* Who has to move so that duty 2 gets driver 0, and how many asks that takes at most. */
static void search(size_t depth) {
    size_t rows[ROWS], values[ROWS], asks = 0, most = 0, count = 0;
    uint8_t found = 0;
    uint8_t code = turepawon_assignment_move_for_entity_value(TABLES, INDEX, 2, 0, depth, 1, TUREPAWON_ALL, TUREPAWON_NO_BUDGET, rows, ROWS, values, ROWS, &found, &asks, &count);
    printf("ceiling: %d,", turepawon_ask_ceiling(VALUES, depth, &most));
    printf(" %zu\nduty 2 gets driver 0: %d, %zu asks,", most, code, asks);
    if (found)
        print_list(rows, values, count);
    else
        printf(" no move\n");
}

/* Every move that shifts drivers round a window of the order. */
static void walk(void) {
    size_t order[ROWS], rows[ROWS], values[ROWS], count = 0, edits = 0, start, length, variant, longest;
    uint8_t moved = 1;
    printf("order: %d,", turepawon_assigned_entities_by_position(TABLES, INDEX, 0, order, ROWS, &count));
    for (size_t i = 0; i < count; i++)
        printf(" %zu", order[i]);
    printf("\ncursor: %d\n", turepawon_new_cursor(count, ROWS, CURSOR));
    while (moved) {
        turepawon_next_augmenting_rematch(TABLES, INDEX, order, count, CURSOR, rows, ROWS, values, ROWS, &moved, &edits);
        printf(moved ? "move:" : "done");
        print_list(rows, values, moved ? edits : 0);
    }
    variant = 3;
    uint8_t code = turepawon_next_augmenting_rematch(TABLES, INDEX, order, count, CURSOR, rows, ROWS, values, ROWS, &moved, &edits);
    printf("a cursor that does not fit: refused (%d)\n", code);
}

/* The same moves in one call, and in two where there is room for one of them. */
static void walk_at_once(size_t room) {
    const size_t order[3] = {0, 1, 3};
    size_t rows[2 * ROWS], values[2 * ROWS], lengths[2 * ROWS], moves = 0, edits = 0, start, length, variant, longest;
    uint8_t code = turepawon_new_cursor(3, ROWS, CURSOR), done = 0;
    while (code == 0 && !done) {
        code = turepawon_walk_augmenting_rematch(TABLES, INDEX, order, 3, CURSOR, rows, room, values, room, lengths, room, &done, &moves, &edits);
        printf("a walk with room for %zu edits: %d, %zu moves, %zu edits, %s\n", room, code, moves, edits, done ? "done" : "not done");
        for (size_t i = 0, at = 0; code == 0 && i < moves; at += lengths[i], i++)
            print_list(rows + at, values + at, lengths[i]);
    }
}

/* A list as records, and a cursor that is lent whole: its first move, then a refusal that leaves it. */
static void lend(void) {
    const turepawon_edit swap[2] = {{0, 1}, {1, 0}};
    const size_t order[3] = {0, 1, 3};
    size_t rows[ROWS], values[ROWS], edits = 0;
    turepawon_cursor cursor = {0, 3, 0, 3};
    uint8_t answer = 0, moved = 0;
    uint8_t code = turepawon_assignment_feasible_after_edit_records(swap, 2, TABLES, INDEX, &answer);
    printf("the change of places as records: %d, %s\n", code, answer ? "yes" : "no");
    code = turepawon_next_augmenting_rematch_at(&cursor, TABLES, INDEX, order, 3, rows, ROWS, values, ROWS, &moved, &edits);
    printf("a lent cursor: %d, at %zu %zu %zu %zu,", code, cursor.start, cursor.length, cursor.variant, cursor.longest);
    print_list(rows, values, moved ? edits : 0);
    code = turepawon_next_augmenting_rematch_at(&cursor, TABLES, INDEX, order, 2, rows, ROWS, values, ROWS, &moved, &edits);
    printf("over too short an order: refused (%d), at %zu %zu %zu %zu\n", code, cursor.start, cursor.length, cursor.variant, cursor.longest);
}

static void eject(size_t attempt, size_t limit) {
    const size_t window[2] = {0, 3};
    size_t rows[2], values[2], count = 0;
    uint8_t listed = 0;
    uint8_t code = turepawon_ejection_reinsert_edits(TABLES, INDEX, window, 2, attempt, limit, rows, 2, values, 2, &listed, &count);
    printf("duties 0 and 3 lifted out: %d,", code);
    if (listed)
        print_list(rows, values, count);
    else
        printf(" none\n");
}

/* Every move that lifts a window of the order out and puts it back otherwise; then an attempt that no window has. */
static void walk_ejections(void) {
    const size_t order[3] = {0, 1, 3};
    size_t rows[ROWS], values[ROWS], edits = 0, start, length, variant, longest;
    uint8_t code = turepawon_new_ejection_cursor(3, ROWS, CURSOR), moved = 1;
    printf("an ejection cursor: %d, at %zu %zu %zu %zu\n", code, start, length, variant, longest);
    while (code == 0 && moved) {
        code = turepawon_next_ejection_reinsert(TABLES, INDEX, order, 3, CURSOR, TUREPAWON_ALL, rows, ROWS, values, ROWS, &moved, &edits);
        printf("a step of it: %d, at %zu %zu %zu %zu,%s", code, start, length, variant, longest, moved ? "" : " done");
        print_list(rows, values, moved ? edits : 0);
    }
    variant = length + 1;
    code = turepawon_next_ejection_reinsert(TABLES, INDEX, order, 3, CURSOR, TUREPAWON_ALL, rows, ROWS, values, ROWS, &moved, &edits);
    printf("an attempt past the length: refused (%d)\n", code);
}

/* Applies a list, and says what each duty holds then and whether the index has changed, in any cell. */
static void apply(const char *what, const size_t *rows, const size_t *values, size_t length) {
    size_t old_records[TUREPAWON_RECORDS(ROWS)], old_members[TUREPAWON_MEMBERS(ROWS)];
    const size_t *held = records + TUREPAWON_HELD_START(ROWS);
    uint8_t answer = 0;
    memcpy(old_records, records, sizeof records);
    memcpy(old_members, members, sizeof members);
    uint8_t code = turepawon_assignment_apply_edits(TABLES, INDEX, rows, length, values, length, &answer);
    printf("%s: %d, %s, held", what, code, answer ? "yes" : "no");
    for (size_t row = 0; row < ROWS; row++)
        if (held[row] == TUREPAWON_EMPTY)
            printf(" none");
        else
            printf(" %zu", held[row]);
    int same = memcmp(old_records, records, sizeof records) == 0 && memcmp(old_members, members, sizeof members) == 0;
    printf(", the index %s\n", same ? "as it was" : "changed");
}

/* A list that passes, and two that do not: a driver who has a duty already, a duty that there is not. Then the old values are put back, by one list. */
static void apply_lists(void) {
    const size_t rows[2] = {0, 1}, swapped[2] = {1, 0}, back[2] = {0, 1}, third[1] = {2}, none_such[1] = {ROWS}, driver[1] = {0};
    apply("drivers 0 and 1 change places, applied", rows, swapped, 2);
    apply("duty 2 gets driver 0 as well", third, driver, 1);
    apply("duty 4 gets driver 0", none_such, driver, 1);
    apply("drivers 0 and 1 change back", rows, back, 2);
}

static void say_sound(const char *what) {
    uint8_t answer = 0, code = turepawon_roster_sound(TABLES, INDEX, &answer);
    printf("%s: %d, %s\n", what, code, answer ? "sound" : "not sound");
}

/* A driver is no longer passed for a vehicle: the roster is not sound then, though nobody moved, until the duty is with somebody else or empty. */
static void withdraw(void) {
    const size_t duty[1] = {3}, driver[1] = {2}, none[1] = {TUREPAWON_EMPTY};
    uint8_t *legal = marks + TUREPAWON_LEGAL_START(ROWS, VALUES) + TUREPAWON_CELL(VALUES, 3, 2);
    say_sound("as it stands");
    *legal = 0;
    say_sound("driver 2 withdrawn from duty 3");
    apply("duty 3 is left empty", duty, none, 1);
    say_sound("without a driver there");
    apply("duty 3 gets driver 2", duty, driver, 1);
    *legal = 1;
    apply("duty 3 gets driver 2, who is passed again", duty, driver, 1);
}

/* A roster is loaded in which three duties share a key: no list that is applied could lead there. What the engine says of it; then an index that is none. */
static void crowd(void) {
    const size_t rows[2] = {1, 3}, values[2] = {0, 0}, swap_rows[2] = {0, 1}, swapped[2] = {1, 0};
    size_t out_keys[ROWS], out_rows[ROWS], count = 0;
    uint8_t sound = 0;
    printf("a crowd is loaded: %d\n", turepawon_refresh_rows(TABLES, INDEX, rows, 2, values, 2));
    printf("conflicts: %d,", turepawon_capacity_conflicts(TABLES, INDEX, out_keys, ROWS, out_rows, ROWS, &count));
    for (size_t i = 0; i < count; i++)
        printf(" key %zu row %zu", out_keys[i], out_rows[i]);
    printf("\nsound: %d,", turepawon_roster_sound(TABLES, INDEX, &sound));
    printf(" %s\n", sound ? "yes" : "no");
    members[TUREPAWON_BY_CAPACITY_START(ROWS)] += 1;
    ask("with a false index", swap_rows, swapped, 2);
}

/* Four duties of one driver on three days, the edge rule in force, positions and orders given: the tables that the board above does without. */
enum { DAYS_ROWS = 4, DAYS_VALUES = 1 };

static uint8_t days_marks[TUREPAWON_MARKS(DAYS_ROWS, DAYS_VALUES)];
static size_t days_keys[TUREPAWON_KEYS(DAYS_ROWS, DAYS_VALUES)];
static int64_t days_ranks[TUREPAWON_RANKS(DAYS_ROWS)];
static size_t days_records[TUREPAWON_RECORDS(DAYS_ROWS)];
static size_t days_members[TUREPAWON_MEMBERS(DAYS_ROWS)];

#define DAYS_TABLES DAYS_ROWS, DAYS_VALUES, 1, days_marks, sizeof days_marks, days_keys, TUREPAWON_KEYS(DAYS_ROWS, DAYS_VALUES), days_ranks, TUREPAWON_RANKS(DAYS_ROWS)
#define DAYS_INDEX days_records, TUREPAWON_RECORDS(DAYS_ROWS), days_members, TUREPAWON_MEMBERS(DAYS_ROWS)

/* Duties 0 and 1 on day 7, duty 2 on day 6, which duty 0 may follow and duty 1 not, duty 3 on day 9. Duty 1 uses up key 30. Duties 0 and 1 have positions, duties 2 and 3 orders, each the later one the smaller: so they come as 3, 2, 1, 0. */
static void fill_days(void) {
    const size_t days[DAYS_ROWS] = {7, 7, 6, 9};
    memset(days_marks + TUREPAWON_LEGAL_START(DAYS_ROWS, DAYS_VALUES), 1, DAYS_ROWS * DAYS_VALUES);
    memset(days_marks + TUREPAWON_SEQUENCE_GIVEN_START(DAYS_ROWS, DAYS_VALUES), 1, DAYS_ROWS * DAYS_VALUES);
    memset(days_marks + TUREPAWON_POSITION_GIVEN_START(DAYS_ROWS, DAYS_VALUES), 1, 2);
    memset(days_marks + TUREPAWON_ORDER_GIVEN_START(DAYS_ROWS, DAYS_VALUES) + 2, 1, 2);
    days_marks[TUREPAWON_EDGES_START(DAYS_ROWS, DAYS_VALUES) + TUREPAWON_EDGE(DAYS_ROWS, 2, 0)] = 1;
    days_marks[TUREPAWON_CAPACITY_GIVEN_START(DAYS_ROWS, DAYS_VALUES) + TUREPAWON_CELL(DAYS_VALUES, 1, 0)] = 1;
    days_keys[TUREPAWON_CAPACITY_START(DAYS_ROWS, DAYS_VALUES) + TUREPAWON_CELL(DAYS_VALUES, 1, 0)] = 30;
    for (size_t row = 0; row < DAYS_ROWS; row++)
        days_keys[TUREPAWON_SEQUENCE_START(DAYS_ROWS, DAYS_VALUES) + TUREPAWON_CELL(DAYS_VALUES, row, 0)] = days[row];
    days_ranks[TUREPAWON_POSITION_START(DAYS_ROWS) + 1] = -5;
    days_ranks[TUREPAWON_ORDER_START(DAYS_ROWS) + 3] = -5;
}

static void print_cells(const char *what, const size_t *cells, size_t count) {
    printf("%s:", what);
    for (size_t i = 0; i < count; i++)
        printf(" %zu", cells[i]);
    printf("\n");
}

/* Which of the first two duties may follow the third, the order, and the index by its columns. */
static void days(void) {
    const size_t roster[DAYS_ROWS] = {TUREPAWON_EMPTY, TUREPAWON_EMPTY, 0, 0}, rows[2] = {0, 1}, values[2] = {0, 0};
    size_t order[DAYS_ROWS], count = 0;
    uint8_t answer = 0;
    fill_days();
    printf("days: %d\n", turepawon_build_index(DAYS_TABLES, roster, DAYS_ROWS, DAYS_INDEX));
    for (size_t i = 0; i < 2; i++) {
        turepawon_assignment_feasible_after_edits(DAYS_TABLES, DAYS_INDEX, rows + i, 1, values, 1, &answer);
        printf("duty %zu on the day after: %s\n", i, answer ? "yes" : "no");
    }
    /* loaded, since duty 1 cannot be applied: every column of the index is to have something to show */
    turepawon_refresh_rows(DAYS_TABLES, DAYS_INDEX, rows, 2, values, 2);
    turepawon_assigned_entities_by_position(DAYS_TABLES, DAYS_INDEX, 0, order, DAYS_ROWS, &count);
    print_cells("order", order, count);
    print_cells("held", days_records + TUREPAWON_HELD_START(DAYS_ROWS), DAYS_ROWS);
    print_cells("capacity given", days_records + TUREPAWON_HELD_CAPACITY_GIVEN_START(DAYS_ROWS), DAYS_ROWS);
    print_cells("capacity", days_records + TUREPAWON_HELD_CAPACITY_START(DAYS_ROWS), DAYS_ROWS);
    print_cells("sequence given", days_records + TUREPAWON_HELD_SEQUENCE_GIVEN_START(DAYS_ROWS), DAYS_ROWS);
    print_cells("sequence", days_records + TUREPAWON_HELD_SEQUENCE_START(DAYS_ROWS), DAYS_ROWS);
    print_cells("by capacity", days_members + TUREPAWON_BY_CAPACITY_START(DAYS_ROWS), DAYS_ROWS + 1);
    print_cells("by value", days_members + TUREPAWON_BY_VALUE_START(DAYS_ROWS), DAYS_ROWS + 1);
    print_cells("by sequence", days_members + TUREPAWON_BY_SEQUENCE_START(DAYS_ROWS), DAYS_ROWS + 1);
}

static uint8_t calendar[TUREPAWON_CALENDAR_ROOM];

static uint8_t write_calendar(size_t driver, const char *stamp, size_t room, size_t *written) {
    return turepawon_driver_calendar(DAYS_TABLES, DAYS_INDEX, driver, (const uint8_t *)stamp, strlen(stamp), calendar, room, written);
}

static void read_calendar(const char *what, const uint8_t *bytes, size_t length) {
    size_t rows[TUREPAWON_MOST_ROWS], days[TUREPAWON_MOST_ROWS], count = 0;
    uint8_t code = turepawon_read_calendar(bytes, length, rows, TUREPAWON_MOST_ROWS, days, TUREPAWON_MOST_ROWS, &count);
    printf("%s: %d,", what, code);
    for (size_t i = 0; i < count; i++)
        printf(" duty %zu on day %zu", rows[i], days[i]);
    printf("\n");
}

/* The driver's four duties for a telephone, printed without the CR of each line; read back, with a fold put into the first stamp, and without the last byte. Then an hour that there is not, a driver without a duty, and a byte too little room. */
static void calendars(void) {
    static uint8_t folded[TUREPAWON_CALENDAR_ROOM + 3];
    const size_t fold = 100;
    size_t length = 0, same;
    uint8_t code = write_calendar(0, "20260214T081500Z", sizeof calendar, &length);
    printf("calendar: %d, %zu bytes\n", code, length);
    if (code != 0)
        return;
    for (size_t i = 0; i < length; i++)
        if (calendar[i] != '\r')
            putchar(calendar[i]);
    read_calendar("read back", calendar, length);
    memcpy(folded, calendar, fold);
    memcpy(folded + fold, "\r\n\t", 3);
    memcpy(folded + fold + 3, calendar + fold, length - fold);
    read_calendar("folded", folded, length + 3);
    read_calendar("cut short", calendar, length - 1);
    same = length;
    printf("at hour 24: refused (%d)\n", write_calendar(0, "20260214T240000Z", sizeof calendar, &same));
    printf("a driver without a duty: refused (%d)\n", write_calendar(1, "20260214T081500Z", sizeof calendar, &same));
    printf("a byte too little room: refused (%d)\n", write_calendar(0, "20260214T081500Z", length - 1, &same));
    printf("the length: %s\n", same == length ? "as it was" : "changed");
}

/* A slice of 0 cells may be null: no edits, and then no rows either. Of no rows the index has three counts. */
static void nothing(void) {
    size_t counts[TUREPAWON_MEMBERS(0)];
    uint8_t answer = 0;
    ask("nothing is changed", NULL, NULL, 0);
    uint8_t code = turepawon_build_index(0, 0, 0, NULL, 0, NULL, 0, NULL, 0, NULL, 0, NULL, 0, counts, TUREPAWON_MEMBERS(0));
    printf("no rows: %d,", code);
    code = turepawon_roster_sound(0, 0, 1, NULL, 0, NULL, 0, NULL, 0, NULL, 0, counts, TUREPAWON_MEMBERS(0), &answer);
    printf(" %d, %s\n", code, answer ? "sound" : "not sound");
    code = turepawon_tables_refusal(TUREPAWON_MOST_ROWS + 1, 0, 0, NULL, 0, NULL, 0, NULL, 0);
    printf("too many rows: refused (%d)\n", code == TUREPAWON_REFUSED_SIZE ? code : -1);
}

int main(void) {
    const size_t roster[ROWS] = {0, 1, TUREPAWON_EMPTY, 2};
    const size_t rows[2] = {0, 1}, swapped[2] = {1, 0}, none[1] = {TUREPAWON_EMPTY};

    if (turepawon_abi() != TUREPAWON_ABI) {
        fprintf(stderr, "the library has layout %u, and the header layout %d\n", turepawon_abi(), TUREPAWON_ABI);
        return 1;
    }
    fill_tables();
    printf("build: %d\n", turepawon_build_index(TABLES, roster, ROWS, INDEX));
    ask("drivers 0 and 1 change places", rows, swapped, 2);
    ask("duty 0 is left empty", rows, none, 1);
    search(1);
    search(0);
    walk();
    walk_at_once(2 * ROWS);
    walk_at_once(ROWS);
    walk_at_once(ROWS - 1);
    lend();
    eject(2, TUREPAWON_ALL);
    eject(0, 0);
    walk_ejections();
    apply_lists();
    withdraw();
    days();
    calendars();
    nothing();
    crowd();
    return 0;
}

/* The roster engine for C and C++: link target/staticlib/libengine.a, which `tools/static-library` writes (x86-64 Linux). bindings/c has an example.

   Answers. Every function that answers a code takes any input: the code is 0, or the number of a refusal (TUREPAWON_REFUSED_..), and a refusal changes nothing: outputs, index and single numbers are as they were.

   Slices. A slice is a pointer and a number of cells: live, and aligned for its type. A slice of 0 cells is never read or written: its pointer may be anything, null as well. A pointer to a single number, a cursor or an answer is never null.
   Slices and single numbers that are written overlap nothing else that is handed over; those that are only read may overlap each other. A size_t has 64 bits.
   Flags are bytes: 0 is no, all else yes. "Empty", in rosters and lists, is TUREPAWON_EMPTY.

   Tables. Those of one cell type stand one behind the other in one slice, at the starts named below. Only a slice's whole length is checked: a table that is cut short beside one that is longer by as much is not refused.

   Threads. The library has no state, allocates nothing, and calls nothing but memcpy and memset. Any number of threads may call at once, and share what they only read; what a call writes belongs to it until it returns.

   Stack. Measured on boards of 128 rows and 64 values: under 18,000 bytes for a search at depth 8, 10,000 for a walk over windows or a list of edit records, 8,000 for a step, 5,000 for all else (docs/BENCHMARKS.md, "Stack"). 64 KiB are ample. */
#ifndef TUREPAWON_H
#define TUREPAWON_H

#include <stddef.h>
#include <stdint.h>

#ifdef __cplusplus
extern "C" {
#endif

#ifdef __cplusplus
static_assert(sizeof(size_t) == 8, "the engine's numbers have 64 bits");
#else
_Static_assert(sizeof(size_t) == 8, "the engine's numbers have 64 bits");
#endif

/* What this header is. */
#define TUREPAWON_VERSION_MAJOR 0
#define TUREPAWON_VERSION_MINOR 6
#define TUREPAWON_VERSION_PATCH 0

/* The layout that this header describes: slices, structs and what the functions take. It is raised when any of them changes; functions that are added leave it: 0.6.0, with those of calendars, has the layout of 0.1.0. */
#define TUREPAWON_ABI 1

/* The layout of the library that is linked: see once, before any other call, that it is TUREPAWON_ABI. Libraries from before 0.2.0 have no such function. */
uint32_t turepawon_abi(void);

/* The limits. */
#define TUREPAWON_MOST_ROWS 128
#define TUREPAWON_MOST_VALUES 64
#define TUREPAWON_MOST_CANDIDATES 64
#define TUREPAWON_MOST_DEPTH 8
#define TUREPAWON_MOST_IN_ORDER 128 /* rows in an order or in a window */
#define TUREPAWON_LAST_DAY 2932896  /* of a calendar: 9999-12-31, counted from 1970-01-01 */

/* Bytes of a calendar's stamp; bytes that are room enough for any calendar: 63 and 15 around an event for each of 128 rows, of 125 bytes and the row's digits twice. */
#define TUREPAWON_STAMP_LENGTH 16
#define TUREPAWON_CALENDAR_ROOM 16626

#define TUREPAWON_EMPTY SIZE_MAX     /* no value, in a roster or a list */
#define TUREPAWON_ALL SIZE_MAX       /* as a limit: every candidate is offered */
#define TUREPAWON_NO_BUDGET SIZE_MAX /* as a budget: a search is never stopped */

/* The refusals. Where several apply, the first in this order is answered; a refresh list is read after FALSE_INDEX, entry by entry, and a list that is tested or applied fails where that would be refused. Later versions may add numbers. */
#define TUREPAWON_REFUSED_SIZE 1               /* over a limit, but for candidates and depth; a slice of another length than stated; two list slices of different lengths */
#define TUREPAWON_REFUSED_CANDIDATES 2         /* a row counts over 64 candidates, or one that is no value; a ceiling for over 64 */
#define TUREPAWON_REFUSED_VALUE_OUT_OF_RANGE 3 /* a held or refreshed value is out of range */
#define TUREPAWON_REFUSED_ROW_OUT_OF_RANGE 4   /* a refreshed row is out of range */
#define TUREPAWON_REFUSED_ROW_NAMED_TWICE 5    /* a row is named twice in one refresh */
#define TUREPAWON_REFUSED_FALSE_INDEX 6        /* the index is not what tables and values give */
#define TUREPAWON_REFUSED_TOO_DEEP 8           /* a depth over 8 */
#define TUREPAWON_REFUSED_BAD_CURSOR 10        /* a cursor that does not fit its order */
#define TUREPAWON_REFUSED_BAD_STAMP 17         /* a stamp that is no UTC date-time */
#define TUREPAWON_REFUSED_NO_DUTY 16           /* a driver who has no row with a day */
#define TUREPAWON_REFUSED_DAY_OUT_OF_RANGE 11  /* one of these days is after TUREPAWON_LAST_DAY */
#define TUREPAWON_REFUSED_BAD_CALENDAR 13      /* bytes that are no calendar as it is written here, folded or not */
#define TUREPAWON_REFUSED_TOO_LITTLE_ROOM 7    /* an output has too little room */
#define TUREPAWON_REFUSED_MALFORMED_INPUT 9    /* the listing program's alone: no function here answers it */

/* Where each table starts in its slice, for r rows (duties) and v values (drivers), and how long the slice is. Constants where r and v are. Each stands right behind the one before it; nothing else in this header, and nothing in a caller's code, needs to know the order.

   marks, bytes: a cell a row; for the candidates TUREPAWON_MOST_CANDIDATES cells a row; then a cell a row and value; edges, a cell a pair of rows */
#define TUREPAWON_REQUIRED_START(r, v) ((size_t)0)
#define TUREPAWON_MAY_BE_EMPTY_START(r, v) (TUREPAWON_REQUIRED_START(r, v) + (size_t)(r))
#define TUREPAWON_POSITION_GIVEN_START(r, v) (TUREPAWON_MAY_BE_EMPTY_START(r, v) + (size_t)(r))
#define TUREPAWON_ORDER_GIVEN_START(r, v) (TUREPAWON_POSITION_GIVEN_START(r, v) + (size_t)(r))
#define TUREPAWON_CANDIDATE_COUNTS_START(r, v) (TUREPAWON_ORDER_GIVEN_START(r, v) + (size_t)(r))
#define TUREPAWON_CANDIDATES_START(r, v) (TUREPAWON_CANDIDATE_COUNTS_START(r, v) + (size_t)(r))
#define TUREPAWON_LEGAL_START(r, v) (TUREPAWON_CANDIDATES_START(r, v) + TUREPAWON_MOST_CANDIDATES * (size_t)(r))
#define TUREPAWON_CAPACITY_GIVEN_START(r, v) (TUREPAWON_LEGAL_START(r, v) + (size_t)(r) * (v))
#define TUREPAWON_SEQUENCE_GIVEN_START(r, v) (TUREPAWON_CAPACITY_GIVEN_START(r, v) + (size_t)(r) * (v))
#define TUREPAWON_EDGES_START(r, v) (TUREPAWON_SEQUENCE_GIVEN_START(r, v) + (size_t)(r) * (v))
#define TUREPAWON_MARKS(r, v) (TUREPAWON_EDGES_START(r, v) + (size_t)(r) * (r))

/* keys: a number a row and value */
#define TUREPAWON_CAPACITY_START(r, v) ((size_t)0)
#define TUREPAWON_SEQUENCE_START(r, v) (TUREPAWON_CAPACITY_START(r, v) + (size_t)(r) * (v))
#define TUREPAWON_KEYS(r, v) (TUREPAWON_SEQUENCE_START(r, v) + (size_t)(r) * (v))

/* ranks: a signed number a row */
#define TUREPAWON_POSITION_START(r) ((size_t)0)
#define TUREPAWON_ORDER_START(r) (TUREPAWON_POSITION_START(r) + (size_t)(r))
#define TUREPAWON_RANKS(r) (TUREPAWON_ORDER_START(r) + (size_t)(r))

/* Which cell of a table, from its start: of a row and a value; of the edge from a row to the one that follows it; of a row's candidate, by its place. A table with a cell a row is read at the row. */
#define TUREPAWON_CELL(v, row, value) ((size_t)(row) * (v) + (value))
#define TUREPAWON_EDGE(r, left, right) ((size_t)(left) * (r) + (right))
#define TUREPAWON_CANDIDATE(row, place) (TUREPAWON_MOST_CANDIDATES * (size_t)(row) + (place))

/* The index. records has five columns of a cell a row: the value held, then the keys that the row has under it, each behind whether it is given */
#define TUREPAWON_HELD_START(r) ((size_t)0)
#define TUREPAWON_HELD_CAPACITY_GIVEN_START(r) (TUREPAWON_HELD_START(r) + (size_t)(r))
#define TUREPAWON_HELD_CAPACITY_START(r) (TUREPAWON_HELD_CAPACITY_GIVEN_START(r) + (size_t)(r))
#define TUREPAWON_HELD_SEQUENCE_GIVEN_START(r) (TUREPAWON_HELD_CAPACITY_START(r) + (size_t)(r))
#define TUREPAWON_HELD_SEQUENCE_START(r) (TUREPAWON_HELD_SEQUENCE_GIVEN_START(r) + (size_t)(r))
#define TUREPAWON_RECORDS(r) (TUREPAWON_HELD_SEQUENCE_START(r) + (size_t)(r))

/* members has three parts, each a count, so many rows in order, and zeros: rows with a capacity key, by that key; rows with a value, by that value; rows with a sequence key, by value and sequence. Ties go by row. */
#define TUREPAWON_BY_CAPACITY_START(r) ((size_t)0)
#define TUREPAWON_BY_VALUE_START(r) (TUREPAWON_BY_CAPACITY_START(r) + (size_t)(r) + 1)
#define TUREPAWON_BY_SEQUENCE_START(r) (TUREPAWON_BY_VALUE_START(r) + (size_t)(r) + 1)
#define TUREPAWON_MEMBERS(r) (TUREPAWON_BY_SEQUENCE_START(r) + (size_t)(r) + 1)

/* The shape and the three slices of tables. Every function that reads tables takes them first, but for the two that are lent a struct, which take that before them. */
#define TUREPAWON_TABLES                                                        \
    size_t rows, size_t values, uint8_t edge_rule,                              \
    const uint8_t *marks, size_t marks_len,                                     \
    const size_t *keys, size_t keys_len,                                        \
    const int64_t *ranks, size_t ranks_len

/* The index, where it is only read. */
#define TUREPAWON_INDEX                                                         \
    const size_t *records, size_t records_len,                                  \
    const size_t *members, size_t members_len

/* An edit list: a row and the value that it gets, in two slices of one length. */
#define TUREPAWON_LIST                                                          \
    const size_t *list_rows, size_t list_rows_len,                              \
    const size_t *list_values, size_t list_values_len

/* Whether the tables are taken at all: 0, 1 or 2. */
uint8_t turepawon_tables_refusal(TUREPAWON_TABLES);

/* Whether tables and index are taken: 0, 1, 2, 3 or 6. */
uint8_t turepawon_admit(TUREPAWON_TABLES, TUREPAWON_INDEX);

/* Writes the index of a roster, one value a row, whatever the two slices held. Refuses 1, 2, 3. */
uint8_t turepawon_build_index(TUREPAWON_TABLES,
    const size_t *roster, size_t roster_len,
    size_t *records, size_t records_len, size_t *members, size_t members_len);

/* For loading a roster: gives every listed row its value and brings the index up to date; asks neither legality nor feasibility. To change a roster that is in use, apply: turepawon_assignment_apply_edits. Refuses 1, 2, 3, 6, then the first bad entry: 4, 5 or 3. */
uint8_t turepawon_refresh_rows(TUREPAWON_TABLES,
    size_t *records, size_t records_len, size_t *members, size_t members_len,
    TUREPAWON_LIST);

/* Whether the list passes the final test: *answer becomes 1 or 0. Refuses 1, 2, 3, 6. */
uint8_t turepawon_assignment_feasible_after_edits(TUREPAWON_TABLES, TUREPAWON_INDEX, TUREPAWON_LIST, uint8_t *answer);

/* An edit as a record: a row, and the value that it gets. */
typedef struct {
    size_t row;
    size_t value;
} turepawon_edit;

/* The same of a list of such records, of any length: the answer is the one to their rows and their values. Refuses 1, 2, 3, 6. */
uint8_t turepawon_assignment_feasible_after_edit_records(const turepawon_edit *edits, size_t edits_len, TUREPAWON_TABLES, TUREPAWON_INDEX, uint8_t *answer);

/* Tests the list and, where it passes, applies it, as one act. *answer becomes what turepawon_assignment_feasible_after_edits answers, 1 or 0. With 1 the index becomes that of the roster after the list, as turepawon_refresh_rows would leave it; with 0 every cell of it is as it was.
   The empty list passes, and changes nothing. Only what the list touches is judged: a roster that was sound is so after a yes, and one that was not need not be. Refuses 1, 2, 3, 6; a listed row or value never gives 3, 4 or 5: such a list simply fails. */
uint8_t turepawon_assignment_apply_edits(TUREPAWON_TABLES,
    size_t *records, size_t records_len, size_t *members, size_t members_len,
    TUREPAWON_LIST, uint8_t *answer);

/* Whether the row may take the value after the list, in which a required row may be empty: *answer becomes 1 or 0. Refuses 1, 2, 3, 6. */
uint8_t turepawon_reinsert_value_allowed(TUREPAWON_TABLES, TUREPAWON_INDEX, TUREPAWON_LIST, size_t row, size_t value, uint8_t *answer);

/* Whether the roster is sound: no key has two holders, under the edge rule every neighbouring pair is allowed, and every value that is held is legal for its row (the flags from TUREPAWON_LEGAL_START on; an empty row holds nothing illegal, though it may not be empty): *answer becomes 1 or 0. Refuses 1, 2, 3, 6. */
uint8_t turepawon_roster_sound(TUREPAWON_TABLES, TUREPAWON_INDEX, uint8_t *answer);

/* Lists the holders of every key that has two or more, one key and one row a holder, in the front of the two outputs; *count becomes their number. Each output has room for all rows. Refuses 1, 2, 3, 6, 7. */
uint8_t turepawon_capacity_conflicts(TUREPAWON_TABLES, TUREPAWON_INDEX,
    size_t *out_keys, size_t out_keys_len, size_t *out_rows, size_t out_rows_len, size_t *count);

/* Looks for a move that gives the row the value, by making the rows in its way take other candidates, to the depth (at most 8). With one, *found becomes 1, *count the number of its edits, and they stand in front of the outputs; without one, *found becomes 0, and *count and the outputs are as they were. *asks becomes the number of asks in both cases.
   The displacement is a flag: whether rows that are not required may be emptied. Only the first limit candidates of a row are offered (TUREPAWON_ALL: all). Each output has room for all rows. Refuses 1, 2, 3, 6, 8, 7.
   Asks over the budget stop the search; TUREPAWON_NO_BUDGET never does. It ends all the same, but with 64 candidates a row at depth 8 only after up to 571,885,666,967,683 asks: at the 1.5 to 15 ns an ask that were measured (docs/BENCHMARKS.md), ten days to three months. turepawon_ask_ceiling tells the most for a depth (at depth 3 the same rows make 532,611): see it first, and give a budget where it is too much. */
uint8_t turepawon_assignment_move_for_entity_value(TUREPAWON_TABLES, TUREPAWON_INDEX,
    size_t row, size_t value, size_t depth, uint8_t displacement, size_t limit, size_t budget,
    size_t *out_rows, size_t out_rows_len, size_t *out_values, size_t out_values_len, uint8_t *found, size_t *asks, size_t *count);

/* Writes the most asks that a search can make at the depth, where no row offers more than so many candidates. Refuses 2 (over 64 candidates), 8. */
uint8_t turepawon_ask_ceiling(size_t candidates, size_t depth, size_t *most);

/* Lists the rows that hold a value, by position, then order, then row, what has none first; rotated to the left by the offset, modulo their number. They stand in front of the output; *count becomes their number. The output has room for all rows. Refuses 1, 2, 3, 6, 7. */
uint8_t turepawon_assigned_entities_by_position(TUREPAWON_TABLES, TUREPAWON_INDEX,
    size_t offset, size_t *out_rows, size_t out_rows_len, size_t *count);

/* A cursor over the windows of an order: where the window starts, its length, the next variant of it, and the length of the longest window. Four numbers, each by its own pointer. There are two kinds, which differ in the shortest window and in the variants:
   a rematch cursor has lengths of 3 or more, and variant 0 shifts by one place, 1 by one less than the length, 2 is behind both;
   an ejection cursor has lengths of 2 or more, and the variant is the attempt reached, at most the length, where all attempts are behind it.
   A number beyond the bounds of the kind that a function takes is refused (10); within them one kind is not told from the other. */
#define TUREPAWON_CURSOR size_t *start, size_t *length, size_t *variant, size_t *longest

/* Writes the rematch cursor that a walk over an order of count rows begins with, for windows of at most size rows. Refuses 1. */
uint8_t turepawon_new_cursor(size_t count, size_t size, TUREPAWON_CURSOR);

/* The next move from a rematch cursor on. With one, *moved becomes 1, *count the number of its edits, they stand in front of the outputs, and the cursor is right behind it. Without one, *moved becomes 0, the cursor is at the end, and *count and the outputs are as they were. The order is any list of rows. Each output has room for all rows. Refuses 1, 2, 3, 6, 10, 7. */
uint8_t turepawon_next_augmenting_rematch(TUREPAWON_TABLES, TUREPAWON_INDEX,
    const size_t *order, size_t order_len, TUREPAWON_CURSOR,
    size_t *out_rows, size_t out_rows_len, size_t *out_values, size_t out_values_len, uint8_t *moved, size_t *count);

/* The moves from a rematch cursor on in one call, validated once: their edits one behind the other in front of the two outputs, the number of edits of each move in front of the third, for as long as a move has room in all three. *moves and *edits become their numbers, and the cursor is right behind the last; *done becomes 0 where a move is left, which has no room: call again from the cursor. Where none is left, *done becomes 1 and the cursor is at the end.
   Each output has room for all rows, so that a call that is not done has written a move. Refuses 1, 2, 3, 6, 10, 7. */
uint8_t turepawon_walk_augmenting_rematch(TUREPAWON_TABLES, TUREPAWON_INDEX,
    const size_t *order, size_t order_len, TUREPAWON_CURSOR,
    size_t *out_rows, size_t out_rows_len, size_t *out_values, size_t out_values_len, size_t *out_lengths, size_t out_lengths_len,
    uint8_t *done, size_t *moves, size_t *edits);

/* The same four numbers as a struct. */
typedef struct {
    size_t start;
    size_t length;
    size_t variant;
    size_t longest;
} turepawon_cursor;

/* The same step of a cursor that is lent whole, and moved on where it stands; a refusal leaves it as it was. Refuses 1, 2, 3, 6, 10, 7. */
uint8_t turepawon_next_augmenting_rematch_at(turepawon_cursor *cursor, TUREPAWON_TABLES, TUREPAWON_INDEX,
    const size_t *order, size_t order_len,
    size_t *out_rows, size_t out_rows_len, size_t *out_values, size_t out_values_len, uint8_t *moved, size_t *count);

/* Lifts the rows of a window out and puts them back. Where each required row finds a value, *listed becomes 1, *count the number of edits that change something, and they stand in front of the outputs; else *listed becomes 0, and *count and the outputs are as they were. The attempt says at which row and at which candidate to begin;
   only the first limit candidates of a row are offered (TUREPAWON_ALL: all). The list need not pass the final test. Each output has room for as many rows as the window has. Refuses 1, 2, 3, 6, 7. */
uint8_t turepawon_ejection_reinsert_edits(TUREPAWON_TABLES, TUREPAWON_INDEX,
    const size_t *window, size_t window_len, size_t attempt, size_t limit,
    size_t *out_rows, size_t out_rows_len, size_t *out_values, size_t out_values_len, uint8_t *listed, size_t *count);

/* Writes the ejection cursor that a walk over an order of count rows begins with, for windows of at most size rows: 0, 2, 0, and the smaller of size and count, but 2 at least. Refuses 1. */
uint8_t turepawon_new_ejection_cursor(size_t count, size_t size, TUREPAWON_CURSOR);

/* The next move from an ejection cursor on. Tried are, from each start, the windows of 2 rows to the longest that the order has there, and each window in as many attempts as it has rows, from 0 on. A try is turepawon_ejection_reinsert_edits of that window, attempt and limit; it gives a move where there is a list, which has an edit and passes the final test. Two tries may give the same list: each is a move.
   With one, *moved becomes 1, *count the number of its edits, they stand in front of the outputs, and the cursor is right behind it: at its window, one attempt on. Without one, *moved becomes 0, the cursor is at the end (order_len, 2, 0, longest), or stays where its start was there already, and *count and the outputs are as they were; a call from there finds none again. A refusal leaves all of them as they were.
   The order is any list of rows. Each output has room for all rows. Refuses 1, 2, 3, 6, 10, 7; 10 where start is over order_len, length under 2 or over longest, variant over length, or longest under 2 or over order_len (over 2, where that is less). */
uint8_t turepawon_next_ejection_reinsert(TUREPAWON_TABLES, TUREPAWON_INDEX,
    const size_t *order, size_t order_len, TUREPAWON_CURSOR, size_t limit,
    size_t *out_rows, size_t out_rows_len, size_t *out_values, size_t out_values_len, uint8_t *moved, size_t *count);

/* Writes a driver's duties as an iCalendar object (RFC 5545), in front of the output; *written becomes the number of its bytes, and no 0 stands behind them. It has an all-day event for each row that holds the value and has a sequence key under it, rows rising; the key is the day, counted from 1970-01-01. Lines end in CR LF, and none is so long that it would fold.
   The stamp says when it was written: TUREPAWON_STAMP_LENGTH bytes, YYYYMMDDTHHMMSSZ, a date and a time in UTC, where a second may be 60. Every event has it. An event's identifier is made of row and day alone: written again, by another stamp or for another driver, it is the same event.
   TUREPAWON_CALENDAR_ROOM bytes suffice for any calendar, and the calendar's own length for this one. Refuses 1, 2, 3, 6, 17, 16, 11, 7; a driver out of range has no duty: 16. */
uint8_t turepawon_driver_calendar(TUREPAWON_TABLES, TUREPAWON_INDEX,
    size_t driver, const uint8_t *stamp, size_t stamp_len, uint8_t *out, size_t out_len, size_t *written);

/* Reads such an object: the row and the day of each duty stand in front of the two outputs, rows rising, and *count becomes their number. The stamp is not given back.
   Before it is read every CR LF with a space or a tab behind it is taken out, with that, wherever it stands. Then it takes what turepawon_driver_calendar can write, on any board, and nothing else: 13 where an octet differs, there is no event, rows do not rise or reach TUREPAWON_MOST_ROWS, a date is none from 1970 to 9999, or two events have two stamps. It may be of any length.
   TUREPAWON_MOST_ROWS cells in each output suffice for any calendar, and as many as it has duties for this one. Refuses 13, 7. */
uint8_t turepawon_read_calendar(const uint8_t *bytes, size_t bytes_len,
    size_t *out_rows, size_t out_rows_len, size_t *out_days, size_t out_days_len, size_t *count);

#ifdef __cplusplus
}
#endif

#endif

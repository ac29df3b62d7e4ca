"""The module against the C example's answers, the header, refusals, wrong types, test and refresh, calendars, and wrong libraries: python3 -m unittest, in this folder."""

import datetime
import doctest
import itertools
import os
import re
import shutil
import subprocess
import sys
import tempfile
import threading
import unittest
from pathlib import Path

import turepawon
from turepawon import Conflict, Cursor, Duty, Edit, EjectionCursor, Index, Refusal, Refused, Search, Tables, Walk
from turepawon import ask_ceiling, new_cursor, new_ejection_cursor, read_calendar, stamp_of

HERE = Path(__file__).resolve().parent
HEADER = (HERE.parents[1] / "include" / "turepawon.h").read_text()


def load_tests(loader, tests, pattern):
    tests.addTests(doctest.DocTestSuite(turepawon))
    return tests


def board():
    """Four rows, three values, all legal, all may be empty, rows 0 and 1 required, every value a candidate, the key is the value."""
    tables = Tables(4, 3)
    for row in range(4):
        tables.set_required(row, row < 2)
        tables.set_may_be_empty(row, True)
        tables.set_candidates(row, range(3))
        for value in range(3):
            tables.set_legal(row, value, True)
            tables.set_capacity(row, value, value)
    return tables


def days():
    """The example's second board: the edge rule, days, positions and orders."""
    tables = Tables(4, 1, edge_rule=True)
    for row, day in enumerate([7, 7, 6, 9]):
        tables.set_legal(row, 0, True)
        tables.set_sequence(row, 0, day)
        tables.set_position(row, [0, -5, None, None][row])
        tables.set_order(row, [None, None, 0, -5][row])
    tables.set_edge(2, 0, True)
    tables.set_capacity(1, 0, 30)
    return tables


def roster_a(tables=None):
    return Index.build(tables or board(), [0, 1, None, 2])


class CExample(unittest.TestCase):
    """What bindings/c/example.c asks, in its order; the lines must be the ones that it writes."""

    def setUp(self):
        self.lines = []

    def say(self, line):
        self.lines.append(line)

    def code(self, act):
        """The code that C sees."""
        try:
            act()
        except Refused as refused:
            return refused.number
        return 0

    def ask(self, index, what, edits):
        try:
            self.say(f"{what}: {'yes' if index.assignment_feasible_after_edits(edits) else 'no'}")
        except Refused as refused:
            self.say(f"{what}: refused ({refused.number})")

    def listed(self, edits):
        said = (f" {e.row} is left empty" if e.value is None else f" {e.row} gets {e.value}" for e in edits)
        return ",".join(said)

    def search(self, index, depth):
        self.say(f"ceiling: 0, {ask_ceiling(3, depth)}")
        search = index.assignment_move_for_entity_value(2, 0, depth, displacement=True)
        found = " no move" if search.found is None else self.listed(search.found)
        self.say(f"duty 2 gets driver 0: 0, {search.asks} asks,{found}")

    def walk(self, index):
        order = index.assigned_entities_by_position()
        self.say("order: 0," + "".join(f" {row}" for row in order))
        cursor = new_cursor(len(order), 4)
        self.say("cursor: 0")
        edits = index.next_augmenting_rematch(order, cursor)
        while edits is not None:
            self.say("move:" + self.listed(edits))
            edits = index.next_augmenting_rematch(order, cursor)
        self.say("done")
        cursor.variant = 3
        self.say(f"a cursor that does not fit: refused ({self.code(lambda: index.next_augmenting_rematch(order, cursor))})")

    def walk_at_once(self, index, room):
        cursor, done = new_cursor(3, 4), False
        while not done:
            try:
                walk, code = index.walk_augmenting_rematch([0, 1, 3], cursor, room), 0
            except Refused as refused:
                walk, code = Walk([], False), refused.number
            edits, done = sum(map(len, walk.moves)), walk.done or code != 0
            self.say(f"a walk with room for {room} edits: {code}, {len(walk.moves)} moves, {edits} edits, {'done' if walk.done else 'not done'}")
            for move in walk.moves:
                self.say(self.listed(move))

    def lend(self, index):
        answer = index.assignment_feasible_after_edit_records([Edit(0, 1), Edit(1, 0)])
        self.say(f"the change of places as records: 0, {'yes' if answer else 'no'}")
        cursor = Cursor(0, 3, 0, 3)
        edits = index.next_augmenting_rematch_at([0, 1, 3], cursor)
        self.say(f"a lent cursor: 0, at {cursor.start} {cursor.length} {cursor.variant} {cursor.longest}," + self.listed(edits))
        code = self.code(lambda: index.next_augmenting_rematch_at([0, 1], cursor))
        at = f"{cursor.start} {cursor.length} {cursor.variant} {cursor.longest}"
        self.say(f"over too short an order: refused ({code}), at {at}")

    def eject(self, index, attempt, limit):
        edits = index.ejection_reinsert_edits([0, 3], attempt, limit)
        self.say("duties 0 and 3 lifted out: 0," + (" none" if edits is None else self.listed(edits)))

    def walk_ejections(self, index):
        def at():
            return f"at {cursor.start} {cursor.length} {cursor.attempt} {cursor.longest}"

        cursor, edits = new_ejection_cursor(3, 4), []
        self.say(f"an ejection cursor: 0, {at()}")
        while edits is not None:
            edits = index.next_ejection_reinsert([0, 1, 3], cursor)
            self.say(f"a step of it: 0, {at()}," + (" done" if edits is None else self.listed(edits)))
        cursor.attempt = cursor.length + 1
        code = self.code(lambda: index.next_ejection_reinsert([0, 1, 3], cursor))
        self.say(f"an attempt past the length: refused ({code})")

    def apply(self, index, what, edits):
        before, answer = index.cells(), index.apply(edits)
        held = "".join(" none" if value is None else f" {value}" for value in index.roster())
        same = index.cells() == before
        self.say(f"{what}: 0, {'yes' if answer else 'no'}, held{held}, the index {'as it was' if same else 'changed'}")

    def apply_lists(self, index):
        self.apply(index, "drivers 0 and 1 change places, applied", [Edit(0, 1), Edit(1, 0)])
        self.apply(index, "duty 2 gets driver 0 as well", [Edit(2, 0)])
        self.apply(index, "duty 4 gets driver 0", [Edit(4, 0)])
        self.apply(index, "drivers 0 and 1 change back", [Edit(0, 0), Edit(1, 1)])

    def say_sound(self, index, what):
        self.say(f"{what}: 0, {'sound' if index.roster_sound() else 'not sound'}")

    def withdraw(self, index):
        self.say_sound(index, "as it stands")
        index.tables.set_legal(3, 2, False)
        self.say_sound(index, "driver 2 withdrawn from duty 3")
        self.apply(index, "duty 3 is left empty", [Edit(3, None)])
        self.say_sound(index, "without a driver there")
        self.apply(index, "duty 3 gets driver 2", [Edit(3, 2)])
        index.tables.set_legal(3, 2, True)
        self.apply(index, "duty 3 gets driver 2, who is passed again", [Edit(3, 2)])

    def the_days(self):
        index = Index.build(days(), [None, None, 0, 0])
        self.say("days: 0")
        for row in range(2):
            answer = index.assignment_feasible_after_edits([Edit(row, 0)])
            self.say(f"duty {row} on the day after: {'yes' if answer else 'no'}")
        # loaded, as there: duty 1 cannot be applied
        index.refresh_rows([Edit(0, 0), Edit(1, 0)])
        self.say("order: " + " ".join(map(str, index.assigned_entities_by_position())))
        records, members = index.cells()
        for column, name in enumerate(["held", "capacity given", "capacity", "sequence given", "sequence"]):
            self.say(f"{name}: " + " ".join(map(str, records[4 * column : 4 * column + 4])))
        for part, name in enumerate(["by capacity", "by value", "by sequence"]):
            self.say(f"{name}: " + " ".join(map(str, members[5 * part : 5 * part + 5])))
        return index

    def read_back(self, what, calendar):
        try:
            said = "0," + "".join(f" duty {duty.row} on day {duty.day}" for duty in read_calendar(calendar))
        except Refused as refused:
            said = f"{refused.number},"
        self.say(f"{what}: {said}")

    def calendars(self, index):
        stamp = "20260214T081500Z"
        calendar = index.driver_calendar(0, stamp)
        self.say(f"calendar: 0, {len(calendar)} bytes")
        for line in calendar.decode().split("\r\n")[:-1]:
            self.say(line)
        self.read_back("read back", calendar)
        self.read_back("folded", calendar[:100] + b"\r\n\t" + calendar[100:])
        self.read_back("cut short", calendar[:-1])
        self.say(f"at hour 24: refused ({self.code(lambda: index.driver_calendar(0, '20260214T240000Z'))})")
        self.say(f"a driver without a duty: refused ({self.code(lambda: index.driver_calendar(1, stamp))})")
        room, written = len(calendar) - 1, turepawon._NUMBER(len(calendar))
        given = (*index._lent(), 0, *turepawon._text(stamp.encode()), (turepawon._BYTE * room)(), room, written)
        self.say(f"a byte too little room: refused ({self.code(lambda: turepawon._call('driver_calendar', *given))})")
        self.say(f"the length: {'as it was' if written.value == len(calendar) else 'changed'}")

    def nothing(self, index):
        self.ask(index, "nothing is changed", [])
        none = Index.build(Tables(0, 0, edge_rule=True), [])
        self.say(f"no rows: 0, 0, {'sound' if none.roster_sound() else 'not sound'}")
        self.say(f"too many rows: refused ({self.code(lambda: Tables(129, 0))})")

    def crowd(self, index):
        index.refresh_rows([Edit(1, 0), Edit(3, 0)])
        self.say("a crowd is loaded: 0")
        conflicts = index.capacity_conflicts()
        self.say("conflicts: 0," + "".join(f" key {c.key} row {row}" for c in conflicts for row in c.rows))
        self.say(f"sound: 0, {'yes' if index.roster_sound() else 'no'}")
        index._members[0] += 1
        self.ask(index, "with a false index", [Edit(0, 1), Edit(1, 0)])

    def test_the_lines_of_the_example(self):
        index = roster_a()
        self.say("build: 0")
        self.ask(index, "drivers 0 and 1 change places", [Edit(0, 1), Edit(1, 0)])
        self.ask(index, "duty 0 is left empty", [Edit(0, None)])
        for depth in (1, 0):
            self.search(index, depth)
        self.walk(index)
        for room in (8, 4, 3):
            self.walk_at_once(index, room)
        self.lend(index)
        self.eject(index, 2, None)
        self.eject(index, 0, 0)
        self.walk_ejections(index)
        self.apply_lists(index)
        self.withdraw(index)
        self.calendars(self.the_days())
        self.nothing(index)
        self.crowd(index)
        self.assertEqual(self.lines, (HERE.parent / "c" / "expected.txt").read_text().splitlines())


class TheHeader(unittest.TestCase):
    def test_every_export_with_as_many_arguments(self):
        text = re.sub(r"/\*.*?\*/", "", HEADER, flags=re.S).replace("\\\n", " ")
        macros = dict(re.findall(r"#define (TUREPAWON_(?:TABLES|INDEX|LIST|CURSOR)) +(.*)", text))
        self.assertEqual(len(macros), 4)
        declared = dict(re.findall(r"^uint\w+ turepawon_(\w+)\((.*?)\);", text, flags=re.S | re.M))
        for name, takes in declared.items():
            for macro, stands_for in macros.items():
                takes = re.sub(rf"\b{macro}\b", lambda _: stands_for, takes)
            declared[name] = 0 if takes == "void" else takes.count(",") + 1
        self.assertEqual(declared, {name: len(takes) for name, takes in turepawon._EXPORTS.items()})

    def test_every_number(self):
        defined = dict(re.findall(r"#define TUREPAWON_(\w+) (\d+)\b", HEADER))
        version = ".".join(defined.pop(f"VERSION_{part}") for part in ("MAJOR", "MINOR", "PATCH"))
        self.assertEqual(version, turepawon.VERSION)
        refusals = {name.replace("REFUSED_", ""): int(defined.pop(name)) for name in list(defined) if name.startswith("REFUSED_")}
        self.assertEqual(refusals, {refusal.name: refusal.value for refusal in Refusal})
        self.assertEqual({name: getattr(turepawon, name) for name in defined}, {name: int(number) for name, number in defined.items()})
        self.assertEqual(turepawon.abi(), turepawon.ABI)
        limits = {"MOST_ROWS", "MOST_VALUES", "MOST_CANDIDATES", "MOST_DEPTH", "MOST_IN_ORDER", "LAST_DAY", "STAMP_LENGTH", "CALENDAR_ROOM"}
        self.assertEqual(set(defined), limits | {"ABI"})


class Refusing(unittest.TestCase):
    def refused(self, refusal, act, *given, **named):
        with self.assertRaises(Refused) as caught:
            act(*given, **named)
        self.assertEqual(caught.exception.number, refusal)
        self.assertIn(f"refused ({refusal.value}): {refusal.name}", str(caught.exception))


class Refusals(Refusing):
    def test_each_by_its_number(self):
        index, before = roster_a(), roster_a().cells()
        self.refused(Refusal.SIZE, Tables, 129, 1)
        self.refused(Refusal.SIZE, Tables, 1, 65)
        self.refused(Refusal.SIZE, Index.build, board(), [0])
        self.refused(Refusal.SIZE, new_cursor, 129, 3)
        self.refused(Refusal.SIZE, new_ejection_cursor, 129, 3)
        self.refused(Refusal.SIZE, index.ejection_reinsert_edits, [0] * 129)
        self.refused(Refusal.CANDIDATES, board().set_candidates, 0, [3])
        self.refused(Refusal.CANDIDATES, board().set_candidates, 0, [0] * 65)
        self.refused(Refusal.CANDIDATES, ask_ceiling, 65, 0)
        self.refused(Refusal.VALUE_OUT_OF_RANGE, Index.build, board(), [3, None, None, None])
        self.refused(Refusal.VALUE_OUT_OF_RANGE, Index.build, board(), [turepawon.EMPTY, None, None, None])
        self.refused(Refusal.ROW_OUT_OF_RANGE, index.refresh_rows, [Edit(4, None)])
        self.refused(Refusal.ROW_NAMED_TWICE, index.refresh_rows, [Edit(0, 1), Edit(0, 1)])
        self.refused(Refusal.TOO_LITTLE_ROOM, index.walk_augmenting_rematch, [0, 1, 3], Cursor(0, 3, 0, 3), 3)
        self.refused(Refusal.TOO_DEEP, index.assignment_move_for_entity_value, 2, 0, 9)
        self.refused(Refusal.BAD_CURSOR, index.next_augmenting_rematch, [0, 1, 3], Cursor(4, 3, 0, 3))
        for misfit in ((4, 2, 0, 3), (0, 1, 0, 3), (0, 4, 0, 3), (0, 2, 3, 3), (0, 2, 0, 1), (0, 2, 0, 4)):
            cursor = EjectionCursor(*misfit)
            self.refused(Refusal.BAD_CURSOR, index.next_ejection_reinsert, [0, 1, 3], cursor)
            self.assertEqual(cursor, EjectionCursor(*misfit))
        self.assertEqual(index.cells(), before)

    def test_a_false_index(self):
        records, members = roster_a().cells()
        self.assertEqual(Index.from_cells(board(), records, members).roster(), [0, 1, None, 2])
        self.refused(Refusal.SIZE, Index.from_cells, board(), records[1:], members)
        self.refused(Refusal.FALSE_INDEX, Index.from_cells, board(), [1] + records[1:], members)
        tables = board()
        index = roster_a(tables)
        tables.set_capacity(0, 0, 9)
        self.refused(Refusal.FALSE_INDEX, index.roster_sound)
        for edits in ([], [Edit(0, 1), Edit(1, 0)], [Edit(2, 1)], [Edit(4, 0)]):
            self.refused(Refusal.FALSE_INDEX, index.apply, edits)
        self.assertEqual(index.cells(), (records, members))

    def test_a_number_of_tomorrow(self):
        self.assertEqual(str(Refused(18)), "refused (18): a number without a name here")


class WrongTypes(unittest.TestCase):
    def test_each(self):
        index, tables = roster_a(), board()
        for act in (
            lambda: Tables("4", 3),
            lambda: Tables(4, 3, edge_rule=1),
            lambda: tables.set_required(0, 1),
            lambda: tables.set_legal(0, 0, "yes"),
            lambda: tables.set_capacity(0, 0, 1.5),
            lambda: tables.set_position("0", 1),
            lambda: Index.build(None, []),
            lambda: Index.build(tables, ["0", None, None, None]),
            lambda: Index.build(tables, [True, None, None, None]),
            lambda: index.refresh_rows([(0, 1)]),
            lambda: index.apply([(0, 1)]),
            lambda: index.apply([Edit(0, "1")]),
            lambda: index.assignment_feasible_after_edits([Edit("0", 1)]),
            lambda: index.assignment_feasible_after_edit_records([Edit(0, 1.0)]),
            lambda: index.assignment_move_for_entity_value(2, None, 1),
            lambda: index.assignment_move_for_entity_value(2, 0, 1, displacement=1),
            lambda: index.next_augmenting_rematch([0, 1, 3], (0, 3, 0, 3)),
            lambda: index.ejection_reinsert_edits("03"),
            lambda: index.next_augmenting_rematch([0, 1, 3], EjectionCursor(0, 3, 0, 3)),
            lambda: index.next_ejection_reinsert([0, 1, 3], Cursor(0, 3, 0, 3)),
            lambda: list(index.reinsertions([0, 1, 3], (0, 2, 0, 3))),
            lambda: index.next_ejection_reinsert([0, 1, 3], EjectionCursor(0, 2, 0, 3), "all"),
            lambda: ask_ceiling(3, 1.0),
            lambda: index.driver_calendar("0", "20260214T081500Z"),
            lambda: index.driver_calendar(0, b"20260214T081500Z"),
            lambda: index.driver_calendar(0, None),
            lambda: read_calendar("BEGIN:VCALENDAR"),
            lambda: read_calendar(5),
        ):
            self.assertRaises(TypeError, act)

    def test_numbers_that_do_not_fit(self):
        index, tables = roster_a(), board()
        for act in (
            lambda: Tables(-1, 3),
            lambda: tables.set_capacity(0, 0, 2**64),
            lambda: tables.set_position(0, 2**63),
            lambda: index.assignment_feasible_after_edits([Edit(-1, 0)]),
            lambda: index.assignment_feasible_after_edits([Edit(0, 2**64)]),
            lambda: index.apply([Edit(0, 1), Edit(2**64, None)]),
            lambda: index.next_augmenting_rematch([0, 1, 3], Cursor(0, -3, 0, 3)),
            lambda: index.next_ejection_reinsert([0, 1, 3], EjectionCursor(0, 2, 0, 3), -1),
            lambda: index.driver_calendar(-1, "20260214T081500Z"),
            lambda: stamp_of(datetime.datetime(2026, 2, 14)),
        ):
            self.assertRaises(ValueError, act)
        for act in (lambda: tables.set_legal(4, 0, True), lambda: tables.set_legal(0, 3, True), lambda: tables.set_edge(0, 4, True)):
            self.assertRaises(IndexError, act)
        self.assertEqual(tables.set_position(0, -(2**63)), None)


class Applying(unittest.TestCase):
    def lists(self, length):
        """Every list of so many edits, also with a row twice; one row and one value are out of range."""
        edits = [Edit(row, value) for row in range(5) for value in (None, 0, 1, 2, 3)]
        return map(list, itertools.product(edits, repeat=length))

    def test_every_list_comes_to_test_and_refresh(self):
        for held in ([0, 1, None, 2], [0, 0, None, 0]):
            tables, passed = board(), 0
            for edits in itertools.chain(*map(self.lists, range(3))):
                applied, loaded = Index.build(tables, held), Index.build(tables, held)
                before, answer = loaded.cells(), loaded.assignment_feasible_after_edits(edits)
                self.assertIs(applied.apply(edits), answer)
                if answer:
                    loaded.refresh_rows(edits)
                    self.assertEqual(applied.cells(), Index.build(tables, loaded.roster()).cells())
                self.assertEqual(applied.cells(), loaded.cells() if answer else before)
                passed += answer
            self.assertTrue(10 < passed < 600)

    def test_what_does_not_fit_is_no_refusal(self):
        index, before = roster_a(), roster_a().cells()
        values = (3, turepawon.EMPTY - 1, turepawon.EMPTY)
        unfit = [[Edit(4, 0)], [Edit(turepawon.EMPTY, None)], [Edit(2, None), Edit(2, None)], [Edit(0, None)], [Edit(2, 0)]]
        for edits in unfit + [[Edit(2, value)] for value in values]:
            self.assertIs(index.apply(edits), False)
        index.tables.set_legal(3, 1, False)
        self.assertIs(index.apply([Edit(1, 2), Edit(3, 1)]), False)
        self.assertEqual(index.cells(), before)

    def test_the_empty_list_and_the_way_back(self):
        index, before = roster_a(), roster_a().cells()
        self.assertIs(index.apply([]), True)
        self.assertEqual(index.cells(), before)
        for edits in ([Edit(0, 1), Edit(1, 0)], [Edit(3, None), Edit(2, 2)], [Edit(3, None)]):
            back = [Edit(edit.row, index.roster()[edit.row]) for edit in edits]
            self.assertIs(index.apply(iter(edits)), True)
            self.assertNotEqual(index.cells(), before)
            self.assertIs(index.apply(back), True)
            self.assertEqual(index.cells(), before)

    def moves(self, index):
        order = index.assigned_entities_by_position()
        yield from index.rematches(order, new_cursor(len(order), 4))
        yield from index.reinsertions(order, new_ejection_cursor(len(order), 3))
        for row, value in itertools.product(range(4), range(3)):
            found = index.assignment_move_for_entity_value(row, value, 2, displacement=True).found
            if found is not None:
                yield found

    def test_moves_keep_the_roster_sound(self):
        index = roster_a()
        for turn in range(6):
            moves = list(self.moves(index))
            for edits in moves:
                after = Index.from_cells(index.tables, *index.cells())
                self.assertIs(after.apply(edits), True)
                self.assertIs(after.roster_sound(), True)
            self.assertIs(index.apply(moves[5 * turn % len(moves)]), True)

    def test_a_yes_from_a_roster_that_is_not_sound(self):
        index = Index.build(board(), [0, 0, None, 0])
        self.assertIs(index.apply([Edit(2, 1)]), True)
        self.assertEqual((index.roster(), index.roster_sound()), ([0, 0, 1, 0], False))


class Walks(unittest.TestCase):
    def long(self):
        """Twelve rows, each with a value of its own, nothing in the way."""
        tables = Tables(12, 12)
        for row in range(12):
            for value in range(12):
                tables.set_legal(row, value, True)
        return Index.build(tables, range(12))

    def test_steps_walk_and_iterator_agree(self):
        index = self.long()
        order, steps = index.assigned_entities_by_position(5), []
        self.assertEqual(order, [5, 6, 7, 8, 9, 10, 11, 0, 1, 2, 3, 4])
        cursor, lent = new_cursor(12, 6), new_cursor(12, 6)
        while True:
            edits = index.next_augmenting_rematch(order, cursor)
            self.assertEqual((edits, cursor), (index.next_augmenting_rematch_at(order, lent), lent))
            if edits is None:
                break
            self.assertTrue(index.assignment_feasible_after_edits(edits))
            steps.append(edits)
        self.assertEqual(len(steps), 2 * (10 + 9 + 8 + 7))
        begin = new_cursor(12, 6)
        self.assertEqual(list(index.rematches(order, begin)), steps)
        self.assertEqual(begin, new_cursor(12, 6))
        self.assertEqual(index.walk_augmenting_rematch(order, begin, 2**64 - 1), Walk(steps, True))
        self.assertEqual(begin, cursor)

    def by_hand(self, index, order, longest, limit):
        """The moves of an ejection walk, each with the cursor behind it: every window and attempt tried by itself."""
        for start in range(len(order)):
            for length in range(2, min(longest, len(order) - start) + 1):
                for attempt in range(length):
                    edits = index.ejection_reinsert_edits(order[start : start + length], attempt, limit)
                    if edits and index.assignment_feasible_after_edits(edits):
                        yield edits, EjectionCursor(start, length, attempt + 1, longest)

    def test_ejection_steps_and_iterator_are_the_tries(self):
        for index, limit in ((roster_a(), None), (roster_a(), 2), (Index.build(board(), [0, None, None, 1]), None)):
            order, begin = [3, 0, 1], new_ejection_cursor(3, 9)
            self.assertEqual(begin, EjectionCursor(0, 2, 0, 3))
            moves, cursor = list(self.by_hand(index, order, 3, limit)), new_ejection_cursor(3, 9)
            for edits, behind in moves:
                self.assertEqual((index.next_ejection_reinsert(order, cursor, limit), cursor), (edits, behind))
            for _ in range(2):
                self.assertEqual((index.next_ejection_reinsert(order, cursor, limit), cursor), (None, EjectionCursor(3, 2, 0, 3)))
            self.assertEqual(list(index.reinsertions(order, begin, limit)), [edits for edits, _ in moves])
            self.assertEqual(begin, new_ejection_cursor(3, 9))

    def test_a_search_by_its_budget(self):
        index = roster_a()
        chain = [Edit(3, None), Edit(0, 2), Edit(2, 0)]
        self.assertEqual(index.assignment_move_for_entity_value(2, 0, 1, True, budget=8), Search(chain, 8))
        self.assertEqual(index.assignment_move_for_entity_value(2, 0, 1, True, budget=4), Search(None, 5))
        self.assertEqual(index.assignment_move_for_entity_value(2, turepawon.EMPTY, 1, True), Search(None, 3))
        self.assertEqual(ask_ceiling(64, 8), 571_885_666_967_683)

    def test_conflicts_and_reinsertion(self):
        index = Index.build(board(), [0, 0, None, 0])
        self.assertEqual(index.capacity_conflicts(), [Conflict(0, [0, 1, 3])])
        self.assertFalse(index.roster_sound())
        self.assertTrue(roster_a().reinsert_value_allowed([], 2, 0))
        self.assertFalse(roster_a().reinsert_value_allowed([Edit(2, 0)], 2, 0))

    def test_threads_on_one_index(self):
        index, said = roster_a(), []
        asks = [threading.Thread(target=lambda: said.append([index.roster_sound() for _ in range(200)])) for _ in range(4)]
        for thread in asks:
            thread.start()
        for thread in asks:
            thread.join()
        self.assertEqual(said, 4 * [200 * [True]])


class Calendars(Refusing):
    STAMP = "20260214T081500Z"

    def written(self, duties, stamp=STAMP):
        """The calendar of the second of two drivers, who has these duties."""
        tables, held = Tables(128, 2), 128 * [None]
        for duty in duties:
            tables.set_sequence(duty.row, 1, duty.day)
            held[duty.row] = 1
        return Index.build(tables, held).driver_calendar(1, stamp)

    def text(self, duties):
        """The same by Python's own dates."""
        lines = ["BEGIN:VCALENDAR", "VERSION:2.0", "PRODID:-//turepawon//roster//EN"]
        for duty in duties:
            date = (datetime.date(1970, 1, 1) + datetime.timedelta(days=duty.day)).strftime("%Y%m%d")
            lines += ["BEGIN:VEVENT", f"DTSTAMP:{self.STAMP}", f"UID:turepawon-row-{duty.row}-{date}"]
            lines += [f"DTSTART;VALUE=DATE:{date}", f"SUMMARY:Duty {duty.row}", "END:VEVENT"]
        return "\r\n".join(lines + ["END:VCALENDAR", ""]).encode()

    def test_written_and_read_back(self):
        last = turepawon.LAST_DAY
        lists = [[0], [59, 789, 11016, 47540, 47541], range(20454, 20582), range(0, 128 * 22000, 22000), range(last - 127, last + 1)]
        for days in lists:
            duties = [Duty(128 - len(days) + i, day) for i, day in enumerate(days)]
            calendar = self.written(duties)
            self.assertEqual(calendar, self.text(duties))
            self.assertEqual(read_calendar(calendar), duties)
        self.assertEqual(len(calendar), turepawon.CALENDAR_ROOM)

    def test_folded_anywhere(self):
        duties = [Duty(3, 20512), Duty(100, 7)]
        calendar = self.written(duties)
        for fold in (b"\r\n ", b"\r\n\t", b"\r\n\t\r\n "):
            for at in range(len(calendar) + 1):
                self.assertEqual(read_calendar(calendar[:at] + fold + calendar[at:]), duties)
            self.assertEqual(read_calendar(fold.join(calendar[i : i + 1] for i in range(len(calendar)))), duties)
        for kind in (bytearray, memoryview):
            self.assertEqual(read_calendar(kind(calendar)), duties)
        joined = calendar[:9] + b"\r\r\n \n " + calendar[9:]  # a fold that comes about by another stays
        others = [b"", calendar[1:], calendar[:-1], calendar + b" ", calendar.replace(b"\r", b""), joined]
        for other in others + [self.text([]), self.text(duties[::-1])]:
            self.refused(Refusal.BAD_CALENDAR, read_calendar, other)

    def test_refusals_in_their_order(self):
        tables = Tables(3, 2)
        tables.set_sequence(0, 1, turepawon.LAST_DAY + 1)
        index = Index.build(tables, [1, 0, None])
        for stamp in ("", "20260214T240000Z", "20260229T000000Z", "20260214T081500", "2026021\u0664T081500Z", "\ud800", self.STAMP.lower()):
            self.refused(Refusal.BAD_STAMP, index.driver_calendar, 0, stamp)
            self.refused(Refusal.BAD_STAMP, index.driver_calendar, 1, stamp)
        for driver in (0, 2, turepawon.EMPTY):
            self.refused(Refusal.NO_DUTY, index.driver_calendar, driver, self.STAMP)
        self.refused(Refusal.DAY_OUT_OF_RANGE, index.driver_calendar, 1, self.STAMP)
        tables.set_sequence(1, 0, 1)
        self.refused(Refusal.FALSE_INDEX, index.driver_calendar, 1, "")

    def test_stamps_of_times(self):
        tokyo = datetime.timezone(datetime.timedelta(hours=9))
        time = datetime.datetime(2026, 1, 1, 8, 59, 59, 999999, tokyo)
        self.assertEqual(stamp_of(time), "20251231T235959Z")
        early = datetime.datetime(33, 4, 3, tzinfo=datetime.timezone.utc)
        self.assertEqual(stamp_of(early), "00330403T000000Z")
        for stamp in (stamp_of(time), stamp_of(early), stamp_of(datetime.datetime.now(tokyo)), "20161231T235960Z"):
            self.assertIn(f"\r\nDTSTAMP:{stamp}\r\n".encode(), self.written([Duty(0, 0)], stamp))


class WrongLibraries(unittest.TestCase):
    def said(self, library):
        """What a new interpreter says that has this library."""
        ask = "import turepawon\ntry:\n    turepawon.abi()\nexcept turepawon.LibraryError as error:\n    print(error)"
        run = [sys.executable, "-c", ask]
        return subprocess.run(run, cwd=HERE, env={**os.environ, "TUREPAWON_LIBRARY": library}, capture_output=True, text=True, check=True).stdout

    def test_none_there(self):
        self.assertIn("no-such.so is no library of the engine", self.said("/no-such.so"))

    @unittest.skipUnless(shutil.which("cc"), "there is no cc to make a wrong library with")
    def test_another_layout_and_another_library(self):
        with tempfile.TemporaryDirectory() as folder:
            for text, expected in (
                ("unsigned turepawon_abi(void) { return 7; }", "has layout 7, and this module is for layout 1"),
                ("int other(void) { return 0; }", "is no library of the engine from 0.6.0 on"),
            ):
                source, library = Path(folder, "wrong.c"), Path(folder, "wrong.so")
                source.write_text(text)
                subprocess.run(["cc", "-shared", "-fPIC", "-o", library, source], check=True)
                self.assertIn(expected, self.said(str(library)))


if __name__ == "__main__":
    unittest.main()

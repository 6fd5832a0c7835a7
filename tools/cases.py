#!/usr/bin/env python3
"""Says what the program `cases` must print, from the rules alone and by trying everything out.

    python3 tools/cases.py > crates/cases/stdout

A list is searched from its front, and a cursor is a plain record of the quads that it gave and the quads that it
jumped. Only the drawing of the cases follows the program's, since both must draw the same ones.
"""

import sys
from itertools import product

BIG = 2**32 - 1
HUGE = 2**64 - 1
TOP_ID = 2**20
BOUNDS = [0, 1, 2, TOP_ID - 1, TOP_ID, TOP_ID + 1, BIG]
OUTSIDE = [0, TOP_ID + 1, BIG]
ANY = None

out = []


def say(*words):
    out.append(" ".join(str(w) for w in words))


# The rules of numbers, quads and patterns. A quad is a tuple, and a pattern a tuple with None where it is open.


def is_id(n):
    return n in range(1, TOP_ID + 1)


def fits(place, n):
    return place is ANY or (is_id(place) and place == n)


def matches(pattern, quad):
    return all(fits(a, b) for a, b in zip(pattern, quad))


def only_ids(pattern):
    return all(is_id(n) for n in pattern if n is not ANY)


def fault(quads):
    """The refusal's number and the place of the first quad at fault, or None."""
    for i in range(len(quads)):
        if not all(map(is_id, quads[i])):
            return 3, i
        if i > 0 and not quads[i - 1] < quads[i]:
            return 4, i
    return None


def listed(quads):
    return [] if fault(quads) else list(quads)


def first(quads, pattern, mark):
    found = [q for q in quads if matches(pattern, q) and q >= mark]
    return min(found) if found else None


def first_not_below(entries, key):
    return sum(1 for e in entries if e < key)


# The rules of sessions.


class Refused(Exception):
    pass


class Desk:
    def __init__(self, quads):
        self.quads = listed(quads)
        self.open_cursors = {}
        self.all_given = []

    def cursor(self, number):
        if number > 7:
            raise Refused(11)
        if number not in self.open_cursors:
            raise Refused(21)
        return self.open_cursors[number]

    def waiting(self, cursor):
        """What the cursor has neither given nor jumped."""
        gone = set(cursor["given"]) | set(cursor["jumped"])
        return sorted(q for q in self.quads if matches(cursor["pattern"], q) and q not in gone)

    def open(self, number, pattern):
        if number > 7:
            raise Refused(11)
        if not only_ids(pattern):
            raise Refused(12)
        if number in self.open_cursors:
            raise Refused(22)
        self.open_cursors[number] = dict(pattern=pattern, given=[], jumped=[], ended=False, mark=(0, 0, 0, 0))
        return "ok"

    def next(self, number):
        cursor = self.cursor(number)
        rest = self.waiting(cursor)
        if cursor["ended"] or not rest:
            cursor["ended"] = True
            return "end"
        quad = rest[0]
        cursor["given"].append(quad)
        self.all_given.append(quad)
        cursor["mark"] = quad[:3] + (quad[3] + 1,)
        return quad

    def seek(self, number, mark):
        cursor = self.cursor(number)
        if cursor["ended"]:
            raise Refused(23)
        if mark < cursor["mark"]:
            raise Refused(24)
        jumped = [q for q in self.waiting(cursor) if q < mark]
        cursor["jumped"] += jumped
        cursor["mark"] = mark
        return len(jumped)

    def left(self, number):
        return len(self.waiting(self.cursor(number)))

    def close(self, number):
        cursor = self.cursor(number)
        del self.open_cursors[number]
        return len(cursor["given"])

    def tally(self):
        return len(self.all_given)

    def roll(self, room):
        numbers = sorted(self.open_cursors)
        if room < len(numbers):
            raise Refused(25)
        return numbers


# How things are written.


def dots(quad):
    return ".".join("?" if n is ANY else str(n) for n in quad)


def found(quad):
    return "none" if quad is None else dots(quad)


def yn(*tests):
    return " ".join("y" if t else "n" for t in tests)


def row(head, items, tail=""):
    return head + "".join(f" {i}" for i in items) + tail


class Runner:
    """Makes the calls and says each with its answer."""

    def __init__(self, quads):
        self.desk = Desk(quads)
        self.last = (0, 0, 0, 0)

    def call(self, head, make, show):
        try:
            say(head, show(make()))
        except Refused as refusal:
            say(head, f"!{refusal}")

    def open(self, cursor, pattern):
        self.call(f"o{cursor} {dots(pattern)}", lambda: self.desk.open(cursor, pattern), str)

    def next(self, cursor):
        def show(answer):
            if answer == "end":
                return "end"
            self.last = answer
            return "= " + dots(answer)

        self.call(f"n{cursor}", lambda: self.desk.next(cursor), show)

    def seek(self, cursor, mark):
        self.call(f"s{cursor} {dots(mark)}", lambda: self.desk.seek(cursor, mark), lambda n: f"#{n}")

    def left(self, cursor):
        self.call(f"l{cursor}", lambda: self.desk.left(cursor), lambda n: f"#{n}")

    def close(self, cursor):
        self.call(f"c{cursor}", lambda: self.desk.close(cursor), lambda n: f"#{n}")

    def tally(self):
        say("t", f"#{self.desk.tally()}")

    def roll(self, buffer):
        try:
            numbers = self.desk.roll(len(buffer))
            say(row(f"r r{len(numbers)}", numbers + buffer[len(numbers) :]))
        except Refused as refusal:
            say(row(f"r !{refusal}", buffer))

    def transcript_roll(self, room):
        """A transcript has a buffer of eight zeros of its own, whatever the room."""

        def show(numbers):
            return row(f"r{len(numbers)}", numbers) + row(" |", numbers + [0] * (8 - len(numbers)))

        self.call(f"r {room}", lambda: self.desk.roll(room), show)

    def compare(self):
        """A transcript of the same calls has the same answers, since the rules know no other."""
        say("transcript same")


# The drawing of cases.


class Draws:
    TABLES = [(1, 2, 3), (1, 2, TOP_ID), (7, TOP_ID - 1, TOP_ID), (1, 500, 501)]

    def __init__(self, seed):
        self.state = seed

    def below(self, bound):
        self.state = (self.state * 1103515245 + 12345) % 2**31
        return self.state // 256 % bound if bound else 0

    def pick(self, numbers):
        return numbers[self.below(len(numbers))]

    def values(self):
        return self.pick(self.TABLES)

    def cursor(self):
        return self.below(10) if self.below(8) == 0 else self.below(3)

    def mark_number(self, values):
        kind = self.below(8)
        if kind == 0:
            return 0
        if kind == 1:
            return BIG
        return (self.pick(values) + {2: 1, 3: -1}.get(kind, 0)) % 2**32

    def mark(self, values):
        return tuple(self.mark_number(values) for _ in range(4))

    def given(self, values):
        kind = self.below(40)
        if kind == 0:
            return self.pick(OUTSIDE)
        return 4 if kind == 1 else self.pick(values)

    def pattern(self, values):
        return tuple(self.given(values) if self.below(3) == 0 else ANY for _ in range(4))

    def list(self, values):
        rarity = self.below(16) + 5
        return [q for q in product(values, repeat=4) if self.below(rarity) == 0]

    def spoiled_list(self, values):
        rarity = self.below(8) + 9
        quads = []
        for quad in product(values, repeat=4):
            if self.below(rarity) == 0:
                quads.append(quad)
                if self.below(9) == 0:
                    quads.append(self.spoiled(quad, values))
        return quads

    def spoiled(self, quad, values):
        place = self.below(4)
        kind = self.below(3)
        if kind == 0:
            return quad
        return changed(quad, place, self.pick(OUTSIDE if kind == 1 else values))

    def tied_list(self, values):
        quads = []
        for quad in product(values, repeat=4):
            if self.below(16) == 0:
                quads += [quad] * self.below(4)
        return quads

    def numbers(self, ascending):
        numbers, last = [], 0
        for _ in range(self.below(9)):
            step = self.below(4)
            last = last + step if ascending else step
            numbers.append(last)
        return numbers


def changed(quad, place, number):
    return quad[:place] + (number,) + quad[place + 1 :]


def only(place, number):
    return changed((ANY,) * 4, place, number)


ANYTHING = (ANY,) * 4
LOWEST = (0, 0, 0, 0)


# The cases, in the program's order.


def number_cases():
    for n in BOUNDS:
        say(f"id {n}:", yn(is_id(n)))
    for place in [ANY] + BOUNDS:
        tests = [place is ANY or is_id(place)] + [fits(place, n) for n in BOUNDS]
        say(f"admits {'?' if place is ANY else place}:", yn(*tests))
    plain = (1, 2, 3, 4)
    for place in range(4):
        for n in BOUNDS:
            pattern = only(place, n)
            tests = [all(map(is_id, changed(plain, place, n))), only_ids(pattern)]
            tests += [matches(pattern, changed(plain, place, other)) for other in BOUNDS]
            say(f"at {place} {n}:", yn(*tests))
    for count in [0, 1, BIG - 1, BIG]:
        say(f"one more {count}:", min(count + 1, BIG))


def number_line(entries, keys):
    say(row("numbers", entries, ":") + row("", [f"{k}@{first_not_below(entries, k)}" for k in keys]))


def ordered_cases():
    number_line([], [0, 1, HUGE])
    number_line([5], [0, 4, 5, 6, HUGE])
    number_line([5, 5, 5], [4, 5, 6])
    number_line([0, 0, 3, 3, 3, 9], [0, 1, 2, 3, 4, 8, 9, 10])
    number_line([0, 1, BIG, BIG + 1, HUGE, HUGE], [0, 1, 2, BIG - 1, BIG, BIG + 1, BIG + 2, HUGE])
    draws = Draws(101)
    for _ in range(60):
        entries = draws.numbers(True)
        number_line(entries, [draws.below(16) for _ in range(8)])
    for _ in range(40):
        values = draws.values()
        quads = draws.tied_list(values)
        keys = [draws.mark(values) for _ in range(6)]
        places = [first_not_below(quads, q) for q in quads]
        places += [f"{dots(k)}@{first_not_below(quads, k)}" for k in keys]
        say(row("quads", map(dots, quads), ":") + row("", places))
    for _ in range(30):
        draws.numbers(False)
        say("within", yn(*[True] * 6))
        values = draws.values()
        draws.spoiled_list(values)
        for _ in range(6):
            draws.mark(values)
        say("within", yn(*[True] * 6))


def check_line(quads):
    wrong = fault(quads)
    verdict = f"{wrong[0]} at {wrong[1]}" if wrong else "ok"
    firsts = [first(listed(quads), pattern, LOWEST) for pattern in (ANYTHING, only(0, 2))]
    say(row("check", map(dots, quads), ":"), verdict, *map(found, firsts))


def check_cases():
    ones, twos = (1, 1, 1, 1), (2, 2, 2, 2)
    check_line([])
    check_line([ones, twos])
    check_line([twos, ones])
    check_line([ones, ones])
    check_line([twos, LOWEST])
    check_line([twos, ones, LOWEST])
    check_line([ones, twos, ones, LOWEST])
    for place in range(4):
        for n in BOUNDS:
            quad = changed(twos, place, n)
            check_line([quad])
            check_line([ones, quad])
            check_line([twos, quad])
            check_line([ones, quad, twos])
    draws = Draws(202)
    for _ in range(300):
        check_line(draws.spoiled_list(draws.values()))


def first_cases():
    draws = Draws(303)
    for _ in range(24):
        values = draws.values()
        quads = draws.list(values)
        say(row("list", map(dots, quads)))
        for shape in product([False, True], repeat=4):
            pattern = tuple(draws.given(values) if given else ANY for given in shape)
            marks = [LOWEST, (BIG,) * 4] + [draws.mark(values) for _ in range(4)]
            answers = [f"{dots(m)}> {found(first(listed(quads), pattern, m))}" for m in marks]
            say(f"first {dots(pattern)}:", *answers)


FIVE = [(1, 1, 1, 1), (1, 1, 1, 2), (1, 2, 1, 1), (2, 1, 1, 1), (2, 1, 2, TOP_ID)]


def played(title, script, quads=FIVE):
    """Says a chosen session: each call is its name and its arguments."""
    say(f"fixed: {title}")
    runner = Runner(quads)
    make_calls(runner, script)
    runner.compare()


def make_calls(runner, script):
    for name, *arguments in script:
        getattr(runner, name)(*arguments)


def fixed_cases():
    everywhere = []
    for cursor in [8, 9, BIG]:
        everywhere += [("open", cursor, ANYTHING), ("next", cursor), ("left", cursor)]
        everywhere += [("seek", cursor, LOWEST), ("close", cursor)]
    played(
        "cursor 7 passes, and 8 does not",
        [("open", 7, ANYTHING), ("next", 7), ("left", 7), ("seek", 7, (2, 0, 0, 0)), ("close", 7)]
        + everywhere
        + [("tally",)],
    )
    played(
        "11 before 12, and 12 before 22",
        [
            ("open", 8, only(0, 0)),
            ("open", 0, only(3, 0)),
            ("next", 0),
            ("open", 0, ANYTHING),
            ("open", 0, only(1, TOP_ID + 1)),
            ("open", 0, ANYTHING),
            ("left", 0),
        ],
    )
    script = []
    for place in range(4):
        for n in BOUNDS:
            script += [("open", 2, only(place, n)), ("left", 2), ("next", 2), ("close", 2)]
    played("given numbers at each place", script + [("tally",)])
    played(
        "closed cursors, and opening again",
        [
            ("next", 0),
            ("seek", 0, LOWEST),
            ("left", 0),
            ("close", 0),
            ("open", 0, only(0, 1)),
            ("next", 0),
            ("next", 0),
            ("open", 0, only(0, 2)),
            ("close", 0),
            ("close", 0),
            ("open", 0, only(0, 1)),
            ("next", 0),
            ("left", 0),
            ("close", 0),
            ("tally",),
        ],
    )
    played(
        "a seek to the cursor's mark, and one below it",
        [
            ("open", 0, ANYTHING),
            ("seek", 0, LOWEST),
            ("next", 0),
            ("seek", 0, (1, 1, 1, 2)),
            ("seek", 0, (1, 1, 1, 1)),
            ("seek", 0, (1, 1, 0, BIG)),
            ("next", 0),
            ("seek", 0, (2, 1, 1, 1)),
            ("seek", 0, (2, 1, 1, 1)),
            ("seek", 0, (2, 1, 1, 0)),
            ("left", 0),
            ("next", 0),
            ("next", 0),
            ("seek", 0, (2, 1, 2, TOP_ID)),
            ("seek", 0, (2, 1, 2, TOP_ID + 1)),
            ("close", 0),
        ],
    )
    played(
        "an ended cursor",
        [
            ("open", 3, only(1, 2)),
            ("next", 3),
            ("left", 3),
            ("next", 3),
            ("next", 3),
            ("left", 3),
            ("seek", 3, (BIG, 0, 0, 0)),
            ("seek", 3, LOWEST),
            ("open", 3, ANYTHING),
            ("next", 3),
            ("close", 3),
            ("next", 3),
            ("open", 3, ANYTHING),
            ("next", 3),
            ("tally",),
        ],
    )
    played(
        "jumped quads are neither given nor left",
        [
            ("open", 1, only(1, 1)),
            ("left", 1),
            ("seek", 1, (1, 1, 1, 2)),
            ("left", 1),
            ("seek", 1, (2, 0, BIG, 0)),
            ("left", 1),
            ("next", 1),
            ("seek", 1, (BIG,) * 4),
            ("left", 1),
            ("seek", 1, (BIG,) * 4),
            ("next", 1),
            ("close", 1),
            ("tally",),
        ],
    )
    played(
        "rolls with as many entries as open cursors, fewer and more",
        [
            ("roll", []),
            ("roll", [90, 91]),
            ("open", 5, ANYTHING),
            ("open", 1, ANYTHING),
            ("open", 3, only(0, 2)),
            ("roll", [90, 91, 92]),
            ("roll", [90, 91]),
            ("roll", [90, 91, 92, 93]),
            ("roll", []),
            ("close", 1),
            ("roll", [90, 91, 92]),
            ("roll", [90]),
        ],
    )
    played(
        "a roll lists ended cursors too",
        [
            ("open", 6, only(0, 3)),
            ("open", 0, ANYTHING),
            ("next", 6),
            ("roll", [90, 91, 92]),
            ("roll", [90]),
            ("close", 6),
            ("roll", [90]),
        ],
    )
    script = []
    for cursor in range(8):
        script += [("open", cursor, ANYTHING), ("next", cursor)]
    played("all eight cursors open", script + [("roll", [90] * n) for n in (7, 8, 9)] + [("tally",)])
    turn = [("next", 0), ("left", 4), ("next", 4), ("left", 0)]
    played(
        "two cursors with one pattern",
        [("open", 0, only(3, 1)), ("open", 4, only(3, 1))] + turn * 4 + [("close", 0), ("close", 4), ("tally",)],
    )
    script = [("open", 0, ANYTHING), ("left", 0), ("seek", 0, (1, 1, 1, 2)), ("next", 0)]
    script += [("roll", [90]), ("close", 0), ("tally",)]
    played("no quads", script, [])
    played("quads that are no plain list", script, [FIVE[1], FIVE[0]])


def transcribed(title, script):
    say(f"transcript: {title}")
    make_calls(Runner(FIVE), script)


def transcript_cases():
    rolls = [("transcript_roll", room) for room in (0, 1, 7, 8, 9, 1000, HUGE)]
    transcribed("no calls", [])
    transcribed("rolls with no cursor open", rolls)
    transcribed("rolls with one cursor open", [("open", 5, ANYTHING)] + rolls)
    transcribed("rolls with all eight cursors open", [("open", n, ANYTHING) for n in range(8)] + rolls)
    transcribed(
        "calls of each kind",
        [
            ("open", 7, only(1, 2)),
            ("open", 2, only(0, 0)),
            ("open", 2, only(3, 1)),
            ("next", 7),
            ("next", 7),
            *rolls,
            ("seek", 7, (2, 0, 0, 0)),
            ("seek", 2, (1, 2, 0, 0)),
            ("seek", 2, (1, 1, 0, 0)),
            ("left", 2),
            ("next", 2),
            ("close", 7),
            *rolls,
            ("open", 2, ANYTHING),
            ("close", 2),
            ("left", 2),
            ("close", 8),
            ("tally",),
        ],
    )


def drawn_call(draws, values, runner):
    cursor = draws.cursor()
    kind = draws.below(18)
    if kind < 4:
        runner.open(cursor, draws.pattern(values))
    elif kind < 10:
        runner.next(cursor)
    elif kind < 13:
        way = draws.below(4)
        s, p, o, g = runner.last
        runner.seek(cursor, (s, p, o, g + way) if way < 2 else draws.mark(values))
    elif kind < 15:
        runner.left(cursor)
    elif kind == 15:
        runner.close(cursor)
    elif kind == 16:
        runner.tally()
    else:
        runner.roll([99] * draws.below(6))


def session_cases():
    draws = Draws(404)
    for number in range(300):
        values = draws.values()
        quads = draws.list(values)
        say(row(f"session {number}:", map(dots, quads)))
        runner = Runner(quads)
        for cursor in range(3):
            runner.open(cursor, draws.pattern(values))
        for _ in range(36):
            drawn_call(draws, values, runner)
        runner.compare()


number_cases()
ordered_cases()
check_cases()
first_cases()
fixed_cases()
transcript_cases()
session_cases()
sys.stdout.write("\n".join(out) + "\n")

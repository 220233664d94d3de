#!/usr/bin/env python3
"""An independent model of the book, its sheet and the schedulability tests.

Reads a script of calls, one a line, on standard input and prints one answer
line for each. It keeps plain lists and works every value out anew, so that it
has no machinery in common with the program it is compared with.

    make SIZE
    enter NUMBER PERIOD DEADLINE TIME...
    append NUMBER PERIOD DEADLINE TIME...
    amend NUMBER CLASS TIME
    withdraw NUMBER
    load HEX
    write LENGTH
    classes CLASS...
    ask TEST PILE TIME...
    tell PILE PLACE TIME...

A TEST is 'fixed' or 'earliest'; 'tell' is of fixed priority. A PILE is '-' for
no layer, or one to three layers with commas between, the outermost first: 'cN'
is a charge of N ticks, 'mN' a margin of N thousandths. An 'ask' or a 'tell' of
any other form is answered by '?'.
"""

import math
import struct
import sys
from fractions import Fraction
from typing import Callable, Iterable, NamedTuple

SETS = [0, 1, 2, 4, 8, 16, 32, 64, 128, 256, 512]  # by class
MAX_CACHE = 1_024
MAX_TASKS = 16
MAX_TICKS = 1_000_000  # of a period and of a time
MAX_CYCLE = 10_000_000_000
LENGTHS = [9 + 4 * k for k in range(1, len(SETS) + 1)]  # of a record
UNTOUCHED = 170  # what a buffer's bytes hold before a write
MAX_NUMBER = 2**32 - 1  # of the numbers that a question may have
MAX_LAYERS = 3  # in the pile of a question
MAX_CHARGE = 1_000
MARGINS = range(1_000, 4_001)
TOO_LONG = MAX_TICKS + 1  # no layer makes a time longer
TICKS = 5_000  # up to here every tick is looked at
MAX_JOBS = 300_000  # so many are looked at beyond


class Task(NamedTuple):
    number: int
    period: int
    deadline: int
    row: list[int]


class Refused(Exception):
    """A call declined: the number of the reason and, for load, the place."""

    def __init__(self, reason: int, place: int = 0) -> None:
        super().__init__(reason, place)
        self.reason = reason
        self.place = place


def first(*checks: tuple[int, bool]) -> None:
    """Refuse by the first check that applies; their order is the rule."""
    for reason, applies in checks:
        if applies:
            raise Refused(reason)


def bad_cache(size: int) -> bool:
    return not 1 <= size <= MAX_CACHE


def bad_time(time: int) -> bool:
    return not 1 <= time <= MAX_TICKS


def rises(row: list[int]) -> bool:
    return any(late > early for early, late in zip(row, row[1:]))


def cycle(tasks: Iterable[Task]) -> int:
    return math.lcm(*(task.period for task in tasks))  # 1 for no task


def check_task(tasks: list[Task], task: Task, place: tuple[int, bool]) -> None:
    """The checks on a new task. 'place' is the one on its number's place."""
    first(
        (2, task.number == 0),
        (3, not 1 <= task.period <= MAX_TICKS),
        (4, not 1 <= task.deadline <= task.period),
        (5, not 1 <= len(task.row) <= len(SETS)),
        (6, any(map(bad_time, task.row))),
        (7, rises(task.row)),
        place,
        (9, len(tasks) >= MAX_TASKS),
        (11, cycle(tasks + [task]) > MAX_CYCLE),
    )


def check_last(tasks: list[Task], task: Task) -> None:
    """The checks on a task that is to stand behind all the others."""
    behind = not tasks or task.number > tasks[-1].number
    check_task(tasks, task, (23, not behind))


def read_sheet(sheet: bytes) -> tuple[int, list[Task]]:
    """The cache size and tasks of a sheet; a fault bears its record's place."""
    if not sheet:
        raise Refused(21)
    cache = int.from_bytes(sheet[1:3], "big")
    first((20, sheet[0] != 1), (21, len(sheet) < 3), (1, bad_cache(cache)))
    tasks: list[Task] = []
    at = 3
    while at < len(sheet):
        length = sheet[at]
        record = sheet[at + 1 : at + 1 + length]
        try:
            first((22, length not in LENGTHS), (21, len(record) < length))
            number, period, deadline, *row = struct.unpack(f">B{length // 4}I", record)
            task = Task(number, period, deadline, row)
            check_last(tasks, task)
        except Refused as fault:
            raise Refused(fault.reason, at) from None
        tasks.append(task)
        at += 1 + length
    return cache, tasks


def make_sheet(cache: int, tasks: Iterable[Task]) -> bytes:
    """Encoding alone: the tasks need not make a good book."""
    sheet = struct.pack(">BH", 1, cache)
    for number, period, deadline, row in tasks:
        fields = struct.pack(f">B{2 + len(row)}I", number, period, deadline, *row)
        sheet += bytes([len(fields)]) + fields
    return sheet


def well_shaped(tasks: list[Task], times: list[int]) -> bool:
    return len(times) == len(tasks) and 0 not in times


def up(number: int, by: int) -> int:
    """The quotient, rounded up."""
    return -(-number // by)


class Test:
    """Answers any list of times for the tasks of a book."""

    def passes(self, tasks: list[Task], times: list[int]) -> bool:
        raise NotImplementedError

    def told(self, tasks: list[Task], times: list[int], place: int) -> int | None:
        """A time of the task at the place, which timing tests alone tell."""
        raise NotImplementedError


class FixedPriority(Test):
    """Each task is to have a response time up to its deadline."""

    def response(self, tasks: list[Task], times: list[int], place: int) -> int | None:
        own = tasks[place]
        above = [pair for pair in zip(tasks, times) if pair[0].number < own.number]

        def asked(t: int) -> int:
            return times[place] + sum(up(t, task.period) * time for task, time in above)

        if own.deadline <= TICKS:
            solutions = (t for t in range(1, own.deadline + 1) if t == asked(t))
            return next(solutions, None)
        # Nothing is passed over: below a solution no more is asked than there.
        t = 1
        while t <= own.deadline:
            if t == asked(t):
                return t
            t = asked(t)
        return None

    def passes(self, tasks: list[Task], times: list[int]) -> bool:
        if not well_shaped(tasks, times):
            return False
        places = range(len(tasks))
        return all(self.response(tasks, times, place) is not None for place in places)

    def told(self, tasks: list[Task], times: list[int], place: int) -> int | None:
        if place >= len(tasks) or not self.passes(tasks, times):
            return None
        return self.response(tasks, times, place)


class TooManyJobs(Exception):
    """The model would take too long over a question."""


class EarliestDeadline(Test):
    """In no t is more work due than t."""

    def passes(self, tasks: list[Task], times: list[int]) -> bool:
        if not well_shaped(tasks, times):
            return False
        if cycle(tasks) <= TICKS:
            return self.by_ticks(tasks, times)
        return self.by_jobs(tasks, times)

    def by_ticks(self, tasks: list[Task], times: list[int]) -> bool:
        """Every t of a hyperperiod and some more; then all comes again.

        More work than the hyperperiod has ticks is due at its very end.
        """

        def due(t: int) -> int:
            return sum(
                ((t - task.deadline) // task.period + 1) * time
                for task, time in zip(tasks, times)
                if task.deadline <= t
            )

        return all(due(t) <= t for t in range(1, cycle(tasks) + longest(tasks) + 1))

    def by_jobs(self, tasks: list[Task], times: list[int]) -> bool:
        """The jobs in the order of their deadlines, all released at the start.

        The work due grows at their deadlines only.
        """
        use = sum(Fraction(time, task.period) for task, time in zip(tasks, times))
        if use > 1:
            return False
        end = self.end(tasks, times, use)
        if sum((end - task.deadline) // task.period + 1 for task in tasks) > MAX_JOBS:
            raise TooManyJobs
        jobs = [
            (deadline, time)
            for task, time in zip(tasks, times)
            for deadline in range(task.deadline, end + 1, task.period)
        ]
        due = 0
        for deadline, time in sorted(jobs):
            due += time
            if due > deadline:
                return False
        return True

    def end(self, tasks: list[Task], times: list[int], use: Fraction) -> int:
        """Where the jobs may be left off.

        The work due in t is at most use * t + rest, so never more than t from
        rest / (1 - use) on.
        """
        if use == 1:
            return cycle(tasks)
        rest = sum(
            Fraction((task.period - task.deadline) * time, task.period)
            for task, time in zip(tasks, times)
        )
        return min(cycle(tasks), max(longest(tasks), math.floor(rest / (1 - use))))


def longest(tasks: list[Task]) -> int:
    """The longest deadline; 0 for no task."""
    return max((task.deadline for task in tasks), default=0)


class Layer(Test):
    """A test over another one, which is asked with every time changed."""

    def __init__(self, change: Callable[[int], int], below: Test) -> None:
        self.change = change
        self.below = below

    def passes(self, tasks: list[Task], times: list[int]) -> bool:
        changed = [self.change(time) for time in times]
        return well_shaped(tasks, times) and self.below.passes(tasks, changed)

    def told(self, tasks: list[Task], times: list[int], place: int) -> int | None:
        if not well_shaped(tasks, times):
            return None
        return self.below.told(tasks, [self.change(time) for time in times], place)


def charge(ticks: int) -> Callable[[int], int]:
    first((24, ticks > MAX_CHARGE))
    return lambda time: min(time + 2 * ticks, TOO_LONG)


def margin(thousandths: int) -> Callable[[int], int]:
    first((25, thousandths not in MARGINS))
    return lambda time: min(up(time * thousandths, 1_000), TOO_LONG)


TESTS: dict[str, Test] = {"fixed": FixedPriority(), "earliest": EarliestDeadline()}
LAYERS = {"c": charge, "m": margin}
Pile = list[tuple[str, int]]  # letter and number of each layer, outermost first


def beneath(pile: Pile, test: Test) -> Test:
    """The test beneath the layers, which are made in the order written."""
    changes = [LAYERS[letter](number) for letter, number in pile]
    for change in reversed(changes):
        test = Layer(change, test)
    return test


class Book:
    """The calls. One that is refused raises before it changes anything."""

    def __init__(self) -> None:
        self.cache = 1
        self.tasks: list[Task] = []

    def find(self, number: int) -> Task | None:
        return next((task for task in self.tasks if task.number == number), None)

    def make(self, size: int) -> None:
        first((1, bad_cache(size)))
        self.cache, self.tasks = size, []

    def enter(self, task: Task) -> None:
        taken = self.find(task.number) is not None
        check_task(self.tasks, task, (8, taken))
        self.tasks = sorted(self.tasks + [task])  # the number leads

    def append(self, task: Task) -> None:
        check_last(self.tasks, task)
        self.tasks = self.tasks + [task]

    def amend(self, number: int, klass: int, time: int) -> None:
        task = self.find(number)
        if task is None:
            raise Refused(10)
        # The row as it would be: both neighbours of the new time count.
        row = task.row[:klass] + [time] + task.row[klass + 1 :]
        first((5, klass >= len(task.row)), (6, bad_time(time)), (7, rises(row)))
        at = self.tasks.index(task)
        self.tasks = self.tasks[:at] + [task._replace(row=row)] + self.tasks[at + 1 :]

    def withdraw(self, number: int) -> None:
        first((10, self.find(number) is None))
        self.tasks = [task for task in self.tasks if task.number != number]

    def load(self, sheet: bytes) -> None:
        self.cache, self.tasks = read_sheet(sheet)

    def sheet(self) -> bytes:
        return make_sheet(self.cache, self.tasks)

    def write(self, buffer: bytearray) -> int:
        sheet = self.sheet()
        first((19, len(buffer) < len(sheet)))
        buffer[: len(sheet)] = sheet
        return len(sheet)

    def check_list(self, classes: list[int]) -> None:
        pairs = zip(classes, self.tasks)
        first(
            (15, len(classes) != len(self.tasks)),
            (15, any(klass >= len(task.row) for klass, task in pairs)),
        )

    def sizes(self, classes: list[int]) -> list[int]:
        self.check_list(classes)
        return [SETS[klass] for klass in classes]

    def check_fit(self, classes: list[int]) -> None:
        first((16, sum(self.sizes(classes)) > self.cache))

    def times(self, classes: list[int]) -> list[int]:
        self.check_list(classes)
        return [task.row[klass] for task, klass in zip(self.tasks, classes)]

    def work(self, classes: list[int]) -> int:
        whole = cycle(self.tasks)
        times = self.times(classes)
        return sum(whole // task.period * time for task, time in zip(self.tasks, times))

    def state(self) -> str:
        parts = [words(self.cache, len(self.tasks), cycle(self.tasks))]
        parts += [words(*task[:3], *task.row) for task in self.tasks]
        return " | ".join(parts)


def words(*values: object) -> str:
    return " ".join(map(str, values))


def attempt(call: Callable[[], object]) -> str:
    """'ok' or the refusal of a call whose result is of no interest."""
    try:
        call()
    except Refused as fault:
        return f"refused {fault.reason}"
    return "ok"


def told(name: str, call: Callable[[], list[int]]) -> str:
    """A part of the answer to 'classes': the numbers given or the refusal."""
    try:
        return words(name, *call())
    except Refused as fault:
        return f"{name} refused {fault.reason}"


class Unread(Exception):
    """A question that is not of the form it should have."""


def read_number(word: str) -> int:
    if not (word.isascii() and word.isdigit()) or int(word) > MAX_NUMBER:
        raise Unread
    return int(word)


def read_pile(word: str) -> Pile:
    if word == "-":
        return []
    pile = [(part[:1], read_number(part[1:])) for part in word.split(",")]
    if len(pile) > MAX_LAYERS or any(letter not in LAYERS for letter, _ in pile):
        raise Unread
    return pile


def ask(book: Book, name: str, layers: str, *rest: str) -> str:
    if name not in TESTS:
        raise Unread
    pile, times = read_pile(layers), [read_number(word) for word in rest]
    test = beneath(pile, TESTS[name])
    return "yes" if test.passes(book.tasks, times) else "no"


def tell(book: Book, layers: str, *rest: str) -> str:
    pile, (place, *times) = read_pile(layers), [read_number(word) for word in rest]
    response = beneath(pile, TESTS["fixed"]).told(book.tasks, times, place)
    return "none" if response is None else f"told {response}"


def question(book: Book, call: str, words: list[str]) -> str:
    """The answer to 'ask' or 'tell', which leave the book as it is."""
    if len(words) < 2:  # both have two words before the times
        return "?"
    try:
        return ask(book, *words) if call == "ask" else tell(book, *words)
    except Unread:
        return "?"
    except Refused as fault:
        return f"refused {fault.reason}"


def answer(book: Book, line: str) -> str:
    """Carry out one line of a script on the book and give the answer line."""
    call, *rest = line.split()
    if call in ("ask", "tell"):
        return question(book, call, rest)
    if call == "load":
        try:
            book.load(bytes.fromhex("".join(rest)))
            result = "ok"
        except Refused as fault:
            result = f"refused {fault.reason} at {fault.place}"
        return f"{result}; {book.state()}"

    args = [int(word) for word in rest]
    if call == "write":
        buffer = bytearray([UNTOUCHED] * args[0])
        try:
            result = f"wrote {book.write(buffer)}"
        except Refused as fault:
            result = f"refused {fault.reason}"
        return f"{result}: {buffer.hex()}".rstrip()
    if call == "classes":
        return "; ".join(
            [
                f"list {attempt(lambda: book.check_list(args))}",
                told("sizes", lambda: book.sizes(args)),
                f"fit {attempt(lambda: book.check_fit(args))}",
                told("times", lambda: book.times(args)),
                told("work", lambda: [book.work(args)]),
            ]
        )
    if call in ("enter", "append"):
        number, period, deadline, *row = args
        task = Task(number, period, deadline, row)
        result = attempt(lambda: getattr(book, call)(task))
    elif call in ("make", "amend", "withdraw"):
        result = attempt(lambda: getattr(book, call)(*args))
    else:
        raise ValueError(f"no such call: {line}")
    return f"{result}; {book.state()}"


def main() -> None:
    book = Book()
    for line in sys.stdin:
        print(answer(book, line))


if __name__ == "__main__":
    main()

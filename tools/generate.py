#!/usr/bin/env python3
"""Prints a random script of about CALLS calls, fixed by its SEED.

    generate.py SEED CALLS
    generate.py SEED CALLS tests [--stats]

The script is carried out on the model while it is made: knowing the present
book, the generator can aim just inside and just outside each limit.

With 'tests' the script makes one small book after the other and puts questions
to the schedulability tests about each; '--stats' counts their answers on
standard error.
"""

import math
import sys
from collections import Counter
from random import Random
from typing import Callable

sys.dont_write_bytecode = True  # leave no cache directory beside the tools

from oracle import MAX_CYCLE, MAX_TICKS, SETS, TESTS, TICKS, TOO_LONG
from oracle import Book, Pile, Refused, Task, TooManyJobs
from oracle import answer, beneath, cycle, make_sheet

TOP = 2**32 - 1
# All divide 9,009,000,000, so that any of them may stand together in a book.
ROUND = [1, 2, 3, 5, 7, 8, 9, 10, 13, 20, 25, 40, 60, 64, 84, 100, 125, 200, 360]
ROUND += [500, 1_000, 1_001, 2_000, 5_000, 10_000, 15_625, 77_000, 100_000]
ROUND += [360_360, 500_000, 1_000_000]
# 99,999 and 100,001 multiply to one below the greatest hyperperiod, 27,961 and
# 357,641 to one above it; of the rest, several are large primes.
STEEP = [99_999, 100_000, 100_001, 27_961, 357_641, 999_983, 999_979, 999_961]
STEEP += [1, 2, 1_000_000, 9_973, 10_007]
BAD_TICKS = [0, MAX_TICKS + 1, MAX_TICKS + 2, 2**24, 2**31, TOP]
CACHES = [1, 2, 3, 4, 255, 256, 257, 511, 512, 513, 1_023, 1_024]
BAD_CACHES = [0, 1_025, 1_026, 2_048, 32_768, 65_535]
# Periods of a book whose questions are to be answered in short time.
SMALL = list(range(1, 31))
CROWD = [period for period in range(12, 241) if 3_600 % period == 0]
DECIMAL = [2**a * 5**b for a in range(20) for b in range(9)]
DECIMAL = [period for period in DECIMAL if 1_000 <= period <= MAX_TICKS]
COPRIME = [99_999, 100_000, 100_001]
CHARGES = [0, 1, 1, 1, 2, 3]
BAD_CHARGES = [1_001, 1_001, 4_000, TOP]
MARGINS = [1_000, 1_001, 1_010, 1_100, 1_250, 1_500, 2_000]
BAD_MARGINS = [999, 999, 4_001, 4_001, 0, 1, TOP]
BAD_PILES = ["x5", "C1", "M1000", "c", "m", "7", "--", "c1,", ",m1000", "c1,,m1000"]
BAD_PILES += ["-,c1", "c1,-", "c-1", "m1.5", "cc1", "c1m1000", f"c{TOP + 1}"]
BAD_PILES += ["c1,c1,c1,c1", "m1000,c0,m1000,x1", "c1001,x1", "c0,m1000,c1,m1001,c2"]
BAD_NUMBERS = [TOP + 1, TOP + 2, 2**64, 2**64 + 1, 10**30, -1, "x", "1.5", "1,1", "0x1"]
BAD_TESTS = ["Fixed", "earlies", "late", "fixed,earliest", "-", "0"]


class Generator:
    def __init__(self, seed: int) -> None:
        self.random = Random(seed)
        self.book = Book()
        self.lines: list[str] = []

    def emit(self, *parts: object) -> str:
        line = " ".join(str(part) for part in parts if part != "")
        result = answer(self.book, line)
        self.lines.append(line)
        return result

    def chance(self, percent: int) -> bool:
        return self.random.randrange(100) < percent

    # Pieces of calls

    def cache(self) -> int:
        pick = self.random
        return pick.choice(CACHES) if self.chance(50) else pick.randint(1, 1_024)

    def number(self, book: Book) -> int:
        """Mostly a free number, now and then a limit or one in the book."""
        if self.chance(15):
            return self.random.choice([1, 255] + [task.number for task in book.tasks])
        return self.random.choice([n for n in range(1, 256) if not book.find(n)])

    def next_number(self, book: Book) -> int:
        """Mostly a number a little above the last, now and then not above it."""
        last = book.tasks[-1].number if book.tasks else 0
        if self.chance(15):
            return self.random.randint(1, max(last, 1))
        return min(255, last + self.random.choice([1, 1, 2, 5, 15]))

    def row(self) -> list[int]:
        pick = self.random
        length = pick.choice([1, 2, 3, 4, 10, 11, pick.randint(1, 11)])
        # A small span makes equal neighbours likely.
        top = pick.choice([1, 3, 20, 300, 70_000, MAX_TICKS])
        row = sorted((pick.randint(1, top) for _ in range(length)), reverse=True)
        if self.chance(10):
            row[0] = MAX_TICKS
        if self.chance(10):
            row[-1] = 1
        return row

    def task(self, number: int, periods: list[int]) -> Task:
        period = self.random.choice(periods)
        deadline = self.random.choice([1, period, self.random.randint(1, period)])
        return Task(number, period, deadline, self.row())

    def spoil(self, task: Task, any_length: bool = True) -> Task:
        """A good task with one field gone wrong. Each is barely or far wrong."""
        pick = self.random
        row = task.row
        field = pick.choice(["number", "period", "deadline", "row", "time", "rising"])
        if field == "number":
            return task._replace(number=0)
        if field == "period":
            return task._replace(period=pick.choice(BAD_TICKS))
        if field == "deadline":
            above = min(task.period + 1, TOP)
            return task._replace(deadline=pick.choice([0, above, above, TOP]))
        if field == "row" and any_length:
            return task._replace(row=pick.choice([[], [row[0] if row else 1] * 12]))
        if field == "time" and row:
            at = pick.choice([0, pick.randrange(len(row)), len(row) - 1])
            bad = pick.choice(BAD_TICKS)
            return task._replace(row=row[:at] + [bad] + row[at + 1 :])
        if row:  # make it rise by one, in a row of no more than eleven
            row = row[:10]
            at = pick.randint(1, len(row))
            time = min(row[at - 1] + 1, TOP)
            return task._replace(row=row[:at] + [time] + row[at:])
        return task

    def maybe_spoil(self, task: Task, percent: int, any_length: bool = True) -> Task:
        """Two faults in one task show which of them is found first."""
        while self.chance(percent):
            task = self.spoil(task, any_length)
        return task

    def tasks(self, count: int, periods: list[int]) -> list[Task]:
        """The tasks of a good book."""
        book = Book()
        for number in sorted(self.random.sample(range(1, 256), count)):
            try:
                book.append(self.task(number, periods))
            except Refused:
                pass
        return book.tasks

    def count(self) -> int:
        return self.random.choice([0, 1, 2, 2, 3, 3, 4, 16, self.random.randint(1, 16)])

    # Calls

    def make(self) -> None:
        self.emit("make", self.cache())

    def make_badly(self) -> None:
        self.emit("make", self.random.choice(BAD_CACHES))

    def add(self, call: str, periods: list[int], spoilt: int) -> None:
        place = self.number if call == "enter" else self.next_number
        task = self.maybe_spoil(self.task(place(self.book), periods), spoilt)
        self.emit(call, *task[:3], *task.row)

    def enter(self) -> None:
        self.add("enter", STEEP if self.chance(10) else ROUND, 30)

    def append(self) -> None:
        self.add("append", STEEP if self.chance(10) else ROUND, 30)

    def fill(self) -> None:
        """A book of sixteen by one way of adding, and some tasks too many."""
        self.make()
        call = self.random.choice(["enter", "append"])
        for _ in range(self.random.randint(18, 22)):
            self.add(call, ROUND, 5)
        self.add("enter", STEEP, 0)  # too many, and too long a hyperperiod

    def climb(self) -> None:
        """Few tasks, whose hyperperiod comes near its limit or passes it."""
        self.make()
        if self.chance(40):
            pairs = [(99_999, 100_001), (99_999, 100_000), (100_000, 100_001)]
            pair = self.random.choice(pairs + [(27_961, 357_641)])
            for period in self.random.sample(pair, 2):
                self.add("enter", [period], 0)
        for _ in range(self.random.randint(2, 6)):
            call = self.random.choice(["enter", "append", "withdraw"])
            if call == "withdraw":
                self.withdraw()
            else:
                self.add(call, STEEP, 5)

    def amend(self) -> None:
        pick = self.random
        task = pick.choice(self.book.tasks) if self.book.tasks else None
        if task is None or self.chance(10):
            self.emit("amend", pick.randint(0, 255), pick.randint(0, 11), pick.randint(0, 9))
            return
        last = len(task.row) - 1
        klass = pick.choice([0, last] + [pick.randint(0, last)] * 4)
        before = task.row[klass - 1] if klass > 0 else MAX_TICKS
        after = task.row[klass + 1] if klass < last else 1
        inside = [before, after, pick.randint(after, before)]
        outside = [before + 1, after - 1]
        time = pick.choice(inside + outside * 2 + [pick.choice(BAD_TICKS)])
        if self.chance(15):
            klass = pick.choice([last + 1, last + 1, 11, 255])
        self.emit("amend", task.number, klass, time)

    def withdraw(self) -> None:
        numbers = [task.number for task in self.book.tasks]
        if numbers and self.chance(70):
            self.emit("withdraw", self.random.choice([numbers[0], numbers[-1], *numbers]))
        else:
            self.emit("withdraw", self.random.choice([0, 1, 255, self.random.randint(0, 255)]))

    def load(self) -> None:
        self.emit("load", self.sheet().hex())

    def sheet(self) -> bytes:
        """A good sheet, or one gone wrong in a way of its own."""
        pick = self.random
        cache = self.cache()
        tasks = self.tasks(self.count(), ROUND)
        good = make_sheet(cache, tasks)
        at = pick.randrange(len(tasks)) if tasks else 0
        # Where each record's length byte stands; the end when there is none.
        starts = [len(make_sheet(cache, tasks[:n])) for n in range(len(tasks) or 1)]
        match pick.randrange(19):
            case 0 | 1:
                return good
            case 2:
                return self.book.sheet()
            case 3:  # one byte changed
                place = pick.randrange(len(good))
                byte = pick.choice([0, 255, good[place] ^ 1 << pick.randrange(8)])
                return good[:place] + bytes([byte]) + good[place + 1 :]
            case 4:  # cut short
                return good[: pick.choice([-1, pick.randrange(len(good)), starts[at] + 1])]
            case 5:  # a byte too many
                return good + bytes([pick.choice([0, 13, 14, 53, 57, pick.randrange(256)])])
            case 6 if len(tasks) > 1:  # two records swapped
                one, two = pick.sample(range(len(tasks)), 2)
                tasks[one], tasks[two] = tasks[two], tasks[one]
                return make_sheet(cache, tasks)
            case 7 if tasks:  # one record twice
                return make_sheet(cache, tasks[:at] + [tasks[at]] + tasks[at:])
            case 8 if tasks:  # a wrong length
                right = good[starts[at]]
                near = [right - 1, right + 1, right - 4, right + 4]
                byte = pick.choice(near + [0, 9, 12, 13, 53, 54, 57, 255])
                return good[: starts[at]] + bytes([byte]) + good[starts[at] + 1 :]
            case 9:  # random bytes, at times behind a good head
                noise = bytes(pick.randrange(256) for _ in range(pick.randrange(60)))
                return pick.choice([b"", good[:3], good[:3] + b"\x0d"]) + noise
            case 10:  # the empty sheet, and heads of one to three bytes
                version = pick.choice([1, 1, 1, 0])
                return (bytes([version]) + good[1:3])[: pick.randrange(4)]
            case 11:  # a wrong version, at times on a sheet that is cut as well
                sheet = bytes([pick.choice([0, 2, 255])]) + good[1:]
                return sheet[: pick.choice([1, 2, len(sheet)])]
            case 12:  # a wrong cache size
                return make_sheet(pick.choice(BAD_CACHES), tasks)
            case 13 | 14 if tasks:  # one record's fields wrong
                tasks[at] = self.maybe_spoil(self.spoil(tasks[at], False), 25, False)
                return make_sheet(cache, tasks)
            case 15:  # a record too many, the last one at times wrong as well
                tasks = [self.task(n, ROUND) for n in range(pick.randint(1, 200), 256)][:17]
                tasks[-1] = self.task(pick.choice([tasks[-1].number, 255, 1]), ROUND + STEEP)
                tasks[-1] = self.maybe_spoil(tasks[-1], 20, False)
                return make_sheet(cache, tasks)
            case 16 | 17:  # a hyperperiod near or past its limit
                numbers = sorted(pick.sample(range(1, 256), pick.randint(2, 4)))
                return make_sheet(cache, [self.task(n, STEEP) for n in numbers])
            case 18:  # the longest rows, in up to sixteen records
                rows = [(task.row * 11)[:11] for task in tasks]
                rows = [sorted(row, reverse=True) for row in rows]
                return make_sheet(cache, [t._replace(row=row) for t, row in zip(tasks, rows)])
        return good

    def write(self) -> None:
        exact = len(self.book.sheet())
        longer = min(1_024, exact + self.random.randint(1, 30))
        lengths = [exact, exact, exact - 1, longer, longer, 0, 2, 1_024]
        self.emit("write", self.random.choice(lengths))

    def good_list(self) -> list[int]:
        """Classes in their rows, in some lists all of them small ones."""
        top = self.random.choice([0, 2, 4, 7, 10, 10])
        return [self.random.randint(0, min(top, len(task.row) - 1)) for task in self.book.tasks]

    def classes(self) -> None:
        pick = self.random
        classes = self.good_list()
        if classes and self.chance(20):  # one past its row, or far past it
            at = pick.randrange(len(classes))
            classes[at] = pick.choice([len(self.book.tasks[at].row)] * 2 + [10, 11, 255])
        if self.chance(8):
            classes = classes[:-1]
        if self.chance(8):
            classes = classes + [0]
        self.emit("classes", *classes)

    def fit(self) -> None:
        """A cache that just holds a list, or is one set short of it."""
        classes = self.good_list()
        cache = sum(SETS[klass] for klass in classes) - self.random.randrange(2)
        if 1 <= cache <= 1_024:
            self.emit("load", make_sheet(cache, self.book.tasks).hex())
        self.emit("classes", *classes)

    def run(self, calls: int) -> None:
        weights = {
            self.make: 1, self.make_badly: 3, self.fill: 1, self.climb: 2,
            self.enter: 14, self.append: 10, self.amend: 16, self.withdraw: 6,
            self.load: 20, self.write: 8, self.classes: 12, self.fit: 3,
        }  # fmt: skip
        while len(self.lines) < calls:
            (call,) = self.random.choices(list(weights), list(weights.values()))
            call()


class Questions(Generator):
    """Scripts of small books, each with questions to the tests about it."""

    def __init__(self, seed: int) -> None:
        super().__init__(seed)
        self.answers: Counter[str] = Counter()

    # Books

    def periods(self) -> tuple[list[int], int, int]:
        """The periods of a book, how many tasks, and the longest hyperperiod."""
        pick = self.random
        few = pick.choice([1, 2, 2, 2, 3, 3, 3, 4, 4, 5])
        match pick.randrange(20):
            case 0 | 1:
                return CROWD, pick.choice([6, 8, 10, 13, 15, 16, 16]), TICKS
            case 2:
                return [pick.randint(1, 4) * 25 for _ in range(16)], pick.randint(6, 16), TICKS
            case 3:  # past the hyperperiods that are looked at tick by tick
                return list(range(50, 500)), pick.randint(2, 4), 1_000_000
            case 4 | 5:
                low = pick.choice([1_000, 10_000, 50_000])
                near = [period for period in DECIMAL if low <= period <= 40 * low]
                return near, few, MAX_CYCLE
            case 6:
                return pick.choice([COPRIME, [MAX_TICKS, 500_000]]), 2, MAX_CYCLE
            case _:
                return SMALL, few, pick.choice([60, 400, 1_000, TICKS])

    def deadlines(self, periods: list[int]) -> list[int]:
        """All as long as the periods, or more or less shorter."""
        pick = self.random
        least = pick.choice([1.0, 0.97, 0.8, 0.5, 0.5, 0.3, 0.2, 0.0])
        deadlines = [round(period * pick.uniform(least, 1)) for period in periods]
        if self.chance(25):  # some are not shorter
            deadlines = [pick.choice(pair) for pair in zip(deadlines, periods)]
        return [max(1, deadline) for deadline in deadlines]

    def small_book(self) -> list[Task]:
        """Mostly the shortest deadline first, which suits fixed priorities."""
        pick = self.random
        choice, count, top = self.periods()
        periods: list[int] = []
        for _ in range(4 * count):
            period = pick.choice(choice)
            if len(periods) < count and math.lcm(*periods, period) <= top:
                periods.append(period)
        pairs = list(zip(self.deadlines(periods), periods))
        if self.chance(75):
            pairs.sort()
        numbers = sorted(pick.sample(range(1, 256), len(pairs)))
        return [Task(n, period, d, [1]) for n, (d, period) in zip(numbers, pairs)]

    def begin(self) -> None:
        """Put a new book in place of the present one."""
        tasks = [] if self.chance(2) else self.small_book()
        if len(tasks) > 5 or self.chance(85):
            self.emit("load", make_sheet(self.cache(), tasks).hex())
            return
        self.emit("make", self.cache())
        for task in self.random.sample(tasks, len(tasks)):
            self.emit("enter", *task[:3], *task.row)

    # Piles

    def layer(self) -> tuple[str, int]:
        """Mostly one that leaves small times small."""
        pick = self.random
        if self.chance(50):
            return "m", pick.choice([4_000, 3_999]) if self.chance(8) else pick.choice(MARGINS)
        slack = min((task.deadline for task in self.book.tasks), default=1)
        fair = pick.randint(0, min(slack // 4, 1_000))
        return "c", pick.choice([999, 1_000]) if self.chance(8) else pick.choice(CHARGES + [fair])

    def bad_layer(self) -> tuple[str, int]:
        letter = self.random.choice("cm")
        return letter, self.random.choice(BAD_CHARGES if letter == "c" else BAD_MARGINS)

    def pile(self, name: str) -> Pile:
        """Mostly one beneath which some list passes the test."""
        depth = self.random.choice([0, 0, 0, 0, 1, 1, 1, 2, 2, 3, 3])
        pile = [self.layer() for _ in range(depth)]
        least = [1] * len(self.book.tasks)
        if self.chance(85):
            while pile and not self.passes(name, pile, least):
                pile.pop()
        while pile and self.chance(10):  # two that are refused show which is first
            pile[self.random.randrange(len(pile))] = self.bad_layer()
        return pile

    # Times

    def before(self, pile: Pile, time: int) -> int:
        """About the time that the pile changes to the one given."""
        for letter, number in reversed(pile):
            time = time - 2 * number if letter == "c" else time * 1_000 // max(number, 1)
        return min(max(time, 1), TOP)

    def spread(self, pile: Pile, parts: list[float], use: float) -> list[int]:
        """Times that, changed, use about so much of the processor."""
        pairs = zip(self.book.tasks, parts)
        return [self.before(pile, round(use * part * task.period)) for task, part in pairs]

    def parts(self) -> list[float]:
        """Random parts of a whole, one for each task."""
        tasks = self.book.tasks
        parts = [self.random.random() + 0.05 for _ in tasks]
        if self.chance(50):  # less for those that have little time
            parts = [part * task.deadline / task.period for part, task in zip(parts, tasks)]
        return [part / sum(parts) for part in parts]

    def passes(self, name: str, pile: Pile, times: list[int]) -> bool:
        try:
            return beneath(pile, TESTS[name]).passes(self.book.tasks, times)
        except (Refused, TooManyJobs):
            return False

    def border(self, name: str, pile: Pile) -> list[int]:
        """One of the two neighbouring lists between which the test turns."""
        parts = self.parts()

        def spread(thousandths: int) -> list[int]:
            return self.spread(pile, parts, thousandths / 1_000)

        times = spread(last(1_100, lambda use: self.passes(name, pile, spread(use))))
        at = self.random.randrange(len(times))

        def longer(ticks: int) -> list[int]:
            return times[:at] + [times[at] + ticks] + times[at + 1 :]

        period = self.book.tasks[at].period
        more = last(period, lambda ticks: self.passes(name, pile, longer(ticks)))
        return longer(more + self.chance(40))

    def full(self) -> list[int]:
        """Times that use all of the processor, or a tick too much."""
        tasks = self.book.tasks
        grain = math.gcd(*(task.period for task in tasks))
        if grain < len(tasks):
            return self.spread([], self.parts(), self.random.uniform(0.9, 1))
        cuts = sorted(self.random.sample(range(1, grain), len(tasks) - 1))
        shares = [end - start for start, end in zip([0] + cuts, cuts + [grain])]
        times = [task.period // grain * share for task, share in zip(tasks, shares)]
        times[self.random.randrange(len(times))] += self.chance(20)
        return times

    def wild(self, pile: Pile) -> list[int]:
        """Times that no task can have, or hardly any."""
        wild = [0, 0, 0, 1, MAX_TICKS - 1, MAX_TICKS, TOO_LONG, TOP - 2_000, TOP]
        for letter, number in pile[:1]:  # those it takes just past 32 bits
            over = TOP + 1 - 2 * number if letter == "c" else TOP // max(number, 1) + 1
            wild += [min(max(over + more, 0), TOP) for more in (0, 1, 2)]
        return wild

    def hostile(self, pile: Pile) -> list[int]:
        """A list of any length, or one time in a modest list gone wrong."""
        pick = self.random
        count = len(self.book.tasks)
        times = self.spread(pile, self.parts(), 0.2) if count else []
        wild = self.wild(pile)
        if self.chance(60) and times:
            times[pick.choice([0, pick.randrange(count), count - 1])] = pick.choice(wild)
            return times
        length = pick.choice([0, 0, max(count - 1, 0), count + 1, 20, pick.randint(0, 20)])
        return (times + [pick.choice([1, pick.choice(wild)]) for _ in range(20)])[:length]

    def times(self, name: str, pile: Pile) -> list[int]:
        if not self.book.tasks or self.chance(12):
            return self.hostile(pile)
        if not pile and self.chance(20 if cycle(self.book.tasks) <= TICKS else 40):
            return self.full()
        if self.chance(60 if cycle(self.book.tasks) <= 1_000 else 30):
            return self.border(name, pile)
        return self.spread(pile, self.parts(), self.random.uniform(0.5, 1.02))

    # Questions

    def put(self, name: str, *parts: object) -> None:
        """A question that the model can answer in short time."""
        try:
            result = self.emit(*parts)
        except TooManyJobs:
            return
        self.answers[f"{name}: {result.split()[0]}"] += 1

    def ask(self, name: str, pile: Pile, times: list[int]) -> None:
        self.put(f"ask {name}", "ask", name, spell(pile), *times)

    def tell(self, pile: Pile, times: list[int]) -> None:
        places = range(len(self.book.tasks))
        outside = [len(places), len(places), 15, 16, 255, 256, TOP]
        place = self.random.choice(outside if self.chance(10) or not places else places)
        self.put("tell", "tell", spell(pile), place, *times)

    def malformed(self) -> None:
        """A question with one word wrong or missing."""
        pick = self.random
        words: list[object] = ["ask", pick.choice(list(TESTS)), spell(self.pile("fixed"))]
        wrong = {1: BAD_TESTS, 2: BAD_PILES}
        if self.chance(40):
            words = ["tell", spell(self.pile("fixed")), pick.randrange(3)]
            wrong = {1: BAD_PILES, 2: BAD_NUMBERS}
        words += self.hostile([])
        if self.chance(20):
            words = words[: pick.randint(1, 2)]
        elif len(words) > 3 and self.chance(30):
            words[pick.randrange(3, len(words))] = pick.choice(BAD_NUMBERS)
        else:
            at = pick.choice([1, 2])
            words[at] = pick.choice(wrong[at])
        self.put("malformed", *words)

    def about(self) -> None:
        """Some questions about the present book, mostly one list to each."""
        for _ in range(self.random.randint(1, 4)):
            name = self.random.choice(list(TESTS))
            pile = self.pile(name)
            times = self.times(name, pile)
            for other in TESTS:
                if other == name or self.chance(40):
                    self.ask(other, pile, times)
            if self.chance(70 if name == "fixed" else 20):
                self.tell(pile, times)
        if self.chance(15):
            self.malformed()
        if self.book.tasks and self.chance(5):
            self.withdraw()
            self.about()

    def run(self, calls: int) -> None:
        self.about()  # the built-in book
        while len(self.lines) < calls:
            self.begin()
            self.about()


def last(top: int, passes: Callable[[int], bool]) -> int:
    """The last number up to the top that passes, where all below it do; else 0."""
    low, high = 0, top + 1
    while high - low > 1:
        middle = (low + high) // 2
        low, high = (middle, high) if passes(middle) else (low, middle)
    return low


def spell(pile: Pile) -> str:
    return ",".join(f"{letter}{number}" for letter, number in pile) or "-"


def main() -> None:
    match sys.argv[1:]:
        case [seed, calls]:
            generator = Generator(int(seed))
        case [seed, calls, "tests"] | [seed, calls, "tests", "--stats"]:
            generator = Questions(int(seed))
        case _:
            raise SystemExit("usage: generate.py SEED CALLS [tests [--stats]]")
    generator.run(int(calls))
    print("\n".join(generator.lines))
    if isinstance(generator, Questions) and "--stats" in sys.argv:
        for name, count in sorted(generator.answers.items()):
            print(f"{count:6} {name}", file=sys.stderr)


if __name__ == "__main__":
    main()

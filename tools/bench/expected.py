#!/usr/bin/env python3
"""What the program bench is to print, by the independent model.

Reads the input of bench on standard input; the head of tools/bench/run lists
its lines.
"""

import sys
from pathlib import Path

sys.path.insert(0, str(Path(__file__).resolve().parent.parent))
from oracle import EarliestDeadline, FixedPriority, Task  # noqa: E402

TESTS = {"fixed": FixedPriority(), "earliest": EarliestDeadline()}


def main() -> None:
    tasks: list[Task] = []
    lists: list[list[int]] = []
    for line in sys.stdin:
        word, *rest = line.split()
        numbers = [int(number) for number in rest]
        if word == "task":
            tasks = sorted([*tasks, Task(*numbers, [1])])
        elif word == "list":
            lists.append(numbers)
        else:
            yes = sum(TESTS[word].passes(tasks, times) for times in lists)
            print(f"asked {len(lists) * numbers[0]}, yes {yes * numbers[0]}")


if __name__ == "__main__":
    main()

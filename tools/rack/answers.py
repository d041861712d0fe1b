"""The lines that rackrun prints, each put beside the record that it answers."""

import re
from typing import NamedTuple, Optional

from rack import records
from rack.clock import Clock
from rack.files import Failure, read_lines
from rack.text import Item

LINE = re.compile(r"([0-9]{1,3}) (-|[0-9]{1,2})" + r" ([0-9]{1,10})" * 5)
SETS = ("due", "started", "ended", "lost", "granted")

REFUSALS = {
    1: "kernel out of its limits",
    2: "no such record",
    3: "field out of range or not zero",
    4: "wrong list",
    5: "not declared",
    6: "wrong time or period",
    7: "no place left",
    8: "nobody runs",
    9: "already alive",
    10: "not alive",
    11: "already suspended",
    12: "not held",
    13: "semaphore full",
    14: "no writer or reader there",
    15: "last instant reached",
    16: "wrong running task or instant to come on file",
    17: "nothing to come by the last instant",
}


def refusal_text(number, record):
    """A few words for a refusal; a whole record with a known mark gets 2 for one reason only."""
    if number == 2 and records.mark_of(record):
        return "declared too late"
    return REFUSALS.get(number, "")


class Answer(NamedTuple):
    number: int
    running: Optional[int]
    due: int
    started: int
    ended: int
    lost: int
    granted: int

    @property
    def sets(self):
        return self[2:]

    @property
    def quiet(self):
        return self.number == 0 and not any(self.sets)


class Answered(NamedTuple):
    """One record of a script and the instant after it. An accepted declaration has no answer,
    but says what it declared."""
    item: Item
    answer: Optional[Answer]
    declared: str
    instant: int


class Pairing:
    """Goes through a script and its lines side by side and knows what is declared so far."""

    def __init__(self, items, lines_name):
        self.items = items
        self.name = lines_name
        self.lines = read_lines(lines_name)
        self.declared = dict.fromkeys(records.PLACES, 0)
        self.called = False         # a call was accepted
        self.running = None         # the task of the last line
        self.clock = Clock()

    @property
    def tasks(self):
        return self.declared["DT"]

    def __iter__(self):
        for item in self.items:
            for _ in range(item.count):
                declared = self._declare(item.record)
                answer = self._answer(item) if declared is None else None
                yield Answered(item, answer, declared or "", self.clock.now)
        self._no_more_lines()

    def _declare(self, record):
        """Carry out a declaration that is accepted and say what it made; None for any other record."""
        mark = records.mark_of(record)
        if mark not in records.DECLARATIONS or self.called or records.refusal(record):
            return None
        if mark == "DC":
            self.clock.follow(record, None)
            return "clock"
        if self.declared[mark] == records.PLACES[mark]:
            return None
        kind = {"DT": "task", "DS": "semaphore", "DB": "bolt", "IT": "interrupt"}[mark]
        self.declared[mark] += 1
        return f"{kind} {self.declared[mark] - 1}"

    def _answer(self, item):
        number, line = next(self.lines, (None, None))
        if line is None:
            raise Failure(f"{self.name}: too few lines: none is left for '{item.words}' ({item.place})")
        answer = self._read(number, line)
        self._check(item, number, answer)
        if answer.number == 0:
            self.called = True
            self.clock.follow(item.record, self.running)
        self.running = answer.running
        return answer

    def _read(self, number, line):
        match = LINE.fullmatch(line)
        if not match:
            raise Failure(f"{self.name}:{number}: expected a number, the running task or -, "
                          f"and five sets, found '{line}'")
        refused, running, *sets = match.groups()
        return Answer(int(refused), None if running == "-" else int(running), *map(int, sets))

    def _check(self, item, number, answer):
        """Find lines that cannot belong to this script."""
        here = f"{self.name}:{number}: the line does not fit '{item.words}' ({item.place}): "
        stranger_runs = answer.running is not None and answer.running >= self.tasks
        if stranger_runs or any(value >> self.tasks for value in answer.sets):
            raise Failure(f"{here}it names a task that is not declared")
        if answer.number and any(answer.sets):
            raise Failure(f"{here}a refused record has empty sets")
        if answer.number == 0 and self._surely_refused(item.record):
            raise Failure(f"{here}this record is refused, but the line says accepted")

    def _surely_refused(self, record):
        """A declaration that gets here is refused, and so are what no reader takes and a sleep
        with nothing to come."""
        return (records.mark_of(record) in records.DECLARATIONS or records.refusal(record)
                or record == records.SLEEP and not self.clock.can_sleep)

    def _no_more_lines(self):
        first = next(self.lines, None)
        if first:
            more = 1 + sum(1 for _ in self.lines)
            raise Failure(f"{self.name}:{first[0]}: too many lines: "
                          f"the script has {first[0] - 1} answers, {more} more found")

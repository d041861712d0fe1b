"""The text form: one call a line, to records and back."""

import re
from typing import NamedTuple

from rack import records
from rack.records import BYTE_LIMIT, LIST_PLACES, SIZE, SLEEP, TICK, TIME_LIMIT, pack

# Words that stand alone, take one number, take a list, or may be followed by a count.
BARE = {"BOLT": "DB", "INTERRUPT": "IT", "END": "EN"}
NUMBERED = {"TERMINATE": "TE", "SUSPEND": "SU", "PREVENT": "PR",
            "TRIGGER": "TG", "ENABLE": "EI", "DISABLE": "XI"}
LISTED = {"REQUEST": "RQ", "RELEASE": "RL", "TRY": "TR",
          "RESERVE": "RS", "FREE": "FR", "ENTER": "ET", "LEAVE": "LV"}
COUNTED = {"TICK": TICK, "SLEEP": SLEEP}
COUNTED_WORD = {record: word for word, record in COUNTED.items()}
UNITS = {"HRS": 3_600_000, "MIN": 60_000, "SEC": 1_000, "MS": 1}
UNIT_WORDS = "MS, SEC, MIN or HRS"

NUMBER = re.compile(r"[0-9]{1,18}")
TIME_OF_DAY = re.compile(r"([0-9]{1,7}):([0-5]?[0-9])(?::([0-5]?[0-9])(?:\.([0-9]{3}))?)?")
HEX_BYTE = re.compile(r"[0-9A-F]{2}")


class Item(NamedTuple):
    """One line of a script: its record, how often it comes, the words, and where they stand."""
    record: bytes
    count: int
    words: str
    place: str


class Wrong(Exception):
    """A line of text that is no call; the message says what was expected and what was found."""


def expected(what, found):
    return Wrong(f"expected {what}, found {found}")


# ---------------------------------------------------------------- reading text

class Words:
    """The words of one line, taken from the left."""

    def __init__(self, line):
        shown = line.split("#", 1)[0].split()
        self.shown = shown                      # as written, for messages
        self.words = [w.upper() if w.isascii() else w for w in shown]
        self.at = 0

    def next(self):
        return self.words[self.at] if self.at < len(self.words) else None

    def found(self):
        """What stands here, for a message."""
        return f"'{self.shown[self.at]}'" if self.next() is not None else "the end of the line"

    def take(self, word):
        """Take this word if it is the next one."""
        if self.next() != word:
            return False
        self.at += 1
        return True

    def need(self, word, what=None):
        if not self.take(word):
            raise expected(what or word, self.found())

    def next_is_number(self):
        return self.next() is not None and NUMBER.fullmatch(self.next()) is not None

    def number(self, what, most):
        wanted = f"{what} from 0 to {most}"
        if not self.next_is_number() or int(self.next()) > most:
            raise expected(wanted, self.found())
        self.at += 1
        return int(self.words[self.at - 1])

    def end(self, what="the end of the line"):
        if self.next() is not None:
            raise expected(what, self.found())


def read_line(line):
    """(record, count) for the call in this line, None if the line has none."""
    words = Words(line)
    if words.next() is None:
        return None
    return _read_call(words)


def _read_call(words):
    first = words.next()
    for table, read in ((BARE, _read_bare), (NUMBERED, _read_numbered), (LISTED, _read_list)):
        if first in table:
            words.take(first)
            return read(words, table[first]), 1
    if first in COUNTED:
        words.take(first)
        return COUNTED[first], _read_count(words, f"a number of {first.lower()}s")
    if first in READERS:
        return READERS[first](words), 1
    raise expected("a declaration or a call", words.found())


def _read_bare(words, mark):
    words.end()
    return pack(mark)


def _read_numbered(words, mark):
    kind = "an interrupt number" if mark in ("TG", "EI", "XI") else "a task number"
    number = words.number(kind, BYTE_LIMIT)
    words.end()
    return pack(mark, number=number)


def _read_list(words, mark):
    numbers = []
    while len(numbers) < LIST_PLACES and words.next() is not None:
        numbers.append(words.number("a number", BYTE_LIMIT))
    words.end(f"at most {LIST_PLACES} numbers")
    return pack(mark, numbers)


def _read_count(words, what):
    if words.next() is None:
        return 1
    if not words.next_is_number() or int(words.next()) == 0:
        raise expected(f"{what}, 1 or more", words.found())
    count = words.number(what, 10**18)
    words.end()
    return count


def _read_task(words):
    words.take("TASK")
    words.need("PRIO")
    priority = words.number("a priority", BYTE_LIMIT)
    words.end()
    return pack("DT", priority=priority)


def _read_sema(words):
    words.take("SEMA")
    preset = 0
    if words.next() is not None:
        words.need("PRESET", "PRESET or the end of the line")
        preset = words.number("a preset", TIME_LIMIT)
    words.end()
    return pack("DS", first=preset)


def _read_clock(words):
    words.take("CLOCK")
    time = _read_time_of_day(words)
    words.end()
    return pack("DC", first=time)


def _read_continue(words):
    words.take("CONTINUE")
    return _read_task_and_priority(words, "CO")


def _read_activate(words):
    words.take("ACTIVATE")
    return _read_task_and_priority(words, "AC")


def _read_task_and_priority(words, mark, **fields):
    number = words.number("a task number", BYTE_LIMIT)
    priority = 0
    if words.next() is not None:
        words.need("PRIO", "PRIO or the end of the line")
        priority = words.number("a priority", BYTE_LIMIT)
    words.end()
    return pack(mark, number=number, priority=priority, **fields)


def _read_at(words):
    words.take("AT")
    return _read_scheduled(words, kind=records.AT, first=_read_time_of_day(words))


def _read_after(words):
    words.take("AFTER")
    first = _read_duration(words)
    if words.take("RESUME"):
        return _read_delay(words, first)
    return _read_scheduled(words, kind=records.AFTER, first=first)


def _read_delay(words, first):
    """The plain delay, or the schedule that suspends the runner meanwhile."""
    if words.take("SUSPENDED"):
        words.end()
        return pack("RE", kind=records.AFTER, first=first)
    words.end("SUSPENDED or the end of the line")
    return pack("RE", first=first)


def _read_when(words):
    words.take("WHEN")
    interrupt = words.number("an interrupt number", BYTE_LIMIT)
    if words.take("AFTER"):
        first = _read_duration(words)
        return _read_scheduled(words, kind=records.WHEN_AFTER, interrupt=interrupt, first=first)
    return _read_scheduled(words, also=["AFTER"], kind=records.WHEN, interrupt=interrupt)


def _read_all(words):
    return _read_start(words, kind=records.ALL)


def _read_scheduled(words, also=(), **when):
    """The call behind AT, AFTER or WHEN; only a start goes on from there."""
    if words.take("CONTINUE"):
        return _read_task_and_priority(words, "CO", **when)
    if words.take("RESUME"):
        words.end()
        return pack("RE", **when)
    choices = [*also, "ALL", "UNTIL", "DURING", "ACTIVATE", "CONTINUE", "RESUME"]
    return _read_start(words, choices, **when)


def _read_start(words, choices=(), **when):
    """The rest of a start: period, end, and the task; choices are what may stand here."""
    period = end_kind = end = 0
    if words.take("ALL"):
        period = _read_duration(words)
        choices = ["UNTIL", "DURING", "ACTIVATE"]
    if words.take("UNTIL"):
        end_kind, end = records.UNTIL, _read_time_of_day(words)
        choices = ["ACTIVATE"]
    elif words.take("DURING"):
        end_kind, end = records.DURING, _read_duration(words)
        choices = ["ACTIVATE"]
    words.need("ACTIVATE", _either(choices))
    return _read_task_and_priority(words, "AC", period=period, end_kind=end_kind, end=end, **when)


def _either(choices):
    return choices[0] if len(choices) == 1 else ", ".join(choices[:-1]) + " or " + choices[-1]


def _read_time_of_day(words):
    match = TIME_OF_DAY.fullmatch(words.next() or "")
    if match:
        hours, minutes, seconds, ms = (int(part or 0) for part in match.groups())
        time = hours * UNITS["HRS"] + minutes * UNITS["MIN"] + seconds * UNITS["SEC"] + ms
        if time <= TIME_LIMIT:
            words.at += 1
            return time
    raise expected("a time of day such as 22:00, 22:00:00 or 22:00:00.500", words.found())


def _read_duration(words):
    total = 0
    start = words.at
    if not words.next_is_number():
        raise expected("a duration such as 5 SEC or 1 MIN 30 SEC", words.found())
    while words.next_is_number():
        amount = words.number("a number", TIME_LIMIT)
        if words.next() not in UNITS:
            raise expected(f"a unit {UNIT_WORDS}", words.found())
        total += amount * UNITS[words.next()]
        words.at += 1
    if total > TIME_LIMIT:
        written = " ".join(words.shown[start:words.at])
        raise expected(f"a duration of at most {TIME_LIMIT} MS", f"'{written}'")
    return total


def _read_bytes(words):
    words.take("BYTES")
    record = bytearray()
    while len(record) < SIZE and HEX_BYTE.fullmatch(words.next() or ""):
        record.append(int(words.next(), 16))
        words.at += 1
    if not record:
        raise expected(f"1 to {SIZE} bytes of two hexadecimal digits", words.found())
    if len(record) == SIZE:
        words.end(f"at most {SIZE} bytes")
    words.end("a byte of two hexadecimal digits")
    return bytes(record)


READERS = {"TASK": _read_task, "SEMA": _read_sema, "CLOCK": _read_clock,
           "ACTIVATE": _read_activate, "CONTINUE": _read_continue, "AT": _read_at,
           "AFTER": _read_after, "WHEN": _read_when, "ALL": _read_all, "BYTES": _read_bytes}


def read_script(text, name):
    """The items of a text script and the messages about its wrong lines."""
    items, wrong = [], []
    for number, line in enumerate(text.split("\n"), 1):
        place = f"{name}:{number}"
        try:
            call = read_line(line)
        except Wrong as error:
            wrong.append((number, str(error)))
            continue
        if call:
            items.append(Item(*call, " ".join(Words(line).shown), place))
            short_before = len(items) > 1 and len(items[-2].record) < SIZE
            if short_before:
                wrong.append(_short_in_between(items[-2]))
    return items, [f"{name}:{number}: {message}" for number, message in sorted(wrong)]


def _short_in_between(item):
    line = int(item.place.rsplit(":", 1)[1])
    found = f"{len(item.record)} with further records behind them"
    return line, f"expected {SIZE} bytes (fewer only in the last record), found {found}"


# ---------------------------------------------------------------- writing text

def write_record(record):
    """The words for a record: its call, or BYTES where a reader refuses it."""
    if records.refusal(record):
        return f"BYTES {record.hex(' ').upper()}"
    return COUNTED_WORD.get(record) or _write_call(records.unpack(record))


def write_reason(record):
    """A comment that says why a reader refuses the record, if it does."""
    refused = records.refusal(record)
    return f"  # refused with {refused[0]}: {refused[1]}" if refused else ""


def _write_call(f):
    if f.mark in WORD_OF:
        return " ".join([WORD_OF[f.mark], *_arguments(f)])
    if f.mark == "DT":
        return f"TASK PRIO {f.priority}"
    if f.mark == "DS":
        return f"SEMA PRESET {f.first}"
    if f.mark == "DC":
        return f"CLOCK {write_time_of_day(f.first)}"
    return _write_start(f) + _write_started(f)


WORD_OF = {mark: word for table in (BARE, NUMBERED, LISTED) for word, mark in table.items()}


def _arguments(f):
    if f.mark in NUMBERED.values():
        return [str(f.number)]
    return [str(number) for number in f.numbers]


def _write_started(f):
    """What a start condition brings about."""
    if f.mark == "RE":
        return "RESUME SUSPENDED" if f.kind == records.AFTER else "RESUME"
    word = "ACTIVATE" if f.mark == "AC" else "CONTINUE"
    priority = f" PRIO {f.priority}" if f.priority else ""
    return f"{word} {f.number}{priority}"


def _write_start(f):
    parts = []
    if f.kind == records.AT:
        parts.append(f"AT {write_time_of_day(f.first)}")
    if f.kind in (records.WHEN, records.WHEN_AFTER):
        parts.append(f"WHEN {f.interrupt}")
    if f.kind in (records.AFTER, records.WHEN_AFTER) or records.is_delay(f):
        parts.append(f"AFTER {write_duration(f.first)}")
    if f.period:
        parts.append(f"ALL {write_duration(f.period)}")
    if f.end_kind == records.UNTIL:
        parts.append(f"UNTIL {write_time_of_day(f.end)}")
    if f.end_kind == records.DURING:
        parts.append(f"DURING {write_duration(f.end)}")
    return "".join(part + " " for part in parts)


def write_time_of_day(time):
    seconds, ms = divmod(time, 1000)
    minutes, seconds = divmod(seconds, 60)
    hours, minutes = divmod(minutes, 60)
    fraction = f".{ms:03}" if ms else ""
    return f"{hours:02}:{minutes:02}:{seconds:02}{fraction}"


def write_duration(time):
    parts = []
    for unit, size in UNITS.items():
        amount, time = divmod(time, size)
        if amount:
            parts.append(f"{amount} {unit}")
    return " ".join(parts) or "0 MS"


def write_line(item):
    """The line of text for an item of a file of records."""
    if item.count > 1:
        return f"{item.words} {item.count}"
    return item.words + write_reason(item.record)

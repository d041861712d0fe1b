"""The record of 24 bytes: its fields, and what can be said against it without a kernel."""

import struct
from typing import NamedTuple

SIZE = 24
LAYOUT = struct.Struct(">2sBBB4sBBBIII")

DAY_END = 86_399_999            # the last millisecond of a day
LONGEST = 1_000_000_000         # the longest duration and period in ms
MOST_PRESET = 65_535
LIST_PLACES = 4
BYTE_LIMIT = 2**8 - 1
TIME_LIMIT = 2**32 - 1

# The declarations that take a place, and how many places there are.
PLACES = {"DT": 32, "DS": 16, "DB": 16, "IT": 8}
DECLARATIONS = set(PLACES) | {"DC"}

# Which fields each mark uses; AC, CO and RE use more, by start kind and end kind.
LIST_MARKS = ("RQ", "RL", "TR", "RS", "FR", "ET", "LV")
USED = {
    "DT": {"priority"}, "DS": {"first"}, "DB": set(), "IT": set(), "DC": {"first"},
    "AC": {"number", "priority", "kind"},
    "TE": {"number"}, "SU": {"number"}, "PR": {"number"}, "CO": {"number", "priority", "kind"},
    "EN": set(), "RE": {"kind"},
    **{mark: {"length", "places"} for mark in LIST_MARKS},
    "TG": {"number"}, "EI": {"number"}, "XI": {"number"}, "TI": set(), "SL": set(),
}
AT, AFTER, WHEN, WHEN_AFTER, ALL = 1, 2, 3, 4, 5
USED_BY_KIND = {
    0: set(), AT: {"first"}, AFTER: {"first"}, WHEN: {"interrupt"},
    WHEN_AFTER: {"interrupt", "first"}, ALL: set(),
}
# The marks with a start kind, and the highest that each takes.
LAST_KIND = {"AC": ALL, "CO": WHEN_AFTER, "RE": WHEN_AFTER}
UNTIL, DURING = 1, 2

NAMES = {
    "number": "task or interrupt number", "priority": "priority", "length": "list length",
    "places": "list", "kind": "start kind", "interrupt": "interrupt of a start",
    "end_kind": "end kind", "first": "first time", "period": "period", "end": "end time",
}


class Fields(NamedTuple):
    mark: str
    number: int = 0
    priority: int = 0
    length: int = 0
    places: bytes = bytes(LIST_PLACES)
    kind: int = 0
    interrupt: int = 0
    end_kind: int = 0
    first: int = 0
    period: int = 0
    end: int = 0

    @property
    def numbers(self):
        """The numbers that the list names."""
        return tuple(self.places[:self.length])


def pack(mark, numbers=(), **fields):
    """The 24 bytes with this mark, this list and these fields; all else is zero."""
    places = bytes(numbers).ljust(LIST_PLACES, b"\0")
    filled = Fields(mark, length=len(numbers), places=places, **fields)
    return LAYOUT.pack(mark.encode("ascii"), *filled[1:])


def unpack(record):
    mark, *rest = LAYOUT.unpack(record)
    return Fields(mark.decode("latin-1"), *rest)


TICK = pack("TI")
SLEEP = pack("SL")


def mark_of(record):
    """The mark of a whole record, None if it is too short or the mark is unknown."""
    mark = record[:2].decode("latin-1")
    return mark if len(record) == SIZE and mark in USED else None


def refusal(record):
    """(number, reason) if a reader without a kernel refuses the record, otherwise None."""
    if len(record) != SIZE:
        return 2, f"{len(record)} bytes, not {SIZE}"
    if mark_of(record) is None:
        return 2, "unknown mark"
    fields = unpack(record)
    for number, ground in ((3, _wrong_field), (4, _wrong_list), (6, _wrong_time)):
        reason = ground(fields)
        if reason:
            return number, reason
    return None


def _wrong_field(f):
    if f.mark == "DT" and f.priority == 0:
        return "priority 0 for a task"
    if f.mark == "DS" and f.first > MOST_PRESET:
        return f"preset {f.first}, at most {MOST_PRESET}"
    if f.mark in LAST_KIND and f.kind > LAST_KIND[f.mark]:
        return f"start kind {f.kind}, at most {LAST_KIND[f.mark]}"
    if f.mark in LIST_MARKS and f.length > LIST_PLACES:
        return f"list length {f.length}, at most {LIST_PLACES}"
    used = _used(f)
    if "end_kind" in used and f.end_kind > DURING:
        return f"end kind {f.end_kind}, at most {DURING}"
    for name, value in zip(Fields._fields[1:], f[1:]):
        if name not in used and value not in (0, bytes(LIST_PLACES)):
            return f"{NAMES[name]} is not used and not zero"
    if f.mark in LIST_MARKS and any(f.places[f.length:]):
        return "the list goes on past its length"
    return None


def _used(f):
    used = USED[f.mark]
    if f.mark in LAST_KIND:
        used = used | USED_BY_KIND[f.kind]
    if f.mark == "AC" and f.kind:
        used = used | {"period", "end_kind"} | ({"end"} if f.end_kind else set())
    if is_delay(f):
        used = used | {"first"}
    return used


def is_delay(f):
    """RESUME without a schedule: the plain delay."""
    return f.mark == "RE" and f.kind == 0


def _wrong_list(f):
    if f.mark not in LIST_MARKS:
        return None
    if not f.numbers:
        return "empty list"
    if len(set(f.numbers)) < len(f.numbers):
        return "the list names a number twice"
    if f.mark == "TR" and len(f.numbers) > 1:
        return "TRY takes one number"
    return None


def _wrong_time(f):
    if f.mark == "DC":
        return _wrong_time_of_day(f.first)
    if f.mark in LAST_KIND:
        return _wrong_first(f) or _wrong_period(f) or _wrong_end(f)
    return None


def _wrong_first(f):
    if f.kind == AT:
        return _wrong_time_of_day(f.first)
    if f.kind in (AFTER, WHEN_AFTER) or is_delay(f):
        return _wrong_duration(f.first)
    return None


def _wrong_period(f):
    if f.period > LONGEST:
        return f"period of {f.period} ms, at most {LONGEST}"
    if f.kind == ALL and f.period == 0:
        return "period of 0 ms"
    return None


def _wrong_end(f):
    if f.end_kind and f.period == 0:
        return "an end without a period"
    if f.end_kind == UNTIL:
        return _wrong_time_of_day(f.end)
    if f.end_kind == DURING:
        return _wrong_duration(f.end)
    return None


def _wrong_time_of_day(time):
    return f"time of day of {time} ms, at most {DAY_END}" if time > DAY_END else None


def _wrong_duration(time):
    return None if 1 <= time <= LONGEST else f"duration of {time} ms, 1 to {LONGEST}"

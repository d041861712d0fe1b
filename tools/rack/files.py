"""Reading scripts and lines from files, writing records."""

import sys
from itertools import groupby

from rack import text
from rack.records import SIZE

CHUNK = 4096        # records read or written at once


class Failure(Exception):
    """Something that ends the program; the message is for standard error."""


def open_bytes(name):
    if name == "-":
        return sys.stdin.buffer
    try:
        return open(name, "rb")
    except OSError as error:
        raise Failure(f"{name}: {error.strerror}") from None


def read_records(name):
    """The items of a file of records; a short rest is the last one."""
    number = 0
    for word, run in groupby(_split(name), text.COUNTED_WORD.get):
        if word:
            count = sum(1 for _ in run)
            yield text.Item(text.COUNTED[word], count, word, f"{name}, record {number + 1}")
            number += count
            continue
        for record in run:
            number += 1
            yield text.Item(record, 1, text.write_record(record), f"{name}, record {number}")


def _split(name):
    with open_bytes(name) as source:
        while chunk := source.read(SIZE * CHUNK):
            for at in range(0, len(chunk), SIZE):
                yield chunk[at:at + SIZE]


def read_text(name):
    """The items of a text script; all its wrong lines are reported at once."""
    with open_bytes(name) as source:
        content = source.read().decode("utf-8", errors="replace")
    items, wrong = text.read_script(content, name)
    if wrong:
        raise Failure("\n".join(wrong))
    return items


def write_records(items, output):
    for item in items:
        left = item.count
        while left:
            block = min(left, CHUNK)
            output.write(item.record * block)
            left -= block


def read_lines(name):
    """The lines of a file without their ends, as (line number, line)."""
    with open_bytes(name) as source:
        for number, line in enumerate(source, 1):
            yield number, line.decode("utf-8", errors="replace").removesuffix("\n")

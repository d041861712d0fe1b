"""The functions and types of a Rattle file, in the layout that rt fmt gives."""

import re
from dataclasses import dataclass, field

from .tokens import tokens

ITEM = re.compile(r"(?:pub(?:\([a-z]+\))? )?(?:ghost |extern \S+ |unsafe )*(fn|struct|enum|const|static|type) (\w+)")
# impl Task, or impl Trait for Task
IMPL = re.compile(r"impl(?:<[^>]*>)? (?:[^{]* for )?(\w+)")
MEMBER = re.compile(r"(?:pub )?(\w+)")


@dataclass
class Item:
    name: str      # of a method with its type: Kernel::step
    kind: str      # fn, struct, enum, const
    line: int
    text: str      # of a function its head and contract, without the body
    last: int      # the line in which it ends, with its body
    members: list = field(default_factory=list)    # fields or variants

    def tokens(self):
        return tokens(self.text)


def items(text):
    """Every function, type and constant of a file, also those within an impl; comments are left out."""
    found, owner = [], ""
    current, start, ending = None, 0, None         # the item at hand, its indent, and where its body ends
    for number, raw in enumerate(text.split("\n"), 1):
        line = re.sub(r"(^|\s)//.*$", "", raw).rstrip()
        indent = len(line) - len(line.lstrip())
        words = line.strip()
        if not words:
            continue
        if ending is not None:                     # within an item
            if indent == ending and words.startswith("}"):
                current.last = number
                current = ending = None
            elif current.kind != "fn":
                current.text += "\n" + line
                match = MEMBER.match(words)
                if indent == ending + 4 and match:
                    current.members.append(match.group(1))
        elif current:                              # within a function's head
            current.text += "\n" + line
            if indent == start and line.endswith("{"):
                ending = start
        elif match := ITEM.match(words):
            name = f"{owner}::{match.group(2)}" if owner and indent else match.group(2)
            item = Item(name, match.group(1), number, line, number)
            found.append(item)
            if line.endswith("{"):
                current, ending = item, indent
            elif item.kind == "fn" and not line.endswith("}"):
                current, start = item, indent
        elif match := IMPL.match(words):
            owner = match.group(1)
        elif indent == 0:
            owner = ""
    return found

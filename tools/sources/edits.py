"""The must-fail edits of a crate: what is wrong with each, and the texts that it replaces."""

import glob
import os
from dataclasses import dataclass

from .crates import Failure


@dataclass
class Edit:
    name: str
    words: str     # of its first line, without the full stop
    changes: list  # (file within the crate, old text), in order

    def files(self):
        return list(dict.fromkeys(file for file, _ in self.changes))


def of_crate(root, crate):
    """The edits of a crate, by name."""
    found = []
    for path in sorted(glob.glob(os.path.join(root, "crates", crate, "must-fail", "*.edit"))):
        with open(path, encoding="utf-8") as file:
            lines = file.read().split("\n")
        if not lines[0].startswith("# "):
            raise Failure(f"{os.path.relpath(path, root)}: expected what is wrong in the first line, after '# '")
        name = os.path.basename(path).removesuffix(".edit")
        found.append(Edit(name, lines[0].removeprefix("# ").strip().removesuffix("."), list(changes(lines))))
    return found


def changes(lines):
    """A file: holds for each old: after it. A text ends with its line, as rt has it; other lines are passed over."""
    name = None
    for line in lines:
        if line.startswith("file: "):
            name = line.removeprefix("file: ")
        elif line.startswith("old: "):
            yield name, line.removeprefix("old: ")

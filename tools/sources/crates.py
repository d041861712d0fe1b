"""The source files of all crates, of a commit or of the work tree, and what they declare."""

import io
import os
import subprocess
import tarfile
from collections import Counter
from dataclasses import dataclass

from . import antt, rattle

DEFINITION, STATEMENT, CONTRACT, PROOF = "definition", "statement", "contract", "proof"

# What is written of the proof of a function F stands in these files of proofs/F.
OF_FUNCTION = ("Invariants.antt", "Answers.antt", "Proof.antt")


class Failure(Exception):
    """What stops a tool, in words for its user."""


@dataclass
class Entry:
    crate: str
    sort: str      # one of the four above
    name: str
    file: str      # within the crate
    tokens: list
    shared: bool = False    # another one of the crate and sort has the name


def git(root, *words):
    done = subprocess.run(["git", "-C", root, *words], capture_output=True)
    if done.returncode:
        raise Failure(f"git {words[0]}: {done.stderr.decode().strip()}")
    return done.stdout


def at_commit(root, commit):
    """{path: text} of the sources under crates/ of a commit."""
    # A commit without crates has no such path to archive.
    if not git(root, "ls-tree", commit, "crates"):
        return {}
    with tarfile.open(fileobj=io.BytesIO(git(root, "archive", commit, "crates"))) as tar:
        return {member.name: tar.extractfile(member).read().decode()
                for member in tar if member.isfile() and is_source(member.name)}


def at_work(root):
    """{path: text} of the sources under crates/ as they lie there."""
    files = {}
    for folder, _, names in os.walk(os.path.join(root, "crates")):
        for name in names:
            path = os.path.join(folder, name)
            if is_source(path):
                with open(path, encoding="utf-8") as file:
                    files[os.path.relpath(path, root)] = file.read()
    return files


def is_source(path):
    return path.endswith((".antt", ".rt"))


def listed(root):
    """The crates of crates.txt, in its order."""
    with open(os.path.join(root, "crates.txt"), encoding="utf-8") as file:
        lines = (line.split("#")[0] for line in file)
        return [line.split(":")[0].strip() for line in lines if ":" in line]


def entries(files):
    """What the crates declare. The files of a function's proof are one entry; what only lists modules is none."""
    found, proofs = [], {}
    for path, text in sorted(files.items()):
        _, crate, *rest = path.split("/")
        if len(rest) < 2:
            continue
        file = "/".join(rest)
        if rest[0] == "src":
            found += of_source(crate, rest[1:], file, text)
        elif len(rest) > 2 and rest[-1] in OF_FUNCTION:
            folder = "/".join(rest[:-1])
            if (crate, folder) not in proofs:
                proofs[crate, folder] = Entry(crate, PROOF, "::".join(rest[1:-1]), folder, [])
                found.append(proofs[crate, folder])
            proofs[crate, folder].tokens += [token for part in antt.declarations(text) for token in part.tokens()]
        elif rest[0] in ("specs", "proofs"):
            sort = DEFINITION if rest[0] == "specs" else PROOF
            found += [Entry(crate, sort, part.name, file, part.tokens()) for part in antt.declarations(text)]
    mark_statements(files, found)
    named = Counter((entry.crate, entry.sort, entry.name) for entry in found)
    for entry in found:
        entry.shared = named[entry.crate, entry.sort, entry.name] > 1
    return found


def of_source(crate, rest, file, text):
    for item in rattle.items(text):
        name = function_path(module_of(rest), item) if item.kind == "fn" else item.name
        yield Entry(crate, CONTRACT if item.kind == "fn" else DEFINITION, name, file, item.tokens())


def module_of(rest):
    """The modules that a file of src/ stands for: none if it is the crate's own."""
    return [] if rest[-1] in ("lib.rt", "main.rt") else [*rest[:-1], rest[-1].removesuffix(".rt")]


def function_path(module, item):
    """A method goes by its type, wherever its impl stands."""
    return item.name if "::" in item.name else "::".join([*module, item.name])


def mark_statements(files, found):
    """A definition of specs/ that is the whole type of a law is a theorem's statement."""
    proved = set()
    for path, text in files.items():
        _, crate, *rest = path.split("/")
        if rest and rest[0] == "proofs":
            proved.update((crate, part.type()) for part in antt.declarations(text) if part.kind == "law")
    for entry in found:
        if entry.sort == DEFINITION and (entry.crate, entry.name) in proved:
            entry.sort = STATEMENT

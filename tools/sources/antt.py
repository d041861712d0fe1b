"""The declarations of an antt file, in the layout that rt fmt gives."""

import re
from dataclasses import dataclass

from .tokens import tokens

# pub raised : .., or with levels pub contra {ℓ} : ..
SIGNATURE = re.compile(r"(?:(abbrev|unfoldable) )?(?:pub )?([^\s:(){}]+)(?: \{[^}]*\})* :(?: |$)")
TYPE = re.compile(r"(?:pub )?(record|data) (\S+)")
SKIPPED = re.compile(r"(?:pub )?(?:use|mod|infix[lr]?) ")
MEMBER = re.compile(r" +(?:pub )?([^\s:(){}]+(?: [^\s:(){}]+)*) :(?: |$)")


@dataclass
class Declaration:
    name: str
    kind: str      # abbrev, unfoldable, record, data, or law for a plain one
    line: int
    text: str      # with the head of the module that it stands in
    own: int       # where in the text its own begins

    def tokens(self):
        return tokens(self.text)

    def type(self):
        """What stands behind the colon, up to the first clause; of a record or data what stands before where."""
        first = self.text[self.text.index(self.name, self.own) + len(self.name):]
        if self.kind in ("record", "data"):
            return " ".join(first.split(" where", 1)[0].split())
        clause = re.search(rf"\n *(?:unfolding|{re.escape(self.name)})\s", first)
        return " ".join(first[:clause.start() if clause else None].split(" :", 1)[1].split())

    def members(self):
        """Fields of a record, constructors of a data type."""
        if self.kind not in ("record", "data"):
            return []
        found = (MEMBER.match(line) for line in self.text.split("\n"))
        return [name for match in found if match for name in match.group(1).split()]


def declarations(text):
    """Every declaration of a file, also those within a module; comments are left out."""
    found, module, current = [], "", None
    for number, line in enumerate(without_comments(text), 1):
        if not line.strip():
            continue
        indent = len(line) - len(line.lstrip())
        words = line.strip()
        if indent == 0 and not words.startswith(")"):
            module = ""
        depth = 2 if module else 0
        if indent == 0 and words.startswith("module "):
            module, current = words, None
        elif indent == 0 and SKIPPED.match(words):
            current = None
        elif module and not module.endswith(" where"):
            module += " " + words
        elif indent == depth and (match := TYPE.match(words)):
            current = declared(match.group(2), match.group(1), number, module, line)
            found.append(current)
        elif indent == depth and (match := SIGNATURE.match(words)):
            current = declared(match.group(2), match.group(1) or "law", number, module, line)
            found.append(current)
        elif current:
            current.text += "\n" + line
    return found


def declared(name, kind, number, module, line):
    head = module + "\n" if module else ""
    return Declaration(name, kind, number, head + line, len(head))


def without_comments(text):
    for line in text.split("\n"):
        yield re.sub(r"(^|\s)--(\s.*)?$", "", line)

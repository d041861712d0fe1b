"""Words and signs of a text without its layout."""

import re

SIGNS = r"(){}\[\],;:.&"
SPLIT = re.compile(rf"[{SIGNS}]|[^\s{SIGNS}]+")
CLOSING = (")", "}", "]")


def tokens(text):
    """The text's words and signs; a separator before a closing bracket belongs to the layout."""
    found = []
    for match in SPLIT.finditer(text):
        token = match.group()
        if token in CLOSING and found and found[-1] in (",", ";"):
            found.pop()
        found.append(token)
    return found

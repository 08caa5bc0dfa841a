"""Where the parts of a JSON text stand: the json module tells no lines, and takes the last of two parts of one name."""

from __future__ import annotations

import re

TYPE_CHECKING = False
if TYPE_CHECKING:
    from typing import Optional

_TOKEN = re.compile(r'"(?:[^"\\]|\\.)*"|[{}\[\]:\n]')
# Deeper than this nothing is told by its line: modules, a module, cells, a cell.
_DEPTH = 4


def find_places(text: str) -> tuple[dict[tuple[str, ...], int], Optional[tuple[str, int]]]:
    """The lines of the names in a right JSON text, by the names on the way there, and the first name that an object has twice."""
    places: dict[tuple[str, ...], int] = {}
    path: list[str] = []
    seen: list[set[str]] = []
    line, last = 1, '""'
    for token in _TOKEN.findall(text):
        if token == "\n":
            line += 1
        elif token in "{[":
            path.append("")
            seen.append(set())
        elif token in "}]":
            path.pop()
            seen.pop()
        elif token != ":":
            last = token
        else:
            name = _name(last)
            if name in seen[-1]:
                return places, (name, line)
            seen[-1].add(name)
            path[-1] = name
            if len(path) <= _DEPTH:
                places[tuple(path)] = line
    return places, None


def _name(token: str) -> str:
    if "\\" not in token:
        return token[1:-1]
    import json
    return str(json.loads(token))

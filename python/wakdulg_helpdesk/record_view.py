"""Which acts of a record a page shows, and their export for a spreadsheet."""
from __future__ import annotations

import csv
import io
from typing import Callable, Dict, Iterable, Iterator, Mapping

from wakdulg_helpdesk.record import Line

# The acts of a record, and the columns of its export.
ACTS = ("unlock", "resync", "enrol", "replace", "retire", "import", "confirm", "tell", "log in", "log out")
COLUMNS = ("when", "who", "act", "user", "outcome", "from", "asked")
FIELDS = ("user", "who", "act")
Query = Dict[str, str]


def query_of(words: Mapping[str, str]) -> Query:
    """Returns the filter that the words of an address have."""
    return {name: words.get(name, "").strip() for name in FIELDS}


def takes(query: Query, line: Line) -> bool:
    """Returns whether a filter takes an act: by a part of the name of the user and of staff, and by the act's word."""
    parts = ((query[name].casefold(), str(line.get(name, ""))) for name in ("user", "who"))
    return query["act"] in ("", line.get("act")) and all(part in text.casefold() for part, text in parts)


def as_cell(text: str) -> str:
    """Returns a text that a spreadsheet doesn't take for a formula."""
    return "'" + text if text.startswith(("=", "+", "-", "@", "\t", "\r")) else text


def as_csv(lines: Iterable[Line], outcome_of: Callable[[Line], str]) -> Iterator[str]:
    """Yields a table with a head and a row for each act."""
    text = io.StringIO()
    writer = csv.writer(text)
    writer.writerow(COLUMNS)
    for line in lines:
        told = {**line, "outcome": outcome_of(line)}
        writer.writerow([as_cell(str(told.get(name, ""))) for name in COLUMNS])
        yield text.getvalue()
        text.seek(0)
        text.truncate()
    yield text.getvalue()

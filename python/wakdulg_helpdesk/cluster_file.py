"""The cluster file, as far as a site needs it."""
from __future__ import annotations

import os
import tempfile
from pathlib import Path

from wakdulg_helpdesk.naming import NO_NAMES, ByNames, ByPlaces, Naming


class ClusterFile:
    """A cluster file: how its members know tokens, the addresses of its members, and a copy of it without the key.
    `oathd check` finds the faults of a users file under any key, so a site needs none of the cluster's."""

    def __init__(self, path: str) -> None:
        lines = [line.split() for line in Path(path).read_text().splitlines()]
        lines = [fields for fields in lines if fields and not fields[0].startswith("#")]
        self.path, self.naming = path, naming_of(lines, path)
        self.nodes = ",".join(fields[2] for fields in lines if fields[0] == "member")
        self.folder = tempfile.TemporaryDirectory()
        self.keyless = os.path.join(self.folder.name, "cluster")
        kept = [" ".join(fields) for fields in lines if fields[0] not in ("key", "key-file")]
        Path(self.keyless).write_text("\n".join([*kept, "key " + "00" * 32, ""]))

    def want_names(self, what: str) -> None:
        """Raises `ValueError` if the cluster has no names. `what` is what wants them."""
        if not self.naming.may_change:
            raise ValueError("the cluster file gives no names: %s. %s is for a users file that changes. %s" % (
                self.path, what, NO_NAMES))


def naming_of(lines: list[list[str]], path: str) -> Naming:
    """Returns the kind of the cluster whose file has these lines."""
    names = next((fields[1:] for fields in lines if fields[0] == "names"), None)
    if names == []:
        raise ValueError("the line `names` of the cluster file has no word: " + path)
    return ByNames(names[0].encode()) if names else ByPlaces()

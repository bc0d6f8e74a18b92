"""Acts that one of staff asked for, and that another one confirms."""
from __future__ import annotations

import secrets
import threading
import time
from typing import NamedTuple

from wakdulg_helpdesk.acts import Act
from wakdulg_onboard.tokens import Fault

LONGEST = 3600


class Asked(NamedTuple):
    """An act that waits: its id, who asked, the act, and the second at which it ends."""
    id: str
    who: str
    act: Act
    ends: float


class Waiting:
    """What waits, in memory: a restart ends it. Nothing of it is done yet."""

    def __init__(self) -> None:
        self._asked: dict[str, Asked] = {}
        self._lock = threading.Lock()

    def add(self, who: str, act: Act) -> Asked:
        """Lets an act wait, and returns it as it waits."""
        asked = Asked(secrets.token_urlsafe(9), who, act, time.time() + LONGEST)
        with self._lock:
            self._asked[asked.id] = asked
        return asked

    def all(self) -> list[Asked]:
        """Returns what waits still, the oldest first."""
        with self._lock:
            self._asked = {id: asked for id, asked in self._asked.items() if time.time() < asked.ends}
            return list(self._asked.values())

    def find(self, id: str) -> Asked | None:
        """Returns the act of an id, or None if it waits no more."""
        return next((asked for asked in self.all() if asked.id == id), None)

    def take(self, id: str) -> Asked:
        """Returns what waits, which then waits no more. Of two who confirm at once one gets it."""
        self.all()
        with self._lock:
            asked = self._asked.pop(id, None)
        if asked is None:
            raise Fault("the act", "NotThere", "somebody else confirmed it, or its hour is over")
        return asked

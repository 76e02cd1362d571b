"""How much work a recording may ask for: a few lines can name far more than they have bytes."""

from __future__ import annotations

from ..rerun.lines import BadRecording


class Budget:
    """So many steps of one kind. Each is taken before it is made."""

    def __init__(self, most: int, what: str) -> None:
        self.spent = 0
        self._most, self._what = most, what

    def spend(self, count: int) -> None:
        """Takes steps. Raises BadRecording where no more are left."""
        self.spent += count
        if self.spent > self._most:
            raise BadRecording(self._what)

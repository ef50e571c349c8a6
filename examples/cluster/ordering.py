"""The order of each producer's lines of a session."""

from dataclasses import dataclass, field
from typing import Dict, Generic, List, Tuple, TypeVar

Item = TypeVar("Item")


@dataclass
class Numbered(Generic[Item]):
    """One producer's lines of one session: the number that is due, and those that came early."""
    due: int = 1
    early: Dict[int, Item] = field(default_factory=dict)


class Ordering(Generic[Item]):
    """Gives each number of each producer and session once, and in the order of the numbers.

    What it gives depends on the order of arrival alone, so each reader of a log gives the same.
    """

    def __init__(self) -> None:
        self._lines: Dict[Tuple[str, str], Numbered[Item]] = {}
        self.doubled = 0
        self.came_early = 0

    def take(self, source: Tuple[str, str], number: int, item: Item) -> List[Item]:
        """The items whose turn has come with this one."""
        lines = self._lines.setdefault(source, Numbered())
        if number < lines.due or number in lines.early:
            self.doubled += 1
            return []
        if number > lines.due:
            self.came_early += 1
            lines.early[number] = item
            return []
        ready = [item]
        lines.due += 1
        while lines.due in lines.early:
            ready.append(lines.early.pop(lines.due))
            lines.due += 1
        return ready

    def waiting(self) -> int:
        """How many items wait for one that has not come."""
        return sum(len(lines.early) for lines in self._lines.values())

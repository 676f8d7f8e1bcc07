"""How much of what a side has in an area it offers to the other side."""
from dataclasses import dataclass
from itertools import accumulate
from typing import Optional

from capabilities import Area
from entries import by_recency


@dataclass(frozen=True)
class Interest:
    """At most so many rows, and at most so many bytes of their payloads together; `None` limits nothing."""
    newest: Optional[int] = None
    bytes: Optional[int] = None

    def allows(self, count: int, size: int) -> bool:
        return (self.newest is None or count <= self.newest) and (self.bytes is None or size <= self.bytes)

    def offered(self, rows: list, area: Optional[Area]) -> list:
        """Of the rows of the area the longest front, the most recent first, that it allows, by rising subspace and path.
        Without an area nothing is limited, and nothing is said of the rows either."""
        if area is None:
            return rows
        recent = by_recency([row for row in rows if area.includes(row.entry)])
        sizes = accumulate((row.entry.length for row in recent), initial=0)
        longest = max(count for count, size in enumerate(sizes) if self.allows(count, size))
        return sorted(recent[:longest], key=lambda row: row.entry.place())


UNLIMITED = Interest()


def interest_in(options: dict) -> Interest:
    """The one that the options of a command say."""
    return Interest(options.get("newest"), options.get("bytes"))

"""The root that counts in a store's file, for the tools that read one beside the program: backup and figures."""
from typing import NamedTuple

SECTOR, PAGE_SECTORS, DATA_SECTOR = 512, 64, 8
OPEN = 0xA5
# The mark of a root, by the format that it tells.
FORMATS = {b"GATEROOT": 1, b"GATEROO2": 2, b"GATEROO3": 3}


class NoStore(Exception):
    """The file is no store, or a damaged one."""


class Root(NamedTuple):
    generation: int
    slot: int
    format: int
    first: int
    pages: int
    revision: int

    @property
    def log(self) -> int:
        """The sector of the first gate of its log."""
        return self.first + PAGE_SECTORS * self.pages


def counting(front: bytes) -> Root:
    """The root that counts, of the sectors in front of the data."""
    if len(front) < DATA_SECTOR * SECTOR or front[:8] != b"GATESTOR":
        raise NoStore("it has not the header of a store")
    found = []
    for slot in (1, 3):
        body, gate = front[slot * SECTOR : (slot + 1) * SECTOR], front[(slot + 1) * SECTOR]
        if gate == OPEN:
            if body[:8] not in FORMATS:
                raise NoStore(f"sector {slot} is no root")
            generation, first, pages, revision = (int.from_bytes(body[at:end], "big") for at, end in ((8, 16), (16, 24), (24, 28), (28, 36)))
            found.append(Root(generation, slot, FORMATS[body[:8]], first, pages, revision))
    if not found:
        raise NoStore("no root counts")
    return max(found)

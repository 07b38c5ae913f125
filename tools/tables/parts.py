"""The parts that the twin knows, by their numbers: the array's size in bytes, and the level of RESET where it is active."""
from typing import NamedTuple


class Kind(NamedTuple):
    size: int
    active: int


PARTS = {4323: Kind(4096, 0), 4325: Kind(4096, 1), 4283: Kind(16_384, 0), 4285: Kind(16_384, 1)}

"""The memories and the decision services, after docs/MEMORY.md and docs/SERVICE.md."""

from abc import ABC, abstractmethod
from dataclasses import dataclass
from enum import IntEnum

BEDS = range(8)
SLOTS = range(32)
ROUNDS = range(32)
LENGTHS = range(1, 66)
GROUPS = range(1, 9)

PLACES = range(len(BEDS) * len(SLOTS))
SLOT_CELLS = 67
CHIP_CELLS = len(PLACES) * SLOT_CELLS
MARK_CELL = 66
MARK = 0xA5


class Cause(IntEnum):
    """Why a call is refused."""

    GROUP = 1
    UNDECIDED = 14
    CELLS = 16
    RANGE = 17
    OTHER = 18


@dataclass
class Refusal(Exception):
    """Raised by a call that is refused."""

    cause: Cause


def _check(sound: bool, cause: Cause) -> None:
    if not sound:
        raise Refusal(cause)


def _place(bed: int, slot: int) -> int:
    """The number of a slot among those of all beds."""
    _check(bed in BEDS and slot in SLOTS, Cause.RANGE)
    return len(SLOTS) * bed + slot


class Memory(ABC):
    """What both memories do alike."""

    def keep(self, bed: int, slot: int, data: bytes) -> None:
        place = _place(bed, slot)
        _check(len(data) in LENGTHS, Cause.RANGE)
        held = self._held(place)
        if held is None:
            self._write(place, data)
        else:
            _check(held == data, Cause.OTHER)

    def read(self, bed: int, slot: int) -> bytes | None:
        return self._held(_place(bed, slot))

    def torn_keep(self, bed: int, slot: int, data: bytes, at: int, junk: int) -> None:
        """A keep that ends after `at` cells and leaves the junk in the next one."""
        if bed not in BEDS or slot not in SLOTS or len(data) not in LENGTHS:
            return
        place = _place(bed, slot)
        if self._held(place) is None:
            self._tear(place, data, at, junk)

    @abstractmethod
    def _held(self, place: int) -> bytes | None:
        """What a slot holds."""

    @abstractmethod
    def _write(self, place: int, data: bytes) -> None:
        """Fill an empty slot."""

    @abstractmethod
    def _tear(self, place: int, data: bytes, at: int, junk: int) -> None:
        """Begin to fill an empty slot."""


class Table(Memory):
    """A memory that has no cells."""

    def __init__(self) -> None:
        self.slots: dict[int, bytes] = {}

    def _held(self, place: int) -> bytes | None:
        return self.slots.get(place)

    def _write(self, place: int, data: bytes) -> None:
        self.slots[place] = data

    def _tear(self, place: int, data: bytes, at: int, junk: int) -> None:
        if at >= len(data):
            self._write(place, data)


class Chip(Memory):
    """A memory that is nothing but the cells lent to it."""

    def __init__(self, cells: bytearray) -> None:
        _check(len(cells) >= CHIP_CELLS, Cause.CELLS)
        self.cells = cells

    def _held(self, place: int) -> bytes | None:
        start = SLOT_CELLS * place
        if self.cells[start + MARK_CELL] != MARK:
            return None
        length = min(max(self.cells[start], LENGTHS[0]), LENGTHS[-1])
        return bytes(self.cells[start + 1 : start + 1 + length])

    def _write(self, place: int, data: bytes) -> None:
        for cell, value in self._steps(place, data):
            self.cells[cell] = value

    def _tear(self, place: int, data: bytes, at: int, junk: int) -> None:
        steps = self._steps(place, data)
        for cell, value in steps[:at]:
            self.cells[cell] = value
        if at < len(steps):
            cell, _ = steps[at]
            self.cells[cell] = junk

    @staticmethod
    def _steps(place: int, data: bytes) -> list[tuple[int, int]]:
        """The cells that a keep writes and their values, in order."""
        start = SLOT_CELLS * place
        return [(start, len(data)), *enumerate(data, start + 1), (start + MARK_CELL, MARK)]


class Service:
    """What both services do alike: this one holds proposals, and never decides."""

    def __init__(self, n: int) -> None:
        _check(n in GROUPS, Cause.GROUP)
        self.n = n
        self.proposals: list[dict[int, bytes]] = [{} for _ in ROUNDS]
        self.decisions: dict[int, bytes] = {}

    def put(self, bed: int, round_: int, data: bytes) -> bool:
        """Record a proposal; False if the bed had one."""
        _check(bed in range(self.n) and round_ in ROUNDS and len(data) in LENGTHS, Cause.RANGE)
        if bed in self.proposals[round_]:
            return False
        self.proposals[round_][bed] = data
        return True

    def poll(self, round_: int) -> bytes:
        _check(round_ in ROUNDS, Cause.RANGE)
        _check(round_ in self.decisions, Cause.UNDECIDED)
        return self.decisions[round_]


class FirstComer(Service):
    """Decides in the first put of a round."""

    def put(self, bed: int, round_: int, data: bytes) -> bool:
        taken = super().put(bed, round_, data)
        if taken and round_ not in self.decisions:
            self.decisions[round_] = data
        return taken


class Majority(Service):
    """Decides in a poll, once more than half the beds have proposals."""

    def poll(self, round_: int) -> bytes:
        if round_ in ROUNDS and round_ not in self.decisions:
            proposals = self.proposals[round_]
            if 2 * len(proposals) > self.n:
                self.decisions[round_] = proposals[min(proposals)]
        return super().poll(round_)

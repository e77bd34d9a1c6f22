"""Print random lines of docs/TRACE.md: calls.py --seed S --count K"""

import argparse
from collections.abc import Iterator, Sequence
from itertools import islice
from random import Random
from typing import TypeVar

BEDS = 8
SLOTS = 32
ROUNDS = 32
LONGEST = 65
SLOT_CELLS = 67
MARK_CELL = 66
MARK = 165
OTHER_MARKS = (0, 1, 90, 164, 255)

MEMORIES = ["table", "table", "chip", "chip", "chip"]
TEARS = [(length, at) for length in (1, 2, 64, 65) for at in range(length + 4)]
SERVICES = [(kind, n) for kind in ("first", "majority", "majority") for n in range(1, 9)]

Card = TypeVar("Card")


def to_hex(data: bytes) -> str:
    return data.hex().upper()


class Draw(Random):
    """Draws numbers and bytes, most of them near a limit."""

    def chance(self, share: float) -> bool:
        return self.random() < share

    def deal(self, cards: Sequence[Card]) -> Iterator[Card]:
        """All cards in random order, again and again."""
        while True:
            yield from self.sample(cards, len(cards))

    def edge(self, limit: int) -> int:
        """A number below the limit, often the first or the last."""
        return self.choice((0, limit - 1, self.randrange(limit), self.randrange(limit)))

    def beyond(self, value: int, limit: int) -> int:
        """A number not below the limit; some have the low bits of a value below it."""
        wrapping = (value + 256, value + 65_536, value + 2**27)
        return self.choice((limit, limit, limit + value, 2**32 - 1, *wrapping))

    def astray(self, value: int, limit: int) -> int:
        """The value; seldom a number that is not below the limit."""
        return self.beyond(value, limit) if self.chance(0.06) else value

    def data(self) -> bytes:
        """Bytes of a length that is allowed."""
        return self.randbytes(self.choice((1, 1, 2, 64, 65, self.randint(3, 63))))

    def long_data(self) -> bytes:
        """Bytes of a length that is not; that of some is allowed in its low bits."""
        return self.randbytes(self.choice((66, 66, 66, 67, 257, 321)))

    def near(self, data: bytes) -> bytes:
        """Bytes that differ from the given ones in one bit or in their length."""
        changed = bytearray(data)
        changed[self.edge(len(data))] ^= 1 << self.randrange(8)
        longer = data + b"\0", data.ljust(LONGEST, b"\0")
        shorter = data[:1], data[:-1] or b"\0"
        return self.choice((bytes(changed), *longer, *shorter))

    def junk(self) -> int:
        return self.choice((0, 1, MARK, MARK, MARK, 255, self.randrange(256)))


class MemoryCalls:
    """Calls of a memory, on few slots at a time."""

    def __init__(self, draw: Draw) -> None:
        self.draw = draw
        self.is_chip = False
        self.places: list[int] = []
        self.first_sent: dict[tuple[int, int], bytes] = {}
        self.memories = draw.deal(MEMORIES)
        self.tears = draw.deal(TEARS)

    def lines(self) -> Iterator[str]:
        while True:
            for _ in range(self.draw.randint(3, 7)):
                self.move()
                yield from self.calls(torn=6, keep=1, read=2, damage=2)
                yield from self.calls(torn=1, keep=6, read=4, damage=3)
            yield from self.begin()
            yield from self.calls(torn=1, keep=1, read=3, damage=2)

    def begin(self) -> Iterator[str]:
        """Leave the memory for a new one."""
        kind = next(self.memories)
        self.is_chip = kind == "chip"
        self.first_sent.clear()
        yield kind
        yield "all"

    def move(self) -> None:
        """Choose three slots in a row and one anywhere."""
        start = self.draw.edge(BEDS * SLOTS - 2)
        self.places = [start, start + 1, start + 2, self.draw.edge(BEDS * SLOTS)]

    def calls(self, **weights: int) -> Iterator[str]:
        """Some calls, each by the method of its name."""
        if not self.is_chip:
            del weights["damage"]
        for name in self.draw.choices(list(weights), list(weights.values()), k=14):
            yield from getattr(self, name)()

    def bed_and_slot(self, place: int) -> tuple[int, int]:
        """Those of the place; seldom one that does not exist."""
        bed, slot = divmod(place, SLOTS)
        return self.draw.astray(bed, BEDS), self.draw.astray(slot, SLOTS)

    def data_for(self, bed: int, slot: int) -> bytes:
        """Mostly the bytes that were first sent to the slot."""
        new = self.draw.data()
        first = self.first_sent.setdefault((bed, slot), new)
        candidates = first, self.draw.near(first), new, self.draw.long_data()
        return self.draw.choices(candidates, (8, 4, 2, 1))[0]

    def keep(self) -> Iterator[str]:
        bed, slot = self.bed_and_slot(self.draw.choice(self.places))
        yield f"keep {bed} {slot} {to_hex(self.data_for(bed, slot))}"
        yield "all"

    def read(self) -> Iterator[str]:
        bed, slot = self.bed_and_slot(self.draw.choice(self.places))
        yield f"read {bed} {slot}"

    def torn(self) -> Iterator[str]:
        """A torn keep, mostly on a slot that is new among the few: it can change an empty one only."""
        place = self.draw.choice(self.places)
        if self.draw.chance(0.6):
            place = self.places[-1] = self.draw.randrange(BEDS * SLOTS)
        bed, slot = self.bed_and_slot(place)
        if self.draw.chance(0.5):
            length, at = next(self.tears)
            data = self.draw.randbytes(length)
            self.first_sent.setdefault((bed, slot), data)
        else:
            data = self.data_for(bed, slot)
            at = self.end_of_tear(len(data))
        yield f"torn {bed} {slot} {at} {self.draw.junk()} {to_hex(data)}"
        yield "all"
        if self.is_chip and self.draw.chance(0.2):
            yield from self.show(self.draw.choice((place, place, (place + 1) % (BEDS * SLOTS))))

    def end_of_tear(self, length: int) -> int:
        """An `at` at the first or last cells of a keep, or far past them."""
        close = *range(length - 1, length + 4), *range(length, length + 3)
        huge = 256, length + 256, 65_536, 2**31, 2**32 - 2, 2**32 - 1
        return self.draw.choice((0, 1, *close, self.draw.choice(huge)))

    def show(self, place: int) -> Iterator[str]:
        """Set the mark of a slot for a while: a read then tells what an unfinished keep has left in its cells."""
        start = SLOT_CELLS * place
        bed, slot = divmod(place, SLOTS)
        yield f"cell {start + MARK_CELL} {MARK}"
        yield f"read {bed} {slot}"
        yield f"cell {start} {LONGEST}"
        yield f"read {bed} {slot}"
        yield f"cell {start + MARK_CELL} {self.draw.choice(OTHER_MARKS)}"

    def damage(self) -> Iterator[str]:
        """Set a cell or two of a slot."""
        place = self.draw.choice(self.places)
        bed, slot = divmod(place, SLOTS)
        for _ in range(self.draw.randint(1, 2)):
            length = 0, self.draw.choice((0, 1, 65, 66, 255, self.draw.randrange(256)))
            data = 1 + self.draw.edge(LONGEST), self.draw.junk()
            marks = (MARK_CELL, MARK), (MARK_CELL, self.draw.choice(OTHER_MARKS))
            cell, value = self.draw.choice((length, data, *marks))
            yield f"cell {SLOT_CELLS * place + cell} {value}"
        if self.draw.chance(0.7):
            yield f"read {bed} {slot}"


class ServiceCalls:
    """Calls of a decision service, in two rounds at a time."""

    def __init__(self, draw: Draw) -> None:
        self.draw = draw
        self.services = draw.deal(SERVICES)
        self.n = 1
        self.move()

    def lines(self) -> Iterator[str]:
        """Calls of a service, then of the same one in other rounds or of a new one in the same."""
        while True:
            yield from self.calls()
            if self.draw.chance(0.3):
                self.move()
            else:
                kind, self.n = next(self.services)
                yield f"{kind} {self.n}"

    def move(self) -> None:
        self.rounds = self.draw.edge(ROUNDS), self.draw.edge(ROUNDS)

    def calls(self) -> Iterator[str]:
        """Calls with many polls or few; most beds come in each round before one comes again."""
        comers = self.draw.deal([(bed, round_) for bed in range(self.n) for round_ in self.rounds])
        weights = 20, self.draw.choice((5, 25)), 1
        for name in self.draw.choices(("put", "poll", "refused"), weights, k=6 + 6 * self.n):
            match name:
                case "put":
                    yield self.put(*next(comers))
                case "poll":
                    yield f"poll {self.draw.astray(self.draw.choice(self.rounds), ROUNDS)}"
                case "refused":
                    kind, n = self.draw.choice(SERVICES)
                    yield f"{kind} {self.draw.choice((0, self.draw.beyond(n, 9)))}"

    def put(self, bed: int, round_: int) -> str:
        if self.draw.chance(0.3):
            bed = self.draw.randrange(self.n)
        data = self.draw.long_data() if self.draw.chance(0.05) else self.draw.data()
        return f"put {self.draw.astray(bed, self.n)} {self.draw.astray(round_, ROUNDS)} {to_hex(data)}"


def random_lines(seed: int) -> Iterator[str]:
    """Lines without end, calls of the memory among those of the service."""
    draw = Draw(seed)
    memory = MemoryCalls(draw).lines()
    service = ServiceCalls(draw).lines()
    while True:
        yield from islice(draw.choices((memory, service), (2, 1))[0], draw.randint(1, 10))


def main() -> None:
    parser = argparse.ArgumentParser(description="Print random lines of docs/TRACE.md.")
    parser.add_argument("--seed", type=int, required=True)
    parser.add_argument("--count", type=int, required=True)
    options = parser.parse_args()
    lines = list(islice(random_lines(options.seed), options.count))
    if lines:
        lines[-1] = "all"
    for line in lines:
        print(line)


if __name__ == "__main__":
    main()

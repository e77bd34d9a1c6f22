"""Answer the lines of docs/TRACE.md on standard input."""

import sys
from collections.abc import Iterator

from stores import BEDS, CHIP_CELLS, SLOTS, Chip, FirstComer, Majority, Memory, Refusal, Service, Table

SERVICES = {"first": FirstComer, "majority": Majority}


def to_hex(data: bytes) -> str:
    return data.hex().upper()


class Trace:
    """One memory and one service."""

    def __init__(self) -> None:
        self.memory: Memory = Table()
        self.service: Service = FirstComer(1)

    def answer(self, line: str) -> Iterator[str]:
        """Make the call of a line, and yield the lines to be printed."""
        name, *words = line.split(" ")
        try:
            match name, words:
                case "table", []:
                    self.memory = Table()
                    yield "table"
                case "chip", []:
                    self.memory = Chip(bytearray(CHIP_CELLS))
                    yield "chip"
                case "cell", [cell, value] if isinstance(self.memory, Chip):
                    self.memory.cells[int(cell)] = int(value)
                case "keep", [bed, slot, data]:
                    self.memory.keep(int(bed), int(slot), bytes.fromhex(data))
                    yield "keep 0"
                case "torn", [bed, slot, at, junk, data]:
                    self.memory.torn_keep(int(bed), int(slot), bytes.fromhex(data), int(at), int(junk))
                case "read", [bed, slot]:
                    held = self.memory.read(int(bed), int(slot))
                    yield "read -" if held is None else f"read {to_hex(held)}"
                case "all", []:
                    yield from self.all_slots()
                case "first" | "majority", [n]:
                    self.service = SERVICES[name](int(n))
                    yield f"{name} 0"
                case "put", [bed, round_, data]:
                    taken = self.service.put(int(bed), int(round_), bytes.fromhex(data))
                    yield "put taken" if taken else "put had"
                case "poll", [round_]:
                    yield f"poll {to_hex(self.service.poll(int(round_)))}"
                case _:
                    raise ValueError(f"no such line here: {line}")
        except Refusal as refusal:
            yield f"{name} {refusal.cause:d}"

    def all_slots(self) -> Iterator[str]:
        full = 0
        for bed in BEDS:
            for slot in SLOTS:
                held = self.memory.read(bed, slot)
                if held is not None:
                    full += 1
                    yield f"{bed} {slot} {to_hex(held)}"
        yield f"all {full}"


def main() -> None:
    trace = Trace()
    for line in sys.stdin:
        for text in trace.answer(line.removesuffix("\n")):
            print(text)


if __name__ == "__main__":
    main()

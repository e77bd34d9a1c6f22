"""Answer inspector lines from standard input as docs/FORMATS.md says, without its free words."""

import re
import sys
from collections.abc import Iterator
from pathlib import Path

import stores
from forms import BatchHead, End, Fault, PacketHead, Part, TicketPart, read_batch, read_packet

LINE = re.compile(
    rb"(?P<letter>[bp]) (?P<n>[1-8])(?: (?P<hex>(?: *[0-9A-Fa-f]{2})* *))?"
)

IMAGE = re.compile(rb"c (?P<n>[1-8]) (?P<file>.+)", re.DOTALL)


def words(part: Part) -> str:
    """The line that is printed for a part."""
    match part:
        case BatchHead(count):
            return f"head count {count}"
        case PacketHead(bed, round_, count):
            return f"head bed {bed} round {round_} count {count}"
        case TicketPart(offset, _, t):
            return (
                f"ticket at {offset} paths {t.paths} origin {t.origin}"
                f" number {t.number} sheet {t.sheet}"
            )
        case End(length):
            return f"end at {length}"
        case Fault(cause, place, layer):
            return f"fault cause {cause.value} at {place} in {layer.value}:"


def parse(line: bytes) -> tuple[str, int, bytes] | None:
    """The letter, n and bytes of a line, or None if it cannot be read."""
    found = LINE.fullmatch(line)
    if found is None:
        return None
    digits = (found["hex"] or b"").decode()
    return found["letter"].decode(), int(found["n"]), bytes.fromhex(digits)


def slots(chip: stores.Chip, n: int) -> Iterator[str]:
    """What a chip keeps, and how many of its slots are empty."""
    empty = 0
    for bed in stores.BEDS:
        for slot in stores.SLOTS:
            data = chip.read(bed, slot)
            if data is None:
                empty += 1
            else:
                yield f"bed {bed} slot {slot} bytes {len(data)}"
                yield from map(words, read_batch(data, n))
    yield f"empty {empty}"


def image(number: int, line: bytes) -> Iterator[str]:
    """The lines that answer a line about the image in a file."""
    found = IMAGE.fullmatch(line)
    try:
        if found is None:
            raise ValueError(line)
        cells = Path(found["file"].decode()).read_bytes()
        chip = stores.Chip(bytearray(cells))
    except (OSError, ValueError, stores.Refusal):
        yield f"line {number}:"
        return
    yield from slots(chip, int(found["n"]))


def answer(number: int, line: bytes) -> Iterator[str]:
    """The lines that answer the line of the given number."""
    if line.startswith(b"c"):
        yield from image(number, line)
        return
    parsed = parse(line)
    if parsed is None:
        yield f"line {number}:"
        return
    letter, n, data = parsed
    read = read_batch if letter == "b" else read_packet
    yield from map(words, read(data, n))


def main() -> None:
    for number, line in enumerate(sys.stdin.buffer, start=1):
        for said in answer(number, line.removesuffix(b"\n")):
            print(said)


if __name__ == "__main__":
    main()

"""Print inspector lines for random sound and damaged batches and packets."""

import argparse
import random
import sys
from collections.abc import Callable
from dataclasses import astuple, dataclass, replace

from model.forms import MARK, MAX_BEDS, Ticket, encode_number

EDGES = (0, 1, 7, 8, 9, 16, 17, 32, 33, 63, 64, 127, 128, 16_383, 16_384, 65_535, 65_536,
         999_999, 1_000_000, 1_000_001, 2_097_150, 2_097_151)  # fmt: skip
PATHS = (0, 1, 127, 128, 16_383, 16_384, 65_535, 65_536, 999_999, 1_000_000)
NUMBERS = (1, 2, 127, 128, 16_383, 16_384, 65_534, 65_535)
SHEETS = (0, 1, 62, 63)
ROUNDS = (0, 1, 31, 32)
MAX_PATHS, MAX_NUMBER, MAX_SHEET, MAX_ROUND = PATHS[-1], NUMBERS[-1], SHEETS[-1], ROUNDS[-1]
TELLING_BYTES = bytes.fromhex("00 01 02 3F 40 7F 80 81 FF")


@dataclass
class Case:
    """A batch or packet before it is written; it need not be sound."""

    letter: str
    n: int
    head: list[int]
    tickets: list[Ticket]

    @property
    def limit(self) -> int:
        return 16 if self.letter == "p" else 8

    @property
    def mark(self) -> bytes:
        return MARK if self.letter == "p" else b""

    def numbers(self) -> list[bytes]:
        """The forms of all numbers, in turn."""
        fields = [value for ticket in self.tickets for value in astuple(ticket)]
        return [encode_number(value) for value in (*self.head, len(self.tickets), *fields)]

    def outside(self) -> list[tuple[int, ...]]:
        """For each number, values out of its range, most of them only just."""
        head = [(self.n, self.n + 1, 127, 128), (MAX_ROUND + 1, 64, 127, 128)]
        count = (self.limit + 1, self.limit + 2, 127, 128, 2_097_151)
        ticket = [
            (MAX_PATHS + 1, MAX_PATHS + 2, 2_097_151),
            (self.n, self.n + 1, 127, 128),
            (0, MAX_NUMBER + 1, MAX_NUMBER + 2, 2_097_151),
            (MAX_SHEET + 1, MAX_SHEET + 2, 127, 128),
        ]
        return [*head[: len(self.head)], count, *(ticket * len(self.tickets))]


def pick(rng: random.Random, edges: tuple[int, ...]) -> int:
    """One of the edges, or any value between the outer ones."""
    return rng.choice(edges) if rng.random() < 0.6 else rng.randint(edges[0], edges[-1])


def sound_tickets(rng: random.Random, n: int, count: int) -> list[Ticket]:
    """Tickets in order, often several of the same paths."""
    paths = [pick(rng, PATHS) for _ in range(rng.randint(1, 6))]
    found: dict[tuple[int, int], Ticket] = {}
    while len(found) < count:
        origin = pick(rng, (0, n - 1))
        ticket = Ticket(rng.choice(paths), origin, pick(rng, NUMBERS), pick(rng, SHEETS))
        found.setdefault(ticket.identity, ticket)
    return sorted(found.values(), key=lambda ticket: ticket.order)


def sound_case(rng: random.Random) -> Case:
    n = rng.randint(1, MAX_BEDS)
    letter = rng.choice("bp")
    head = [pick(rng, (0, n - 1)), pick(rng, ROUNDS)] if letter == "p" else []
    case = Case(letter, n, head, [])
    case.tickets = sound_tickets(rng, n, pick(rng, (0, 1, 2, 3, case.limit - 1, case.limit)))
    return case


# Damage to the tickets.


def swap_tickets(rng: random.Random, case: Case) -> None:
    if len(case.tickets) > 1:
        i, j = rng.sample(range(len(case.tickets)), 2)
        case.tickets[i], case.tickets[j] = case.tickets[j], case.tickets[i]


def repeat_identity(rng: random.Random, case: Case) -> None:
    """Give one ticket the identity of another, as a rule at other paths, and keep order."""
    if len(case.tickets) > 1:
        i, j = rng.sample(range(len(case.tickets)), 2)
        near = min(case.tickets[i].paths + 1, MAX_PATHS)
        paths = rng.choice((near, pick(rng, PATHS)))
        sheet = rng.choice((case.tickets[i].sheet, pick(rng, SHEETS)))
        case.tickets[j] = replace(case.tickets[i], paths=paths, sheet=sheet)
        case.tickets.sort(key=lambda ticket: ticket.order)


def repeat_ticket(rng: random.Random, case: Case) -> None:
    """Let a ticket come twice in a row, perhaps on another sheet."""
    if case.tickets:
        i = rng.randrange(len(case.tickets))
        case.tickets.insert(i, replace(case.tickets[i], sheet=pick(rng, SHEETS)))


def too_many_tickets(rng: random.Random, case: Case) -> None:
    case.tickets = sound_tickets(rng, case.n, case.limit + 1)


def other_n(rng: random.Random, case: Case) -> None:
    case.n = rng.randint(1, MAX_BEDS)


# Damage to the numbers.


def long_form(rng: random.Random, case: Case, numbers: list[bytes]) -> None:
    """Pad a number with 80 .. 00, or with 80 .. 80 so that it seems to go on."""
    i = rng.randrange(len(numbers))
    *low, last = numbers[i]
    padding = [0x80] * rng.randint(0, 2) + [rng.choice((0x00, 0x00, 0x80))]
    numbers[i] = bytes([*low, last | 0x80, *padding])


def out_of_range(rng: random.Random, case: Case, numbers: list[bytes]) -> None:
    i = rng.randrange(len(numbers))
    numbers[i] = encode_number(rng.choice(case.outside()[i]))


def head_out_of_range(rng: random.Random, case: Case, numbers: list[bytes]) -> None:
    """Put the count, or a packet's bed or round, out of range."""
    i = rng.randrange(len(case.head) + 1)
    numbers[i] = encode_number(rng.choice(case.outside()[i]))


def edge_value(rng: random.Random, case: Case, numbers: list[bytes]) -> None:
    numbers[rng.randrange(len(numbers))] = encode_number(rng.choice(EDGES))


def other_count(rng: random.Random, case: Case, numbers: list[bytes]) -> None:
    count = max(0, len(case.tickets) + rng.choice((-2, -1, 1, 2)))
    numbers[len(case.head)] = encode_number(count)


def end_inside(rng: random.Random, case: Case, numbers: list[bytes]) -> None:
    """End the bytes inside a number, or where it is due."""
    i = rng.randrange(len(numbers))
    numbers[i:] = [bytes(rng.randrange(0x80, 0x100) for _ in range(rng.randint(0, 2)))]


# Damage to the bytes.


def cut(rng: random.Random, data: bytes) -> bytes:
    return data[: rng.randint(0, len(data))]


def cut_short(rng: random.Random, data: bytes) -> bytes:
    return data[: rng.randint(0, 7)]


def extend(rng: random.Random, data: bytes) -> bytes:
    return data + rng.randbytes(rng.randint(1, 9))


def change_byte(rng: random.Random, data: bytes) -> bytes:
    i = rng.randint(0, max(0, len(data) - 1))
    return data[:i] + some_byte(rng) + data[i + 1 :]


def change_early_byte(rng: random.Random, data: bytes) -> bytes:
    """Change one of the bytes that hold the mark and head of a packet."""
    i = rng.randrange(min(7, len(data) + 1))
    return data[:i] + some_byte(rng) + data[i + 1 :]


def insert_byte(rng: random.Random, data: bytes) -> bytes:
    i = rng.randint(0, len(data))
    return data[:i] + some_byte(rng) + data[i:]


def delete_byte(rng: random.Random, data: bytes) -> bytes:
    i = rng.randint(0, max(0, len(data) - 1))
    return data[:i] + data[i + 1 :]


def random_bytes(rng: random.Random, data: bytes) -> bytes:
    """Forget the bytes, but keep the mark of a packet now and then."""
    kept = MARK if data.startswith(MARK) and rng.random() < 0.7 else b""
    return kept + b"".join(some_byte(rng) for _ in range(rng.randint(0, 12)))


def toggle_mark(rng: random.Random, data: bytes) -> bytes:
    """Take the mark from a packet, or put one before a batch."""
    return data.removeprefix(MARK) if data.startswith(MARK) else MARK + data


def some_byte(rng: random.Random) -> bytes:
    return bytes([rng.choice((rng.choice(TELLING_BYTES), rng.randrange(256)))])


TICKET_DAMAGE: tuple[Callable[[random.Random, Case], None], ...] = (
    swap_tickets, repeat_identity, repeat_ticket, too_many_tickets, other_n,
)  # fmt: skip
NUMBER_DAMAGE: tuple[Callable[[random.Random, Case, list[bytes]], None], ...] = (
    long_form, out_of_range, head_out_of_range, edge_value, other_count, end_inside,
)  # fmt: skip
BYTE_DAMAGE: tuple[Callable[[random.Random, bytes], bytes], ...] = (
    cut, cut_short, extend, change_byte, change_early_byte, insert_byte, delete_byte,
    random_bytes, toggle_mark,
)  # fmt: skip
ALL_DAMAGE = (*TICKET_DAMAGE, *NUMBER_DAMAGE, *BYTE_DAMAGE)

UNREADABLE = tuple(
    line.encode("latin-1")
    for line in (
        "", " ", "b", "p", "b ", "p ", "2 00", "b 00", "00", "b2 00", "b 200", "b2", "hello",
        "b 0 00", "b 9 00", "p 0", "p 9", "b 10 00", "b 02 00", "b -1 00", "b +2 00", "b x 00",
        "x 2 00", "B 2 00", "P 2 00", "bp 2 00", "b b 2 00", " b 2 00", "b  2 00", "b  2  ",
        "b\t2 00", "b 2\t00", "b 2 00\t00", "b 2 00\t", "b 2 00\r", "b 2 00\0", "b 2,00",
        "b 2 0", "b 2 000", "b 2 0 0", "b 2 00 0", "p 2 4A 4F 42 4 7", "b 2 0g", "b 2 G0",
        "b 2 0x00", "b 2 00,00", "b 2 +0", "b 2 -1", "b 2 0\xc3\xa9", "b 2 \xc3\xa9",
        "b 2 \xff\xfe", "b \xef\xbc\x92 00", "\xff 2 00", "b 2 00 ; 00", "b 2 00 # none",
    )
)  # fmt: skip


def damaged(rng: random.Random) -> tuple[str, int, bytes]:
    """The letter, n and bytes of a batch or packet with no, one or two kinds of damage."""
    case = sound_case(rng)
    kinds = rng.choices(ALL_DAMAGE, k=rng.choice((0, 1, 1, 1, 1, 1, 1, 1, 2, 2)))
    for kind in TICKET_DAMAGE:
        if kind in kinds:
            kind(rng, case)
    numbers = case.numbers()
    for kind in NUMBER_DAMAGE:
        if kind in kinds:
            kind(rng, case, numbers)
    data = case.mark + b"".join(numbers)
    for kind in BYTE_DAMAGE:
        if kind in kinds:
            data = kind(rng, data)
    return case.letter, case.n, data


def spelled(rng: random.Random, letter: str, n: int, data: bytes) -> bytes:
    """An inspector line, its hexadecimal digits in some case and spacing."""
    recases = rng.choice(((str.upper,), (str.lower,), (str.upper, str.lower)))
    gaps = rng.choice(((" ",), ("",), ("", " ", "   ")))
    start = f"{letter} {n}"
    margins = rng.choice((("",), ("",), ("", " ", "   ")))
    if not data:
        return (start + rng.choice(("", " " + rng.choice(margins)))).encode()
    pairs = ""
    for i, digit in enumerate(data.hex()):
        if i > 0 and i % 2 == 0:
            pairs += rng.choice(gaps)
        pairs += rng.choice(recases)(digit)
    return f"{start} {rng.choice(margins)}{pairs}{rng.choice(margins)}".encode()


def misspelled(rng: random.Random, line: bytes) -> bytes:
    """The line with a character put in, left out or put for another; it may still be readable."""
    i = rng.randrange(len(line))
    character = rng.choice((b"", b" ", b"0", b"g", b"\t", b"\xc3\xa9"))
    return line[:i] + character + line[i + rng.randint(0, 1) :]


def main() -> None:
    parser = argparse.ArgumentParser(description=__doc__)
    parser.add_argument("--seed", type=int, required=True)
    parser.add_argument("--count", type=int, required=True)
    args = parser.parse_args()
    rng = random.Random(args.seed)
    for _ in range(args.count):
        line = spelled(rng, *damaged(rng))
        if rng.random() < 0.05:
            line = rng.choice((rng.choice(UNREADABLE), misspelled(rng, line)))
        sys.stdout.buffer.write(line + b"\n")


if __name__ == "__main__":
    main()

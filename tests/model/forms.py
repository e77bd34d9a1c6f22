"""Numbers, tickets, batches and packets as bytes, after docs/FORMATS.md."""

from collections.abc import Iterable, Iterator, Sequence
from dataclasses import astuple, dataclass
from enum import Enum, IntEnum

MARK = bytes.fromhex("4A 4F 42 47")
MAX_BEDS = 8
NUMBERS = range(2_097_152)
ROUNDS = range(33)
BATCH_COUNTS = range(9)
PACKET_COUNTS = range(17)


class Cause(IntEnum):
    """What is wrong."""

    CUT = 1
    FORM = 2
    RANGE = 3
    ORDER = 4
    IDENTITY = 5
    SPARE = 6
    MARK = 7


class Layer(Enum):
    """The part of the form that a fault belongs to."""

    NUMBER = "number"
    TICKET = "ticket"
    LIST = "list"
    WHOLE = "whole"


@dataclass(frozen=True)
class Ticket:
    """One job."""

    paths: int
    origin: int
    number: int
    sheet: int

    @property
    def identity(self) -> tuple[int, int]:
        return self.origin, self.number

    @property
    def order(self) -> tuple[int, int, int]:
        """The key that sorts tickets into ticket order."""
        return self.paths, self.origin, self.number


@dataclass(frozen=True)
class BatchHead:
    count: int


@dataclass(frozen=True)
class PacketHead:
    bed: int
    round: int
    count: int


@dataclass(frozen=True)
class TicketPart:
    """A ticket with its own stretch of the bytes."""

    offset: int
    form: bytes
    ticket: Ticket


@dataclass(frozen=True)
class End:
    length: int


@dataclass
class Fault(Exception):
    """The first fault; raised inside the reader and handed out as its last part."""

    cause: Cause
    place: int
    layer: Layer


Part = BatchHead | PacketHead | TicketPart | End | Fault


def ticket_ranges(n: int) -> tuple[range, range, range, range]:
    """The ranges of paths, origin, number and sheet in a group of n beds."""
    return range(1_000_001), range(n), range(1, 65_536), range(64)


class Reader:
    """Reads from left to right for a group of n beds; raises the first fault."""

    def __init__(self, data: bytes, n: int) -> None:
        if n not in range(1, MAX_BEDS + 1):
            raise ValueError(f"no group has {n} beds")
        self.data = data
        self.n = n
        self.at = 0

    def mark(self) -> None:
        if len(self.data) < len(MARK):
            raise Fault(Cause.CUT, 0, Layer.WHOLE)
        if not self.data.startswith(MARK):
            raise Fault(Cause.MARK, 0, Layer.WHOLE)
        self.at = len(MARK)

    def number(self, allowed: range = NUMBERS, layer: Layer = Layer.NUMBER) -> int:
        """Read a number; one that is not allowed is a fault of the given layer."""
        start = self.at
        value = 0
        for index in range(3):
            if self.at == len(self.data):
                raise Fault(Cause.CUT, start, Layer.NUMBER)
            byte = self.data[self.at]
            self.at += 1
            if (index > 0 and byte == 0) or (index == 2 and byte >= 0x80):
                raise Fault(Cause.FORM, start, Layer.NUMBER)
            value += (byte % 128) * 128**index
            if byte < 0x80:
                break
        if value not in allowed:
            raise Fault(Cause.RANGE, start, layer)
        return value

    def ticket(self) -> TicketPart:
        start = self.at
        fields = [self.number(allowed, Layer.TICKET) for allowed in ticket_ranges(self.n)]
        return TicketPart(start, self.data[start : self.at], Ticket(*fields))

    def tickets(self, count: int) -> Iterator[TicketPart]:
        """Read the tickets of a list, whose count has been read."""
        seen: list[Ticket] = []
        for _ in range(count):
            part = self.ticket()
            if seen and not seen[-1].order < part.ticket.order:
                raise Fault(Cause.ORDER, part.offset, Layer.LIST)
            if part.ticket.identity in (earlier.identity for earlier in seen):
                raise Fault(Cause.IDENTITY, part.offset, Layer.LIST)
            seen.append(part.ticket)
            yield part

    def end(self) -> End:
        if self.at < len(self.data):
            raise Fault(Cause.SPARE, self.at, Layer.WHOLE)
        return End(self.at)


def read_batch(data: bytes, n: int) -> Iterator[Part]:
    """Yield the parts of a batch; the last one is the end or the fault."""
    reader = Reader(data, n)
    try:
        head = BatchHead(reader.number(BATCH_COUNTS, Layer.LIST))
        yield head
        yield from reader.tickets(head.count)
        yield reader.end()
    except Fault as fault:
        yield fault


def read_packet(data: bytes, n: int) -> Iterator[Part]:
    """Yield the parts of a packet; the last one is the end or the fault."""
    reader = Reader(data, n)
    try:
        reader.mark()
        bed = reader.number(range(n), Layer.WHOLE)
        round_ = reader.number(ROUNDS, Layer.WHOLE)
        head = PacketHead(bed, round_, reader.number(PACKET_COUNTS, Layer.LIST))
        yield head
        yield from reader.tickets(head.count)
        yield reader.end()
    except Fault as fault:
        yield fault


def _check(sound: bool, what: str) -> None:
    if not sound:
        raise ValueError(what)


def encode_number(value: int) -> bytes:
    """The one form of a number."""
    _check(value in NUMBERS, f"no number: {value}")
    form = bytearray()
    while value >= 128:
        form.append(0x80 + value % 128)
        value //= 128
    form.append(value)
    return bytes(form)


def encode_numbers(values: Iterable[int]) -> bytes:
    return b"".join(map(encode_number, values))


def encode_ticket(ticket: Ticket) -> bytes:
    fields = astuple(ticket)
    for value, allowed in zip(fields, ticket_ranges(MAX_BEDS)):
        _check(value in allowed, f"out of range: {ticket}")
    return encode_numbers(fields)


def _encode_list(tickets: Sequence[Ticket], counts: range) -> bytes:
    _check(len(tickets) in counts, "too many tickets")
    _check(all(a.order < b.order for a, b in zip(tickets, tickets[1:])), "out of order")
    _check(len({ticket.identity for ticket in tickets}) == len(tickets), "an identity twice")
    return encode_number(len(tickets)) + b"".join(map(encode_ticket, tickets))


def encode_batch(tickets: Sequence[Ticket]) -> bytes:
    return _encode_list(tickets, BATCH_COUNTS)


def encode_packet(bed: int, round_: int, tickets: Sequence[Ticket]) -> bytes:
    _check(bed in range(MAX_BEDS), f"no bed {bed}")
    _check(round_ in ROUNDS, f"no round {round_}")
    return MARK + encode_numbers((bed, round_)) + _encode_list(tickets, PACKET_COUNTS)

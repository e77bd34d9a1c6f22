"""Write images of chips into a folder, and print inspector lines about them."""

import argparse
import random
import sys
from pathlib import Path

from damage import damaged
from model.stores import BEDS, CHIP_CELLS, LENGTHS, MARK, MARK_CELL, PLACES, SLOT_CELLS, SLOTS, Chip

# Lines with no file that can be read.
UNANSWERED = ("c", "c ", "c 2", "c 2 ", "c2 blank", "c 0 blank", "c 9 blank", "c 12 blank", "c x blank",
              "c 2blank", "C 2 blank", "c 2 missing", "c 2 .", "c 2  blank")  # fmt: skip


def some_batch(rng: random.Random) -> bytes:
    """A batch for a slot, sound or damaged."""
    while True:
        letter, _, data = damaged(rng)
        if letter == "b" and len(data) in LENGTHS:
            return data


def used(rng: random.Random) -> bytes:
    """What keeps and torn keeps leave of blank cells."""
    chip = Chip(bytearray(CHIP_CELLS))
    for place in rng.sample(PLACES, rng.randint(1, len(PLACES))):
        bed, slot = place // len(SLOTS), place % len(SLOTS)
        data = some_batch(rng)
        if rng.random() < 0.7:
            chip.keep(bed, slot, data)
        else:
            at = rng.randint(0, len(data) + 2)
            chip.torn_keep(bed, slot, data, at, rng.choice((0x00, 0x01, MARK, 0xFF)))
    return bytes(chip.cells)


def marked(rng: random.Random) -> bytes:
    """Any bytes, with marks and lengths at the edges in many slots."""
    cells = bytearray(rng.randbytes(CHIP_CELLS))
    for place in PLACES:
        start = SLOT_CELLS * place
        if rng.random() < 0.5:
            cells[start + MARK_CELL] = MARK
        cells[start] = rng.choice((0, 1, 2, 64, 65, 66, 255, cells[start]))
    return bytes(cells)


def files(rng: random.Random) -> dict[str, bytes]:
    """The files, by name."""
    blank = bytes(CHIP_CELLS)
    found = {
        "blank": blank,
        "none": b"",
        "short": blank[:-1],
        "long": used(rng) + rng.randbytes(SLOT_CELLS),
        "all": bytes([MARK]) * CHIP_CELLS,
        "a name": used(rng),
    }
    for i in range(12):
        found[f"used{i}"] = used(rng)
        found[f"marked{i}"] = marked(rng)
        found[f"any{i}"] = rng.randbytes(rng.randrange(2 * CHIP_CELLS))
    return found


def main() -> None:
    parser = argparse.ArgumentParser(description=__doc__)
    parser.add_argument("--seed", type=int, required=True)
    parser.add_argument("--folder", type=Path, required=True)
    args = parser.parse_args()
    rng = random.Random(args.seed)
    lines = list(UNANSWERED)
    for name, cells in files(rng).items():
        (args.folder / name).write_bytes(cells)
        lines += [f"c {n} {name}" for n in rng.sample(range(1, len(BEDS) + 1), 3)]
    rng.shuffle(lines)
    sys.stdout.write("".join(line + "\n" for line in lines))


if __name__ == "__main__":
    main()

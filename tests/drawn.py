"""What the tests of files draw: the words of PCG32, slots with signs turned as `trial` turns them, and the words of runs over
all modes; and the program that the tests run."""
import os
import pathlib
import sys

SLOT = 510
MODES = ("sig", "d72", "d48n1", "d48n4", "d48n8", "d24n1", "d24n4", "d24n8", "speech")


def program_at(path):
    """The program of the command line, or an end with one line where there is none."""
    program = pathlib.Path(path).resolve()
    if not (program.is_file() and os.access(program, os.X_OK)):
        sys.exit(f"there is no program at {path}: 'rt ci' or examples/run builds it")
    return str(program)


def words(draw, stream):
    """The words of PCG32 (docs/FORMATS.md, Blocks from a number)."""
    modulus, multiplier, increment = 2**64, 6364136223846793005, 2 * stream + 1
    state = ((draw + increment) * multiplier + increment) % modulus
    while True:
        word, turn = ((state ^ state >> 18) >> 27) & 0xFFFFFFFF, state >> 59
        yield (word >> turn | word << (32 - turn)) & 0xFFFFFFFF
        state = (state * multiplier + increment) % modulus


def damaged(slots, draw, damage):
    """The slots with the signs turned that the draws of stream 2 name, so many for each."""
    drawn, out = words(draw, 2), bytearray(slots)
    for first in range(0, len(out), SLOT):
        for _ in range(damage):
            at = first + next(drawn) % SLOT
            out[at] = -out[at] & 255
    return bytes(out)


def all_modes():
    """The words of a run with each mode on all four timeslots, in both directions."""
    for direction in ("ul", "dl"):
        for mode in MODES if direction == "dl" else (*MODES, "cb"):
            yield f"dir={direction} mcc=901 mnc=1 cc=1 " + " ".join(f"ts{c}={mode}" for c in (1, 2, 3, 4))

"""The files of docs/FORMATS.md: letters, fields and sizes as one table for every mode and both directions, the words that say
what a file holds, and readers of its records. Bits, positions and places are counted from 1 in the documents and from 0 here.
"""
import dataclasses
import functools
from typing import NamedTuple

SLOT = 510
"""Bytes of a slot, one for each position."""

ROUND = 4320
"""Slots after which timeslot, frame and multiframe come again."""


class Fault(Exception):
    """What is wrong with a file or a word, as one line, and the status that a tool ends with."""

    def __init__(self, line, status=2):
        super().__init__(line)
        self.status = status


class Field(NamedTuple):
    """Bits of the block, parity bits behind them, and steps of the trellis (0 where the field has none)."""

    block: int
    parity: int
    steps: int

    @property
    def bits(self):
        return self.block + self.parity

    @property
    def packed(self):
        """Bytes of the packed bits."""
        return (self.bits + 7) // 8

    @property
    def certificate(self):
        """Bytes of a certificate: a row for each step and one more, of 16 numbers of 2 bytes."""
        return (self.steps + 1) * 32 if self.steps else 0


FIELDS = {
    "aach": Field(14, 0, 0),
    "sync": Field(60, 16, 80),
    "half": Field(124, 16, 144),
    "hu": Field(92, 16, 112),
    "full": Field(268, 16, 288),
    "d72": Field(432, 0, 0),
    "d48": Field(288, 0, 292),
    "d24": Field(144, 0, 148),
    "whole": Field(274, 8, 184),
    "single": Field(137, 4, 94),
}

# letter: the fields of its block record, and of its reading record; `load` is that of the timeslot's mode
LETTERS = {
    "F": (("full",), ("full",)),
    "H": (("half", "half"), ("half", "half")),
    "S": (("sync", "half"), ("sync", "half")),
    "T": (("load",), ("load",)),
    "P": (("half", "load"), ("half", "half", "load")),
    "Q": (("half", "half", "load"), None),
    "C": (("hu", "hu"), ("hu", "hu")),
}

# mode of a timeslot: letter: the field that is its load, None where there is no field
LOADS = {
    "d72": {"T": "d72", "P": "d72", "Q": "d72"},
    "d48": {"T": "d48", "P": "d48", "Q": "d48"},
    "d24": {"T": "d24", "P": "d24", "Q": "d24"},
    "speech": {"T": "whole", "P": "single", "Q": None},
}

# direction and mode: the letters that a slot allows; traffic timeslots carry signalling in frame 18
ALLOWED = {("dl", "sig"): "FHS", ("ul", "sig"): "F", ("ul", "cb"): "C"}
TRAFFIC = "TPQ"

MARKS = {ord("G"): "Good", ord("B"): "Bad", ord("U"): "Unchecked", ord("N"): "not yet"}

MODES = ("sig", "cb", "d72", "d48n1", "d48n4", "d48n8", "d24n1", "d24n4", "d24n8", "speech")

# the words of the program that say what a file holds
KEYS = {
    "dir": ("dl", "ul"),
    "mcc": range(1024),
    "mnc": range(16384),
    "cc": range(64),
    "ts1": MODES,
    "ts2": MODES,
    "ts3": MODES,
    "ts4": MODES,
    "at": range(ROUND),
}


@dataclasses.dataclass(frozen=True)
class Settings:
    """What the words say of a file."""

    dir: str = "dl"
    mcc: int = 0
    mnc: int = 0
    cc: int = 0
    ts1: str = "sig"
    ts2: str = "sig"
    ts3: str = "sig"
    ts4: str = "sig"
    at: int = 0

    def words(self):
        """The words for the program, those that are not its defaults."""
        pairs = dataclasses.asdict(self).items()
        return [f"{key}={value}" for key, value in pairs if value != getattr(Settings, key)]

    def clock(self, slot):
        """Timeslot, frame and multiframe of a slot of the file."""
        number = (self.at + slot) % ROUND
        return 1 + number % 4, 1 + number // 4 % 18, 1 + number // 72

    def mode_and_span(self, timeslot):
        """The mode of a timeslot, and over how many of its slots a block is spread."""
        return parted((self.ts1, self.ts2, self.ts3, self.ts4)[timeslot - 1])

    def mode(self, slot):
        """The mode that counts in a slot: frame 18 of a traffic timeslot carries signalling."""
        timeslot, frame, _ = self.clock(slot)
        mode, _ = self.mode_and_span(timeslot)
        return "sig" if mode in LOADS and frame == 18 else mode

    def letters(self, slot):
        """The letters of block records that a slot allows."""
        mode = self.mode(slot)
        return TRAFFIC if mode in LOADS else ALLOWED.get((self.dir, mode), "")

    def names(self, slot, letter, record):
        """The names of the fields of a block record (0) or a reading record (1) with this letter in this slot."""
        return names_of(self.dir, self.mode(slot), letter, record)


@functools.cache
def parted(mode):
    """A mode of the words as mode and span: `d48n4` is d48 over 4 slots."""
    name, _, span = mode.partition("n")
    return name, int(span or 1)


@functools.cache
def names_of(direction, mode, letter, record):
    """The names of the fields of a block record (0) or a reading record (1) of a letter."""
    loads = LOADS.get(mode, {})
    names = ["aach"] if direction == "dl" else []
    names += [loads[letter] if name == "load" else name for name in LETTERS[letter][record]]
    return [name for name in names if name is not None]


def settings_of(words, more=None):
    """The settings that words like `dir=ul` give, and a dictionary of the values for the further keys in `more`."""
    keys = {**KEYS, **(more or {})}
    values = {}
    for word in words:
        key, equals, value = word.partition("=")
        if not equals or key not in keys:
            raise Fault(f"word '{word}': there is no key '{key}' (known: {' '.join(keys)})")
        if key in values:
            raise Fault(f"word '{word}': '{key}' is given twice")
        values[key] = value_of(word, value, keys[key])
    settings = Settings(**{key: value for key, value in values.items() if key in KEYS})
    if settings.dir == "dl" and "cb" in (settings.ts1, settings.ts2, settings.ts3, settings.ts4):
        raise Fault("the mode cb is uplink only: give dir=ul")
    return settings, {key: value for key, value in values.items() if key not in KEYS}


def value_of(word, value, allowed):
    """One value of a word: a number of a range, one of several texts, or any text where nothing else is told."""
    if isinstance(allowed, range):
        if not (value.isascii() and value.isdigit()) or int(value) not in allowed:
            raise Fault(f"word '{word}': give a number from {allowed[0]} to {allowed[-1]}")
        return int(value)
    if allowed is not str and value not in allowed:
        raise Fault(f"word '{word}': give one of {' '.join(allowed)}")
    return value


class Part(NamedTuple):
    """One field of a reading: `bits` are packed, `certificate` is None where none stands in the record."""

    name: str
    mark: int
    metric: int
    bits: bytes
    certificate: bytes | None


class Reading(NamedTuple):
    """One record of a reading file, or of an audit file with the 510 bytes that stand before it."""

    slot: int
    letter: str
    parts: list
    soft: bytes | None


def likely_parts(reading):
    """The numbers of the fields without guesses that lost: in letter P the second half is a guess, and so is `single`."""
    numbers = list(range(len(reading.parts)))
    if reading.letter != "P":
        return numbers
    half, load = reading.parts[-2:]
    if chr(half.mark) == "G":
        return numbers[:-1] if load.name == "single" else numbers
    if load.name != "single" or chr(load.mark) == "G":
        del numbers[-2]
    return numbers


def exactly(source, count, slot):
    """The next `count` bytes; a fault where the file ends before."""
    data = source.read(count)
    if len(data) < count:
        raise Fault(f"slot {slot}: the file ends inside this record")
    return data


def readings(source, settings, form="plain"):
    """The records of a reading file or an audit file, one by one as they come."""
    slot = 0
    while True:
        head = source.read(1 if form == "plain" else SLOT + 1)
        if not head:
            return
        if form == "audit" and len(head) <= SLOT:
            raise Fault(f"slot {slot}: the file ends inside this record")
        yield reading_behind(source, settings, slot, head, form)
        slot += 1


def reading_behind(source, settings, slot, head, form):
    """The reading whose letter is the last byte of `head`."""
    letter = chr(head[-1])
    if letter not in settings.letters(slot) or LETTERS[letter][1] is None:
        raise Fault(f"slot {slot}: the byte {head[-1]:02X} is no letter that may stand here; are the words those of decode?")
    parts = [part_of(source, slot, name, form) for name in settings.names(slot, letter, 1)]
    return Reading(slot, letter, parts, head[:-1] if form == "audit" else None)


def part_of(source, slot, name, form):
    """The next field of a reading record."""
    field = FIELDS[name]
    data = exactly(source, 3 + field.packed, slot)
    mark = data[0]
    if mark not in MARKS:
        raise Fault(f"slot {slot}: the byte {mark:02X} is no mark; are the words those of decode?")
    behind = field.certificate if form == "audit" and mark != ord("N") else 0
    certificate = exactly(source, behind, slot) if behind else None
    return Part(name, mark, int.from_bytes(data[1:3], "big"), data[3:], certificate)


def slots(source):
    """The slots of an open slot file, one by one as they come."""
    slot = 0
    while data := source.read(SLOT):
        if len(data) < SLOT:
            raise Fault(f"slot {slot}: the slot file ends inside this slot")
        yield data
        slot += 1


def soft_of(byte):
    """The soft value of a byte of a slot."""
    return max(byte - 256, -127) if byte > 127 else byte


def pack(bits):
    """A list of 0 and 1 as bytes, the first bit most significant; pad bits are 0."""
    text = "".join(map(str, bits))
    size = (len(text) + 7) // 8
    return int(text.ljust(8 * size, "0") or "0", 2).to_bytes(size, "big")


def unpack(data, count):
    """The first `count` bits of packed bytes, as a list of 0 and 1."""
    text = f"{int.from_bytes(data, 'big'):0{8 * len(data)}b}"
    return [int(bit) for bit in text[:count]]


def first_bits(data, count):
    """The first `count` bits of packed bytes, as packed bytes."""
    size = (count + 7) // 8
    keep = 0xFF00 >> (count % 8 or 8) & 0xFF
    return data[: size - 1] + bytes([data[size - 1] & keep])

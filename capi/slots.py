#!/usr/bin/env python3
"""Runs the shared library over a file of cases by ctypes alone, and compares each answer with what the program says.

usage: slots.py LIBRARY FILE

The structs and the declarations are what a caller in Python needs.
"""
import ctypes
import struct
import sys
from ctypes import POINTER as Pointer
from ctypes import c_int8, c_int32, c_size_t, c_uint8, c_uint16, c_uint32

SLOT, RECORD = 510, 18743
MARKS = b"GBUN"


class TetraColour(ctypes.Structure):
    _fields_ = [("mcc", c_uint16), ("mnc", c_uint16), ("cc", c_uint8)]


class TetraSettings(ctypes.Structure):
    _fields_ = [("colour", TetraColour), ("direction", c_uint8), ("modes", c_uint8 * 4), ("at", c_uint16)]


class TetraKeptBlock(ctypes.Structure):
    _fields_ = [("bits", c_uint8 * 432)]


class TetraKeptBlocks(ctypes.Structure):
    _fields_ = [("count", c_uint8), ("oldest", c_uint8), ("blocks", TetraKeptBlock * 8)]


class TetraKeptWord(ctypes.Structure):
    _fields_ = [("values", c_int8 * 432)]


class TetraKeptWords(ctypes.Structure):
    _fields_ = [("count", c_uint8), ("oldest", c_uint8), ("words", TetraKeptWord * 8)]


class TetraSender(ctypes.Structure):
    _fields_ = [("settings", TetraSettings), ("turn", c_uint32), ("lanes", TetraKeptBlocks * 4)]


Row = c_uint32 * 16


class TetraField(ctypes.Structure):
    _fields_ = [
        ("metric", c_uint32),
        ("name", c_uint8),
        ("mark", c_uint8),
        ("bits", c_uint16),
        ("rows", c_uint16),
        ("message", c_uint8 * 432),
        ("potentials", Row * 293),
    ]


class TetraReceiver(ctypes.Structure):
    _fields_ = [("settings", TetraSettings), ("turn", c_uint32), ("lanes", TetraKeptWords * 4), ("work", TetraField)]


class TetraBlocks(ctypes.Structure):
    _fields_ = [
        ("letter", c_uint8),
        ("aach", c_uint16),
        ("sends_first", c_uint8),
        ("sends_second", c_uint8),
        ("bits", c_uint16 * 3),
        ("fields", c_uint8 * 432 * 3),
    ]


class TetraReading(ctypes.Structure):
    _fields_ = [("letter", c_uint8), ("count", c_uint8), ("fields", TetraField * 4)]


class TetraVerdict(ctypes.Structure):
    _fields_ = [("step", c_uint16), ("state", c_uint8), ("rule", c_uint8)]


class TetraAudit(ctypes.Structure):
    _fields_ = [("test", c_uint8), ("field", c_uint8), ("certificate", TetraVerdict)]


STRUCTS = [kind for kind in ctypes.Structure.__subclasses__() if kind.__module__ == __name__]

CALLS = {
    "tetra_sender_init": [Pointer(TetraSender), Pointer(TetraSettings)],
    "tetra_sender_slot": [Pointer(TetraSender), Pointer(TetraBlocks), Pointer(c_int8)],
    "tetra_receiver_init": [Pointer(TetraReceiver), Pointer(TetraSettings)],
    "tetra_receiver_slot": [Pointer(TetraReceiver), Pointer(c_int8), Pointer(TetraReading)],
    "tetra_receiver_record": [Pointer(TetraReceiver), Pointer(c_int8), c_uint8, Pointer(c_uint8), Pointer(c_uint32)],
    "tetra_receiver_audit": [Pointer(TetraReceiver), Pointer(c_int8), Pointer(c_uint8), c_size_t, Pointer(TetraAudit)],
    "tetra_check": [
        c_uint8, Pointer(c_int8), c_size_t, Pointer(c_uint8), c_size_t, Pointer(Row), c_size_t, Pointer(TetraVerdict),
    ],
}  # fmt: skip


def opened(path):
    """The shared library with its calls declared."""
    library = ctypes.CDLL(path)
    for name, types in CALLS.items():
        call = getattr(library, name)
        call.argtypes, call.restype = types, c_int32
    return library


class File:
    """A file of cases (cases.py), read from its front."""

    def __init__(self, data):
        self.data, self.at = data, 0

    def bytes(self, count):
        self.at += count
        return self.data[self.at - count : self.at]

    def numbers(self, layout):
        return struct.unpack(layout, self.bytes(struct.calcsize(layout)))

    def listed(self):
        """A length of two bytes and so many bytes."""
        return self.bytes(*self.numbers(">H"))


def as_array(kind, data):
    """Bytes as an array of one-byte numbers."""
    return (kind * len(data)).from_buffer_copy(data)


class Session:
    """The library under the settings of a row, and what differs."""

    def __init__(self, library, file):
        self.library, self.file, self.differing = library, file, 0
        mcc, mnc, cc, direction, *modes, at, self.slots = file.numbers(">HHBB4BHH")
        settings = TetraSettings(TetraColour(mcc, mnc, cc), direction, (c_uint8 * 4)(*modes), at)
        self.sender = TetraSender()
        self.receivers = {name: TetraReceiver() for name in ("reading", "plain", "record", "audit")}
        self.want(library.tetra_sender_init(self.sender, settings) == 0)
        for receiver in self.receivers.values():
            self.want(library.tetra_receiver_init(receiver, settings) == 0)

    def want(self, holds):
        self.differing += not holds

    def blocks(self):
        """The blocks of the next slot."""
        blocks = TetraBlocks()
        blocks.letter, blocks.aach, blocks.sends_first, blocks.sends_second = self.file.numbers(">BHBB")
        for field in range(3):
            bits = self.file.listed()
            blocks.bits[field] = len(bits)
            ctypes.memmove(blocks.fields[field], bits, len(bits))
        return blocks

    def record(self, name, soft, certificates):
        """The record that the library writes."""
        out, written = (c_uint8 * RECORD)(), c_uint32()
        self.want(self.library.tetra_receiver_record(self.receivers[name], soft, certificates, out, written) == 0)
        return bytes(out[: written.value])

    def slot(self):
        """Compares all that the library says of the next slot."""
        slot = (c_int8 * SLOT)()
        self.want(self.library.tetra_sender_slot(self.sender, self.blocks(), slot) == 0)
        self.want(bytes(slot) == self.file.bytes(SLOT))
        soft = as_array(c_int8, self.file.bytes(SLOT))
        plain, record = self.file.listed(), self.file.listed()
        self.want(self.record("plain", soft, 0) == plain)
        self.want(self.record("record", soft, 1) == record)
        reading = TetraReading()
        self.want(self.library.tetra_receiver_slot(self.receivers["reading"], soft, reading) == 0)
        field = reading.fields[0]
        first = bytes([reading.letter, MARKS[field.mark]]) + struct.pack(">H", field.metric)
        self.want(1 <= reading.count <= 4 and first == record[:4])
        self.audits(soft, bytearray(record))
        for _ in range(*self.file.numbers(">B")):
            self.check()

    def audits(self, soft, record):
        """Audits the record, and before it, by a copy of the state, the record with a byte changed."""
        (place, byte), told, audit = self.file.numbers(">HB"), self.file.numbers(">BBHBB"), TetraAudit()
        auditor = self.receivers["audit"]
        copy = TetraReceiver.from_buffer_copy(auditor)
        byte, record[place] = record[place], byte
        self.want(self.library.tetra_receiver_audit(copy, soft, as_array(c_uint8, record), len(record), audit) == 0)
        verdict = audit.certificate
        self.want((audit.test, audit.field, verdict.step, verdict.state, verdict.rule) == told)
        record[place] = byte
        self.want(self.library.tetra_receiver_audit(auditor, soft, as_array(c_uint8, record), len(record), audit) == 0)
        self.want(audit.test == 0)

    def check(self):
        """Checks the next certificate by itself."""
        (channel,) = self.file.numbers(">B")
        soft, message = as_array(c_int8, self.file.listed()), as_array(c_uint8, self.file.listed())
        (rows,) = self.file.numbers(">H")
        numbers = struct.unpack(f">{16 * rows}H", self.file.bytes(32 * rows))
        table, verdict = (Row * rows).from_buffer_copy(struct.pack(f"={16 * rows}I", *numbers)), TetraVerdict()
        told = self.file.numbers(">HBB")
        self.want(self.library.tetra_check(channel, soft, len(soft), message, len(message), table, rows, verdict) == 0)
        self.want((verdict.step, verdict.state, verdict.rule) == told)


def main(path, name):
    library = opened(path)
    with open(name, "rb") as source:
        file = File(source.read())
    slots = differing = 0
    for _ in range(*file.numbers(">H")):
        row = Session(library, file)
        for _ in range(row.slots):
            row.slot()
        slots, differing = slots + row.slots, differing + row.differing
    print(f"{slots} slots, {differing} answers differ")
    return 1 if differing or not slots else 0


if __name__ == "__main__":
    sys.exit(main(*sys.argv[1:]))

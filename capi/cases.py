"""Files of cases: slots that are drawn, each with what the program says of it, for the programs of this folder to compare
with the library.

A file is the number of its rows (2 bytes) and then the rows. A row is its settings (country 2 bytes, network 2, colour 1,
direction 1, four modes, place 2), the number of its slots (2) and then the slots. A slot is

- its blocks: letter 1, access message 2, a byte for each subslot, and for three fields the number of bits, 2, and a byte
  for each bit;
- the 510 bytes that `encode` writes, and the 510 that are received;
- the records of `decode`, without and with certificates, each a length of 2 and its bytes;
- where the second is changed, 2, which byte stands there then, 1, and what `audit` says of it then: test 1, field 1,
  step 2, state 1, rule 1;
- the number of its checks, 1, and then these. A check is a certificate by itself: channel 1, values (number 2, a byte
  each), message (number 2, a byte for each bit), rows (number 2, 32 bytes each), and what the rules say: step 2, state 1,
  rule 1.

Numbers are big-endian.
"""
import io
import pathlib
import random
import re
import struct
import subprocess
import sys

TOP = pathlib.Path(__file__).resolve().parent.parent
sys.path += [str(TOP / "tools"), str(TOP / "tests")]

import coding  # noqa: E402
from drawn import all_modes  # noqa: E402
from formats import FIELDS, MODES, SLOT, readings, settings_of, soft_of, unpack  # noqa: E402

SLOTS = 96
"""Slots of a row: frame 18 of each timeslot is among them."""

TESTS = {"kind": 1, "pad": 2, "bits": 3, "step": 4, "metric": 5, "mark": 6}
RULES = {"end": 1, "edge 0": 2, "edge 1": 3, "path": 4, "tie": 5}
NAMES = list(FIELDS)
NO_RULE = struct.pack(">HBB", 0, 0, 0)

MIXED = (
    "dir=ul mcc=262 mnc=1001 cc=7 ts1=cb ts2=d48n4 ts3=speech ts4=d24n8",
    "dir=dl mcc=1023 mnc=16383 cc=63 ts2=d48n8 ts3=d72 ts4=d24n4",
)


def rows():
    """The words of each row: every mode on all timeslots and modes mixed, from a place in the cycle that is drawn."""
    draw = random.Random(1)
    for words in (*all_modes(), *MIXED):
        yield f"{words} at={draw.randrange(4320)}"


def run(program, command, data=b""):
    """What the program writes; an audit may refuse."""
    done = subprocess.run([program, *command.split()], input=data, capture_output=True, check=False)
    if done.returncode not in (0, 1):
        sys.exit(f"'tetra_cli {command}' ends with {done.returncode}: {done.stderr.decode().strip()}")
    return done.stdout


def heard(slots, draw):
    """What is received: of each slot either signs turned at full strength, or noise of a strength that is drawn."""
    out = bytearray()
    for first in range(0, len(slots), SLOT):
        values = [soft_of(byte) for byte in slots[first : first + SLOT]]
        if draw.random() < 0.4:
            for _ in range(draw.randrange(30)):
                at = draw.randrange(SLOT)
                values[at] = -values[at]
        else:
            scale, noise = draw.choice((0.2, 0.4, 0.8, 1.0)), draw.choice((0.0, 15.0, 30.0, 60.0))
            values = [round(value * scale + draw.gauss(0, noise)) for value in values]
        out += bytes(max(-128, min(127, value)) & 255 for value in values)
    return bytes(out)


def block_records(data, settings):
    """The blocks of each slot, as a case has them."""
    at = slot = 0
    while at < len(data):
        letter = chr(data[at])
        names = settings.names(slot, letter, 0)
        at += 1
        access = 0
        if settings.dir == "dl":
            access = int.from_bytes(data[at : at + 2], "big") >> 2
            at, names = at + 2, names[1:]
        sent = ()
        if letter == "C":
            sent = (data[at] >> 7, data[at] >> 6 & 1)
            at += 1
        head = struct.pack(">BHBB", ord(letter), access, *(sent or (0, 0)))
        fields = []
        for index in range(3):
            there = index < len(names) and (not sent or sent[index])
            count = FIELDS[names[index]].block if there else 0
            fields.append(struct.pack(">H", count) + bytes(unpack(data[at : at + (count + 7) // 8], count)))
            at += (count + 7) // 8
        yield head + b"".join(fields)
        slot += 1


def record_of(reading, with_certificates):
    """The bytes of a reading record."""
    out = bytearray(reading.letter.encode())
    for part in reading.parts:
        out += bytes([part.mark]) + part.metric.to_bytes(2, "big") + part.bits
        out += part.certificate or b"" if with_certificates else b""
    return bytes(out)


def parsed(file, settings, form):
    """The readings of a file, which are all of its bytes."""
    found = list(readings(io.BytesIO(file), settings, form))
    if b"".join((reading.soft or b"") + record_of(reading, form == "audit") for reading in found) != file:
        sys.exit(f"{settings}: the records of decode are not what was read of them")
    return found


def change_of(reading, size, draw):
    """The place of a byte of a record, half of the time outside certificates, and what it is turned by."""
    places, at = [0], 1
    for part in reading.parts:
        head = 3 + len(part.bits)
        places += range(at, at + head)
        at += head + len(part.certificate or b"")
    return draw.choice(places) if draw.random() < 0.5 else draw.randrange(size), 1 + draw.randrange(255)


def verdict_of(line):
    """A line of `audit` as test, field, step, state and rule."""
    told = re.fullmatch(rb"\d+ (?:ok|refused (kind)|refused field (\d+) (\w+)(?: (\d+) state (\d+) (.*))?)", line)
    kind, field, word, step, state, rule = told.groups()
    test = TESTS[(kind or word).decode()] if kind or word else 0
    return test, int(field or 0), int(step or 0), int(state or 0), RULES[rule.decode()] if rule else 0


def check_of(part, values, verdict):
    """The check of a field's certificate, or of a changed one."""
    bits = unpack(part.bits, FIELDS[part.name].bits)
    soft = values[coding.UNCODED.get(part.name, 0) :]
    message = coding.trellis_message(part.name, bits)
    rows_told = len(part.certificate) // 32
    head = struct.pack(f">BH{len(soft)}bH", NAMES.index(part.name), len(soft), *soft, len(message))
    return head + bytes(message) + struct.pack(">H", rows_told) + part.certificate + verdict


def checks_of(reading, changed, told, front, is_drawn):
    """The checks of a slot: the certificate that the audit refuses, and of some slots those of the reading."""
    test, field, step, state, rule = told
    out = []
    if test == TESTS["step"]:
        out.append(check_of(changed.parts[field], front[field][1], struct.pack(">HBB", step, state, rule)))
    if is_drawn:
        pairs = zip(reading.parts, front)
        out += [check_of(part, values, NO_RULE) for part, (_, values) in pairs if part.certificate]
    return bytes([len(out)]) + b"".join(out)


def settings_bytes(settings, slots):
    """The head of a row."""
    modes = [MODES.index(mode) for mode in (settings.ts1, settings.ts2, settings.ts3, settings.ts4)]
    direction = int(settings.dir == "ul")
    return struct.pack(">HHBB4BHH", settings.mcc, settings.mnc, settings.cc, direction, *modes, settings.at, slots)


def parts_as(reading, claim):
    """A claim cut as the reading is whose place it has."""
    parts, at = [], 1
    for part in reading.parts:
        end = at + 3 + len(part.bits)
        behind = end + len(part.certificate or b"")
        told = {"mark": claim[at], "metric": int.from_bytes(claim[at + 1 : at + 3], "big"), "bits": claim[at + 3 : end]}
        parts.append(part._replace(**told, certificate=claim[end:behind] if part.certificate else None))
        at = behind
    return reading._replace(parts=parts)


def doubted(program, words, found, draw):
    """For each reading of an audit file its record, the record with a byte changed, and what `audit` says of that."""
    records = [record_of(reading, True) for reading in found]
    claims = []
    for reading, record in zip(found, records):
        place, turn = change_of(reading, len(record), draw)
        claims.append(record[:place] + bytes([record[place] ^ turn]) + record[place + 1 :])
    file = b"".join(reading.soft + claim for reading, claim in zip(found, claims))
    lines = run(program, f"audit {words}", file).splitlines()
    return list(zip(records, claims, map(verdict_of, lines), strict=True))


def heard_as(receiver, slot, reading):
    """The values of each field of a slot, in type-3 order."""
    good = [part.mark == ord("G") for part in reading.parts if part.name == "half"]
    return receiver.front(slot, coding.values_of(reading.soft), lambda _: good[-1])[1]


def row_of(program, words, number, slots):
    """A row: blocks that the program draws from `number`, and what it says of them."""
    settings, _ = settings_of(words.split())
    draw = random.Random(number)
    blocks = run(program, f"gen {words} draw={number} slots={slots}")
    sent = run(program, f"encode {words}", blocks)
    received = heard(sent, draw)
    plain = parsed(run(program, f"decode {words}", received), settings, "plain")
    found = parsed(run(program, f"decode {words} form=audit", received), settings, "audit")
    receiver, out = coding.Receiver(settings), bytearray(settings_bytes(settings, slots))
    told = zip(block_records(blocks, settings), plain, found, doubted(program, words, found, draw), strict=True)
    for slot, (head, short, reading, (record, claim, verdict)) in enumerate(told):
        out += head + sent[slot * SLOT : slot * SLOT + SLOT] + reading.soft
        for data in (record_of(short, False), record):
            out += struct.pack(">H", len(data)) + data
        place = next(at for at, pair in enumerate(zip(record, claim)) if pair[0] != pair[1])
        out += struct.pack(">HB", place, claim[place]) + struct.pack(">BBHBB", *verdict)
        front = heard_as(receiver, slot, reading)
        out += checks_of(reading, parts_as(reading, claim), verdict, front, slot % 4 == number % 4)
    return bytes(out)


def file_of(program, lines, slots=SLOTS):
    """A file of cases with a row for each of the lines of words."""
    made = [row_of(program, words, number, slots) for number, words in enumerate(lines, start=1)]
    return struct.pack(">H", len(made)) + b"".join(made)

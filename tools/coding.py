"""The written code of docs/CODE.md as tables: bursts, key, interleavers, mother codes, puncturing, parity, access code. What
stands at which position, and which sums hold; nothing here decodes. Bits, places and positions are counted from 0 here.
"""
import functools

from formats import FIELDS, LETTERS, soft_of


def span(first, last):
    """The positions `first` to `last` as the documents count them, from 1."""
    return list(range(first - 1, last))


def bits_of(text):
    return [int(bit) for bit in text]


TRAINING = {
    "n": bits_of("1101000011101001110100"),
    "p": bits_of("0111101001000011011110"),
    "y": bits_of("11000001100111001110100111000001100111"),
}

# direction and kind of a burst: the positions of its parts
BURSTS = {
    ("dl", "n"): {
        "first": span(15, 230),
        "second": span(283, 498),
        "aach": span(231, 244) + span(267, 282),
        "training": span(245, 266),
    },
    ("dl", "y"): {
        "sync": span(95, 214),
        "second": span(283, 498),
        "aach": span(253, 282),
        "training": span(215, 252),
    },
    ("ul", "n"): {"first": span(39, 254), "second": span(277, 492), "training": span(255, 276)},
    ("ul", "c"): {
        "one": span(39, 122) + span(153, 236),
        "two": span(294, 377) + span(408, 491),
    },
}
for direction in ("dl", "ul"):
    BURSTS[direction, "p"] = BURSTS[direction, "n"]

# letter of a reading: the kind of its burst, and the parts that carry its fields behind the access field
CARRIED = {
    "F": ("n", ("first second",)),
    "H": ("p", ("first", "second")),
    "S": ("y", ("sync", "second")),
    "T": ("n", ("first second",)),
    "P": ("p", ("first", "second", "load")),
    "C": ("c", ("one", "two")),
}

# carried positions: the factor of the block interleaver over them
FACTORS = {120: 11, 168: 13, 216: 101, 432: 103}

MATRIX_ROWS = 24

# speech: how many of the values are sent uncoded, before those of the trellis
UNCODED = {"whole": 102, "single": 51}


def positions(direction, letter, index, name):
    """The positions of a slot that carry field `index` (behind the access field) or the access field, in the order sent."""
    kind, parts = CARRIED[letter]
    burst = BURSTS[direction, kind]
    if name == "aach":
        return burst["aach"]
    part = parts[index]
    if part == "load":
        part = "second" if name == "single" else "first second"
    return [position for piece in part.split() for position in burst[piece]]


def order(name, count):
    """For each type-3 bit of a field, its place among the bits sent."""
    if name in ("aach", "d72"):
        return list(range(count))
    if name in UNCODED:
        columns = count // MATRIX_ROWS
        return [MATRIX_ROWS * (i % columns) + i // columns for i in range(count)]
    return [FACTORS[count] * i % count for i in range(1, count + 1)]


@functools.cache
def places(direction, letter, index, name):
    """For each type-3 bit of a field: the position that carries it, and the bit of the key that is added to it."""
    sent = positions(direction, letter, index, name)
    return [(sent[place], place) for place in order(name, len(sent))]


def key(mcc, mnc, cc):
    """The 432 bits of the key; BSCH has that of 0, 0, 0."""
    e = bits_of(f"{mcc:010b}{mnc:014b}{cc:06b}")
    bits = [1, 1] + e[::-1]
    for k in range(32, 32 + 432):
        bits.append(sum(bits[k - i] for i in (1, 2, 4, 5, 7, 8, 10, 11, 12, 16, 22, 23, 26, 32)) % 2)
    return bits[32:]


def turned(soft, spots, key_bits):
    """The values of a field in type-3 order, the sign turned where the key bit is 1."""
    return [-soft[position] if key_bits[bit] else soft[position] for position, bit in spots]


def values_of(data):
    """The soft values of the bytes of a slot."""
    return [soft_of(byte) for byte in data]


def cost(value, bit):
    return max(0, value if bit else -value)


def metric(values, bits):
    return sum(cost(value, bit) for value, bit in zip(values, bits))


def kind(soft, direction, allowed):
    """The kind of a slot: the allowed training sequence of least cost; n before p before y at the same cost."""
    weight = {"n": 19, "p": 19, "y": 11}

    def weighed(train):
        heard = [soft[position] for position in BURSTS[direction, train]["training"]]
        return weight[train] * metric(heard, TRAINING[train])

    return min(allowed, key=weighed)


QUARTER = ((0, 1, 4), (0, 2, 3, 4), (0, 1, 2, 4), (0, 1, 3, 4))
THIRD = ((0, 1, 2, 3, 4), (0, 1, 3, 4), (0, 2, 4))


def generators(name):
    """The taps of each output of the mother code of a field, as steps back."""
    return THIRD if name in UNCODED else QUARTER


@functools.cache
def outputs(name, state, bit):
    """The outputs of the mother code in a state of the last four bits, the newest one highest."""
    back = [bit] + bits_of(f"{state:04b}")
    return [sum(back[tap] for tap in taps) % 2 for taps in generators(name)]


def next_state(state, bit):
    return state // 2 + 8 * bit


def patterned(period, pattern, i):
    return period * (i // len(pattern)) + pattern[i % len(pattern)] - 1


A = (1, 2, 4)
Q = (1, 2, 3, 4, 5, 7, 8, 10, 11)
R = (1, 2, 3, 4, 5, 7, 8, 10, 11, 13, 14, 16, 17, 19, 20, 22, 23)


def sent_places(name):
    """The places of the mother word that are sent, counted from 0."""
    if name == "d48":
        return [patterned(8, (1, 2, 5), j + j // 65) for j in range(432)]
    if name == "d24":
        return [patterned(8, (1, 2, 3, 5, 6, 7), j + j // 35) for j in range(432)]
    if name == "whole":
        return [patterned(6, A, j) for j in range(168)] + [336 + patterned(12, Q, j) for j in range(162)]
    if name == "single":
        return [patterned(6, A, j) for j in range(84)] + [168 + patterned(24, R, j) for j in range(81)]
    return [patterned(8, (1, 2, 5), j) for j in range(FIELDS[name].steps * 3 // 2)]


@functools.cache
def steps(name):
    """For each step of the trellis of a field, the (sent bit, output) pairs that belong to it."""
    rows = [[] for _ in range(FIELDS[name].steps)]
    count = len(generators(name))
    for sent, place in enumerate(sent_places(name)):
        rows[place // count].append((sent, place % count))
    return rows


def word(name, message):
    """The sent bits of a message of free bits, which four bits 0 follow."""
    sent, state = [], 0
    for bit, row in zip([*message, 0, 0, 0, 0], steps(name)):
        out = outputs(name, state, bit)
        sent += [out[output] for _, output in row]
        state = next_state(state, bit)
    return sent


ACCESS_ROWS = (
    0x643C, 0x321E, 0x96A1, 0x4B51, 0x25A9, 0x12D5, 0x096B, 0x8B1A, 0xCA23, 0xEABE, 0xFAF1, 0x7D79, 0x3EBD, 0x1F5F,
)  # fmt: skip


def access_word(message):
    """The 30 bits of the access code for 14 message bits."""
    check = 0
    for bit, row in zip(message, ACCESS_ROWS):
        check ^= row * bit
    return [*message, *bits_of(f"{check:016b}")]


def remainder(polynomial, generator):
    """The rest of a polynomial, both as numbers whose bit i is the coefficient of X^i."""
    width = generator.bit_length()
    while polynomial.bit_length() >= width:
        polynomial ^= generator << (polynomial.bit_length() - width)
    return polynomial


def number_of(bits):
    return int("".join(map(str, bits)) or "0", 2)


def parity16(block):
    flipped = number_of(block) << 16 ^ 0xFFFF << len(block)
    return bits_of(f"{remainder(flipped, 0x11021) ^ 0xFFFF:016b}")


def parity8(second_class):
    rest = bits_of(f"{remainder(number_of(second_class) << 7, 0b10001001):07b}")
    return [*rest, sum([*second_class, *rest]) % 2]


def parity4(second_class):
    return bits_of(f"{remainder(number_of(second_class) << 4, 0b10011):04b}")


def numbers(text):
    return [int(number) - 1 for number in text.split()]


# the bits of a speech frame in each class, in the order of the class
CLASSES = (
    numbers(
        "35 36 37 38 39 40 41 42 43 47 48 56 61 62 63 64 65 66 67 68 69 70 74 75 83 88 89 90 91 92 93 94 95 96 97 101 102 110"
        " 115 116 117 118 119 120 121 122 123 124 128 129 137"
    ),
    numbers(
        "58 85 112 54 81 108 135 50 77 104 131 45 72 99 126 55 82 109 136 5 13 34 8 16 17 22 23 24 25 26 6 14 7 15 60 87 114"
        " 46 73 100 127 44 71 98 125 33 49 76 103 130 59 86 113 57 84 111"
    ),
    numbers("18 19 20 21 31 32 53 80 107 134 1 2 3 4 9 10 11 12 27 28 29 30 52 79 106 133 51 78 105 132"),
)
FRAME = 137


def class_bits(number, frames):
    """The bits of one class of one or two frames, alternating between the frames."""
    return [frame[place] for place in CLASSES[number] for frame in frames]


def frames_of(name, bits):
    return [bits[at : at + FRAME] for at in range(0, FIELDS[name].block, FRAME)]


def uncoded(name, bits):
    """The bits of a field that are sent as they are; none where all go through the trellis."""
    return class_bits(0, frames_of(name, bits)) if name in UNCODED else []


def trellis_message(name, bits):
    """The free bits of a field in coding order."""
    if name not in UNCODED:
        return bits
    frames = frames_of(name, bits)
    return class_bits(1, frames) + class_bits(2, frames) + bits[FIELDS[name].block :]


def parity_of(name, block):
    """The parity bits that belong to a block; none where the channel has none."""
    if name == "whole":
        return parity8(class_bits(2, frames_of(name, block)))
    if name == "single":
        return parity4(class_bits(2, frames_of(name, block)))
    return parity16(block) if FIELDS[name].parity else []


def mark_of(name, bits):
    """The mark of a field that is there: by parity alone."""
    field = FIELDS[name]
    if field.parity == 0:
        return ord("U")
    return ord("G" if parity_of(name, bits[: field.block]) == bits[field.block :] else "B")


class Receiver:
    """Cuts slots into fields: for each its values in type-3 order, None where not all slots of its block are there yet."""

    def __init__(self, settings):
        self.settings = settings
        self.keys = {"sync": key(0, 0, 0)}
        self.own_key = key(settings.mcc, settings.mnc, settings.cc)
        self.heard = {timeslot: [] for timeslot in (1, 2, 3, 4)}

    def letter(self, slot, soft):
        """The letter of a slot, by the kind of its burst."""
        allowed = self.settings.letters(slot)
        letters = [letter for letter in allowed if LETTERS[letter][1] is not None]
        kinds = {CARRIED[letter][0]: letter for letter in letters}
        return letters[0] if len(kinds) == 1 else kinds[kind(soft, self.settings.dir, kinds)]

    def front(self, slot, soft, second_is_good):
        """Letter and (name, values) of a slot. `second_is_good` answers, from its values, whether a second half is Good."""
        letter = self.letter(slot, soft)
        fields, at = [], 0
        for name in self.settings.names(slot, letter, 1):
            spots = places(self.settings.dir, letter, at, name)
            values = turned(soft, spots, self.keys.get(name, self.own_key))
            if name in ("d72", "d48", "d24"):
                values = self.data(slot, letter, name, self.without_stolen(letter, spots, values, fields, second_is_good))
            fields.append((name, values))
            at += name != "aach"
        return letter, fields

    def without_stolen(self, letter, spots, values, fields, second_is_good):
        """In letter P the first half counts 0, and the second where it is Good by itself."""
        if letter != "P":
            return values
        whole = second_is_good(fields[-1][1])
        return [0 if whole or bit < 216 else value for (_, bit), value in zip(spots, values)]

    def data(self, slot, letter, name, values):
        """The values of the block that is whole with this slot."""
        timeslot = self.settings.clock(slot)[0]
        _, count = self.settings.mode_and_span(timeslot)
        heard = self.heard[timeslot]
        heard.append(values)
        del heard[:-count]
        if name == "d72" or count == 1:
            return values
        if len(heard) < count:
            return None
        return [heard[q % count][q % count * (432 // count) + q // count] for q in range(432)]

#!/usr/bin/env python3
"""A second opinion on frames and carriers: the commands of accbox, written anew from the rules.

Usage: frames_model.py [SCRIPT]

Reads a script (standard input if none is named) and writes the answer to each of its commands.
A line that is not understood ends the run: "line N: why" on standard error, status 1. Only the
line's number is meant to agree with accbox there; the words are this program's own.

The rules
---------
A place is a byte's index, a character sixteen bytes and a mark, a group eight characters, and a
frame one to five groups. Mark 1 is data and 2 control; 0 and 3 are sync errors.

A packet has 128, 256, 384, 512 or 640 bytes; places 0, 1 and the last fourteen are reserved and
zero. Its frame under an ID has 0xFB at place 0, the ID at place 1, the checks of the eight units
in the fourteenth to the seventh place from the end, 0xFD in the last six places, and the packet's
bytes elsewhere. The first and the last character are control, all others data.

A reply is one group of control characters: eight bytes 0x5C; 0xA5, the kind (0x00 for ACK, 0x80
for NAK), the ID, three zeros and the link check, low byte first; eight bytes 0xFD; zeros.

A carrier has room for eight frames and gives the oldest one first. Before it stands a plan of up
to 64 harms, and each frame that is accepted uses up the oldest of them: pass it, drop it, or flip
one of its bytes by a mask that is not zero. A flip within a frame that is broken already drops it;
a flip outside the frame, and an empty plan, pass it as it is. A frame that finds no room is refused
and uses up nothing.
"""

import sys

SIZES = (128, 256, 384, 512, 640)
DATA, CONTROL = 1, 2
START, END, LEAD, TAG = 0xFB, 0xFD, 0x5C, 0xA5
KINDS = {0x00: "ACK", 0x80: "NAK"}
UNTOUCHED = 0xEE
ROOM_FOR_FRAMES = 8
ROOM_FOR_HARMS = 64
LARGEST_BUFFER = 1048576
LARGEST_NUMBER = 2**64 - 1


class Refused(Exception):
    """A refusal, with its number, layer and place."""

    def __init__(self, number, layer, place):
        super().__init__(f"refused {number} {layer} {place}")


class NotUnderstood(Exception):
    """What is wrong with a line."""


# Checks


def cyclic(bits, width, polynomial):
    """The remainder that a shift register of this width holds after the bits, from zero."""
    state = 0
    for bit in bits:
        top = state >> (width - 1)
        state = (state << 1) & ((1 << width) - 1)
        if top != bit:
            state ^= polynomial
    return state


def bits_of(data):
    """The bits of the bytes, highest first."""
    return [byte >> k & 1 for byte in data for k in range(7, -1, -1)]


def unit_check(data, unit):
    """The check of one unit: its sixteen bytes of every group, with what the seal writes as zero."""
    blank = [0] + list(data[1:-14]) + [0] * 14
    rows = [blank[at : at + 16] for at in range(16 * unit, len(data), 128)]
    return cyclic(bits_of(sum(rows, [])), 8, 0xA1)


def link_check(word):
    """The two bytes of a reply's check, low byte first."""
    check = cyclic(bits_of(word), 16, 0x8005)
    return [check & 0xFF, check >> 8]


# Packets and frames


def reserved_places(size):
    return [0, 1] + list(range(size - 14, size))


def packet(data):
    """The packet of these bytes."""
    if len(data) not in SIZES:
        raise Refused(1, "end", 0)
    for place in reserved_places(len(data)):
        if data[place] != 0:
            raise Refused(2, "end", place)
    return data


def filled_packet(size, fill):
    """The packet with one value at every place that is not reserved."""
    if size not in SIZES:
        raise Refused(1, "end", 0)
    return cleared([fill] * size)


def cleared(data):
    """The bytes with the reserved places zero."""
    out = list(data)
    for place in reserved_places(len(data)):
        out[place] = 0
    return out


class Frame:
    """Any bytes and marks of one to five groups, good or broken."""

    def __init__(self, data, marks):
        self.data = list(data)
        self.marks = list(marks)

    @staticmethod
    def of_packet(data, ident):
        data = list(data)
        data[1] = ident
        checks = [unit_check(data, unit) for unit in range(8)]
        characters = len(data) // 16
        marks = [CONTROL] + [DATA] * (characters - 2) + [CONTROL]
        return Frame([START] + data[1:-14] + checks + [END] * 6, marks)

    @staticmethod
    def of_reply(kind, ident):
        word = [TAG, kind, ident, 0, 0, 0]
        data = [LEAD] * 8 + word + link_check(word) + [END] * 8
        return Frame(data + [0] * (128 - len(data)), [CONTROL] * 8)

    def is_link(self):
        return self.marks[0] == CONTROL and self.data[0] == LEAD

    def read(self):
        """("packet", ID, size), or ("ACK" or "NAK", ID, None); or a refusal."""
        for character, mark in enumerate(self.marks):
            if mark not in (DATA, CONTROL):
                raise Refused(7, "frame", character)
        return self.read_link() if self.is_link() else self.read_protocol()

    def read_protocol(self):
        size = len(self.data)
        ends = (0, len(self.marks) - 1)
        self.expect_marks([CONTROL if c in ends else DATA for c in range(len(self.marks))])
        fixed = {0: [START]}
        fixed.update({place: [END] for place in range(size - 6, size)})
        self.expect_bytes(fixed)
        for unit in range(8):
            place = size - 14 + unit
            if self.data[place] != unit_check(self.data, unit):
                raise Refused(9, "check", place)
        return "packet", self.data[1], size

    def read_link(self):
        if len(self.data) > 128:
            raise Refused(8, "frame", 128)
        self.expect_marks([CONTROL] * 8)
        fixed = {place: [0] for place in range(128)}
        fixed.update({place: [LEAD] for place in range(8)})
        fixed.update({place: [END] for place in range(16, 24)})
        fixed[8] = [TAG]
        fixed[9] = list(KINDS)
        for free in (10, 14, 15):
            del fixed[free]
        self.expect_bytes(fixed)
        if self.data[14:16] != link_check(self.data[8:14]):
            raise Refused(9, "check", 14)
        return KINDS[self.data[9]], self.data[10], None

    def expect_marks(self, marks):
        for character, (found, wanted) in enumerate(zip(self.marks, marks)):
            if found != wanted:
                raise Refused(8, "frame", 16 * character)

    def expect_bytes(self, fixed):
        for place in sorted(fixed):
            if self.data[place] not in fixed[place]:
                raise Refused(8, "frame", place)

    def unpack(self, buffer):
        """Copies a good packet into the buffer; gives its size, or None at a good reply."""
        _, _, size = self.read()
        if size is None:
            return None
        if len(buffer) < size:
            raise Refused(11, "host", size)
        buffer[:size] = cleared(self.data)
        return size


# Carriers


def is_broken(frame):
    try:
        frame.read()
    except Refused:
        return True
    return False


class Carrier:
    """Frames on their way, and the plan that harms them as they are put.

    A harm is a function from a frame to the list of what is left of it: one frame or none.
    """

    def __init__(self):
        self.frames = []
        self.harms = []

    def plan(self, harm):
        if len(self.harms) == ROOM_FOR_HARMS:
            raise Refused(19, "setting", 0)
        self.harms.append(harm)
        return len(self.harms)

    def put(self, frame):
        if len(self.frames) == ROOM_FOR_FRAMES:
            raise Refused(5, "carrier", 0)
        harm = self.harms.pop(0) if self.harms else passing
        self.frames += harm(Frame(frame.data, frame.marks))

    def take(self):
        if not self.frames:
            raise Refused(6, "carrier", 0)
        return self.frames.pop(0)


def passing(frame):
    return [frame]


def dropping(frame):
    return []


def flipping(place, mask):
    """The harm that flips one byte by this mask."""
    if mask == 0:
        raise Refused(18, "setting", 0)

    def harm(frame):
        if place >= len(frame.data):
            return [frame]
        if is_broken(frame):
            return []
        data = list(frame.data)
        data[place] ^= mask
        return [Frame(data, frame.marks)]

    return harm


# Words


def number(word, most=LARGEST_NUMBER):
    digits = word.lstrip("0") or "0"
    if all(letter in "0123456789" for letter in word) and len(digits) <= 20 and int(digits) <= most:
        return int(digits)
    raise NotUnderstood(f"{word!r} is no number from 0 to {most}")


def hex_bytes(word):
    if len(word) % 2 == 0 and all(letter in "0123456789abcdefABCDEF" for letter in word):
        return list(bytes.fromhex(word))
    raise NotUnderstood(f"{word!r} is not pairs of hex digits")


def hex_byte(word):
    if len(word) != 2:
        raise NotUnderstood(f"{word!r} is not two hex digits")
    return hex_bytes(word)[0]


def mark_digits(word):
    if all(letter in "0123" for letter in word):
        return [int(letter) for letter in word]
    raise NotUnderstood(f"{word!r} is not digits from 0 to 3")


def one_mark(word):
    if len(word) != 1:
        raise NotUnderstood(f"{word!r} is no mark")
    return mark_digits(word)[0]


def hex_text(data):
    return bytes(data).hex()


# Commands


class Box:
    """The frame that a script works on, and the carrier that it plays with."""

    def __init__(self):
        self.frame = None
        self.carrier = None

    def current(self):
        if self.frame is None:
            raise NotUnderstood("there is no frame yet")
        return self.frame

    def made_carrier(self):
        if self.carrier is None:
            raise NotUnderstood("there is no carrier yet")
        return self.carrier

    def seal(self, ident, second, third):
        ident = number(ident, 255)
        if second == "hex":
            data = packet(hex_bytes(third))
        else:
            data = filled_packet(number(second), hex_byte(third))
        self.frame = Frame.of_packet(data, ident)
        return [f"sealed, ID {ident}, {len(data)} bytes"]

    def reply(self, kind, ident):
        if kind not in ("ack", "nak"):
            raise NotUnderstood(f"{kind!r} is no reply")
        ident = number(ident, 255)
        self.frame = Frame.of_reply(0x00 if kind == "ack" else 0x80, ident)
        return [f"reply {kind.upper()}, ID {ident}"]

    def raw(self, digits, marks):
        data, marks = hex_bytes(digits), mark_digits(marks)
        if len(data) not in SIZES:
            raise NotUnderstood(f"{len(data)} bytes are not 1 to 5 groups")
        if 16 * len(marks) != len(data):
            raise NotUnderstood(f"{len(marks)} marks for {len(data)} bytes")
        self.frame = Frame(data, marks)
        groups = len(data) // 128
        return [f"frame of {groups} group{'' if groups == 1 else 's'}"]

    def flip(self, place, mask):
        place, mask = number(place), hex_byte(mask)
        frame = self.current()
        if place >= len(frame.data):
            return ["outside the frame"]
        frame.data[place] ^= mask
        return [f"flipped place {place} by 0x{mask:02x}"]

    def mark(self, character, mark):
        character, mark = number(character), one_mark(mark)
        frame = self.current()
        if character >= len(frame.marks):
            return ["outside the frame"]
        frame.marks[character] = mark
        return [f"character {character} has mark {mark}"]

    def read(self):
        what, ident, size = self.current().read()
        if size is None:
            return [f"good {what}, ID {ident}"]
        return [f"good packet, ID {ident}, {size} bytes"]

    def unpack(self, size):
        buffer = [UNTOUCHED] * number(size, LARGEST_BUFFER)
        size = self.current().unpack(buffer)
        if size is None:
            return ["not a packet"]
        return [f"packet of {size} bytes", hex_text(buffer)]

    def show(self):
        frame = self.current()
        return [
            f"{c} {mark} {hex_text(frame.data[16 * c : 16 * c + 16])}"
            for c, mark in enumerate(frame.marks)
        ]

    def new_carrier(self, kind):
        if kind != "straight":
            raise NotUnderstood(f"{kind!r} is no carrier")
        self.carrier = Carrier()
        return [f"carrier {kind}"]

    def plan_harm(self, harm):
        return [f"plan holds {self.made_carrier().plan(harm)}"]

    def plan_word(self, word):
        if word not in ("pass", "drop"):
            raise NotUnderstood(f"{word!r} is no harm")
        return self.plan_harm(passing if word == "pass" else dropping)

    def plan_flip(self, word, place, mask):
        if word != "flip":
            raise NotUnderstood(f"{word!r} takes no place and no mask")
        place, mask = number(place), hex_byte(mask)
        self.made_carrier()
        return self.plan_harm(flipping(place, mask))

    def put(self):
        frame = self.current()
        self.made_carrier().put(frame)
        return ["put"]

    def take(self):
        self.frame = self.made_carrier().take()
        return ["taken"]

    def run(self, words):
        """The lines that answer one command."""
        commands = {
            "seal": {3: self.seal},
            "reply": {2: self.reply},
            "raw": {2: self.raw},
            "flip": {2: self.flip},
            "mark": {2: self.mark},
            "read": {0: self.read},
            "unpack": {1: self.unpack},
            "show": {0: self.show},
            "carrier": {1: self.new_carrier},
            "plan": {1: self.plan_word, 3: self.plan_flip},
            "put": {0: self.put},
            "take": {0: self.take},
        }
        if words[0] not in commands:
            raise NotUnderstood(f"{words[0]!r} is no command")
        by_count = commands[words[0]]
        if len(words) - 1 not in by_count:
            raise NotUnderstood(f"{words[0]} does not take {len(words) - 1} words")
        command = by_count[len(words) - 1]
        try:
            return command(*words[1:])
        except Refused as refusal:
            return [str(refusal)]


def words_of(line):
    line = line.removesuffix("\r").split("#")[0]
    return [word for word in line.replace("\t", " ").split(" ") if word]


def main():
    if len(sys.argv) > 2:
        sys.exit("frames_model.py takes one script at most")
    stream = open(sys.argv[1], "rb") if len(sys.argv) == 2 else sys.stdin.buffer
    with stream:
        text = stream.read().decode("utf-8")
    box = Box()
    for index, line in enumerate(text.split("\n"), 1):
        words = words_of(line)
        if not words:
            continue
        try:
            print("\n".join(box.run(words)))
        except NotUnderstood as why:
            sys.stdout.flush()
            sys.exit(f"line {index}: {why}")


main()

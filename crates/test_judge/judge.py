#!/usr/bin/env python3
"""Makes src/rows.rt: frames, and what a judge says of each and of all frames that differ from it in one byte, or are cut short.

It is a second judge, written from the words of docs/FORMATS.md and of `judge_frame`, and shares nothing with the first.
"""
import os

PRIMITIVES = set(range(20)) | set(range(40, 47)) | {48, 49}


class Bad(Exception):
    """The offset of the first item that is not lawful."""


class Reader:
    def __init__(self, row, data):
        self.row, self.data, self.at = row, data, 0
        self.kinds = [kind == "o" for kind in row["imports"]]
        self.known = len(self.kinds)

    def byte(self):
        if self.at >= len(self.data):
            raise Bad(self.at)
        self.at += 1
        return self.data[self.at - 1]

    def digits(self):
        """The bytes of a number: each but the last has its highest bit set."""
        start = self.at
        while True:
            if self.at >= len(self.data):
                raise Bad(start)
            self.at += 1
            if self.data[self.at - 1] < 128:
                return start, self.data[start:self.at]

    def number(self):
        """Its offset, and a number below 2 ** 64 in its shortest spelling."""
        start, digits = self.digits()
        value = sum((digit & 127) << (7 * place) for place, digit in enumerate(digits))
        if value >= 2**64 or (len(digits) > 1 and digits[-1] == 0):
            raise Bad(start)
        return start, value

    def integer(self):
        """An integer of 128 bits in its shortest spelling."""
        start, digits = self.digits()
        value = sum((digit & 127) << (7 * place) for place, digit in enumerate(digits))
        if digits[-1] & 64:
            value -= 1 << (7 * len(digits))
        if not -2**127 <= value < 2**127:
            raise Bad(start)
        if len(digits) > 1 and -(1 << (7 * len(digits) - 8)) <= value < 1 << (7 * len(digits) - 8):
            raise Bad(start)

    def swiss(self):
        if len(self.data) - self.at < 16:
            raise Bad(self.at)
        self.at += 16

    def text(self, room):
        """A text in a list that may weigh so much more, or in none."""
        start, count = self.number()
        raw = self.data[self.at:self.at + count]
        if len(raw) < count or (room is not None and count > room):
            raise Bad(start)
        try:
            raw.decode("utf-8")
        except UnicodeDecodeError:
            raise Bad(start)
        self.at += count
        return count

    def vat(self, may_be_mine):
        start = self.at
        vat = self.byte()
        if vat >= self.row["vats"] or vat == self.row["peer"] or (vat == self.row["me"] and not may_be_mine):
            raise Bad(start)

    def below(self, count):
        start, value = self.number()
        if value >= count:
            raise Bad(start)

    def question(self):
        start, value = self.number()
        if value != self.row["answers"]:
            raise Bad(start)

    def position(self, is_object):
        start, value = self.number()
        if value == len(self.kinds):
            self.kinds.append(is_object)
        elif value > len(self.kinds) or self.kinds[value] != is_object:
            raise Bad(start)

    def name(self, code):
        if code == 0x09:
            self.below(self.row["exports"])
        elif code == 0x0a:
            self.below(self.row["answers"])
        elif code == 0x0e:
            self.below(self.row["questions"])
        else:
            self.position(code == 0x0b)

    def of(self, codes):
        start = self.at
        code = self.byte()
        if code not in codes:
            raise Bad(start)
        self.name(code)

    def target(self):
        self.of((0x09, 0x0a))

    def subject(self):
        self.of((0x0c, 0x0e))

    def described(self, room, height, refused=()):
        """A description in lists that may weigh `room` more and be `height` higher, and what they may weigh more behind it."""
        start = self.at
        code = self.byte()
        if code > 0x0e or code in refused:
            raise Bad(start)
        if code == 6 and room is None:
            room = 65536
        if room is not None:
            if room == 0 or (code == 6 and height == 0):
                raise Bad(start)
            room -= 1
        if code == 3:
            self.integer()
        elif code == 4:
            start, value = self.number()
            if value > 0x10ffff or 0xd800 <= value <= 0xdfff:
                raise Bad(start)
        elif code in (5, 8):
            weight = self.text(room)
            if room is not None:
                room -= weight
        elif code == 6:
            for _ in range(self.number()[1]):
                room = self.described(room, height - 1)
        elif code == 7:
            start = self.at
            if self.byte() not in PRIMITIVES:
                raise Bad(start)
        elif code == 0x0d:
            self.vat(False)
            self.swiss()
        elif code >= 0x09:
            self.name(code)
        return room

    def message(self):
        self.target()
        self.text(None)
        start, count = self.number()
        if count > 255:
            raise Bad(start)
        for _ in range(count):
            self.described(None, 100)

    def operation(self):
        code = self.byte()
        if code == 1:
            self.question()
            self.message()
        elif code == 2:
            self.subject()
            if self.data[self.at:self.at + 1] == b"\x0f":
                self.at += 1
                self.vat(True)
            else:
                self.described(None, 100, (0x09, 0x0a, 0x0c, 0x0d, 0x0e))
        elif code in (3, 5):
            self.target()
            self.swiss()
        elif code == 4:
            self.question()
            self.vat(False)
            self.swiss()
        elif code == 6:
            self.message()
        else:
            raise Bad(0)
        if self.at < len(self.data):
            raise Bad(self.at)


def new_positions(row, data):
    """The kinds of the new positions of a lawful frame."""
    reader = Reader(row, data)
    reader.operation()
    return "".join("o" if kind else "p" for kind in reader.kinds[reader.known:])


def verdict(row, data):
    """The place of the fault, or 255 where there is none."""
    try:
        Reader(row, data).operation()
        return 255
    except Bad as bad:
        return bad.args[0]


def turned(data, place, by):
    return data[:place] + bytes([(data[place] + by) % 256]) + data[place + 1:]


def flipped(data, place, bit):
    return data[:place] + bytes([data[place] ^ (1 << bit)]) + data[place + 1:]


SWISS = "76b8e0ada0f13d90405d6ae55386bd28"
ALL = "06" + "11" + "00" + "01" + "02" + "03c000" + "03bf7f" + "04acc102" + "050361c3a9" + "0711" + "0728" + "08056379636c65" + "0901" + "0a00" + "0e8001" + "0b01" + "0c02" + "0b03" + "0602" + "0c00" + "0b04"
# number of vats, of the receiver and of the sender; counts of exports, answers and questions; kinds of imports; frame
ROWS = [
    (3, 1, 0, 1, 0, 0, "", "01000900046d656574010d02" + SWISS),
    (3, 2, 0, 1, 0, 0, "", "030900" + SWISS),
    (3, 2, 1, 0, 0, 0, "", "040000" + SWISS),
    (3, 2, 1, 0, 1, 0, "", "01010a000568656c6c6f010503626f62"),
    (3, 1, 2, 0, 0, 2, "", "020e000b00"),
    (3, 1, 2, 0, 0, 2, "o", "020e01050a68656c6c6f2c20626f62"),
    (3, 0, 1, 0, 0, 1, "p", "020c000b01"),
    (3, 0, 1, 0, 0, 1, "po", "020e00050a68656c6c6f2c20626f62"),
    (2, 1, 0, 1, 0, 0, "", "060900046e6f7465010505626567756e"),
    (2, 0, 1, 1, 0, 0, "", "0100090003707574010305"),
    (3, 0, 1, 1, 0, 1, "po", "020e000f02"),
    (3, 0, 1, 1, 0, 1, "po", "020e000f00"),
    (3, 2, 0, 1, 1, 0, "", "050a00" + SWISS),
    (4, 1, 3, 2, 1, 130, "po", "01010900" + "00" + "04" + ALL + "0c02" + "0b03" + "0d00" + SWISS),
    (4, 1, 3, 2, 1, 130, "po", "020c02" + ALL),
    (16, 1, 0, 200, 200, 200, "op", "01c80109c701" + "026f6b" + "00"),
]
COUNT = {"vats": 0, "me": 1, "peer": 2, "exports": 3, "answers": 4, "questions": 5, "imports": 6}
HEAD = '''//! Frames, and what a judge says of them. Made by `judge.py` of this crate.

/// A frame, and the connection on which it comes.
pub struct Row {
    /// How many vats there are.
    pub vats: u8,
    /// The vat that judges.
    pub me: u8,
    /// The vat that sent the frame.
    pub peer: u8,
    pub exports: u64,
    pub answers: u64,
    pub questions: u64,
    /// By position, `o` for an object and `p` for a promise.
    pub imports: &'static str,
    /// The bytes of the frame, in hex.
    pub frame: &'static str,
    /// The kinds of its new positions, as `imports` tells them.
    pub new: &'static str,
    /// The place of the fault in the frame cut to each length below its own, in hex, `ff` where there is none.
    pub cuts: &'static str,
    /// The same where one byte is one more: for each byte.
    pub more: &'static str,
    /// The same where it is one less.
    pub less: &'static str,
    /// The sum of the places where one bit is turned, over each bit of each byte.
    pub sum: u64,
}

'''


def main():
    out = [HEAD, f"pub const ROWS: [Row; {len(ROWS)}] = [\n"]
    count = 0
    for given in ROWS:
        row = {name: given[place] for name, place in COUNT.items()}
        data = bytes.fromhex(given[7])
        assert verdict(row, data) == 255, (given, verdict(row, data))
        places = range(len(data))
        cuts = [verdict(row, data[:place]) for place in places]
        more = [verdict(row, turned(data, place, 1)) for place in places]
        less = [verdict(row, turned(data, place, 255)) for place in places]
        total = sum(verdict(row, flipped(data, place, bit)) for place in places for bit in range(8))
        count += 1 + len(data) * 11
        out.append("    Row {\n")
        for name in ("vats", "me", "peer", "exports", "answers", "questions"):
            out.append(f"        {name}: {row[name]},\n")
        texts = {"imports": row["imports"], "frame": given[7], "new": new_positions(row, data)}
        texts |= {name: bytes(of).hex() for name, of in (("cuts", cuts), ("more", more), ("less", less))}
        for name, text in texts.items():
            parts = [text[place:place + 120] for place in range(0, len(text), 120)] or [""]
            out.append(f'        {name}: "' + "\\\n            ".join(parts) + '",\n')
        out.append(f"        sum: {total},\n    }},\n")
    out.append("];\n")
    place = os.path.join(os.path.dirname(os.path.abspath(__file__)), "src", "rows.rt")
    with open(place, "w") as file:
        file.write("".join(out))
    print(count, "verdicts")


if __name__ == "__main__":
    main()
